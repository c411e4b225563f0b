#!/usr/bin/env python3
"""A host brings a unit online and sends a READ of three blocks, which it polls until it has ended, by ctypes:

    python3 poll.py
    python3 poll.py STATE     (the same in two processes)

With a file STATE both ends, the controller and the host, are saved to it after the first block; run again, this goes on
from there. The structs are those of mscp.h, and so are the numbers of statuses and opcodes. The library is the one that
MSCP_LIBRARY names; or the one of the folder that this was installed in; or the one that the system knows.
"""
from ctypes import CDLL, Structure, byref, c_char_p, c_int64, c_size_t, c_uint8, c_uint16, c_uint32, c_uint64, sizeof
from ctypes.util import find_library
from os import environ
from os.path import exists
from pathlib import Path
from struct import calcsize, pack, unpack
from sys import argv, exit

FIRST, SWEEP, ONLINE, READ = 0, 1, 9, 33
DONE, QUEUED, ANSWERED, ENDED, FIGURE, PROGRESS = 1, 2, 3, 5, 6, 7


def installed():
    """The library's file or name."""
    beside = (folder / "lib/libmscp.so" for folder in Path(__file__).resolve().parents)
    found = environ.get("MSCP_LIBRARY") or next((str(file) for file in beside if file.exists()), find_library("mscp"))
    return found or exit("there is no libmscp.so: install it, or let MSCP_LIBRARY name it")


library = CDLL(installed())
library.mscp_status_text.argtypes, library.mscp_status_text.restype = [c_int64], c_char_p


def record(*fields):
    """A struct of these fields: the names of each type are one text."""
    named = [(name, kind) for kind, names in fields for name in names.split()]
    return type("Record", (Structure,), {"_fields_": named})


Unit = record((c_uint64, "id"), (c_uint32, "size media serial"), (c_uint16, "number track group cylinder"))
Limits = record((c_uint64, "id budget"), (c_uint32, "credits second longest"), (c_uint16, "timeout"))
Command = record((c_uint32, "reference other bytes lbn buffer"), (c_uint16, "unit modifiers version flags timeout"),
                 (c_uint8, "opcode"))
Sent = record((c_uint32, "reference aborted"), (c_uint8, "has_aborted"))
Packet = record((c_uint32, "length"), (c_uint8 * 48, "bytes"))
Report = record((c_uint32, "reference lbn seek"), (c_uint16, "unit status"),
                (c_uint8, "touched started ended connection"))
News = record((c_uint32, "figure reference moved"), (c_uint16, "unit status"), (c_uint8, "code"))


def call(name, *words, wanted=(DONE,)):
    """A call that answers one of these statuses, or else the program ends."""
    status = library[name](*words)
    if status not in wanted:
        exit(f"{name}: {library.mscp_status_text(status).decode()}")
    return status


def memory(make, size):
    """Memory with a handle at its head, of 32 bytes: it serves each call."""
    room = (c_uint64 * (4 + size() // 8))()
    make(room, c_size_t(sizeof(room)))
    return room


def bytes_of(packet):
    return bytes(packet.bytes[:packet.length])


def send(message):
    call("mscp_send", mscp, FIRST, message, c_size_t(len(message)), byref(Sent()), wanted=(QUEUED, ANSWERED))


def submit(reference, opcode, length=0, block=0):
    packet = Packet()
    call("mscp_write_command", byref(Command(reference=reference, opcode=opcode, bytes=length, lbn=block)), byref(packet))
    call("mscp_host_submit", host, packet.bytes, c_size_t(packet.length))
    send(bytes_of(packet))


def hear():
    """The host hears of the controller's oldest end."""
    end, news = Packet(), News()
    call("mscp_take", mscp, FIRST, byref(end))
    words = (host, end.bytes, c_size_t(end.length), byref(news))
    status = call("mscp_host_receive", *words, wanted=(ENDED, FIGURE, PROGRESS))
    if status == ENDED:
        print(f"ended: {news.reference}, status {news.status:04X}, {news.moved} bytes")
    else:
        print(f"at most {news.figure} steps more: {library.mscp_status_text(status).decode()}")


def poll(reference):
    message = Packet()
    call("mscp_host_poll", host, reference, byref(message))
    send(bytes_of(message))
    hear()


def step():
    """Serves a block; whether its command has ended."""
    report = Report()
    call("mscp_step", mscp, 0, byref(report))
    if report.ended:
        hear()
    return report.ended


def save(path):
    with open(path, "wb") as file:
        for name, handle in (("mscp_save", mscp), ("mscp_host_save", host)):
            room, length = (c_uint8 * library.mscp_save_size())(), c_size_t()
            call(name, handle, room, c_size_t(sizeof(room)), byref(length))
            file.write(pack("<I", length.value) + bytes(room[:length.value]))


def restore(path):
    with open(path, "rb") as file:
        for name, handle in (("mscp_restore", mscp), ("mscp_host_restore", host)):
            saved = file.read(*unpack("<I", file.read(calcsize("<I"))))
            call(name, handle, saved, c_size_t(len(saved)))


def begin():
    unit = Unit(id=1, size=64, serial=1, track=4, group=2, cylinder=1)
    limits = Limits(id=1, budget=16, credits=4, longest=8, timeout=60)
    call("mscp_init", mscp, byref(limits), byref(unit), c_size_t(1), SWEEP)
    call("mscp_host_init", host, 4)
    submit(1, ONLINE)
    step()
    submit(2, READ, length=3 * 512, block=40)
    poll(100)


mscp = memory(library.mscp_in_memory, library.mscp_size)
host = memory(library.mscp_host_in_memory, library.mscp_host_size)
state = argv[1] if len(argv) > 1 else None
if state and exists(state):
    restore(state)
    state = None
else:
    begin()
while not step():
    poll(101)
    if state:
        save(state)
        exit()
