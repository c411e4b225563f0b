"""Tries how functions are named, and where they are found: in sources that are made for it."""

import pathlib
import tempfile

from translator.names import Names
from translator.wasm import Module, Refusal

from .assembling import module, several, unsigned

FILES = {
    "low/src/lib.rt": "mod queue;\npub fn wide(b: u8)\n",
    "low/src/queue.rt": "pub struct Queue;\n\nimpl Model for Queue {\n    fn take(&self)\n}\n\nimpl<K: Picker> Queue<K> {\n"
    "    pub fn take(&self)\n}\n",
    "low/src/queue/stepping.rt": "impl<K> Queue<K> {\n    pub(crate) fn serve(&self)\n}\n\npub(super) fn serve(b: u8)\n",
    "low/src/picker.rt": "impl Picker for Oldest {\n    fn pick(&self)\n}\n\nimpl Picker for Sweep {\n    fn pick(&self)\n}\n",
    "mscp_c/src/seeing.rt": 'fn other()\npub extern "C" fn mscp_take(handle: u8) -> u8\n',
}
# The name in the module, that in C, and the comment.
NAMED = (
    ("low::queue::Queue::take::<#12>", "Queue_take", "low::queue::Queue::take, crates/low/src/queue.rt:8"),
    ("low::queue::Queue::serve", "Queue_serve", "low::queue::Queue::serve, crates/low/src/queue/stepping.rt:2"),
    ("low::queue::stepping::serve", "stepping_serve", "low::queue::stepping::serve, crates/low/src/queue/stepping.rt:5"),
    ("low::picker::SweepPicker::pick", "SweepPicker_pick", "low::picker::SweepPicker::pick, crates/low/src/picker.rt:6"),
    ("low::wide", "low_wide", "low::wide, crates/low/src/lib.rt:2"),
    ("low::queue::Queue::take::<#13>", "Queue_take_2", "low::queue::Queue::take, crates/low/src/queue.rt:8"),
    ("rattle::export mscp_take", "export_mscp_take", "mscp_c::mscp_take, crates/mscp_c/src/seeing.rt:2"),
    ("list::vec::Vec+T::new::<#1>", "Vec_new", "list::vec::Vec::new, of the kit"),
    ("__multi3", "multi3", "__multi3, of the kit"),
)


def names_section(names):
    inside = several([unsigned(place) + several([bytes([it]) for it in name.encode()]) for place, name in enumerate(names)])
    whole = several([bytes([it]) for it in b"name"]) + b"\1" + unsigned(len(inside)) + inside
    return b"\0" + unsigned(len(whole)) + whole


def are_named(folder):
    functions = [(f"mscp_{place}", "", "", "", "nop") for place in range(len(NAMED))]
    told = Module(module(functions, 0x100000) + names_section([it[0] for it in NAMED])).names
    names = Names(told, folder)
    return [(names.name(place), names.comment(place)) for place in range(len(NAMED))] == \
        [(in_c, [f"/* {comment} */"]) for _, in_c, comment in NAMED]


def is_refused(folder):
    try:
        Names({0: "low::queue::Queue::none"}, folder).comment(0)
    except Refusal as it:
        return "no source has low::queue::Queue::none" in str(it)
    return False


def lines():
    with tempfile.TemporaryDirectory() as name:
        folder = pathlib.Path(name)
        for path, text in FILES.items():
            (folder / path).parent.mkdir(parents=True, exist_ok=True)
            (folder / path).write_text(text, encoding="utf-8")
        yield f"functions are named as their sources: {'passed' if are_named(folder) else 'FAILED'}"
        yield f"a function that no source has is refused: {'passed' if is_refused(folder) else 'FAILED'}"
