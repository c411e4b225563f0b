/* A workload in which every call of mscp.h answers each of its statuses: controllers with hosts, ports with guests, and saved
 * bytes that were changed. Prints sums over all that the calls answered, and at the end which statuses they had: so two
 * libraries that answer alike print the same, on every machine. Ends with 1 where a call never answered a status that mscp.h
 * tells of it, or answered another one. With a number it makes only so many rounds, and ends with 0. */
#include "guesting.h"
#include "scripting.h"

/* ---- how what is made is refused */

/* Makes limits, units or a picker that are refused, by the number of the fault below -20. */
static void spoil(int fault, uint32_t *picker)
{
    switch (fault) {
    case 0: *picker = 2; break;
    case 1: units[0].track = 0; break;
    case 2: units[0].group = 0; break;
    case 3: units[0].cylinder = 0; break;
    case 4: units[0].size = 0; break;
    case 5: count = MSCP_UNITS_MAX + 1; break;
    case 6: count = 2, units[1].number = 0; break;
    case 7: count = 0; break;
    case 8: limits.second = 1; break;
    case 9: limits.longest = 0; break;
    case 10: limits.timeout = 256; break;
    case 11: limits.budget = UINT64_C(0xFFFFFFFF); break;
    }
}

/* A handle on memory that there isn't, isn't aligned, or is too small; and none. */
static struct mscp handle_of(int fault, uint64_t mark, size_t size)
{
    struct mscp it = {rooms[2], (uintptr_t)rooms[2], size, mark};
    switch (fault) {
    case 0: it.mark = 5; break;
    case 1: it.at = NULL, it.address = 0; break;
    case 2: it.at = (char *)rooms[2] + 4, it.address += 4; break;
    case 3: it.length--; break;
    }
    return it;
}

static void try_handles(int fault)
{
    struct mscp it = handle_of(fault, MSCP_ROOM, mscp_size());
    struct mscp at = handle_of(fault, MSCP_HOST_ROOM, mscp_host_size()), top = handle_of(fault, MSCP_PORT_ROOM, mscp_port_size());
    struct mscp_host a_host = {at.at, at.address, at.length, at.mark};
    struct mscp_port a_port = {top.at, top.address, top.length, top.mark};
    choose();
    tell(INIT, mscp_init(&it, &limits, units, count, MSCP_SWEEP));
    tell(RESTORE, mscp_restore(&it, bytes, 48));
    tell(HOST_INIT, mscp_host_init(&a_host, 9));
    tell(HOST_RESTORE, mscp_host_restore(&a_host, bytes, 48));
    tell(PORT_INIT, mscp_port_init(&a_port, &limits, units, count, MSCP_SWEEP, &hardware, 1));
    tell(PORT_RESTORE, mscp_port_restore(&a_port, bytes, 48));
    eat(it.mark), eat(a_host.mark), eat(a_port.mark);
}

static void refuse_all(void)
{
    for (int fault = 0; fault < 4; fault++)
        try_handles(fault);
    for (int fault = 0; fault < 14; fault++) {
        uint32_t picker = any(2), credits = 1;
        choose();
        mscp = mscp_in_memory(rooms[0], sizeof rooms[0]);
        port = mscp_port_in_memory(rooms[1], sizeof rooms[1]);
        spoil(fault, &picker);
        tell(INIT, mscp_init(mscp, &limits, units, count, picker));
        if (fault == 12)
            hardware.bus = 2;
        if (fault == 13)
            credits = limits.credits;
        tell(PORT_INIT, mscp_port_init(port, &limits, units, count, picker, &hardware, credits));
    }
    host = mscp_host_in_memory(host_room, sizeof host_room);
    tell(HOST_INIT, mscp_host_init(host, 1));
}

/* Each call where nothing was made, or something was made already. */
static void try_unmade(void)
{
    struct mscp_sent sent;
    struct mscp_packet packet;
    struct mscp_upcoming upcoming;
    struct mscp_report report;
    struct mscp_news news;
    struct mscp_action action;
    size_t length = 7;
    mscp = mscp_in_memory(rooms[0], sizeof rooms[0]);
    port = mscp_port_in_memory(rooms[1], sizeof rooms[1]);
    host = mscp_host_in_memory(host_room, sizeof host_room);
    tell(RESET, mscp_reset(mscp)), tell(SEND, mscp_send(mscp, 0, bytes, 36, &sent)), tell(TAKE, mscp_take(mscp, 0, &packet));
    tell(BEGIN, mscp_begin(mscp, &upcoming)), tell(FINISH, mscp_finish(mscp, 0, 1, 0, &report));
    tell(STEP, mscp_step(mscp, 0, &report)), tell(LOOK, mscp_look(mscp, NULL, 0)), tell(WHY, mscp_why(mscp, 0, 1, NULL, 0));
    tell(FIGURE, mscp_figure(mscp, 0, 1)), tell(WAITING, mscp_waiting(mscp, 0)), tell(UNTAKEN, mscp_untaken(mscp, 0));
    tell(BALANCE, mscp_balance(mscp, 0)), tell(IS_ONLINE, mscp_is_online(mscp, 0));
    tell(SETTINGS, mscp_settings(mscp, &limits, NULL, 0)), tell(PORT_SETTINGS, mscp_port_settings(port, &limits, NULL, 0));
    tell(SAVE, mscp_save(mscp, bytes, sizeof bytes, &length));
    tell(HOST_BALANCE, mscp_host_balance(host)), tell(HOST_SUBMIT, mscp_host_submit(host, bytes, 36));
    tell(HOST_POLL, mscp_host_poll(host, 1, &packet)), tell(HOST_RECEIVE, mscp_host_receive(host, bytes, 36, &news));
    tell(HOST_SAVE, mscp_host_save(host, bytes, sizeof bytes, &length));
    tell(READ_IP, mscp_port_read_ip(port)), tell(WRITE_IP, mscp_port_write_ip(port)), tell(READ_SA, mscp_port_read_sa(port));
    tell(WRITE_SA, mscp_port_write_sa(port, 1)), tell(NEXT, mscp_port_next(port, &action));
    tell(WAS_READ, mscp_port_was_read(port, bytes, 4)), tell(WENT, mscp_port_went(port, 0, 0));
    tell(LOOK_AGAIN, mscp_port_look_again(port)), tell(TICK, mscp_port_tick(port));
    insert(0), tell(GONE, mscp_port_volume_went(port, 0)), tell(PROTECT, mscp_port_protect(port, 0, 1));
    tell(NEXT_MESSAGE, mscp_port_next_message(port, &action)), look_into();
    tell(PORT_SAVE, mscp_port_save(port, bytes, sizeof bytes, &length));
    eat(length);
}

/* What an init and a restore answer if something is made. */
static void make_again(void)
{
    tell(INIT, mscp_init(mscp, &limits, units, count, 0)), tell(RESTORE, mscp_restore(mscp, bytes, 48));
    tell(HOST_INIT, mscp_host_init(host, 9)), tell(HOST_RESTORE, mscp_host_restore(host, bytes, 48));
    tell(PORT_INIT, mscp_port_init(port, &limits, units, count, 0, &hardware, 1));
    tell(PORT_RESTORE, mscp_port_restore(port, bytes, 48));
}

/* Each byte of what was saved is changed in some ways, and restored: what is there then, or why nothing is. */
static void spoil_saved(size_t length, int64_t (*restore)(size_t))
{
    static const uint8_t WAYS[] = {0x01, 0x02, 0x03, 0x10, 0x40, 0x80, 0xFF};
    memcpy(other, bytes, sizeof bytes);
    for (size_t at = 0; at < length; at++) {
        for (size_t way = 0; way < sizeof WAYS; way++) {
            bytes[at] = (uint8_t)(other[at] ^ WAYS[way]);
            restore(length);
        }
        bytes[at] = other[at];
    }
    restore(length - 1);
    restore(0);
}

/* ---- saved bytes that were changed */

static int64_t restore_controller(size_t length)
{
    mscp = mscp_in_memory(rooms[2], sizeof rooms[2]);
    int64_t status = tell(RESTORE, mscp_restore(mscp, bytes, length));
    if (status == MSCP_DONE)
        serve();
    return status;
}

static int64_t restore_host(size_t length)
{
    host = mscp_host_in_memory(host_room, sizeof host_room);
    return tell(HOST_RESTORE, mscp_host_restore(host, bytes, length));
}

static int64_t restore_port(size_t length)
{
    port = mscp_port_in_memory(rooms[2], sizeof rooms[2]);
    int64_t status = tell(PORT_RESTORE, mscp_port_restore(port, bytes, length));
    if (status == MSCP_DONE)
        act();
    return status;
}

/* Many commands wait, some of which others have passed, and one is in service. */
static void fill(void)
{
    uint8_t text[MSCP_MESSAGE_MAX + 1];
    struct mscp_upcoming next;
    for (int i = 0; i < 60; i++) {
        size_t length = message(text);
        if (text[8] != MSCP_ABORT && text[8] != MSCP_GET_COMMAND_STATUS)
            send(any(4) == 0, text, length);
        if (i == 40)
            serve(), serve(), serve();
    }
    tell(BEGIN, mscp_begin(mscp, &next));
}

/* The port has taken in what is in its ring, of units that are online, has served little of it, and has ends without a slot. */
static void fill_port(void)
{
    make_port();
    for (int i = 0; i < 9 && (i == 0 || mscp_port_read_sa(port) != 0); i++)
        come_up();
    for (uint32_t i = 0; i < 3 * SLOTS; i++) {
        uint8_t text[36] = {0};
        put(text, 4, 1 + i);
        text[4] = (uint8_t)(3 * any((uint32_t)count));
        text[8] = i < SLOTS ? MSCP_ONLINE : any(4) ? MSCP_READ : MSCP_GET_UNIT_STATUS;
        put(text + 12, 4, i < SLOTS ? 0 : MSCP_BLOCK * (1 + any(limits.longest)));
        put_message(text, sizeof text, i < SLOTS / 2);
        run(i < SLOTS ? 60 : 3);
    }
}

static void spoil_all(void)
{
    size_t length = 0;
    fill();
    if (tell(SAVE, mscp_save(mscp, bytes, sizeof bytes, &length)) == MSCP_DONE)
        spoil_saved(length, restore_controller);
    if (tell(HOST_SAVE, mscp_host_save(host, bytes, sizeof bytes, &length)) == MSCP_DONE)
        spoil_saved(length, restore_host);
    fill_port();
    if (tell(PORT_SAVE, mscp_port_save(port, bytes, sizeof bytes, &length)) == MSCP_DONE)
        spoil_saved(length, restore_port);
}

/* ---- scripts */

/* Runs a script in so much room. */
static void run_script(const char *script, size_t length, size_t room)
{
    static uint8_t text[12000000];
    size_t done = 7;
    uint32_t line = 7;
    tell(RUN_SCRIPT, mscp_run_script((const uint8_t *)script, length, text, room, &done, &line));
    eat(done), eat(line);
    if (done != 7)
        eat_bytes(text, done);
}

static void run_scripts(void)
{
    static const int32_t LARGE[] = {MSCP_SCRIPT_LINES, MSCP_SCRIPT_SIZE, MSCP_SCRIPT_EVENTS};
    static uint8_t text[1024];
    for (size_t i = 0; i < sizeof SCRIPTS / sizeof *SCRIPTS; i++)
        run_script(SCRIPTS[i].text, strlen(SCRIPTS[i].text), 65536);
    for (size_t i = 0; i < sizeof LARGE / sizeof *LARGE; i++)
        run_script(large, make_large(LARGE[i]), 12000000);
    for (size_t room = 0; room < 65536; room += 97)
        run_script(HEADER "online 9 0\nstep 1\ntake\nread 1 0 1024 40\nstatus 2 1\nlook\n", sizeof HEADER + 50, room);
    for (size_t i = 0; i < sizeof PACKETS / sizeof *PACKETS; i++)
        for (size_t room = 0; room < sizeof text; room += 53) {
            size_t done = 7;
            tell(SHOW_PACKET, mscp_show_packet((const uint8_t *)PACKETS[i].word, strlen(PACKETS[i].word), text, room, &done));
            eat(done);
            if (done != 7)
                eat_bytes(text, done);
        }
}

int main(int argc, char **argv)
{
    int rounds = argc > 1 ? atoi(argv[1]) : 36;
    refuse_all();
    try_unmade();
    poll_often();
    run_scripts();
    for (int round = 0; round < rounds; round++) {
        make_controller();
        on_wire = 0;
        host = mscp_host_in_memory(host_room, sizeof host_room);
        tell(HOST_INIT, mscp_host_init(host, limits.credits));
        talk(1500);
        guest_works(300);
        make_again();
        if (round % 4 == 0)
            spoil_all();
    }
    eat(mscp_version()), eat(mscp_save_size()), eat(mscp_host_save_size()), eat(mscp_port_save_size());
    eat(mscp_size()), eat(mscp_align()), eat(mscp_host_size()), eat(mscp_host_align()), eat(mscp_port_size()), eat(mscp_port_align());
    return !all_were_seen() && argc == 1;
}
