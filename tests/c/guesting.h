/* guesting.h: a port for workload.c, and a guest that keeps to few rules. */
#ifndef GUESTING_H
#define GUESTING_H
#include "talking.h"

enum { GUEST = 1 << 16, BASE = 0x1000, SLOTS = 8, PACKET = 72 };
static uint8_t guest[GUEST];

/* The blocks of a unit, of one that isn't there too. */
static uint32_t size_of(uint16_t unit)
{
    for (size_t i = 0; i < count; i++)
        if (units[i].number == unit)
            return units[i].size;
    return 1;
}

/* A volume comes into a unit, and sometimes one that has no size, or is too large. */
static void insert(uint16_t unit)
{
    const struct mscp_medium medium = {
        .size = any(50) == 0 ? 0 : size_of(unit) + (any(50) == 0) - any(2), .media = any(9), .is_protected = (uint8_t)any(2),
        .is_removable = (uint8_t)any(2),
    };
    tell(CAME, mscp_port_volume_came(port, unit, &medium));
}

static void make_port(void)
{
    choose();
    port = mscp_port_in_memory(rooms[1], sizeof rooms[1]);
    uint32_t picker = any(2), credits = 1 + any(limits.credits - 1);
    tell(PORT_INIT, mscp_port_init(port, &limits, units, count, picker, &hardware, credits));
    memset(guest, 0, sizeof guest);
    for (size_t i = 0; i < count; i++)
        if (any(5))
            insert(units[i].number);
}

static uint32_t outcome_of(const struct mscp_action *action)
{
    if (any(100) == 0)
        return any(7);
    return action->opcode == MSCP_COMPARE_HOST_DATA && any(3) == 0 ? MSCP_OUTCOME_DIFFERENT : MSCP_OUTCOME_DONE;
}

static uint16_t status_of(const struct mscp_action *action) { return (uint16_t)((action->block * 7 + action->address) % 64); }

/* What the port is, and what waits in its controller. */
static void look_into(void)
{
    uint16_t unit = (uint16_t)(3 * any((uint32_t)count + 1));
    struct mscp_hardware kind = {0, 0, 0, 0};
    struct mscp_state state = {0, 0, 0};
    struct mscp_volume volume;
    struct mscp_upcoming begun = {0, 0, 0, 0, 0, 0, 0, 0, 0, 0};
    struct mscp_waiting list[64];
    struct mscp_holder holders[64];
    size_t room = any(5) ? 64 : any(8);
    uint32_t via = any(9) ? 0 : any(3);
    memset(&volume, 0, sizeof volume);
    tell(HARDWARE, mscp_port_hardware(port, &kind));
    eat(kind.bus), eat(kind.model), eat(kind.software), eat(kind.version);
    tell(STATE, mscp_port_state(port, &state)), tell(VOLUME, mscp_port_volume(port, unit, &volume));
    eat(state.word), eat(state.stage), eat(state.is_held_back);
    eat(volume.size), eat(volume.media), eat(volume.is_removable), eat(volume.is_there), eat(volume.is_protected), eat(volume.is_protected_by_host), eat(volume.is_online);
    tell(BEGUN, mscp_port_begun(port, &begun));
    eat_upcoming(&begun);
    int64_t waiting = tell(PORT_LOOK, mscp_port_look(port, list, room));
    eat_waiting(list, room, waiting);
    uint32_t last = waiting > 0 && (size_t)waiting <= room && any(4) ? list[waiting - 1].reference : any(50);
    eat_holders(holders, room, tell(PORT_WHY, mscp_port_why(port, via, last, holders, room)));
    struct mscp_limits of = {0, 0, 0, 0, 0, 0};
    struct mscp_unit its[MSCP_UNITS_MAX];
    memset(its, 0, sizeof its);
    uint32_t asked = any(MSCP_UNITS_MAX + 1);
    eat_settings(&of, its, asked, tell(PORT_SETTINGS, mscp_port_settings(port, &of, its, asked)));
}

/* Does what the port wants, or what it wants of messages, if it wants something. Whether it did. */
static int act(void)
{
    struct mscp_action action;
    memset(&action, 0x5A, sizeof action);
    int64_t status = any(9) ? tell(NEXT, mscp_port_next(port, &action)) :
                              tell(NEXT_MESSAGE, mscp_port_next_message(port, &action));
    eat_action(&action);
    if (any(30) == 0 || action.kind == MSCP_ACTION_TRANSFER)
        look_into();
    if (status != MSCP_DONE) {
        if (any(9) == 0)
            tell(WENT, mscp_port_went(port, 0, 0)), tell(WAS_READ, mscp_port_was_read(port, guest, any(5)));
        return 0;
    }
    uint8_t *there = guest + (action.address & (GUEST / 2 - 1));
    if (action.kind == MSCP_ACTION_WRITE)
        memcpy(there, action.bytes, action.count);
    if (action.kind == MSCP_ACTION_READ && any(300))
        tell(WAS_READ, mscp_port_was_read(port, there, action.count - (any(200) == 0)));
    else
        tell(WENT, mscp_port_went(port, outcome_of(&action), status_of(&action)));
    return 1;
}

static void run(int most)
{
    while (most-- > 0 && act())
        ;
}

/* The four words of an initialisation, of which few are wrong. */
static void come_up(void)
{
    uint16_t words[4] = {0x8000 | 3 << 11 | 3 << 8, BASE, 0, 1};
    if (any(2))
        words[0] |= 0x80 | 0x2A;
    if (any(4) == 0)
        words[3] = (uint16_t)any(1 << 16);
    tell(WRITE_IP, mscp_port_write_ip(port));
    for (int i = 0; i < 4; i++) {
        run(60);
        tell(READ_SA, mscp_port_read_sa(port));
        tell(WRITE_SA, mscp_port_write_sa(port, any(60) ? words[i] : (uint16_t)any(1 << 16)));
    }
    run(60);
    eat((uint64_t)tell(READ_SA, mscp_port_read_sa(port)));
    for (uint32_t slot = 0; slot < SLOTS; slot++) {
        put(guest + BASE + 4 * slot, 4, 0xC0000000u | (BASE + 0x104 + PACKET * slot));
        put(guest + BASE + 0x100 + PACKET * slot, 4, 60);
    }
}

/* The guest puts a message into a slot, may give a slot for ends back, and reads IP. */
static void put_message(const uint8_t *text, size_t length, int gives)
{
    static uint32_t slot;
    uint32_t at = BASE + 0x404 + PACKET * (slot % SLOTS), ends = slot % SLOTS;
    memcpy(guest + at, text, length < MSCP_MESSAGE_MAX ? length : MSCP_MESSAGE_MAX);
    put(guest + at - 4, 4, (uint32_t)length | (any(60) ? 0 : any(256) << 16));
    put(guest + BASE + 4 * (SLOTS + slot++ % SLOTS), 4, 0x80000000u | (any(2) ? 0x40000000u : 0) | at);
    if (gives)
        put(guest + BASE + 4 * ends, 4, 0x80000000u | (BASE + 0x104 + PACKET * ends));
    tell(READ_IP, mscp_port_read_ip(port));
}

static void ask(void)
{
    uint8_t text[MSCP_MESSAGE_MAX + 1];
    size_t length = message(text);
    put(text + 16, 4, 0x5000 + 512 * any(8));
    put_message(text, length, any(4) != 0);
}

static void save_port(void)
{
    size_t length = 7;
    tell(PORT_SAVE, mscp_port_save(port, bytes, any(64), &length));
    if (tell(PORT_SAVE, mscp_port_save(port, bytes, sizeof bytes, &length)) != MSCP_DONE)
        return;
    eat_bytes(bytes, length);
    memset(rooms[2], 0xA5, sizeof rooms[2]);
    port = mscp_port_in_memory(rooms[2], sizeof rooms[2]);
    tell(PORT_RESTORE, mscp_port_restore(port, bytes, length));
    memcpy(rooms[1], rooms[2], sizeof rooms[1]);
    port = mscp_port_moved(rooms[1]);
}

static void watch(void)
{
    uint16_t unit = (uint16_t)(3 * any((uint32_t)count + 1));
    switch (any(10)) {
    case 0: tell(TICK, mscp_port_tick(port)); break;
    case 1: tell(LOOK_AGAIN, mscp_port_look_again(port)); break;
    case 2: insert(unit); break;
    case 3: tell(GONE, mscp_port_volume_went(port, unit)); break;
    case 4: tell(READ_SA, mscp_port_read_sa(port)); break;
    case 5: save_port(); break;
    case 6: tell(PROTECT, mscp_port_protect(port, unit, any(2))); break;
    default: run(40);
    }
}

static void guest_works(int times)
{
    make_port();
    come_up();
    for (int i = 0; i < times; i++) {
        if (any(4))
            ask();
        run((int)any(60));
        if (any(5) == 0)
            watch();
        if (any(150) == 0 || mscp_port_read_sa(port) != 0)
            come_up();
    }
}
#endif
