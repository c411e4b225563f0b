/* Looks into a port of mscp.h: its stage, its volumes and what waits in its controller; and volumes whose protection is
 * switched. Prints what is wrong, and ends with 1 where something is. */
#include "machine.h"

enum { DATA = 0x4000, BUDGET = 512 }; /* the budget is that of build */

/* A new machine, whose host has unit 0 online and wants attention messages. Its ring for ends has two to this power of slots. */
static void begin(unsigned responses)
{
    uint8_t text[32] = {0};
    build(&RQDX3);
    initialise(0x1000, responses, 3, 0);
    text[8] = MSCP_SET_CONTROLLER_CHARACTERISTICS;
    text[14] = 0x80;
    send(text, 32);
    expect(0, 0x84, 0);
    send_command(0, 1, MSCP_ONLINE, 0, 0, 0);
    expect(1, 0x89, 0);
}

/* ---- protection */

static uint16_t unit_flags(void)
{
    uint8_t packet[68] = {0};
    send_command(0, 50, MSCP_GET_UNIT_STATUS, 0, 0, 0);
    run(MOST_ACTIONS);
    is("the unit's status", take(packet) && packet[12] == 0x83 && number(packet + 14, 2) == 0, 1);
    return (uint16_t)number(packet + 18, 2);
}

static void transfer(uint8_t opcode, uint16_t status)
{
    send_command(0, 60, opcode, MSCP_BLOCK, 7, DATA);
    expect(60, 0x80 | opcode, status);
}

/* The volume stays online, and none is told to have come. A block that is in hand isn't written any more. */
static void protection_is_switched(void)
{
    begin(2);
    for (unsigned times = 0; times < 2; times++) {
        transfer(MSCP_WRITE, 0);
        is("unit flags", unit_flags() & 0x3000, 0);
        is("protected", mscp_port_protect(machine.port, 0, 1 + times), MSCP_DONE);
        transfer(MSCP_WRITE, 0x2006);
        transfer(MSCP_ERASE, 0x2006);
        transfer(MSCP_READ, 0);
        is("unit flags", unit_flags() & 0x3000, 0x2000);
        is("no more", mscp_port_protect(machine.port, 0, 0), MSCP_DONE);
        transfer(MSCP_WRITE, 0);
        send_command(0, 70, MSCP_WRITE, MSCP_BLOCK, 9, DATA);
        until(MSCP_ACTION_TRANSFER);
        is("protected", mscp_port_protect(machine.port, 0, 1), MSCP_DONE);
        expect(70, 0xA2, 0x2006);
        is("its block", number(machine.disks[0][9], 4), 0x0C0B0A09);
        is("no more", mscp_port_protect(machine.port, 0, 0), MSCP_DONE);
    }
    is("no message", run(MOST_ACTIONS) == 0 && look() == NULL, 1);
    is("no unit", mscp_port_protect(machine.port, 9, 1), MSCP_UNKNOWN_UNIT);
}

/* A pause that was wanted while a volume was protected counts as no block of it, also where that ends before the pause is
 * told: the block is wanted again. */
static void pauses_are_no_blocks(void)
{
    struct mscp_action pause;
    begin(2);
    memset(machine.memory + DATA, 0x5A, MSCP_BLOCK);
    send_command(0, 71, MSCP_WRITE, MSCP_BLOCK, 9, DATA);
    until(MSCP_ACTION_TRANSFER);
    is("protected", mscp_port_protect(machine.port, 0, 1), MSCP_DONE);
    is("wanted", mscp_port_next(machine.port, &pause), MSCP_DONE);
    is("a pause", pause.kind, MSCP_ACTION_PAUSE);
    is("no more", mscp_port_protect(machine.port, 0, 0), MSCP_DONE);
    is("the pause", mscp_port_went(machine.port, MSCP_OUTCOME_DONE, 0x000B), MSCP_UNASKED);
    expect(71, 0xA2, 0);
    is("its block", number(machine.disks[0][9], 4), 0x5A5A5A5A);
}

/* ---- looks */

static void volume_is(uint16_t unit, bool there, bool is_protected, bool by_host, bool online)
{
    struct mscp_volume it;
    memset(&it, 7, sizeof it);
    is("a unit", mscp_port_volume(machine.port, unit, &it), MSCP_DONE);
    is("there", it.is_there, there);
    is("protected", it.is_protected, is_protected);
    is("by its host", it.is_protected_by_host, by_host);
    is("online", it.is_online, online);
}

/* With modifier 4 these commands set the host's protection, as the unit flag 0x1000 says. */
static void set(uint16_t unit, uint8_t opcode, uint16_t flags, uint16_t status)
{
    uint8_t text[32] = {0};
    put(text + 4, 2, unit);
    text[8] = opcode;
    text[10] = 4;
    put(text + 14, 2, flags);
    send(text, 32);
    expect(0, 0x80 | opcode, status);
}

static void volumes_are_seen(void)
{
    struct mscp_volume none;
    begin(2);
    volume_is(0, true, false, false, true);
    volume_is(1, false, false, false, false);
    volume_is(2, true, false, false, false);
    set(2, MSCP_ONLINE, 0x1000, 0);
    volume_is(2, true, false, true, true);
    set(2, MSCP_SET_UNIT_CHARACTERISTICS, 0, 0);
    volume_is(2, true, false, false, true);
    set(0, MSCP_SET_UNIT_CHARACTERISTICS, 0x1000, 0);
    is("protected", mscp_port_protect(machine.port, 0, 1), MSCP_DONE);
    volume_is(0, true, true, true, true);
    is("another comes", insert(0, 1), MSCP_DONE);
    volume_is(0, true, true, false, false);
    is("it goes", mscp_port_volume_went(machine.port, 0), MSCP_DONE);
    volume_is(0, false, false, false, false);
    is("IP", mscp_port_write_ip(machine.port), MSCP_DONE);
    volume_is(2, true, false, false, false);
    is("no unit", mscp_port_volume(machine.port, 9, &none), MSCP_UNKNOWN_UNIT);
}

/* A port tells the hardware that it was made of, also where it was restored. */
static void hardware_is_seen(void)
{
    static const struct mscp_hardware kinds[] = {
        {MSCP_BUS_Q, 19, 3, 1}, {MSCP_BUS_UNI, 6, 3, 1}, {MSCP_BUS_UNI, 255, 254, 253}};
    for (unsigned i = 0; i < 2 * COUNT(kinds); i++) {
        struct mscp_hardware it = {7, 77, 77, 77};
        build(&kinds[i / 2]);
        if (i % 2 == 1)
            restore_port();
        is("hardware", mscp_port_hardware(machine.port, &it), MSCP_DONE);
        is("its bus", it.bus, kinds[i / 2].bus);
        is("its model", it.model, kinds[i / 2].model);
        is("its software", it.software, kinds[i / 2].software);
        is("its hardware", it.version, kinds[i / 2].version);
    }
}

static void state_is(uint8_t stage, uint16_t word, uint8_t is_held_back)
{
    struct mscp_state it = {7, 77, 7};
    is("a state", mscp_port_state(machine.port, &it), MSCP_DONE);
    is("its stage", it.stage, stage);
    is("its word", it.word, word);
    is("held back", it.is_held_back, is_held_back);
}

/* What the host writes is heeded at the action behind it. */
static void stages_are_seen(void)
{
    for (uint16_t word = 0; word < 2; word++) {
        build(&RQDX3);
        state_is(MSCP_STAGE_FIRST, 0, 0);
        answer(0x0B40, 0xC123);
        state_is(MSCP_STAGE_WRAPPED, 0xC123, 0);
        answer(0xC123, 0x7000);
        state_is(MSCP_STAGE_WRAPPED, 0x7000, 0);
        is("IP", mscp_port_write_ip(machine.port), MSCP_DONE);
        answer(0x0B40, 0x8000);
        state_is(MSCP_STAGE_SECOND, 0, 0);
        answer(0x1080, 0x1000);
        state_is(MSCP_STAGE_THIRD, 0, 0);
        answer(0x2000, 0x8000);
        state_is(MSCP_STAGE_PURGING, 0, 0);
        answer(0, word);
        state_is(word == 0 ? MSCP_STAGE_PROBING : MSCP_STAGE_DEAD, word == 0 ? 0 : 21, 0);
    }
    is("IP", mscp_port_write_ip(machine.port), MSCP_DONE);
    answer(0x0B40, 0x8000);
    answer(0x1080, 0x1000);
    is("its base", mscp_port_write_sa(machine.port, 0), MSCP_DONE);
    run(1);
    state_is(MSCP_STAGE_CLEARING, 0, 0);
    run(MOST_ACTIONS);
    state_is(MSCP_STAGE_LAST, 0, 0);
    answer(0x4133, 1);
    state_is(MSCP_STAGE_UP, 0, 0);
}

/* Of two ends the second has no slot until the host gives the only one back, and the port looks again. */
static void held_back_is_seen(void)
{
    uint8_t packet[68];
    begin(0);
    state_is(MSCP_STAGE_UP, 0, 0);
    for (uint32_t reference = 5; reference < 7; reference++) {
        send_command(0, reference, MSCP_GET_UNIT_STATUS, 0, 0, 0);
        run(MOST_ACTIONS);
        state_is(MSCP_STAGE_UP, 0, reference == 6);
    }
    is("it is taken", take(packet) && number(packet + 4, 4) == 5, 1);
    state_is(MSCP_STAGE_UP, 0, 1);
    is("nothing is wanted", run(MOST_ACTIONS), 0);
    is("it looks again", mscp_port_look_again(machine.port), MSCP_DONE);
    state_is(MSCP_STAGE_UP, 0, 0);
    run(MOST_ACTIONS);
    is("the other", take(packet) && number(packet + 4, 4) == 6, 1);
    state_is(MSCP_STAGE_UP, 0, 0);
}

/* Two READs, of which the second weighs more than the budget, and a sequential command wait. docs/MODEL.md has the sums. */
static void waiting_is_seen(void)
{
    static const uint32_t FIGURES[] = {BUDGET + 3, 3 + BUDGET + 513, 3 + 513 + BUDGET + 1};
    struct mscp_waiting list[4] = {{0}}, one[2] = {{0}, {9, 9, 9}};
    struct mscp_holder holders[2] = {{0}}, first[2] = {{0}, {9, 9, 9, 9}};
    struct mscp_action action = {0};
    begin(3);
    send_command(0, 2, MSCP_READ, 3 * MSCP_BLOCK, 7, DATA);
    send_command(0, 3, MSCP_READ, 513 * MSCP_BLOCK, 7, DATA);
    send_command(0, 4, MSCP_AVAILABLE, 0, 0, 0);
    while (mscp_port_next_message(machine.port, &action) == MSCP_DONE)
        tell(&action, perform(&action));
    is("they wait", mscp_port_look(machine.port, list, 4), 3);
    for (uint32_t i = 0; i < 3; i++)
        is("a figure", list[i].reference == 2 + i && list[i].figure == FIGURES[i] && list[i].connection == FIRST, 1);
    is("room for one", mscp_port_look(machine.port, one, 1), 3);
    is("the oldest", one[0].reference == 2 && one[1].reference == 9 && one[1].figure == 9, 1);
    is("room for none", mscp_port_look(machine.port, NULL, 0), 3);
    is("by a weight", mscp_port_why(machine.port, FIRST, 3, holders, 2), 1);
    is("of that", holders[0].reference == 2 && !holders[0].fences && holders[0].overdrawn, 1);
    is("by fences", mscp_port_why(machine.port, FIRST, 4, holders, 2), 2);
    for (uint32_t i = 0; i < 2; i++)
        is("a fence", holders[i].reference == 2 + i && holders[i].fences && !holders[i].overdrawn, 1);
    is("room for one", mscp_port_why(machine.port, FIRST, 4, first, 1), 2);
    is("the oldest", first[0].reference == 2 && first[1].reference == 9 && first[1].fences == 9, 1);
    is("room for none", mscp_port_why(machine.port, FIRST, 4, NULL, 0), 2);
    is("by nobody", mscp_port_why(machine.port, FIRST, 2, holders, 2), 0);
    is("not there", mscp_port_why(machine.port, SECOND, 4, holders, 2), 0);
    is("no connection", mscp_port_why(machine.port, 2, 4, holders, 2), MSCP_BAD_CONNECTION);
}

static void addresses_are_cut(void)
{
    is("the Q-bus", mscp_on_bus(MSCP_BUS_Q, 0xFFFFFFFF), 0x3FFFFF);
    is("its lines", mscp_on_bus(MSCP_BUS_Q, 0x80654322), 0x254322);
    is("the Unibus", mscp_on_bus(MSCP_BUS_UNI, 0xFFFFFFFF), 0x3FFFF);
    is("its lines", mscp_on_bus(MSCP_BUS_UNI, 0x80654322), 0x14322);
}

int main(void)
{
    protection_is_switched();
    pauses_are_no_blocks();
    volumes_are_seen();
    hardware_is_seen();
    stages_are_seen();
    held_back_is_seen();
    waiting_is_seen();
    addresses_are_cut();
    return wrong;
}
