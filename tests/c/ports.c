/* A port of mscp.h, by a host in an array of memory: initialisation, rings, credits, and what goes wrong. volumes.c has
 * transfers and volumes, and firmware.c what boot firmware sends. Prints what is wrong, and ends with 1 where something
 * is. */
#include "machine.h"

/* ---- initialisation */

/* Each step shows its word, and bit 7 with a vector wants an interrupt for the steps 2, 3 and 4. */
static void steps(void)
{
    build(&RQDX3);
    initialise(0x1000, 0, 0, 0);
    is("no interrupt", machine.interrupts, 0);
    initialise(0x1000, 0, 0, 0x80 | 0154 / 4);
    is("three interrupts", machine.interrupts, 3);
    is("by this vector", machine.vector, 0154);
    initialise(0x1000, 7, 7, 0x80);
    initialise(0x1000, 3, 1, 0154 / 4);
    is("none without a vector, or without bit 7", machine.interrupts, 3);
    build(&UDA50);
    is("SA of a UDA50", mscp_port_read_sa(machine.port), 0x0940);
    is("a first word without bit 15", mscp_port_write_sa(machine.port, 0x7FFF), MSCP_DONE);
    is("it isn't heard", run(10), 0);
    answer(0x0940, 0x8000);
    answer(0x1080, 0x1000);
    answer(0x2000, 0);
    answer(0x4063, 0); /* no go */
    is("SA of its last step", mscp_port_read_sa(machine.port), 0x4063);
}

/* The area is cleared from the interrupt words to the end of the rings, and with purge interrupts from 4 bytes before. */
static void clears_its_area(void)
{
    for (unsigned purges = 0; purges < 2; purges++) {
        build(&RQDX3);
        memset(machine.memory, 0xA5, MEMORY);
        answer(0x0B40, 0x8000 | 1 << 11 | 2 << 8);
        answer(0x1000 | (0x8000 | 1 << 11 | 2 << 8) >> 8, (uint16_t)(0x2002 | purges));
        answer(0x2000, 0);
        is("SA", mscp_port_read_sa(machine.port), 0x4133);
        for (uint32_t i = 0; i < MEMORY; i++)
            if (machine.memory[i] != (i < 0x2002 - (purges ? 8 : 4) || i >= 0x2002 + 4 * 6 ? 0xA5 : 0))
                is("this byte", i, -1);
    }
}

static void wraps(void)
{
    build(&RQDX3);
    answer(0x0B40, 0xC123);
    for (unsigned i = 0; i < 3; i++) {
        is("what was written", mscp_port_read_sa(machine.port), i == 0 ? 0xC123 : 0x7000 + (int)i - 1);
        is("is shown", mscp_port_write_sa(machine.port, (uint16_t)(0x7000 + i)), MSCP_DONE);
    }
    is("IP", mscp_port_write_ip(machine.port), MSCP_DONE);
    is("SA", mscp_port_read_sa(machine.port), 0x0B40);
}

/* A purge and a poll test: the host writes 0, and reads IP. Another word is fatal, until IP is written. */
static void probes(void)
{
    build(&RQDX3);
    for (uint16_t word = 0; word < 2; word++) {
        is("IP", mscp_port_write_ip(machine.port), MSCP_DONE);
        answer(0x0B40, 0x8000);
        answer(0x1080, 0x1000);
        answer(0x2000, 0x8000);
        answer(0, word);
        is("IP is read", mscp_port_read_ip(machine.port), MSCP_DONE);
        run(MOST_ACTIONS);
        is("SA", mscp_port_read_sa(machine.port), word == 0 ? 0x4133 : 0x8015);
    }
    is("nothing is wanted", run(10), 0);
}

/* A base with no room before it, and one that isn't there. */
static void wrong_areas(void)
{
    for (unsigned i = 0; i < 2; i++) {
        build(&RQDX3);
        answer(0x0B40, 0x8000);
        answer(0x1080, i == 0 ? 6 : 0x1000);
        machine.missing = 0x1004;
        answer(0x2000, 0);
        is("SA", mscp_port_read_sa(machine.port), 0x8007);
    }
}

/* ---- rings and credits */

/* Sends so many GET UNIT STATUS at a time, which go round the rings. Each end comes in its order, and tells credits that
 * sum up to those of the ends and the host's own beside the first. */
static void goes_round(uint32_t base, unsigned responses, unsigned commands, unsigned burst, bool moves)
{
    uint32_t ends = 0;
    uint8_t packet[68];
    build(&RQDX3);
    machine.moves = moves;
    initialise(base, responses, commands, 0);
    for (unsigned round = 0; round < 300; round++) {
        for (unsigned i = 0; i < burst; i++) {
            send_command(0, 1000 + host.sent, MSCP_GET_UNIT_STATUS, 0, 0, 0);
            run(MOST_ACTIONS);
        }
        for (unsigned i = 0; i < burst; i++, ends++) {
            is("an end", take(packet), 1);
            is("in its order", number(packet + 4, 4), 1000 + ends);
            is("of 48 bytes", number(packet, 2), 48);
            is("for the disk", packet[3], 0);
            mscp_port_look_again(machine.port);
            run(MOST_ACTIONS);
        }
    }
    is("credits", host.credits, ends + HOST_CREDITS - 1);
}

/* As many commands as the host may have wait, and then the ring has one more: the controller has no credit for it. It is
 * taken in as soon as an end went out, and none is lost. Meanwhile no slot for ends is free for long. */
static void more_than_it_may(void)
{
    build(&RQDX3);
    initialise(0x1002, 0, 7, 0);
    send_command(0, 1, MSCP_ONLINE, 0, 0, 0);
    expect(1, 0x89, 0);
    for (uint32_t i = 0; i < 40; i++)
        send_command(0, 100 + i, MSCP_READ, 512, i, 0x8000);
    mscp_port_look_again(machine.port);
    run(MOST_ACTIONS);
    is("the ring is full", look() != NULL, 1);
    for (unsigned i = 0; i < 100; i++)
        is("the port rests", run(MOST_ACTIONS), 0);
    for (uint32_t i = 0; i < 40; i++)
        expect(100 + i, 0xA1, 0);
    is("credits", host.credits, 41 + HOST_CREDITS - 1);
}

/* The host hears of a slot that was given back if bit 30 was set, and if its ring was full of commands or empty of ends:
 * by the word of the ring, and by the vector if there is one. */
static void tells_of_slots(unsigned flagged, unsigned vector)
{
    uint8_t packet[68];
    build(&RQDX3);
    initialise(0x1000, 2, 0, (uint16_t)(vector / 4));
    host.flag = flagged ? 0x40000000 : 0;
    for (uint32_t slot = 0; slot < 4; slot++)
        offer(slot);
    for (unsigned i = 0; i < 2; i++) {
        put(machine.memory + 0x0FFC, 4, 0);
        send_command(0, 1, MSCP_GET_UNIT_STATUS, 0, 0, 0);
        run(MOST_ACTIONS);
        /* the ring of commands has one slot; the second end finds the first one still there */
        is("the word of commands", number(machine.memory + 0x0FFC, 2), flagged);
        is("the word of ends", number(machine.memory + 0x0FFE, 2), flagged && i == 0);
    }
    is("interrupts", machine.interrupts, flagged && vector != 0 ? 3 : 0);
    is("an end", take(packet) && take(packet), 1);
}

/* ---- what goes wrong */

/* Lengths, types and connections that no command has are fatal. Of a longer text the first 64 bytes are read. */
static void fatal_errors(void)
{
    static const struct {
        uint32_t header;
        uint16_t shown;
    } cases[] = {
        {0, 0x8001}, {11, 0x8001}, {12, 0}, {65, 0}, {0xFFFF, 0}, {32 | 1 << 20, 0x8014}, {32 | 15 << 20, 0x8014},
        {32 | 1 << 24, 0x800E}, {32 | 255u << 24, 0x800E}, {32 | 9 << 16, 0},
    };
    for (size_t i = 0; i < COUNT(cases); i++) {
        build(&RQDX3);
        initialise(0x1000, 0, 0, 0);
        send_command(0, 1, MSCP_GET_UNIT_STATUS, 0, 0, 0);
        put(machine.memory + packet_of(false, 0), 4, cases[i].header);
        run(MOST_ACTIONS);
        is("SA", mscp_port_read_sa(machine.port), cases[i].shown);
        is("nothing is wanted", run(10), 0);
    }
    initialise(0x1000, 0, 0, 0);
}

/* Three commands have one number: each stays in its slot until the end of the one before it was taken. What comes behind
 * them waits too, and a command of another number isn't kept from its end. */
static void numbers_in_use(void)
{
    build(&RQDX3);
    initialise(0x1000, 0, 3, 0);
    send_command(0, 1, MSCP_ONLINE, 0, 0, 0);
    send_command(2, 1, MSCP_ONLINE, 0, 0, 0);
    send_command(1, 1, MSCP_ONLINE, 0, 0, 0);
    send_command(0, 2, MSCP_READ, 512, 7, 0x4000);
    expect(1, 0x89, 0);
    expect(1, 0x89, 0);
    expect(1, 0x89, 0x0023);
    expect(2, 0xA1, 0);
    is("its block", number(machine.memory + 0x4000, 4), 0x0A090807);
    is("credits", host.credits, 4 + HOST_CREDITS - 1);
}

/* What is told without being wanted changes nothing, and what no outcome is. */
static void unasked(void)
{
    static uint8_t bytes[600];
    build(&RQDX3);
    is("nothing was wanted", mscp_port_went(machine.port, MSCP_OUTCOME_DONE, 0), MSCP_UNASKED);
    is("nor read", mscp_port_was_read(machine.port, bytes, 4), MSCP_UNASKED);
    is("no outcome", mscp_port_went(machine.port, 6, 0), MSCP_BAD_OUTCOME);
    is("no status of a block", mscp_port_went(machine.port, MSCP_OUTCOME_FAILED, 4), MSCP_BAD_OUTCOME);
    initialise(0x1000, 0, 0, 0);
    send_command(0, 1, MSCP_ONLINE, 0, 0, 0);
    while (number(machine.memory + slot_of(false, 0), 4) >= 0x80000000u) {
        struct mscp_action action;
        is("an action", mscp_port_next(machine.port, &action), MSCP_DONE);
        if (action.kind == MSCP_ACTION_READ)
            is("it was no such action", mscp_port_went(machine.port, MSCP_OUTCOME_DONE, 0), MSCP_UNASKED);
        for (size_t length = 0; length < sizeof bytes; length++)
            if (action.kind != MSCP_ACTION_READ || length != action.count)
                is("too few or many", mscp_port_was_read(machine.port, bytes, length), MSCP_UNASKED);
        tell(&action, perform(&action));
    }
    expect(1, 0x89, 0);
}

/* IP is written while an action is at work, at each action from the first word on to the end of a READ: what is told of
 * it isn't wanted any more, and the port begins anew. */
static void resets_amid_an_action(void)
{
    static const uint8_t bytes[64];
    struct mscp_action action;
    unsigned amid = 0;
    for (bool is_done = false; !is_done; amid++) {
        const uint16_t words[4] = {0x8000 | 0x80 | 0154 / 4, 0x1000, 0, 1};
        unsigned actions = 0;
        build(&RQDX3);
        host.base = 0x1000;
        host.responses = host.commands = 1;
        host.sent = host.taken = 0;
        for (unsigned step = 0; step < 6 && actions <= amid; step++) {
            if (step < 4)
                is("a word", mscp_port_write_sa(machine.port, words[step]), MSCP_DONE);
            if (step >= 4) {
                offer(0);
                send_command(0, step, step == 4 ? MSCP_ONLINE : MSCP_READ, step == 4 ? 0 : 512, 0, 0x4000);
            }
            while (actions < amid && act())
                actions++;
            if (actions == amid && mscp_port_next(machine.port, &action) == MSCP_DONE)
                actions++;
        }
        is_done = actions <= amid;
        is("IP", mscp_port_write_ip(machine.port), MSCP_DONE);
        is("not done any more", mscp_port_went(machine.port, MSCP_OUTCOME_DONE, 0), MSCP_UNASKED);
        is("nor failed", mscp_port_went(machine.port, MSCP_OUTCOME_MISSING, 0), MSCP_UNASKED);
        is("nor read", mscp_port_was_read(machine.port, bytes, 4), MSCP_UNASKED);
        is("nothing is wanted", mscp_port_next(machine.port, &action), MSCP_NOTHING);
        initialise(0x1000, 0, 0, 0);
        send_command(0, 9, MSCP_ONLINE, 0, 0, 0);
        expect(9, 0x89, 0);
        is("credits anew", host.credits, 15);
    }
    is("many actions", amid > 25, 1);
}

int main(void)
{
    steps();
    clears_its_area();
    wraps();
    probes();
    wrong_areas();
    for (uint32_t base = 0x1000; base <= 0x1002; base += 2) {
        goes_round(base, 0, 0, 1, false);
        goes_round(base, 4, 0, 1, false);
        goes_round(base, 4, 4, 16, true);
        goes_round(base, 7, 7, 16, false);
    }
    more_than_it_may();
    for (unsigned flagged = 0; flagged < 2; flagged++) {
        tells_of_slots(flagged, 0);
        tells_of_slots(flagged, 0154);
    }
    fatal_errors();
    numbers_in_use();
    unasked();
    resets_amid_an_action();
    return wrong;
}
