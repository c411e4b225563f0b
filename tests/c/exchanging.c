/* Hosts of random commands to units whose volumes are exchanged meanwhile, each by another one of another size. Few ends fit
 * into the host's ring, so that they wait. And two hosts that once were told of a unit what it wasn't. What they say and
 * hear is for the judge of the wire.
 *
 *     exchanging [ROUNDS [SEED]]
 *
 * Prints what is wrong, and ends with 1 where something is. */
#include "chance.h"
#include "machine.h"

enum { EXCHANGED = 2, MOST_OUTSTANDING = 12, NUMBERS = 64 };

static bool is_outstanding[NUMBERS];
static unsigned outstanding;

static void insert_sized(uint16_t unit, uint32_t size, uint32_t media)
{
    const struct mscp_medium medium = {.size = size, .media = media};
    is("it comes", mscp_port_volume_came(machine.port, unit, &medium), MSCP_DONE);
}

static void exchange(void)
{
    uint16_t unit = (uint16_t)below(EXCHANGED);
    if (below(2) == 0)
        is("it goes", mscp_port_volume_went(machine.port, unit), MSCP_DONE);
    else
        insert_sized(unit, 1000 + 500 * below(3), 0x25644036 + below(2));
}

/* Sends a command, if one more may be outstanding, and its slot is the host's. */
static void send_something(void)
{
    static const uint8_t OPCODES[] = {
        MSCP_ONLINE, MSCP_ONLINE, MSCP_AVAILABLE, MSCP_SET_UNIT_CHARACTERISTICS, MSCP_GET_UNIT_STATUS,
        MSCP_GET_UNIT_STATUS, MSCP_READ, MSCP_READ, MSCP_ACCESS, MSCP_ABORT, 11,
    };
    uint8_t opcode = OPCODES[below(COUNT(OPCODES))], *text;
    bool moves = opcode == MSCP_READ || opcode == MSCP_ACCESS;
    uint32_t reference = below(NUMBERS), first = moves ? MSCP_BLOCK * below(4) : opcode == MSCP_ABORT ? below(NUMBERS) : 0;
    if (outstanding == MOST_OUTSTANDING || is_outstanding[reference] ||
        number(machine.memory + slot_of(false, host.sent % host.commands), 4) >= 0x80000000u)
        return;
    is_outstanding[reference] = true;
    outstanding++;
    text = command(reference, opcode, first, moves ? below(1100) : 0);
    put(text + 4, 2, below(8) == 0 ? 5 : below(EXCHANGED));
    put(text + 10, 2, opcode == MSCP_GET_UNIT_STATUS && below(4) == 0);
    put(text + 16, 4, moves ? 0x4000 : 0);
    send(text, 32);
}

static void take_one(void)
{
    uint8_t packet[68];
    if (!take(packet))
        return;
    mscp_port_look_again(machine.port);
    if (packet[12] & 0x80) { /* an attention message is no end */
        is_outstanding[number(packet + 4, 4)] = false;
        outstanding--;
    }
}

static void go_round(void)
{
    uint32_t exchanges = 1 + below(10), acts = 5 + below(50);
    build(&RQDX3);
    initialise(0x1002, below(3), 4, 0);
    memset(is_outstanding, 0, sizeof is_outstanding);
    outstanding = 0;
    for (unsigned turn = 0; turn < 2000; turn++) {
        uint32_t chosen = below(110);
        if (chosen < exchanges) exchange();
        else if (chosen < 40) send_something();
        else if (chosen < 40 + acts) act();
        else take_one();
    }
}

/* An ONLINE and a READ wait, and a volume comes. The ONLINE is about that one. The READ came before it, and moves
 * nothing. That the unit is offline is not to be told, since it is online: so it is a drive's error. */
static void volume_comes_behind_a_read(void)
{
    build(&RQDX3);
    initialise(0x1002, 4, 4, 0);
    send_command(1, 1, MSCP_ONLINE, 0, 0, 0);
    send_command(1, 2, MSCP_READ, MSCP_BLOCK, 0, 0x4000);
    until(MSCP_ACTION_PAUSE);
    insert_sized(1, 311200, 0x25644036);
    expect(1, 0x89, 0);
    expect(2, 0xA1, 0x000B);
    is("it moves nothing", machine.transfers, 0);
    send_command(1, 3, MSCP_GET_UNIT_STATUS, 0, 0, 0);
    expect(3, 0x83, 0);
    send_command(1, 4, MSCP_READ, MSCP_BLOCK, 0, 0x4000);
    expect(4, 0xA1, 0);
}

/* A unit is online, and another volume comes, of which no end tells. The host sets the unit: so it is told the size of
 * the other one. */
static void unit_is_set_with_another_volume(void)
{
    uint8_t packet[68];
    build(&RQDX3);
    initialise(0x1002, 4, 4, 0);
    send_command(0, 1, MSCP_ONLINE, 0, 0, 0);
    expect(1, 0x89, 0);
    insert_sized(0, 1000, 0x25644036);
    send_command(0, 2, MSCP_SET_UNIT_CHARACTERISTICS, 0, 0, 0);
    run(MOST_ACTIONS);
    is("an end", take(packet) && packet[12] == 0x8A, 1);
}

int main(int argc, char **argv)
{
    uint32_t rounds = argc > 1 ? (uint32_t)strtoul(argv[1], NULL, 10) : 200;
    state = 88172645463325252u + (argc > 2 ? strtoul(argv[2], NULL, 10) : 0);
    volume_comes_behind_a_read();
    unit_is_set_with_another_volume();
    for (uint32_t round = 0; round < rounds; round++)
        go_round();
    return wrong;
}
