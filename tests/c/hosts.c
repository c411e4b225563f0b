/* Random hosts that keep to the rules, against a plain model: each sends up to 16 commands at a time through a port of
 * mscp.h, and each of them gets just one end, with the status that the model says. Ends come in any order, and what is on
 * the disks and in memory then is what the model has there.
 *
 *     hosts [ROUNDS [SEED]]
 *
 * Prints what is wrong, and ends with 1 where something is. */
#include "chance.h"
#include "machine.h"

enum { COMMANDS = 16, PART = 2048, BUFFERS = 0x4000 };

/* What the model has: the disks and the host's buffers, which units are online, and what is outstanding. */
static uint8_t disks[UNITS][BLOCKS][MSCP_BLOCK], buffers[COMMANDS * PART];
static bool is_online[UNITS];
static struct {
    bool is_outstanding;
    uint32_t reference;
    uint8_t code;
    uint16_t status;
} commands[COMMANDS];
static uint32_t references, rounds;

static void must(const char *what, bool holds)
{
    if (!holds) {
        printf("round %u: %s\n", (unsigned)rounds, what);
        exit(1);
    }
}

static bool has_volume(uint32_t unit)
{
    return unit == 0 || unit == 2;
}

/* What a unit answers to a command that moves blocks, or asks for its status. */
static uint16_t unit_status(uint32_t unit)
{
    return !has_volume(unit) ? 0x0023 : is_online[unit] ? 0 : 0x0004;
}

/* What a transfer does, by the model: it has blocks and a buffer of its own. Its status. */
static uint16_t transfer(uint8_t opcode, uint32_t unit, uint32_t slot, uint32_t bytes)
{
    uint8_t *blocks = disks[unit][4 * slot], *buffer = buffers + PART * slot;
    uint32_t whole = (bytes + MSCP_BLOCK - 1) / MSCP_BLOCK * MSCP_BLOCK;
    if (unit_status(unit) != 0)
        return unit_status(unit);
    switch (opcode) {
    case MSCP_READ: memcpy(buffer, blocks, bytes); break;
    case MSCP_COMPARE_HOST_DATA: return memcmp(buffer, blocks, bytes) == 0 ? 0 : 0x0007;
    case MSCP_WRITE:
    case MSCP_ERASE:
        memset(blocks, 0, whole);
        if (opcode == MSCP_WRITE)
            memcpy(blocks, buffer, bytes);
        break;
    }
    return 0;
}

/* Sends a command in a slot of the model, which says how it ends. */
static void send_one(uint32_t slot, uint32_t unit, uint8_t opcode, uint32_t first, uint32_t block, uint16_t status)
{
    commands[slot].is_outstanding = true;
    commands[slot].reference = ++references;
    commands[slot].code = 0x80 | opcode;
    commands[slot].status = status;
    send_command((uint16_t)unit, references, opcode, first, block, BUFFERS + PART * slot);
}

static void send_something(uint32_t slot)
{
    static const uint8_t MOVES[] = {MSCP_READ, MSCP_WRITE, MSCP_COMPARE_HOST_DATA, MSCP_ACCESS, MSCP_ERASE};
    uint8_t opcode = MOVES[below(COUNT(MOVES))];
    uint32_t unit = below(UNITS), bytes = 2 * below(PART / 2 + 1);
    switch (below(8)) {
    case 0: send_one(slot, unit, MSCP_GET_UNIT_STATUS, 0, 0, unit_status(unit)); break;
    case 1: send_one(slot, unit, MSCP_DETERMINE_ACCESS_PATHS, 0, 0, 0); break;
    case 2: send_one(slot, 0, MSCP_GET_COMMAND_STATUS, UINT32_MAX, 0, 0); break;
    case 3: send_one(slot, 0, MSCP_ABORT, UINT32_MAX, 0, 0); break;
    default: send_one(slot, unit, opcode, bytes, 4 * slot, transfer(opcode, unit, slot, bytes));
    }
}

/* Takes the ends that are there. */
static void take_ends(void)
{
    uint8_t packet[68];
    while (take(packet)) {
        uint32_t slot = 0;
        while (slot < COMMANDS && !(commands[slot].is_outstanding && commands[slot].reference == number(packet + 4, 4)))
            slot++;
        must("an end of nothing that is outstanding", slot < COMMANDS);
        must("another endcode", packet[12] == commands[slot].code);
        if (number(packet + 14, 2) != commands[slot].status)
            printf("%02x: %04x, not %04x\n", packet[12], (unsigned)number(packet + 14, 2), (unsigned)commands[slot].status);
        must("another status", number(packet + 14, 2) == commands[slot].status);
        commands[slot].is_outstanding = false;
        if (below(4) == 0)
            break;
    }
}

/* Works until all have ended. */
static void finish(void)
{
    for (unsigned turn = 0; turn < 10000; turn++) {
        bool all = true;
        mscp_port_look_again(machine.port);
        run(MOST_ACTIONS);
        take_ends();
        for (uint32_t slot = 0; slot < COMMANDS; slot++)
            all = all && !commands[slot].is_outstanding;
        if (all)
            return;
    }
    must("a command without an end", false);
}

/* A unit is brought online, or taken offline, while nothing else is outstanding. */
static void change_a_unit(void)
{
    uint32_t unit = below(UNITS);
    bool comes = below(2) == 0, was = is_online[unit];
    is_online[unit] = comes && has_volume(unit);
    if (comes)
        send_one(0, unit, MSCP_ONLINE, 0, 0, !has_volume(unit) ? 0x0023 : was ? 0x0100 : 0);
    else
        send_one(0, unit, MSCP_AVAILABLE, 0, 0, 0);
    finish();
}

static void go_round(void)
{
    uint32_t count = 1 + below(COMMANDS);
    for (uint32_t i = 0; i < sizeof buffers; i++)
        if (below(64) == 0)
            buffers[i] = machine.memory[BUFFERS + i] = (uint8_t)below(256);
    for (uint32_t slot = 0; slot < count; slot++) {
        send_something(slot);
        run(below(40));
        if (below(3) == 0)
            take_ends();
    }
    finish();
    must("other disks", memcmp(disks, machine.disks, sizeof disks) == 0);
    must("other memory", memcmp(buffers, machine.memory + BUFFERS, sizeof buffers) == 0);
}

int main(int words, char **word)
{
    uint32_t most = words > 1 ? (uint32_t)strtoul(word[1], NULL, 10) : 2000;
    state = words > 2 ? strtoull(word[2], NULL, 10) | 1 : 1;
    build(&RQDX3);
    memcpy(disks, machine.disks, sizeof disks);
    initialise(0x1002, 2, 5, 0);
    for (rounds = 0; rounds < most && wrong == 0; rounds++) {
        if (below(4) == 0)
            change_a_unit();
        go_round();
    }
    is("credits", host.credits, references + HOST_CREDITS - 1);
    return wrong;
}
