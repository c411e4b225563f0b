/* DETERMINE ACCESS PATHS, COMPARE CONTROLLER DATA and FLUSH ask nothing of a disk. Each waits for its turn all the same: it
 * passes no AVAILABLE of its unit, a poll tells how many steps it waits at most, and an ABORT ends it; also if the port is
 * saved and restored after each action.
 *
 * Prints what is wrong, and ends with 1 where something is. */
#include "machine.h"

enum { READS = 2, FREES = 3, WAITS = 4, OTHER = 5, POLLS = 6, ABORTS = 7, LAST = 8 };

static const uint8_t opcodes[] = {11, 17, 19};

/* The ends that came, in order: where each stands, and what it says. */
static struct {
    unsigned place[LAST + 1], length[LAST + 1], code[LAST + 1], status[LAST + 1], figure;
} came;

static void take_all(void)
{
    uint8_t packet[68];
    unsigned place = 0;
    memset(&came, 0, sizeof came);
    while (run(MOST_ACTIONS) > 0 || look() != NULL) {
        while (take(packet)) {
            uint32_t reference = number(packet + 4, 4);
            if (reference > LAST)
                continue;
            is("it ends once", came.place[reference], 0);
            came.place[reference] = ++place;
            came.length[reference] = number(packet, 2);
            came.code[reference] = packet[12];
            came.status[reference] = number(packet + 14, 2);
            if (packet[12] == (0x80 | MSCP_GET_COMMAND_STATUS))
                came.figure = number(packet + 20, 4);
        }
    }
}

/* A READ of unit 0, an AVAILABLE, and such a command, with fields that mean nothing of it or are a controller's to compare. */
static void send_behind_a_fence(uint8_t opcode, bool saves)
{
    build(&RQDX3);
    machine.saves = saves;
    initialise(0x1000, 3, 3, 0);
    send_command(0, 1, MSCP_ONLINE, 0, 0, 0);
    expect(1, 0x80 | MSCP_ONLINE, 0);
    send_command(0, READS, MSCP_READ, 4 * MSCP_BLOCK, 0, 0x4000);
    send_command(0, FREES, MSCP_AVAILABLE, 0, 0, 0);
    send_command(0, WAITS, opcode, 3 * MSCP_BLOCK, 7, 0x8001);
}

static void wait_for_their_turn(uint8_t opcode, bool saves)
{
    send_behind_a_fence(opcode, saves);
    send_command(1, OTHER, opcode, 0, 0, 0); /* of a unit that is available */
    uint8_t *text = command(POLLS, MSCP_GET_COMMAND_STATUS, 0, 0);
    put(text + 12, 4, WAITS);
    send(text, 32);
    take_all();
    is("the READ", came.code[READS] == (0x80 | MSCP_READ) && came.status[READS] == 0, 1);
    is("the AVAILABLE", came.code[FREES] == (0x80 | MSCP_AVAILABLE) && came.status[FREES] == 0, 1);
    for (unsigned reference = WAITS; reference <= OTHER; reference++) {
        is("its endcode", came.code[reference], 0x80u | opcode);
        is("its status", came.status[reference], 0);
        is("its length", came.length[reference], 12);
    }
    is("it passes no AVAILABLE", came.place[FREES] < came.place[WAITS], 1);
    is("a poll comes at once", came.place[POLLS] < came.place[FREES], 1);
    is("and tells that it waits", came.figure > 0, 1);
    is("no other block is moved", machine.transfers, 4);
}

static void are_aborted(uint8_t opcode, bool saves)
{
    send_behind_a_fence(opcode, saves);
    send_command(0, ABORTS, MSCP_ABORT, WAITS, 0, 0);
    take_all();
    is("its endcode", came.code[WAITS], 0x80u | opcode);
    is("it was aborted", came.status[WAITS], 2);
    is("its length", came.length[WAITS], 12);
    is("the ABORT ends after it", came.place[WAITS] < came.place[ABORTS], 1);
    is("and succeeds", came.code[ABORTS] == (0x80 | MSCP_ABORT) && came.status[ABORTS] == 0, 1);
}

/* Also of a unit without a volume, and of none, where it ends at once. */
static void succeed_anywhere(uint8_t opcode, bool saves)
{
    build(&RQDX3);
    machine.saves = saves;
    initialise(0x1000, 0, 0, 0);
    is("the volume goes", mscp_port_volume_went(machine.port, 1), MSCP_DONE);
    send_command(1, 1, opcode, MSCP_BLOCK, 1u << 30, 0);
    expect(1, 0x80 | opcode, 0);
    send_command(77, 2, opcode, 0, 0, 0);
    expect(2, 0x80 | opcode, 0);
}

int main(void)
{
    for (unsigned i = 0; i < sizeof opcodes; i++) {
        for (int saves = 0; saves < 2; saves++) {
            wait_for_their_turn(opcodes[i], saves);
            are_aborted(opcodes[i], saves);
            succeed_anywhere(opcodes[i], saves);
        }
    }
    return wrong;
}
