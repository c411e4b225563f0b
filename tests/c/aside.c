/* A port of mscp.h whose blocks take their time: messages come and go meanwhile, and then a block is wanted again. Prints what
 * is wrong, and ends with 1 where something is. */
#include "machine.h"

enum { DATA = 0x4000, BUDGET = 512 }; /* the budget is that of build */

/* A new machine, whose host has unit 0 online. */
static void begin(void)
{
    build(&RQDX3);
    initialise(0x1000, 2, 2, 0);
    send_command(0, 1, MSCP_ONLINE, 0, 0, 0);
    expect(1, 0x89, 0);
}

/* Does what it wants while a block takes its time, which is nothing of a block. */
static void exchange(void)
{
    struct mscp_action action = {0};
    mscp_port_look_again(machine.port);
    for (unsigned left = MOST_ACTIONS; left > 0 && mscp_port_next_message(machine.port, &action) == MSCP_DONE; left--) {
        if (action.kind == MSCP_ACTION_TRANSFER) {
            is("of a block", action.kind, 0);
            return;
        }
        tell(&action, perform(&action));
    }
}

/* Takes an end of this command that came meanwhile: 4 bytes of it from this one on. */
static uint32_t heard(uint32_t reference, uint8_t code, unsigned from)
{
    uint8_t packet[68] = {0};
    exchange();
    is("an end", take(packet), 1);
    is("its number", number(packet + 4, 4), reference);
    is("its code", packet[12], code);
    return number(packet + 4 + from, 4);
}

static void is_nothing_begun(void)
{
    struct mscp_upcoming begun;
    is("nothing is begun", mscp_port_begun(machine.port, &begun), MSCP_NOTHING);
}

static void is_begun(uint8_t opcode, uint32_t block, uint32_t done, uint32_t weight)
{
    struct mscp_upcoming begun = {0};
    is("begun", mscp_port_begun(machine.port, &begun), MSCP_DONE);
    is("its command", begun.reference == 2 && begun.opcode == opcode && begun.bytes == weight * MSCP_BLOCK, 1);
    is("of unit 0", begun.unit == 0 && begun.connection == MSCP_CONNECTION_FIRST, 1);
    is("its block", begun.touches == 1 && begun.lbn == block, 1);
    is("blocks before it", begun.done, done);
    is("blocks of all", begun.weight, weight);
}

/* The port wants this again. */
static void wants_again(const struct mscp_action *wanted)
{
    struct mscp_action again = until(wanted->kind);
    is("the same place", again.address == wanted->address && again.count == wanted->count, 1);
    is("the same block", again.unit == wanted->unit && again.block == wanted->block && again.opcode == wanted->opcode, 1);
    is("the same serial", (int64_t)again.serial, (int64_t)wanted->serial);
}

/* A block's time begins when the port wants it, and meanwhile the command is polled. Then the port wants it again. What is
 * written is what the memory has then. */
static void block_is_put_aside(uint8_t opcode, uint32_t n)
{
    struct mscp_action wanted = until(MSCP_ACTION_TRANSFER);
    is_begun(opcode, 7 + n, n, 3);
    for (unsigned times = 0; times < 2; times++) {
        send_command(0, 100, MSCP_GET_COMMAND_STATUS, 2, 0, 0);
        is("its figure", heard(100, 0x82, 16), n == 0 ? BUDGET + 3 : 3 - n); /* in service it is what is left */
        is("blocks that were moved", machine.transfers, n);
        is_begun(opcode, 7 + n, n, 3);
        if (machine.saves)
            restore_port();
        wants_again(&wanted);
        memset(machine.memory + DATA + n * MSCP_BLOCK, (int)(0x30 + 0x20 * times + n), MSCP_BLOCK);
    }
    tell(&wanted, perform(&wanted));
}

static void blocks_are_put_aside(uint8_t opcode, bool saves)
{
    begin();
    machine.saves = saves;
    send_command(0, 2, opcode, 3 * MSCP_BLOCK, 7, DATA);
    for (uint32_t n = 0; n < 3; n++)
        block_is_put_aside(opcode, n);
    expect(2, 0x80 | opcode, 0);
    is("blocks that were moved", machine.transfers, 3);
    for (unsigned k = 0; k < 3 * MSCP_BLOCK; k++) {
        unsigned n = k / MSCP_BLOCK;
        if (opcode == MSCP_READ)
            is("this byte", machine.memory[DATA + k], (uint8_t)(k + 7 + n));
        else
            is("this byte", machine.disks[0][7 + n][k % MSCP_BLOCK], 0x50 + n);
    }
    is_nothing_begun();
}

/* A turn of a machine whose blocks take a while. Meanwhile the port is asked for messages alone. */
static uint64_t now, ready; /* when the block's time has come */
static uint64_t under_way;  /* the serial of that block */

static void turn(void)
{
    struct mscp_action action;
    mscp_port_look_again(machine.port);
    while ((now < ready ? mscp_port_next_message(machine.port, &action)
                        : mscp_port_next(machine.port, &action)) == MSCP_DONE) {
        if (action.kind == MSCP_ACTION_TRANSFER && action.serial != under_way) {
            under_way = action.serial;
            ready = now + 5;
            continue; /* the port wants the block again, once that is so */
        }
        tell(&action, perform(&action));
    }
}

/* Four blocks take five turns each, and a poll is answered in each turn: after the block, if one is moved, since a port that heard a
 * poll wants a block before the next one. */
static void turns_go_on(uint8_t opcode)
{
    uint8_t packet[68];
    begin();
    now = ready = under_way = 0;
    send_command(0, 2, opcode, 4 * MSCP_BLOCK, 7, DATA);
    for (; now < 20; now++) {
        send_command(0, 100, MSCP_GET_COMMAND_STATUS, 2, 0, 0);
        turn();
        is("the answer", take(packet) && packet[12] == 0x82, 1);
        is("its figure", number(packet + 20, 4), machine.transfers == 0 ? BUDGET + 4 : 4 - machine.transfers);
        is("blocks that were moved", machine.transfers, (int64_t)now / 5);
    }
    turn();
    is("its end", take(packet) && packet[12] == (0x80 | opcode), 1);
    is("all were moved", machine.transfers, 4);
}

/* No block is begun for messages, and none of a command that is aborted, or whose volume goes, while one is put aside. */
static void blocks_that_are_dropped(uint8_t opcode)
{
    begin();
    send_command(0, 2, opcode, 3 * MSCP_BLOCK, 7, DATA);
    exchange();
    is_nothing_begun();
    is("it waits", mscp_port_look(machine.port, NULL, 0), 1);
    until(MSCP_ACTION_TRANSFER);
    exchange();
    send_command(0, 3, MSCP_ABORT, 2, 0, 0);
    is("it is aborted", heard(2, 0x80 | opcode, 10) & 0xFFFF, 0x0002);
    is("by this", heard(3, 0x81, 10) & 0xFFFF, 0);
    is_nothing_begun();
    is("nothing more", run(MOST_ACTIONS), 0);
    send_command(0, 2, opcode, 3 * MSCP_BLOCK, 7, DATA);
    until(MSCP_ACTION_TRANSFER);
    exchange();
    is("it goes", mscp_port_volume_went(machine.port, 0), MSCP_DONE);
    expect(2, 0x80 | opcode, 0x0023);
    is("no block", machine.transfers, 0);
}

/* ---- serials */

static uint64_t serial_begun(void)
{
    struct mscp_upcoming begun = {0};
    return mscp_port_begun(machine.port, &begun) == MSCP_DONE ? begun.serial : 0;
}

/* The next block is wanted, with a serial that is above this one. */
static uint64_t above(uint64_t before)
{
    const struct mscp_action wanted = until(MSCP_ACTION_TRANSFER);
    is("it is above", wanted.serial > before, 1);
    is("that which is begun", serial_begun() == wanted.serial, 1);
    return wanted.serial;
}

/* A report of the block of this serial is unasked, and changes nothing. */
static void is_not_heard(uint64_t serial, uint32_t outcome)
{
    static uint8_t before[MSCP_PORT_SAVED_MAX], after[MSCP_PORT_SAVED_MAX];
    size_t length = 0, other = 0;
    is("save", mscp_port_save(machine.port, before, sizeof before, &length), MSCP_DONE);
    is("it isn't wanted", mscp_port_went_by(machine.port, serial, outcome, 0x000B), MSCP_UNASKED);
    is("save", mscp_port_save(machine.port, after, sizeof after, &other), MSCP_DONE);
    is("nothing changed", other == length && memcmp(before, after, length) == 0, 1);
}

/* A block is reported by the serial of the one that is in hand: of one that was put aside, aborted or reset, or that is another one
 * of the same command, nothing is heard. */
static void blocks_have_their_serials(uint8_t opcode, bool saves)
{
    const uint32_t outcome = opcode == MSCP_COMPARE_HOST_DATA ? MSCP_OUTCOME_DIFFERENT : MSCP_OUTCOME_DONE;
    begin();
    send_command(0, 2, opcode, 2 * MSCP_BLOCK, 7, DATA);
    const uint64_t first = above(0);
    is_not_heard(first + 1, outcome);
    is_not_heard(0, outcome);
    is("no such outcome", mscp_port_went_by(machine.port, first, 6, 0), MSCP_BAD_OUTCOME);
    exchange();
    is_not_heard(first, outcome); /* it was put aside */
    is("it is the same", above(first - 1) == first, 1);
    exchange();
    send_command(0, 3, MSCP_ABORT, 2, 0, 0);
    heard(2, 0x80 | opcode, 10);
    heard(3, 0x81, 10);
    is("nothing is begun", (int64_t)serial_begun(), 0);
    send_command(0, 2, opcode, 2 * MSCP_BLOCK, 7, DATA); /* it looks like that which was aborted */
    const uint64_t second = above(first);
    if (saves)
        restore_port();
    is_not_heard(first, outcome);
    is("it is heard", mscp_port_went_by(machine.port, second, outcome, 0), MSCP_DONE);
    is_not_heard(second, outcome); /* it was heard */
    uint64_t last = second;
    if (outcome == MSCP_OUTCOME_DONE) {
        last = above(second);
        is_not_heard(second, outcome); /* it is the command's other block */
        is("it is heard", mscp_port_went_by(machine.port, last, MSCP_OUTCOME_FAILED, 0x000B), MSCP_DONE);
        expect(2, 0x80 | opcode, 0x000B);
    } else {
        expect(2, 0x80 | opcode, 0x0007);
    }
    initialise(0x1000, 2, 2, 0); /* the host writes IP */
    send_command(0, 1, MSCP_ONLINE, 0, 0, 0);
    expect(1, 0x89, 0);
    send_command(0, 2, opcode, 2 * MSCP_BLOCK, 7, DATA);
    last = above(last);
    is("protect", mscp_port_protect(machine.port, 0, 1), MSCP_DONE);
    is_not_heard(last, outcome); /* it is to be wanted anew */
    is("no more", mscp_port_protect(machine.port, 0, 0), MSCP_DONE);
    is("it is the same", above(last - 1) == last, 1);
}

int main(void)
{
    for (unsigned saves = 0; saves < 2; saves++) {
        blocks_have_their_serials(MSCP_READ, saves);
        blocks_have_their_serials(MSCP_WRITE, saves);
        blocks_have_their_serials(MSCP_COMPARE_HOST_DATA, saves);
        blocks_are_put_aside(MSCP_READ, saves);
        blocks_are_put_aside(MSCP_WRITE, saves);
    }
    turns_go_on(MSCP_READ);
    turns_go_on(MSCP_WRITE);
    blocks_that_are_dropped(MSCP_READ);
    blocks_that_are_dropped(MSCP_WRITE);
    return wrong;
}
