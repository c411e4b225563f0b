/* A port whose host runs while an action is under way: between an action and what is told of it the host sends commands,
 * takes ends, touches registers and begins anew, and a second goes by. What was read for the port is what stood there before.
 * Now and then the port is asked for messages alone. No command is overlooked, and each has one end and the right data.
 *
 *     meanwhile [ROUNDS [SEED]]
 *
 * Prints what is wrong, and ends with 1 where something is. */
#include "machine.h"

enum { AREA = 0x1000, DATA = 0x4000, EACH = 3 * MSCP_BLOCK };

static uint64_t state = 1;
static bool is_out[HOST_CREDITS];     /* commands of these numbers less 1 */
static uint32_t blocks[HOST_CREDITS]; /* from which a READ of 3 blocks is, or by which the bytes of a WRITE are */
static uint32_t outstanding;

static uint32_t below(uint32_t bound)
{
    state = state * UINT64_C(6364136223846793005) + UINT64_C(1442695040888963407);
    return (uint32_t)(state >> 33) % bound;
}

/* What a command does, by its number: a READ of unit 0, a WRITE to blocks of its own of unit 2, or what is answered when it
 * arrives. */
static uint8_t opcode_of(uint32_t i)
{
    static const uint8_t OPCODES[] = {MSCP_GET_UNIT_STATUS, MSCP_READ, MSCP_WRITE};
    return OPCODES[i % 3];
}

/* A byte of a WRITE's. */
static uint8_t byte_of(uint32_t i, uint32_t k)
{
    return (uint8_t)(5 * k + 11 * i + blocks[i]);
}

/* A command, if there are credits for it and one more. */
static void send_one(void)
{
    uint32_t i = below(HOST_CREDITS - 2);
    if (is_out[i] || outstanding >= HOST_CREDITS - 2)
        return;
    is_out[i] = true;
    outstanding++;
    blocks[i] = below(BLOCKS - 3);
    for (uint32_t k = 0; opcode_of(i) == MSCP_WRITE && k < EACH; k++)
        machine.memory[DATA + i * EACH + k] = byte_of(i, k);
    if (opcode_of(i) == MSCP_GET_UNIT_STATUS)
        send_command(0, i + 1, MSCP_GET_UNIT_STATUS, 0, 0, 0);
    else if (opcode_of(i) == MSCP_READ)
        send_command(0, i + 1, MSCP_READ, EACH, blocks[i], DATA + i * EACH);
    else
        send_command(2, i + 1, MSCP_WRITE, EACH, 3 * i, DATA + i * EACH);
}

static void take_one(void)
{
    uint8_t packet[68];
    if (!take(packet))
        return;
    uint32_t i = number(packet + 4, 4) - 1;
    is("an end of what is out", i < HOST_CREDITS && is_out[i], 1);
    is("its code", packet[12], 0x80 | opcode_of(i));
    is("its status", number(packet + 14, 2), 0);
    for (uint32_t k = 0; opcode_of(i) == MSCP_READ && k < EACH; k += 97)
        is("its bytes", machine.memory[DATA + i * EACH + k], (uint8_t)(k % MSCP_BLOCK + blocks[i] + k / MSCP_BLOCK));
    for (uint32_t k = 0; opcode_of(i) == MSCP_WRITE && k < EACH; k += 97)
        is("its bytes", machine.disks[2][3 * i + k / MSCP_BLOCK][k % MSCP_BLOCK], byte_of(i, k));
    is_out[i] = false;
    outstanding--;
}

static void begin(void)
{
    memset(is_out, 0, sizeof is_out);
    outstanding = 0;
    initialise(AREA, 4, 4, 0);
    send_command(0, 100, MSCP_ONLINE, 0, 0, 0);
    expect(100, 0x89, 0);
    send_command(2, 101, MSCP_ONLINE, 0, 0, 0);
    expect(101, 0x89, 0);
}

/* What may happen while an action is under way. Whether the port was begun anew. */
static bool meanwhile(void)
{
    switch (below(12)) {
    case 0: case 1: case 2: send_one(); break;
    case 3: case 4: take_one(); break;
    case 5: is("IP is read", mscp_port_read_ip(machine.port), MSCP_DONE); break;
    case 6: is("it looks again", mscp_port_look_again(machine.port), MSCP_DONE); break;
    case 7: is("a tick", mscp_port_tick(machine.port), MSCP_DONE); break;
    case 8: is("SA", mscp_port_read_sa(machine.port), 0); break;
    case 9:
        if (below(60) == 0) {
            begin();
            return true;
        }
    }
    return false;
}

/* What the port wants, or what it wants of messages: that is nothing of a block, and no other block is begun. */
static int32_t want(struct mscp_action *action)
{
    struct mscp_upcoming before = {0}, after = {0};
    if (below(3) > 0)
        return mscp_port_next(machine.port, action);
    int32_t begun = mscp_port_begun(machine.port, &before), status = mscp_port_next_message(machine.port, action);
    if (status == MSCP_DONE)
        is("of a block", action->kind == MSCP_ACTION_TRANSFER, 0);
    is("begun", mscp_port_begun(machine.port, &after), begun);
    is("the same", before.reference == after.reference && before.lbn == after.lbn && before.done == after.done, 1);
    return status;
}

/* One action, and what happens before it is told how that went. Whether there was one. */
static bool act_slowly(void)
{
    uint8_t read[MSCP_BLOCK];
    struct mscp_action action;
    if (want(&action) != MSCP_DONE)
        return false;
    if (action.kind == MSCP_ACTION_READ)
        memcpy(read, machine.memory + action.address, action.count);
    for (uint32_t some = below(4); some > 0; some--)
        if (meanwhile())
            return true; /* the action is dropped */
    if (action.kind == MSCP_ACTION_READ) {
        int32_t told = wire_action(mscp_port_was_read(machine.port, read, action.count), &action, read);
        is("it is read, or not wanted", told == MSCP_DONE || told == MSCP_UNASKED, 1);
    } else {
        int32_t told = mscp_port_went(machine.port, perform(&action), 0);
        is("it went", wire_action(told, &action, action.bytes), MSCP_DONE);
    }
    return true;
}

/* The host sends no more, and touches nothing: all that it sent is taken in, and ended. */
static void settle(void)
{
    while (act())
        continue;
    for (uint32_t slot = 0; slot < host.commands; slot++)
        is("a command is overlooked", number(machine.memory + slot_of(false, slot), 4) >= 0x80000000u, 0);
    while (look() != NULL)
        take_one();
    is("all have ended", outstanding, 0);
}

int main(int words, char **word)
{
    uint32_t rounds = words > 1 ? (uint32_t)strtoul(word[1], NULL, 10) : 300;
    if (words > 2)
        state = strtoull(word[2], NULL, 10);
    for (policy = MSCP_OLDEST; policy <= MSCP_SWEEP; policy++) {
        build(&RQDX3);
        begin();
        for (uint32_t round = 0; round < rounds; round++) {
            for (uint32_t turn = 0; turn < 40; turn++)
                if (!act_slowly())
                    meanwhile();
            settle();
        }
    }
    return wrong;
}
