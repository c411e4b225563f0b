/* What examples/port.c asks its machine for, and tells of it: the memory of each command, on both buses and with each fault; what a
 * COMPARE HOST DATA sees; units that are emptied; seconds, pauses, and slots that are given back in silence.
 *
 * Prints what is wrong, and ends with 1 where something is. */
#include "callbacks.h"

enum { NO_VOLUME = 0x0023, DIFFERENT = 0x0007, SILENT = 0x8009 };

/* ---- memory and blocks */

/* A command of two blocks and a part of one of unit 0 from block 3 on, with a buffer at this address. */
static void runs_command(uint8_t opcode, uint32_t address, uint32_t status, uint32_t bytes)
{
    send_command(0, 1, opcode, 2 * MSCP_BLOCK + 10, 3, address);
    ends_with(ALL, 1, status, bytes);
}

/* ACCESS and ERASE touch no memory, though there is none, and an ERASE leaves zeros. */
static void memory_is_left_alone(void)
{
    begin_host(&RQDX3, false);
    fault = MSCP_OUTCOME_MISSING;
    runs_command(MSCP_ACCESS, DATA, 0, 2 * MSCP_BLOCK + 10);
    is("blocks that it read", machine.transfers, 3);
    runs_command(MSCP_ERASE, DATA, 0, 2 * MSCP_BLOCK + 10);
    is("memory was touched", touched, 0);
    for (uint32_t i = 0; i < 3 * MSCP_BLOCK; i++)
        is("an erased byte", machine.disks[0][3 + i / MSCP_BLOCK][i % MSCP_BLOCK], 0);
    is("the block before", machine.disks[0][2][5], 5 + 2);
    is("the block behind", machine.disks[0][6][5], 5 + 6);
}

/* A fault of each kind from the second block on: the first is moved, and nothing behind it. */
static void faults_are_told(uint8_t opcode)
{
    static const struct { enum mscp_outcome outcome; uint32_t status; } faults[] = {
        {MSCP_OUTCOME_MISSING, 0x0069}, {MSCP_OUTCOME_PARITY, 0x0089}, {MSCP_OUTCOME_UNMAPPED, 0x00A9}};
    for (unsigned i = 0; i < COUNT(faults); i++) {
        begin_host(&RQDX3, false);
        if (opcode == MSCP_COMPARE_HOST_DATA)
            memcpy(machine.memory + DATA, machine.disks[0][3], 3 * MSCP_BLOCK);
        fault = faults[i].outcome;
        fault_from = DATA + MSCP_BLOCK;
        runs_command(opcode, DATA, faults[i].status, MSCP_BLOCK);
        is("a byte of the second block", machine.disks[0][4][7], 7 + 4);
    }
}

/* A COMPARE HOST DATA sees each byte of what it is to compare, and none behind it. */
static void each_byte_is_compared(void)
{
    enum { SIZE = MSCP_BLOCK + 10 };
    begin_host(&RQDX3, false);
    for (uint32_t at = 0; at <= SIZE; at++) {
        memcpy(machine.memory + DATA, machine.disks[0][3], 2 * MSCP_BLOCK);
        machine.memory[DATA + at] ^= 1;
        send_command(0, 1, MSCP_COMPARE_HOST_DATA, SIZE, 3, DATA);
        ends_with(ALL, 1, at < SIZE ? DIFFERENT : 0, at < MSCP_BLOCK ? 0 : at < SIZE ? MSCP_BLOCK : SIZE);
    }
}

/* Of a buffer's address the bus has 18 bits or 22, for the rings as for data. */
static void bus_drops_bits(const struct mscp_hardware *hardware, uint32_t above)
{
    for (unsigned i = 0; i < 2; i++) {
        begin_host(hardware, i != 0);
        runs_command(MSCP_READ, above | DATA, 0, 2 * MSCP_BLOCK + 10);
        is("the last byte that it read", machine.memory[DATA + 2 * MSCP_BLOCK + 9], 9 + 5);
        is("the one behind it", machine.memory[DATA + 2 * MSCP_BLOCK + 10], 0xC2);
        runs_command(MSCP_WRITE, above | DATA, 0, 2 * MSCP_BLOCK + 10);
        is("the last byte that it wrote", machine.disks[0][5][9], 9 + 5);
        is("the one behind it", machine.disks[0][5][10], 0);
    }
}

/* A READ may have many blocks. */
static void much_is_read(void)
{
    begin_host(&RQDX3, true);
    send_command(0, 1, MSCP_READ, 60 * MSCP_BLOCK, 4, DATA);
    ends_with(ALL, 1, 0, 60 * MSCP_BLOCK);
    is("its last block", machine.memory[DATA + 59 * MSCP_BLOCK], 63);
}

/* ---- units */

/* An eject is of its unit alone, and so is what is put into one. */
static void units_are_emptied(void)
{
    const struct mscp_medium medium = {.size = 311200, .media = 0x25644036}, large = {.size = 311201, .media = 0x25644036};
    begin_host(&RQDX3, false);
    is("it goes", port_eject(&port, 2), 1);
    send_command(2, 1, MSCP_READ, 512, 0, DATA);
    ends_with(ALL, 1, NO_VOLUME, 0);
    send_command(0, 2, MSCP_READ, 512, 0, DATA);
    ends_with(ALL, 2, 0, 512);
    is("nobody's unit", port_eject(&port, 4), 0);
    is("nobody's unit", port_insert(&port, 4, &medium), 0);
    is("too many blocks", port_insert(&port, 3, &large), 0);
    is("it comes", port_insert(&port, 3, &medium), 1);
    send_command(3, 3, MSCP_ONLINE, 0, 0, 0);
    expect(3, 0x89, 0);
    send_command(3, 4, MSCP_WRITE, 512, 0, DATA);
    ends_with(ALL, 4, 0, 512);
    is("its disk", machine.disks[3][0][0], machine.memory[DATA]);
}

/* ---- the host and the clock */

/* A host that asked for a minute is dead after a minute and a second, and not before. */
static void seconds_go_by(void)
{
    begin_host(&RQDX3, false);
    uint8_t *text = command(1, MSCP_SET_CONTROLLER_CHARACTERISTICS, 0, 0);
    put(text + 16, 2, 60);
    send(text, 32);
    expect(1, 0x84, 0);
    for (unsigned second = 0; second < 60; second++)
        port_second(&port);
    is("SA", port_read(&port, 2), 0);
    port_second(&port);
    is("SA", port_read(&port, 2), SILENT);
}

/* Its controller is an RQDX3's, and it tells its host 16 credits for commands: 15 with the first end, and two with the next, as each
 * end gives its own back. The controller has one more, for what is answered at once. */
static void host_is_told(void)
{
    uint8_t packet[68] = {0};
    struct mscp_limits limits = {0};
    struct mscp_unit units[UNITS];
    begin_port(&RQDX3, false);
    initialise(AREA, 2, 2, 0);
    for (uint32_t i = 0; i < 3; i++) {
        uint8_t *text = command(i, MSCP_SET_CONTROLLER_CHARACTERISTICS, 0, 0);
        send(text, 32);
        port_turn(&port, ALL);
        is("an end", take(packet), 1);
        is("its credits", packet[2] & 15, i == 0 ? 15 : i == 1 ? 2 : 1);
    }
    is("the controller's class", packet[4 + 27], 1);
    is("the controller's model", packet[4 + 26], RQDX3.model);
    is("its units", mscp_port_settings(machine.port, &limits, units, UNITS), UNITS);
    is("its credits", limits.credits, 17);
}

/* A slot of a full ring of responses is given back, and nobody reads IP: the next turn sees that. */
static void turns_look_again(void)
{
    uint8_t packet[68];
    begin_host(&RQDX3, false);
    for (uint32_t i = 0; i < 5; i++)
        send_command(0, i + 1, MSCP_GET_UNIT_STATUS, 0, 0, 0), port_turn(&port, ALL);
    for (uint32_t i = 0; i < 5; i++) {
        is("an end", take(packet), 1);
        is("its number", number(packet + 4, 4), i + 1);
        port_turn(&port, ALL);
    }
}

/* The machine goes on before a command ends that moves no block, since a turn ends at a pause. */
static void turns_end_at_pauses(void)
{
    uint8_t packet[68];
    begin_port(&RQDX3, false);
    initialise(AREA, 2, 2, 0);
    send_command(0, 1, MSCP_ONLINE, 0, 0, 0);
    is("a turn has more to do", port_turn(&port, ALL), 1);
    is("an end", take(packet), 0);
    is("the next one has not", port_turn(&port, ALL), 0);
    is("an end", take(packet), 1);
}

/* A turn does so many actions at most: a READ of one block takes more than one. */
static void turns_are_bounded(void)
{
    begin_host(&RQDX3, false);
    send_command(0, 1, MSCP_READ, 512, 0, DATA);
    is("more is to be done", port_turn(&port, 1), 1);
    is("no block was moved", machine.transfers, 0);
    is("nothing is to be done at last", port_turn(&port, ALL), 0);
    ends_with(ALL, 1, 0, 512);
}

int main(void)
{
    static const uint8_t moving[] = {MSCP_READ, MSCP_WRITE, MSCP_COMPARE_HOST_DATA};
    memory_is_left_alone();
    for (unsigned i = 0; i < COUNT(moving); i++)
        faults_are_told(moving[i]);
    each_byte_is_compared();
    bus_drops_bits(&RQDX3, 0xFFC00000u);
    bus_drops_bits(&UDA50, 0xFFFC0000u);
    much_is_read();
    units_are_emptied();
    seconds_go_by();
    host_is_told();
    turns_look_again();
    turns_end_at_pauses();
    turns_are_bounded();
    return wrong;
}
