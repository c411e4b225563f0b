/* callbacks.h: the machine of machine.h with the port of examples/port.c, which asks it by callbacks. */
#ifndef CALLBACKS_H
#define CALLBACKS_H
#include "machine.h"
#include "../../examples/port.h"

enum { AREA = 0x1000, DATA = 0x4000, BEHIND = 0xC000, NOWHERE = BLOCKS, ALL = 1000, DRIVE_ERROR = 0x000B, NO_MEMORY = 0x0069 };

static struct port port;
static uint32_t bad;                    /* the block that can't be moved */
static uint32_t calls;                  /* of those that move blocks */
static uint32_t touched;                /* how often memory from DATA to BEHIND was read or written */
static enum mscp_outcome fault;         /* of that memory, and where from, once it isn't DONE */
static uint32_t fault_from;
static void (*written_to)(uint32_t address); /* what the host does when memory there was written, or NULL */

/* How a part of memory is reached. A fault leaves no good bytes behind. */
static inline enum mscp_outcome reach_memory(uint32_t address, uint32_t count)
{
    if (!is_there(address, count))
        return MSCP_OUTCOME_MISSING;
    bool is_data = address >= DATA && address < BEHIND;
    touched += is_data;
    return is_data && address + count > fault_from ? fault : MSCP_OUTCOME_DONE;
}

static inline enum mscp_outcome read_memory(void *it, uint32_t address, uint8_t *bytes, uint32_t count)
{
    enum mscp_outcome outcome = reach_memory(address, count);
    is("the machine", it == &machine, 1);
    if (outcome == MSCP_OUTCOME_DONE)
        memcpy(bytes, machine.memory + address, count);
    else
        memset(bytes, 0xEE, count);
    return outcome;
}

static inline enum mscp_outcome write_memory(void *it, uint32_t address, const uint8_t *bytes, uint32_t count)
{
    enum mscp_outcome outcome = reach_memory(address, count);
    is("the machine", it == &machine, 1);
    if (outcome != MSCP_OUTCOME_DONE)
        return outcome;
    memcpy(machine.memory + address, bytes, count);
    if (written_to != NULL)
        written_to(address);
    return MSCP_OUTCOME_DONE;
}

static inline void interrupt(void *it, uint16_t vector)
{
    is("the machine", it == &machine, 1);
    machine.interrupts++;
    machine.vector = vector;
}

/* So many blocks of them up to the bad one are moved. Whether those were all. */
static inline bool read_run(void *it, uint16_t unit, uint32_t block, uint32_t count, uint8_t *bytes)
{
    is("the machine", it == &machine, 1);
    calls++;
    for (uint32_t i = 0; i < count; i++) {
        if (block + i == bad)
            return false;
        memcpy(bytes + i * MSCP_BLOCK, machine.disks[unit][block + i], MSCP_BLOCK);
        machine.transfers++;
    }
    return true;
}

static inline bool write_run(void *it, uint16_t unit, uint32_t block, uint32_t count, const uint8_t *bytes)
{
    is("the machine", it == &machine, 1);
    calls++;
    for (uint32_t i = 0; i < count; i++) {
        if (block + i == bad)
            return false;
        memcpy(machine.disks[unit][block + i], bytes + i * MSCP_BLOCK, MSCP_BLOCK);
        machine.transfers++;
    }
    return true;
}

static inline bool read_block(void *it, uint16_t unit, uint32_t block, uint8_t *bytes)
{
    return read_run(it, unit, block, 1, bytes);
}

static inline bool write_block(void *it, uint16_t unit, uint32_t block, const uint8_t *bytes)
{
    return write_run(it, unit, block, 1, bytes);
}

/* A new machine, whose units 0 and 2 have volumes. */
static inline void begin_port(const struct mscp_hardware *hardware, bool has_runs)
{
    const struct port_bus bus = {.machine = &machine, .read = read_memory, .write = write_memory, .interrupt = interrupt,
                                 .read_block = read_block, .write_block = write_block,
                                 .read_run = has_runs ? read_run : NULL, .write_run = has_runs ? write_run : NULL};
    const struct mscp_unit units[] = {rd54(0), rd54(1), rd54(2), rd54(3)};
    const struct mscp_medium medium = {.size = 311200, .media = 0x25644036};
    build(hardware);
    bad = NOWHERE;
    fault = MSCP_OUTCOME_DONE;
    fault_from = calls = touched = 0;
    written_to = NULL;
    is("it is opened", port_open(&port, &bus, hardware, units, UNITS), MSCP_DONE);
    machine.port = port_itself(&port);
    is("a volume", port_insert(&port, 0, &medium), 1);
    is("another", port_insert(&port, 2, &medium), 1);
}

/* And a host that has them online. Memory from DATA on has 0xC0 and the number of the block there. */
static inline void begin_host(const struct mscp_hardware *hardware, bool has_runs)
{
    begin_port(hardware, has_runs);
    initialise(AREA, 2, 2, 0);
    send_command(0, 100, MSCP_ONLINE, 0, 0, 0);
    expect(100, 0x89, 0);
    send_command(2, 101, MSCP_ONLINE, 0, 0, 0);
    expect(101, 0x89, 0);
    for (uint32_t i = DATA; i < BEHIND; i++)
        machine.memory[i] = (uint8_t)(0xC0 + (i - DATA) / MSCP_BLOCK);
}

/* The machine goes on by turns of so many actions until this command ends: its status, and how many bytes it was told. */
static inline void ends_with(unsigned most, uint32_t reference, uint32_t status, uint32_t bytes)
{
    uint8_t packet[68] = {0};
    for (unsigned turns = 0; turns < ALL && !take(packet); turns++)
        port_turn(&port, most);
    is("its number", number(packet + 4, 4), reference);
    is("its status", number(packet + 14, 2), status);
    is("its bytes", number(packet + 16, 4), bytes);
}
#endif
