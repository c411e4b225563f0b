/* port.c: what the proved port of mscp.h wants done, as callbacks. Take it into an emulator as it is, with port.h:
 *
 *     cc toy.c port.c $(pkg-config --cflags --libs mscp) -o toy
 *
 * toy.c is a machine with such a port. docs/PORT.md says what a port does, and wire.h what -DLOG_WIRE adds. */
#include "port.h"
#include <string.h>
#ifdef LOG_WIRE
#include "wire.h"
#else
#define wire_reset() ((void)0)
#define wire_action(status, action, bytes) ((void)0)
#endif

enum { DRIVE_ERROR = 0x000B };

/* Nothing is moved ahead, no block takes its time, and no message is on its way. */
static void forget(struct port *port)
{
    port->ahead.count = 0;
    port->slow = PORT_IDLE;
    port->passing.length = 0;
}

/* One credit more than the host has is for commands that are answered at once. */
int32_t port_open(struct port *port, const struct port_bus *bus, const struct mscp_hardware *hardware,
                  const struct mscp_unit *units, size_t count)
{
    const struct mscp_limits limits = {
        .id = (uint64_t)1 << 56 | (uint64_t)hardware->model << 48,
        .budget = 512,
        .credits = PORT_COMMANDS + 1,
        .longest = 65536,
        .timeout = 120,
    };
    port->bus = *bus;
    port->lines = hardware->bus;
    port->serial = 0;
    forget(port);
    return mscp_port_init(mscp_port_in_memory(port->memory, sizeof port->memory), &limits, units, count, MSCP_SWEEP, hardware,
                          PORT_COMMANDS);
}

int32_t port_restore(struct port *port, const uint8_t *bytes, size_t length)
{
    struct mscp_port *itself = port_itself(port);
    struct mscp_hardware hardware = {0};
    uint8_t before[MSCP_PORT_SAVED_MAX];
    size_t count;
    int32_t status = mscp_port_save(itself, before, sizeof before, &count);
    if (status == MSCP_DONE)
        status = mscp_port_restore(itself, bytes, length);
    if (status != MSCP_DONE || mscp_port_hardware(itself, &hardware) != MSCP_DONE)
        return status;
    if (hardware.bus != port->lines)
        return mscp_port_restore(itself, before, count) == MSCP_DONE ? MSCP_BAD_BUS : MSCP_NOT_MADE;
    forget(port);
    return MSCP_DONE;
}

/* Its handle has a pointer to what comes after it, which is set anew: the port may have been copied. */
struct mscp_port *port_itself(struct port *port)
{
    return mscp_port_moved(port->memory);
}

uint16_t port_read(struct port *port, unsigned offset)
{
    if (offset != 0)
        return (uint16_t)mscp_port_read_sa(port_itself(port));
    mscp_port_read_ip(port_itself(port));
    return 0;
}

void port_write(struct port *port, unsigned offset, uint16_t word)
{
    if (offset != 0)
        mscp_port_write_sa(port_itself(port), word);
    else if (mscp_port_write_ip(port_itself(port)) == MSCP_DONE)
        wire_reset();
}

/* ---- blocks */

/* The step that a block is of. Without one, as in a port that a stranger saved, a block is moved alone. */
static struct mscp_upcoming step_of(struct port *port)
{
    struct mscp_upcoming step;
    return mscp_port_begun(port_itself(port), &step) == MSCP_DONE ? step : (struct mscp_upcoming){.weight = 1};
}

/* How many blocks may be moved at once, from that of this step on: those of its command, of this turn, and of a run. */
static uint32_t run_of(const struct port *port, const struct mscp_upcoming *step)
{
    uint32_t count = step->weight - step->done;
    if (count > port->left)
        count = port->left;
    return count > PORT_RUN ? PORT_RUN : count;
}

/* Whether the block of this step was moved ahead, which is used up then. Another command begins after no block, and nothing
 * is ahead of a first one, so it never goes on with a run of the last command. */
static bool was_ahead(struct port *port, const struct mscp_upcoming *step)
{
    if (port->ahead.count == 0 || port->ahead.done != step->done) {
        port->ahead.count = 0;
        return false;
    }
    port->ahead.done++;
    port->ahead.count--;
    return true;
}

/* So many blocks were moved, from that of this step on, of which it uses the first. */
static void moved_ahead(struct port *port, const struct mscp_upcoming *step, uint32_t count)
{
    port->ahead.first = step->done;
    port->ahead.done = step->done + 1;
    port->ahead.count = count - 1;
}

/* A block that was read ahead, or is at the head of a run that is read now. NULL, if it is to be read alone. */
static const uint8_t *read_in_run(struct port *port, const struct mscp_action *action)
{
    const struct port_bus *bus = &port->bus;
    const struct mscp_upcoming step = step_of(port);
    if (was_ahead(port, &step))
        return port->blocks + (step.done - port->ahead.first) * MSCP_BLOCK;
    uint32_t count = run_of(port, &step);
    if (count < 2 || !bus->read_run(bus->machine, action->unit, action->block, count, port->blocks))
        return NULL;
    moved_ahead(port, &step, count);
    return port->blocks;
}

static bool is_slow(const struct port_bus *bus)
{
    return bus->begin_read != NULL;
}

/* The bytes of a block, or NULL if it can't be read. Inline, as it is done for each block. */
static inline const uint8_t *block_read(struct port *port, const struct mscp_action *action)
{
    const struct port_bus *bus = &port->bus;
    if (is_slow(bus))
        return port->slow == PORT_MOVED ? port->blocks : NULL;
    const uint8_t *block = bus->read_run == NULL ? NULL : read_in_run(port, action);
    if (block != NULL)
        return block;
    return bus->read_block(bus->machine, action->unit, action->block, port->blocks) ? port->blocks : NULL;
}

/* Fills the n-th block of a run with this many bytes of the host's memory, and zeros after them. */
static enum mscp_outcome fill(struct port *port, const struct mscp_action *action, uint32_t n, uint32_t count)
{
    uint8_t *block = port->blocks + n * MSCP_BLOCK;
    if (count >= MSCP_BLOCK)
        count = MSCP_BLOCK;
    else
        memset(block + count, 0, MSCP_BLOCK - count);
    return port->bus.read(port->bus.machine, mscp_on_bus(port->lines, action->address + n * MSCP_BLOCK), block, count);
}

/* Whether a block was written ahead, or is at the head of a run that is written now. If not it is to be written alone. */
static bool write_in_run(struct port *port, const struct mscp_action *action)
{
    const struct port_bus *bus = &port->bus;
    const struct mscp_upcoming step = step_of(port);
    if (was_ahead(port, &step))
        return true;
    uint32_t count = run_of(port, &step);
    if (count < 2)
        return false;
    for (uint32_t n = 0; n < count; n++)
        if (fill(port, action, n, step.bytes - (step.done + n) * MSCP_BLOCK) != MSCP_OUTCOME_DONE)
            return false;
    if (!bus->write_run(bus->machine, action->unit, action->block, count, port->blocks))
        return false;
    moved_ahead(port, &step, count);
    return true;
}

/* ---- actions */

/* A block goes to the host's memory: a READ; or it is read alone: an ACCESS. */
static enum mscp_outcome read_block(struct port *port, const struct mscp_action *action)
{
    const struct port_bus *bus = &port->bus;
    const uint8_t *block = block_read(port, action);
    if (block == NULL)
        return MSCP_OUTCOME_FAILED;
    if (action->opcode == MSCP_ACCESS)
        return MSCP_OUTCOME_DONE;
    return bus->write(bus->machine, action->address, block, action->count);
}

/* A block gets these bytes, or has got them if it took its time. */
static enum mscp_outcome written(struct port *port, const struct mscp_action *action, const uint8_t *bytes)
{
    const struct port_bus *bus = &port->bus;
    bool went_well = is_slow(bus) ? port->slow == PORT_MOVED
                                  : bus->write_block(bus->machine, action->unit, action->block, bytes);
    return went_well ? MSCP_OUTCOME_DONE : MSCP_OUTCOME_FAILED;
}

/* A block comes from the host's memory, with zeros after its bytes: a WRITE. */
static enum mscp_outcome write_block(struct port *port, const struct mscp_action *action)
{
    if (!is_slow(&port->bus)) {
        if (port->bus.write_run != NULL && write_in_run(port, action))
            return MSCP_OUTCOME_DONE;
        enum mscp_outcome outcome = fill(port, action, 0, action->count);
        if (outcome != MSCP_OUTCOME_DONE)
            return outcome;
    }
    return written(port, action, port->blocks);
}

/* A block is all zeros: an ERASE. */
static const uint8_t zeros[MSCP_BLOCK];

/* The host's bytes are compared with a block: a COMPARE HOST DATA. */
static enum mscp_outcome compare(struct port *port, const struct mscp_action *action)
{
    const struct port_bus *bus = &port->bus;
    uint8_t bytes[MSCP_BLOCK];
    enum mscp_outcome outcome = bus->read(bus->machine, action->address, bytes, action->count);
    if (outcome != MSCP_OUTCOME_DONE)
        return outcome;
    const uint8_t *block = block_read(port, action);
    if (block == NULL)
        return MSCP_OUTCOME_FAILED;
    return memcmp(block, bytes, action->count) == 0 ? MSCP_OUTCOME_DONE : MSCP_OUTCOME_DIFFERENT;
}

static enum mscp_outcome transfer(struct port *port, const struct mscp_action *action)
{
    switch (action->opcode) {
    case MSCP_READ: case MSCP_ACCESS: return read_block(port, action);
    case MSCP_WRITE: return write_block(port, action);
    case MSCP_ERASE: return written(port, action, zeros);
    default: return compare(port, action);
    }
}

/* ---- a block that takes its time */

/* Begins with it, for which a WRITE takes its bytes out of the host's memory. It can't if those aren't there. */
static enum mscp_outcome begin_block(struct port *port, const struct mscp_action *action)
{
    const struct port_bus *bus = &port->bus;
    if (action->opcode == MSCP_WRITE) {
        enum mscp_outcome outcome = fill(port, action, 0, action->count);
        if (outcome != MSCP_OUTCOME_DONE)
            return outcome;
    }
    port->step = action->serial;
    port->slow = PORT_BEGUN;
    port->serial++;
    if (action->opcode == MSCP_WRITE || action->opcode == MSCP_ERASE)
        bus->begin_write(bus->machine, action->unit, action->block, action->opcode == MSCP_WRITE ? port->blocks : zeros,
                         port->serial);
    else
        bus->begin_read(bus->machine, action->unit, action->block, port->serial);
    return MSCP_OUTCOME_DONE;
}

/* Before an action is asked for: an ABORT, a reset or a new volume may have ended its command, and then another one may begin with
 * the same number, but not with the same serial. */
static void drop_unless_begun(struct port *port)
{
    if (step_of(port).serial != port->step)
        port->slow = PORT_IDLE;
}

bool port_moved(struct port *port, uint64_t serial, bool went_well, const uint8_t *bytes)
{
    if (port->slow != PORT_BEGUN || port->serial != serial)
        return false;
    port->slow = went_well ? PORT_MOVED : PORT_FAILED;
    if (went_well && bytes != NULL)
        memcpy(port->blocks, bytes, MSCP_BLOCK);
    return true;
}

/* ---- messages that the machine wants to see */

static void keep_message(struct port *port, bool is_to_host, const uint8_t *bytes, uint32_t length)
{
    port->passing.is_to_host = is_to_host;
    port->passing.length = (uint8_t)length;
    memcpy(port->passing.bytes, bytes, length);
}

/* An action was done with these bytes. What was read or written last has gone by when its slot is given back, by a WRITE
 * of four bytes: a command that has no credit stays in its slot, and is read again. A text has 12 bytes at least, behind
 * an envelope of four as it goes out; a slot has four, and an interrupt word two. */
static void see(struct port *port, const struct mscp_action *action, const uint8_t *bytes)
{
    enum { ENVELOPE = 4, SLOT = 4 };
    if (action->count > ENVELOPE && action->kind == MSCP_ACTION_READ)
        keep_message(port, false, bytes, action->count);
    else if (action->count > ENVELOPE)
        keep_message(port, true, bytes + ENVELOPE, action->count - ENVELOPE);
    else if (action->count == SLOT && action->kind == MSCP_ACTION_WRITE && port->passing.length > 0)
        port->bus.see_message(port->bus.machine, port->passing.is_to_host, port->passing.bytes, port->passing.length);
}

/* ---- a turn */

/* The host's memory was read or written, and the port got the report. What it answered. */
static inline int32_t told(struct port *port, int32_t status, const struct mscp_action *action, const uint8_t *bytes)
{
    wire_action(status, action, bytes);
    if (port->bus.see_message != NULL && status == MSCP_DONE)
        see(port, action, bytes);
    return status;
}

/* Does what the port wants, and reports how that went. If the host wrote IP in the meantime the port wants that no
 * more, and answers so: then there is nothing to do. */
static int32_t act(struct port *port, struct mscp_port *itself, const struct mscp_action *action)
{
    const struct port_bus *bus = &port->bus;
    enum mscp_outcome outcome = MSCP_OUTCOME_DONE;
    uint8_t bytes[sizeof action->bytes];
    switch (action->kind) {
    case MSCP_ACTION_READ:
        outcome = bus->read(bus->machine, action->address, bytes, action->count);
        if (outcome == MSCP_OUTCOME_DONE)
            return told(port, mscp_port_was_read(itself, bytes, action->count), action, bytes);
        break;
    case MSCP_ACTION_WRITE:
        outcome = bus->write(bus->machine, action->address, action->bytes, action->count);
        if (outcome == MSCP_OUTCOME_DONE)
            return told(port, mscp_port_went(itself, outcome, 0), action, action->bytes);
        break;
    case MSCP_ACTION_INTERRUPT: bus->interrupt(bus->machine, action->vector); break;
    case MSCP_ACTION_TRANSFER:
        if (is_slow(bus) && port->slow == PORT_IDLE) {
            outcome = begin_block(port, action);
            if (port->slow != PORT_IDLE)
                return MSCP_DONE; /* how it went is reported later */
        } else {
            outcome = transfer(port, action);
            port->slow = PORT_IDLE;
        }
        return mscp_port_went_by(itself, action->serial, outcome, DRIVE_ERROR);
    default: break; /* PAUSE: the machine went on since the last turn */
    }
    return mscp_port_went(itself, outcome, DRIVE_ERROR);
}

/* What it wants next: of messages alone, while a block takes its time. */
static int32_t next(struct port *port, struct mscp_port *itself, struct mscp_action *action)
{
    if (port->slow == PORT_IDLE)
        return mscp_port_next(itself, action);
    drop_unless_begun(port);
    return port->slow == PORT_BEGUN ? mscp_port_next_message(itself, action) : mscp_port_next(itself, action);
}

/* What was wanted is done at once, so that no volume changes in between. What was moved ahead counts in this turn alone. */
bool port_turn(struct port *port, unsigned most)
{
    struct mscp_port *itself = port_itself(port);
    const uint32_t lines = mscp_on_bus(port->lines, UINT32_MAX); /* which an address of the bus has */
    struct mscp_action action;
    port->ahead.count = 0;
    mscp_port_look_again(itself);
    for (port->left = most; port->left > 0; port->left--) {
        if (next(port, itself, &action) != MSCP_DONE)
            return false;
        if (action.kind == MSCP_ACTION_PAUSE && port->left < most)
            return true;
        action.address &= lines;
        act(port, itself, &action);
    }
    return true;
}

/* ---- what comes from elsewhere */

void port_second(struct port *port)
{
    mscp_port_tick(port_itself(port));
}

bool port_insert(struct port *port, uint16_t unit, const struct mscp_medium *medium)
{
    return mscp_port_volume_came(port_itself(port), unit, medium) == MSCP_DONE;
}

bool port_eject(struct port *port, uint16_t unit)
{
    return mscp_port_volume_went(port_itself(port), unit) == MSCP_DONE;
}
