/* machine.h: a machine for those that try a port: memory, four units of an RQDX3 (or MACHINE_UNITS), and a host that talks to
 * their port. */
#ifndef MACHINE_H
#define MACHINE_H
#include "trying.h"
#include <stdbool.h>
#ifdef LOG_WIRE
#include "../../examples/wire.h"
#else
#define wire_reset() ((void)0)
#define wire_action(status, action, bytes) (status)
#endif

#ifndef MACHINE_UNITS
#define MACHINE_UNITS 4
#endif
enum { MEMORY = 1 << 16, UNITS = MACHINE_UNITS, BLOCKS = 64, HOST_CREDITS = 16, MOST_ACTIONS = 100000 };

static struct {
    const struct mscp_hardware *hardware;
    struct mscp_port *port;
    MSCP_ALIGNED uint64_t rooms[2][(MSCP_HEAD + MSCP_PORT_SIZE) / sizeof(uint64_t)]; /* the port lies in one of them */
    bool moves; /* before each action the port goes to the other room, as to a file and back */
    bool saves; /* and so it does by the bytes that it is saved as */
    uint8_t memory[MEMORY];
    uint8_t disks[UNITS][BLOCKS][MSCP_BLOCK];
    uint32_t missing;    /* memory from here on isn't there */
    uint32_t interrupts; /* that came, and the vector of the last one */
    uint16_t vector;
    uint32_t transfers; /* blocks that were moved */
} machine;

static uint32_t policy = MSCP_OLDEST; /* of the machine that is built */

static const struct mscp_hardware RQDX3 = {.bus = MSCP_BUS_Q, .model = 19, .software = 3, .version = 1};
static const struct mscp_hardware UDA50 = {.bus = MSCP_BUS_UNI, .model = 6, .software = 3, .version = 1};

/* Units as RD54s, of the size that one really has. */
static inline struct mscp_unit rd54(uint16_t unit)
{
    const struct mscp_unit it = {
        .id = UINT64_C(0x020D000000000000) + unit, .size = 311200, .media = 0x25644036, .serial = 668u + unit,
        .number = unit, .track = 17, .group = 15, .cylinder = 1,
    };
    return it;
}

/* An RD54's volume comes into a unit. */
static inline int32_t insert(uint16_t unit, bool is_protected)
{
    const struct mscp_medium medium = {.size = 311200, .media = 0x25644036, .is_protected = is_protected};
    return mscp_port_volume_came(machine.port, unit, &medium);
}

/* A new machine, of which units 0 and 2 have volumes. Byte k of block n of unit u is k + n + u. */
static inline void build(const struct mscp_hardware *hardware)
{
    const struct mscp_limits limits = {
        .id = UINT64_C(0x0113000000000000), .budget = 512, .credits = HOST_CREDITS + 1, .longest = 65536, .timeout = 120,
    };
    struct mscp_unit units[UNITS];
    memset(&machine, 0, sizeof machine);
    machine.hardware = hardware;
    machine.missing = MEMORY;
    for (uint16_t u = 0; u < UNITS; u++) {
        units[u] = rd54(u);
        for (unsigned n = 0; n < BLOCKS; n++)
            for (unsigned k = 0; k < MSCP_BLOCK; k++)
                machine.disks[u][n][k] = (uint8_t)(k + n + u);
    }
    machine.port = mscp_port_in_memory(machine.rooms[0], sizeof machine.rooms[0]);
    is("init", mscp_port_init(machine.port, &limits, units, UNITS, policy, hardware, HOST_CREDITS), MSCP_DONE);
    is("a volume", insert(0, 0), MSCP_DONE);
    is("another", insert(2, 0), MSCP_DONE);
}

static inline bool is_there(uint32_t address, uint32_t count)
{
    return address <= machine.missing && count <= machine.missing - address;
}

/* Moves a block between memory and a disk, which has one of every number, or compares the two. */
static inline uint32_t move(const struct mscp_action *action)
{
    uint8_t *there = machine.disks[action->unit % UNITS][action->block % BLOCKS];
    bool touches_memory = action->opcode != MSCP_ACCESS && action->opcode != MSCP_ERASE;
    if (touches_memory && !is_there(action->address, action->count))
        return MSCP_OUTCOME_MISSING;
    uint8_t *at = touches_memory ? machine.memory + action->address : NULL;
    machine.transfers++;
    switch (action->opcode) {
    case MSCP_READ: memcpy(at, there, action->count); break;
    case MSCP_WRITE:
        memset(there, 0, MSCP_BLOCK);
        memcpy(there, at, action->count);
        break;
    case MSCP_ERASE: memset(there, 0, MSCP_BLOCK); break;
    case MSCP_COMPARE_HOST_DATA:
        return memcmp(there, at, action->count) == 0 ? MSCP_OUTCOME_DONE : MSCP_OUTCOME_DIFFERENT;
    default: is("an ACCESS", action->opcode, MSCP_ACCESS);
    }
    return MSCP_OUTCOME_DONE;
}

/* Does what an action is about the port's own words in memory, if all of that is there. */
static inline uint32_t reach(const struct mscp_action *action)
{
    if (!is_there(action->address, action->count))
        return MSCP_OUTCOME_MISSING;
    if (action->kind == MSCP_ACTION_WRITE)
        memcpy(machine.memory + action->address, action->bytes, action->count);
    return MSCP_OUTCOME_DONE;
}

/* Does an action, and answers how it went. */
static inline uint32_t perform(const struct mscp_action *action)
{
    switch (action->kind) {
    case MSCP_ACTION_PAUSE: return MSCP_OUTCOME_DONE;
    case MSCP_ACTION_TRANSFER: return move(action);
    case MSCP_ACTION_INTERRUPT:
        machine.interrupts++;
        machine.vector = action->vector;
        return MSCP_OUTCOME_DONE;
    default: return reach(action);
    }
}

/* Tells how it went: bytes that were read, or the outcome. */
static inline void tell(const struct mscp_action *action, uint32_t outcome)
{
    if (action->kind == MSCP_ACTION_READ && outcome == MSCP_OUTCOME_DONE) {
        const uint8_t *bytes = machine.memory + action->address;
        is("it is read", wire_action(mscp_port_was_read(machine.port, bytes, action->count), action, bytes), MSCP_DONE);
        return;
    }
    int32_t told = mscp_port_went(machine.port, outcome, 0x000B);
    is("it went", outcome == MSCP_OUTCOME_DONE ? wire_action(told, action, action->bytes) : told, MSCP_DONE);
}

static inline void move_port(void)
{
    uint64_t *from = (void *)machine.port == machine.rooms[0] ? machine.rooms[0] : machine.rooms[1];
    uint64_t *to = from == machine.rooms[0] ? machine.rooms[1] : machine.rooms[0];
    memcpy(to, from, sizeof machine.rooms[0]);
    memset(from, 0xA5, sizeof machine.rooms[0]);
    machine.port = mscp_port_moved(to);
}

/* The port is restored in the other room from what it was saved as, and saved as that again. */
static inline void restore_port(void)
{
    static uint8_t bytes[MSCP_PORT_SAVED_MAX], again[MSCP_PORT_SAVED_MAX];
    uint64_t *from = (void *)machine.port == machine.rooms[0] ? machine.rooms[0] : machine.rooms[1];
    uint64_t *to = from == machine.rooms[0] ? machine.rooms[1] : machine.rooms[0];
    size_t length = 0, other = 0;
    is("save", mscp_port_save(machine.port, bytes, sizeof bytes, &length), MSCP_DONE);
    memset(from, 0xA5, sizeof machine.rooms[0]);
    machine.port = mscp_port_in_memory(to, sizeof machine.rooms[0]);
    is("restore", mscp_port_restore(machine.port, bytes, length), MSCP_DONE);
    is("save again", mscp_port_save(machine.port, again, sizeof again, &other), MSCP_DONE);
    is("as long", (int64_t)other, (int64_t)length);
    is("the same bytes", memcmp(bytes, again, length), 0);
}

/* Does one action. Whether there was one. */
static inline bool act(void)
{
    struct mscp_action action;
    if (machine.moves)
        move_port();
    if (machine.saves)
        restore_port();
    if (mscp_port_next(machine.port, &action) != MSCP_DONE)
        return false;
    if (machine.moves)
        move_port();
    if (machine.saves)
        restore_port();
    tell(&action, perform(&action));
    return true;
}

/* Goes on until nothing is wanted, or so many actions. How many there were. */
static inline unsigned run(unsigned most)
{
    unsigned done = 0;
    while (done < most && act())
        done++;
    return done;
}

/* Does what the port wants until that is an action of this kind, which is left to do. */
static inline struct mscp_action until(uint8_t kind)
{
    struct mscp_action action = {0};
    while (mscp_port_next(machine.port, &action) == MSCP_DONE && action.kind != kind)
        tell(&action, perform(&action));
    is("the kind", action.kind, kind);
    return action;
}

/* ---- the host */

/* Where its rings lie, how many slots each has, and how many of them it has used. */
static struct {
    uint32_t base, responses, commands;
    uint32_t sent, taken;
    uint32_t flag;    /* bit 30 of a slot, if it wants to hear of it */
    uint32_t credits; /* the sum of what it was told */
} host;

/* Packets lie behind the rings, 72 bytes apart: header, text, and 4 bytes that nobody may touch. */
static inline uint32_t packet_of(bool is_response, uint32_t slot)
{
    uint32_t slots = host.responses + host.commands;
    return host.base + 4 * slots + 72 * (is_response ? slot : host.responses + slot);
}

static inline uint32_t slot_of(bool is_response, uint32_t slot)
{
    return host.base + 4 * (is_response ? slot : host.responses + slot);
}

/* SA shows this, and is answered by that word. */
static inline void answer(uint16_t shown, uint16_t word)
{
    is("SA", mscp_port_read_sa(machine.port), shown);
    is("it is written", mscp_port_write_sa(machine.port, word), MSCP_DONE);
    run(MOST_ACTIONS);
}

static inline void offer(uint32_t slot)
{
    put(machine.memory + slot_of(true, slot), 4, 0x80000000u | host.flag | (packet_of(true, slot) + 4));
}

/* What a host asks for as it initialises its port: rings at this base of two to these powers of slots, the low byte of
 * the first word, purge interrupts, a purge and poll test, the word of the last step, and bit 30 of its slots, if it
 * wants to hear of them. */
struct asked {
    uint32_t base;
    unsigned responses, commands;
    uint16_t bits;
    bool purges, tests;
    uint16_t go;
    uint32_t flag;
};

/* SA shows 0: the host purges, which the word 0 says, and polls. */
static inline void purge_and_poll(void)
{
    answer(0, 0);
    is("IP is read", mscp_port_read_ip(machine.port), MSCP_DONE);
    run(MOST_ACTIONS);
}

/* Initialises the port with rings of 1 to 128 slots, and gives it the slots for ends. */
static inline void initialise_as(const struct asked *it)
{
    uint16_t first = (uint16_t)(0x8000 | it->commands << 11 | it->responses << 8 | it->bits);
    memset(&host, 0, sizeof host);
    host.base = it->base;
    host.flag = it->flag;
    host.responses = 1u << it->responses;
    host.commands = 1u << it->commands;
    is("IP is written", mscp_port_write_ip(machine.port), MSCP_DONE);
    wire_reset();
    answer(machine.hardware->bus == MSCP_BUS_Q ? 0x0B40 : 0x0940, first);
    answer((uint16_t)(0x1000 | first >> 8), (uint16_t)(it->base | it->purges));
    answer((uint16_t)(0x2000 | (first & 0xFF)), (uint16_t)(it->base >> 16 | (it->tests ? 0x8000 : 0)));
    if (it->tests)
        purge_and_poll();
    answer((uint16_t)(0x4000 | machine.hardware->model << 4 | machine.hardware->software), it->go);
    is("SA once it is up", mscp_port_read_sa(machine.port), 0);
    for (uint32_t slot = 0; slot < host.responses; slot++)
        offer(slot);
}

static inline void initialise(uint32_t base, unsigned responses, unsigned commands, uint16_t bits)
{
    const struct asked asked = {.base = base, .responses = responses, .commands = commands, .bits = bits, .go = 1};
    initialise_as(&asked);
}

/* Puts a message of so many bytes into the next slot for commands, and reads IP. */
static inline void send(const void *text, uint32_t length)
{
    uint32_t slot = host.sent++ % host.commands, packet = packet_of(false, slot);
    put(machine.memory + packet, 4, length);
    memcpy(machine.memory + packet + 4, text, length);
    put(machine.memory + slot_of(false, slot), 4, 0x80000000u | host.flag | (packet + 4));
    is("IP is read", mscp_port_read_ip(machine.port), MSCP_DONE);
}

/* A command of 32 bytes, whose data are at an address. */
static inline void send_command(uint16_t unit, uint32_t reference, uint8_t opcode, uint32_t bytes, uint32_t block,
                                uint32_t address)
{
    uint8_t *text = command(reference, opcode, bytes, block);
    put(text + 4, 2, unit);
    put(text + 16, 4, address);
    send(text, 32);
}

/* The next slot for ends, if the port has given it back: its packet, and else NULL. */
static inline const uint8_t *look(void)
{
    uint32_t slot = host.taken % host.responses;
    if (number(machine.memory + slot_of(true, slot), 4) >= 0x80000000u)
        return NULL;
    return machine.memory + packet_of(true, slot);
}

/* Takes the next end out of its slot, which the port gets again. */
static inline bool take(uint8_t *packet)
{
    const uint8_t *there = look();
    if (there == NULL)
        return false;
    memcpy(packet, there, 68);
    host.credits += packet[2] & 15;
    is("the slot", number(machine.memory + slot_of(true, host.taken % host.responses), 4),
       0x40000000u | (packet_of(true, host.taken % host.responses) + 4));
    offer(host.taken++ % host.responses);
    return true;
}

/* Lets the port work, and takes an end of this command with this endcode. Its status. */
static inline uint32_t end_of(uint32_t reference, uint8_t code)
{
    uint8_t packet[68];
    mscp_port_look_again(machine.port);
    run(MOST_ACTIONS);
    if (!take(packet)) {
        is("there is an end of", 0, reference);
        return 0;
    }
    is("its number", number(packet + 4, 4), reference);
    is("its code", packet[12], code);
    return number(packet + 14, 2);
}

static inline void expect(uint32_t reference, uint8_t code, uint16_t status)
{
    is("its status", end_of(reference, code), status);
}
#endif
