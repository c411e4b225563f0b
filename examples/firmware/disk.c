/* disk.c: a disk port in firmware, over examples/port.c as it is. Its registers are on a bus, and the bus interrupts the
 * processor for each access. Whatever the main program is at, the interrupt routine calls nothing of the library: it answers
 * SA from a copy, and puts what the host wrote, and that it read IP, in a queue. The main program takes that to the port
 * between two calls, and copies SA again.
 *
 * The host is a part of this program, too: it brings unit 0 online and reads its block 0. build says how this is compiled. */
#include "measure.h"
#include "port.h"
#include "string.h"

enum { IP = 0, SA = 2, MEMORY = 4096, WAITING = 8, BUFFER = 0x400, RESPONSE = 0x204, COMMAND = 0x244, RINGS = 0x284 };
enum { STACK_OF_TURNS = STACK_OF_CALLS + 1024 }; /* with what port.c takes, which has a block there at most */

static struct port port;
static struct measured init = {"an init", STACK_OF_INIT, 0, 0}, reading = {"reads of IP", STACK_OF_CALLS, 0, 0},
                       writing = {"writes of IP and SA", STACK_OF_CALLS, 0, 0}, turn = {"turns", STACK_OF_TURNS, 0, 0};

/* ---- the registers, as the bus sees them */

/* The lines of the bus: what its host does, and the word that it writes or is shown. */
static volatile struct { bool is_write; uint8_t offset; uint16_t word; } lines;
/* What the host did, and the port doesn't know yet; and what SA shows meanwhile. */
static volatile struct { bool is_write; uint8_t offset; uint16_t word; } queue[WAITING];
static volatile unsigned first, behind; /* both only grow */
static volatile uint16_t shown;

/* A host waits for the port's steps, so it never does more at once than the queue has room for. From a write of IP on SA
 * shows 0 until the port knows. */
void bus_interrupt(void)
{
    const bool is_look = lines.offset == SA && !lines.is_write;
    if (is_look) {
        lines.word = shown;
        return;
    }
    queue[behind % WAITING].is_write = lines.is_write;
    queue[behind % WAITING].offset = lines.offset;
    queue[behind % WAITING].word = lines.word;
    behind++;
    if (lines.offset == IP) {
        lines.word = 0;
        if (queue[(behind - 1) % WAITING].is_write)
            shown = 0;
    }
}

/* The oldest of what the host did goes to the port. */
static void tell_port(void)
{
    const unsigned at = first % WAITING, offset = queue[at].offset;
    const bool is_write = queue[at].is_write;
    measure_begins();
    if (is_write)
        port_write(&port, offset, queue[at].word);
    else
        port_read(&port, offset);
    measure_ends(is_write ? &writing : &reading);
    first++;
}

/* SA shows what the port says, unless the host has done something of which that doesn't know. */
static void show(void)
{
    const uint16_t word = port_read(&port, SA);
    mask_interrupts();
    if (first == behind)
        shown = word;
    unmask_interrupts();
}

/* What the main program does all the time: whether the port has more to do. */
static bool go_on(void)
{
    bool more;
    while (first != behind)
        tell_port();
    show();
    measure_begins();
    more = port_turn(&port, 1);
    measure_ends(&turn);
    show();
    return more || first != behind;
}

/* ---- what the port wants of its machine */

static uint8_t memory[MEMORY]; /* of the host */
static bool changes_its_mind;  /* whether the host writes IP as the port writes its memory next */
static void host_writes(uint8_t offset, uint16_t word);

static bool is_there(uint32_t address, uint32_t count) { return address <= MEMORY && count <= MEMORY - address; }

static enum mscp_outcome read_memory(void *machine, uint32_t address, uint8_t *bytes, uint32_t count)
{
    (void)machine;
    if (!is_there(address, count))
        return MSCP_OUTCOME_MISSING;
    memcpy(bytes, memory + address, count);
    return MSCP_OUTCOME_DONE;
}

static enum mscp_outcome write_memory(void *machine, uint32_t address, const uint8_t *bytes, uint32_t count)
{
    (void)machine;
    if (!is_there(address, count))
        return MSCP_OUTCOME_MISSING;
    memcpy(memory + address, bytes, count);
    if (changes_its_mind)
        host_writes(IP, 0);
    changes_its_mind = false;
    return MSCP_OUTCOME_DONE;
}

static void interrupt(void *machine, uint16_t vector)
{
    (void)machine;
    (void)vector; /* this host wants none */
}

static bool read_block(void *machine, uint16_t unit, uint32_t block, uint8_t *bytes)
{
    static const char text[] = "block 0 greets the firmware\n";
    (void)machine;
    memset(bytes, 0, MSCP_BLOCK);
    memcpy(bytes, text, sizeof text);
    return unit == 0 && block == 0;
}

static bool write_block(void *machine, uint16_t unit, uint32_t block, const uint8_t *bytes)
{
    (void)machine;
    (void)unit;
    (void)block;
    (void)bytes;
    return false; /* this medium is written once, when it is made */
}

static bool attach(void)
{
    static const struct port_bus bus = {.read = read_memory, .write = write_memory, .interrupt = interrupt,
                                        .read_block = read_block, .write_block = write_block};
    static const struct mscp_hardware rqdx3 = {.bus = MSCP_BUS_Q, .model = 19, .software = 3, .version = 1};
    static const struct mscp_unit rd54 = {.id = (uint64_t)2 << 56 | (uint64_t)13 << 48, .size = 64, .media = 0x25644036,
                                          .serial = 1, .track = 17, .group = 15, .cylinder = 1};
    static const struct mscp_medium medium = {.size = 64, .media = 0x25644036};
    bool is_open;
    measure_begins();
    is_open = port_open(&port, &bus, &rqdx3, &rd54, 1) == MSCP_DONE;
    measure_ends(&init);
    return is_open && port_insert(&port, 0, &medium);
}

/* ---- the host */

static uint16_t host_reads(uint8_t offset)
{
    lines.is_write = false;
    lines.offset = offset;
    raise_bus_interrupt();
    return lines.word;
}

static void host_writes(uint8_t offset, uint16_t word)
{
    lines.is_write = true;
    lines.offset = offset;
    lines.word = word;
    raise_bus_interrupt();
}

static void put(uint32_t address, unsigned bytes, uint32_t number)
{
    for (unsigned i = 0; i < bytes; i++)
        memory[address + i] = (uint8_t)(number >> 8 * i);
}

static uint32_t get(uint32_t address, unsigned bytes)
{
    uint32_t number = 0;
    for (unsigned i = 0; i < bytes; i++)
        number |= (uint32_t)memory[address + i] << 8 * i;
    return number;
}

/* Waits for a step of the initialisation, and answers it. */
static bool step(unsigned number, uint16_t answer)
{
    for (unsigned i = 0; i < 1000 && (host_reads(SA) & 0xF800u) != 0x0400u << number; i++)
        go_on();
    say("step ");
    say_number(number);
    say(": SA is ");
    say_hex(host_reads(SA), 4);
    say("\n");
    host_writes(SA, answer);
    return (host_reads(SA) & 0xF800u) == 0x0400u << number;
}

/* Sends a command of unit 0 by rings of one slot each, and waits for its end. Whether that says Success. */
static bool command(uint8_t opcode, uint32_t bytes)
{
    memset(memory + COMMAND, 0, 32);
    put(COMMAND - 4, 4, 32);
    memory[COMMAND + 8] = opcode;
    put(COMMAND + 12, 4, bytes);
    put(COMMAND + 16, 4, BUFFER);
    put(RINGS, 4, 0x80000000u | RESPONSE);
    put(RINGS + 4, 4, 0x80000000u | COMMAND);
    host_reads(IP);
    for (unsigned i = 0; i < 1000 && get(RINGS, 4) >= 0x80000000u; i++)
        go_on();
    return get(RINGS, 4) < 0x80000000u && memory[RESPONSE + 8] == (0x80 | opcode) && get(RESPONSE + 10, 2) == 0;
}

/* The first three steps, up to where the port clears the rings. */
static bool begin(void)
{
    host_writes(IP, 0);
    return step(1, 0x8000) && step(2, RINGS) && step(3, 0);
}

/* The host writes IP in the middle of a turn: SA shows 0 when that has ended, though the port doesn't know yet. */
static bool is_interrupted(void)
{
    changes_its_mind = true;
    for (unsigned i = 0; i < 1000 && changes_its_mind; i++)
        go_on();
    return !changes_its_mind && host_reads(SA) == 0;
}

static bool boot(void)
{
    if (!attach() || !begin() || !is_interrupted() || !begin() || !step(4, 1) || !command(MSCP_ONLINE, 0))
        return false;
    say("unit 0 is online: ");
    say_number(get(RESPONSE + 36, 4));
    say(" blocks\n");
    if (!command(MSCP_READ, MSCP_BLOCK))
        return false;
    say("booted: ");
    say((const char *)memory + BUFFER);
    return true;
}

int run(void)
{
    bool good = boot();
    good = tell(&init) && tell(&reading) && tell(&writing) && tell(&turn) && good;
    say(good ? "the port serves\n" : "the port doesn't serve\n");
    return !good;
}
