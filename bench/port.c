/* What a port costs in C, in nanoseconds of the processor: a READ of one block, from the word in the ring to its end in host
 * memory, and each further block. With examples/port.c, so callbacks and copies are in it. The least of some runs. Build it
 * with the library, or with the one C file:
 *
 *     cc -O2 -Iinclude -Iexamples bench/port.c examples/port.c libmscp.a -o port && ./port
 *     cc -O2 -Iinclude -Iexamples bench/port.c examples/port.c portable/mscp.c -o port && ./port
 *
 * With numbers it does so many commands of so many blocks once, for a count of instructions:
 *
 *     valgrind --tool=callgrind --callgrind-out-file=/dev/null ./port COMMANDS BLOCKS */
#define _POSIX_C_SOURCE 199309L
#include "port.h"
#include <stdio.h>
#include <stdlib.h>
#include <string.h>
#include <time.h>

enum { MEMORY = 1 << 17, RINGS = 0x1000, RESPONSE = 0x2004, COMMAND = 0x2104, DATA = 0x4000, COMMANDS = 10000, RUNS = 9 };

static uint8_t memory[MEMORY];
static uint8_t disk[MSCP_BLOCK];
static struct port port;

static void must(bool holds, const char *what)
{
    if (holds)
        return;
    fprintf(stderr, "port: %s\n", what);
    exit(1);
}

/* ---- the machine */

static enum mscp_outcome read_memory(void *machine, uint32_t address, uint8_t *bytes, uint32_t count)
{
    (void)machine;
    if (address > MEMORY || count > MEMORY - address)
        return MSCP_OUTCOME_MISSING;
    memcpy(bytes, memory + address, count);
    return MSCP_OUTCOME_DONE;
}

static enum mscp_outcome write_memory(void *machine, uint32_t address, const uint8_t *bytes, uint32_t count)
{
    (void)machine;
    if (address > MEMORY || count > MEMORY - address)
        return MSCP_OUTCOME_MISSING;
    memcpy(memory + address, bytes, count);
    return MSCP_OUTCOME_DONE;
}

static void interrupt(void *machine, uint16_t vector)
{
    (void)machine, (void)vector;
}

static bool read_block(void *machine, uint16_t unit, uint32_t block, uint8_t *bytes)
{
    (void)machine, (void)unit, (void)block;
    memcpy(bytes, disk, MSCP_BLOCK);
    return true;
}

static bool write_block(void *machine, uint16_t unit, uint32_t block, const uint8_t *bytes)
{
    (void)machine, (void)unit, (void)block;
    memcpy(disk, bytes, MSCP_BLOCK);
    return true;
}

/* ---- its host */

static void put(uint32_t address, unsigned bytes, uint32_t number)
{
    for (unsigned i = 0; i < bytes; i++)
        memory[address + i] = (uint8_t)(number >> (8 * i));
}

static void answer(uint16_t word)
{
    port_turn(&port, 1000);
    port_write(&port, 2, word);
    port_turn(&port, 1000);
}

/* Rings of one slot each. A command and its end. */
static void command(uint8_t opcode, uint32_t bytes)
{
    memset(memory + COMMAND, 0, 32);
    put(COMMAND - 4, 4, 32);
    memory[COMMAND + 8] = opcode;
    put(COMMAND + 12, 4, bytes);
    put(COMMAND + 16, 4, DATA);
    put(RINGS, 4, 0x80000000u | RESPONSE);
    put(RINGS + 4, 4, 0x80000000u | COMMAND);
    port_read(&port, 0);
    while (port_turn(&port, 1000))
        continue;
    must(memory[RINGS + 3] < 0x80 && memory[RESPONSE + 8] == (0x80 | opcode) && memory[RESPONSE + 10] == 0, "no end of Success");
}

static void open(void)
{
    static const struct port_bus bus = {.read = read_memory, .write = write_memory, .interrupt = interrupt,
                                        .read_block = read_block, .write_block = write_block};
    static const struct mscp_hardware rqdx3 = {.bus = MSCP_BUS_Q, .model = 19, .software = 3, .version = 1};
    const struct mscp_unit rd54 = {.id = 1, .size = 311200, .media = 0x25644036, .serial = 1, .track = 17, .group = 15, .cylinder = 1};
    const struct mscp_medium medium = {.size = 311200, .media = 0x25644036};
    must(port_open(&port, &bus, &rqdx3, &rd54, 1) == MSCP_DONE, "no port");
    must(port_insert(&port, 0, &medium), "no volume");
    answer(0x8000);
    answer(RINGS);
    answer(0);
    answer(1);
    command(MSCP_ONLINE, 0);
}

static double nanoseconds(void)
{
    struct timespec now;
    clock_gettime(CLOCK_PROCESS_CPUTIME_ID, &now);
    return (double)now.tv_sec * 1e9 + (double)now.tv_nsec;
}

/* The least that a READ of so many blocks takes. */
static double least(unsigned blocks)
{
    double best = 1e18;
    for (unsigned run = 0; run < RUNS; run++) {
        double began = nanoseconds();
        for (unsigned i = 0; i < COMMANDS; i++)
            command(MSCP_READ, blocks * MSCP_BLOCK);
        double took = (nanoseconds() - began) / COMMANDS;
        best = took < best ? took : best;
    }
    return best;
}

int main(int words, char **word)
{
    open();
    if (words == 3) {
        for (long i = atol(word[1]); i > 0; i--)
            command(MSCP_READ, (uint32_t)atol(word[2]) * MSCP_BLOCK);
        return 0;
    }
    double one = least(1), more = least(101);
    printf("a READ of one block %.0f, each further block %.0f\n", one, (more - one) / 100);
    return 0;
}
