/* What a round costs in C. A round is a send, the steps until a command ends, and a take; or a poll of the oldest command and a
 * take. Prints nanoseconds, the least of some runs. Build it with the library, with the one C file, or with the plain queue:
 *
 *     cc -O2 -Iinclude bench/rounds.c libmscp.a -o rounds && ./rounds
 *     cc -O2 -Iinclude bench/rounds.c portable/mscp.c -o rounds && ./rounds
 *     bench/plain/build . && cc -O2 -Iinclude bench/rounds.c libplain.a -lpthread -ldl -o rounds && ./rounds
 *
 * With numbers it does so many rounds once, for a count of instructions (bench/ratios has them): where so many READs wait, of so
 * many units, of one block or of one to eight, by a picker (0 is the oldest, 1 the sweep); with blocks 0 a round is a poll:
 *
 *     ./rounds ROUNDS WAITING UNITS BLOCKS PICKER */
#define _POSIX_C_SOURCE 199309L
#include "mscp.h"
#include <stdio.h>
#include <stdlib.h>
#include <time.h>

enum { ROUNDS = 100000, RUNS = 9, BLOCKS = 90000 };

static MSCP_ALIGNED uint64_t memory[(MSCP_HEAD + MSCP_SIZE) / sizeof(uint64_t)];
static struct mscp *mscp;
static uint32_t seed;

/* What waits, and what comes. */
struct work {
    uint32_t waiting, units, blocks, picker;
};

static void must(int32_t status, int32_t wanted)
{
    if (status == wanted)
        return;
    fprintf(stderr, "rounds: %s\n", mscp_status_text(status));
    exit(1);
}

static double nanoseconds(void)
{
    struct timespec now;
    clock_gettime(CLOCK_PROCESS_CPUTIME_ID, &now);
    return (double)now.tv_sec * 1e9 + (double)now.tv_nsec;
}

static void put(uint8_t *to, uint32_t number)
{
    for (int i = 0; i < 4; i++)
        to[i] = (uint8_t)(number >> (8 * i));
}

static void send(uint8_t opcode, uint32_t reference, uint32_t unit, uint32_t parameter, uint32_t block)
{
    uint8_t message[36] = {0};
    struct mscp_sent sent;
    put(message, reference);
    put(message + 4, unit);
    message[8] = opcode;
    put(message + 12, parameter);
    put(message + 28, block);
    must(mscp_send(mscp, MSCP_CONNECTION_FIRST, message, sizeof message, &sent),
         opcode == MSCP_GET_COMMAND_STATUS ? MSCP_ANSWERED : MSCP_QUEUED);
}

static void take(void)
{
    struct mscp_packet end;
    must(mscp_take(mscp, MSCP_CONNECTION_FIRST, &end), MSCP_DONE);
}

static void serve(void)
{
    struct mscp_report report;
    do
        must(mscp_step(mscp, 0, &report), MSCP_DONE);
    while (!report.ended);
    take();
}

/* A READ of one block or more, to one unit after the other. */
static void read_some(const struct work *work, uint32_t reference)
{
    seed = seed * 1664525 + 1013904223;
    uint32_t blocks = work->blocks < 2 ? 1 : 1 + (seed >> 3) % work->blocks;
    send(MSCP_READ, reference, reference % work->units, blocks * MSCP_BLOCK, (seed >> 8) % BLOCKS);
}

/* A controller whose units are online, where all but one of so many READs wait; for polls, all. */
static void fill(const struct work *work)
{
    static const struct mscp_limits LIMITS = {.id = 1, .budget = 1000000, .credits = 64, .longest = 8, .timeout = 60};
    struct mscp_unit units[MSCP_UNITS_MAX];
    for (uint32_t i = 0; i < work->units; i++)
        units[i] = (struct mscp_unit){.id = 1 + i, .size = BLOCKS + 8, .serial = 1, .number = (uint16_t)i, .track = 50, .group = 4, .cylinder = 2};
    seed = 12345;
    mscp = mscp_in_memory(memory, sizeof memory);
    must(mscp_init(mscp, &LIMITS, units, work->units, work->picker), MSCP_DONE);
    for (uint32_t i = 0; i < work->units; i++) {
        send(MSCP_ONLINE, 1, i, 0, 0);
        serve();
    }
    for (uint32_t i = work->blocks == 0 ? 0 : 1; i < work->waiting; i++)
        read_some(work, 1 + i);
}

static void go_round(const struct work *work, uint32_t i)
{
    if (work->blocks == 0) {
        send(MSCP_GET_COMMAND_STATUS, 100 + i, 0, 1, 0); /* of the oldest */
        take();
    } else {
        read_some(work, 100 + i);
        serve();
    }
}

static double measure(const struct work *work)
{
    double least = 1e18;
    for (int run = 0; run < RUNS; run++) {
        fill(work);
        double began = nanoseconds();
        for (uint32_t i = 0; i < ROUNDS; i++)
            go_round(work, i);
        double took = (nanoseconds() - began) / ROUNDS;
        least = took < least ? took : least;
    }
    return least;
}

int main(int words, char **word)
{
    static const uint32_t WAITING[] = {1, 8, 31, 63};
    if (words == 6) {
        const struct work work = {(uint32_t)atol(word[2]), (uint32_t)atol(word[3]), (uint32_t)atol(word[4]), (uint32_t)atol(word[5])};
        const uint32_t rounds = (uint32_t)atol(word[1]);
        fill(&work);
        for (uint32_t i = 0; i < rounds; i++)
            go_round(&work, i);
        return 0;
    }
    for (size_t i = 0; i < sizeof WAITING / sizeof WAITING[0]; i++) {
        struct work work = {WAITING[i], 1, 1, MSCP_OLDEST};
        double oldest = measure(&work);
        work.picker = MSCP_SWEEP;
        printf("%2u waiting: oldest %.0f ns, sweep %.0f ns\n", (unsigned)WAITING[i], oldest, measure(&work));
    }
    return 0;
}
