/* calls.c: what a send, the steps and a take of a READ cost from C, beside the same calls from Rattle (mscp_bench, which
 * bench/calls adds to a copy of the library), where so many commands wait: READs of a block to one unit, and of eight blocks
 * to sixteen. In both each message comes from memory and each end goes to memory, as with a port. The least of 15 runs
 * each, in turns. */
#include "mscp.h"
#include <stdio.h>
#include <time.h>

enum { ROUNDS = 50000, RUNS = 15, MESSAGES = 251 };

uint32_t mscp_bench(uint32_t rounds, uint32_t depth, uint32_t picker, uint32_t units, uint32_t blocks, uint8_t *port,
                    size_t length);

static union { long double number; void *pointer; unsigned char bytes[1 << 14]; } room;

static double nanoseconds(void)
{
    struct timespec now;
    clock_gettime(CLOCK_PROCESS_CPUTIME_ID, &now);
    return (double)now.tv_sec * 1e9 + (double)now.tv_nsec;
}

/* What is measured. */
struct load { uint32_t units, blocks, depth, picker; };

/* The messages stand in a table, as they would in the memory of a port: READs of different numbers, to one unit after the
 * other. */
static uint8_t messages[MESSAGES][32];

static void write_messages(const struct load *load)
{
    for (uint32_t i = 0; i < MESSAGES; i++) {
        uint32_t block = i * 7 % 992;
        messages[i][0] = (uint8_t)i;
        messages[i][4] = (uint8_t)(i % load->units);
        messages[i][8] = MSCP_READ;
        messages[i][13] = (uint8_t)(load->blocks * 2);
        messages[i][28] = (uint8_t)block;
        messages[i][29] = (uint8_t)(block >> 8);
    }
}

static uint32_t from_rattle(const struct load *load)
{
    uint8_t port[MSCP_PACKET_MAX];
    return mscp_bench(ROUNDS, load->depth, load->picker, load->units, load->blocks, port, sizeof port);
}

/* A controller of these units, each online. */
static struct mscp *fresh(const struct load *load)
{
    static const struct mscp_limits limits = {.id = 1, .credits = 64, .budget = 16, .longest = 8, .timeout = 60};
    struct mscp_unit units[MSCP_UNITS_MAX];
    struct mscp *mscp = mscp_in_memory(&room, sizeof room);
    struct mscp_sent sent;
    struct mscp_report report;
    struct mscp_packet end;
    for (uint16_t i = 0; i < MSCP_UNITS_MAX; i++)
        units[i] = (struct mscp_unit){.id = 1, .size = 1000, .serial = 1, .number = i, .track = 10, .group = 2, .cylinder = 1};
    if (mscp_init(mscp, &limits, units, load->units, load->picker) != MSCP_DONE)
        return mscp;
    for (uint32_t i = 0; i < load->units; i++) {
        uint8_t online[12] = {0, 0, 0, 0, (uint8_t)i, 0, 0, 0, MSCP_ONLINE};
        if (mscp_send(mscp, MSCP_CONNECTION_FIRST, online, sizeof online, &sent) != MSCP_QUEUED ||
            mscp_step(mscp, 0, &report) != MSCP_DONE || mscp_take(mscp, MSCP_CONNECTION_FIRST, &end) != MSCP_DONE)
            break;
    }
    return mscp;
}

/* As mscp_bench: a sum over what came. */
static uint32_t from_c(const struct load *load)
{
    struct mscp *mscp = fresh(load);
    struct mscp_sent sent;
    struct mscp_report report;
    struct mscp_packet end;
    uint32_t sum = 0;
    for (uint32_t round = 1; round < load->depth; round++)
        (void)!mscp_send(mscp, MSCP_CONNECTION_FIRST, messages[round], 32, &sent);
    for (uint32_t round = load->depth; round < load->depth + ROUNDS; round++) {
        (void)!mscp_send(mscp, MSCP_CONNECTION_FIRST, messages[round % MESSAGES], 32, &sent);
        for (uint32_t block = 0; block < load->blocks; block++)
            if (mscp_step(mscp, 0, &report) == MSCP_DONE)
                sum += report.seek;
        if (mscp_take(mscp, MSCP_CONNECTION_FIRST, &end) == MSCP_DONE)
            sum += end.bytes[0];
    }
    return sum;
}

static void measure(const struct load *load)
{
    static const char *const names[] = {"oldest", "sweep"};
    double least[2] = {1e18, 1e18};
    uint32_t sums[2] = {0, 0};
    write_messages(load);
    for (unsigned run = 0; run < 2 * RUNS; run++) {
        double began = nanoseconds(), took;
        sums[run % 2] = (run % 2 ? from_c : from_rattle)(load);
        took = (nanoseconds() - began) / ROUNDS;
        if (took < least[run % 2])
            least[run % 2] = took;
    }
    printf("%s, %2u units, %u blocks, %2u waiting: %.0f ns from Rattle, %.0f from C, %.2f times%s\n", names[load->picker],
           (unsigned)load->units, (unsigned)load->blocks, (unsigned)load->depth, least[0], least[1], least[1] / least[0],
           sums[0] == sums[1] ? "" : ", and OTHER ANSWERS");
}

int main(void)
{
    for (uint32_t picker = 0; picker < 2; picker++)
        for (uint32_t many = 0; many < 2; many++)
            for (uint32_t depth = 1; depth <= 63; depth += depth == 1 ? 30 : 32) {
                struct load load = {many ? 16 : 1, many ? 8 : 1, depth, picker};
                measure(&load);
            }
    return 0;
}
