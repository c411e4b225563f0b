/* What a save and a restore of a controller cost, in nanoseconds: of 16 units with 63 READs that wait, and of one unit with
 * nothing. Build it with the installed library:
 *
 *     cc -O2 saving.c $(pkg-config --cflags --libs mscp) -o saving && ./saving */
#define _POSIX_C_SOURCE 199309L
#include <mscp.h>
#include <stdio.h>
#include <stdlib.h>
#include <time.h>

enum { ROUNDS = 100000 };

static uint8_t room[1 << 15], other[1 << 15], bytes[MSCP_SAVED_MAX];

static void must(int32_t status, int32_t wanted)
{
    if (status == wanted)
        return;
    fprintf(stderr, "saving: %s\n", mscp_status_text(status));
    exit(1);
}

static double now(void)
{
    struct timespec time;
    clock_gettime(CLOCK_PROCESS_CPUTIME_ID, &time);
    return 1e9 * (double)time.tv_sec + (double)time.tv_nsec;
}

static void measure(uint16_t count, uint32_t waiting)
{
    struct mscp_limits limits = {1, 512, 64, 0, 8, 60};
    struct mscp_unit units[16];
    struct mscp *mscp = mscp_in_memory(room, sizeof room);
    struct mscp_sent sent;
    size_t length = 0;
    for (uint16_t i = 0; i < count; i++) {
        const struct mscp_unit unit = {i, 1000, 0, 1, i, 10, 2, 1};
        units[i] = unit;
    }
    must(mscp_init(mscp, &limits, units, count, MSCP_SWEEP), MSCP_DONE);
    for (uint32_t i = 1; i <= waiting; i++) {
        uint8_t message[32] = {(uint8_t)i, 0, 0, 0, (uint8_t)(i % count), 0, 0, 0, MSCP_READ, 0, 0, 0, 0, 16};
        must(mscp_send(mscp, MSCP_CONNECTION_FIRST, message, 32, &sent), MSCP_QUEUED);
    }
    double start = now();
    for (int i = 0; i < ROUNDS; i++)
        must(mscp_save(mscp, bytes, sizeof bytes, &length), MSCP_DONE);
    double saved = now();
    for (int i = 0; i < ROUNDS; i++)
        must(mscp_restore(mscp_in_memory(other, sizeof other), bytes, length), MSCP_DONE);
    double restored = now();
    printf("%u units, %u waiting: %zu bytes, save %.0f ns, restore %.0f ns\n", (unsigned)count, (unsigned)waiting, length,
           (saved - start) / ROUNDS, (restored - saved) / ROUNDS);
}

int main(void)
{
    measure(1, 0);
    measure(16, 63);
    return 0;
}
