/* A READ of four blocks waits after an ONLINE, and its figure falls at each step. README.md shows the heart of this file.
 *
 *     cc figures.c $(pkg-config --cflags --libs mscp) -o figures */
#include "mscp.h"
#include <stdio.h>

static MSCP_ALIGNED uint64_t memory[(MSCP_HEAD + MSCP_SIZE) / sizeof(uint64_t)];

int main(void)
{
    const struct mscp_limits limits = {.credits = 4, .budget = 16, .longest = 8, .timeout = 60};
    const struct mscp_unit unit = {.id = 1, .size = 4000, .media = 1, .serial = 1, .track = 20, .group = 1, .cylinder = 1};
    const uint8_t online[36] = {1, [8] = MSCP_ONLINE}, read[36] = {2, [8] = MSCP_READ, [13] = 2048 / 256};
    struct mscp_sent sent;
    struct mscp_report report;
    struct mscp *mscp = mscp_in_memory(memory, sizeof memory);
    if (mscp_init(mscp, &limits, &unit, 1, MSCP_SWEEP) != MSCP_DONE ||
        mscp_send(mscp, MSCP_CONNECTION_FIRST, online, sizeof online, &sent) != MSCP_QUEUED ||
        mscp_send(mscp, MSCP_CONNECTION_FIRST, read, sizeof read, &sent) != MSCP_QUEUED)
        return 1;
    for (int64_t figure; (figure = mscp_figure(mscp, MSCP_CONNECTION_FIRST, 2)) > 0;) {
        printf("figure %d\n", (int)figure);
        if (mscp_step(mscp, 0, &report) != MSCP_DONE)
            return 1;
    }
    return 0;
}
