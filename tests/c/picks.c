/* Which of 60 waiting commands starts, where few may pass the oldest: by the sweep the cheapest, wherever it stands among them,
 * and the oldest once it was passed by as many blocks as the budget has. Prints what is wrong, and ends with 1 where something is. */
#include "trying.h"

enum { WAITING = 60, LONGEST = 8 };

static MSCP_ALIGNED uint64_t room[(MSCP_HEAD + MSCP_SIZE) / sizeof(uint64_t)];
static struct mscp *mscp;

/* A controller of one unit, of one block a cylinder, which is online. */
static void begin(uint32_t picker, uint64_t budget)
{
    const struct mscp_limits limits = {.id = 1, .budget = budget, .credits = 64, .longest = LONGEST, .timeout = 60};
    const struct mscp_unit unit = {.id = 1, .size = 1000, .serial = 1, .track = 1, .group = 1, .cylinder = 1};
    struct mscp_sent sent;
    struct mscp_report report;
    struct mscp_packet end;
    memset(room, 0, sizeof room);
    mscp = mscp_in_memory(room, sizeof room);
    is("init", mscp_init(mscp, &limits, &unit, 1, picker), MSCP_DONE);
    is("ONLINE", mscp_send(mscp, FIRST, command(99, MSCP_ONLINE, 0, 0), 32, &sent), MSCP_QUEUED);
    is("its step", mscp_step(mscp, 0, &report), MSCP_DONE);
    is("its end", mscp_take(mscp, FIRST, &end), MSCP_DONE);
}

/* The command that came so many after the first one is for this block. The first has more, so that not all may pass another for
 * as long as it waits. */
static void reads(uint32_t number, uint32_t block)
{
    struct mscp_sent sent;
    uint32_t blocks = number == 0 ? LONGEST : 1;
    is("READ", mscp_send(mscp, FIRST, command(number, MSCP_READ, blocks * MSCP_BLOCK, block), 32, &sent), MSCP_QUEUED);
}

static void starts(uint32_t number)
{
    struct mscp_report report = {0};
    uint32_t blocks = number == 0 ? LONGEST : 1;
    for (uint32_t done = 1; done <= blocks; done++) {
        is("a step", mscp_step(mscp, 0, &report), MSCP_DONE);
        is("it starts", report.reference, number);
        is("it ends", report.ended, done == blocks);
    }
}

/* The nearest is `from`, and those behind it are farther and farther; those before it are the farthest. As many of them as the
 * budget has blocks go first, then those before `from`, oldest first. */
static void cheapest_go_first(uint32_t from, uint32_t budget)
{
    begin(MSCP_SWEEP, budget);
    for (uint32_t n = 0; n < WAITING; n++)
        reads(n, n >= from ? 1 + n - from : 500 + n);
    for (uint32_t n = from; n < from + budget; n++)
        starts(n);
    for (uint32_t n = 0; n < from; n++)
        starts(n);
}

/* The last is the nearest, the one before it the next, and so on. */
static void last_goes_first(uint32_t budget)
{
    begin(MSCP_SWEEP, budget);
    for (uint32_t n = 0; n < WAITING; n++)
        reads(n, WAITING - n);
    for (uint32_t n = 0; n < budget; n++)
        starts(WAITING - 1 - n);
    for (uint32_t n = 0; n < WAITING - budget; n++)
        starts(n);
    struct mscp_report report;
    is("none is left", mscp_step(mscp, 0, &report), MSCP_NOTHING);
}

int main(void)
{
    for (uint32_t budget = 0; budget < WAITING; budget++)
        last_goes_first(budget);
    for (uint32_t from = 1; from + 1 < WAITING; from++) {
        cheapest_go_first(from, 1);
        cheapest_go_first(from, from + LONGEST < WAITING ? LONGEST : WAITING - from);
    }
    begin(MSCP_OLDEST, 100);
    for (uint32_t n = 0; n < WAITING; n++)
        reads(n, WAITING - n);
    for (uint32_t n = 0; n < WAITING; n++)
        starts(n);
    return wrong;
}
