/* controller.c: a controller in firmware without a heap. Its host sends an ONLINE, a READ of four blocks among 58 others, and
 * polls it between the steps; what a drive would do is left out. build says how it is compiled. */
#include "measure.h"
#include "mscp.h"

enum { CREDITS = 64, OTHERS = 58, POLLED = 1, UNIT_BLOCKS = 1000 };

static MSCP_ALIGNED uint64_t memory[(MSCP_HEAD + MSCP_SIZE) / sizeof(uint64_t)];
static struct mscp *mscp;
static struct measured init = {"an init", STACK_OF_INIT, 0, 0}, send = {"sends", STACK_OF_CALLS, 0, 0},
                       poll = {"polls", STACK_OF_CALLS, 0, 0}, begin = {"begins", STACK_OF_CALLS, 0, 0},
                       end_of_block = {"finishes", STACK_OF_CALLS, 0, 0}, take = {"takes", STACK_OF_CALLS, 0, 0},
                       reset = {"a reset", STACK_OF_CALLS, 0, 0};

void bus_interrupt(void) {} /* nobody interrupts this program */

/* What a call answered, measured. */
#define MEASURED(of, call) (measure_begins(), answered = (call), measure_ends(&(of)), answered)
static int32_t answered;

static bool make(void)
{
    static const struct mscp_limits limits = {.id = 1, .budget = 16, .credits = CREDITS, .longest = 8, .timeout = 60};
    static const struct mscp_unit unit = {.id = 1, .size = UNIT_BLOCKS, .serial = 1, .track = 10, .group = 2, .cylinder = 1};
    mscp = mscp_in_memory(memory, sizeof memory);
    return MEASURED(init, mscp_init(mscp, &limits, &unit, 1, MSCP_SWEEP)) == MSCP_DONE;
}

static void put(uint8_t *bytes, uint32_t number)
{
    for (unsigned i = 0; i < 4; i++)
        bytes[i] = (uint8_t)(number >> 8 * i);
}

/* Sends a command to unit 0, with a number in its bytes 12 to 15 and a block. */
static int32_t submit(struct measured *of, uint32_t reference, uint8_t opcode, uint32_t number, uint32_t block)
{
    uint8_t message[32] = {0};
    struct mscp_sent sent;
    put(message, reference);
    message[8] = opcode;
    put(message + 12, number);
    put(message + 28, block);
    return MEASURED(*of, mscp_send(mscp, MSCP_CONNECTION_FIRST, message, sizeof message, &sent));
}

/* Takes the oldest end: the number in its bytes 16 to 19. */
static uint32_t take_end(void)
{
    struct mscp_packet end = {0};
    uint32_t number = 0;
    if (MEASURED(take, mscp_take(mscp, MSCP_CONNECTION_FIRST, &end)) == MSCP_DONE)
        for (unsigned i = 0; i < 4; i++)
            number |= (uint32_t)end.bytes[16 + i] << 8 * i;
    return number;
}

/* Serves a block, and takes the end of a command that ended. Whether one was served. */
static bool serve(struct mscp_report *report)
{
    struct mscp_upcoming next;
    if (MEASURED(begin, mscp_begin(mscp, &next)) != MSCP_DONE ||
        MEASURED(end_of_block, mscp_finish(mscp, next.connection, next.reference, 0, report)) != MSCP_DONE)
        return false;
    if (report->ended)
        take_end();
    return true;
}

/* Polls the READ between the steps until it has ended. Whether its figure fell each time, and was never 0. */
static bool figures_fall(void)
{
    struct mscp_report report = {0};
    uint32_t last = UINT32_MAX;
    do {
        uint32_t figure;
        if (submit(&poll, 100, MSCP_GET_COMMAND_STATUS, POLLED, 0) != MSCP_ANSWERED)
            return false;
        figure = take_end();
        say("the READ may wait for ");
        say_number(figure);
        say(" steps\n");
        if (figure == 0 || figure >= last || !serve(&report))
            return false;
        last = figure;
    } while (!report.ended || report.reference != POLLED);
    return true;
}

/* All that wait are served. Whether each credit is free then. */
static bool all_end(void)
{
    struct mscp_report report;
    uint32_t steps = 0;
    while (serve(&report))
        steps++;
    say("the others ended after ");
    say_number(steps);
    say(" more steps\n");
    return mscp_balance(mscp, MSCP_CONNECTION_FIRST) == CREDITS;
}

static bool work(void)
{
    struct mscp_report report;
    if (!make() || submit(&send, 9, MSCP_ONLINE, 0, 0) != MSCP_QUEUED || !serve(&report))
        return false;
    if (submit(&send, POLLED, MSCP_READ, 4 * MSCP_BLOCK, 40) != MSCP_QUEUED)
        return false;
    for (uint32_t i = 0; i < OTHERS; i++)
        if (submit(&send, 200 + i, MSCP_READ, MSCP_BLOCK, 37 * i % UNIT_BLOCKS) != MSCP_QUEUED)
            return false;
    return figures_fall() && all_end() && MEASURED(reset, mscp_reset(mscp)) == MSCP_DONE;
}

int run(void)
{
    bool good = work();
    good = tell(&init) && tell(&send) && tell(&poll) && tell(&begin) && tell(&end_of_block) && tell(&take) && tell(&reset) &&
           good;
    say(good ? "the controller serves\n" : "the controller doesn't serve\n");
    return !good;
}
