/* Two connections of mscp.h, one alone, and numbers that are none. Prints what is wrong, and ends with 1 where something
 * is. */
#include "trying.h"

static const struct mscp_unit UNIT = {1, 1000, 0, 1, 0, 10, 2, 1};

/* A controller with so many credits for each connection, unit 0 of which is online. */
static struct mscp *controller(uint32_t credits, uint32_t second)
{
    struct mscp_limits limits = {1, 16, 4, 0, 8, 60};
    size_t size = MSCP_HEAD + mscp_size();
    struct mscp *mscp = mscp_in_memory(memory_of(size), size);
    struct mscp_sent sent;
    struct mscp_report report;
    struct mscp_packet end;
    limits.credits = credits;
    limits.second = second;
    is("init", mscp_init(mscp, &limits, &UNIT, 1, MSCP_OLDEST), MSCP_DONE);
    is("online", mscp_send(mscp, FIRST, command(1, MSCP_ONLINE, 0, 0), 12, &sent), MSCP_QUEUED);
    is("step", mscp_step(mscp, 0, &report), MSCP_DONE);
    is("whose", report.reference == 1 && report.connection == FIRST, 1);
    is("take", mscp_take(mscp, FIRST, &end), MSCP_DONE);
    return mscp;
}

/* ---- credits */

static void credits_of_both(void)
{
    const struct {
        uint32_t credits, second;
        int32_t status;
    } cases[] = {
        {2, 62, MSCP_DONE},         {64, 0, MSCP_DONE},        {2, 2, MSCP_DONE},         {62, 2, MSCP_DONE},
        {2, 0, MSCP_DONE},          {0, 0, MSCP_BAD_CREDITS},  {1, 0, MSCP_BAD_CREDITS},
        {3, 62, MSCP_BAD_CREDITS},  {4, 1, MSCP_BAD_CREDITS},  {64, 2, MSCP_BAD_CREDITS}, {2, 63, MSCP_BAD_CREDITS},
        {0, 4, MSCP_BAD_CREDITS},   {1, 2, MSCP_BAD_CREDITS},  {65, 0, MSCP_BAD_CREDITS},
        {4, UINT32_MAX, MSCP_BAD_CREDITS},                     {8, UINT32_MAX - 3, MSCP_BAD_CREDITS},
        {UINT32_MAX, 2, MSCP_BAD_CREDITS},
    };
    size_t size = MSCP_HEAD + mscp_size();
    void *memory = memory_of(size);
    for (size_t i = 0; i < COUNT(cases); i++) {
        struct mscp_limits limits = {1, 16, 4, 0, 8, 60};
        struct mscp *mscp = mscp_in_memory(memory, size);
        limits.credits = cases[i].credits;
        limits.second = cases[i].second;
        is("limits", mscp_init(mscp, &limits, &UNIT, 1, MSCP_SWEEP), cases[i].status);
        if (cases[i].status == MSCP_DONE) {
            is("balance of the first", mscp_balance(mscp, FIRST), cases[i].credits);
            is("balance of the second", mscp_balance(mscp, SECOND), cases[i].second);
        }
    }
    free(memory);
}

/* What one connection holds takes no credit of the other. */
static void credits_apart(void)
{
    struct mscp *mscp = controller(2, 3);
    struct mscp_sent sent;
    struct mscp_packet end;
    is("a first", mscp_send(mscp, FIRST, command(2, MSCP_READ, 512, 0), 32, &sent), MSCP_QUEUED);
    is("the last", mscp_send(mscp, FIRST, command(3, MSCP_READ, 512, 0), 32, &sent), MSCP_LAST_CREDIT);
    is("a poll", mscp_send(mscp, FIRST, command(3, MSCP_GET_COMMAND_STATUS, 2, 0), 16, &sent), MSCP_ANSWERED);
    is("none is left", mscp_send(mscp, FIRST, command(4, MSCP_GET_COMMAND_STATUS, 2, 0), 16, &sent), MSCP_NO_CREDIT);
    is("a first of the second", mscp_send(mscp, SECOND, command(3, MSCP_READ, 512, 0), 32, &sent), MSCP_QUEUED);
    is("and another", mscp_send(mscp, SECOND, command(4, MSCP_READ, 512, 0), 32, &sent), MSCP_QUEUED);
    is("its last", mscp_send(mscp, SECOND, command(5, MSCP_READ, 512, 0), 32, &sent), MSCP_LAST_CREDIT);
    is("balance", mscp_balance(mscp, FIRST), 0);
    is("balance of the second", mscp_balance(mscp, SECOND), 1);
    is("waiting", mscp_waiting(mscp, FIRST), 1);
    is("waiting of the second", mscp_waiting(mscp, SECOND), 2);
    is("untaken", mscp_untaken(mscp, FIRST), 1);
    is("untaken of the second", mscp_untaken(mscp, SECOND), 0);
    is("nothing to take there", mscp_take(mscp, SECOND, &end), MSCP_NOTHING);
    is("take", mscp_take(mscp, FIRST, &end) == MSCP_DONE && number(end.bytes, 4) == 3 && end.bytes[8] == 0x82, 1);
    is("balance", mscp_balance(mscp, FIRST), 1);
    is("reset", mscp_reset(mscp), MSCP_DONE);
    is("all are free", mscp_balance(mscp, FIRST) == 2 && mscp_balance(mscp, SECOND) == 3, 1);
    is("nothing waits", mscp_waiting(mscp, FIRST) + mscp_waiting(mscp, SECOND), 0);
    free(mscp);
}

/* ---- names */

/* Both have a READ of number 5: the first's of two blocks, and then the second's of one. */
static struct mscp *with_the_same_number(void)
{
    struct mscp *mscp = controller(4, 4);
    struct mscp_sent sent;
    struct mscp_waiting list[3] = {{7, 7, 7}, {7, 7, 7}, {7, 7, 7}};
    is("read", mscp_send(mscp, FIRST, command(5, MSCP_READ, 1024, 40), 32, &sent), MSCP_QUEUED);
    is("again", mscp_send(mscp, FIRST, command(5, MSCP_READ, 512, 40), 32, &sent), MSCP_DOUBLED);
    is("read of the second", mscp_send(mscp, SECOND, command(5, MSCP_READ, 512, 80), 32, &sent), MSCP_QUEUED);
    is("again", mscp_send(mscp, SECOND, command(5, MSCP_READ, 512, 80), 32, &sent), MSCP_DOUBLED);
    is("figure", mscp_figure(mscp, FIRST, 5), 18);
    is("figure of the second", mscp_figure(mscp, SECOND, 5), 19);
    is("figure of none", mscp_figure(mscp, SECOND, 1), 0);
    is("look", mscp_look(mscp, list, 3), 2);
    is("the first", list[0].connection == FIRST && list[0].reference == 5 && list[0].figure == 18, 1);
    is("the second", list[1].connection == SECOND && list[1].reference == 5 && list[1].figure == 19, 1);
    is("no more", list[2].connection == 7 && list[2].reference == 7 && list[2].figure == 7, 1);
    return mscp;
}

/* A poll and an ABORT mean the command of their own connection. */
static void polls_and_aborts(void)
{
    struct mscp *mscp = with_the_same_number();
    struct mscp_sent sent;
    struct mscp_packet end;
    struct mscp_upcoming next;
    is("poll", mscp_send(mscp, SECOND, command(6, MSCP_GET_COMMAND_STATUS, 5, 0), 16, &sent), MSCP_ANSWERED);
    is("its end isn't the first's", mscp_take(mscp, FIRST, &end), MSCP_NOTHING);
    is("its end", mscp_take(mscp, SECOND, &end) == MSCP_DONE && number(end.bytes + 16, 4) == 19, 1);
    is("abort", mscp_send(mscp, FIRST, command(6, MSCP_ABORT, 5, 0), 16, &sent), MSCP_ANSWERED);
    is("of its own", sent.has_aborted && sent.aborted == 5, 1);
    is("it is gone", mscp_figure(mscp, FIRST, 5), 0);
    is("the other waits", mscp_figure(mscp, SECOND, 5), 17);
    is("its end isn't the second's", mscp_take(mscp, SECOND, &end), MSCP_NOTHING);
    is("its end first", mscp_take(mscp, FIRST, &end) == MSCP_DONE && number(end.bytes, 4) == 5, 1);
    is("aborted", number(end.bytes + 10, 2), 2);
    is("then that of the abort", mscp_take(mscp, FIRST, &end) == MSCP_DONE && number(end.bytes, 4) == 6, 1);
    is("begin", mscp_begin(mscp, &next) == MSCP_DONE && next.connection == SECOND && next.reference == 5, 1);
    is("abort again", mscp_send(mscp, FIRST, command(7, MSCP_ABORT, 5, 0), 16, &sent), MSCP_ANSWERED);
    is("nobody", sent.has_aborted, 0);
    is("begin again", mscp_begin(mscp, &next) == MSCP_DONE && next.connection == SECOND && next.lbn == 80, 1);
    free(mscp);
}

/* A finish is of the command that was begun, by its connection and its number, and the end goes to that connection. */
static void finishes(void)
{
    struct mscp *mscp = with_the_same_number();
    struct mscp_packet end;
    struct mscp_upcoming next;
    struct mscp_report report;
    is("begin", mscp_begin(mscp, &next) == MSCP_DONE && next.connection == FIRST && next.lbn == 40, 1);
    is("the other's finish", mscp_finish(mscp, SECOND, 5, 0, &report), MSCP_NOT_BEGUN);
    is("finish", mscp_finish(mscp, FIRST, 5, 0, &report) == MSCP_DONE && report.connection == FIRST, 1);
    is("step", mscp_step(mscp, 0, &report) == MSCP_DONE && report.ended && report.connection == FIRST, 1);
    is("begin", mscp_begin(mscp, &next) == MSCP_DONE && next.connection == SECOND && next.lbn == 80, 1);
    is("the other's finish", mscp_finish(mscp, FIRST, 5, 0, &report), MSCP_NOT_BEGUN);
    is("finish", mscp_finish(mscp, SECOND, 5, 0, &report) == MSCP_DONE && report.connection == SECOND, 1);
    is("it ended", report.ended && report.lbn == 80, 1);
    is("an end each", mscp_untaken(mscp, FIRST) == 1 && mscp_untaken(mscp, SECOND) == 1, 1);
    is("the second's", mscp_take(mscp, SECOND, &end) == MSCP_DONE && number(end.bytes + 12, 4) == 512, 1);
    is("the first's", mscp_take(mscp, FIRST, &end) == MSCP_DONE && number(end.bytes + 12, 4) == 1024, 1);
    free(mscp);
}

/* ---- no connection */

union out {
    struct mscp_holder holder;
    struct mscp_sent sent;
    struct mscp_packet packet;
    struct mscp_report report;
};

/* Each call of a connection refuses this number of one. What it would write is left. */
static void refuse(struct mscp *mscp, uint32_t none, int32_t status)
{
    union out out, before;
    memset(&out, 0xA5, sizeof out);
    memset(&before, 0xA5, sizeof before);
    is("send", mscp_send(mscp, none, command(9, MSCP_READ, 512, 0), 32, &out.sent), status);
    is("short send", mscp_send(mscp, none, NULL, 0, &out.sent), status);
    is("take", mscp_take(mscp, none, &out.packet), status);
    is("finish", mscp_finish(mscp, none, 5, 0, &out.report), status);
    is("finish of no status", mscp_finish(mscp, none, 5, 4, &out.report), status);
    is("why", mscp_why(mscp, none, 5, &out.holder, 1), status);
    is("figure", mscp_figure(mscp, none, 5), status);
    is("balance", mscp_balance(mscp, none), status);
    is("waiting", mscp_waiting(mscp, none), status);
    is("untaken", mscp_untaken(mscp, none), status);
    is("what is told", memcmp(&out, &before, sizeof out), 0);
}

/* Also where one command is begun, and an end wasn't taken. */
static void numbers_that_are_none(void)
{
    const uint32_t numbers[] = {2, 3, 128, 255, 256, 257, 65536, 65537, UINT32_C(1) << 31, UINT32_MAX};
    size_t size = MSCP_HEAD + mscp_size();
    struct mscp *mscp = with_the_same_number();
    struct mscp_sent sent;
    struct mscp_upcoming next;
    void *same = memory_of(size);
    is("an end", mscp_send(mscp, SECOND, command(6, MSCP_GET_UNIT_STATUS, 0, 0), 12, &sent), MSCP_ANSWERED);
    is("begin", mscp_begin(mscp, &next), MSCP_DONE);
    memcpy(same, mscp, size);
    for (size_t i = 0; i < COUNT(numbers); i++)
        refuse(mscp, numbers[i], MSCP_BAD_CONNECTION);
    is("the memory", memcmp(mscp, same, size), 0);
    refuse(mscp_in_memory(same, size), 2, MSCP_NOT_MADE);
    free(mscp);
    free(same);
}

/* Where the second has no credits, none of its messages gets in. */
static void without_a_second(void)
{
    static const uint8_t zeros[65];
    size_t size = MSCP_HEAD + mscp_size();
    struct mscp *mscp = controller(4, 0);
    struct mscp_sent sent;
    struct mscp_packet end;
    struct mscp_upcoming next;
    struct mscp_report report;
    void *same = memory_of(size);
    is("read", mscp_send(mscp, FIRST, command(5, MSCP_READ, 512, 0), 32, &sent), MSCP_QUEUED);
    is("poll", mscp_send(mscp, FIRST, command(6, MSCP_GET_COMMAND_STATUS, 5, 0), 16, &sent), MSCP_ANSWERED);
    is("begin", mscp_begin(mscp, &next), MSCP_DONE);
    memcpy(same, mscp, size);
    is("short", mscp_send(mscp, SECOND, zeros, 11, &sent), MSCP_SHORT);
    is("long", mscp_send(mscp, SECOND, zeros, 65, &sent), MSCP_LONG);
    is("a read", mscp_send(mscp, SECOND, command(5, MSCP_READ, 512, 0), 32, &sent), MSCP_NO_CREDIT);
    is("a poll", mscp_send(mscp, SECOND, command(7, MSCP_GET_COMMAND_STATUS, 5, 0), 16, &sent), MSCP_NO_CREDIT);
    is("an abort", mscp_send(mscp, SECOND, command(7, MSCP_ABORT, 5, 0), 16, &sent), MSCP_NO_CREDIT);
    is("take", mscp_take(mscp, SECOND, &end), MSCP_NOTHING);
    is("finish", mscp_finish(mscp, SECOND, 5, 0, &report), MSCP_NOT_BEGUN);
    is("figure", mscp_figure(mscp, SECOND, 5), 0);
    is("balance", mscp_balance(mscp, SECOND), 0);
    is("waiting", mscp_waiting(mscp, SECOND), 0);
    is("untaken", mscp_untaken(mscp, SECOND), 0);
    is("the memory", memcmp(mscp, same, size), 0);
    is("the first's", mscp_figure(mscp, FIRST, 5) == 17 && mscp_untaken(mscp, FIRST) == 1, 1);
    free(mscp);
    free(same);
}

/* ---- who keeps whom back */

static int is_holder(const struct mscp_holder *it, uint32_t reference, uint8_t connection, uint8_t fences,
                     uint8_t overdrawn)
{
    return it->reference == reference && it->connection == connection && it->fences == fences &&
           it->overdrawn == overdrawn;
}

/* An AVAILABLE stays behind both READs of its unit. */
static void fences(void)
{
    struct mscp *mscp = with_the_same_number();
    struct mscp_sent sent;
    struct mscp_holder list[3] = {{7, 7, 7, 7}, {7, 7, 7, 7}, {7, 7, 7, 7}};
    is("nobody before the first", mscp_why(mscp, FIRST, 5, list, 3), 0);
    is("nobody before the second", mscp_why(mscp, SECOND, 5, list, 3), 0);
    is("available", mscp_send(mscp, FIRST, command(6, MSCP_AVAILABLE, 0, 0), 12, &sent), MSCP_QUEUED);
    is("with room for one", mscp_why(mscp, FIRST, 6, list, 1), 2);
    is("the first", is_holder(&list[0], 5, FIRST, 1, 0) && is_holder(&list[1], 7, 7, 7, 7), 1);
    is("both", mscp_why(mscp, FIRST, 6, list, 3), 2);
    is("the first", is_holder(&list[0], 5, FIRST, 1, 0), 1);
    is("the second", is_holder(&list[1], 5, SECOND, 1, 0) && is_holder(&list[2], 7, 7, 7, 7), 1);
    is("with no room", mscp_why(mscp, FIRST, 6, NULL, 0), 2);
    is("of the other connection", mscp_why(mscp, SECOND, 6, list, 3), 0);
    free(mscp);
}

/* With a budget of 3 blocks a READ of 3 may pass one READ, and one of 4 may not. */
static void budgets(void)
{
    const struct mscp_limits limits = {1, 3, 6, 0, 8, 60};
    size_t size = MSCP_HEAD + mscp_size();
    struct mscp *mscp = mscp_in_memory(memory_of(size), size);
    struct mscp_sent sent;
    struct mscp_holder list[2] = {{7, 7, 7, 7}, {7, 7, 7, 7}};
    is("init", mscp_init(mscp, &limits, &UNIT, 1, MSCP_OLDEST), MSCP_DONE);
    is("read", mscp_send(mscp, FIRST, command(1, MSCP_READ, 512, 40), 32, &sent), MSCP_QUEUED);
    is("of three", mscp_send(mscp, FIRST, command(2, MSCP_READ, 1536, 40), 32, &sent), MSCP_QUEUED);
    is("of four", mscp_send(mscp, FIRST, command(3, MSCP_READ, 2048, 40), 32, &sent), MSCP_QUEUED);
    is("nobody", mscp_why(mscp, FIRST, 2, list, 2), 0);
    is("two", mscp_why(mscp, FIRST, 3, list, 2), 2);
    is("the first", is_holder(&list[0], 1, FIRST, 0, 1), 1);
    is("the second", is_holder(&list[1], 2, FIRST, 0, 1), 1);
    free(mscp);
}

int main(void)
{
    credits_of_both();
    credits_apart();
    polls_and_aborts();
    finishes();
    numbers_that_are_none();
    without_a_second();
    fences();
    budgets();
    return wrong;
}
