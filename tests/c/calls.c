/* Each call of mscp.h, with good input and with bad; tests/c/memory.c has those about memory, and tests/c/connections.c
 * those about two connections. Prints what is wrong, and ends with 1 where something is. */
#include "trying.h"

static const struct mscp_unit UNIT = {1, 1000, 0, 1, 0, 10, 2, 1};
static const struct mscp_limits LIMITS = {1, 16, 4, 0, 8, 60};

/* ---- inits */

static void wrong_units(struct mscp *mscp)
{
    struct mscp_unit units[17];
    is("no picker", mscp_init(mscp, &LIMITS, &UNIT, 1, 2), MSCP_BAD_PICKER);
    is("no units", mscp_init(mscp, &LIMITS, &UNIT, 0, MSCP_SWEEP), MSCP_NO_UNITS);
    for (uint16_t i = 0; i < COUNT(units); i++) {
        units[i] = UNIT;
        units[i].number = i;
    }
    is("17 units", mscp_init(mscp, &LIMITS, units, 17, MSCP_SWEEP), MSCP_MANY_UNITS);
    for (uint16_t fourth = 1; fourth <= 2; fourth++) {
        units[3].number = fourth;
        is("units that don't rise", mscp_init(mscp, &LIMITS, units, 16, MSCP_SWEEP), MSCP_UNITS_FALL);
        is("17 of them", mscp_init(mscp, &LIMITS, units, 17, MSCP_SWEEP), MSCP_MANY_UNITS);
    }
    for (int i = 0; i < 4; i++) {
        struct mscp_unit unit = UNIT;
        *(i == 0 ? &unit.track : i == 1 ? &unit.group : &unit.cylinder) = i == 3 ? 1 : 0;
        unit.size = i == 3 ? 0 : 1000;
        is("a size of 0", mscp_init(mscp, &LIMITS, &unit, 1, MSCP_SWEEP), MSCP_ZERO_TRACK - i);
        unit = (struct mscp_unit){.track = i > 0, .group = i > 1, .cylinder = i > 2};
        is("the first of them", mscp_init(mscp, &LIMITS, &unit, 1, MSCP_SWEEP), MSCP_ZERO_TRACK - i);
    }
}

static void wrong_limits(struct mscp *mscp)
{
    const struct {
        struct mscp_limits limits;
        int32_t status;
    } cases[] = {
        {{1, 16, 1, 0, 8, 60}, MSCP_BAD_CREDITS},        {{1, 16, 65, 0, 8, 60}, MSCP_BAD_CREDITS},
        {{1, 16, 4, 0, 0, 60}, MSCP_BAD_LONGEST},        {{1, 16, 4, 0, 8388609, 60}, MSCP_BAD_LONGEST},
        {{1, 16, 4, 0, 8, 0}, MSCP_BAD_TIMEOUT},         {{1, 16, 4, 0, 8, 256}, MSCP_BAD_TIMEOUT},
        {{1, 4294967272u, 4, 0, 8, 60}, MSCP_BAD_BOUND}, {{1, UINT64_MAX, 4, 0, 8, 60}, MSCP_BAD_BOUND},
        {{1, 4294967296u, 4, 0, 8, 60}, MSCP_BAD_BOUND}, {{1, 4294967264u, 4, 2, 8, 60}, MSCP_BAD_BOUND},
        {{1, 0, 0, 0, 0, 0}, MSCP_BAD_CREDITS},
    };
    for (size_t i = 0; i < COUNT(cases); i++)
        is("limits", mscp_init(mscp, &cases[i].limits, &UNIT, 1, MSCP_SWEEP), cases[i].status);
}

static void inits_of_wrong_numbers(void)
{
    size_t size = MSCP_HEAD + mscp_size();
    void *memory = memory_of(size);
    struct mscp *mscp = mscp_in_memory(memory, size);
    struct mscp_limits largest = LIMITS;
    wrong_units(mscp);
    wrong_limits(mscp);
    largest.budget = 4294967271u; /* 3 * 8 less than 2^32 - 1 */
    is("the largest bound", mscp_init(mscp, &largest, &UNIT, 1, MSCP_SWEEP), MSCP_DONE);
    largest.second = 2;
    largest.budget -= 8;
    mscp = mscp_in_memory(memory, size);
    is("the largest bound of two", mscp_init(mscp, &largest, &UNIT, 1, MSCP_SWEEP), MSCP_DONE);
    mscp = mscp_in_memory(memory, size);
    is("after all of them", mscp_init(mscp, &LIMITS, &UNIT, 1, MSCP_SWEEP), MSCP_DONE);
    is("twice", mscp_init(mscp, &LIMITS, &UNIT, 1, MSCP_SWEEP), MSCP_MADE);
    free(memory);
}

/* Nothing is written where there is no controller or host. */
static void calls_before_init(void)
{
    size_t size = MSCP_HEAD + mscp_size();
    void *memory = memory_of(size), *same = memory_of(size);
    struct mscp *mscp = mscp_in_memory(memory, size);
    mscp_in_memory(same, size)->at = (char *)memory + MSCP_HEAD;
    ((struct mscp *)same)->address = mscp->address;
    union {
        struct mscp_sent sent;
        struct mscp_packet packet;
        struct mscp_upcoming upcoming;
        struct mscp_report report;
        struct mscp_waiting figure;
        struct mscp_holder holder;
        struct mscp_news news;
    } out, before;
    memset(&out, 0xA5, sizeof out);
    memset(&before, 0xA5, sizeof before);
    is("send", mscp_send(mscp, FIRST, command(1, MSCP_ONLINE, 0, 0), 32, &out.sent), MSCP_NOT_MADE);
    is("take", mscp_take(mscp, FIRST, &out.packet), MSCP_NOT_MADE);
    is("begin", mscp_begin(mscp, &out.upcoming), MSCP_NOT_MADE);
    is("finish", mscp_finish(mscp, FIRST, 1, 0, &out.report), MSCP_NOT_MADE);
    is("step", mscp_step(mscp, 0, &out.report), MSCP_NOT_MADE);
    is("look", mscp_look(mscp, &out.figure, 1), MSCP_NOT_MADE);
    is("why", mscp_why(mscp, FIRST, 1, &out.holder, 1), MSCP_NOT_MADE);
    is("figure", mscp_figure(mscp, FIRST, 1), MSCP_NOT_MADE);
    is("balance", mscp_balance(mscp, FIRST), MSCP_NOT_MADE);
    is("waiting", mscp_waiting(mscp, FIRST), MSCP_NOT_MADE);
    is("untaken", mscp_untaken(mscp, FIRST), MSCP_NOT_MADE);
    is("is_online", mscp_is_online(mscp, 0), MSCP_NOT_MADE);
    is("reset", mscp_reset(mscp), MSCP_NOT_MADE);
    struct mscp_host host = mscp_host_over(memory, size);
    is("submit", mscp_host_submit(&host, command(1, MSCP_READ, 512, 0), 32), MSCP_NOT_MADE);
    is("poll", mscp_host_poll(&host, 2, &out.packet), MSCP_NOT_MADE);
    is("receive", mscp_host_receive(&host, command(1, 0xA1, 0, 0), 32, &out.news), MSCP_NOT_MADE);
    is("host's balance", mscp_host_balance(&host), MSCP_NOT_MADE);
    is("what is told", memcmp(&out, &before, sizeof out), 0);
    is("the memory", memcmp(memory, same, size), 0);
    free(memory);
    free(same);
}

/* ---- the controller */

static struct mscp *controller(void)
{
    size_t size = MSCP_HEAD + mscp_size();
    void *memory = memory_of(size);
    struct mscp *mscp = mscp_in_memory(memory, size);
    is("init", mscp_init(mscp, &LIMITS, &UNIT, 1, MSCP_SWEEP), MSCP_DONE);
    is("the memory's own pointer", (void *)mscp == memory, 1);
    return mscp;
}

/* Unit 0 is online from here on. */
static void bring_online(struct mscp *mscp)
{
    struct mscp_sent sent;
    struct mscp_report report;
    struct mscp_packet end;
    is("online", mscp_send(mscp, FIRST, command(1, MSCP_ONLINE, 0, 0), 12, &sent), MSCP_QUEUED);
    is("its number", sent.reference, 1);
    is("it isn't yet", mscp_is_online(mscp, 0), 0);
    is("step", mscp_step(mscp, 0, &report), MSCP_DONE);
    is("it touched", report.touched, 0);
    is("it ended", report.ended, 1);
    is("now it is", mscp_is_online(mscp, 0), 1);
    is("another isn't", mscp_is_online(mscp, 1), 0);
    is("take", mscp_take(mscp, FIRST, &end), MSCP_DONE);
    is("its length", end.length, 44);
    is("its endcode", end.bytes[8], 0x89);
    is("take none", mscp_take(mscp, FIRST, &end), MSCP_NOTHING);
}

static void messages_that_are_refused(void)
{
    static const uint8_t zeros[65];
    struct mscp *mscp = controller();
    struct mscp_sent sent = {7, 7, 1};
    struct mscp_waiting waiting[2] = {{7, 7, 7}, {7, 7, 7}};
    is("short", mscp_send(mscp, FIRST, zeros, 11, &sent), MSCP_SHORT);
    is("long", mscp_send(mscp, FIRST, zeros, 65, &sent), MSCP_LONG);
    is("the longest", mscp_send(mscp, FIRST, zeros, 64, &sent), MSCP_ANSWERED);
    is("aborted", sent.has_aborted, 0);
    is("number 0 again", mscp_send(mscp, FIRST, zeros, 12, &sent), MSCP_DOUBLED);
    is("a second", mscp_send(mscp, FIRST, command(1, MSCP_READ, 512, 0), 32, &sent), MSCP_QUEUED);
    is("a third", mscp_send(mscp, FIRST, command(2, MSCP_READ, 512, 0), 32, &sent), MSCP_QUEUED);
    is("balance", mscp_balance(mscp, FIRST), 1);
    is("waiting", mscp_waiting(mscp, FIRST), 2);
    is("untaken", mscp_untaken(mscp, FIRST), 1);
    is("look with less room", mscp_look(mscp, waiting, 1), 2);
    is("looked", waiting[0].reference == 1 && waiting[0].figure == 17 && waiting[1].reference == 7, 1);
    sent.reference = 7;
    is("the last", mscp_send(mscp, FIRST, command(3, MSCP_READ, 512, 0), 32, &sent), MSCP_LAST_CREDIT);
    is("what was told", sent.reference, 7);
    is("a poll", mscp_send(mscp, FIRST, command(3, MSCP_GET_COMMAND_STATUS, 2, 0), 16, &sent), MSCP_ANSWERED);
    is("none is left", mscp_send(mscp, FIRST, command(4, MSCP_GET_COMMAND_STATUS, 2, 0), 16, &sent), MSCP_NO_CREDIT);
    is("balance", mscp_balance(mscp, FIRST), 0);
    is("reset", mscp_reset(mscp), MSCP_DONE);
    is("balance after it", mscp_balance(mscp, FIRST), 4);
    is("waiting after it", mscp_waiting(mscp, FIRST) + mscp_untaken(mscp, FIRST), 0);
    free(mscp);
}

static void a_read_that_is_polled(void)
{
    struct mscp *mscp = controller();
    struct mscp_sent sent;
    struct mscp_packet end;
    struct mscp_upcoming next = {7, 7, 7, 7, 7, 7, 7, 7, 7, 7};
    struct mscp_report report = {7, 7, 7, 7, 7, 7, 7, 7, 7};
    struct mscp_waiting figures[2] = {{7, 7, 7}, {7, 7, 7}};
    bring_online(mscp);
    is("begin of nothing", mscp_begin(mscp, &next), MSCP_NOTHING);
    is("step of nothing", mscp_step(mscp, 0, &report), MSCP_NOTHING);
    is("what was told", next.lbn == 7 && report.lbn == 7, 1);
    is("finish of nothing", mscp_finish(mscp, FIRST, 2, 0, &report), MSCP_NOT_BEGUN);
    is("a bad finish of nothing", mscp_finish(mscp, FIRST, 2, 4, &report), MSCP_BAD_STATUS);
    is("a bad step of nothing", mscp_step(mscp, 4, &report), MSCP_BAD_STATUS);
    is("read", mscp_send(mscp, FIRST, command(2, MSCP_READ, 1000, 40), 32, &sent), MSCP_QUEUED);
    is("poll", mscp_send(mscp, FIRST, command(3, MSCP_GET_COMMAND_STATUS, 2, 0), 16, &sent), MSCP_ANSWERED);
    is("take", mscp_take(mscp, FIRST, &end), MSCP_DONE);
    is("its figure", number(end.bytes + 16, 4), 18);
    is("figure", mscp_figure(mscp, FIRST, 2), 18);
    is("figure of none", mscp_figure(mscp, FIRST, 3), 0);
    is("look", mscp_look(mscp, figures, 2), 1);
    is("looked", figures[0].reference == 2 && figures[0].figure == 18 && figures[1].figure == 7, 1);
    is("look with no room", mscp_look(mscp, figures, 0), 1);
    is("a bad status", mscp_step(mscp, 4, &report), MSCP_BAD_STATUS);
    is("begin", mscp_begin(mscp, &next), MSCP_DONE);
    is("what comes", next.reference == 2 && next.opcode == MSCP_READ && next.unit == 0 && next.bytes == 1000, 1);
    is("which block", next.touches && next.lbn == 40 && next.done == 0 && next.weight == 2, 1);
    is("another's finish", mscp_finish(mscp, FIRST, 3, 0, &report), MSCP_NOT_BEGUN);
    is("a bad status", mscp_finish(mscp, FIRST, 2, 4, &report), MSCP_BAD_STATUS);
    is("finish", mscp_finish(mscp, FIRST, 2, 0, &report), MSCP_DONE);
    is("what was done", report.reference == 2 && report.touched && report.lbn == 40 && report.seek == 2, 1);
    is("it goes on", report.started && !report.ended, 1);
    is("finish again", mscp_finish(mscp, FIRST, 2, 0, &report), MSCP_NOT_BEGUN);
    is("a bad block", mscp_step(mscp, 0xE8, &report), MSCP_DONE);
    is("it ended", report.ended && report.status == 0xE8 && report.lbn == 41 && !report.started, 1);
    is("take", mscp_take(mscp, FIRST, &end), MSCP_DONE);
    is("its end", end.length == 32 && end.bytes[8] == 0xA1 && number(end.bytes + 10, 2) == 0xE8, 1);
    is("bytes of good blocks", number(end.bytes + 12, 4), 512);
    free(mscp);
}

/* What was begun is aborted: nothing is left of it, and the ABORT names it. */
static void an_abort_in_between(void)
{
    struct mscp *mscp = controller();
    struct mscp_sent sent;
    struct mscp_packet end;
    struct mscp_upcoming next;
    struct mscp_report report;
    bring_online(mscp);
    is("write", mscp_send(mscp, FIRST, command(2, MSCP_WRITE, 512, 40), 32, &sent), MSCP_QUEUED);
    is("begin", mscp_begin(mscp, &next), MSCP_DONE);
    is("abort", mscp_send(mscp, FIRST, command(3, MSCP_ABORT, 2, 0), 16, &sent), MSCP_ANSWERED);
    is("of it", sent.has_aborted && sent.aborted == 2 && sent.reference == 3, 1);
    is("finish", mscp_finish(mscp, FIRST, 2, 0, &report), MSCP_NOT_BEGUN);
    is("its end first", mscp_take(mscp, FIRST, &end) == MSCP_DONE && number(end.bytes, 4) == 2, 1);
    is("aborted", number(end.bytes + 10, 2), 2);
    is("then that of the abort", mscp_take(mscp, FIRST, &end) == MSCP_DONE && number(end.bytes, 4) == 3, 1);
    free(mscp);
}

/* Each command that waits is aborted before it had a step: its end has its own endcode, and no byte was moved. */
static void each_is_aborted(void)
{
    static const struct { uint8_t opcode, length; } COMMANDS[] = {
        {MSCP_AVAILABLE, 12}, {MSCP_ONLINE, 44}, {MSCP_SET_UNIT_CHARACTERISTICS, 44}, {MSCP_ACCESS, 32}, {MSCP_ERASE, 32},
        {MSCP_COMPARE_HOST_DATA, 32}, {MSCP_READ, 32}, {MSCP_WRITE, 32}};
    for (size_t i = 0; i < COUNT(COMMANDS); i++) {
        struct mscp *mscp = controller();
        struct mscp_sent sent;
        struct mscp_packet end;
        struct mscp_report report;
        bring_online(mscp);
        is("send", mscp_send(mscp, FIRST, command(2, COMMANDS[i].opcode, 512, 40), 32, &sent), MSCP_QUEUED);
        is("abort", mscp_send(mscp, FIRST, command(3, MSCP_ABORT, 2, 0), 16, &sent), MSCP_ANSWERED);
        is("of it", sent.has_aborted && sent.aborted == 2 && sent.reference == 3, 1);
        is("none waits", mscp_step(mscp, 0, &report), MSCP_NOTHING);
        is("its end", mscp_take(mscp, FIRST, &end) == MSCP_DONE && number(end.bytes, 4) == 2, 1);
        is("its code", end.bytes[8], COMMANDS[i].opcode | 0x80);
        is("its length", end.length, COMMANDS[i].length);
        is("aborted", number(end.bytes + 10, 2), 2);
        is("no bytes", COMMANDS[i].length == 32 && number(end.bytes + 12, 4) != 0, 0);
        is("that of the abort", mscp_take(mscp, FIRST, &end) == MSCP_DONE && number(end.bytes, 4) == 3 && end.bytes[8] == 0x81, 1);
        free(mscp);
    }
}

/* Which of two READs starts, by the picker: the oldest is far, the newer near. */
static void pickers(void)
{
    for (uint32_t picker = MSCP_OLDEST; picker <= MSCP_SWEEP; picker++) {
        size_t size = mscp_size();
        void *memory = memory_of(size);
        struct mscp handle = mscp_over(memory, size);
        struct mscp_sent sent;
        struct mscp_upcoming next;
        is("init", mscp_init(&handle, &LIMITS, &UNIT, 1, picker), MSCP_DONE);
        bring_online(&handle);
        is("far", mscp_send(&handle, FIRST, command(2, MSCP_READ, 512, 900), 32, &sent), MSCP_QUEUED);
        is("near", mscp_send(&handle, FIRST, command(3, MSCP_READ, 512, 0), 32, &sent), MSCP_QUEUED);
        is("begin", mscp_begin(&handle, &next), MSCP_DONE);
        is("who starts", next.reference, picker == MSCP_SWEEP ? 3 : 2);
        free(memory);
    }
}

/* ---- the host */

static void host(void)
{
    static const uint8_t zeros[65];
    size_t size = MSCP_HEAD + mscp_host_size();
    void *memory = memory_of(size);
    struct mscp_host *host = mscp_host_in_memory(memory, size);
    struct mscp_packet poll = {7, {7}};
    struct mscp_news news = {7, 7, 7, 7, 7, 7};
    uint8_t end[32];
    is("1 credit", mscp_host_init(host, 1), MSCP_BAD_CREDITS);
    is("65 credits", mscp_host_init(host, 65), MSCP_BAD_CREDITS);
    is("init", mscp_host_init(host, 3), MSCP_DONE);
    is("twice", mscp_host_init(host, 3), MSCP_MADE);
    is("nothing to poll", mscp_host_poll(host, 9, &poll), MSCP_NOTHING);
    is("short", mscp_host_submit(host, command(1, MSCP_READ, 512, 0), 11), MSCP_SHORT);
    is("long", mscp_host_submit(host, zeros, 65), MSCP_LONG);
    is("submit", mscp_host_submit(host, command(1, MSCP_READ, 512, 0), 32), MSCP_DONE);
    is("again", mscp_host_submit(host, command(1, MSCP_READ, 512, 0), 32), MSCP_DOUBLED);
    is("balance", mscp_host_balance(host), 2);
    is("a second", mscp_host_submit(host, command(2, MSCP_READ, 512, 0), 32), MSCP_DONE);
    is("a third", mscp_host_submit(host, command(3, MSCP_READ, 512, 0), 32), MSCP_LAST_CREDIT);
    is("poll of a number in use", mscp_host_poll(host, 2, &poll), MSCP_DOUBLED);
    is("what was told", poll.length, 7);
    is("poll", mscp_host_poll(host, 9, &poll), MSCP_DONE);
    is("its message", poll.length == 16 && poll.bytes[8] == 2 && number(poll.bytes + 12, 4) == 1, 1);
    is("poll again", mscp_host_poll(host, 10, &poll), MSCP_BUSY);
    is("none is left", mscp_host_submit(host, command(3, MSCP_GET_UNIT_STATUS, 0, 0), 12), MSCP_NO_CREDIT);
    is("no end", mscp_host_receive(host, end, 0, &news), MSCP_UNREADABLE);
    is("of nobody", mscp_host_receive(host, command(5, 0xA1, 512, 0), 32, &news), MSCP_UNKNOWN);
    is("what was told", news.figure, 7);
    memcpy(end, command(9, 0x82, 1, 0), 32);
    const struct {
        uint32_t figure;
        int32_t news;
    } answers[] = {{18, MSCP_FIRST}, {17, MSCP_PROGRESS}, {17, MSCP_NO_PROGRESS}, {0, MSCP_LOST}};
    for (size_t i = 0; i < COUNT(answers); i++) {
        put(end + 16, 4, answers[i].figure);
        is("news", mscp_host_receive(host, end, 20, &news), answers[i].news);
        is("its figure", news.figure, answers[i].figure > 16 && i < 2 ? answers[i].figure : 0);
        is("poll", mscp_host_poll(host, 9, &poll), MSCP_DONE);
    }
    is("an end", mscp_host_receive(host, command(1, 0xA1, 512, 0), 32, &news), MSCP_ENDED);
    is("whose", news.reference == 1 && news.code == 0xA1 && news.status == 0 && news.moved == 512, 1);
    is("late", mscp_host_receive(host, end, 20, &news), MSCP_LATE);
    free(memory);
}

/* Of two credits a READ has one, and a command that is answered at once the other. */
static void host_without_a_credit(void)
{
    size_t size = mscp_host_size();
    void *memory = memory_of(size);
    struct mscp_host host = mscp_host_over(memory, size);
    struct mscp_packet poll = {7, {7}};
    is("init", mscp_host_init(&host, 2), MSCP_DONE);
    is("read", mscp_host_submit(&host, command(1, MSCP_READ, 512, 0), 32), MSCP_DONE);
    is("status", mscp_host_submit(&host, command(2, MSCP_GET_UNIT_STATUS, 0, 0), 12), MSCP_DONE);
    is("poll", mscp_host_poll(&host, 3, &poll), MSCP_NO_CREDIT);
    is("what was told", poll.length == 7 && poll.bytes[0] == 7, 1);
    free(memory);
}

int main(void)
{
    is("version", mscp_version(), MSCP_VERSION);
    inits_of_wrong_numbers();
    calls_before_init();
    messages_that_are_refused();
    a_read_that_is_polled();
    an_abort_in_between();
    each_is_aborted();
    pickers();
    host();
    host_without_a_credit();
    return wrong;
}
