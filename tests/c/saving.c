/* Controllers that are saved and restored; host_saving.c has hosts. A run with 63 commands waiting goes on after each event in fresh
 * memory, restored from what was saved there, and answers as one that nobody saved. Prints what is wrong, and ends with
 * 1 where something is. */
#include "trying.h"

enum { UNITS = 4, CREDITS = 64 };

static const struct mscp_limits LIMITS = {7, 64, CREDITS, 0, 8, 60}, OF_BOTH = {7, 16, 6, 8, 8, 60};
static struct mscp_unit units[UNITS];
static uint32_t via = FIRST; /* the connection of what is sent and taken */

/* A controller that is saved and restored after each call, and one that isn't. */
static struct {
    void *memory;
    struct mscp *mscp;
} moving, staying;

static size_t controller_bytes(void) { return MSCP_HEAD + mscp_size(); }

static void make(const struct mscp_limits *limits, uint32_t picker)
{
    moving.memory = memory_of(controller_bytes());
    staying.memory = memory_of(controller_bytes());
    moving.mscp = mscp_in_memory(moving.memory, controller_bytes());
    staying.mscp = mscp_in_memory(staying.memory, controller_bytes());
    is("init", mscp_init(moving.mscp, limits, units, UNITS, picker), MSCP_DONE);
    is("init", mscp_init(staying.mscp, limits, units, UNITS, picker), MSCP_DONE);
}

static size_t saved(const struct mscp *mscp, uint8_t *bytes)
{
    size_t length = 0;
    is("save", mscp_save(mscp, bytes, MSCP_SAVED_MAX, &length), MSCP_DONE);
    return length;
}

/* From now on the one that moves lies elsewhere: restored from what it was saved as, and saved as that again. */
static void move(void)
{
    static uint8_t bytes[MSCP_SAVED_MAX], again[MSCP_SAVED_MAX];
    size_t length = saved(moving.mscp, bytes);
    free(moving.memory);
    moving.memory = memory_of(controller_bytes());
    moving.mscp = mscp_in_memory(moving.memory, controller_bytes());
    is("restore", mscp_restore(moving.mscp, bytes, length), MSCP_DONE);
    is("as long again", (int64_t)saved(moving.mscp, again), (int64_t)length);
    is("the same bytes again", memcmp(bytes, again, length), 0);
}

/* Both are saved as the same bytes. */
static void same(void)
{
    static uint8_t bytes[MSCP_SAVED_MAX], others[MSCP_SAVED_MAX];
    size_t length = saved(moving.mscp, bytes);
    is("as long", (int64_t)saved(staying.mscp, others), (int64_t)length);
    is("the same bytes", memcmp(bytes, others, length), 0);
}

static void same_figures(void)
{
    struct mscp_waiting list[64], other[64];
    int64_t count = mscp_look(moving.mscp, list, 64);
    is("how many wait", mscp_look(staying.mscp, other, 64), count);
    for (int32_t i = 0; i < count; i++) {
        is("number", list[i].reference, other[i].reference);
        is("figure", list[i].figure, other[i].figure);
    }
}

/* A command to a unit. */
static int32_t send(uint32_t reference, uint16_t unit, uint8_t opcode, uint32_t first, uint32_t block)
{
    struct mscp_sent sent, other;
    uint8_t *message = command(reference, opcode, first, block);
    put(message + 4, 2, unit);
    int32_t status = mscp_send(moving.mscp, via, message, 32, &sent);
    is("send", mscp_send(staying.mscp, via, message, 32, &other), status);
    move();
    same();
    return status;
}

static int32_t step(uint16_t block)
{
    struct mscp_upcoming upcoming;
    struct mscp_report report = {0, 0, 0, 0, 0, 0, 0, 0, 0}, other = report;
    int32_t status = mscp_step(staying.mscp, block, &other);
    is("begin", mscp_begin(moving.mscp, &upcoming), status);
    move(); /* what is begun stays begun */
    if (status == MSCP_DONE)
        is("finish", mscp_finish(moving.mscp, upcoming.connection, upcoming.reference, block, &report), status);
    is("served", report.reference, other.reference);
    is("block", report.lbn, other.lbn);
    is("seek", report.seek, other.seek);
    is("status", report.status, other.status);
    move();
    same();
    return status;
}

static int32_t take(void)
{
    struct mscp_packet end, other;
    int32_t status = mscp_take(moving.mscp, via, &end);
    is("take", mscp_take(staying.mscp, via, &other), status);
    if (status == MSCP_DONE) {
        is("end's length", end.length, other.length);
        is("end", memcmp(end.bytes, other.bytes, end.length), 0);
    }
    move();
    same();
    return status;
}

/* 63 commands wait; each is served, one of them is aborted, one has a bad block, and ends wait to be taken. */
static void run(uint32_t picker)
{
    uint32_t reference = 1;
    make(&LIMITS, picker);
    for (uint16_t unit = 0; unit < UNITS; unit++) {
        is("online", send(reference++, unit, MSCP_ONLINE, 0, 0), MSCP_QUEUED);
        is("step", step(0), MSCP_DONE);
        is("take", take(), MSCP_DONE);
    }
    for (unsigned i = 0; i < 63; i++)
        is("read", send(reference++, (uint16_t)(i % UNITS), MSCP_READ, 512 * (1 + i % 8u), i * 37 % 900u), MSCP_QUEUED);
    is("a last one", send(reference, 0, MSCP_READ, 512, 1), MSCP_LAST_CREDIT);
    same_figures();
    is("poll", send(reference++, 0, MSCP_GET_COMMAND_STATUS, 40, 0), MSCP_ANSWERED);
    is("poll's end", take(), MSCP_DONE);
    is("abort", send(reference++, 0, MSCP_ABORT, 41, 0), MSCP_ANSWERED);
    for (int i = 0; step(i == 20 ? 8 : 0) == MSCP_DONE; i++)
        same_figures();
    while (take() == MSCP_DONE)
        ;
    is("credits", mscp_balance(moving.mscp, FIRST), CREDITS);
    free(moving.memory);
    free(staying.memory);
}

/* Sends a command of this connection, which is queued or answered. */
static void send_by(uint32_t connection, uint32_t reference, uint8_t opcode, uint32_t first, uint32_t block)
{
    via = connection;
    is("send", send(reference, 0, opcode, first, block) >= MSCP_DONE, 1);
}

/* Both connections have commands that wait and ends that weren't taken, one of an aborted command; one is in service. */
static void make_both(void)
{
    make(&OF_BOTH, MSCP_SWEEP);
    send_by(FIRST, 900, MSCP_ONLINE, 0, 0);
    is("online", step(0), MSCP_DONE);
    for (uint32_t reference = 1; reference < 4; reference++) {
        send_by(FIRST, reference, MSCP_WRITE, 3 * 512, 100 * reference);
        send_by(SECOND, reference, MSCP_COMPARE_HOST_DATA, 2 * 512, 50 * reference);
    }
    send_by(SECOND, 9, MSCP_ABORT, 2, 0);
    send_by(FIRST, 8, MSCP_GET_COMMAND_STATUS, 3, 0);
    is("in service", step(0), MSCP_DONE);
}

static void run_both(void)
{
    make_both();
    for (int i = 0; step(i == 3 ? 8 : 0) == MSCP_DONE; i++)
        for (via = FIRST; via <= SECOND; via++)
            is("free", mscp_balance(moving.mscp, via), mscp_balance(staying.mscp, via));
    for (via = FIRST; via <= SECOND; via++) {
        while (take() == MSCP_DONE)
            ;
        is("credits", mscp_balance(moving.mscp, via), via == FIRST ? 6 : 8);
    }
    via = FIRST;
    free(moving.memory);
    free(staying.memory);
}

/* ---- what is refused */

static void nothing_is_there(void)
{
    uint8_t bytes[MSCP_SAVED_MAX];
    size_t length = 5;
    struct mscp mscp = mscp_over(NULL, 0);
    struct mscp_host host = mscp_host_over(NULL, 0);
    is("save of none", mscp_save(&mscp, bytes, sizeof bytes, &length), MSCP_NOT_MADE);
    is("save of no host", mscp_host_save(&host, bytes, sizeof bytes, &length), MSCP_NOT_MADE);
    is("restore to no memory", mscp_restore(&mscp, bytes, 0), MSCP_NO_MEMORY);
    is("a host to no memory", mscp_host_restore(&host, bytes, 0), MSCP_NO_MEMORY);
    is("nothing told", (int64_t)length, 5);
    is("most of a controller", mscp_save_size() <= MSCP_SAVED_MAX, 1);
    is("most of a host", mscp_host_save_size() <= MSCP_HOST_SAVED_MAX, 1);
}

/* A restored controller says of which limits and units it is: of as many as there is room for. */
static void tells_what_it_is(const struct mscp *mscp)
{
    struct mscp_limits limits;
    struct mscp_unit told[UNITS + 1];
    memset(told, 0xA5, sizeof told);
    is("how many", mscp_settings(mscp, &limits, told, 1), UNITS);
    is("one", told[0].size == units[0].size && told[1].size == 0xA5A5A5A5, 1);
    is("all", mscp_settings(mscp, &limits, told, UNITS + 1), UNITS);
    for (int i = 0; i < UNITS; i++)
        is("the same", is_same_unit(told + i, units + i), 1);
    is("none behind", told[UNITS].size, 0xA5A5A5A5);
    is("its identifier", (int64_t)limits.id, (int64_t)LIMITS.id);
    is("its budget", (int64_t)limits.budget, (int64_t)LIMITS.budget);
    is("its longest", limits.longest, LIMITS.longest);
    is("its timeout", limits.timeout, LIMITS.timeout);
    is("credits", limits.credits, LIMITS.credits);
    is("the second's", limits.second, LIMITS.second);
    is("no room", mscp_settings(mscp, &limits, NULL, 0), UNITS);
}

/* Over the controller that is made: bytes at fault leave it as it is, and good ones are in its place. */
static void in_place(const uint8_t *bytes, size_t length)
{
    static uint8_t before[MSCP_SAVED_MAX], after[MSCP_SAVED_MAX];
    const uint8_t message[12] = {77, [8] = MSCP_GET_UNIT_STATUS};
    struct mscp_sent sent;
    is("another message", mscp_send(moving.mscp, FIRST, message, sizeof message, &sent), MSCP_ANSWERED);
    size_t held = saved(moving.mscp, before);
    is("a byte too few", mscp_restore(moving.mscp, bytes, length - 1), MSCP_SAVED_LENGTH);
    is("no bytes", mscp_restore(moving.mscp, NULL, 0), MSCP_SAVED_LENGTH);
    is("it goes on", saved(moving.mscp, after) == held && memcmp(before, after, held) == 0, 1);
    is("another one's bytes", held != length || memcmp(before, bytes, length) != 0, 1);
    is("good bytes", mscp_restore(moving.mscp, bytes, length), MSCP_DONE);
    is("that one goes on", saved(moving.mscp, after) == length && memcmp(after, bytes, length) == 0, 1);
}

/* Bytes that aren't the controller's. Each place is one of the format, and each change the least that is refused so. */
static void other_bytes(void)
{
    static uint8_t bytes[MSCP_SAVED_MAX], room[MSCP_SAVED_MAX];
    const struct {
        size_t place;
        uint8_t byte;
        int32_t status;
    } cases[] = {
        {8, 1, MSCP_SAVED_LENGTH},  {0, 0, MSCP_SAVED_MAGIC},   {4, 2, MSCP_SAVED_VERSION},
        {48, 1, MSCP_SAVED_UNITS},  {12, 65, MSCP_SAVED_LIMITS}, {48 + 31, 255, MSCP_SAVED_HEADS},
        {30, 2, MSCP_SAVED_PICKER}, {48 + 28, 3, MSCP_SAVED_FORM},
    };
    make(&LIMITS, MSCP_SWEEP);
    size_t length = saved(moving.mscp, bytes), told = 5;
    is("a controller's length", (int64_t)length, 48 + 34 * UNITS);
    memset(room, 0xA5, sizeof room);
    is("no room", mscp_save(moving.mscp, NULL, 0, &told), MSCP_SMALL);
    is("what it takes", (int64_t)told, (int64_t)length);
    told = 5;
    is("a byte too few", mscp_save(moving.mscp, room, length - 1, &told), MSCP_SMALL);
    is("what it takes", (int64_t)told, (int64_t)length);
    is("nothing written", room[0], 0xA5);
    is("just room", mscp_save(moving.mscp, room, length, &told), MSCP_DONE);
    is("no byte more", room[length], 0xA5);
    in_place(bytes, length);
    for (size_t i = 0; i < COUNT(cases); i++) {
        uint8_t was = bytes[cases[i].place];
        struct mscp *fresh = mscp_in_memory(staying.memory, controller_bytes());
        bytes[cases[i].place] = cases[i].byte;
        is("other bytes", mscp_restore(fresh, bytes, length), cases[i].status);
        is("no controller", mscp_waiting(fresh, FIRST), MSCP_NOT_MADE);
        bytes[cases[i].place] = was;
    }
    struct mscp *fresh = mscp_in_memory(staying.memory, controller_bytes());
    is("no bytes", mscp_restore(fresh, NULL, 0), MSCP_SAVED_LENGTH);
    is("its own bytes", mscp_restore(fresh, bytes, length), MSCP_DONE);
    tells_what_it_is(fresh);
    free(moving.memory);
    free(staying.memory);
}

/* One flipped bit after the other: refused, or a controller that every call can be made on, and that is saved as those
 * bytes. */
static void flipped_bits(void)
{
    static uint8_t bytes[MSCP_SAVED_MAX], again[MSCP_SAVED_MAX];
    make_both();
    struct mscp_upcoming upcoming;
    is("begin", mscp_begin(moving.mscp, &upcoming), MSCP_DONE);
    size_t length = saved(moving.mscp, bytes);
    int refused = 0, restored = 0;
    for (size_t bit = 0; bit < 8 * length; bit++) {
        struct mscp_packet end;
        struct mscp_report report;
        struct mscp_sent sent;
        struct mscp *mscp = mscp_in_memory(staying.memory, controller_bytes());
        bytes[bit / 8] ^= (uint8_t)(1u << bit % 8);
        if (mscp_restore(mscp, bytes, length) == MSCP_DONE) {
            restored++;
            is("as long", (int64_t)saved(mscp, again), (int64_t)length);
            is("the same bytes", memcmp(bytes, again, length), 0);
            int32_t status = mscp_send(mscp, FIRST, command(99, MSCP_GET_COMMAND_STATUS, 2, 0), 32, &sent);
            is("send", status == MSCP_ANSWERED || status == MSCP_NO_CREDIT || status == MSCP_DOUBLED, 1);
            for (int steps = 0; steps < 20 && mscp_step(mscp, 0, &report) == MSCP_DONE; steps++)
                ;
            for (via = FIRST; via <= SECOND; via++)
                while (mscp_take(mscp, via, &end) == MSCP_DONE)
                    ;
        } else {
            refused++;
        }
        bytes[bit / 8] ^= (uint8_t)(1u << bit % 8);
    }
    is("some are refused", refused > 300, 1);
    is("some are restored", restored > 300, 1);
    free(moving.memory);
    free(staying.memory);
}

int main(void)
{
    for (uint16_t i = 0; i < UNITS; i++) {
        const struct mscp_unit unit = {i, 1000, 0, 1, i, 10, 2, 1};
        units[i] = unit;
    }
    run(MSCP_OLDEST);
    run(MSCP_SWEEP);
    run_both();
    nothing_is_there();
    other_bytes();
    flipped_bits();
    return wrong;
}
