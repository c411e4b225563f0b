/* The bytes that a controller is saved as, written by hand, and each fault that other bytes have; saving.c has those
 * that go on. Prints what is wrong, and ends with 1 where something is. */
#include "trying.h"

/* A head: 1 drive, 2 waiting commands, 1 end and 212 bytes; credits of 4 and 2, a budget of 16, a longest transfer of
 * 8, 60 seconds, and the sweep. What was begun is command 1 of the first connection. */
static const uint8_t HEAD[48] = {
    0x4D, 0x53, 0x43, 0x51, 1, 0, 0, 0, 212, 0, 0, 0, 4, 0, 0, 0, 2, 0, 0, 0, 16, 0, 0, 0, 8, 0, 0, 0,
    60, 0, MSCP_SWEEP, 1, 1, 0, 0, 0, 0, 0, 0, 0, 2, 1, 0, 1, 1, 0, 0, 0,
};

/* Unit 0 of 1000 blocks, 20 of them a cylinder, online, with its head on cylinder 2, going up. */
static const uint8_t DRIVE[34] = {
    0, 0, 10, 0, 2, 0, 1, 0, 0xE8, 3, 0, 0, 1, 0, 0, 0, 0, 0, 0, 0, 0, 0, 0, 0, 1, 0, 0, 0, 1, 1, 2, 0, 0, 0,
};

/* Command 1 of the first connection, a READ of 1024 bytes from block 40 on, which had one step. */
static const uint8_t READ[41] = {[0] = 1, [8] = MSCP_READ, [13] = 4, [28] = 40, [32] = 1, [40] = 1};

/* Command 1 of the second connection, a WRITE of 512 bytes to block 0. */
static const uint8_t WRITE[41] = {[0] = 1, [8] = MSCP_WRITE, [13] = 2, [40] = 2};

/* The end of command 900, an ONLINE. */
static const uint8_t END[48] = {[0] = 0x84, [1] = 3, [8] = 0x89, [20] = 1, [36] = 0xE8, [37] = 3, [40] = 1};

/* Where the parts begin, and what they have together. */
enum { D = sizeof HEAD, R = D + sizeof DRIVE, W = R + sizeof READ, E = W + sizeof WRITE, LENGTH = E + sizeof END };

static uint8_t bytes[MSCP_SAVED_MAX];
static size_t length;

static void add(const uint8_t *part, size_t count)
{
    memcpy(bytes + length, part, count);
    length += count;
}

static void put_all_parts(void)
{
    length = 0;
    add(HEAD, sizeof HEAD);
    add(DRIVE, sizeof DRIVE);
    add(READ, sizeof READ);
    add(WRITE, sizeof WRITE);
    add(END, sizeof END);
}

/* ---- what they are */

static void send(struct mscp *mscp, uint32_t connection, uint8_t *message, int32_t wanted)
{
    struct mscp_sent sent;
    is("send", mscp_send(mscp, connection, message, 32, &sent), wanted);
}

static void bytes_are_these(void)
{
    static const struct mscp_unit unit = {1, 1000, 0, 1, 0, 10, 2, 1};
    static const struct mscp_limits limits = {1, 16, 4, 2, 8, 60};
    static uint8_t saved[MSCP_SAVED_MAX];
    size_t size = MSCP_HEAD + mscp_size(), count = 0;
    void *memory = memory_of(size);
    struct mscp *mscp = mscp_in_memory(memory, size);
    struct mscp_report report;
    struct mscp_upcoming next;
    put_all_parts();
    is("init", mscp_init(mscp, &limits, &unit, 1, MSCP_SWEEP), MSCP_DONE);
    send(mscp, FIRST, command(900, MSCP_ONLINE, 0, 0), MSCP_QUEUED);
    is("online", mscp_step(mscp, 0, &report), MSCP_DONE);
    send(mscp, FIRST, command(1, MSCP_READ, 1024, 40), MSCP_QUEUED);
    is("a block", mscp_step(mscp, 0, &report), MSCP_DONE);
    send(mscp, SECOND, command(1, MSCP_WRITE, 512, 0), MSCP_QUEUED);
    is("begin", mscp_begin(mscp, &next), MSCP_DONE);
    is("save", mscp_save(mscp, saved, sizeof saved, &count), MSCP_DONE);
    is("how many", (int64_t)count, LENGTH);
    is("which", memcmp(saved, bytes, LENGTH), 0);
    mscp = mscp_in_memory(memory, size);
    is("restore", mscp_restore(mscp, bytes, LENGTH), MSCP_DONE);
    memset(saved, 0, sizeof saved);
    is("save again", mscp_save(mscp, saved, sizeof saved, &count), MSCP_DONE);
    is("as many", (int64_t)count, LENGTH);
    is("the same", memcmp(saved, bytes, LENGTH), 0);
    free(memory);
}

/* ---- each fault */

/* The first so many bytes come to this. */
static void come_to(const char *what, size_t count, int32_t wanted)
{
    size_t size = MSCP_HEAD + mscp_size();
    void *memory = memory_of(size);
    is(what, mscp_restore(mscp_in_memory(memory, size), bytes, count), wanted);
    free(memory);
}

/* Some bytes are others, and then there is this fault. */
struct row {
    int32_t fault;
    size_t count;
    struct {
        size_t place;
        uint8_t byte;
    } edits[4];
};

static const struct row ROWS[] = {
    /* The length that the head tells, and how much there is of each part. */
    {MSCP_SAVED_LENGTH, 1, {{8, 213}}},
    {MSCP_SAVED_LENGTH, 1, {{11, 1}}},
    {MSCP_SAVED_LENGTH, 1, {{31, 2}}},
    {MSCP_SAVED_LENGTH, 1, {{40, 1}}},
    {MSCP_SAVED_LENGTH, 1, {{41, 2}}},
    {MSCP_SAVED_LENGTH, 1, {{42, 1}}},
    {MSCP_SAVED_MAGIC, 1, {{0, 0x4E}}},
    {MSCP_SAVED_MAGIC, 1, {{3, 0}}},
    {MSCP_SAVED_VERSION, 1, {{4, 0}}},
    {MSCP_SAVED_VERSION, 1, {{4, 2}}},
    /* One credit, 64 + 2 credits, no blocks, 2^23 + 8 blocks, no seconds, 316 seconds, a budget of 2^32 - 1. */
    {MSCP_SAVED_LIMITS, 1, {{12, 1}}},
    {MSCP_SAVED_LIMITS, 1, {{12, 64}}},
    {MSCP_SAVED_LIMITS, 1, {{24, 0}}},
    {MSCP_SAVED_LIMITS, 1, {{26, 128}}},
    {MSCP_SAVED_LIMITS, 1, {{28, 0}}},
    {MSCP_SAVED_LIMITS, 1, {{29, 1}}},
    {MSCP_SAVED_LIMITS, 4, {{20, 255}, {21, 255}, {22, 255}, {23, 255}}},
    /* Another picker. */
    {MSCP_SAVED_PICKER, 1, {{30, 2}}},
    /* The last cylinder is 49. */
    {MSCP_SAVED_HEADS, 1, {{D + 30, 50}}},
    {MSCP_SAVED_HEADS, 1, {{D + 33, 1}}},
    /* No second connection, and two commands of one that has room for one. */
    {MSCP_SAVED_CREDITS, 1, {{16, 0}}},
    {MSCP_SAVED_CREDITS, 1, {{R + 40, 2}}},
    /* GET COMMAND STATUS, an unknown opcode, unit 5, block 999 of two, 10 blocks. */
    {MSCP_SAVED_COMMAND, 1, {{R + 8, 0x02}}},
    {MSCP_SAVED_COMMAND, 1, {{W + 8, 0x7F}}},
    {MSCP_SAVED_COMMAND, 1, {{W + 4, 5}}},
    {MSCP_SAVED_COMMAND, 2, {{R + 28, 0xE7}, {R + 29, 3}}},
    {MSCP_SAVED_COMMAND, 1, {{W + 13, 0x14}}},
    {MSCP_SAVED_DOUBLED, 1, {{W + 40, 1}}},
    /* Both steps were done, the only one was, and both commands are in service. */
    {MSCP_SAVED_STEPS, 1, {{R + 32, 2}}},
    {MSCP_SAVED_STEPS, 1, {{W + 32, 1}}},
    {MSCP_SAVED_STEPS, 2, {{W + 13, 4}, {W + 32, 1}}},
    {MSCP_SAVED_PASSED, 1, {{R + 36, 17}}},
    {MSCP_SAVED_PASSED, 1, {{W + 36, 1}}},
    {MSCP_SAVED_ENDS, 1, {{E + 8, 0x42}}},
    /* No command 2, and one that waits for that in service. */
    {MSCP_SAVED_BEGUN, 1, {{44, 2}}},
    {MSCP_SAVED_BEGUN, 1, {{43, 2}}},
    /* Neither online nor not, a connection that is none, and something where nothing is written. */
    {MSCP_SAVED_FORM, 1, {{D + 28, 2}}},
    {MSCP_SAVED_FORM, 1, {{W + 40, 3}}},
    {MSCP_SAVED_FORM, 1, {{E + 47, 1}}},
};

static void each_edit_is_told(void)
{
    put_all_parts();
    come_to("no edit", LENGTH, MSCP_DONE);
    for (size_t i = 0; i < COUNT(ROWS); i++) {
        char what[32];
        put_all_parts();
        for (size_t k = 0; k < ROWS[i].count; k++)
            bytes[ROWS[i].edits[k].place] = ROWS[i].edits[k].byte;
        snprintf(what, sizeof what, "row %u", (unsigned)i);
        come_to(what, LENGTH, ROWS[i].fault);
    }
}

/* Each fault is told before those that follow. */
static void the_first_fault_is_told(void)
{
    static const struct {
        size_t place;
        uint8_t byte;
        int32_t fault;
    } EDITS[] = {
        {9, 1, MSCP_SAVED_LENGTH},       {0, 0, MSCP_SAVED_MAGIC},      {4, 2, MSCP_SAVED_VERSION},
        {28, 0, MSCP_SAVED_LIMITS},      {D + 30, 50, MSCP_SAVED_HEADS}, {12, 2, MSCP_SAVED_CREDITS},
        {W + 4, 5, MSCP_SAVED_COMMAND},  {W + 40, 1, MSCP_SAVED_DOUBLED}, {R + 32, 2, MSCP_SAVED_STEPS},
        {R + 36, 17, MSCP_SAVED_PASSED}, {E + 8, 0x42, MSCP_SAVED_ENDS}, {44, 2, MSCP_SAVED_BEGUN},
        {E + 47, 1, MSCP_SAVED_FORM},
    };
    for (size_t first = 0; first < COUNT(EDITS); first++) {
        char what[32];
        put_all_parts();
        for (size_t i = first; i < COUNT(EDITS); i++)
            bytes[EDITS[i].place] = EDITS[i].byte;
        snprintf(what, sizeof what, "from edit %u on", (unsigned)first);
        come_to(what, LENGTH, EDITS[first].fault);
    }
}

static void a_wrong_number_of_bytes_is_told(void)
{
    static const size_t counts[] = {0, 1, 47, 48, 82, 211};
    put_all_parts();
    bytes[length] = 0;
    for (size_t i = 0; i < COUNT(counts); i++)
        come_to("fewer bytes", counts[i], MSCP_SAVED_LENGTH);
    come_to("a byte more", LENGTH + 1, MSCP_SAVED_LENGTH);
}

/* A head of so many drives, and bytes in all, in which nothing waits and nothing was begun. */
static void put_empty_head(uint8_t drives, uint32_t count)
{
    length = 0;
    add(HEAD, sizeof HEAD);
    put(bytes + 8, 4, count);
    bytes[31] = drives;
    bytes[40] = bytes[41] = bytes[43] = bytes[44] = 0;
}

/* A drive of this number. */
static void add_drive(uint8_t number)
{
    add(DRIVE, sizeof DRIVE);
    bytes[length - sizeof DRIVE] = number;
}

static void units_that_no_controller_has_are_told(void)
{
    put_empty_head(0, 48);
    come_to("no unit", length, MSCP_SAVED_UNITS);
    put_empty_head(2, 116);
    add_drive(0);
    add_drive(3);
    come_to("units that rise", length, MSCP_DONE);
    put_empty_head(2, 116);
    add_drive(3);
    add_drive(0);
    come_to("units that fall", length, MSCP_SAVED_UNITS);
    /* A unit with a size of zero is read as number 0 with one block, whose bytes are others. */
    put_empty_head(1, 82);
    add_drive(0);
    bytes[D + 2] = bytes[D + 30] = 0;
    come_to("a size of zero", length, MSCP_SAVED_FORM);
    put_empty_head(17, 626);
    for (uint8_t number = 0; number < 17; number++)
        add_drive(number);
    come_to("17 drives", length, MSCP_SAVED_LENGTH);
}

int main(void)
{
    bytes_are_these();
    each_edit_is_told();
    the_first_fault_is_told();
    a_wrong_number_of_bytes_is_told();
    units_that_no_controller_has_are_told();
    return wrong;
}
