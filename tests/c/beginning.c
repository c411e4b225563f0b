/* What begin tells, when a finish fails, what a reset leaves, a bad block or an ABORT at each step of a READ, and the
 * steps and ABORTs of sixty-three commands. Prints what is wrong, and ends with 1 where something is. */
#include "stepping.h"

/* The one step of a READ of one block, for which the head crossed so many cylinders. */
static struct served first_and_last(uint32_t reference, uint32_t block, uint32_t seek)
{
    return (struct served){FIRST, reference, block, true, seek, 0};
}

/* ---- what was aborted */

/* A READ of two blocks, from block 40 on, is aborted after so many of them, while this block is under way. Its end
 * tells so many bytes. Of the four credits two are the ends' until these are taken. */
static void is_aborted(uint32_t done, uint32_t block, uint32_t bytes)
{
    make_online(4, 0, MSCP_OLDEST);
    reads(FIRST, 1, 1024, 40);
    makes_steps(done);
    begins(FIRST, 1, MSCP_READ, 1024, block, done, 2);
    aborts(FIRST, 2, 1);
    finishes_nothing(FIRST, 1, GOOD);
    shows(NULL, 0);
    has_free(FIRST, 2);
    begins_nothing();
    takes_read(FIRST, 1, 0x0002, bytes);
    takes_abort(FIRST, 2, 1);
    takes_nothing(FIRST);
    has_free(FIRST, 4);
    drop();
}

/* The block that is under way doesn't count, and each before it counts 512 bytes. */
static void what_was_aborted_is_begun_no_more(void)
{
    is_aborted(0, 40, 0);
    is_aborted(1, 41, 512);
}

/* Block 40 is on cylinder 2, and the head on cylinder 0. The block that was under way moved no head. */
static void a_block_of_what_was_aborted_moves_no_head(void)
{
    make_online(4, 0, MSCP_OLDEST);
    reads(FIRST, 1, 512, 40);
    begins(FIRST, 1, MSCP_READ, 512, 40, 0, 1);
    aborts(FIRST, 2, 1);
    finishes_nothing(FIRST, 1, GOOD);
    reads(FIRST, 3, 512, 40);
    steps(GOOD, first_and_last(3, 40, 2));
    drop();
}

/* ---- what is not begun */

/* Whatever the block, a finish of this number fails, since no such command is begun. These figures and this balance
 * stay. */
static void is_not_begun(uint32_t reference, const struct mscp_waiting *figures, int32_t count, int64_t balance)
{
    for (uint16_t block = GOOD; block <= 0x000B; block += 0x000B) {
        finishes_nothing(FIRST, reference, block);
        shows(figures, count);
        has_free(FIRST, balance);
        takes_nothing(FIRST);
    }
}

/* READ 1 of block 40 and READ 2 of block 0 wait. The budget is 16 blocks. So the first READ, of one block, has the
 * figure 16 + 1 = 17, and the second that and the block before it, 18. */
static const struct mscp_waiting BOTH[] = {{1, 17, FIRST}, {2, 18, FIRST}};

static void make_with_two(void)
{
    make_online(4, 0, MSCP_OLDEST);
    reads(FIRST, 1, 512, 40);
    reads(FIRST, 2, 512, 0);
}

static void begins_the_first(void) { begins(FIRST, 1, MSCP_READ, 512, 40, 0, 1); }

static void a_finish_of_what_is_not_begun_changes_nothing(void)
{
    make_with_two();
    is_not_begun(1, BOTH, 2, 2);
    begins_the_first();
    is_not_begun(2, BOTH, 2, 2);
    is_not_begun(3, BOTH, 2, 2);
    begins_the_first();
    drop();
}

static void what_ended_or_was_forgotten_is_begun_no_more(void)
{
    static const struct mscp_waiting other[] = {{2, 17, FIRST}};
    make_with_two();
    begins_the_first();
    finishes(GOOD, first_and_last(1, 40, 2));
    takes_read(FIRST, 1, 0, 512);
    is_not_begun(1, other, 1, 3);
    begins(FIRST, 2, MSCP_READ, 512, 0, 0, 1);
    is("reset", mscp_reset(mscp), MSCP_DONE);
    is_not_begun(2, NULL, 0, 4);
    drop();
}

/* ---- arrivals */

/* Block 980 is on cylinder 49, the last. */
static void a_cheaper_arrival_changes_nothing_that_was_begun(void)
{
    make_online(4, 0, MSCP_SWEEP);
    reads(FIRST, 1, 512, 980);
    begins(FIRST, 1, MSCP_READ, 512, 980, 0, 1);
    reads(FIRST, 2, 512, 0);
    begins(FIRST, 1, MSCP_READ, 512, 980, 0, 1);
    steps(GOOD, first_and_last(1, 980, 49));
    steps(GOOD, first_and_last(2, 0, 49));
    drop();
}

/* Where nothing was begun the sweep serves the READ at the head first. */
static void a_cheaper_arrival_is_served_first_where_nothing_was_begun(void)
{
    make_online(4, 0, MSCP_SWEEP);
    reads(FIRST, 1, 512, 980);
    reads(FIRST, 2, 512, 0);
    steps(GOOD, first_and_last(2, 0, 0));
    steps(GOOD, first_and_last(1, 980, 49));
    drop();
}

/* ---- steps that touch no block */

/* A new controller's one command, an ONLINE: its end tells the unit. */
static void a_begun_online_is_served(void)
{
    make(4, 0, MSCP_OLDEST);
    sends(FIRST, command(1, MSCP_ONLINE, 0, 0), MSCP_QUEUED);
    begins(FIRST, 1, MSCP_ONLINE, 0, NO_BLOCK, 0, 1);
    finishes(GOOD, (struct served){FIRST, 1, NO_BLOCK, true, 0, 0});
    takes(FIRST, 1, 0x89, 0, 44, 0);
    begins_nothing();
    drop();
}

/* A READ of a unit that is available ends in its first step, also where the block is bad. */
static void a_begun_read_of_an_available_unit_ends(uint16_t block)
{
    make(4, 0, MSCP_OLDEST);
    reads(FIRST, 1, 1024, 40);
    begins(FIRST, 1, MSCP_READ, 1024, NO_BLOCK, 0, 2);
    finishes(block, (struct served){FIRST, 1, NO_BLOCK, true, 0, 0x0004});
    takes_read(FIRST, 1, 0x0004, 0);
    begins_nothing();
    drop();
}

/* ---- new controllers */

/* The controller has four credits, and nothing came to it so far. So the first READ finds its unit available, and for
 * the second the head crosses five cylinders: block 100 is on cylinder 5. */
static void is_new(void)
{
    static const struct mscp_waiting all[] = {{3, 17, FIRST}, {1, 18, FIRST}, {2, 19, FIRST}};
    has_free(FIRST, 4);
    shows(NULL, 0);
    takes_nothing(FIRST);
    begins_nothing();
    reads(FIRST, 3, 512, 100);
    sends(FIRST, command(1, MSCP_ONLINE, 0, 0), MSCP_QUEUED);
    reads(FIRST, 2, 512, 100);
    shows(all, 3);
    steps(GOOD, (struct served){FIRST, 3, NO_BLOCK, true, 0, 0x0004});
    steps(GOOD, (struct served){FIRST, 1, NO_BLOCK, true, 0, 0});
    steps(GOOD, first_and_last(2, 100, 5));
    begins_nothing();
    drop();
}

static void a_controller_that_is_made_is_new(void)
{
    make(4, 0, MSCP_SWEEP);
    is_new();
}

/* At the reset one end wasn't taken, one command is in service and another waits, and the head is on cylinder 20. */
static void a_reset_controller_is_new(void)
{
    make_online(4, 0, MSCP_SWEEP);
    reads(FIRST, 1, 512, 980);
    steps(GOOD, first_and_last(1, 980, 49));
    reads(FIRST, 2, 1024, 400);
    steps(GOOD, (struct served){FIRST, 2, 400, true, 29, NO_END});
    reads(FIRST, 3, 512, 0);
    begins(FIRST, 2, MSCP_READ, 1024, 401, 1, 2);
    has_free(FIRST, 1);
    is("reset", mscp_reset(mscp), MSCP_DONE);
    is_new();
}

/* ---- each step of a READ */

/* Where READ 1 has so many blocks, a bad one ends it behind so many, or an ABORT does. */
static void a_bad_block_or_an_abort_ends_a_read(uint32_t weight, uint32_t done)
{
    struct served bad = {FIRST, 1, done, done == 0, 0, 0x0008};
    make_online(4, 0, MSCP_OLDEST);
    reads(FIRST, 1, 512 * weight, 0);
    makes_steps(done);
    steps(0x0008, bad);
    takes_read(FIRST, 1, 0x0008, 512 * done);
    has_free(FIRST, 4);
    drop();
    make_online(4, 0, MSCP_OLDEST);
    reads(FIRST, 1, 512 * weight, 0);
    makes_steps(done);
    aborts(FIRST, 2, 1);
    takes_read(FIRST, 1, 0x0002, 512 * done);
    takes_abort(FIRST, 2, 1);
    has_free(FIRST, 4);
    drop();
}

/* ---- sixty-three commands over four units */

enum { MANY = 63 };

/* The last four are SET UNIT CHARACTERISTICS, and wait for all others of their units. The others read one to eight
 * blocks. Number 59 is the nearest, so the sweep starts it first, and it passes all that came before it. */
static uint8_t *one_of_many(uint32_t reference)
{
    uint8_t *it = reference < 60 ? command(reference, MSCP_READ, 512 * (reference % 8 + 1), 1000 - 16 * reference)
                                 : command(reference, MSCP_SET_UNIT_CHARACTERISTICS, 0, 0);
    it[4] = reference % 4;
    return it;
}

/* They came to a controller whose units are online. Each may be passed by three of the longest transfers. */
static struct mscp *make_with_many(uint32_t picker)
{
    static const struct mscp_limits limits = {1, 24, MANY + 1, 0, 8, 60};
    const size_t size = MSCP_HEAD + mscp_size();
    struct mscp_unit units[4];
    struct mscp_packet end;
    for (uint16_t n = 0; n < COUNT(units); n++)
        units[n] = (struct mscp_unit){1, 1000, 0, 1, n, 10, 2, 1};
    mscp = mscp_in_memory(memory_of(size), size);
    is("init", mscp_init(mscp, &limits, units, COUNT(units), picker), MSCP_DONE);
    for (uint8_t n = 0; n < COUNT(units); n++) {
        uint8_t *online = command(900, MSCP_ONLINE, 0, 0);
        online[4] = n;
        sends(FIRST, online, MSCP_QUEUED);
        makes_steps(1);
        is("take", mscp_take(mscp, FIRST, &end), MSCP_DONE);
    }
    for (uint32_t reference = 1; reference <= MANY; reference++)
        sends(FIRST, one_of_many(reference), MSCP_QUEUED);
    has_free(FIRST, 1);
    return mscp;
}

/* After so many steps an ABORT of one of them raises no figure, and its own is 0. */
static void no_abort_raises_a_figure(uint32_t done, uint32_t other)
{
    struct mscp_waiting before[MANY];
    make_with_many(MSCP_SWEEP);
    makes_steps(done);
    keeps(MANY, 0, 0, 0);
    is("how many wait", mscp_look(mscp, before, MANY), MANY);
    aborts(FIRST, 100, other);
    keeps(MANY - 1, 0, 2, 0);
    has_free(FIRST, 0);
    for (uint32_t i = 0; i < MANY; i++) {
        int64_t figure = mscp_figure(mscp, FIRST, before[i].reference);
        is("it rises", figure > before[i].figure, 0);
        is("it is 0", figure == 0, before[i].reference == other);
    }
    drop();
}

static bool is_reported(const struct mscp_upcoming *next, const struct mscp_report *report)
{
    const uint8_t *it = one_of_many(report->reference);
    return next->reference == report->reference && next->opcode == it[8] && next->bytes == number(it + 12, 4) &&
           next->unit == report->unit && next->touches == report->touched && next->lbn == report->lbn &&
           (next->done == 0) == report->started && (next->done + 1 == next->weight) == report->ended;
}

/* Each step reports what its begin told, twice; and the same where none was begun. */
static void begin_tells_what_the_step_reports(uint32_t picker)
{
    struct mscp *other = make_with_many(picker), *begun = make_with_many(picker);
    struct mscp_upcoming next, again;
    struct mscp_report report, plain;
    uint32_t count = 0;
    for (; mscp_begin(begun, &next) == MSCP_DONE; count++) {
        is("begin again", mscp_begin(begun, &again), MSCP_DONE);
        is("step", mscp_step(begun, GOOD, &report), MSCP_DONE);
        is("another's step", mscp_step(other, GOOD, &plain), MSCP_DONE);
        is("what was told", is_reported(&next, &report) && is_reported(&again, &report), 1);
        is("what is done", is_reported(&next, &plain) && plain.seek == report.seek, 1);
    }
    is("the steps of all", count, 7 * 36 + 2 + 3 + 4 + 4);
    is("nothing is left", mscp_step(other, GOOD, &plain), MSCP_NOTHING);
    free(begun);
    free(other);
}

int main(void)
{
    what_was_aborted_is_begun_no_more();
    a_block_of_what_was_aborted_moves_no_head();
    a_finish_of_what_is_not_begun_changes_nothing();
    what_ended_or_was_forgotten_is_begun_no_more();
    a_cheaper_arrival_changes_nothing_that_was_begun();
    a_cheaper_arrival_is_served_first_where_nothing_was_begun();
    a_begun_online_is_served();
    a_begun_read_of_an_available_unit_ends(GOOD);
    a_begun_read_of_an_available_unit_ends(0x000B);
    a_controller_that_is_made_is_new();
    a_reset_controller_is_new();
    for (uint32_t weight = 1; weight < 9; weight++)
        for (uint32_t done = 0; done < weight; done++)
            a_bad_block_or_an_abort_ends_a_read(weight, done);
    for (uint32_t done = 0; done < 3; done++)
        for (uint32_t other = 1; other <= MANY; other++)
            no_abort_raises_a_figure(done, other);
    begin_tells_what_the_step_reports(MSCP_OLDEST);
    begin_tells_what_the_step_reports(MSCP_SWEEP);
    return wrong;
}
