/* Two hosts on one controller, each with credits and reference numbers of its own; and one host's last credit. Prints
 * what is wrong, and ends with 1 where something is. */
#include "stepping.h"

/* A READ of one block. */
static uint8_t *one(uint32_t reference) { return command(reference, MSCP_READ, 512, 0); }

static uint8_t *poll(uint32_t reference, uint32_t other)
{
    return command(reference, MSCP_GET_COMMAND_STATUS, other, 0);
}

/* The end of a poll of the other command tells this figure. */
static void takes_poll(uint32_t connection, uint32_t reference, uint32_t other, uint32_t figure)
{
    struct mscp_packet end;
    is("take", mscp_take(mscp, connection, &end), MSCP_DONE);
    is("its length", end.length, 20);
    is("its number", number(end.bytes, 4), reference);
    is("its unit", number(end.bytes + 4, 4), 0);
    is("its code and status", number(end.bytes + 8, 4), 0x82);
    is("the other", number(end.bytes + 12, 4), other);
    is("its figure", number(end.bytes + 16, 4), figure);
}

/* ---- numbers */

/* Two READs of one reference number, one of each host, on a unit that is online. */
static void make_with_one_number(void)
{
    make_online(4, 4, MSCP_OLDEST);
    sends(FIRST, one(1), MSCP_QUEUED);
    sends(SECOND, one(1), MSCP_QUEUED);
}

static void each_host_polls_and_aborts_its_own(void)
{
    make_with_one_number();
    has_figure(FIRST, 1, 17);
    has_figure(SECOND, 1, 18);
    sends(SECOND, poll(2, 1), MSCP_ANSWERED);
    takes_nothing(FIRST);
    takes_poll(SECOND, 2, 1, 18);
    aborts(SECOND, 3, 1);
    has_figure(SECOND, 1, 0);
    has_figure(FIRST, 1, 17);
    takes_read(SECOND, 1, 0x0002, 0);
    takes_abort(SECOND, 3, 1);
    has_free(FIRST, 3);
    has_free(SECOND, 4);
    drop();
}

static void no_host_aborts_the_others_command(void)
{
    make_with_one_number();
    sends(SECOND, one(7), MSCP_QUEUED);
    sends(FIRST, command(2, MSCP_ABORT, 7, 0), MSCP_ANSWERED);
    keeps(1, 2, 1, 0);
    sends(SECOND, one(7), MSCP_DOUBLED);
    sends(FIRST, one(7), MSCP_QUEUED);
    drop();
}

static void a_step_is_finished_by_its_own_connection_and_ends_there(void)
{
    static const struct mscp_waiting both[] = {{1, 17, SECOND}, {1, 18, FIRST}};
    make_with_one_number();
    begins(FIRST, 1, MSCP_READ, 512, 0, 0, 1);
    finishes_nothing(SECOND, 1, GOOD);
    finishes(GOOD, (struct served){FIRST, 1, 0, true, 0, 0});
    keeps(0, 1, 1, 0);
    takes_nothing(SECOND);
    takes_read(FIRST, 1, 0, 512);
    sends(FIRST, one(1), MSCP_QUEUED);
    shows(both, 2);
    drop();
}

/* ---- credits */

/* One credit of the connection is left, which a poll takes. */
static void is_full(uint32_t connection)
{
    has_free(connection, 1);
    sends(connection, one(100), MSCP_LAST_CREDIT);
    sends(connection, poll(100, 1), MSCP_ANSWERED);
    sends(connection, poll(101, 1), MSCP_NO_CREDIT);
}

static void both_fill_their_credits(void)
{
    struct mscp_waiting list[64];
    make(62, 2, MSCP_OLDEST);
    for (uint32_t reference = 1; reference <= 61; reference++)
        sends(FIRST, one(reference), MSCP_QUEUED);
    sends(SECOND, one(1), MSCP_QUEUED);
    is_full(FIRST);
    is_full(SECOND);
    /* What stands before it: 61 reads of one block, and its own, and the budget. */
    has_figure(SECOND, 1, 61 + 1 + 16);
    is("how many wait", mscp_look(mscp, list, COUNT(list)), 62);
    drop();
}

static void where_there_is_no_second_connection_it_has_nothing(void)
{
    static const uint8_t zeros[65];
    struct mscp_sent sent;
    make(4, 0, MSCP_OLDEST);
    is("short", mscp_send(mscp, SECOND, zeros, 11, &sent), MSCP_SHORT);
    is("long", mscp_send(mscp, SECOND, zeros, 65, &sent), MSCP_LONG);
    sends(SECOND, one(1), MSCP_NO_CREDIT);
    sends(SECOND, poll(1, 1), MSCP_NO_CREDIT);
    takes_nothing(SECOND);
    has_free(SECOND, 0);
    has_figure(SECOND, 1, 0);
    finishes_nothing(SECOND, 1, GOOD);
    has_free(FIRST, 4);
    drop();
}

/* A message of a wrong length costs no credit. */
static void messages_of_a_wrong_length_change_nothing(void)
{
    static const uint8_t zeros[65];
    struct mscp_sent sent;
    make(4, 0, MSCP_OLDEST);
    is("short", mscp_send(mscp, FIRST, zeros, 11, &sent), MSCP_SHORT);
    is("long", mscp_send(mscp, FIRST, zeros, 65, &sent), MSCP_LONG);
    has_free(FIRST, 4);
    drop();
    make(2, 0, MSCP_OLDEST);
    is("short", mscp_send(mscp, FIRST, zeros, 11, &sent), MSCP_SHORT);
    sends(FIRST, poll(1, 9), MSCP_ANSWERED);
    sends(FIRST, poll(2, 9), MSCP_ANSWERED);
    sends(FIRST, poll(3, 9), MSCP_NO_CREDIT);
    drop();
}

static void the_last_credit_is_kept_for_immediate_commands(void)
{
    make(2, 0, MSCP_OLDEST);
    sends(FIRST, one(1), MSCP_QUEUED);
    sends(FIRST, one(2), MSCP_LAST_CREDIT);
    sends(FIRST, poll(3, 1), MSCP_ANSWERED);
    sends(FIRST, poll(4, 1), MSCP_NO_CREDIT);
    takes_poll(FIRST, 3, 1, 17);
    has_free(FIRST, 1);
    drop();
}

/* With four credits three commands may wait, and a poll has the last credit. */
static void a_host_that_sends_too_many_is_told(void)
{
    make_online(4, 0, MSCP_OLDEST);
    for (uint32_t reference = 1; reference <= 3; reference++)
        sends(FIRST, one(reference), MSCP_QUEUED);
    sends(FIRST, one(4), MSCP_LAST_CREDIT);
    sends(FIRST, poll(5, 1), MSCP_ANSWERED);
    sends(FIRST, one(4), MSCP_NO_CREDIT);
    takes_poll(FIRST, 5, 1, 17);
    drop();
}

int main(void)
{
    each_host_polls_and_aborts_its_own();
    no_host_aborts_the_others_command();
    a_step_is_finished_by_its_own_connection_and_ends_there();
    both_fill_their_credits();
    where_there_is_no_second_connection_it_has_nothing();
    messages_of_a_wrong_length_change_nothing();
    the_last_credit_is_kept_for_immediate_commands();
    a_host_that_sends_too_many_is_told();
    return wrong;
}
