/* What a host makes of the ends that it is told, and which commands it lets go. Prints what is wrong, and ends with 1
 * where something is. */
#include "trying.h"

static struct mscp_host *host;

static void make(uint32_t credits)
{
    size_t size = MSCP_HEAD + mscp_host_size();
    host = mscp_host_in_memory(memory_of(size), size);
    is("init", mscp_host_init(host, credits), MSCP_DONE);
}

static void drop(void) { free(host); }

static void has_free(int64_t credits) { is("free", mscp_host_balance(host), credits); }

/* ---- commands */

static void submits(uint8_t *message, uint32_t length, int32_t wanted)
{
    is("submit", mscp_host_submit(host, message, length), wanted);
}

/* A READ of two blocks. */
static void reads(uint32_t reference, int32_t wanted) { submits(command(reference, MSCP_READ, 1024, 40), 32, wanted); }

/* A command that is answered at once. */
static void asks_for_status(uint32_t reference, int32_t wanted)
{
    submits(command(reference, MSCP_GET_UNIT_STATUS, 0, 0), 12, wanted);
}

/* ---- polls */

/* A poll of this number isn't to be sent. */
static void polls(uint32_t reference, int32_t wanted)
{
    struct mscp_packet message;
    is("poll", mscp_host_poll(host, reference, &message), wanted);
}

/* A poll of this number is to be sent, about this command of a unit. */
static void asks(uint8_t reference, uint32_t unit, uint8_t other)
{
    uint8_t wanted[16] = {reference, [8] = MSCP_GET_COMMAND_STATUS, [12] = other};
    struct mscp_packet message;
    put(wanted + 4, 2, unit);
    is("poll", mscp_host_poll(host, reference, &message), MSCP_DONE);
    is("its length", message.length, sizeof wanted);
    is("its bytes", memcmp(message.bytes, wanted, sizeof wanted), 0);
}

/* ---- ends */

/* Of an end of so many bytes the host says this, and of an answer this figure. */
static void hears(uint8_t *end, uint32_t length, int32_t wanted, uint32_t figure)
{
    struct mscp_news news = {0, 0, 0, 0, 0, 0};
    is("receive", mscp_host_receive(host, end, length, &news), wanted);
    is("its figure", news.figure, figure);
    if (wanted == MSCP_ENDED) {
        is("whose", news.reference, number(end, 4));
        is("its code", news.code, end[8]);
        is("its status", news.status, number(end + 10, 2));
        is("its bytes", news.moved, end[8] == 0x80 ? 0 : number(end + 12, 4));
    }
}

/* A poll of this number is answered by this figure of another command. */
static void is_answered(uint32_t reference, uint32_t other, uint32_t figure, int32_t wanted, uint32_t told)
{
    uint8_t *end = command(reference, 0x82, other, 0);
    put(end + 16, 4, figure);
    hears(end, 20, wanted, told);
}

/* An end of a transfer. */
static void is_ended(uint32_t reference, uint8_t code, uint32_t bytes, int32_t wanted)
{
    hears(command(reference, code, bytes, 0), 32, wanted, 0);
}

/* An end of an unknown opcode. */
static void is_unknown(uint32_t reference) { hears(command(reference, 0x80, 0, 0), 12, MSCP_ENDED, 0); }

/* A poll of command 1 is sent, and the host says this of its answer. Three credits are free where no poll is out. */
static void is_told(uint8_t reference, uint32_t figure, int32_t wanted, uint32_t told)
{
    asks(reference, 0, 1);
    has_free(2);
    is_answered(reference, 1, figure, wanted, told);
    has_free(3);
}

/* ---- what it does */

static void takes_2_to_64_credits(void)
{
    static const uint32_t wrong_ones[] = {0, 1, 65, UINT32_MAX};
    size_t size = MSCP_HEAD + mscp_host_size();
    void *memory = memory_of(size);
    for (size_t i = 0; i < COUNT(wrong_ones); i++)
        is("credits", mscp_host_init(mscp_host_in_memory(memory, size), wrong_ones[i]), MSCP_BAD_CREDITS);
    free(memory);
    for (uint32_t credits = 2; credits <= 64; credits += 62) {
        make(credits);
        has_free(credits);
        drop();
    }
}

static void says_what_each_answer_tells(void)
{
    make(4);
    reads(1, MSCP_DONE);
    is_told(10, 5, MSCP_FIRST, 5);
    is_told(11, 5, MSCP_NO_PROGRESS, 0);
    is_told(12, 0, MSCP_LOST, 0);
    is_told(13, 0, MSCP_NO_PROGRESS, 0);
    is_told(14, 3, MSCP_NO_PROGRESS, 0);
    is_told(15, 2, MSCP_PROGRESS, 2);
    is_ended(1, 0xA1, 1024, MSCP_ENDED);
    has_free(4);
    /* A first answer of 0. */
    reads(2, MSCP_DONE);
    asks(16, 0, 2);
    is_answered(16, 2, 0, MSCP_LOST, 0);
    drop();
}

static void polls_one_at_a_time_and_the_oldest(void)
{
    make(8);
    polls(10, MSCP_NOTHING);
    asks_for_status(7, MSCP_DONE);
    polls(10, MSCP_NOTHING);
    reads(2, MSCP_DONE);
    reads(1, MSCP_DONE);
    asks(10, 0, 2);
    polls(11, MSCP_BUSY);
    has_free(4);
    is_ended(2, 0xA1, 1024, MSCP_ENDED);
    polls(11, MSCP_BUSY);
    is_answered(10, 2, 0, MSCP_LATE, 0);
    asks(11, 0, 1);
    drop();
}

static void a_poll_names_the_unit_of_its_command(void)
{
    uint8_t *online = command(7, MSCP_ONLINE, 0, 0);
    make(4);
    put(online + 4, 2, 300);
    submits(online, 12, MSCP_DONE);
    asks(10, 300, 7);
    drop();
}

static void a_number_used_again_is_another_command(void)
{
    make(4);
    reads(1, MSCP_DONE);
    is_told(10, 9, MSCP_FIRST, 9);
    asks(11, 0, 1);
    is_ended(1, 0xA1, 1024, MSCP_ENDED);
    reads(1, MSCP_DONE);
    is_answered(11, 1, 0, MSCP_LATE, 0);
    is_told(12, 20, MSCP_FIRST, 20);
    drop();
}

static void keeps_the_last_credit(void)
{
    make(2);
    reads(1, MSCP_DONE);
    reads(2, MSCP_LAST_CREDIT);
    asks_for_status(1, MSCP_DOUBLED);
    polls(1, MSCP_DOUBLED);
    asks_for_status(3, MSCP_DONE);
    asks_for_status(1, MSCP_NO_CREDIT);
    polls(4, MSCP_NO_CREDIT);
    has_free(0);
    drop();
}

/* A host of eight credits: READ 1, a command whose opcode is that of an end, and poll 10 of READ 1. */
static void make_with_the_opcode_of_an_end(void)
{
    make(8);
    reads(1, MSCP_DONE);
    submits(command(5, 0x90, 0, 0), 12, MSCP_DONE);
    asks(10, 0, 1);
}

/* The host knows of no command that one of the first five is of, and its credits stay. It can't read the others. */
static void refuses_ends_that_are_none_of_its_commands(void)
{
    make_with_the_opcode_of_an_end();
    is_ended(2, 0xA1, 1024, MSCP_UNKNOWN);
    has_free(5);
    is_ended(1, 0xA2, 1024, MSCP_UNKNOWN);
    has_free(5);
    is_ended(5, 0x90, 0, MSCP_UNKNOWN);
    has_free(5);
    is_answered(10, 5, 3, MSCP_UNKNOWN, 0);
    has_free(5);
    is_answered(11, 1, 3, MSCP_UNKNOWN, 0);
    has_free(5);
    hears(command(1, 0xA1, 0, 0), 0, MSCP_UNREADABLE, 0);
    hears(command(1, 0xA1, 0, 0), 12, MSCP_UNREADABLE, 0);
    drop();
}

/* Whatever the command, the end of an unknown opcode is one of its ends. */
static void an_end_of_endcode_0x80_is_of_any_command(void)
{
    make_with_the_opcode_of_an_end();
    is_unknown(1);
    is_unknown(5);
    is_unknown(10);
    has_free(8);
    polls(10, MSCP_NOTHING);
    drop();
}

int main(void)
{
    takes_2_to_64_credits();
    says_what_each_answer_tells();
    polls_one_at_a_time_and_the_oldest();
    a_poll_names_the_unit_of_its_command();
    a_number_used_again_is_another_command();
    keeps_the_last_credit();
    refuses_ends_that_are_none_of_its_commands();
    an_end_of_endcode_0x80_is_of_any_command();
    return wrong;
}
