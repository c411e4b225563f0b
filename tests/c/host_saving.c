/* Hosts that are saved and restored: one that goes on elsewhere after each call, one whose bytes are written by hand, and
 * bytes that no host has. Prints what is wrong, and ends with 1 where something is. */
#include "trying.h"

/* After each call it goes on elsewhere. */
static struct mscp_host *moved(struct mscp_host *host, void **memory)
{
    uint8_t bytes[MSCP_HOST_SAVED_MAX], again[MSCP_HOST_SAVED_MAX];
    size_t size = MSCP_HEAD + mscp_host_size(), length = 0, other = 0;
    is("save", mscp_host_save(host, bytes, sizeof bytes, &length), MSCP_DONE);
    void *to = memory_of(size);
    struct mscp_host *there = mscp_host_in_memory(to, size);
    is("restore", mscp_host_restore(there, bytes, length), MSCP_DONE);
    is("save again", mscp_host_save(there, again, length, &other), MSCP_DONE);
    is("as long", (int64_t)other, (int64_t)length);
    is("the same bytes", memcmp(bytes, again, length), 0);
    free(*memory);
    *memory = to;
    return there;
}

static void polls(void)
{
    struct mscp_packet message;
    struct mscp_news news;
    size_t size = MSCP_HEAD + mscp_host_size();
    void *memory = memory_of(size);
    struct mscp_host *host = mscp_host_in_memory(memory, size);
    is("init", mscp_host_init(host, 4), MSCP_DONE);
    is("submit", mscp_host_submit(host, command(1, MSCP_READ, 1024, 40), 32), MSCP_DONE);
    host = moved(host, &memory);
    for (uint32_t i = 0; i < 3; i++) {
        uint8_t *end = command(10 + i, 0x82, 1, 0);
        is("poll", mscp_host_poll(host, 10 + i, &message), MSCP_DONE);
        host = moved(host, &memory);
        is("one at a time", mscp_host_poll(host, 20, &message), MSCP_BUSY);
        put(end + 16, 4, i == 2 ? 17 : 18 - i);
        is("news", mscp_host_receive(host, end, 20, &news),
           i == 0 ? MSCP_FIRST : i == 1 ? MSCP_PROGRESS : MSCP_NO_PROGRESS);
        host = moved(host, &memory);
    }
    is("balance", mscp_host_balance(host), 3);
    free(memory);
}

/* ---- the bytes of one host, written by hand */

enum { LENGTH = 50 };

/* A host of 4 credits: a READ of which 18 was told, and its second poll. */
static const uint8_t POLLED_TWICE[LENGTH] = {
    /* "MSCH", version 1, 50 bytes, 4 credits */
    0x4D, 0x53, 0x43, 0x48, 1, 0, 0, 0, LENGTH, 0, 0, 0, 4, 0, 0, 0,
    /* two submissions, and poll 8 of command 1, which is outstanding */
    2, 2, 8, 0, 0, 0, 1, 0, 0, 0,
    /* READ 1, of which 18 was told */
    1, 0, 0, 0, 0, 0, 0x21, 1, 18, 0, 0, 0,
    /* GET COMMAND STATUS 8, of which nothing was */
    8, 0, 0, 0, 0, 0, 0x02, 0, 0, 0, 0, 0,
};

static void bytes_are_these(void)
{
    static uint8_t bytes[MSCP_HOST_SAVED_MAX];
    size_t size = MSCP_HEAD + mscp_host_size(), length = 0;
    struct mscp_packet message;
    struct mscp_news news;
    void *memory = memory_of(size);
    struct mscp_host *host = mscp_host_in_memory(memory, size);
    uint8_t *end;
    is("init", mscp_host_init(host, 4), MSCP_DONE);
    is("submit", mscp_host_submit(host, command(1, MSCP_READ, 1024, 40), 32), MSCP_DONE);
    is("poll", mscp_host_poll(host, 7, &message), MSCP_DONE);
    end = command(7, 0x82, 1, 0);
    put(end + 16, 4, 18);
    is("news", mscp_host_receive(host, end, 20, &news), MSCP_FIRST);
    is("poll", mscp_host_poll(host, 8, &message), MSCP_DONE);
    is("save", mscp_host_save(host, bytes, sizeof bytes, &length), MSCP_DONE);
    is("its length", (int64_t)length, LENGTH);
    is("its bytes", memcmp(bytes, POLLED_TWICE, LENGTH), 0);
    memset(bytes, 0xA5, sizeof bytes);
    length = 5;
    is("a byte too few", mscp_host_save(host, bytes, LENGTH - 1, &length), MSCP_SMALL);
    is("what it takes", length == LENGTH && bytes[0] == 0xA5, 1);
    free(memory);
}

/* What comes of so many bytes: a host that is saved as they are, and to which what comes then does no harm; or a fault. */
static int32_t restored(const uint8_t *bytes, size_t length)
{
    static uint8_t again[MSCP_HOST_SAVED_MAX];
    static MSCP_ALIGNED uint64_t room[(MSCP_HEAD + MSCP_HOST_SIZE) / sizeof(uint64_t)];
    struct mscp_host *host = mscp_host_in_memory(room, sizeof room);
    struct mscp_packet message;
    struct mscp_news news;
    size_t other = 0;
    int32_t status = mscp_host_restore(host, bytes, length);
    if (status != MSCP_DONE)
        return status;
    uint8_t *end = command(8, 0x82, 1, 0);
    put(end + 16, 4, 17);
    is("save again", mscp_host_save(host, again, sizeof again, &other), MSCP_DONE);
    is("the same bytes again", other == length && memcmp(again, bytes, length) == 0, 1);
    is("received", mscp_host_receive(host, end, 20, &news) != MSCP_NOT_MADE, 1);
    is("submitted", mscp_host_submit(host, command(2, MSCP_READ, 1024, 40), 32) != MSCP_NOT_MADE, 1);
    is("polled", mscp_host_poll(host, 9, &message) != MSCP_NOT_MADE, 1);
    return status;
}

/* One edit of those bytes, or two. */
static void edits(void)
{
    static const struct {
        struct {
            uint8_t place, byte;
        } edits[2];
        int32_t status;
    } cases[] = {
        {{{8, 51}}, MSCP_SAVED_LENGTH}, {{{16, 1}}, MSCP_SAVED_LENGTH}, {{{3, 0}}, MSCP_SAVED_MAGIC},
        {{{4, 2}}, MSCP_SAVED_VERSION}, {{{12, 1}}, MSCP_SAVED_LIMITS}, {{{12, 65}}, MSCP_SAVED_LIMITS},
        {{{38, 1}}, MSCP_SAVED_DOUBLED},
        /* the poll's number isn't outstanding, and the polled one isn't the oldest */
        {{{18, 9}}, MSCP_SAVED_POLL}, {{{22, 2}}, MSCP_SAVED_POLL},
        /* the polled one is answered at once, and no GET COMMAND STATUS has the poll's number */
        {{{32, 3}}, MSCP_SAVED_POLL}, {{{44, 3}}, MSCP_SAVED_POLL},
        /* one of both is to another unit, and a figure was told of the poll */
        {{{30, 1}}, MSCP_SAVED_POLL}, {{{42, 1}}, MSCP_SAVED_POLL}, {{{45, 1}}, MSCP_SAVED_POLL},
        {{{17, 0}}, MSCP_SAVED_FORM}, {{{17, 3}}, MSCP_SAVED_FORM}, {{{33, 0}}, MSCP_SAVED_FORM},
        {{{33, 2}}, MSCP_SAVED_FORM}, {{{46, 1}}, MSCP_SAVED_FORM},
        /* a poll of a command that ended is about another number */
        {{{17, 1}}, MSCP_DONE}, {{{17, 1}, {22, 2}}, MSCP_DONE}, {{{17, 1}, {22, 8}}, MSCP_SAVED_POLL},
        /* one credit is kept for commands that are answered when they arrive */
        {{{12, 3}}, MSCP_DONE}, {{{12, 2}}, MSCP_DONE}, {{{12, 2}, {44, 0x21}}, MSCP_SAVED_CREDITS},
    };
    for (size_t i = 0; i < COUNT(cases); i++) {
        uint8_t bytes[LENGTH];
        memcpy(bytes, POLLED_TWICE, LENGTH);
        for (unsigned k = 0; k < 2 && cases[i].edits[k].place != 0; k++)
            bytes[cases[i].edits[k].place] = cases[i].edits[k].byte;
        is("an edit", restored(bytes, LENGTH), cases[i].status);
    }
    is("a byte too few", restored(POLLED_TWICE, LENGTH - 1), MSCP_SAVED_LENGTH);
    is("no bytes", restored(NULL, 0), MSCP_SAVED_LENGTH);
}

/* Over the host that is made: bytes at fault leave it as it is, and good ones are in its place. */
static void in_place(void)
{
    static MSCP_ALIGNED uint64_t room[(MSCP_HEAD + MSCP_HOST_SIZE) / sizeof(uint64_t)];
    uint8_t before[MSCP_HOST_SAVED_MAX], after[MSCP_HOST_SAVED_MAX];
    struct mscp_host *host = mscp_host_in_memory(room, sizeof room);
    size_t held, length;
    is("a host", mscp_host_init(host, 9), MSCP_DONE);
    is("which is saved", mscp_host_save(host, before, sizeof before, &held), MSCP_DONE);
    is("a byte too few", mscp_host_restore(host, POLLED_TWICE, LENGTH - 1), MSCP_SAVED_LENGTH);
    is("saved again", mscp_host_save(host, after, sizeof after, &length), MSCP_DONE);
    is("it goes on", length == held && memcmp(before, after, held) == 0, 1);
    is("good bytes", mscp_host_restore(host, POLLED_TWICE, LENGTH), MSCP_DONE);
    is("saved once more", mscp_host_save(host, after, sizeof after, &length), MSCP_DONE);
    is("that one goes on", length == LENGTH && memcmp(after, POLLED_TWICE, LENGTH) == 0, 1);
}

/* Three submissions: two credits are too few, and three are if none is kept for what is answered when it arrives. */
static void more_than_credits(void)
{
    uint8_t bytes[LENGTH + 12] = {0};
    memcpy(bytes, POLLED_TWICE, LENGTH);
    bytes[8] = sizeof bytes;
    bytes[16] = 3;
    is("four credits", restored(bytes, sizeof bytes), MSCP_DONE);
    bytes[12] = 2;
    is("two", restored(bytes, sizeof bytes), MSCP_SAVED_CREDITS);
    bytes[12] = 3;
    is("three", restored(bytes, sizeof bytes), MSCP_DONE);
    bytes[44] = 0x21;
    is("of which none is kept", restored(bytes, sizeof bytes), MSCP_SAVED_CREDITS);
}

/* Each flipped bit. Credits of 5, 6, 12, 20 and 36 are those of a host; and so is the READ with each bit of its opcode byte
 * but the one that makes an ABORT of it, and of its figure. */
static void flipped_bits(void)
{
    unsigned taken = 0;
    uint8_t bytes[LENGTH];
    memcpy(bytes, POLLED_TWICE, LENGTH);
    for (size_t bit = 0; bit < 8 * LENGTH; bit++) {
        bytes[bit / 8] ^= (uint8_t)(1u << bit % 8);
        if (restored(bytes, LENGTH) == MSCP_DONE)
            taken++;
        bytes[bit / 8] ^= (uint8_t)(1u << bit % 8);
    }
    is("those of a host", taken, 5 + 7 + 32);
}

int main(void)
{
    polls();
    bytes_are_these();
    edits();
    in_place();
    more_than_credits();
    flipped_bits();
    return wrong;
}
