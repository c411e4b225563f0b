/* A driver's account that is saved and restored: one that goes on elsewhere after each call, one whose bytes are written
 * by hand, and bytes that no account has. Prints what is wrong, and ends with 1 where something is. */
#include "trying.h"

enum { LENGTH = 74, HOST = 24 }; /* where the host in it begins */

/* An account of 3 credits: a READ of 1024 bytes, and a poll of it. */
static const uint8_t POLLED[LENGTH] = {
    /* "MSCD", version 1, 74 bytes, 3 credits and never too many, two commands, and the bytes that each asks for */
    0x4D, 0x53, 0x43, 0x44, 1, 0, 0, 0, LENGTH, 0, 0, 0, 3, 0, 0, 2, 0, 4, 0, 0, 0, 0, 0, 0,
    /* "MSCH", version 1, 50 bytes, 64 credits, two submissions, and poll 8 of command 1, which is outstanding */
    0x4D, 0x53, 0x43, 0x48, 1, 0, 0, 0, 50, 0, 0, 0, 64, 0, 0, 0, 2, 2, 8, 0, 0, 0, 1, 0, 0, 0,
    /* READ 1 and GET COMMAND STATUS 8, of which nothing was told */
    1, 0, 0, 0, 0, 0, 0x21, 0, 0, 0, 0, 0, 8, 0, 0, 0, 0, 0, 0x02, 0, 0, 0, 0, 0,
};

/* After each call it goes on elsewhere. */
static struct mscp_driver *moved(struct mscp_driver *driver, void **memory)
{
    uint8_t bytes[MSCP_DRIVER_SAVED_MAX], again[MSCP_DRIVER_SAVED_MAX];
    size_t size = MSCP_HEAD + mscp_driver_size(), length = 0, other = 0;
    is("save", mscp_driver_save(driver, bytes, sizeof bytes, &length), MSCP_DONE);
    void *to = memory_of(size);
    struct mscp_driver *there = mscp_driver_in_memory(to, size);
    is("restore", mscp_driver_restore(there, bytes, length), MSCP_DONE);
    is("save again", mscp_driver_save(there, again, sizeof again, &other), MSCP_DONE);
    is("the same bytes", length == other && memcmp(bytes, again, length) == 0, 1);
    free(*memory);
    *memory = to;
    return there;
}

/* An end of so many bytes, behind an envelope that tells these credits. */
static uint8_t *sent(uint32_t reference, uint8_t code, uint32_t length, uint8_t credits)
{
    static uint8_t bytes[4 + MSCP_MESSAGE_MAX];
    memset(bytes, 0, sizeof bytes);
    put(bytes, 2, length);
    bytes[2] = credits;
    put(bytes + 4, 4, reference);
    bytes[12] = code;
    return bytes;
}

static void goes_on(void)
{
    static uint8_t bytes[MSCP_DRIVER_SAVED_MAX];
    struct mscp_watch watch = {60, 0, 0};
    struct mscp_packet message;
    struct mscp_heard heard;
    struct mscp_asked asked[2];
    size_t size = MSCP_HEAD + mscp_driver_size(), length = 0;
    void *memory = memory_of(size);
    struct mscp_driver *driver = mscp_driver_in_memory(memory, size);
    uint8_t *told;
    is("init", mscp_driver_init(driver), MSCP_DONE);
    driver = moved(driver, &memory);
    is("submit", mscp_driver_submit(driver, command(7, MSCP_SET_CONTROLLER_CHARACTERISTICS, 0, 0), 18), MSCP_DONE);
    driver = moved(driver, &memory);
    is("hear", mscp_driver_hear(driver, &watch, sent(7, 0x84, 28, 5), 64, &heard), MSCP_ENDED);
    driver = moved(driver, &memory);
    is("submit", mscp_driver_submit(driver, command(1, MSCP_READ, 1024, 40), 32), MSCP_DONE);
    driver = moved(driver, &memory);
    is("poll", mscp_driver_poll(driver, 8, &message), MSCP_DONE);
    driver = moved(driver, &memory);
    is("save", mscp_driver_save(driver, bytes, sizeof bytes, &length), MSCP_DONE);
    is("its bytes", length == LENGTH && memcmp(bytes, POLLED, LENGTH) == 0, 1);
    length = 5, bytes[0] = 0xA5;
    is("a byte too few", mscp_driver_save(driver, bytes, LENGTH - 1, &length), MSCP_SMALL);
    is("what it takes", length == LENGTH && bytes[0] == 0xA5, 1);
    is("outstanding", mscp_driver_outstanding(driver, asked, 2), 2);
    is("what was asked", asked[0].bytes == 1024 && asked[0].opcode == MSCP_READ && asked[1].reference == 8, 1);
    told = sent(8, 0x82, 20, 1);
    put(told + 16, 4, 1), put(told + 20, 4, 18);
    is("a figure", mscp_driver_hear(driver, &watch, told, 64, &heard), MSCP_FIRST);
    driver = moved(driver, &memory);
    told = sent(1, 0xA1, 32, 1);
    put(told + 16, 4, 1025);
    is("too much", mscp_driver_hear(driver, &watch, told, 64, &heard), MSCP_MOVED_TOO_MUCH);
    is("credits", mscp_driver_credits(driver), 5);
    free(memory);
}

/* What comes of so many bytes: an account that is saved as they are, or a fault. */
static int32_t restored(const uint8_t *bytes, size_t length)
{
    static uint8_t again[MSCP_DRIVER_SAVED_MAX];
    static MSCP_ALIGNED uint64_t room[(MSCP_HEAD + MSCP_DRIVER_SIZE) / sizeof(uint64_t)];
    struct mscp_driver *driver = mscp_driver_in_memory(room, sizeof room);
    size_t other = 0;
    int32_t status = mscp_driver_restore(driver, bytes, length);
    if (status == MSCP_DONE) {
        is("save again", mscp_driver_save(driver, again, sizeof again, &other), MSCP_DONE);
        is("the same bytes again", other == length && memcmp(again, bytes, length) == 0, 1);
    }
    return status;
}

static void edits(void)
{
    static const struct {
        uint8_t place, byte;
        int32_t status;
    } cases[] = {
        {3, 0x48, MSCP_SAVED_MAGIC}, {4, 2, MSCP_SAVED_VERSION}, {8, 73, MSCP_SAVED_LENGTH}, {15, 1, MSCP_SAVED_LENGTH},
        {12, 255, MSCP_DONE}, {13, 255, MSCP_DONE}, {14, 1, MSCP_DONE}, {14, 2, MSCP_SAVED_FORM}, {16, 9, MSCP_DONE},
        {HOST, 0, MSCP_SAVED_MAGIC}, {HOST + 4, 2, MSCP_SAVED_VERSION}, {HOST + 8, 49, MSCP_SAVED_LENGTH},
        {HOST + 16, 1, MSCP_SAVED_LENGTH}, {HOST + 12, 63, MSCP_SAVED_LIMITS}, {HOST + 12, 65, MSCP_SAVED_LIMITS},
        {HOST + 22, 2, MSCP_SAVED_POLL}, {HOST + 38, 1, MSCP_SAVED_DOUBLED}, {HOST + 46, 1, MSCP_SAVED_FORM},
    };
    for (size_t i = 0; i < COUNT(cases); i++) {
        uint8_t bytes[LENGTH];
        memcpy(bytes, POLLED, LENGTH);
        bytes[cases[i].place] = cases[i].byte;
        is("an edit", restored(bytes, LENGTH), cases[i].status);
    }
    for (size_t length = 0; length < LENGTH; length++)
        is("bytes too few", restored(POLLED, length), MSCP_SAVED_LENGTH);
}

/* Three commands, one of which is a poll: the host in it has 64 credits, and other faults if it has fewer than these or than 64. */
static void fewer_credits_than_commands(void)
{
    enum { THREE = LENGTH + 16 };
    static const uint8_t THIRD[12] = {2, 0, 0, 0, 0, 0, MSCP_WRITE};
    uint8_t more[THREE];
    memcpy(more, POLLED, HOST);
    memcpy(more + HOST + 4, POLLED + HOST, LENGTH - HOST);
    memcpy(more + THREE - sizeof THIRD, THIRD, sizeof THIRD);
    memset(more + HOST, 0, 4);
    more[8] = THREE, more[15] = 3, more[HOST + 4 + 8] = THREE - HOST - 4, more[HOST + 4 + 16] = 3;
    is("three", restored(more, THREE), MSCP_DONE);
    more[HOST + 4 + 12] = 2;
    is("2 credits", restored(more, THREE), MSCP_SAVED_CREDITS);
    more[HOST + 4 + 12] = 3; /* one of them is kept for the poll */
    is("3 credits", restored(more, THREE), MSCP_SAVED_LIMITS);
}

/* Over the account that is made: bytes at fault leave it as it is, and good ones are in its place. */
static void in_place(void)
{
    static MSCP_ALIGNED uint64_t room[(MSCP_HEAD + MSCP_DRIVER_SIZE) / sizeof(uint64_t)];
    uint8_t before[MSCP_DRIVER_SAVED_MAX], after[MSCP_DRIVER_SAVED_MAX];
    struct mscp_driver *driver = mscp_driver_in_memory(room, sizeof room);
    size_t held, length;
    is("an account", mscp_driver_init(driver), MSCP_DONE);
    is("which is saved", mscp_driver_save(driver, before, sizeof before, &held), MSCP_DONE);
    is("a byte too few", mscp_driver_restore(driver, POLLED, LENGTH - 1), MSCP_SAVED_LENGTH);
    is("saved again", mscp_driver_save(driver, after, sizeof after, &length), MSCP_DONE);
    is("it goes on", length == held && memcmp(before, after, held) == 0, 1);
    is("good bytes", mscp_driver_restore(driver, POLLED, LENGTH), MSCP_DONE);
    is("saved once more", mscp_driver_save(driver, after, sizeof after, &length), MSCP_DONE);
    is("that one goes on", length == LENGTH && memcmp(after, POLLED, LENGTH) == 0, 1);
}

int main(void)
{
    is("most of it", mscp_driver_save_size() <= MSCP_DRIVER_SAVED_MAX, 1);
    goes_on();
    edits();
    fewer_credits_than_commands();
    in_place();
    return wrong;
}
