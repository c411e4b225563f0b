/* What a driver's account takes and hears: each kind of message that a port sends, cut and spoiled ones, each answer to a poll,
 * each refusal of a command, more credits than are counted, ticks of a timer, and memory in which none can be restored. What is
 * wanted is what mscp.h says. Prints what is wrong, and ends with 1 where something is. */
#include "trying.h"
#include <stdbool.h>

static MSCP_ALIGNED uint64_t room[(MSCP_HEAD + MSCP_DRIVER_SIZE) / sizeof(uint64_t)];
static struct mscp_driver *driver;
static struct mscp_watch watch;
static struct mscp_heard heard;
static uint8_t bytes[4 + MSCP_MESSAGE_MAX];

enum { SEQUENTIAL = 0, DATAGRAM = 1, CREDITS = 2 }; /* kinds of messages */

/* An account of so many credits, the first of which it has from the start. */
static void begin(unsigned credits)
{
    const uint8_t granted[4] = {0, 0, (uint8_t)(CREDITS << 4 | (credits - 1)), 0};
    memset(room, 0, sizeof room);
    driver = mscp_driver_in_memory(room, sizeof room);
    watch = (struct mscp_watch){60, 0, 0};
    is("init", mscp_driver_init(driver), MSCP_DONE);
    is("credits", mscp_driver_hear(driver, &watch, granted, 4, &heard), MSCP_CREDITS);
    is("how many", heard.credits, credits - 1);
    is("all", mscp_driver_credits(driver), credits);
}

/* A message of this kind with a text of so many bytes. */
static uint8_t *envelope(unsigned kind, unsigned credits, uint32_t length)
{
    memset(bytes, 0, sizeof bytes);
    put(bytes, 2, length);
    bytes[2] = (uint8_t)(kind << 4 | credits);
    return bytes;
}

static void tells(const struct mscp_heard *wanted)
{
    is("figure", heard.figure, wanted->figure);
    is("reference", heard.reference, wanted->reference);
    is("moved", heard.moved, wanted->moved);
    is("asked", heard.asked, wanted->asked);
    is("unit", heard.unit, wanted->unit);
    is("status", heard.status, wanted->status);
    is("code", heard.code, wanted->code);
    is("opcode", heard.opcode, wanted->opcode);
    is("credits", heard.credits, wanted->credits);
}

/* The port sends what stands in `bytes`. This comes of it, and is told. */
static void hears(const char *what, int32_t wanted, struct mscp_heard told)
{
    int64_t before = mscp_driver_credits(driver);
    memset(&heard, 0x5A, sizeof heard);
    is(what, mscp_driver_hear(driver, &watch, bytes, 4 + number(bytes, 2), &heard), wanted);
    is("its credits", mscp_driver_credits(driver), before + (bytes[2] & 15));
    tells(&told);
}

static void says_nothing(const char *what, int32_t wanted) { hears(what, wanted, (struct mscp_heard){0}); }

/* It is refused: nothing is told, and no credit comes. */
static void refuses(const char *what, int32_t wanted)
{
    struct mscp_heard untold;
    int64_t before = mscp_driver_credits(driver);
    memset(&untold, 0x5A, sizeof untold);
    heard = untold;
    is(what, mscp_driver_hear(driver, &watch, bytes, 4 + number(bytes, 2), &heard), wanted);
    is("its credits", mscp_driver_credits(driver), before);
    tells(&untold);
}

/* An end of a command to unit 3, of so many bytes. */
static uint8_t *end(uint32_t reference, uint8_t code, uint16_t status, uint32_t length)
{
    envelope(SEQUENTIAL, 1, length);
    put(bytes + 4, 4, reference);
    bytes[8] = 3;
    bytes[12] = code;
    put(bytes + 14, 2, status);
    return bytes;
}

static void submits(uint32_t reference, uint8_t opcode, uint32_t first, int32_t wanted)
{
    uint8_t *message = command(reference, opcode, first, 7);
    message[4] = 3;
    is("submit", mscp_driver_submit(driver, message, 32), wanted);
}

static void polls(uint32_t reference, int32_t wanted)
{
    struct mscp_packet message;
    memset(&message, 0x5A, sizeof message);
    is("poll", mscp_driver_poll(driver, reference, &message), wanted);
    is("its length", message.length, wanted == MSCP_DONE ? 16 : 0x5A5A5A5A);
    if (wanted == MSCP_DONE)
        is("its number", number(message.bytes, 4), reference);
}

/* The answer to a poll: the figure of this command. */
static void answers(uint32_t reference, uint32_t about, uint32_t figure, int32_t wanted)
{
    end(reference, 0x82, 0, 20);
    put(bytes + 16, 4, about);
    put(bytes + 20, 4, figure);
    if (wanted < 0)
        refuses("a figure", wanted);
    else
        hears("a figure", wanted, (struct mscp_heard){.figure = wanted == MSCP_FIRST || wanted == MSCP_PROGRESS ? figure : 0});
}

static void messages_are_told_apart(void)
{
    begin(2);
    for (size_t length = 0; length < 4; length++)
        is("no envelope", mscp_driver_hear(driver, &watch, bytes, length, &heard), MSCP_CUT);
    envelope(DATAGRAM, 1, 13);
    is("cut", mscp_driver_hear(driver, &watch, bytes, 16, &heard), MSCP_CUT);
    says_nothing("an error log", MSCP_LOGGED);
    bytes[3] = 1;
    refuses("another connection", MSCP_OTHER_CONNECTION);
    is("cut before", mscp_driver_hear(driver, &watch, bytes, 16, &heard), MSCP_CUT);
    for (unsigned kind = 3; kind < 16; kind++) {
        envelope(kind, 1, 12);
        refuses("no kind", MSCP_BAD_KIND);
    }
    envelope(CREDITS, 3, 20);
    hears("credits, and a text", MSCP_CREDITS, (struct mscp_heard){.credits = 3});
    for (uint32_t length = 0; length < 12; length++) {
        envelope(SEQUENTIAL, 1, length);
        bytes[12] = 0x40;
        refuses("a short text", MSCP_UNREADABLE);
    }
    for (unsigned code = 0; code < 0x80; code++) {
        end(7, (uint8_t)code, 0, 12);
        if (code < 0x40)
            refuses("no end", MSCP_UNREADABLE);
        else
            hears("an attention message", code == 0x40 ? MSCP_NOW_AVAILABLE : MSCP_ATTENTION,
                  (struct mscp_heard){.unit = 3, .code = (uint8_t)code});
    }
}

static void ends_are_told(void)
{
    static const struct { uint8_t opcode; uint32_t first, bytes, length; } COMMANDS[] = {
        {MSCP_ABORT, 99, 0, 16}, {MSCP_GET_COMMAND_STATUS, 99, 0, 20}, {MSCP_GET_UNIT_STATUS, 0, 0, 48},
        {MSCP_SET_CONTROLLER_CHARACTERISTICS, 0, 0, 28}, {MSCP_AVAILABLE, 0, 0, 12}, {MSCP_ONLINE, 0, 0, 44},
        {MSCP_SET_UNIT_CHARACTERISTICS, 0, 0, 44}, {MSCP_ACCESS, 1024, 1024, 32}, {MSCP_ERASE, 1024, 1024, 32},
        {MSCP_COMPARE_HOST_DATA, 1024, 1024, 32}, {MSCP_READ, 1024, 1024, 32}, {MSCP_WRITE, 1024, 1024, 32}, {0x13, 5, 0, 12}};
    struct mscp_asked asked[COUNT(COMMANDS)];
    begin(15);
    for (uint32_t n = 0; n < COUNT(COMMANDS); n++)
        submits(n, COMMANDS[n].opcode, COMMANDS[n].first, MSCP_DONE);
    is("outstanding", mscp_driver_outstanding(driver, asked, COUNT(asked)), COUNT(COMMANDS));
    for (uint32_t n = 0; n < COUNT(COMMANDS); n++) {
        is("of number", asked[n].reference, n);
        is("of unit", asked[n].unit, 3);
        is("asked", asked[n].opcode, COMMANDS[n].opcode);
        is("of bytes", asked[n].bytes, COMMANDS[n].bytes);
    }
    for (uint32_t n = 0; n < COUNT(COMMANDS); n++) {
        bool is_known = COMMANDS[n].opcode != 0x13;
        uint8_t code = is_known ? COMMANDS[n].opcode | 0x80 : 0x80;
        end(n, code == 0xA1 ? 0xA2 : 0xA1, 0, MSCP_MESSAGE_MAX);
        refuses("another's code", MSCP_UNKNOWN);
        end(99, code, 0, COMMANDS[n].length);
        refuses("another's number", MSCP_UNKNOWN);
        if (COMMANDS[n].length > 12) {
            end(n, code, 0, COMMANDS[n].length - 1);
            refuses("a short end", MSCP_UNREADABLE);
        }
        end(n, code, 0x0003, COMMANDS[n].length);
        put(bytes + 16, 4, COMMANDS[n].first);
        hears("its end", MSCP_ENDED,
              (struct mscp_heard){.reference = n, .moved = COMMANDS[n].bytes, .asked = COMMANDS[n].bytes, .unit = 3, .status = 3,
                                  .code = code, .opcode = COMMANDS[n].opcode});
        refuses("no more", MSCP_UNKNOWN);
    }
    submits(1, MSCP_READ, 1024, MSCP_DONE);
    end(1, 0xA1, 0, 32);
    put(bytes + 16, 4, 1025);
    hears("a byte too much", MSCP_MOVED_TOO_MUCH,
          (struct mscp_heard){.reference = 1, .moved = 1025, .asked = 1024, .unit = 3, .code = 0xA1, .opcode = MSCP_READ});
    submits(1, MSCP_READ, 1024, MSCP_DONE);
    end(1, 0x80, 0x0801, 12);
    hears("refused", MSCP_ENDED,
          (struct mscp_heard){.reference = 1, .asked = 1024, .unit = 3, .status = 0x0801, .code = 0x80, .opcode = MSCP_READ});
    submits(2, MSCP_ONLINE, 0, MSCP_DONE);
    for (uint8_t opcode = 0x0B; opcode <= 0x13; opcode += 8) { /* DETERMINE ACCESS PATHS and FLUSH end without a body */
        submits(1, opcode, 0, MSCP_DONE);
        end(2, opcode | 0x80, 0, 12);
        refuses("no end of an ONLINE", MSCP_UNKNOWN);
        end(1, opcode | 0x80, 0, 12);
        hears("its end", MSCP_ENDED,
              (struct mscp_heard){.reference = 1, .unit = 3, .code = opcode | 0x80, .opcode = opcode});
    }
}

static void polls_are_answered(void)
{
    begin(12);
    polls(8, MSCP_NOTHING);
    submits(1, MSCP_READ, 1024, MSCP_DONE);
    polls(1, MSCP_DOUBLED);
    polls(7, MSCP_DONE);
    end(7, 0x82, 0x0801, 20);
    put(bytes + 16, 4, 1), put(bytes + 20, 4, 18);
    hears("a figure that counts for none", MSCP_REFUSED,
          (struct mscp_heard){.reference = 7, .unit = 3, .status = 0x0801, .code = 0x82});
    polls(8, MSCP_DONE);
    polls(9, MSCP_BUSY);
    answers(8, 2, 18, MSCP_UNKNOWN); /* of another command */
    answers(8, 1, 18, MSCP_FIRST);
    polls(9, MSCP_DONE);
    answers(9, 1, 17, MSCP_PROGRESS);
    polls(10, MSCP_DONE);
    answers(10, 1, 17, MSCP_NO_PROGRESS);
    polls(11, MSCP_DONE);
    end(11, 0x82, 0x0801, 20);
    hears("no figure", MSCP_REFUSED, (struct mscp_heard){.reference = 11, .unit = 3, .status = 0x0801, .code = 0x82});
    polls(12, MSCP_DONE);
    end(12, 0x80, 0x0801, 12);
    hears("no valid poll", MSCP_REFUSED, (struct mscp_heard){.reference = 12, .unit = 3, .status = 0x0801, .code = 0x80});
    polls(13, MSCP_DONE);
    answers(13, 1, 0, MSCP_LOST);
    polls(14, MSCP_DONE);
    end(1, 0xA1, 0, 32);
    hears("its end", MSCP_ENDED, (struct mscp_heard){.reference = 1, .asked = 1024, .unit = 3, .code = 0xA1, .opcode = MSCP_READ});
    answers(14, 1, 0, MSCP_LATE);
    submits(2, MSCP_WRITE, 512, MSCP_DONE);
    polls(15, MSCP_DONE);
    answers(15, 2, 0, MSCP_LOST);
    submits(3, MSCP_GET_UNIT_STATUS, 0, MSCP_DONE);
    submits(4, MSCP_GET_COMMAND_STATUS, 2, MSCP_DONE); /* no poll of the account's own */
    end(4, 0x82, 0, 20);
    put(bytes + 16, 4, 2), put(bytes + 20, 4, 5);
    hears("its end", MSCP_ENDED,
          (struct mscp_heard){.reference = 4, .unit = 3, .code = 0x82, .opcode = MSCP_GET_COMMAND_STATUS});
}

static void commands_are_refused(void)
{
    struct mscp_packet message;
    begin(3);
    is("no bytes", mscp_driver_submit(driver, NULL, 0), MSCP_SHORT);
    is("short", mscp_driver_submit(driver, command(1, MSCP_READ, 512, 0), 11), MSCP_SHORT);
    is("long", mscp_driver_submit(driver, memset(bytes, 0, 65), 65), MSCP_LONG);
    submits(1, MSCP_READ, 512, MSCP_DONE);
    submits(1, MSCP_READ, 512, MSCP_DOUBLED);
    submits(2, MSCP_READ, 512, MSCP_DONE);
    submits(3, MSCP_READ, 512, MSCP_LAST_CREDIT);
    submits(1, MSCP_GET_COMMAND_STATUS, 1, MSCP_DOUBLED);
    submits(3, MSCP_GET_COMMAND_STATUS, 1, MSCP_DONE);
    submits(4, MSCP_GET_COMMAND_STATUS, 1, MSCP_NO_CREDIT);
    polls(5, MSCP_NO_CREDIT);
    memset(room, 0, sizeof room);
    driver = mscp_driver_in_memory(room, sizeof room);
    is("none is made", mscp_driver_poll(driver, 1, &message), MSCP_NOT_MADE);
    is("none is made", mscp_driver_submit(driver, bytes, 32), MSCP_NOT_MADE);
    is("none is made", mscp_driver_hear(driver, &watch, bytes, 32, &heard), MSCP_NOT_MADE);
    is("none is made", mscp_driver_credits(driver), MSCP_NOT_MADE);
}

/* However many credits came, 64 commands are outstanding at most, and of those one is answered at once. */
static void commands_are_few(void)
{
    begin(15);
    for (unsigned times = 0; times < 6; times++) {
        envelope(CREDITS, 15, 0);
        hears("credits", MSCP_CREDITS, (struct mscp_heard){.credits = 15});
    }
    for (uint32_t n = 1; n < 64; n++)
        submits(n, MSCP_READ, 512, MSCP_DONE);
    is("credits", mscp_driver_credits(driver), 15 + 6 * 15 - 63);
    submits(64, MSCP_READ, 512, MSCP_LAST_CREDIT);
    submits(64, MSCP_GET_UNIT_STATUS, 0, MSCP_DONE);
    submits(65, MSCP_GET_UNIT_STATUS, 0, MSCP_NO_CREDIT);
    submits(65, MSCP_READ, 512, MSCP_NO_CREDIT);
    polls(65, MSCP_NO_CREDIT);
    is("outstanding", mscp_driver_outstanding(driver, NULL, 0), 64);
    is("credits", mscp_driver_credits(driver), 15 + 6 * 15 - 64);
}

/* 65,535 credits are the most that are counted, and such an account is saved and restored. */
static void credits_are_cut(void)
{
    static uint8_t saved[MSCP_DRIVER_SAVED_MAX];
    size_t length = 0;
    begin(1);
    envelope(CREDITS, 15, 0);
    for (unsigned times = 0; times < 4380; times++) {
        int64_t wanted = 1 + 15 * (int64_t)(times + 1);
        is("credits", mscp_driver_hear(driver, &watch, bytes, 4, &heard), MSCP_CREDITS);
        is("how many", mscp_driver_credits(driver), wanted < 65535 ? wanted : 65535);
        is("save", mscp_driver_save(driver, saved, sizeof saved, &length), MSCP_DONE);
        is("whether more came", saved[14], wanted > 65535);
    }
    is("save", mscp_driver_save(driver, saved, sizeof saved, &length), MSCP_DONE);
    is("restore", mscp_driver_restore(driver, saved, length), MSCP_DONE);
    is("credits", mscp_driver_credits(driver), 65535);
    submits(1, MSCP_READ, 512, MSCP_DONE);
    is("one is taken", mscp_driver_credits(driver), 65534);
}

/* With each kind of message that has an envelope: credits up to 65,535 are kept, and where one more comes it is known ever after,
 * in the account's saved byte 14. */
static void credits_are_cut_of_each_kind(void)
{
    static const struct { unsigned kind; uint8_t code; int32_t wanted; } KINDS[] = {
        {CREDITS, 0, MSCP_CREDITS},          {DATAGRAM, 0, MSCP_LOGGED},          {SEQUENTIAL, 0x40, MSCP_NOW_AVAILABLE},
        {SEQUENTIAL, 0x41, MSCP_ATTENTION},  {SEQUENTIAL, 0xA1, MSCP_ENDED},      {SEQUENTIAL, 0x82, MSCP_FIRST},
        {SEQUENTIAL, 0x80, MSCP_REFUSED}};
    static uint8_t almost[MSCP_DRIVER_SAVED_MAX], saved[MSCP_DRIVER_SAVED_MAX];
    size_t length = 0, again = 0;
    begin(3);
    submits(1, MSCP_READ, 1024, MSCP_DONE);
    polls(8, MSCP_DONE);
    is("save", mscp_driver_save(driver, almost, sizeof almost, &length), MSCP_DONE);
    put(almost + 12, 2, 65521);
    for (size_t i = 0; i < COUNT(KINDS); i++)
        for (unsigned more = 14; more < 16; more++) {
            is("restore", mscp_driver_restore(driver, almost, length), MSCP_DONE);
            end(KINDS[i].wanted == MSCP_ENDED ? 1 : 8, KINDS[i].code, KINDS[i].wanted == MSCP_REFUSED ? 0x0801 : 0, 32);
            bytes[2] = (uint8_t)(KINDS[i].kind << 4 | more);
            if (KINDS[i].code == 0x82)
                put(bytes, 2, 20), put(bytes + 16, 4, 1), put(bytes + 20, 4, 5);
            for (unsigned times = 0; times < 2; times++) {
                is("what came", mscp_driver_hear(driver, &watch, bytes, 4 + number(bytes, 2), &heard), KINDS[i].wanted);
                is("how many", mscp_driver_credits(driver), 65535);
                is("save", mscp_driver_save(driver, saved, sizeof saved, &again), MSCP_DONE);
                is("whether more came", saved[14], more == 15);
                envelope(KINDS[i].kind, 0, 12);
                bytes[12] = 0x40;
                if (KINDS[i].kind == SEQUENTIAL && KINDS[i].wanted != MSCP_NOW_AVAILABLE)
                    break;
            }
        }
}

/* Where no account fits none is restored. */
static void memory_is_judged(void)
{
    static MSCP_ALIGNED uint8_t odd[MSCP_DRIVER_SIZE + 8];
    static uint8_t saved[MSCP_DRIVER_SAVED_MAX];
    struct mscp_driver none = {0};
    size_t length = 0, size = MSCP_HEAD + mscp_driver_size();
    begin(2);
    is("save", mscp_driver_save(driver, saved, sizeof saved, &length), MSCP_DONE);
    is("no handle", mscp_driver_restore(&none, saved, length), MSCP_NO_HANDLE);
    is("null", mscp_driver_restore(mscp_driver_in_memory(NULL, size), saved, length), MSCP_NO_MEMORY);
    none = mscp_driver_over(NULL, mscp_driver_size());
    is("null beside", mscp_driver_restore(&none, saved, length), MSCP_NO_MEMORY);
    for (size_t at = 0; at <= 8; at++) {
        none = mscp_driver_over(odd + at, mscp_driver_size());
        is("at an odd place", mscp_driver_restore(&none, saved, length), at % 8 == 0 ? MSCP_DONE : MSCP_MISALIGNED);
    }
    is("small", mscp_driver_restore(mscp_driver_in_memory(room, size - 1), saved, length), MSCP_SMALL);
    is("just large", mscp_driver_restore(mscp_driver_in_memory(room, size), saved, length), MSCP_DONE);
    is("cut", mscp_driver_restore(driver, saved, length - 1), MSCP_SAVED_LENGTH);
    is("one is made", mscp_driver_init(driver), MSCP_MADE);
    none = mscp_driver_over(room, mscp_driver_size());
    length = 7;
    is("none is saved", mscp_driver_save(&none, saved, sizeof saved, &length), MSCP_NOT_MADE);
    is("no length", (int64_t)length, 7);
}

/* Ticks of a timer of so many, each of which comes to nothing, and one more that comes to this. */
static void ticks(uint32_t count, int32_t wanted, uint32_t waited, uint32_t silent)
{
    for (uint32_t n = 0; n < count; n++)
        is("a tick", mscp_driver_tick(driver, &watch), MSCP_NOTHING);
    is("the tick", mscp_driver_tick(driver, &watch), wanted);
    is("waited", watch.waited, waited);
    is("silent", watch.silent, silent);
}

/* A READ that wasn't polled for a timeout is to be polled, and a command that is answered at once and had no answer for over one
 * is a reason to reset. */
static void ticks_are_counted(void)
{
    begin(8);
    watch.timeout = 5;
    ticks(20, MSCP_NOTHING, 0, 0);
    submits(1, MSCP_READ, 1024, MSCP_DONE);
    ticks(4, MSCP_POLL, 0, 0);
    ticks(4, MSCP_POLL, 0, 0);
    submits(2, MSCP_GET_UNIT_STATUS, 0, MSCP_DONE);
    ticks(4, MSCP_POLL, 0, 5);
    ticks(0, MSCP_SILENT, 0, 0);
    polls(8, MSCP_DONE);
    ticks(5, MSCP_SILENT, 0, 0);
    end(2, 0x83, 3, 48);
    hears("its end", MSCP_ENDED, (struct mscp_heard){.reference = 2, .unit = 3, .status = 3, .code = 0x83,
                                                     .opcode = MSCP_GET_UNIT_STATUS});
    ticks(4, MSCP_NOTHING, 5, 5);
    answers(8, 1, 18, MSCP_FIRST);
    is("silent no more", watch.silent, 0);
    ticks(0, MSCP_POLL, 0, 0);
}

int main(void)
{
    messages_are_told_apart();
    ends_are_told();
    polls_are_answered();
    commands_are_refused();
    commands_are_few();
    credits_are_cut();
    credits_are_cut_of_each_kind();
    ticks_are_counted();
    memory_is_judged();
    return wrong;
}
