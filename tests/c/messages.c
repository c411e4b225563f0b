/* mscp_write_command and mscp_read_end, field by field, at the places that docs/FORMATS.md has. Prints what is wrong, and
 * ends with 1 where something is. */
#include "trying.h"

enum { WITHOUT_A_ROW = 5 };

/* Every field has a number of its own. */
static const struct mscp_command COMMAND = {
    .reference = 0x01020304, .other = 0x11121314, .bytes = 0x21222324, .lbn = 0x31323334, .buffer = 0x41424344,
    .unit = 0x5152, .modifiers = 0x6162, .version = 0x7172, .flags = 0x8182, .timeout = 0x9192,
};

/* A field at a place of a message: so many bytes, from there on. */
static void has(const struct mscp_packet *message, unsigned place, unsigned bytes, uint32_t wanted)
{
    is("a field", number(message->bytes + place, bytes), wanted);
}

/* No other byte is written but 0. */
static unsigned others(const struct mscp_packet *message, uint64_t places)
{
    unsigned count = 0;
    for (unsigned i = 0; i < message->length; i++)
        count += (places >> i & 1) == 0 && message->bytes[i] != 0;
    return count;
}

static void commands(void)
{
    static const struct {
        uint8_t opcode;
        uint32_t length;
        uint64_t places; /* of its fields, a bit for each byte */
    } cases[] = {
        {MSCP_ABORT, 16, 0xF000}, {MSCP_GET_COMMAND_STATUS, 16, 0xF000}, {MSCP_GET_UNIT_STATUS, 12, 0},
        {MSCP_SET_CONTROLLER_CHARACTERISTICS, 18, 0x3F000}, {MSCP_AVAILABLE, 12, 0}, {MSCP_ONLINE, 12, 0},
        {MSCP_SET_UNIT_CHARACTERISTICS, 12, 0}, {MSCP_ACCESS, 32, 0xF00FF000}, {MSCP_ERASE, 32, 0xF00FF000},
        {MSCP_COMPARE_HOST_DATA, 32, 0xF00FF000}, {MSCP_READ, 32, 0xF00FF000}, {MSCP_WRITE, 32, 0xF00FF000},
        {WITHOUT_A_ROW, 12, 0}, {0, 12, 0}, {0xFF, 12, 0},
    };
    for (size_t i = 0; i < COUNT(cases); i++) {
        struct mscp_command command = COMMAND;
        struct mscp_packet message;
        memset(&message, 0xA5, sizeof message);
        command.opcode = cases[i].opcode;
        is("written", mscp_write_command(&command, &message), MSCP_DONE);
        is("its length", message.length, cases[i].length);
        has(&message, 0, 4, 0x01020304), has(&message, 4, 2, 0x5152);
        has(&message, 8, 1, command.opcode), has(&message, 10, 2, 0x6162);
        if (cases[i].length == 16)
            has(&message, 12, 4, 0x11121314);
        if (cases[i].length == 18)
            has(&message, 12, 2, 0x7172), has(&message, 14, 2, 0x8182), has(&message, 16, 2, 0x9192);
        if (cases[i].length == 32)
            has(&message, 12, 4, 0x21222324), has(&message, 16, 4, 0x41424344), has(&message, 28, 4, 0x31323334);
        is("nothing else", others(&message, 0xD3F | cases[i].places), 0);
        is("and what is behind it stays", message.bytes[message.length], 0xA5);
    }
}

/* Whole messages, of small numbers. */
static void whole_commands(void)
{
    static const struct {
        struct mscp_command command;
        uint32_t length;
        uint8_t bytes[32];
    } cases[] = {
        {{.reference = 1, .opcode = MSCP_READ, .bytes = 1024, .lbn = 40}, 32, {1, [8] = 0x21, [13] = 4, [28] = 40}},
        {{.reference = 2, .opcode = MSCP_GET_COMMAND_STATUS, .other = 1}, 16, {2, [8] = 2, [12] = 1}},
        {{.reference = 2, .opcode = MSCP_ABORT, .other = 1}, 16, {2, [8] = 1, [12] = 1}},
        {{.reference = 9, .opcode = MSCP_ONLINE}, 12, {9, [8] = 9}},
        {{.reference = 1, .opcode = MSCP_SET_CONTROLLER_CHARACTERISTICS}, 18, {1, [8] = 4}},
    };
    for (size_t i = 0; i < COUNT(cases); i++) {
        struct mscp_packet message;
        is("written", mscp_write_command(&cases[i].command, &message), MSCP_DONE);
        is("its length", message.length, cases[i].length);
        is("its bytes", memcmp(message.bytes, cases[i].bytes, cases[i].length), 0);
    }
}

static struct mscp_end read_of(uint8_t code, uint32_t length)
{
    uint8_t bytes[MSCP_MESSAGE_MAX];
    struct mscp_end end, untouched;
    memset(&untouched, 0x5A, sizeof untouched);
    end = untouched;
    for (unsigned i = 0; i < sizeof bytes; i++)
        bytes[i] = (uint8_t)(i + 1); /* place 12 has 0D */
    bytes[8] = code;
    is("a byte too few", mscp_read_end(bytes, length - 1, &end), MSCP_UNREADABLE);
    is("nothing is told", memcmp(&end, &untouched, sizeof end), 0);
    is("read", mscp_read_end(bytes, sizeof bytes, &end), MSCP_DONE);
    is("whose", end.reference == 0x04030201 && end.unit == 0x0605 && end.code == code && end.status == 0x0C0B, 1);
    return end;
}

/* What is in `it` beside what every end has is what the rest is. */
static void tells(uint8_t code, uint32_t length, struct mscp_end rest)
{
    struct mscp_end it = read_of(code, length);
    is("identifier", it.id == rest.id, 1);
    is("numbers", it.other == rest.other && it.figure == rest.figure && it.moved == rest.moved, 1);
    is("unit", it.media == rest.media && it.size == rest.size && it.serial == rest.serial, 1);
    is("shape", it.track == rest.track && it.group == rest.group && it.cylinder == rest.cylinder, 1);
    is("timeout", it.timeout, rest.timeout);
}

static void ends(void)
{
    static const uint64_t ID = UINT64_C(0x1C1B1A1918171615);
    static const uint8_t none[] = {0, MSCP_READ, 0x40, 0x80 | WITHOUT_A_ROW, 0xFF};
    const struct mscp_end online = {.id = ID, .media = 0x201F1E1D, .size = 0x28272625, .serial = 0x2C2B2A29};
    struct mscp_end end;
    uint8_t bytes[MSCP_MESSAGE_MAX + 1] = {0};
    tells(0x80, 12, (struct mscp_end){.id = 0});
    tells(0x80 | MSCP_AVAILABLE, 12, (struct mscp_end){.id = 0});
    tells(0x80 | MSCP_ABORT, 16, (struct mscp_end){.other = 0x100F0E0D});
    tells(0x80 | MSCP_GET_COMMAND_STATUS, 20, (struct mscp_end){.other = 0x100F0E0D, .figure = 0x14131211});
    tells(0x80 | MSCP_GET_UNIT_STATUS, 48,
          (struct mscp_end){.id = ID, .media = 0x201F1E1D, .track = 0x2625, .group = 0x2827, .cylinder = 0x2A29});
    tells(0x80 | MSCP_SET_CONTROLLER_CHARACTERISTICS, 28, (struct mscp_end){.id = ID, .timeout = 0x1211});
    tells(0x80 | MSCP_ONLINE, 44, online);
    tells(0x80 | MSCP_SET_UNIT_CHARACTERISTICS, 44, online);
    for (unsigned i = 0; i < 5; i++) {
        static const uint8_t transfers[] = {MSCP_ACCESS, MSCP_ERASE, MSCP_COMPARE_HOST_DATA, MSCP_READ, MSCP_WRITE};
        tells(0x80 | transfers[i], 32, (struct mscp_end){.moved = 0x100F0E0D});
    }
    for (size_t i = 0; i < COUNT(none); i++) {
        bytes[8] = none[i];
        is("no end", mscp_read_end(bytes, MSCP_MESSAGE_MAX, &end), MSCP_UNREADABLE);
    }
    bytes[8] = 0x80;
    is("too long", mscp_read_end(bytes, MSCP_MESSAGE_MAX + 1, &end), MSCP_UNREADABLE);
    is("no bytes", mscp_read_end(NULL, 0, &end), MSCP_UNREADABLE);
}

int main(void)
{
    commands();
    whole_commands();
    ends();
    return wrong;
}
