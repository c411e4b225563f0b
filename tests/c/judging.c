/* Every opcode, in every length, of zeros and of ones: each comes to a controller of its own. What is wanted is worked
 * out from the table of opcodes below, and from the rules of arrival. Prints what is wrong, and ends with 1 where
 * something is. */
#include "stepping.h"

/* An opcode, the least bytes of its command, the bytes of its end, and whether it waits for steps. */
static const struct row {
    uint8_t opcode;
    uint32_t least, length;
    bool waits;
} TABLE[] = {
    {MSCP_ABORT, 16, 16, false},
    {MSCP_GET_COMMAND_STATUS, 16, 20, false},
    {MSCP_GET_UNIT_STATUS, 12, 48, false},
    {MSCP_SET_CONTROLLER_CHARACTERISTICS, 14, 28, false},
    {MSCP_AVAILABLE, 12, 12, true},
    {MSCP_ONLINE, 12, 44, true},
    {MSCP_SET_UNIT_CHARACTERISTICS, 12, 44, true},
    {MSCP_ACCESS, 32, 32, true},
    {MSCP_ERASE, 32, 32, true},
    {MSCP_COMPARE_HOST_DATA, 32, 32, true},
    {MSCP_READ, 32, 32, true},
    {MSCP_WRITE, 32, 32, true},
};

/* The status of an unknown opcode, of a message that is too short, of a unit that isn't there, of a unit that is
 * available, and of a version that isn't 0. */
enum { OPCODE = 0x0801, LENGTH = 0x0001, OFFLINE = 0x0003, AVAILABLE = 0x0004, VERSION = 0x0C01 };

static const struct row *row_of(uint8_t opcode)
{
    for (size_t i = 0; i < COUNT(TABLE); i++)
        if (TABLE[i].opcode == opcode)
            return &TABLE[i];
    return NULL;
}

/* What a command that is long enough and is answered at once ends with, behind its endcode, where it is filled with
 * zeros or with ones. Unit 0 is there, and available. Unit 65535 isn't there. */
static void put_outcome(uint8_t opcode, uint8_t fill, uint8_t *end)
{
    switch (opcode) {
    case MSCP_ABORT:
    case MSCP_GET_COMMAND_STATUS: put(end + 12, 4, fill == 0 ? 0 : UINT32_MAX); return;
    case MSCP_GET_UNIT_STATUS:
        put(end + 10, 2, fill == 0 ? AVAILABLE : OFFLINE);
        if (fill == 0) {
            put(end + 20, 1, 1); /* its identifier and its sizes */
            put(end + 36, 2, 10);
            put(end + 38, 2, 2);
            put(end + 40, 2, 1);
        }
        return;
    case MSCP_SET_CONTROLLER_CHARACTERISTICS:
        put(end + 10, 2, fill == 0 ? 0 : VERSION);
        if (fill == 0) {
            put(end + 16, 2, 60); /* timeout and identifier */
            put(end + 20, 1, 1);
        }
        return;
    default: put(end + 10, 2, OFFLINE);
    }
}

/* How long the end of a message of 12 to 64 bytes is, and its bytes; or 0 where it waits for steps. */
static uint32_t put_end(uint8_t opcode, uint32_t length, uint8_t fill, uint8_t *end)
{
    const struct row *row = row_of(opcode);
    memset(end, 0, MSCP_PACKET_MAX);
    memset(end, fill, 6);
    end[8] = row == NULL ? 0x80 : opcode | 0x80;
    if (row == NULL) {
        put(end + 10, 2, OPCODE);
        return 12;
    }
    if (length < row->least)
        put(end + 10, 2, LENGTH);
    else if (row->waits && fill == 0)
        return 0;
    else
        put_outcome(opcode, fill, end);
    return row->length;
}

/* A message of this opcode, filled with one byte, comes to a new controller. */
static void is_judged(uint8_t opcode, uint32_t length, uint8_t fill)
{
    uint8_t message[65], wanted[MSCP_PACKET_MAX];
    struct mscp_sent sent = {7, 7, 7};
    struct mscp_packet end;
    uint32_t count = 0;
    int32_t status = length < 12 ? MSCP_SHORT : MSCP_LONG;
    memset(message, fill, sizeof message);
    message[8] = opcode;
    if (length >= 12 && length <= 64) {
        count = put_end(opcode, length, fill, wanted);
        status = count > 0 ? MSCP_ANSWERED : MSCP_QUEUED;
    }
    make(4, 0, MSCP_OLDEST);
    is("send", mscp_send(mscp, FIRST, message, length, &sent), status);
    is("its number", sent.reference, status < 0 ? 7 : fill == 0 ? 0 : UINT32_MAX);
    is("whom it aborts", sent.has_aborted, status < 0 ? 7 : 0);
    has_free(FIRST, status < 0 ? 4 : 3);
    is("take", mscp_take(mscp, FIRST, &end), count > 0 ? MSCP_DONE : MSCP_NOTHING);
    if (count > 0) {
        is("its length", end.length, count);
        is("its bytes", memcmp(end.bytes, wanted, count), 0);
    }
    if (wrong)
        printf("opcode %u, %u bytes of %u\n", (unsigned)opcode, (unsigned)length, (unsigned)fill);
    drop();
}

static void sixty_four_ones_are_an_unknown_opcode(void)
{
    static const uint8_t wanted[12] = {0xFF, 0xFF, 0xFF, 0xFF, 0xFF, 0xFF, 0, 0, 0x80, 0, 0x01, 0x08};
    uint8_t message[64];
    struct mscp_sent sent;
    struct mscp_packet end;
    memset(message, 0xFF, sizeof message);
    make(4, 0, MSCP_OLDEST);
    is("send", mscp_send(mscp, FIRST, message, sizeof message, &sent), MSCP_ANSWERED);
    is("take", mscp_take(mscp, FIRST, &end), MSCP_DONE);
    is("its length", end.length, sizeof wanted);
    is("its bytes", memcmp(end.bytes, wanted, sizeof wanted), 0);
    drop();
}

int main(void)
{
    sixty_four_ones_are_an_unknown_opcode();
    for (uint32_t opcode = 0; opcode < 256; opcode++)
        for (uint32_t length = 0; length < 66 && !wrong; length++) {
            is_judged((uint8_t)opcode, length, 0x00);
            is_judged((uint8_t)opcode, length, 0xFF);
        }
    return wrong;
}
