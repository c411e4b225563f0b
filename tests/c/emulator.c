/* The emulator of examples/emulator.c at its borders: parts of blocks, every kind of transfer, rings that are full, and a
 * reset. It writes blocks of the image, which has 64. Prints what is wrong, and ends with 1 where something is. */
#include "emulator.h"
#include "trying.h"

enum { BLOCKS = 64, PART = 700, BUFFER = 4096, GUARD = 0x5A };

static struct emulator disk;
static uint8_t memory[2 * BUFFER];

static bool post(uint32_t reference, uint8_t opcode, uint32_t first, uint32_t lbn, uint32_t address)
{
    return emulator_post(&disk, command(reference, opcode, first, lbn), 32, address);
}

/* The next end is of this command, with this status and so many bytes moved. */
static void expect(const char *what, uint32_t reference, uint16_t status, uint32_t moved)
{
    struct mscp_packet end;
    is(what, emulator_next(&disk, &end), true);
    is(what, number(end.bytes, 4), reference);
    is(what, number(end.bytes + 10, 2), status);
    is(what, end.length == 32 ? number(end.bytes + 12, 4) : 0, moved);
}

/* Posts a command, serves it, and takes its end. */
static void transfer(const char *what, uint8_t opcode, uint32_t bytes, uint32_t lbn, uint32_t address, uint16_t status,
                     uint32_t moved)
{
    static uint32_t reference = 100;
    is(what, post(++reference, opcode, bytes, lbn, address), true);
    while (emulator_turn(&disk))
        continue;
    expect(what, reference, status, moved);
}

/* Whether so many bytes of the memory from a place on are all this one. */
static bool are_all(uint32_t from, uint32_t count, uint8_t byte)
{
    for (uint32_t i = from; i < from + count; i++)
        if (memory[i] != byte)
            return false;
    return true;
}

/* 700 bytes go to a block and 188 bytes of the next, whose rest becomes zeros; and so many come back, and no more. */
static void parts_of_blocks(void)
{
    for (uint32_t i = 0; i < PART; i++)
        memory[i] = (uint8_t)(i * 7 + i / 512);
    memset(memory + PART, GUARD, sizeof memory - PART);
    transfer("write", MSCP_WRITE, PART, 10, 0, 0, PART);
    transfer("read", MSCP_READ, PART, 10, BUFFER, 0, PART);
    is("the same", memcmp(memory, memory + BUFFER, PART), 0);
    is("and no more", are_all(BUFFER + PART, BUFFER - PART, GUARD), true);
    transfer("compare", MSCP_COMPARE_HOST_DATA, PART, 10, 0, 0, PART);
    memory[PART - 1] ^= 1;
    transfer("compare another", MSCP_COMPARE_HOST_DATA, PART, 10, 0, 0x07, 512);
    transfer("access", MSCP_ACCESS, PART, 10, 0, 0, PART);
    transfer("read all", MSCP_READ, 1024, 10, BUFFER, 0, 1024);
    is("the rest is zeros", are_all(BUFFER + PART, 1024 - PART, 0), true);
    transfer("erase", MSCP_ERASE, 512, 10, 0, 0, 512);
    transfer("read what was erased", MSCP_READ, 512, 10, BUFFER, 0, 512);
    is("zeros", are_all(BUFFER, 512, 0), true);
}

/* A transfer of no bytes moves none, also where its block is written. */
static void no_bytes(void)
{
    memset(memory, GUARD, sizeof memory);
    transfer("write", MSCP_WRITE, 512, 20, 0, 0, 512);
    transfer("write nothing", MSCP_WRITE, 0, 20, 0, 0, 0);
    transfer("erase nothing", MSCP_ERASE, 0, 20, 0, 0, 0);
    transfer("read nothing", MSCP_READ, 0, 20, sizeof memory, 0, 0);
    memset(memory, 0, 512);
    transfer("read", MSCP_READ, 512, 20, 0, 0, 512);
    is("what was written", are_all(0, sizeof memory, GUARD), true);
}

/* What lies past the unit or the memory has an end that says so, and a short message none. */
static void what_is_not_there(void)
{
    transfer("the last block", MSCP_READ, 512, BLOCKS - 1, 0, 0, 512);
    transfer("past the last", MSCP_READ, 512, BLOCKS, 0, 0x1C01, 0);
    transfer("over the last", MSCP_READ, 1024, BLOCKS - 1, 0, 0x0C01, 0);
    transfer("the end of the memory", MSCP_READ, 512, 0, sizeof memory - 512, 0, 512);
    transfer("past the memory", MSCP_READ, 512, 0, sizeof memory - 511, 0x09, 0);
    is("a short message", emulator_post(&disk, command(1, MSCP_READ, 512, 0), 11, 0), true);
    is("nothing to do", emulator_turn(&disk), false);
    is("no message", disk.port_errors, 1);
    is("it left the ring", disk.commands_count, 0);
}

/* A turn serves so many blocks at most, of one transfer after the other, and its ends are in the ring then. */
static void several_blocks_a_turn(void)
{
    is("five blocks", post(20, MSCP_READ, 5 * MSCP_BLOCK, 0, 0), true);
    is("two blocks", post(21, MSCP_READ, 2 * MSCP_BLOCK, 40, 0), true);
    is("no more than asked", emulator_serve(&disk, 3), 3);
    is("no end yet", disk.ends_count, 0);
    is("its figure", mscp_figure(disk.mscp, FIRST, 20), 2);
    is("all that is left", emulator_serve(&disk, 128), 4);
    expect("five blocks", 20, 0, 5 * MSCP_BLOCK);
    expect("two blocks", 21, 0, 2 * MSCP_BLOCK);
    is("nothing to do", emulator_serve(&disk, 128), 0);
    is("commands come in without a block", post(22, MSCP_GET_UNIT_STATUS, 0, 0, 0), true);
    is("no block", emulator_serve(&disk, 0), 0);
    expect("but an end", 22, 0, 0);
}

/* Posts polls until neither ring has a slot and no credit is free. How many. */
static uint32_t fill(void)
{
    uint32_t posted = 0;
    while (post(40 + posted, MSCP_GET_UNIT_STATUS, 0, 0, 0)) {
        posted++;
        emulator_turn(&disk);
    }
    is("ends in the ring", disk.ends_count, EMULATOR_RING);
    is("balance", mscp_balance(disk.mscp, FIRST), 0);
    return posted;
}

/* Nobody takes ends: the ring of ends fills up, then the credits are gone, then the ring of commands is full. Once the host
 * takes ends all goes on, and nothing is lost. */
static void full_rings(void)
{
    uint32_t posted = fill(), ended = 0;
    struct mscp_packet end;
    is("posted", posted, 2 * EMULATOR_RING + EMULATOR_CREDITS);
    while (emulator_next(&disk, &end)) {
        is("in order", number(end.bytes, 4), 40 + ended);
        ended++;
        emulator_turn(&disk);
    }
    is("none is lost", ended, posted);
}

/* A reset empties the rings and the table, and what the drive has in work is begun no more. */
static void reset_of_full_rings(void)
{
    struct job job;
    struct mscp_packet end;
    is("a read", post(30, MSCP_READ, 512, 0, 0), true);
    emulator_receive(&disk);
    is("in work", emulator_begin(&disk, &job), true);
    is("its buffer", disk.buffers_count, 1);
    while (post(40, MSCP_GET_UNIT_STATUS, 0, 0, 0))
        continue;
    emulator_reset(&disk);
    is("begun no more", emulator_finish(&disk, &job), false);
    is("nothing to do", emulator_turn(&disk), false);
    is("no end", emulator_next(&disk, &end), false);
    is("no buffer", disk.buffers_count, 0);
    is("balance", mscp_balance(disk.mscp, FIRST), EMULATOR_CREDITS);
}

int main(int words, char **word)
{
    if (words != 2 || !emulator_open(&disk, word[1], memory, sizeof memory))
        return 2;
    transfer("online", MSCP_ONLINE, 0, 0, 0, 0, 0);
    parts_of_blocks();
    no_bytes();
    what_is_not_there();
    several_blocks_a_turn();
    full_rings();
    reset_of_full_rings();
    emulator_close(&disk);
    return wrong;
}
