/* A disk on a thread (examples/threaded.c) behind examples/port.c, beside a model of what each block may have. The host sends READs,
 * WRITEs and ERASEs, aborts some and gives their numbers to the same commands with other bytes; volumes are exchanged, and the port
 * is begun anew or restored, while blocks are under way. No READ gets bytes that its block can't have.
 *
 *     slow [BLOCKS [SEED]]
 *
 * Prints what is wrong, and ends with 1 where something is. It moves 100,000 blocks if none are said, and fewer if 20 seconds go
 * by: on a busy machine each block waits for a processor. */
#include "machine.h"
#include "../../examples/threaded.h"
#include <sched.h>
#include <time.h>

enum { AREA = 0x1000, DATA = 0x4000, SLOTS = 12, MOST = 3, VOLUMES = 2, MAYBE = 6, ABORT_NUMBER = 200, WORDS = MSCP_BLOCK / 4, SECONDS = 20 };

static struct port port;
static struct disk disk;
static uint32_t volumes[UNITS][VOLUMES][BLOCKS][WORDS];
static unsigned in[UNITS]; /* which of them is in the unit */
static uint64_t state = 1;
static uint32_t tags; /* WRITEs that were sent */

static uint32_t below(uint32_t bound)
{
    state = state * UINT64_C(6364136223846793005) + UINT64_C(1442695040888963407);
    return (uint32_t)(state >> 33) % bound;
}

/* ---- the machine */

static bool move_block(struct disk_job *job)
{
    uint32_t (*blocks)[WORDS] = job->volume;
    for (uint64_t i = job->serial % 4; i > 0; i--)
        sched_yield();
    if (job->is_write)
        memcpy(blocks[job->block], job->bytes, MSCP_BLOCK);
    else
        memcpy(job->bytes, blocks[job->block], MSCP_BLOCK);
    return true;
}

static void begin_read(void *it, uint16_t unit, uint32_t block, uint64_t serial)
{
    (void)it;
    machine.transfers++;
    disk_begin(&disk, volumes[unit][in[unit]], block, NULL, serial);
}

static void begin_write(void *it, uint16_t unit, uint32_t block, const uint8_t *bytes, uint64_t serial)
{
    (void)it;
    machine.transfers++;
    disk_begin(&disk, volumes[unit][in[unit]], block, bytes, serial);
}

static enum mscp_outcome read_memory(void *it, uint32_t address, uint8_t *bytes, uint32_t count)
{
    (void)it;
    memcpy(bytes, machine.memory + address, count);
    return MSCP_OUTCOME_DONE;
}

static enum mscp_outcome write_memory(void *it, uint32_t address, const uint8_t *bytes, uint32_t count)
{
    (void)it;
    memcpy(machine.memory + address, bytes, count);
    return MSCP_OUTCOME_DONE;
}

static void interrupt(void *it, uint16_t vector)
{
    (void)it;
    machine.vector = vector;
}

static void turn(void)
{
    disk_collect(&disk, &port);
    port_turn(&port, 1 + below(30));
}

/* ---- the model */

/* What a block may have: the tags of WRITEs, or 0 of none and of an ERASE. More than one, if one of them was aborted. */
static struct { uint32_t tags[MAYBE]; unsigned count; } may_have[UNITS][VOLUMES][BLOCKS];

static uint32_t word_of(uint32_t tag, uint32_t block) { return tag == 0 ? 0 : tag * BLOCKS + block; }

static void has(uint16_t unit, unsigned volume, uint32_t block, uint32_t tag)
{
    may_have[unit][volume][block].tags[0] = tag;
    may_have[unit][volume][block].count = 1;
}

static void may_get(uint16_t unit, unsigned volume, uint32_t block, uint32_t tag)
{
    may_have[unit][volume][block].tags[may_have[unit][volume][block].count++] = tag;
}

/* One of the tags that the block may have is that of all these words. It has that one, then. */
static void must_be(uint16_t unit, unsigned volume, uint32_t block, const uint32_t *words)
{
    for (unsigned i = 0; i < may_have[unit][volume][block].count; i++) {
        uint32_t word = word_of(may_have[unit][volume][block].tags[i], block);
        if (words[0] != word)
            continue;
        for (unsigned k = 0; k < WORDS; k++)
            is("a word of it", words[k], word);
        has(unit, volume, block, may_have[unit][volume][block].tags[i]);
        return;
    }
    is("what a block has", words[0], word_of(may_have[unit][volume][block].tags[0], block));
}

/* ---- the host */

static struct {
    bool is_out;
    uint8_t opcode;
    uint16_t unit;
    unsigned volume;
    uint32_t block, count, tag;
} slots[SLOTS];
static bool abort_is_out;

static uint32_t buffer_of(uint32_t i) { return DATA + i * MOST * MSCP_BLOCK; }

/* Whether no other command that is out touches its blocks, and the model has room for what a WRITE may leave there. */
static bool may_go(uint32_t i)
{
    uint32_t block = slots[i].block, behind = block + slots[i].count;
    uint16_t unit = slots[i].unit;
    for (uint32_t other = 0; other < SLOTS; other++)
        if (slots[other].is_out && slots[other].unit == unit && block < slots[other].block + slots[other].count &&
            slots[other].block < behind)
            return false;
    for (; block < behind; block++)
        if (slots[i].opcode != MSCP_READ && may_have[unit][in[unit]][block].count == MAYBE)
            return false;
    return true;
}

/* A command of this number: often the last one of it again. A WRITE has a tag that no other has. */
static void send_one(uint32_t i)
{
    static const uint8_t OPCODES[] = {MSCP_READ, MSCP_READ, MSCP_WRITE, MSCP_WRITE, MSCP_ERASE};
    if (slots[i].is_out)
        return;
    if (slots[i].count == 0 || below(2) == 0) {
        slots[i].opcode = OPCODES[below(COUNT(OPCODES))];
        slots[i].unit = (uint16_t)(2 * below(2));
        slots[i].count = 1 + below(MOST);
        slots[i].block = below(BLOCKS - MOST);
    }
    if (!may_go(i))
        return;
    slots[i].is_out = true;
    slots[i].volume = in[slots[i].unit];
    slots[i].tag = slots[i].opcode == MSCP_WRITE ? ++tags : 0;
    for (uint32_t k = 0; k < slots[i].count * WORDS; k++)
        put(machine.memory + buffer_of(i) + 4 * k, 4, word_of(slots[i].tag, slots[i].block + k / WORDS));
    send_command(slots[i].unit, i + 1, slots[i].opcode, slots[i].count * MSCP_BLOCK, slots[i].block, buffer_of(i));
}

static void send_abort(uint32_t i)
{
    if (abort_is_out || !slots[i].is_out)
        return;
    abort_is_out = true;
    uint8_t *text = command(ABORT_NUMBER, MSCP_ABORT, i + 1, 0);
    put(text + 4, 2, slots[i].unit);
    send(text, 32);
}

/* What became of a command: with Success that is known, and else a block of it may have been written or not. */
static void ended(uint32_t i, bool is_good)
{
    slots[i].is_out = false;
    for (uint32_t k = 0; k < slots[i].count; k++) {
        uint32_t words[WORDS], block = slots[i].block + k;
        memcpy(words, machine.memory + buffer_of(i) + k * MSCP_BLOCK, sizeof words);
        if (slots[i].opcode != MSCP_READ && is_good)
            has(slots[i].unit, slots[i].volume, block, slots[i].tag);
        else if (slots[i].opcode != MSCP_READ)
            may_get(slots[i].unit, slots[i].volume, block, slots[i].tag);
        else if (is_good)
            must_be(slots[i].unit, slots[i].volume, block, words);
    }
}

/* Takes an end, if there is one. Only while a volume is exchanged another status than Success and Aborted may come. */
static bool take_one(bool is_exchanged)
{
    uint8_t packet[68];
    if (!take(packet))
        return false;
    uint32_t reference = number(packet + 4, 4), status = number(packet + 14, 2);
    if (reference == ABORT_NUMBER) {
        abort_is_out = false;
        return true;
    }
    is("an end of what is out", reference - 1 < SLOTS && slots[reference - 1].is_out, 1);
    is("its code", packet[12], 0x80 | slots[reference - 1].opcode);
    is("its status", status == 0 || status == 2 || is_exchanged, 1);
    ended(reference - 1, status == 0);
    return true;
}

static bool is_anything_out(void)
{
    for (uint32_t i = 0; i < SLOTS; i++)
        if (slots[i].is_out)
            return true;
    return abort_is_out;
}

static void settle(bool is_exchanged)
{
    while (is_anything_out() && wrong == 0)
        if (!take_one(is_exchanged))
            turn();
}

static void online(uint16_t unit)
{
    send_command(unit, 100, MSCP_ONLINE, 0, 0, 0);
    expect(100, 0x89, 0);
}

/* The port is begun anew, and forgets what is out. */
static void begin_anew(void)
{
    for (uint32_t i = 0; i < SLOTS; i++)
        if (slots[i].is_out)
            ended(i, false);
    abort_is_out = false;
    port_write(&port, 0, 0);
    initialise(AREA, 4, 4, 0);
    online(0);
    online(2);
}

/* The port is restored in its own place: a block that is under way is begun once more, and what the disk says of it first is dropped. */
static void restore(void)
{
    uint8_t bytes[MSCP_PORT_SAVED_MAX];
    size_t length = 0;
    is("it is saved", mscp_port_save(machine.port, bytes, sizeof bytes, &length), MSCP_DONE);
    is("it is restored", port_restore(&port, bytes, length), MSCP_DONE);
}

/* The other volume comes into a unit. What is out ends. */
static void exchange(uint16_t unit)
{
    const struct mscp_medium medium = {.size = 311200, .media = 0x25644036};
    is("it comes", port_insert(&port, unit, &medium), 1);
    in[unit] = !in[unit];
    settle(true);
    online(unit);
}

int main(int words, char **word)
{
    static const struct port_bus bus = {.read = read_memory, .write = write_memory, .interrupt = interrupt,
                                        .begin_read = begin_read, .begin_write = begin_write};
    const struct mscp_unit units[] = {rd54(0), rd54(1), rd54(2), rd54(3)};
    uint32_t most = words > 1 ? (uint32_t)strtoul(word[1], NULL, 10) : 100000;
    if (words > 2)
        state = strtoull(word[2], NULL, 10);
    build(&RQDX3);
    for (unsigned unit = 0; unit < UNITS; unit++)
        for (unsigned volume = 0; volume < VOLUMES; volume++)
            for (unsigned block = 0; block < BLOCKS; block++)
                may_have[unit][volume][block].count = 1;
    is("the thread", disk_open(&disk, move_block), 1);
    is("it is opened", port_open(&port, &bus, &RQDX3, units, UNITS), MSCP_DONE);
    machine.port = port_itself(&port);
    is("a volume", insert(0, 0), MSCP_DONE);
    is("another", insert(2, 0), MSCP_DONE);
    begin_anew();
    for (time_t begun = time(NULL); machine.transfers < most && time(NULL) - begun < SECONDS && wrong == 0;) {
        switch (below(2000)) {
        case 0: begin_anew(); break;
        case 1: exchange((uint16_t)(2 * below(2))); break;
        case 2: case 3: case 4: restore(); break;
        default:
            if (below(3) == 0)
                send_one(below(SLOTS));
            if (below(12) == 0)
                send_abort(below(SLOTS));
            turn();
            take_one(false);
        }
    }
    settle(false);
    disk_close(&disk);
    for (uint16_t unit = 0; unit < UNITS; unit += 2)
        for (unsigned volume = 0; volume < VOLUMES; volume++)
            for (unsigned block = 0; block < BLOCKS; block++)
                must_be(unit, volume, block, volumes[unit][volume][block]);
    return wrong;
}
