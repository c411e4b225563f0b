/* emulator.c: a disk controller over a disk image, a file of blocks of 512 bytes.
 *
 *     cc emulator.c $(pkg-config --cflags --libs mscp) -o emulator      (with emulator.h and log.h beside it)
 *     ./emulator IMAGE                                                  (this writes blocks of the image)
 *     ./emulator --log FILE IMAGE                                       (and a log for ./mscpjudge legal FILE)
 *
 * The first part is the emulator, which examples/suspend.c uses too. The second, main and what it calls, is a host that
 * tries it: it writes blocks in an order that the sweep chooses, reads them back, polls after each step, and aborts a
 * command that the drive has in work.
 *
 * It serves one connection, the first: its controller has no credits for a second. two_hosts.c serves two. */
#include "emulator.h"
#include "log.h"
#include <stdlib.h>
#include <string.h>

enum { COMPARE_ERROR = 0x07, DATA_ERROR = 0x08, BUFFER_ERROR = 0x09 };

void put_number(uint8_t *to, unsigned bytes, uint32_t number)
{
    for (unsigned i = 0; i < bytes; i++)
        to[i] = (uint8_t)(number >> (8 * i));
}

uint32_t get_number(const uint8_t *from, unsigned bytes)
{
    uint32_t number = 0;
    for (unsigned i = 0; i < bytes; i++)
        number |= (uint32_t)from[i] << (8 * i);
    return number;
}

/* ---- the controller's memory, and the image */

/* The whole blocks of an image, 0 if it has none or too many, or can't be asked. */
static uint32_t blocks_of(FILE *image)
{
    long bytes;
    if (fseek(image, 0, SEEK_END) != 0 || (bytes = ftell(image)) < 0)
        return 0;
    return (unsigned long)bytes / MSCP_BLOCK > UINT32_MAX ? 0 : (uint32_t)((unsigned long)bytes / MSCP_BLOCK);
}

static const struct mscp_limits LIMITS = {.id = 1, .credits = EMULATOR_CREDITS, .budget = 512, .longest = 128, .timeout = 60};

/* A unit of so many blocks, 8 of them a cylinder. */
static struct mscp_unit unit_of(uint32_t blocks)
{
    const struct mscp_unit unit = {.id = 1, .size = blocks, .serial = 1, .track = 4, .group = 2, .cylinder = 1};
    return unit;
}

/* A controller of one unit of so many blocks, in memory of ours. NULL if there is none. */
static struct mscp *make_controller(uint32_t blocks)
{
    const struct mscp_unit unit = unit_of(blocks);
    size_t length = MSCP_HEAD + mscp_size();
    void *memory = malloc(length);
    if (mscp_init(mscp_in_memory(memory, length), &LIMITS, &unit, 1, MSCP_SWEEP) == MSCP_DONE)
        return (struct mscp *)memory;
    free(memory);
    return NULL;
}

bool emulator_open(struct emulator *emulator, const char *path, uint8_t *memory, uint32_t memory_bytes)
{
    memset(emulator, 0, sizeof *emulator);
    emulator->memory = memory;
    emulator->memory_bytes = memory_bytes;
    emulator->image = fopen(path, "r+b");
    if (emulator->image == NULL) {
        perror(path);
        return false;
    }
    emulator->mscp = make_controller(blocks_of(emulator->image));
    if (emulator->mscp == NULL) {
        fprintf(stderr, "%s: it has %lu blocks of 512 bytes, and 1 is the least; or there is no memory\n", path,
                (unsigned long)blocks_of(emulator->image));
        fclose(emulator->image);
        return false;
    }
    return true;
}

void emulator_log(struct emulator *emulator, FILE *log)
{
    const struct mscp_unit unit = unit_of(blocks_of(emulator->image));
    emulator->log = log;
    log_init(log, &LIMITS, &unit, 1);
}

void emulator_close(struct emulator *emulator)
{
    fclose(emulator->image);
    free(emulator->mscp);
}

/* ---- the port */

bool emulator_post(struct emulator *emulator, const uint8_t *message, size_t length, uint32_t address)
{
    struct posted *slot = &emulator->commands[emulator->commands_count];
    if (emulator->commands_count == EMULATOR_RING || length > sizeof slot->message)
        return false;
    memcpy(slot->message, message, length);
    slot->length = length;
    slot->address = address;
    emulator->commands_count++;
    return true;
}

bool emulator_next(struct emulator *emulator, struct mscp_packet *end)
{
    if (emulator->ends_count == 0)
        return false;
    *end = emulator->ends[0];
    emulator->ends_count--;
    memmove(emulator->ends, emulator->ends + 1, emulator->ends_count * sizeof *emulator->ends);
    return true;
}

/* ---- which buffer is whose: the controller ignores where data go, so that is kept here, by reference number */

static struct buffer *buffer_of(struct emulator *emulator, uint32_t reference)
{
    for (unsigned i = 0; i < emulator->buffers_count; i++)
        if (emulator->buffers[i].reference == reference)
            return &emulator->buffers[i];
    return NULL;
}

static void forget(struct emulator *emulator, uint32_t reference)
{
    struct buffer *buffer = buffer_of(emulator, reference);
    if (buffer != NULL)
        *buffer = emulator->buffers[--emulator->buffers_count];
}

/* There is room, since at most 63 commands wait. */
static void keep(struct emulator *emulator, uint32_t reference, uint32_t address)
{
    struct buffer buffer = {reference, address};
    emulator->buffers[emulator->buffers_count++] = buffer;
}

/* Takes the oldest command in. True if its slot is free then: without a credit the command waits there. */
static bool receive_one(struct emulator *emulator)
{
    const struct posted *slot = &emulator->commands[0];
    struct mscp_sent sent;
    int32_t status = mscp_send(emulator->mscp, MSCP_CONNECTION_FIRST, slot->message, slot->length, &sent);
    if (emulator->log != NULL)
        log_send(emulator->log, MSCP_CONNECTION_FIRST, slot->message, slot->length, status, &sent);
    switch (status) {
    case MSCP_QUEUED:
        keep(emulator, sent.reference, slot->address);
        return true;
    case MSCP_ANSWERED:
        if (sent.has_aborted)
            forget(emulator, sent.aborted);
        return true;
    case MSCP_NO_CREDIT:
    case MSCP_LAST_CREDIT:
        return false;
    default: /* short, long, or doubled: no command message, as the port sees it */
        emulator->port_errors++;
        return true;
    }
}

void emulator_receive(struct emulator *emulator)
{
    while (emulator->commands_count > 0 && receive_one(emulator)) {
        emulator->commands_count--;
        memmove(emulator->commands, emulator->commands + 1, emulator->commands_count * sizeof *emulator->commands);
    }
}

void emulator_deliver(struct emulator *emulator)
{
    while (emulator->ends_count < EMULATOR_RING &&
           mscp_take(emulator->mscp, MSCP_CONNECTION_FIRST, &emulator->ends[emulator->ends_count]) == MSCP_DONE) {
        if (emulator->log != NULL)
            log_take(emulator->log, MSCP_CONNECTION_FIRST, &emulator->ends[emulator->ends_count]);
        emulator->ends_count++;
    }
}

/* ---- the drive */

/* The host's memory for a job's block: how many bytes of the block it has, and where. NULL if it reaches out of the
 * memory. */
static uint8_t *part_of(struct emulator *emulator, const struct mscp_upcoming *next, size_t *bytes)
{
    const struct buffer *buffer = buffer_of(emulator, next->reference);
    uint64_t before = (uint64_t)next->done * MSCP_BLOCK;
    uint64_t left = next->bytes - before;
    *bytes = left < MSCP_BLOCK ? (size_t)left : MSCP_BLOCK;
    if (buffer == NULL || buffer->address + before + *bytes > emulator->memory_bytes)
        return NULL;
    return emulator->memory + buffer->address + before;
}

static bool read_block(FILE *image, uint32_t lbn, uint8_t *bytes)
{
    return fseek(image, (long)lbn * (long)MSCP_BLOCK, SEEK_SET) == 0 && fread(bytes, MSCP_BLOCK, 1, image) == 1;
}

static bool write_block(FILE *image, uint32_t lbn, const uint8_t *bytes)
{
    return fseek(image, (long)lbn * (long)MSCP_BLOCK, SEEK_SET) == 0 && fwrite(bytes, MSCP_BLOCK, 1, image) == 1 &&
           fflush(image) == 0;
}

/* Moves the block of a job between the image and the job, and says how it went. A WRITE takes its bytes from the host now,
 * and what a last block lacks is zeros. */
static uint16_t move(struct emulator *emulator, struct job *job)
{
    uint8_t found[MSCP_BLOCK];
    size_t bytes;
    const uint8_t *part = part_of(emulator, &job->next, &bytes);
    memset(job->bytes, 0, sizeof job->bytes);
    if (part == NULL && job->next.opcode != MSCP_ACCESS && job->next.opcode != MSCP_ERASE)
        return BUFFER_ERROR;
    switch (job->next.opcode) {
    case MSCP_WRITE:
        memcpy(job->bytes, part, bytes);
        return write_block(emulator->image, job->next.lbn, job->bytes) ? 0 : DATA_ERROR;
    case MSCP_ERASE:
        return write_block(emulator->image, job->next.lbn, job->bytes) ? 0 : DATA_ERROR;
    case MSCP_COMPARE_HOST_DATA:
        if (!read_block(emulator->image, job->next.lbn, found))
            return DATA_ERROR;
        return memcmp(found, part, bytes) == 0 ? 0 : COMPARE_ERROR;
    default: /* READ and ACCESS */
        return read_block(emulator->image, job->next.lbn, job->bytes) ? 0 : DATA_ERROR;
    }
}

bool emulator_begin(struct emulator *emulator, struct job *job)
{
    if (mscp_begin(emulator->mscp, &job->next) != MSCP_DONE)
        return false;
    job->status = job->next.touches && job->next.bytes > 0 ? move(emulator, job) : 0;
    return true;
}

/* A READ gives its bytes to the host only here, and only if it is still begun: no byte goes there once the host may
 * have the end of an ABORT. */
bool emulator_finish(struct emulator *emulator, struct job *job)
{
    struct mscp_report report;
    if (mscp_finish(emulator->mscp, MSCP_CONNECTION_FIRST, job->next.reference, job->status, &report) != MSCP_DONE)
        return false;
    if (emulator->log != NULL)
        log_step(emulator->log, job->status, &report);
    if (job->next.opcode == MSCP_READ && report.touched && job->status == 0) {
        size_t bytes;
        uint8_t *part = part_of(emulator, &job->next, &bytes);
        if (part != NULL)
            memcpy(part, job->bytes, bytes);
    }
    if (report.ended)
        forget(emulator, report.reference);
    return true;
}

unsigned emulator_serve(struct emulator *emulator, unsigned most)
{
    struct job job;
    unsigned blocks = 0;
    emulator_receive(emulator);
    while (blocks < most && emulator_begin(emulator, &job)) {
        emulator_finish(emulator, &job);
        blocks++;
    }
    emulator_deliver(emulator);
    return blocks;
}

bool emulator_turn(struct emulator *emulator)
{
    return emulator_serve(emulator, 1) > 0;
}

void emulator_reset(struct emulator *emulator)
{
    if (mscp_reset(emulator->mscp) != MSCP_DONE)
        abort(); /* there is a controller, so this doesn't come */
    emulator->buffers_count = 0;
    emulator->commands_count = 0;
    emulator->ends_count = 0;
    emulator->log = NULL; /* a log is of one run */
}

#ifndef EMULATOR_PART
/* ---- a host that tries it */

enum { BLOCKS = 6, MEMORY = 1 << 14, READ_AT = 1 << 13 };
static const uint32_t LBNS[BLOCKS] = {50, 3, 41, 17, 60, 8};

static struct emulator disk;
static uint8_t memory[MEMORY];
static bool failed;

/* Whether something holds; if not, it is printed. */
static void check(bool holds, const char *what)
{
    if (!holds)
        printf("FAILED: %s\n", what);
    failed = failed || !holds;
}

static bool post(uint32_t reference, uint8_t opcode, uint32_t first, uint32_t lbn, uint32_t address)
{
    uint8_t message[32] = {0};
    put_number(message, 4, reference);
    message[8] = opcode;
    put_number(message + 12, 4, first);
    put_number(message + 28, 4, lbn);
    return emulator_post(&disk, message, sizeof message, address);
}

/* Takes the next end, which is of this command and has this status. */
static void expect(uint32_t reference, uint16_t status)
{
    struct mscp_packet end;
    check(emulator_next(&disk, &end), "there is an end");
    check(get_number(end.bytes, 4) == reference, "it is of that command");
    check(get_number(end.bytes + 10, 2) == status, "it has that status");
}

/* Posts a transfer of each block, and serves all: the sweep says in which order. */
static void transfer_all(uint8_t opcode, uint32_t address)
{
    struct mscp_packet end;
    for (uint32_t i = 0; i < BLOCKS; i++) {
        check(post(10 + i, opcode, MSCP_BLOCK, LBNS[i], address + i * MSCP_BLOCK), "the ring has room");
        emulator_receive(&disk);
    }
    while (emulator_turn(&disk))
        while (emulator_next(&disk, &end)) {
            printf(" %u", (unsigned)LBNS[get_number(end.bytes, 4) - 10]);
            check(get_number(end.bytes + 10, 2) == 0, "the block is good");
        }
    printf("\n");
}

static void write_and_read_back(void)
{
    for (unsigned i = 0; i < BLOCKS * MSCP_BLOCK; i++)
        memory[i] = (uint8_t)(i * 7 + i / MSCP_BLOCK);
    printf("written:");
    transfer_all(MSCP_WRITE, 0);
    printf("read:");
    transfer_all(MSCP_READ, READ_AT);
    check(memcmp(memory, memory + READ_AT, BLOCKS * MSCP_BLOCK) == 0, "what was written is read");
}

/* A READ of 5 blocks is polled after each step: the figure falls each time. */
static void poll_after_each_step(void)
{
    uint32_t last = UINT32_MAX, reference = 21;
    struct mscp_packet end;
    post(20, MSCP_READ, 5 * MSCP_BLOCK, 0, READ_AT);
    printf("figures:");
    do {
        post(reference++, MSCP_GET_COMMAND_STATUS, 20, 0, 0);
        emulator_turn(&disk);
        check(emulator_next(&disk, &end) && end.bytes[8] == 0x82, "the poll is answered");
        printf(" %u", (unsigned)get_number(end.bytes + 16, 4));
        check(get_number(end.bytes + 16, 4) < last, "the figure falls");
        last = get_number(end.bytes + 16, 4);
    } while (!emulator_next(&disk, &end));
    printf("\n");
    check(get_number(end.bytes, 4) == 20 && get_number(end.bytes + 12, 4) == 5 * MSCP_BLOCK, "all was read");
}

/* While the drive has a READ in work it is aborted: its block comes too late, and the memory stays what it was. */
static void abort_in_between(void)
{
    struct job job;
    memset(memory + READ_AT, 0, MSCP_BLOCK);
    post(30, MSCP_READ, MSCP_BLOCK, LBNS[0], READ_AT);
    emulator_receive(&disk);
    check(emulator_begin(&disk, &job), "the READ begins");
    post(31, MSCP_ABORT, 30, 0, 0);
    emulator_receive(&disk);
    check(!emulator_finish(&disk, &job), "it is begun no more");
    emulator_deliver(&disk);
    expect(30, 0x0002);
    expect(31, 0);
    check(memory[READ_AT + 1] == 0, "the memory stays what it was");
    printf("aborted: its block came too late\n");
}

/* What goes wrong has an end that says so. */
static void bad_transfers(void)
{
    post(60, MSCP_READ, MSCP_BLOCK, 1, MEMORY - 1);
    post(61, MSCP_COMPARE_HOST_DATA, MSCP_BLOCK, LBNS[0], READ_AT);
    post(62, MSCP_READ, MSCP_BLOCK, UINT32_MAX, 0);
    emulator_turn(&disk);
    emulator_turn(&disk);
    emulator_turn(&disk);
    expect(62, 0x1C01); /* the unit hasn't the block */
    expect(60, BUFFER_ERROR);
    expect(61, COMPARE_ERROR);
    printf("bad transfers: each has its status\n");
}

int main(int words, char **word)
{
    FILE *log = NULL;
    bool logs = words == 4 && strcmp(word[1], "--log") == 0;
    if (words != 2 && !logs) {
        fprintf(stderr, "usage: emulator [--log FILE] IMAGE (of 61 blocks or more, which it writes)\n");
        return 2;
    }
    if (!emulator_open(&disk, word[words - 1], memory, MEMORY))
        return 1;
    if (logs && (log = fopen(word[2], "w")) == NULL) {
        perror(word[2]);
        return 1;
    }
    if (log != NULL)
        emulator_log(&disk, log);
    post(1, MSCP_ONLINE, 0, 0, 0);
    emulator_turn(&disk);
    expect(1, 0);
    write_and_read_back();
    poll_after_each_step();
    abort_in_between();
    bad_transfers();
    emulator_close(&disk);
    check(log == NULL || fclose(log) == 0, "the log is written");
    return failed;
}
#endif
