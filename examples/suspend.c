/* suspend.c: an emulated disk controller that is saved in the middle of its work, and goes on in another process.
 *
 *     cc -DEMULATOR_PART suspend.c emulator.c $(pkg-config --cflags --libs mscp) -o suspend    (with emulator.h)
 *     ./suspend IMAGE STATE           (goes on from STATE, if that is there, or else begins)
 *     ./suspend IMAGE STATE BLOCKS    (and after this many blocks saves to STATE, and ends)
 *
 * Its host sends five READs and prints each end. Whenever it is saved, the ends are those of a run that never was. What
 * an emulator saves: the controller by mscp_save, and what is its own, that is the rings, whose buffer is whose, and the
 * host's memory. A block that the drive has in work is begun anew: mscp_begin answers it again. */
#include "emulator.h"
#include <stdlib.h>
#include <string.h>

enum { READS = 5, MEMORY = 1 << 13 };

static struct emulator disk;
static uint8_t memory[MEMORY];

/* ---- to a file and back */

static bool put_bytes(FILE *file, const void *bytes, size_t length)
{
    return length == 0 || fwrite(bytes, length, 1, file) == 1;
}

static bool get_bytes(FILE *file, void *bytes, size_t length)
{
    return length == 0 || fread(bytes, length, 1, file) == 1;
}

/* What the emulator holds beside the controller. */
static bool put_own(FILE *file)
{
    return put_bytes(file, disk.buffers, sizeof disk.buffers) &&
           put_bytes(file, &disk.buffers_count, sizeof disk.buffers_count) &&
           put_bytes(file, disk.commands, sizeof disk.commands) &&
           put_bytes(file, &disk.commands_count, sizeof disk.commands_count) &&
           put_bytes(file, disk.ends, sizeof disk.ends) &&
           put_bytes(file, &disk.ends_count, sizeof disk.ends_count) && put_bytes(file, memory, sizeof memory);
}

static bool get_own(FILE *file)
{
    return get_bytes(file, disk.buffers, sizeof disk.buffers) &&
           get_bytes(file, &disk.buffers_count, sizeof disk.buffers_count) &&
           get_bytes(file, disk.commands, sizeof disk.commands) &&
           get_bytes(file, &disk.commands_count, sizeof disk.commands_count) &&
           get_bytes(file, disk.ends, sizeof disk.ends) &&
           get_bytes(file, &disk.ends_count, sizeof disk.ends_count) && get_bytes(file, memory, sizeof memory) &&
           disk.buffers_count <= MSCP_CREDITS_MAX && disk.commands_count <= EMULATOR_RING &&
           disk.ends_count <= EMULATOR_RING;
}

static bool save(const char *path)
{
    uint8_t bytes[MSCP_SAVED_MAX];
    size_t length;
    FILE *file = fopen(path, "wb");
    bool saved = file != NULL && mscp_save(disk.mscp, bytes, sizeof bytes, &length) == MSCP_DONE &&
                 put_bytes(file, &length, sizeof length) && put_bytes(file, bytes, length) && put_own(file);
    return (file == NULL || fclose(file) == 0) && saved;
}

/* In place of the controller that the emulator was opened with comes the one that was saved. If the bytes aren't one, it
 * goes on as it was: a restore looks at all of them first. */
static bool restore_controller(const uint8_t *bytes, size_t length)
{
    int32_t status = mscp_restore(disk.mscp, bytes, length);
    if (status != MSCP_DONE)
        fprintf(stderr, "suspend: %s\n", mscp_status_text(status));
    return status == MSCP_DONE;
}

static bool restore(FILE *file)
{
    uint8_t bytes[MSCP_SAVED_MAX];
    size_t length;
    return get_bytes(file, &length, sizeof length) && length <= sizeof bytes && get_bytes(file, bytes, length) &&
           restore_controller(bytes, length) && get_own(file);
}

/* ---- its host */

static void post(uint32_t reference, uint8_t opcode, uint32_t bytes, uint32_t lbn, uint32_t address)
{
    uint8_t message[32] = {0};
    put_number(message, 4, reference);
    message[8] = opcode;
    put_number(message + 12, 4, bytes);
    put_number(message + 28, 4, lbn);
    if (!emulator_post(&disk, message, sizeof message, address))
        abort(); /* there is room in the ring */
    emulator_receive(&disk);
}

static void begin(void)
{
    post(1, MSCP_ONLINE, 0, 0, 0);
    for (uint32_t i = 0; i < READS; i++)
        post(2 + i, MSCP_READ, (i + 1) * MSCP_BLOCK, 50 - 10 * i, i * 1024);
}

/* Prints the ends that came. */
static void hear(void)
{
    struct mscp_packet end;
    while (emulator_next(&disk, &end))
        printf("ended: %u, status %04X, %u bytes\n", (unsigned)get_number(end.bytes, 4),
               (unsigned)get_number(end.bytes + 10, 2), (unsigned)get_number(end.bytes + 12, 4));
}

int main(int words, char **word)
{
    if (words != 3 && words != 4) {
        fprintf(stderr, "usage: suspend IMAGE STATE [BLOCKS]\n");
        return 2;
    }
    if (!emulator_open(&disk, word[1], memory, MEMORY))
        return 1;
    FILE *state = fopen(word[2], "rb");
    if (state == NULL)
        begin();
    bool restored = state == NULL || restore(state);
    if (state != NULL)
        fclose(state);
    for (long left = words == 4 ? atol(word[3]) : -1; restored && left != 0 && emulator_turn(&disk); left--)
        hear();
    bool saved = words == 3 || save(word[2]);
    if (!restored || !saved)
        fprintf(stderr, "suspend: %s: it can't be %s\n", word[2], restored ? "written" : "read");
    emulator_close(&disk);
    return restored && saved ? 0 : 1;
}
