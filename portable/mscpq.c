/* mscpq.c: runs a script of commands through a disk controller and prints what the controller did, or shows a packet, as the
 * program mscpq does, on any machine with a C compiler. At the top of the project:
 *
 *     cc -O2 -Iinclude portable/mscpq.c portable/mscp.c -o mscpq-c
 *     ./mscpq-c run examples/first.mscp
 */
#ifdef __linux__
#define _DEFAULT_SOURCE /* for madvise */
#include <sys/mman.h>
#endif
#include "mscp.h"
#include <errno.h>
#include <stdio.h>
#include <stdlib.h>
#include <string.h>
#ifdef _WIN32
#include <fcntl.h>
#include <io.h>
#endif

#define MOST 16777217u /* bytes that are read of a script: one more than it may have */

/* Says why it ends with this status. */
static int say(const char *why, int status)
{
    fprintf(stderr, "%s\n", why);
    return status;
}

/* Reads a file up to its end, or to one byte more than a script may have. NULL where memory ran out. */
static uint8_t *read_script(FILE *file, size_t *length)
{
    size_t size = 65536, got = 1;
    uint8_t *script = malloc(size);
    for (*length = 0; script != NULL && got != 0 && *length < MOST; *length += got) {
        if (*length == size) {
            uint8_t *larger = realloc(script, size *= 2);
            if (larger == NULL)
                free(script);
            script = larger;
        }
        got = script == NULL ? 0 : fread(script + *length, 1, size < MOST ? size - *length : MOST - *length, file);
    }
    return script;
}

/* Writes text on standard output, and frees it. */
static int put(uint8_t *text, size_t count)
{
    size_t written = fwrite(text, 1, count, stdout);
    free(text);
    return written == count && fflush(stdout) == 0 ? 0 : say("cannot write", 3);
}

/* Linux may give these bytes in large pages: they are written once, from the front on. */
static void ask_for_large_pages(uint8_t *bytes, size_t count)
{
#if defined(__linux__) && defined(MADV_HUGEPAGE)
    size_t behind = (size_t)-(uintptr_t)bytes % 4096;
    if (bytes != NULL && count > 1 << 24)
        madvise(bytes + behind, count - behind, MADV_HUGEPAGE);
#else
    (void)bytes;
    (void)count;
#endif
}

/* Room for so many bytes, or where there isn't as much for half as many, and so on. What is never touched costs little. */
static uint8_t *take_room(size_t *room)
{
    uint8_t *bytes = malloc(*room);
    while (bytes == NULL && *room > 4096)
        bytes = malloc(*room /= 2);
    ask_for_large_pages(bytes, *room);
    return bytes;
}

/* Runs a script, in more and more room until its report fits. */
static int run_script(const uint8_t *script, size_t length)
{
    static const char *const CAUSES[] = {"size", "lines", "long", "byte", "word", "count", "number",
                                         "hex", "status", "unit", "config", "header", "events"};
    size_t room = 65536 + 128 * length, count = 0, had = 0;
    uint32_t line = 0;
    for (;;) {
        uint8_t *text = take_room(&room);
        int32_t status = text == NULL || room <= had ? MSCP_SMALL : mscp_run_script(script, length, text, room, &count, &line);
        if (status == MSCP_DONE)
            return put(text, count);
        free(text);
        if (status != MSCP_SMALL) {
            fprintf(stderr, "line %lu: %s\n", (unsigned long)line, CAUSES[MSCP_SCRIPT_SIZE - status]);
            return 1;
        }
        if (text == NULL || room <= had || room > SIZE_MAX / 8)
            return say("out of memory", 3);
        had = room;
        room *= 8;
    }
}

/* Runs the script in a file, which `-` says is standard input. */
static int run(const char *name)
{
    FILE *file = strcmp(name, "-") == 0 ? stdin : fopen(name, "rb");
    size_t length = 0;
    uint8_t *script = NULL;
    int status = 3;
    if (file == NULL)
        return say(errno == ENOMEM ? "out of memory" : "cannot read", 3);
    script = read_script(file, &length);
    if (script == NULL)
        say("out of memory", 3);
    else if (ferror(file))
        say("cannot read", 3);
    else
        status = run_script(script, length);
    free(script);
    return status;
}

/* Shows the packet that a word is the digits of. */
static int show(const char *word)
{
    static const char *const FAULTS[] = {"packet: hex", "packet: short", "packet: long", "packet: code", "packet: length"};
    size_t room = 1024, count = 0;
    uint8_t *text = malloc(room);
    int32_t status = text == NULL ? MSCP_SMALL
                                  : mscp_show_packet((const uint8_t *)word, strlen(word), text, room, &count);
    if (status == MSCP_DONE)
        return put(text, count);
    free(text);
    return status == MSCP_SMALL ? say("out of memory", 3) : say(FAULTS[MSCP_WORD_HEX - status], 1);
}

int main(int argc, char **argv)
{
#ifdef _WIN32
    _setmode(_fileno(stdin), _O_BINARY);
    _setmode(_fileno(stdout), _O_BINARY);
#endif
    if (argc == 1)
        return run("-");
    if (argc == 3 && strcmp(argv[1], "run") == 0)
        return run(argv[2]);
    if (argc == 3 && strcmp(argv[1], "packet") == 0)
        return show(argv[2]);
    return say("usage: mscpq [run FILE | packet HEX]", 2);
}
