/* trying.h: what calls.c and fields.c share. */
#ifndef TRYING_H
#define TRYING_H
#include "mscp.h"
#include <stdio.h>
#include <stdlib.h>
#include <string.h>

#define COUNT(list) (sizeof(list) / sizeof((list)[0]))

/* The connections. */
enum { FIRST = MSCP_CONNECTION_FIRST, SECOND = MSCP_CONNECTION_SECOND };

/* Whether something was wrong: the program's status. */
static int wrong;

static inline void is(const char *what, int64_t got, int64_t wanted)
{
    if (got != wanted) {
        printf("%s: %lld, not %lld\n", what, (long long)got, (long long)wanted);
        wrong = 1;
    }
}

static inline void put(uint8_t *to, unsigned bytes, uint32_t number)
{
    for (unsigned i = 0; i < bytes; i++)
        to[i] = (uint8_t)(number >> (8 * i));
}

static inline uint32_t number(const uint8_t *from, unsigned bytes)
{
    uint32_t got = 0;
    for (unsigned i = 0; i < bytes; i++)
        got |= (uint32_t)from[i] << (8 * i);
    return got;
}

/* A command to unit 0: `first` stands in bytes 12 to 15 and `block` in 28 to 31. */
static inline uint8_t *command(uint32_t reference, uint8_t opcode, uint32_t first, uint32_t block)
{
    static uint8_t message[32];
    memset(message, 0, sizeof message);
    put(message, 4, reference);
    message[8] = opcode;
    put(message + 12, 4, first);
    put(message + 28, 4, block);
    return message;
}

/* Whether two units are told alike. What is between their fields is nobody's. */
static inline int is_same_unit(const struct mscp_unit *one, const struct mscp_unit *other)
{
    return one->id == other->id && one->size == other->size && one->media == other->media && one->serial == other->serial &&
           one->number == other->number && one->track == other->track && one->group == other->group &&
           one->cylinder == other->cylinder;
}

static inline void *memory_of(size_t size)
{
    void *memory = malloc(size);
    if (memory == NULL)
        exit(2);
    memset(memory, 0xA5, size);
    return memory;
}
#endif
