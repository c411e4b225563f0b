/* chance.h: numbers by chance, for those that try random hosts: of one seed they are the same each time. */
#ifndef CHANCE_H
#define CHANCE_H
#include <stdint.h>

static uint64_t state = 1; /* the seed, which isn't 0 */

static uint32_t any(void)
{
    state ^= state << 13;
    state ^= state >> 7;
    state ^= state << 17;
    return (uint32_t)(state >> 16);
}

static uint32_t below(uint32_t bound)
{
    return any() % bound;
}
#endif
