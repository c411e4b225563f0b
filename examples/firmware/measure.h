/* measure.h: compares a call's stack with what mscp.h says of it. With -DFIGURES it prints its bytes and instructions. */
#ifndef MEASURE_H
#define MEASURE_H
#include "board.h"
#include <stdbool.h>

/* What mscp.h says of an init, and of any other call that firmware makes here, in bytes. */
enum { STACK_OF_INIT = 8 * 1024, STACK_OF_CALLS = 2 * 1024 };

/* The deepest and the dearest of some calls of one kind. */
struct measured {
    const char *name;
    uint32_t limit, stack, dearest;
};

static inline void measure_begins(void)
{
    paint_stack();
    instructions();
}

static inline void measure_ends(struct measured *it)
{
    const uint32_t took = instructions(), stack = stack_taken();
    it->dearest = took > it->dearest ? took : it->dearest;
    it->stack = stack > it->stack ? stack : it->stack;
}

/* Whether they took no more than that. */
static inline bool tell(const struct measured *it)
{
    say("the stack of ");
    say(it->name);
    say(it->stack <= it->limit ? ": within " : ": OVER ");
    say_number(it->limit);
    say(" bytes\n");
#ifdef FIGURES
    say("figure|");
    say(it->name);
    say("|");
    say_number(it->stack);
    say("|");
    say_number(it->dearest);
    say("\n");
#endif
    return it->stack <= it->limit;
}
#endif
