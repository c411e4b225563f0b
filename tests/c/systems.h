/* systems.h: what the drivers of known systems do with a port, a row each.
 *
 * The rows were written from memory, with no source at hand: `known` says what is likely of each, and what is a guess.
 * What it doesn't name is a guess, too. */
#ifndef SYSTEMS_H
#define SYSTEMS_H
#include "machine.h"

enum { REQUESTS = 12 };

/* When a host looks at its ring: each turn; once it was interrupted; if the interrupt word isn't 0, which it then makes
 * 0; or once it was interrupted, if the word isn't 0. */
enum waking { LOOKS = 0, BY_INTERRUPT = 1, BY_WORD = 2, BY_BOTH = 3 };

struct driver {
    const char *name, *known;
    const struct mscp_hardware *hardware;
    unsigned responses, commands; /* the rings have two to this power of slots */
    uint32_t base;                /* of its rings */
    uint16_t vector;              /* it wants interrupts, with this vector in its units of 4, or none with 0 */
    enum waking waking;
    uint16_t go;            /* the word of the last step: its low bit, and above that how long a burst may be */
    bool goes_twice;        /* it writes that word again, once the port is up */
    bool purges;            /* it wants purge interrupts */
    bool tests;             /* it wants a purge and poll test */
    bool is_boot;           /* it sends no SET CONTROLLER CHARACTERISTICS; else these are its flags and its timeout */
    uint16_t flags;
    uint16_t timeout;       /* in seconds; with 0 there is none */
    bool stays_alive;       /* with nothing to say it sends a GET UNIT STATUS three times a timeout */
    unsigned requests;      /* at most so many are outstanding */
    uint32_t number, apart; /* of its first request, and how far the numbers of two lie apart */
    bool numbers_rise;      /* a number isn't used again; else it is that of the request's packet */
    bool asks_for_units;    /* by Next Unit; else it brings each unit online that it knows */
    bool asks_for_paths;    /* by DETERMINE ACCESS PATHS, of each unit that came online */
    bool polls;             /* its oldest command, each second, and its figure has to fall */
    bool onlines_are_1;     /* each ONLINE has the number 1, whatever else has it */
};

/* Flags of a host that wants attention messages, and of one that wants two error logs, too. */
enum { ATTENTION = 0x80, ATTENTION_AND_LOGS = 0xD0 };

static const struct driver DRIVERS[] = {
    {.name = "VMS",
     .known = "the manual, Host Command Timeouts: it polls its oldest command, and resets; from memory: it has a "
              "timeout, and stays alive; a guess: its rings, how long its timeout is, and that it asks for paths",
     .hardware = &RQDX3, .responses = 4, .commands = 4, .base = 0x2000, .vector = 0x2B, .waking = BY_INTERRUPT,
     .go = 1, .flags = ATTENTION, .timeout = 30, .stays_alive = true, .requests = REQUESTS, .number = 0x10000,
     .apart = 1, .numbers_rise = true, .asks_for_units = true, .asks_for_paths = true, .polls = true},
    {.name = "Ultrix",
     .known = "from memory: it polls, and sleeps as the others of its kind; a guess: its rings and numbers",
     .hardware = &UDA50, .responses = 3, .commands = 3, .base = 0x1000, .vector = 0x1B, .waking = BY_BOTH, .go = 1,
     .flags = ATTENTION_AND_LOGS, .requests = 8, .number = 1, .apart = 1, .polls = true},
    {.name = "4.3BSD",
     .known = "from memory: addresses as numbers, Next Unit, bursts, no polls, on some machines purge interrupts; a "
              "guess: its rings, since later ones have 32 slots",
     .hardware = &UDA50, .responses = 3, .commands = 3, .base = 0x1000, .vector = 0x1B, .waking = BY_BOTH,
     .go = 1 | 4 << 2, .purges = true, .flags = ATTENTION_AND_LOGS, .requests = 8, .number = 0x80002000, .apart = 0x40,
     .asks_for_units = true},
    {.name = "NetBSD",
     .known = "from memory: an index as number, the number 1 of each ONLINE, Next Unit, rings of 32, bursts, a second "
              "go",
     .hardware = &RQDX3, .responses = 5, .commands = 5, .base = 0x1800, .vector = 0x1B, .waking = BY_BOTH,
     .go = 1 | 4 << 2, .goes_twice = true, .flags = ATTENTION_AND_LOGS, .requests = REQUESTS, .number = 0, .apart = 1,
     .asks_for_units = true, .onlines_are_1 = true},
    {.name = "2.11BSD",
     .known = "from memory: a bus of 18 bits, and rings of 8; a guess: how it finds a volume again",
     .hardware = &UDA50, .responses = 3, .commands = 3, .base = 0x0800, .vector = 0x1B, .waking = BY_BOTH, .go = 1,
     .flags = ATTENTION_AND_LOGS, .requests = 4, .number = 1, .apart = 1},
    {.name = "a BSD's bootstrap",
     .known = "from memory: it has no vector, and waits for the interrupt word",
     .hardware = &RQDX3, .base = 0x0400, .waking = BY_WORD, .go = 1, .is_boot = true, .requests = 1, .number = 1,
     .apart = 1},
    {.name = "RT-11",
     .known = "from memory: interrupts; likely: one request at a time; a guess: its flags and its timeout",
     .hardware = &RQDX3, .base = 0x0400, .vector = 0x1B, .waking = BY_INTERRUPT, .go = 1, .requests = 1, .number = 1,
     .apart = 1},
    {.name = "RT-11's bootstrap",
     .known = "from memory: no interrupts",
     .hardware = &RQDX3, .base = 0x0400, .waking = LOOKS, .go = 1, .is_boot = true, .requests = 1, .number = 1,
     .apart = 1},
    {.name = "no system",
     .known = "the standard has what it asks for, and nobody is known here to ask for it: a purge and poll test; and "
              "it looks at its rings, of 2 and of 4 slots, whether it was interrupted or not",
     .hardware = &UDA50, .responses = 1, .commands = 2, .base = 0x0800, .vector = 0x1B, .waking = LOOKS,
     .go = 1 | 63 << 2, .purges = true, .tests = true, .flags = ATTENTION, .timeout = 5, .stays_alive = true,
     .requests = 2, .number = 0xFFFFFFFE, .apart = 1, .asks_for_paths = true},
};
#endif
