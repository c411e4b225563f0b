/* How much stack each call of mscp.h takes: each runs on a stack that was painted. Prints a line for each, and ends with 1
 * where one takes more than mscp.h says. */
#include "mscp.h"
#include <stdio.h>
#include <stdlib.h>
#include <string.h>
#include <ucontext.h>

enum {
    NOTHING, SEND, BEGIN, FINISH, STEP, TAKE, LOOK, WHY, FIGURE, BALANCE, WAITING, UNTAKEN, IS_ONLINE, SETTINGS, RESET, SUBMIT,
    POLL, RECEIVE, HOST_BALANCE, SAVE, HOST_SAVE, INIT, HOST_INIT, RESTORE, HOST_RESTORE, PORT_INIT, READ_IP, WRITE_IP, READ_SA,
    WRITE_SA, NEXT, NEXT_MESSAGE, WAS_READ, WENT, LOOK_AGAIN, TICK, VOLUME_CAME, VOLUME_WENT, PROTECT, HARDWARE_OF, STATE, VOLUME,
    BEGUN, PORT_SETTINGS, PORT_LOOK, PORT_WHY, PORT_SAVE, PORT_RESTORE, DRIVER_INIT, DRIVER_CREDITS,
    DRIVER_SUBMIT, DRIVER_POLL, DRIVER_HEAR, DRIVER_TICK, DRIVER_OUTSTANDING, DRIVER_SAVE, DRIVER_RESTORE, WRITE_COMMAND, READ_END,
    RUN_SCRIPT, SHOW_PACKET, CALLS
};
static const char *const NAMES[CALLS] = {
    "nothing", "send", "begin", "finish", "step", "take", "look", "why", "figure", "balance", "waiting", "untaken",
    "is_online", "settings", "reset", "host_submit", "host_poll", "host_receive", "host_balance", "save", "host_save", "init",
    "host_init",
    "restore", "host_restore", "port_init", "port_read_ip", "port_write_ip", "port_read_sa", "port_write_sa", "port_next",
    "port_next_message", "port_was_read", "port_went", "port_look_again", "port_tick", "port_volume_came", "port_volume_went",
    "port_protect", "port_hardware", "port_state", "port_volume", "port_begun", "port_settings", "port_look", "port_why", "port_save",
    "port_restore", "driver_init", "driver_credits", "driver_submit", "driver_poll", "driver_hear", "driver_tick",
    "driver_outstanding", "driver_save", "driver_restore", "write_command", "read_end", "run_script", "show_packet",
};

/* Aligned for anything. */
static union { long double number; void *pointer; unsigned char bytes[1 << 15]; } room, host_room, port_room, driver_room, fresh,
    fresh_host, fresh_port, fresh_driver;
static unsigned char stack[1 << 18];
static ucontext_t home, there;
static struct mscp *mscp;
static struct mscp_host *host;
static struct mscp_port *port;
static struct mscp_driver *driver;
static struct mscp_action action; /* that the port wants */
static uint8_t memory[1 << 15];   /* of its host */
static const struct mscp_hardware HARDWARE = {MSCP_BUS_Q, 19, 3, 1};
static const struct mscp_medium MEDIUM = {1, 1, 0, 1};
static const struct mscp_limits LIMITS = {1, 16, 64, 0, 8, 60};
static struct mscp_unit units[16];
static volatile int64_t answered; /* by the last call */
static uint8_t bytes[MSCP_SAVED_MAX], host_bytes[MSCP_HOST_SAVED_MAX]; /* as both are saved */
static uint8_t port_bytes[MSCP_PORT_SAVED_MAX], driver_bytes[MSCP_DRIVER_SAVED_MAX];
static size_t saved, host_saved, port_saved, driver_saved;
/* Each kind of line, and a packet. */
static const char SCRIPT[] = "credits 4 3\nbudget 16\nlongest 8\ntimeout 60\nunit 0 10 2 1 1000\ngo\nonline 9 0\nstep 1\ntake\n"
                             "read 1 0 512 1\nsecond packet 050000000000000013000000\nstatus 2 1\nlook\nbad 0008\n"
                             "second take\nsetcontroller 3\n";
static const char WORD[] = "050000000000000083000000000000000000000000000000" "000000000000000000000000000000000000000000000000";
static uint8_t text[4096];

static void run(int call)
{
    static uint8_t read[32] = {64, 0, 0, 0, 0, 0, 0, 0, MSCP_READ, 0, 0, 0, 0, 16};
    static uint8_t end[20] = {99, 0, 0, 0, 0, 0, 0, 0, 0x82, 0, 0, 0, 1, 0, 0, 0, 5};
    static struct mscp_sent sent;
    static struct mscp_packet packet;
    static struct mscp_upcoming upcoming;
    static struct mscp_report report;
    static struct mscp_waiting figures[64];
    static struct mscp_holder holders[64];
    static struct mscp_state state;
    static struct mscp_hardware hardware;
    static struct mscp_limits limits;
    static struct mscp_unit its[16];
    static struct mscp_volume volume;
    static struct mscp_news news;
    static uint8_t told[24] = {20, 0, 0, 0, 99, 0, 0, 0, 0, 0, 0, 0, 0x82, 0, 0, 0, 1, 0, 0, 0, 5};
    static struct mscp_watch watch = {60, 0, 0};
    static struct mscp_heard heard;
    static struct mscp_asked asked[64];
    static const struct mscp_command written = {.opcode = MSCP_READ};
    static struct mscp_end its_end;
    switch (call) {
    case SEND: answered = mscp_send(mscp, MSCP_CONNECTION_FIRST, read, 32, &sent); break;
    case BEGIN: answered = mscp_begin(mscp, &upcoming); break;
    case FINISH: answered = mscp_finish(mscp, MSCP_CONNECTION_FIRST, upcoming.reference, 0, &report); break;
    case STEP: answered = mscp_step(mscp, 0, &report); break;
    case TAKE: answered = mscp_take(mscp, MSCP_CONNECTION_FIRST, &packet); break;
    case LOOK: answered = mscp_look(mscp, figures, 64); break;
    case WHY: answered = mscp_why(mscp, MSCP_CONNECTION_FIRST, 62, holders, 64); break;
    case FIGURE: answered = mscp_figure(mscp, MSCP_CONNECTION_FIRST, 63); break;
    case WAITING: answered = mscp_waiting(mscp, MSCP_CONNECTION_FIRST); break;
    case UNTAKEN: answered = mscp_untaken(mscp, MSCP_CONNECTION_FIRST); break;
    case IS_ONLINE: answered = mscp_is_online(mscp, 0); break;
    case SETTINGS: answered = mscp_settings(mscp, &limits, its, 16); break;
    case BALANCE: answered = mscp_balance(mscp, MSCP_CONNECTION_FIRST); break;
    case RESET: answered = mscp_reset(mscp); break;
    case SUBMIT: answered = mscp_host_submit(host, read, 32); break;
    case POLL: answered = mscp_host_poll(host, 99, &packet); break;
    case RECEIVE: answered = mscp_host_receive(host, end, 20, &news); break;
    case HOST_BALANCE: answered = mscp_host_balance(host); break;
    case SAVE: answered = mscp_save(mscp, bytes, sizeof bytes, &saved); break;
    case HOST_SAVE: answered = mscp_host_save(host, host_bytes, sizeof host_bytes, &host_saved); break;
    case RESTORE: answered = mscp_restore(mscp_in_memory(&fresh, sizeof fresh), bytes, saved); break;
    case HOST_RESTORE:
        answered = mscp_host_restore(mscp_host_in_memory(&fresh_host, sizeof fresh_host), host_bytes, host_saved);
        break;
    case INIT: answered = mscp_init(mscp_in_memory(&fresh, sizeof fresh), &LIMITS, units, 16, MSCP_SWEEP); break;
    case PORT_INIT:
        answered = mscp_port_init(mscp_port_in_memory(&fresh_port, sizeof fresh_port), &LIMITS, units, 16, MSCP_SWEEP,
                                  &HARDWARE, 63);
        break;
    case READ_IP: answered = mscp_port_read_ip(port); break;
    case WRITE_IP: answered = mscp_port_write_ip(port); break;
    case READ_SA: answered = mscp_port_read_sa(port); break;
    case WRITE_SA: answered = mscp_port_write_sa(port, 0); break;
    case NEXT: answered = mscp_port_next(port, &action); break;
    case NEXT_MESSAGE: answered = mscp_port_next_message(port, &action); break;
    case WAS_READ: answered = mscp_port_was_read(port, memory + action.address, action.count); break;
    case WENT: answered = mscp_port_went(port, MSCP_OUTCOME_DONE, 0); break;
    case LOOK_AGAIN: answered = mscp_port_look_again(port); break;
    case TICK: answered = mscp_port_tick(port); break;
    case VOLUME_CAME: answered = mscp_port_volume_came(port, 15, &MEDIUM); break;
    case VOLUME_WENT: answered = mscp_port_volume_went(port, 15); break;
    case PROTECT: answered = mscp_port_protect(port, 15, 1); break;
    case HARDWARE_OF: answered = mscp_port_hardware(port, &hardware); break;
    case STATE: answered = mscp_port_state(port, &state); break;
    case VOLUME: answered = mscp_port_volume(port, 15, &volume); break;
    case BEGUN: answered = mscp_port_begun(port, &upcoming); break;
    case PORT_SETTINGS: answered = mscp_port_settings(port, &limits, its, 16); break;
    case PORT_LOOK: answered = mscp_port_look(port, figures, 64); break;
    case PORT_WHY: answered = mscp_port_why(port, MSCP_CONNECTION_FIRST, 63, holders, 64); break;
    case PORT_SAVE: answered = mscp_port_save(port, port_bytes, sizeof port_bytes, &port_saved); break;
    case PORT_RESTORE:
        answered = mscp_port_restore(mscp_port_in_memory(&fresh_port, sizeof fresh_port), port_bytes, port_saved);
        break;
    case DRIVER_INIT: answered = mscp_driver_init(mscp_driver_in_memory(&fresh_driver, sizeof fresh_driver)); break;
    case DRIVER_CREDITS: answered = mscp_driver_credits(driver); break;
    case DRIVER_SUBMIT: answered = mscp_driver_submit(driver, read, 32); break;
    case DRIVER_POLL: answered = mscp_driver_poll(driver, 99, &packet); break;
    case DRIVER_HEAR: answered = mscp_driver_hear(driver, &watch, told, sizeof told, &heard); break;
    case DRIVER_TICK: answered = mscp_driver_tick(driver, &watch); break;
    case DRIVER_OUTSTANDING: answered = mscp_driver_outstanding(driver, asked, 64); break;
    case DRIVER_SAVE: answered = mscp_driver_save(driver, driver_bytes, sizeof driver_bytes, &driver_saved); break;
    case DRIVER_RESTORE:
        answered = mscp_driver_restore(mscp_driver_in_memory(&fresh_driver, sizeof fresh_driver), driver_bytes, driver_saved);
        break;
    case WRITE_COMMAND: answered = mscp_write_command(&written, &packet); break;
    case READ_END: answered = mscp_read_end(end, sizeof end, &its_end); break;
    case RUN_SCRIPT: {
        static uint32_t line;
        answered = mscp_run_script((const uint8_t *)SCRIPT, sizeof SCRIPT - 1, text, sizeof text, &saved, &line);
        break;
    }
    case SHOW_PACKET:
        answered = mscp_show_packet((const uint8_t *)WORD, sizeof WORD - 1, text, sizeof text, &saved);
        break;
    case HOST_INIT: answered = mscp_host_init(mscp_host_in_memory(&fresh_host, sizeof fresh_host), 64); break;
    }
}

/* How deep a call goes. */
static size_t depth(int call)
{
    size_t untouched = 0;
    memset(stack, 0xA5, sizeof stack);
    getcontext(&there);
    there.uc_stack.ss_sp = stack;
    there.uc_stack.ss_size = sizeof stack;
    there.uc_link = &home;
    makecontext(&there, (void (*)(void))run, 1, call);
    swapcontext(&home, &there);
    while (stack[untouched] == 0xA5)
        untouched++;
    return sizeof stack - untouched;
}

static void must(int32_t status, int32_t wanted)
{
    if (status != wanted)
        exit(2);
}

/* 16 units, the first online, and 62 READs that wait on all of them. */
static void prepare(void)
{
    uint8_t message[32] = {0, 0, 0, 0, 0, 0, 0, 0, MSCP_ONLINE};
    struct mscp_sent sent;
    struct mscp_report report;
    struct mscp_packet end;
    for (uint16_t i = 0; i < 16; i++) {
        struct mscp_unit unit = {1, 1000, 0, 1, 0, 10, 2, 1};
        unit.number = i;
        units[i] = unit;
    }
    mscp = mscp_in_memory(&room, sizeof room);
    host = mscp_host_in_memory(&host_room, sizeof host_room);
    must(mscp_init(mscp, &LIMITS, units, 16, MSCP_SWEEP), MSCP_DONE);
    must(mscp_host_init(host, 64), MSCP_DONE);
    driver = mscp_driver_in_memory(&driver_room, sizeof driver_room);
    must(mscp_driver_init(driver), MSCP_DONE);
    for (int i = 0; i < 5; i++) { /* each time 15 credits */
        static const uint8_t credits[4] = {0, 0, 2 << 4 | 15, 0};
        struct mscp_watch watch = {60, 0, 0};
        struct mscp_heard heard;
        must(mscp_driver_hear(driver, &watch, credits, sizeof credits, &heard), MSCP_CREDITS);
    }
    port = mscp_port_in_memory(&port_room, sizeof port_room);
    must(mscp_port_init(port, &LIMITS, units, 16, MSCP_SWEEP, &HARDWARE, 63), MSCP_DONE);
    must(mscp_send(mscp, MSCP_CONNECTION_FIRST, message, 32, &sent), MSCP_QUEUED);
    must(mscp_step(mscp, 0, &report), MSCP_DONE);
    must(mscp_take(mscp, MSCP_CONNECTION_FIRST, &end), MSCP_DONE);
    message[8] = MSCP_READ;
    message[13] = 16;
    for (uint8_t i = 1; i <= 62; i++) {
        message[0] = i;
        message[4] = i % 16;
        must(mscp_send(mscp, MSCP_CONNECTION_FIRST, message, 32, &sent), MSCP_QUEUED);
        must(mscp_host_submit(host, message, 32), MSCP_DONE);
        must(mscp_driver_submit(driver, message, 32), MSCP_DONE);
    }
}

/* ---- a port at work */

static size_t deepest[CALLS], frame;

static void measure(int call)
{
    size_t taken = depth(call) - frame;
    if (taken > deepest[call])
        deepest[call] = taken;
}

/* Does what the port wants, until it wants nothing. What is in hand after a read is of a message. */
static void serve(void)
{
    for (measure(NEXT); answered == MSCP_DONE; measure(NEXT)) {
        if (action.kind == MSCP_ACTION_WRITE)
            memcpy(memory + action.address, action.bytes, action.count);
        measure(action.kind == MSCP_ACTION_READ ? WAS_READ : WENT);
        if (action.kind == MSCP_ACTION_READ)
            measure(NEXT_MESSAGE);
        for (int call = STATE; call <= PORT_WHY; call++)
            measure(call);
    }
}

static void put_four(uint32_t address, uint32_t number)
{
    for (unsigned i = 0; i < 4; i++)
        memory[address + i] = (uint8_t)(number >> (8 * i));
}

/* The port comes up, with rings of 64 slots, takes in the opcodes of all commands, of which READs wait, and is saved. */
static void work(void)
{
    static const uint8_t OPCODES[8] = {MSCP_ONLINE, MSCP_READ, MSCP_READ, MSCP_SET_CONTROLLER_CHARACTERISTICS,
                                       MSCP_GET_UNIT_STATUS, MSCP_GET_COMMAND_STATUS, MSCP_ABORT, MSCP_WRITE};
    const uint16_t words[4] = {0x8000 | 6 << 11 | 6 << 8, 0x1000, 0, 1};
    must(mscp_port_volume_came(port, 0, &MEDIUM), MSCP_DONE);
    for (int i = 0; i < 4; i++) {
        must(mscp_port_write_sa(port, words[i]), MSCP_DONE);
        serve();
    }
    for (uint32_t i = 0; i < 64; i++) {
        uint32_t text = 0x2004 + 72 * i;
        put_four(0x1000 + 4 * i, 0xC0000000u | (text + 64 * 72));
        put_four(0x1100 + 4 * i, 0xC0000000u | text);
        put_four(text - 4, 32);
        put_four(text, i + 1);
        memory[text + 8] = OPCODES[i % 8];
        memory[text + 10] = 1;
        put_four(text + 12, memory[text + 8] == MSCP_READ || memory[text + 8] == MSCP_WRITE ? 1024 : i);
    }
    must(mscp_port_read_ip(port), MSCP_DONE);
    serve();
    measure(PORT_SAVE);
    measure(PORT_RESTORE);
}

#if defined(__s390x__) || defined(__i386__)
enum { MORE = 256 };
#else
enum { MORE = 0 };
#endif

/* The most that mscp.h says of a call, but for what functions take for themselves on some machines. */
static size_t most(int call)
{
    switch (call) {
    case SAVE: return 12 * 1024;
    case HOST_SAVE: case WHY: case PORT_WHY: return 3 * 1024;
    case DRIVER_SAVE: return 4 * 1024;
    case INIT: case PORT_INIT: return 8 * 1024;
    case RESTORE: case PORT_RESTORE: return 18 * 1024;
    case RUN_SCRIPT: return 40 * 1024;
    case HOST_RESTORE: return 6 * 1024;
    case DRIVER_RESTORE: return 20 * 1024;
    case PORT_SAVE: return 36 * 1024;
    default: return 2 * 1024;
    }
}

/* Each call is made once before: the first call of a function of the C library may go through the dynamic linker, which
 * takes some stack of its own. */
int main(void)
{
    int wrong = 0;
    prepare();
    for (int call = SEND; call < CALLS; call++)
        run(call);
    prepare();
    frame = depth(NOTHING);
    for (int call = SEND; call < CALLS; call++)
        measure(call);
    prepare();
    work();
    for (int call = SEND; call < CALLS; call++) {
        printf("mscp_%s %zu\n", NAMES[call], deepest[call]);
        wrong |= deepest[call] > most(call) + MORE;
    }
    return wrong;
}
