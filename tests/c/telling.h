/* telling.h: what workload.c tells of the calls that it makes: a sum over all that they answer, and which call answered which
 * status how often. Of a call that answers a number 1 stands for each above 0. */
#ifndef TELLING_H
#define TELLING_H
#include "mscp.h"
#include <stdio.h>
#include <stdlib.h>
#include <string.h>

enum call {
    INIT, RESET, SEND, TAKE, BEGIN, FINISH, STEP, LOOK, WHY, FIGURE, WAITING, UNTAKEN, BALANCE, IS_ONLINE, SETTINGS, SAVE,
    RESTORE, HOST_INIT, HOST_BALANCE, HOST_SUBMIT, HOST_POLL, HOST_RECEIVE, HOST_SAVE, HOST_RESTORE, PORT_INIT, READ_IP, WRITE_IP,
    READ_SA, WRITE_SA, NEXT, NEXT_MESSAGE, WAS_READ, WENT, LOOK_AGAIN, TICK, CAME, GONE, PROTECT, HARDWARE, STATE, VOLUME, BEGUN,
    PORT_LOOK, PORT_WHY, PORT_SETTINGS, PORT_SAVE, PORT_RESTORE, RUN_SCRIPT, SHOW_PACKET, CALLS
};

enum { LAST = 127 }; /* behind the statuses of a call */
#define NUMBER 126, 0, 1 /* it answers a number */
#define OF_PLACE -12, -13, -14, -15
#define OF_MEMORY -11, OF_PLACE
#define OF_LIMITS -20, -21, -22, -23, -24, -25, -26, -27, -28, -29, -30, -31
#define OF_BYTES -40, -41, -42, -43, -44, -45, -46, -47, -48, -49, -50, -51, -52, -53, -54

/* All that mscp.h says of each: -10 is that nothing was made. */
static const struct {
    const char *name;
    int8_t statuses[32];
} TOLD[CALLS] = {
    [INIT] = {"mscp_init", {1, OF_MEMORY, OF_LIMITS, LAST}},
    [RESET] = {"mscp_reset", {1, -10, LAST}},
    [SEND] = {"mscp_send", {2, 3, -1, -2, -3, -4, -5, -10, -32, LAST}},
    [TAKE] = {"mscp_take", {0, 1, -10, -32, LAST}},
    [BEGIN] = {"mscp_begin", {0, 1, -10, LAST}},
    [FINISH] = {"mscp_finish", {1, -6, -7, -10, -32, LAST}},
    [STEP] = {"mscp_step", {0, 1, -7, -10, LAST}},
    [LOOK] = {"mscp_look", {NUMBER, -10, LAST}},
    [SETTINGS] = {"mscp_settings", {126, 1, -10, LAST}},
    [WHY] = {"mscp_why", {NUMBER, -10, -32, LAST}},
    [FIGURE] = {"mscp_figure", {NUMBER, -10, -32, LAST}},
    [WAITING] = {"mscp_waiting", {NUMBER, -10, -32, LAST}},
    [UNTAKEN] = {"mscp_untaken", {NUMBER, -10, -32, LAST}},
    [BALANCE] = {"mscp_balance", {NUMBER, -10, -32, LAST}},
    [IS_ONLINE] = {"mscp_is_online", {NUMBER, -10, LAST}},
    [SAVE] = {"mscp_save", {1, -10, -15, LAST}},
    [RESTORE] = {"mscp_restore", {1, OF_PLACE, OF_BYTES, LAST}},
    [HOST_INIT] = {"mscp_host_init", {1, OF_MEMORY, -28, LAST}},
    [HOST_BALANCE] = {"mscp_host_balance", {NUMBER, -10, LAST}},
    [HOST_SUBMIT] = {"mscp_host_submit", {1, -1, -2, -3, -4, -5, -10, LAST}},
    [HOST_POLL] = {"mscp_host_poll", {0, 1, 4, -3, -5, -10, LAST}},
    [HOST_RECEIVE] = {"mscp_host_receive", {5, 6, 7, 8, 9, 10, -8, -9, -10, LAST}},
    [HOST_SAVE] = {"mscp_host_save", {1, -10, -15, LAST}},
    [HOST_RESTORE] = {"mscp_host_restore", {1, OF_PLACE, -40, -41, -42, -44, -46, -48, -54, -55, LAST}},
    [PORT_INIT] = {"mscp_port_init", {1, OF_MEMORY, OF_LIMITS, -33, -34, LAST}},
    [READ_IP] = {"mscp_port_read_ip", {1, -10, LAST}},
    [WRITE_IP] = {"mscp_port_write_ip", {1, -10, LAST}},
    [READ_SA] = {"mscp_port_read_sa", {NUMBER, -10, LAST}},
    [WRITE_SA] = {"mscp_port_write_sa", {1, -10, LAST}},
    [NEXT] = {"mscp_port_next", {0, 1, -10, LAST}},
    [NEXT_MESSAGE] = {"mscp_port_next_message", {0, 1, -10, LAST}},
    [WAS_READ] = {"mscp_port_was_read", {1, -10, -36, LAST}},
    [WENT] = {"mscp_port_went", {1, -10, -35, -36, LAST}},
    [LOOK_AGAIN] = {"mscp_port_look_again", {1, -10, LAST}},
    [TICK] = {"mscp_port_tick", {1, -10, LAST}},
    [CAME] = {"mscp_port_volume_came", {1, -10, -37, -38, LAST}},
    [GONE] = {"mscp_port_volume_went", {1, -10, -37, LAST}},
    [PROTECT] = {"mscp_port_protect", {1, -10, -37, LAST}},
    [HARDWARE] = {"mscp_port_hardware", {1, -10, LAST}},
    [STATE] = {"mscp_port_state", {1, -10, LAST}},
    [VOLUME] = {"mscp_port_volume", {1, -10, -37, LAST}},
    [BEGUN] = {"mscp_port_begun", {0, 1, -10, LAST}},
    [PORT_LOOK] = {"mscp_port_look", {NUMBER, -10, LAST}},
    [PORT_SETTINGS] = {"mscp_port_settings", {126, 1, -10, LAST}},
    [PORT_WHY] = {"mscp_port_why", {NUMBER, -10, -32, LAST}},
    [PORT_SAVE] = {"mscp_port_save", {1, -10, -15, LAST}},
    [PORT_RESTORE] = {"mscp_port_restore", {1, OF_PLACE, OF_BYTES, -56, LAST}},
    [RUN_SCRIPT] = {"mscp_run_script", {1, -15, -60, -61, -62, -63, -64, -65, -66, -67, -68, -69, -70, -71, -72, LAST}},
    [SHOW_PACKET] = {"mscp_show_packet", {1, -15, -73, -74, -75, -76, -77, LAST}},
};

static struct {
    uint64_t sum;
    unsigned long calls;
    unsigned long seen[CALLS][128]; /* by status + 100 */
} told = {UINT64_C(0xCBF29CE484222325), 0, {{0}}};

static inline void eat_bytes(const void *bytes, size_t length)
{
    for (size_t i = 0; i < length; i++)
        told.sum = (told.sum ^ ((const uint8_t *)bytes)[i]) * UINT64_C(0x100000001B3);
}

static inline void eat(uint64_t number)
{
    uint8_t bytes[8];
    for (int i = 0; i < 8; i++)
        bytes[i] = (uint8_t)(number >> (8 * i));
    eat_bytes(bytes, 8);
}

/* What a call answered. Each thousandth prints the sum, so that two outputs differ near where the calls do. */
static inline int64_t tell(enum call call, int64_t status)
{
    int is_number = TOLD[call].statuses[0] == 126;
    eat((uint64_t)call);
    eat((uint64_t)status);
    told.seen[call][(is_number && status > 0 ? 1 : status) + 100]++;
    if (++told.calls % 1000 == 0)
        printf("%lu calls: %016llx\n", told.calls, (unsigned long long)told.sum);
    return status;
}

static inline int is_told(enum call call, int status)
{
    const int8_t *it = TOLD[call].statuses;
    while (*it != LAST && *it != status)
        it++;
    return *it != LAST;
}

/* A line for each call, with each status that it answered and how often. Whether it answered each of which mscp.h tells,
 * and no other. */
static inline int all_were_seen(void)
{
    int wrong = 0;
    for (enum call call = 0; call < CALLS; call++) {
        printf("%s", TOLD[call].name);
        for (int status = -100; status < 28; status++) {
            unsigned long times = told.seen[call][status + 100];
            if (times > 0)
                printf(" %d:%lu", status, times);
            if ((times > 0) != is_told(call, status)) {
                printf(times > 0 ? " (not in mscp.h)" : " %d: never", status);
                wrong = 1;
            }
        }
        printf("\n");
    }
    printf("%lu calls: %016llx\n", told.calls, (unsigned long long)told.sum);
    return !wrong;
}
#endif
