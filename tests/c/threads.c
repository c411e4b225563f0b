/* One controller in the hands of several threads, which take turns under a lock. Each sends READs, serves whatever comes
 * next, and takes ends, whosesoever they are. Prints what is wrong, and ends with 1 where something is. */
#include "trying.h"
#include <pthread.h>

enum { THREADS = 4, TURNS = 2000, CREDITS = 64 };

static pthread_mutex_t lock = PTHREAD_MUTEX_INITIALIZER;
static pthread_cond_t next = PTHREAD_COND_INITIALIZER;
static uint32_t turn; /* how many there were: whose is next is what is left of it by THREADS */
static struct mscp *mscp;
static uint32_t queued[THREADS], ended[THREADS]; /* READs of each thread */
static uint32_t steps;

/* Serves a block, and takes the oldest end, if there is one. */
static void serve(void)
{
    struct mscp_report report;
    struct mscp_packet end;
    if (mscp_step(mscp, 0, &report) == MSCP_DONE)
        steps++;
    if (mscp_take(mscp, FIRST, &end) == MSCP_DONE) {
        is("a good READ", end.length == 32 && end.bytes[8] == 0xA1 && number(end.bytes + 10, 2) == 0, 1);
        ended[end.bytes[3] % THREADS]++;
    }
}

/* A turn of this thread, whose number is the highest byte of its READs' numbers. */
static void take_turn(uint32_t thread)
{
    struct mscp_sent sent;
    uint32_t reference = thread << 24 | turn;
    int32_t status = mscp_send(mscp, FIRST, command(reference, MSCP_READ, 1024, turn * 7 % 900), 32, &sent);
    is("queued, or no credit", status == MSCP_QUEUED || status == MSCP_LAST_CREDIT, 1);
    if (status == MSCP_QUEUED)
        queued[thread]++;
    serve();
    is("balance", mscp_balance(mscp, FIRST) + mscp_waiting(mscp, FIRST) + mscp_untaken(mscp, FIRST), CREDITS);
}

static void *run(void *own)
{
    uint32_t thread = *(const uint32_t *)own;
    for (uint32_t i = 0; i < TURNS; i++) {
        pthread_mutex_lock(&lock);
        while (turn % THREADS != thread)
            pthread_cond_wait(&next, &lock);
        take_turn(thread);
        turn++;
        pthread_cond_broadcast(&next);
        pthread_mutex_unlock(&lock);
    }
    return NULL;
}

static void bring_online(void)
{
    struct mscp_sent sent;
    struct mscp_report report;
    struct mscp_packet end;
    is("online", mscp_send(mscp, FIRST, command(1, MSCP_ONLINE, 0, 0), 12, &sent), MSCP_QUEUED);
    is("step", mscp_step(mscp, 0, &report), MSCP_DONE);
    is("take", mscp_take(mscp, FIRST, &end), MSCP_DONE);
}

int main(void)
{
    static const struct mscp_unit UNIT = {1, 1000, 0, 1, 0, 10, 2, 1};
    static const struct mscp_limits LIMITS = {1, 16, CREDITS, 0, 8, 60};
    static MSCP_ALIGNED uint64_t memory[(MSCP_HEAD + MSCP_SIZE) / sizeof(uint64_t)];
    pthread_t threads[THREADS];
    uint32_t numbers[THREADS];
    mscp = mscp_in_memory(memory, sizeof memory);
    is("init", mscp_init(mscp, &LIMITS, &UNIT, 1, MSCP_SWEEP), MSCP_DONE);
    bring_online();
    for (uint32_t i = 0; i < THREADS; i++) {
        numbers[i] = i;
        if (pthread_create(&threads[i], NULL, run, &numbers[i]) != 0)
            return 2;
    }
    for (uint32_t i = 0; i < THREADS; i++)
        pthread_join(threads[i], NULL);
    while (mscp_waiting(mscp, FIRST) + mscp_untaken(mscp, FIRST) > 0)
        serve();
    uint32_t all = 0;
    for (uint32_t i = 0; i < THREADS; i++) {
        is("some of each thread", queued[i] > 0, 1);
        is("each READ has ended", ended[i], queued[i]);
        all += queued[i];
    }
    is("two steps each", steps, 2 * all);
    return wrong;
}
