/* threaded.h: see threaded.c. */
#ifndef THREADED_H
#define THREADED_H
#include "port.h"
#include <pthread.h>

#define DISK_JOBS 16u /* blocks that are begun and not reported yet, of which the port wants the last at most */

/* A block that is to be moved: of what volume is the machine's to say. */
struct disk_job {
    void *volume;
    uint64_t serial;
    uint32_t block;
    bool is_write, went_well;
    uint8_t bytes[MSCP_BLOCK];
};

struct disk {
    bool (*move)(struct disk_job *job); /* on the thread; whether it went well */
    pthread_t thread;
    pthread_mutex_t lock;
    pthread_cond_t changed;
    bool ends;
    uint32_t begun, moved, told; /* how many jobs were */
    struct disk_job jobs[DISK_JOBS];
};

/* Starts the thread. Whether it could be. */
bool disk_open(struct disk *disk, bool (*move)(struct disk_job *job));

/* A block is begun, for the machine's begin_read, or with bytes for its begin_write. */
void disk_begin(struct disk *disk, void *volume, uint32_t block, const uint8_t *bytes, uint64_t serial);

/* Each block that was moved is reported to the port. Before each turn of it, in the machine's own thread. */
void disk_collect(struct disk *disk, struct port *port);

/* Waits until all that was begun is moved, and for the end of the thread. */
void disk_close(struct disk *disk);
#endif
