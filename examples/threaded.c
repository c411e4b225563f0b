/* threaded.c: a disk on a thread of its own, for port.c. The machine goes on while a block is moved:
 *
 *     static void begin_read(void *machine, uint16_t unit, uint32_t block, uint64_t serial)
 *     {
 *         disk_begin(&disk, volumes[unit], block, NULL, serial);
 *     }
 *
 * and before each port_turn it calls disk_collect. Blocks are done in the order in which they were begun. One that the port wants no
 * more, as its command was aborted, say, is moved all the same: the port drops it by its serial. */
#include "threaded.h"
#include <string.h>

static struct disk_job *job_at(struct disk *disk, uint32_t number)
{
    return &disk->jobs[number % DISK_JOBS];
}

/* Takes the oldest job again and again, and moves its block without the lock. */
static void *work(void *it)
{
    struct disk *disk = it;
    pthread_mutex_lock(&disk->lock);
    while (!disk->ends || disk->moved != disk->begun) {
        if (disk->moved == disk->begun) {
            pthread_cond_wait(&disk->changed, &disk->lock);
            continue;
        }
        struct disk_job *job = job_at(disk, disk->moved);
        pthread_mutex_unlock(&disk->lock);
        job->went_well = disk->move(job);
        pthread_mutex_lock(&disk->lock);
        disk->moved++;
        pthread_cond_signal(&disk->changed);
    }
    pthread_mutex_unlock(&disk->lock);
    return NULL;
}

bool disk_open(struct disk *disk, bool (*move)(struct disk_job *job))
{
    memset(disk, 0, sizeof *disk);
    disk->move = move;
    return pthread_mutex_init(&disk->lock, NULL) == 0 && pthread_cond_init(&disk->changed, NULL) == 0 &&
           pthread_create(&disk->thread, NULL, work, disk) == 0;
}

/* If there is no room, the oldest job is waited for and forgotten: its port has begun others since. */
void disk_begin(struct disk *disk, void *volume, uint32_t block, const uint8_t *bytes, uint64_t serial)
{
    pthread_mutex_lock(&disk->lock);
    while (disk->begun - disk->told == DISK_JOBS && disk->moved == disk->told)
        pthread_cond_wait(&disk->changed, &disk->lock);
    if (disk->begun - disk->told == DISK_JOBS)
        disk->told++;
    struct disk_job *job = job_at(disk, disk->begun++);
    job->volume = volume;
    job->serial = serial;
    job->block = block;
    job->is_write = bytes != NULL;
    if (job->is_write)
        memcpy(job->bytes, bytes, MSCP_BLOCK);
    pthread_cond_signal(&disk->changed);
    pthread_mutex_unlock(&disk->lock);
}

void disk_collect(struct disk *disk, struct port *port)
{
    pthread_mutex_lock(&disk->lock);
    for (; disk->told != disk->moved; disk->told++) {
        const struct disk_job *job = job_at(disk, disk->told);
        port_moved(port, job->serial, job->went_well, job->is_write ? NULL : job->bytes);
    }
    pthread_mutex_unlock(&disk->lock);
}

void disk_close(struct disk *disk)
{
    pthread_mutex_lock(&disk->lock);
    disk->ends = true;
    pthread_cond_signal(&disk->changed);
    pthread_mutex_unlock(&disk->lock);
    pthread_join(disk->thread, NULL);
    pthread_cond_destroy(&disk->changed);
    pthread_mutex_destroy(&disk->lock);
}
