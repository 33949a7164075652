/* The queue of catalogues, and the threads that work on it. The largest come first, so that no thread is left with a long
 * one at the end. A thread has one text at a time in memory, so that -j bounds the memory as well. */
#include "compile.h"

#include <pthread.h>
#include <signal.h>
#include <stdlib.h>

enum { FEW_BYTES = 1 << 18 }; /* of texts in all, for which it isn't worth while to start threads */
enum { TICK = 100000000 };    /* nanoseconds between two looks at the progress */

struct queue {
    struct run *run;
    struct catalogue **order;
    size_t count;
    atomic_size_t next;
    pthread_mutex_t lock; /* for `working` */
    pthread_cond_t ended;
    unsigned working;
};

static int by_size(const void *one, const void *two) {
    const struct catalogue *const *first = one, *const *second = two;
    return ((*first)->size < (*second)->size) - ((*first)->size > (*second)->size);
}

/* List the catalogues that need it. Returns the bytes of their texts. */
static off_t fill(struct queue *queue, struct catalogues *all) {
    off_t bytes = 0;
    queue->order = malloc((all->count + 1) * sizeof *queue->order);
    if (!queue->order)
        stop_for_memory();
    for (size_t place = 0; place < all->count; place++)
        if (all->at[place].outcome == WAITING) {
            queue->order[queue->count++] = &all->at[place];
            bytes += all->at[place].size;
        }
    qsort(queue->order, queue->count, sizeof *queue->order, by_size);
    return bytes;
}

static void work(struct queue *queue) {
    for (size_t place; !stopped_by && (place = atomic_fetch_add(&queue->next, 1)) < queue->count;) {
        compile_one(queue->run, queue->order[place]);
        atomic_fetch_add(&queue->run->finished, 1);
    }
}

static void *work_in_thread(void *argument) {
    struct queue *queue = argument;
    work(queue);
    pthread_mutex_lock(&queue->lock);
    queue->working--;
    pthread_cond_signal(&queue->ended);
    pthread_mutex_unlock(&queue->lock);
    return NULL;
}

/* Start threads, for which signals are blocked: the first thread has them. Returns how many there are. */
static unsigned start_threads(struct queue *queue, pthread_t *threads, unsigned most) {
    sigset_t all, before;
    unsigned count = 0;
    sigfillset(&all);
    pthread_sigmask(SIG_SETMASK, &all, &before);
    queue->working = most;
    while (count < most && pthread_create(&threads[count], NULL, work_in_thread, queue) == 0)
        count++;
    pthread_sigmask(SIG_SETMASK, &before, NULL);
    pthread_mutex_lock(&queue->lock);
    queue->working -= most - count;
    pthread_mutex_unlock(&queue->lock);
    return count;
}

/* Show the progress until all threads have ended. */
static void wait_for_threads(struct queue *queue) {
    pthread_mutex_lock(&queue->lock);
    while (queue->working) {
        struct timespec until;
        clock_gettime(CLOCK_REALTIME, &until);
        until.tv_nsec += TICK;
        if (until.tv_nsec >= 1000000000) {
            until.tv_sec++;
            until.tv_nsec -= 1000000000;
        }
        pthread_cond_timedwait(&queue->ended, &queue->lock, &until);
        show_progress(queue->run);
    }
    pthread_mutex_unlock(&queue->lock);
    clear_progress();
}

void compile_all(struct run *run) {
    struct queue queue = {.run = run};
    off_t bytes = fill(&queue, &run->catalogues);
    unsigned jobs = run->options.jobs < queue.count ? run->options.jobs : (unsigned)queue.count;
    bool has_others = jobs > 1 || has_progress(); /* (this thread shows the progress of one as well) */
    pthread_t *threads = has_others && bytes > FEW_BYTES ? malloc(jobs * sizeof *threads) : NULL;
    pthread_mutex_init(&queue.lock, NULL);
    pthread_cond_init(&queue.ended, NULL);
    unsigned count = threads ? start_threads(&queue, threads, jobs) : 0;
    if (count == 0) /* (also if no thread can be started) */
        work(&queue);
    else if (has_progress())
        wait_for_threads(&queue);
    for (unsigned place = 0; place < count; place++)
        pthread_join(threads[place], NULL);
    free(threads);
    free(queue.order);
}
