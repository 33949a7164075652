/* Times the live store of libkobdzila, next to other ways to replace catalogues while threads look up: a set behind a
 * pthread_rwlock, behind a pthread_mutex and behind liburcu (with -DWITH_URCU), and glibc's dcgettext. Run by
 * bench/live/run.
 *
 *   bench FOLDER SECONDS            all of it
 *   bench FOLDER SECONDS dcgettext  the look-ups a second of dcgettext alone, of 1 thread and of 16
 *
 * FOLDER has xx/LC_MESSAGES/bench.mo, with the messages `message 0` to `message 99`; LANGUAGE is xx, and the locale one
 * in UTF-8. Each measurement takes SECONDS. */
#define _GNU_SOURCE
#include "kobdzila.h"

#include <libintl.h>
#include <locale.h>
#include <pthread.h>
#include <stdalign.h>
#include <stdatomic.h>
#include <stdio.h>
#include <stdlib.h>
#include <string.h>
#include <time.h>
#ifdef WITH_URCU
#include <urcu.h>
#endif

#define MESSAGES 100
#define MOST_THREADS 16
#define CATALOGUES 10
#define ROUNDS 5

static double seconds;
static kob_catalogue *catalogues[CATALOGUES]; /* of one file: no two rows of the smallest set share one */
static kob_text domain = { "bench", 5 }, languages = { "xx", 2 }, none, ids[MESSAGES];
static char id_bytes[MESSAGES][20];
static atomic_int ended;

static double now(void) {
    struct timespec t;
    clock_gettime(CLOCK_MONOTONIC, &t);
    return (double)t.tv_sec + (double)t.tv_nsec / 1e9;
}

static void pause_for(double time) {
    struct timespec pause = { (time_t)time, (long)((time - (double)(time_t)time) * 1e9) };
    nanosleep(&pause, NULL);
}

static void need(const char *what, int holds) {
    if (!holds) {
        fprintf(stderr, "%s failed\n", what);
        exit(1);
    }
}

static inline size_t look_in(const kob_set *set, unsigned i) {
    return kob_set_find(set, domain, languages, none, ids[i % MESSAGES], NULL).len;
}

/* ---- the ways: each looks up by a thread, and publishes */

static kob_store *store;
static kob_set *_Atomic shown;
static pthread_rwlock_t rwlock = PTHREAD_RWLOCK_INITIALIZER;
static pthread_mutex_t mutex = PTHREAD_MUTEX_INITIALIZER;

struct thread {
    alignas(128) pthread_t id; /* no two threads write to one cache line, nor to two that the processor fetches as a pair */
    const struct way *way;
    kob_reader *reader;
    unsigned long count, late, sum;
};

static size_t look_set(struct thread *me, unsigned i) {
    (void)me;
    return look_in(atomic_load_explicit(&shown, memory_order_relaxed), i);
}

static size_t look_store(struct thread *me, unsigned i) { return look_in(kob_reader_enter(me->reader), i); }

static size_t look_and_leave(struct thread *me, unsigned i) {
    size_t found = look_store(me, i);
    kob_reader_leave(me->reader);
    return found;
}

static size_t look_rwlock(struct thread *me, unsigned i) {
    (void)me;
    pthread_rwlock_rdlock(&rwlock);
    size_t len = look_in(atomic_load_explicit(&shown, memory_order_relaxed), i);
    pthread_rwlock_unlock(&rwlock);
    return len;
}

static size_t look_mutex(struct thread *me, unsigned i) {
    (void)me;
    pthread_mutex_lock(&mutex);
    size_t len = look_in(atomic_load_explicit(&shown, memory_order_relaxed), i);
    pthread_mutex_unlock(&mutex);
    return len;
}

static size_t look_dcgettext(struct thread *me, unsigned i) {
    (void)me;
    return (unsigned char)*dcgettext("bench", ids[i % MESSAGES].at, LC_MESSAGES);
}

static void publish_store(void) {
    need("load", kob_store_load(store, "bench", "xx", catalogues[0], NULL));
    while (!kob_store_publish(store, NULL)) {
    }
}

static kob_set *next_set(void) {
    kob_set *next = kob_set_with(atomic_load(&shown), "bench", "xx", catalogues[0], NULL);
    need("set", next != NULL);
    return next;
}

static void publish_rwlock(void) {
    kob_set *next = next_set();
    pthread_rwlock_wrlock(&rwlock);
    kob_set *last = atomic_exchange(&shown, next);
    pthread_rwlock_unlock(&rwlock);
    kob_set_release(last);
}

static void publish_mutex(void) {
    kob_set *next = next_set();
    pthread_mutex_lock(&mutex);
    kob_set *last = atomic_exchange(&shown, next);
    pthread_mutex_unlock(&mutex);
    kob_set_release(last);
}

#ifdef WITH_URCU
static size_t look_urcu(struct thread *me, unsigned i) {
    (void)me;
    rcu_read_lock();
    size_t len = look_in(atomic_load_explicit(&shown, memory_order_consume), i);
    rcu_read_unlock();
    return len;
}

static void publish_urcu(void) {
    kob_set *last = atomic_exchange(&shown, next_set());
    synchronize_rcu();
    kob_set_release(last);
}
#endif

struct way {
    const char *name;
    size_t (*look)(struct thread *me, unsigned i);
    void (*publish)(void);
};
static const struct way set_alone = { "kob_set_find", look_set, NULL };
static const struct way ways[] = {
    { "kob_store", look_store, publish_store },
    { "and leaving", look_and_leave, publish_store },
    { "pthread_rwlock", look_rwlock, publish_rwlock },
    { "pthread_mutex", look_mutex, publish_mutex },
#ifdef WITH_URCU
    { "liburcu", look_urcu, publish_urcu },
#endif
    { "dcgettext", look_dcgettext, NULL },
};

/* ---- threads that look up */

static void begin(struct thread *me) {
#ifdef WITH_URCU
    rcu_register_thread();
#endif
    me->reader = kob_store_reader(store);
    need("reader", me->reader != NULL);
}

static void end(struct thread *me) {
    kob_reader_free(me->reader);
#ifdef WITH_URCU
    rcu_unregister_thread();
#endif
}

static void *look_up(void *arg) {
    struct thread *me = arg;
    begin(me);
    while (!atomic_load_explicit(&ended, memory_order_relaxed)) {
        for (unsigned i = 0; i < MESSAGES; i++)
            me->sum += me->way->look(me, i);
        me->count += MESSAGES;
    }
    end(me);
    return NULL;
}

/* Times each look-up, and counts those that take more than 50 µs. */
static void *look_up_timed(void *arg) {
    struct thread *me = arg;
    begin(me);
    double last = now();
    while (!atomic_load_explicit(&ended, memory_order_relaxed)) {
        me->sum += me->way->look(me, (unsigned)me->count++);
        double time = now();
        me->late += time - last > 50e-6;
        last = time;
    }
    end(me);
    return NULL;
}

/* What the threads and a publisher have done; `rate` is how often a second it publishes, or 0 for never, or -1 for
 * all the time. */
struct done {
    double look_ups, late, publishes; /* the first and the last a second, `late` a share */
};

static void *end_in_time(void *arg) {
    pause_for(seconds);
    atomic_store(&ended, 1);
    return arg;
}

static unsigned long publish_until_the_end(const struct way *way, double rate) {
    unsigned long publishes = 0;
    while (!atomic_load(&ended)) {
        if (rate != 0 && way->publish) {
            way->publish();
            publishes++;
        }
        if (rate >= 0)
            pause_for(rate > 0 ? 1 / rate : seconds / 20);
    }
    return publishes;
}

static struct done run(const struct way *way, void *(*work)(void *), int count, double rate) {
    static struct thread threads[MOST_THREADS];
    pthread_t ending;
    atomic_store(&ended, 0);
    double start = now();
    for (int i = 0; i < count; i++) {
        threads[i] = (struct thread){ .way = way };
        pthread_create(&threads[i].id, NULL, work, &threads[i]);
    }
    /* (not this thread: one that waits for a lock of readers may wait until they end) */
    pthread_create(&ending, NULL, end_in_time, NULL);
    unsigned long publishes = publish_until_the_end(way, rate);
    pthread_join(ending, NULL);
    double look_ups = 0, late = 0;
    for (int i = 0; i < count; i++) {
        pthread_join(threads[i].id, NULL);
        look_ups += (double)threads[i].count;
        late += (double)threads[i].late;
    }
    double time = now() - start;
    return (struct done){ look_ups / time, look_ups > 0 ? late / look_ups : 0, (double)publishes / time };
}

/* ---- what is measured */

static void *once(void *arg) {
    struct thread *me = arg;
    enum { TIMES = 10000 };
    begin(me);
    double best = 1e9;
    for (int round = 0; round < 40; round++) {
        double start = now();
        for (unsigned i = 0; i < TIMES; i++)
            me->sum += me->way->look(me, i);
        double time = (now() - start) / TIMES;
        best = time < best ? time : best;
    }
    me->count = (unsigned long)(best * 1e12);
    end(me);
    return NULL;
}

/* The nanoseconds of one look-up in one thread, the best of many rounds. */
static double alone(const struct way *way) {
    struct thread thread = { .way = way };
    pthread_create(&thread.id, NULL, once, &thread);
    pthread_join(thread.id, NULL);
    return (double)thread.count / 1000;
}

/* How many times the look-ups of one thread 16 threads make, the best of many rounds of each. */
static double scaling(const struct way *way) {
    double one = 0, many = 0;
    for (int round = 0; round < ROUNDS; round++) {
        double a = run(way, look_up, 1, 0).look_ups, b = run(way, look_up, MOST_THREADS, 0).look_ups;
        one = a > one ? a : one;
        many = b > many ? b : many;
    }
    return many / one;
}

static void entries(void) {
    double bare = 1e9, entered = 1e9;
    for (int round = 0; round < ROUNDS; round++) {
        double a = alone(&set_alone), b = alone(&ways[0]);
        bare = a < bare ? a : bare;
        entered = b < entered ? b : entered;
    }
    printf("an entry without news and a look-up: %.1f ns, kob_set_find alone %.1f: %.1f more (wanted: 5 at most)\n",
           entered, bare, entered - bare);
    printf("%d threads: %.2f times the look-ups of one thread (wanted: 3.8 on four free cores)", MOST_THREADS,
           scaling(&ways[0]));
    printf("; %.2f times those of kob_set_find alone\n", scaling(&set_alone));
}

static void late_entries(void) {
    struct done done = run(&ways[0], look_up_timed, 3, 1000);
    printf("3 threads beside %.0f publishes a second: %.4f %% of the entries above 50 us (wanted: 0.01 at most)\n",
           done.publishes, 100 * done.late);
}

/* A store and a set with `rows` catalogues. */
static void fill(int rows) {
    char locale[20];
    store = kob_store_new();
    kob_set *set = kob_set_new();
    for (int i = 0; i < rows; i++) {
        snprintf(locale, sizeof locale, i ? "l%d" : "xx", i);
        need("load", kob_store_load(store, "bench", locale, catalogues[i % CATALOGUES], NULL));
        kob_set *more = kob_set_with(set, "bench", locale, catalogues[i % CATALOGUES], NULL);
        kob_set_release(set);
        set = more;
    }
    need("publish", kob_store_publish(store, NULL));
    atomic_store(&shown, set);
}

static void empty(void) {
    kob_store_free(store);
    kob_set_release(atomic_load(&shown));
}

static void publishes(void) {
    static const int counts[] = { 10, 200, 2000 };
    for (size_t i = 0; i < sizeof counts / sizeof *counts; i++) {
        fill(counts[i]);
        printf("a load and a publish, %d catalogues: %.2f us\n", counts[i],
               1e6 / run(&ways[0], look_up, 0, -1).publishes);
        empty();
    }
}

/* The nanoseconds of a look-up in the set of a reader's entry, the best of many rounds: by the list of languages
 * `name`, and by one that was looked at before. */
static void look_among(const kob_set *set, const char *name, double *by_text, double *by_list) {
    enum { TIMES = 2000, TRIES = 400 };
    kob_text names = { name, strlen(name) };
    kob_languages list = kob_set_languages(set, domain, names);
    size_t sum = 0;
    *by_text = *by_list = 1e9;
    for (int round = 0; round < TRIES; round++) {
        double start = now();
        for (unsigned i = 0; i < TIMES; i++)
            sum += kob_set_find(set, domain, names, none, ids[i % MESSAGES], NULL).len;
        double middle = now();
        for (unsigned i = 0; i < TIMES; i++)
            sum += kob_languages_find(&list, none, ids[i % MESSAGES], NULL).len;
        double end = now(), text = 1e9 * (middle - start) / TIMES, listed = 1e9 * (end - middle) / TIMES;
        *by_text = text < *by_text ? text : *by_text;
        *by_list = listed < *by_list ? listed : *by_list;
    }
    need("look-ups", sum > 0);
}

static void look_ups_among_many(void) {
    static const int counts[] = { 10, 100, 2000, 20000 };
    for (size_t i = 0; i < sizeof counts / sizeof *counts; i++) {
        fill(counts[i]);
        kob_reader *reader = kob_store_reader(store);
        double by_text, by_list;
        look_among(kob_reader_enter(reader), "l5", &by_text, &by_list);
        printf("a look-up among %d catalogues: %.1f ns, in a list of languages %.1f\n", counts[i], by_text, by_list);
        kob_reader_free(reader);
        empty();
    }
}

static int by_size(const void *a, const void *b) {
    double x = *(const double *)a, y = *(const double *)b;
    return (x > y) - (x < y);
}

/* The median of what a publish of one load takes, in microseconds, while `readers` readers enter by turns: with three,
 * one of them is in each of the versions before. The loads replace catalogues of all runs of the set. */
static double median_publish(int rows, int readers) {
    enum { MOST_READERS = 3, TIMES = 2000 };
    static double times[TIMES];
    kob_reader *entering[MOST_READERS];
    for (int i = 0; i < readers; i++) {
        entering[i] = kob_store_reader(store);
        need("reader", entering[i] != NULL);
    }
    for (int n = 0; n < TIMES; n++) {
        char locale[20];
        snprintf(locale, sizeof locale, "l%d", 1 + n * 1709 % (rows - 1));
        need("load", kob_store_load(store, "bench", locale, catalogues[n % CATALOGUES], NULL));
        double start = now();
        need("publish", kob_store_publish(store, NULL));
        times[n] = 1e6 * (now() - start);
        if (readers)
            kob_reader_enter(entering[n % readers]);
    }
    for (int i = 0; i < readers; i++)
        kob_reader_free(entering[i]);
    qsort(times, TIMES, sizeof *times, by_size);
    return times[TIMES / 2];
}

static void publishes_by_turns(void) {
    static const int counts[] = { 10, 200, 2000, 20000 };
    for (size_t i = 0; i < sizeof counts / sizeof *counts; i++) {
        fill(counts[i]);
        double alone = median_publish(counts[i], 0), beside = median_publish(counts[i], 3);
        printf("a publish of one load, %d catalogues: %.1f us, and %.1f with three readers that enter by turns"
               " (wanted: 10 at most)\n", counts[i], alone, beside);
        empty();
    }
}

static void compare(void) {
    size_t count = sizeof ways / sizeof *ways;
    printf("look-ups a second as a multiple of kob_store's, and publishes a second\n");
    printf("%-16s %10s %10s %14s %24s\n", "", "1 thread", "16 threads", "1,000 a second", "publishes all the time");
    double base[3] = { 1, 1, 1 };
    for (size_t i = 0; i < count; i++) {
        double got[3] = { run(&ways[i], look_up, 1, 0).look_ups, run(&ways[i], look_up, MOST_THREADS, 0).look_ups,
                          run(&ways[i], look_up, MOST_THREADS, 1000).look_ups };
        if (i == 0)
            memcpy(base, got, sizeof base);
        printf("%-16s %10.2f %10.2f", ways[i].name, got[0] / base[0], got[1] / base[1]);
        if (ways[i].publish) {
            struct done done = run(&ways[i], look_up, MOST_THREADS, -1);
            printf(" %14.2f %12.0f, look-ups %.2f\n", got[2] / base[2], done.publishes, done.look_ups / base[1]);
        } else
            printf(" %14s %12s\n", "-", "-");
        fflush(stdout);
    }
    printf("(wanted: 100,000 publishes a second of kob_store)\n");
}

static void dcgettext_alone(void) {
    const struct way *way = &ways[sizeof ways / sizeof *ways - 1];
    double one = 0, many = 0;
    for (int round = 0; round < ROUNDS; round++) {
        double a = run(way, look_up, 1, 0).look_ups, b = run(way, look_up, MOST_THREADS, 0).look_ups;
        one = a > one ? a : one;
        many = b > many ? b : many;
    }
    printf("%.0f %.0f\n", one, many);
}

int main(int argc, char **argv) {
    if ((argc != 3 && argc != 4) || !setlocale(LC_ALL, ""))
        return 2;
    char name[4096];
    seconds = atof(argv[2]);
    snprintf(name, sizeof name, "%s/xx/LC_MESSAGES/bench.mo", argv[1]);
    for (int i = 0; i < CATALOGUES; i++) {
        catalogues[i] = kob_open_file(name, KOB_MO, 0, NULL);
        need(name, catalogues[i] != NULL);
    }
    bindtextdomain("bench", argv[1]);
    for (int i = 0; i < MESSAGES; i++) {
        ids[i] = (kob_text){ id_bytes[i], (size_t)snprintf(id_bytes[i], sizeof id_bytes[i], "message %d", i) };
        need("dcgettext", dcgettext("bench", id_bytes[i], LC_MESSAGES) != id_bytes[i]);
    }
#ifdef WITH_URCU
    rcu_register_thread();
#endif
    fill(10);
    if (argc == 4)
        dcgettext_alone();
    else {
        entries();
        late_entries();
        compare();
    }
    empty();
    if (argc == 3) {
        publishes();
        publishes_by_turns();
        look_ups_among_many();
    }
    for (int i = 0; i < CATALOGUES; i++)
        kob_release(catalogues[i]);
    return 0;
}
