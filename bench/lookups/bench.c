/* Look-ups by libkobdzila, beside glibc's dcgettext in the same MO file. Run by bench/lookups/run.
 *
 *   bench FOLDER TURNS          the table
 *   bench FOLDER TURNS DOMAIN   the picoseconds of one of our look-ups alone, the best of TURNS
 */
#include "kobdzila.h"

#include <libintl.h>
#include <locale.h>
#include <pthread.h>
#include <stdint.h>
#include <stdio.h>
#include <stdlib.h>
#include <string.h>
#include <time.h>

#define MOST_THREADS 4
#define AT_ONCE 50 /* texts of a web page */

struct text {
    unsigned char *bytes;
    size_t len;
};

/* One domain: the catalogue of its MO file, its msgids, one a line, and the same with NULs. */
struct domain {
    const char *name;
    kob_catalogue *catalogue;
    struct text ids;
    const char **list;
    size_t count;
    uint64_t rounds;
};

struct job {
    const struct domain *domain;
    uint64_t rounds, sum;
};

static double now(void) {
    struct timespec t;
    clock_gettime(CLOCK_MONOTONIC, &t);
    return t.tv_sec * 1e9 + t.tv_nsec;
}

static struct text read_text(const char *name) {
    FILE *f = fopen(name, "rb");
    if (!f) {
        perror(name);
        exit(1);
    }
    fseek(f, 0, SEEK_END);
    struct text text = { NULL, (size_t)ftell(f) };
    rewind(f);
    text.bytes = malloc(text.len + 1);
    if (fread(text.bytes, 1, text.len, f) != text.len)
        exit(1);
    text.bytes[text.len] = 0;
    fclose(f);
    return text;
}

static void split(struct domain *d) {
    char *copy = malloc(d->ids.len + 1);
    memcpy(copy, d->ids.bytes, d->ids.len + 1);
    d->list = malloc(d->count * sizeof *d->list);
    size_t n = 0;
    for (char *line = strtok(copy, "\n"); line && n < d->count; line = strtok(NULL, "\n"))
        d->list[n++] = line;
    d->count = n;
}

static void *ours(void *arg) {
    struct job *j = arg;
    const struct domain *d = j->domain;
    uint64_t sum = 0;
    for (uint64_t r = 0; r < j->rounds; r++)
        for (size_t i = 0; i < d->count; i++)
            sum += (unsigned char)*kob_gettext(d->catalogue, d->list[i]);
    j->sum = sum;
    return NULL;
}

/* Our look-ups, AT_ONCE texts in one call. */
static void *ours_at_once(void *arg) {
    struct job *j = arg;
    const struct domain *d = j->domain;
    kob_question questions[AT_ONCE] = { 0 };
    kob_text answers[AT_ONCE];
    uint64_t sum = 0;
    for (uint64_t r = 0; r < j->rounds; r++)
        for (size_t i = 0; i < d->count; i += AT_ONCE) {
            size_t n = d->count - i < AT_ONCE ? d->count - i : AT_ONCE;
            for (size_t k = 0; k < n; k++)
                questions[k].msgid = (kob_text){ d->list[i + k], strlen(d->list[i + k]) };
            kob_find_many(d->catalogue, questions, n, answers);
            for (size_t k = 0; k < n; k++)
                sum += (unsigned char)*answers[k].at;
        }
    j->sum = sum;
    return NULL;
}

static void *glibc(void *arg) {
    struct job *j = arg;
    const struct domain *d = j->domain;
    uint64_t sum = 0;
    for (uint64_t r = 0; r < j->rounds; r++)
        for (size_t i = 0; i < d->count; i++)
            sum += (unsigned char)*dcgettext(d->name, d->list[i], LC_MESSAGES);
    j->sum = sum;
    return NULL;
}

/* The time of `threads` threads that each do all rounds. */
static double timed(void *(*work)(void *), const struct domain *d, uint64_t rounds, int threads, uint64_t *sum) {
    struct job jobs[MOST_THREADS];
    pthread_t ids[MOST_THREADS];
    double start = now();
    for (int i = 0; i < threads; i++) {
        jobs[i] = (struct job){ d, rounds, 0 };
        if (threads == 1)
            work(&jobs[i]);
        else
            pthread_create(&ids[i], NULL, work, &jobs[i]);
    }
    for (int i = 0; threads > 1 && i < threads; i++)
        pthread_join(ids[i], NULL);
    double time = now() - start;
    *sum = jobs[0].sum;
    return time;
}

static int compare(void *(*work)(void *), const struct domain *d, int threads, int turns, double target) {
    double best_ours = 1e18, best_glibc = 1e18;
    uint64_t a = 0, b = 0;
    timed(glibc, d, 1, 1, &b);
    for (int turn = 0; turn < turns; turn++) {
        double t = timed(work, d, d->rounds, threads, &a);
        if (t < best_ours) best_ours = t;
        t = timed(glibc, d, d->rounds, threads, &b);
        if (t < best_glibc) best_glibc = t;
    }
    double per = (double)d->rounds * (double)d->count;
    double mine = best_ours / per, theirs = best_glibc / per;
    printf("%8zu %8d %10.1f %10.1f %8.2f %8.1f%s\n", d->count, threads, mine, theirs, theirs / mine, target, a == b ? "" : "  OTHER ANSWERS");
    fflush(stdout);
    return a != b;
}

/* Opens the catalogue of a domain, and reads its msgids; tells how long the first took, where it is asked to. */
static int open_domain(struct domain *d, const char *folder, int tell) {
    char name[4096];
    snprintf(name, sizeof name, "%s/xx/LC_MESSAGES/%s.mo", folder, d->name);
    double start = now();
    d->catalogue = kob_open_file(name, KOB_MO, 0, NULL);
    if (!d->catalogue) {
        fprintf(stderr, "%s: not opened\n", name);
        return 1;
    }
    if (tell)
        printf("%s: opened in %.2f ms\n", d->name, (now() - start) / 1e6);
    snprintf(name, sizeof name, "%s/%s.ids", folder, d->name);
    d->ids = read_text(name);
    split(d);
    return 0;
}

/* Prints how long one of our look-ups takes in one thread. */
static int tell_ours(struct domain *d, const char *folder, int turns) {
    if (open_domain(d, folder, 0))
        return 1;
    double best = 1e18;
    uint64_t sum;
    for (int turn = 0; turn < turns; turn++) {
        double t = timed(ours, d, d->rounds, 1, &sum);
        if (t < best) best = t;
    }
    printf("%.0f ps\n", 1000 * best / ((double)d->rounds * (double)d->count));
    return 0;
}

int main(int argc, char **argv) {
    if (argc != 3 && argc != 4)
        return 2;
    const char *folder = argv[1];
    int turns = atoi(argv[2]);
    struct domain domains[] = {
        { "m100", NULL, { 0 }, NULL, 100, 5000 },
        { "m5000", NULL, { 0 }, NULL, 5000, 60 },
        { "m80000", NULL, { 0 }, NULL, 80000, 3 },
    };
    const double targets[] = { 1.0, 2.0, 3.0 }, with_threads[] = { 3.0, 5.0, 10.0 }, at_once[] = { 1.0, 5.0, 5.0 };
    int bad = 0;
    if (!setlocale(LC_ALL, "C.UTF-8")) {
        fprintf(stderr, "no locale C.UTF-8\n");
        return 1;
    }
    for (int i = 0; argc == 4 && i < 3; i++)
        if (strcmp(argv[3], domains[i].name) == 0)
            return tell_ours(&domains[i], folder, turns);
    for (int i = 0; i < 3; i++) {
        struct domain *d = &domains[i];
        bindtextdomain(d->name, folder);
        if (open_domain(d, folder, 1))
            return 1;
        if (dcgettext(d->name, d->list[0], LC_MESSAGES) == d->list[0]) {
            fprintf(stderr, "glibc doesn't translate\n");
            return 1;
        }
    }
    printf("ns a look-up, best of %d\nmessages  threads       ours  dcgettext    ratio   wanted\n", turns);
    for (int i = 0; i < 3; i++)
        bad |= compare(ours, &domains[i], 1, turns, targets[i]);
    for (int i = 0; i < 3; i++)
        bad |= compare(ours, &domains[i], MOST_THREADS, turns, with_threads[i]);
    printf("the same, %d texts at once\n", AT_ONCE);
    for (int i = 1; i < 3; i++)
        bad |= compare(ours_at_once, &domains[i], 1, turns, at_once[i]);
    for (int i = 1; i < 3; i++)
        bad |= compare(ours_at_once, &domains[i], MOST_THREADS, turns, at_once[i]);
    return bad;
}
