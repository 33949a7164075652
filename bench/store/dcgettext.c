/* Queries to glibc's dcgettext in 20 text domains, one for each language of crates/bench_calls, with the same
   messages in the same order: dcgettext FOLDER MESSAGES ROUNDS [MEMBERS]. Where it is told how many members the list in
   LANGUAGE has, it runs in one thread alone, and prints that number. Run by bench/store/run. */
#include <libintl.h>
#include <locale.h>
#include <pthread.h>
#include <stdint.h>
#include <stdio.h>
#include <stdlib.h>
#include <string.h>
#include <time.h>

#define LANGUAGES 20
#define MOST_THREADS 16

struct query {
    char domain[16], id[32], wanted[64];
};

static struct query *queries;
static size_t count, rounds;

static double now(void) {
    struct timespec t;
    clock_gettime(CLOCK_MONOTONIC, &t);
    return t.tv_sec * 1e9 + t.tv_nsec;
}

static void *ask_all(void *arg) {
    size_t *lost = arg;
    for (size_t r = 0; r < rounds; r++)
        for (size_t i = 0; i < count; i++)
            if (!*dcgettext(queries[i].domain, queries[i].id, LC_MESSAGES))
                ++*lost;
    return NULL;
}

int main(int argc, char **argv) {
    if (argc < 4 || !setlocale(LC_ALL, "C.UTF-8"))
        return 1;
    uint64_t messages = strtoull(argv[2], NULL, 10), state = 1;
    rounds = strtoull(argv[3], NULL, 10);
    count = rounds ? messages * LANGUAGES / rounds : 0;
    queries = calloc(count, sizeof *queries);
    if (!queries)
        return 1;
    for (int l = 0; l < LANGUAGES; l++) {
        char domain[16];
        snprintf(domain, sizeof domain, "l%d", l);
        bindtextdomain(domain, argv[1]);
    }
    size_t wrong = 0;
    for (size_t i = 0; i < count; i++) {
        state = state * 6364136223846793005u + 1442695040888963407u;
        unsigned long long message = (state >> 33) % messages, language = (state >> 40) % LANGUAGES;
        struct query *q = &queries[i];
        snprintf(q->domain, sizeof q->domain, "l%llu", language);
        snprintf(q->id, sizeof q->id, "message %llu", message);
        snprintf(q->wanted, sizeof q->wanted, "%.31s in %.15s", q->id, q->domain);
        wrong += strcmp(dcgettext(q->domain, q->id, LC_MESSAGES), q->wanted) != 0;
    }
    if (argc > 4) {
        size_t lost = 0;
        double start = now();
        ask_all(&lost);
        printf("dcgettext by lists of %s: %.0f ns each\n", argv[4], (now() - start) / ((double)rounds * count));
        return wrong > 0;
    }
    printf("dcgettext, %zu queries: %zu answers wrong\n", count, wrong);
    static const int counts[] = { 1, 2, 4, 8, 16 };
    for (size_t c = 0; c < sizeof counts / sizeof *counts; c++) {
        size_t lost[MOST_THREADS] = { 0 };
        pthread_t threads[MOST_THREADS];
        double start = now();
        for (int t = 0; t < counts[c]; t++)
            pthread_create(&threads[t], NULL, ask_all, &lost[t]);
        for (int t = 0; t < counts[c]; t++)
            pthread_join(threads[t], NULL);
        printf("dcgettext, %d threads: %.0f ns each\n", counts[c], (now() - start) / ((double)rounds * count * counts[c]));
    }
    return 0;
}
