/* Look-ups and openings from C, next to those of bench.rs from Rust. Run by bench/rust/run.
 *
 *   bench FILE.mo FILE.ids ROUNDS
 *
 * It prints the picoseconds of a look-up, the nanoseconds of the fastest opening, the picoseconds of an entry of a
 * reader with nothing new and one look-up in it, those of a look-up in a list of languages, and the sum of the answers'
 * first bytes.
 */
#include "kobdzila.h"

#include <stdint.h>
#include <stdio.h>
#include <stdlib.h>
#include <string.h>
#include <time.h>

enum { OPENINGS = 40 };

static double now(void) {
    struct timespec t;
    clock_gettime(CLOCK_MONOTONIC, &t);
    return t.tv_sec * 1e9 + t.tv_nsec;
}

/* Read a whole file, with a NUL after it. */
static char *read_text(const char *name, size_t *len) {
    FILE *file = fopen(name, "rb");
    if (!file) {
        perror(name);
        exit(1);
    }
    fseek(file, 0, SEEK_END);
    *len = (size_t)ftell(file);
    rewind(file);
    char *text = malloc(*len + 1);
    if (!text || fread(text, 1, *len, file) != *len)
        exit(1);
    text[*len] = 0;
    fclose(file);
    return text;
}

/* Cut a text into its lines, each terminated by NUL. */
static const char **lines_of(char *text, size_t len, size_t *count) {
    const char **lines = malloc((len + 1) * sizeof *lines);
    if (!lines)
        exit(1);
    *count = 0;
    for (char *line = strtok(text, "\n"); line; line = strtok(NULL, "\n"))
        lines[(*count)++] = line;
    return lines;
}

/* Open the bytes several times, and keep the last catalogue. */
static kob_catalogue *opened(const char *mo, size_t len, double *fastest) {
    kob_catalogue *catalogue = NULL;
    *fastest = 1e18;
    for (int i = 0; i < OPENINGS; i++) {
        kob_release(catalogue);
        double start = now();
        catalogue = kob_open_mo(mo, len, NULL);
        double time = now() - start;
        if (!catalogue)
            exit(1);
        if (time < *fastest)
            *fastest = time;
    }
    return catalogue;
}

/* What is looked up, over and over. */
struct work {
    const char **msgids;
    size_t count;
    uint64_t rounds;
};

/* Return the picoseconds of each look-up since `start`. */
static double each_since(double start, struct work work) {
    return (now() - start) * 1000 / ((double)work.rounds * (double)work.count);
}

/* Return the time of a look-up in a catalogue. */
static double look_ups(const kob_catalogue *catalogue, struct work work, uint64_t *sum) {
    double start = now();
    for (uint64_t round = 0; round < work.rounds; round++)
        for (size_t i = 0; i < work.count; i++)
            *sum += (unsigned char)*kob_gettext(catalogue, work.msgids[i]);
    return each_since(start, work);
}

/* Return the time of an entry and a look-up, in a store that has published the catalogue. */
static double entries(const kob_catalogue *catalogue, struct work work, uint64_t *sum) {
    kob_store *store = kob_store_new();
    if (!store || !kob_store_load(store, "bench", "fr", catalogue, NULL) || !kob_store_publish(store, NULL))
        exit(1);
    kob_reader *reader = kob_store_reader(store);
    if (!reader)
        exit(1);
    double start = now();
    for (uint64_t round = 0; round < work.rounds; round++)
        for (size_t i = 0; i < work.count; i++)
            *sum += (unsigned char)*kob_set_gettext(kob_reader_enter(reader), "bench", "fr", work.msgids[i]);
    double each = each_since(start, work);
    kob_reader_free(reader);
    kob_store_free(store);
    return each;
}

/* Return the time of a look-up in a list of languages. */
static double listed(const kob_catalogue *catalogue, struct work work, uint64_t *sum) {
    kob_set *empty = kob_set_new(), *set = empty ? kob_set_with(empty, "bench", "fr", catalogue, NULL) : NULL;
    if (!set)
        exit(1);
    const kob_text bench = { "bench", 5 }, fr = { "fr", 2 };
    kob_languages list = kob_set_languages(set, bench, fr);
    double start = now();
    for (uint64_t round = 0; round < work.rounds; round++)
        for (size_t i = 0; i < work.count; i++)
            *sum += (unsigned char)*kob_languages_gettext(&list, work.msgids[i]);
    double each = each_since(start, work);
    kob_set_release(set);
    kob_set_release(empty);
    return each;
}

int main(int argc, char **argv) {
    if (argc != 4)
        return 2;
    size_t mo_len, ids_len;
    char *mo = read_text(argv[1], &mo_len), *ids = read_text(argv[2], &ids_len);
    struct work work = { NULL, 0, strtoull(argv[3], NULL, 10) };
    work.msgids = lines_of(ids, ids_len, &work.count);
    double fastest;
    kob_catalogue *catalogue = opened(mo, mo_len, &fastest);
    uint64_t sum = 0;
    double look_up = look_ups(catalogue, work, &sum), entry = entries(catalogue, work, &sum);
    double in_list = listed(catalogue, work, &sum);
    printf("%.0f %.0f %.0f %.0f %llu\n", look_up, fastest, entry, in_list, (unsigned long long)sum);
    kob_release(catalogue);
}
