/* Opening PO texts by libkobdzila, in megabytes a second: each pair of files is one text, in UTF-8 and in another charset,
 * and both are opened by turns. Run by bench/charsets/run. */
#define _DEFAULT_SOURCE
#include "kobdzila.h"

#include <stdio.h>
#include <stdlib.h>
#include <time.h>

typedef struct {
    unsigned char *bytes;
    size_t len;
    double best; /* nanoseconds */
} text;

static double now(void) {
    struct timespec t;
    clock_gettime(CLOCK_MONOTONIC, &t);
    return t.tv_sec * 1e9 + t.tv_nsec;
}

static text text_of(const char *name) {
    text it = {NULL, 0, 1e18};
    FILE *file = fopen(name, "rb");
    if (!file || fseek(file, 0, SEEK_END)) {
        perror(name);
        exit(1);
    }
    it.len = (size_t)ftell(file);
    rewind(file);
    it.bytes = malloc(it.len);
    if (!it.bytes || fread(it.bytes, 1, it.len, file) != it.len)
        exit(1);
    fclose(file);
    return it;
}

static void time_opening(text *it, const char *name) {
    kob_refusal why;
    double start = now();
    kob_catalogue *catalogue = kob_open_po(it->bytes, it->len, KOB_CHECKED, &why);
    double time = now() - start;
    if (!catalogue) {
        fprintf(stderr, "%s: %s\n", name, kob_fault_text(why.fault));
        exit(1);
    }
    kob_release(catalogue);
    if (time < it->best)
        it->best = time;
}

int main(int argc, char **argv) {
    int rounds = atoi(argv[1]);
    printf("charset         bytes   ms to open   MB/s   UTF-8: bytes   ms to open   MB/s   share of UTF-8's speed\n");
    for (int i = 2; i + 2 < argc; i += 3) {
        text other = text_of(argv[i + 1]), utf_8 = text_of(argv[i + 2]);
        for (int round = 0; round < rounds; round++) {
            time_opening(&other, argv[i + 1]);
            time_opening(&utf_8, argv[i + 2]);
        }
        double speed = (double)other.len * 1e3 / other.best, speed_8 = (double)utf_8.len * 1e3 / utf_8.best;
        printf("%-10s %10zu %12.1f %6.0f %14zu %12.1f %6.0f %24.2f\n", argv[i], other.len, other.best / 1e6, speed, utf_8.len,
               utf_8.best / 1e6, speed_8, speed / speed_8);
        fflush(stdout);
        free(other.bytes);
        free(utf_8.bytes);
    }
    return 0;
}
