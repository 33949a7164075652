/* Opening MO files by libkobdzila, in megabytes a second: each is copied and checked, and its index made. Beside that
 * stand the same by the file's name, where the file is in the system's cache, and a plain copy of the bytes into fresh
 * memory. The last column is the peak memory of a process that opens the file by its name. Refused files are timed as
 * well. Run by bench/mo/run. */
#define _DEFAULT_SOURCE
#include "kobdzila.h"

#include <stdio.h>
#include <stdlib.h>
#include <string.h>
#include <sys/resource.h>
#include <sys/wait.h>
#include <time.h>
#include <unistd.h>

static double now(void) {
    struct timespec t;
    clock_gettime(CLOCK_MONOTONIC, &t);
    return t.tv_sec * 1e9 + t.tv_nsec;
}

static unsigned char *read_file(const char *name, size_t *len) {
    FILE *f = fopen(name, "rb");
    if (!f) {
        perror(name);
        exit(1);
    }
    fseek(f, 0, SEEK_END);
    *len = (size_t)ftell(f);
    rewind(f);
    unsigned char *bytes = malloc(*len);
    if (fread(bytes, 1, *len, f) != *len)
        exit(1);
    fclose(f);
    return bytes;
}

static double to_open(const unsigned char *bytes, size_t len, kob_refusal *why) {
    double start = now();
    kob_catalogue *catalogue = kob_open_mo(bytes, len, why);
    double time = now() - start;
    kob_release(catalogue);
    return time;
}

static double to_open_file(const char *name) {
    double start = now();
    kob_catalogue *catalogue = kob_open_file(name, KOB_MO, 0, NULL);
    double time = now() - start;
    kob_release(catalogue);
    return time;
}

static double to_copy(const unsigned char *bytes, size_t len) {
    double start = now();
    unsigned char *copy = malloc(len);
    memcpy(copy, bytes, len);
    double time = now() - start;
    /* (read, so that the copy is made) */
    volatile unsigned char last = copy[len - 1];
    (void)last;
    free(copy);
    return time;
}

/* The peak memory of a process that opens the file, in bytes. */
static double peak_of(const char *name) {
    pid_t child = fork();
    if (!child) {
        kob_release(kob_open_file(name, KOB_MO, 0, NULL));
        _exit(0);
    }
    struct rusage used;
    int status;
    if (child < 0 || wait4(child, &status, 0, &used) < 0)
        exit(1);
    return used.ru_maxrss * 1024.0;
}

int main(int argc, char **argv) {
    int turns = atoi(argv[1]);
    double *peaks = calloc((size_t)argc, sizeof *peaks);
    for (int i = 2; i < argc; i++) /* (first, while there is no memory that a child would inherit) */
        peaks[i] = peak_of(argv[i]);
    printf("%-15s %9s %12s %8s %12s %8s %12s %8s %12s\n", "file", "bytes", "ms to open", "MB/s", "ms by name", "MB/s",
           "ms to copy", "MB/s", "peak MB");
    for (int i = 2; i < argc; i++) {
        size_t len;
        unsigned char *bytes = read_file(argv[i], &len);
        double opened = 1e18, by_name = 1e18, copied = 1e18;
        kob_refusal why;
        for (int turn = 0; turn < turns; turn++) {
            double t = to_open(bytes, len, &why);
            if (t < opened) opened = t;
            t = to_open_file(argv[i]);
            if (t < by_name) by_name = t;
            t = to_copy(bytes, len);
            if (t < copied) copied = t;
        }
        printf("%-15s %9zu %12.1f %8.0f %12.1f %8.0f %12.1f %8.0f %12.1f%s%s\n", argv[i], len, opened / 1e6,
               len * 1e3 / opened, by_name / 1e6, len * 1e3 / by_name, copied / 1e6, len * 1e3 / copied,
               peaks[i] / 1e6, why.fault ? "   refused: " : "", why.fault ? kob_fault_text(why.fault) : "");
        fflush(stdout);
        free(bytes);
    }
    free(peaks);
    return 0;
}
