/* The bar on a terminal, from half a second on. */
#include "compile.h"

#include <stdlib.h>
#include <string.h>
#include <unistd.h>

enum { WIDTH = 30 };
static const double patience = 0.5; /* seconds before there is a bar */
static bool is_shown;

double seconds_since(struct timespec start) {
    struct timespec now;
    clock_gettime(CLOCK_MONOTONIC, &now);
    return (double)(now.tv_sec - start.tv_sec) + (double)(now.tv_nsec - start.tv_nsec) / 1e9;
}

bool has_progress(void) {
    const char *terminal = getenv("TERM");
    return isatty(STDERR_FILENO) && terminal && strcmp(terminal, "dumb");
}

void show_progress(const struct run *run) {
    static const char full[] = "##############################", empty[] = "..............................";
    size_t done = run->finished, all = 0;
    if (seconds_since(run->start) < patience)
        return;
    for (size_t place = 0; place < run->catalogues.count; place++)
        all += run->catalogues.at[place].outcome != IS_CURRENT;
    int filled = all ? (int)(done * WIDTH / all) : WIDTH;
    fprintf(stderr, "\r[%.*s%.*s] %zu of %zu", filled, full, WIDTH - filled, empty, done, all);
    fflush(stderr);
    is_shown = true;
}

void clear_progress(void) {
    if (is_shown)
        fputs("\r\033[K", stderr);
    fflush(stderr);
    is_shown = false;
}
