/* Reads an MO file once, and prints 'read' and the number of its entries, or 'refusal' and its number; and then the
   seconds of processor time that this took. tests/mo/hostile.sh runs it. */
#include "kobdzila.h"

#include <stdio.h>
#include <stdlib.h>
#include <time.h>

static double now(void) {
    struct timespec t;
    clock_gettime(CLOCK_PROCESS_CPUTIME_ID, &t);
    return t.tv_sec + t.tv_nsec / 1e9;
}

int main(int argc, char **argv) {
    FILE *f = argc == 2 ? fopen(argv[1], "rb") : NULL;
    if (!f || fseek(f, 0, SEEK_END) != 0)
        return 2;
    size_t len = (size_t)ftell(f);
    rewind(f);
    unsigned char *file = malloc(len + 1);
    if (!file || fread(file, 1, len, f) != len)
        return 2;
    fclose(f);
    double start = now();
    kob_refusal why;
    kob_catalogue *catalogue = kob_open_mo(file, len, &why);
    double seconds = now() - start;
    if (catalogue)
        printf("read %zu, %.2f\n", kob_count(catalogue), seconds);
    else
        printf("refusal %d, %.2f\n", why.fault, seconds);
    kob_release(catalogue);
    free(file);
    return 0;
}
