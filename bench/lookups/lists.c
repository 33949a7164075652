/* Look-ups by a list of languages, by libkobdzila and by glibc's dcgettext. Run by bench/lookups/run.
 *
 *   lists FOLDER TURNS COUNT
 *
 * The catalogues of the domain mCOUNT have COUNT messages, whose msgids are the lines of FOLDER/mCOUNT.ids. Only the
 * last language of a list has them. Of the others, every second one has no catalogue, and the rest have one with other
 * messages. */
#include "kobdzila.h"

#include <libintl.h>
#include <locale.h>
#include <stdio.h>
#include <stdlib.h>
#include <string.h>
#include <time.h>

#define LOOK_UPS 400000 /* at least this number is timed together */

extern int _nl_msg_cat_cntr; /* glibc: raise it when LANGUAGE changes */

static const char **ids;
static size_t count, rounds;
static const kob_set *set;
static char name[20]; /* of the domain */
static kob_text languages, domain;
static const kob_text none;

static double now(void) {
    struct timespec t;
    clock_gettime(CLOCK_MONOTONIC, &t);
    return t.tv_sec * 1e9 + t.tv_nsec;
}

static kob_text text(const char *string) { return (kob_text){ string, strlen(string) }; }

/* The sums of the answers' first bytes, by each of the three. */
static unsigned long by_glibc(void) {
    unsigned long sum = 0;
    for (size_t i = 0; i < count; i++)
        sum += (unsigned char)*dcgettext(name, ids[i], LC_MESSAGES);
    return sum;
}

static unsigned long by_set(void) {
    unsigned long sum = 0;
    for (size_t i = 0; i < count; i++)
        sum += (unsigned char)*kob_set_find(set, domain, languages, none, text(ids[i]), NULL).at;
    return sum;
}

/* A list is looked at for each 50 messages. */
static unsigned long by_list(void) {
    unsigned long sum = 0;
    kob_languages list = kob_set_languages(set, domain, languages);
    for (size_t i = 0; i < count; i++) {
        if (i % 50 == 0)
            list = kob_set_languages(set, domain, languages);
        sum += (unsigned char)*kob_languages_find(&list, none, text(ids[i]), NULL).at;
    }
    return sum;
}

/* The nanoseconds of a look-up. */
static double timed(unsigned long (*work)(void), unsigned long *sum) {
    double start = now();
    for (size_t round = 0; round < rounds; round++)
        *sum = work();
    return (now() - start) / ((double)rounds * (double)count);
}

static int compare(const char *list, int turns) {
    unsigned long (*const works[])(void) = { by_glibc, by_set, by_list };
    double best[3] = { 1e18, 1e18, 1e18 };
    unsigned long sums[3];
    setenv("LANGUAGE", list, 1);
    _nl_msg_cat_cntr++;
    languages = text(list);
    by_glibc();
    for (int turn = 0; turn < turns; turn++)
        for (int i = 0; i < 3; i++) {
            double t = timed(works[i], &sums[i]);
            if (t < best[i]) best[i] = t;
        }
    int other = sums[0] != sums[1] || sums[1] != sums[2];
    printf("%-20s %10.1f %12.1f %19.1f%s\n", list, best[0], best[1], best[2], other ? "  OTHER ANSWERS" : "");
    return other;
}

/* Reads at most `most` msgids. */
static void read_ids(const char *folder, size_t most) {
    static char line[4096];
    snprintf(line, sizeof line, "%s/%s.ids", folder, name);
    FILE *f = fopen(line, "r");
    ids = calloc(most, sizeof *ids);
    while (f && ids && count < most && fgets(line, sizeof line, f)) {
        line[strcspn(line, "\n")] = 0;
        ids[count++] = strdup(line);
    }
    if (f)
        fclose(f);
    rounds = count ? (LOOK_UPS + count - 1) / count : 0;
}

/* A set of the three catalogues that there are, or NULL. */
static kob_set *opened(const char *folder) {
    static const char *const have[] = { "xx", "x0", "x1" };
    kob_set *made = kob_set_new();
    for (int i = 0; i < 3 && made; i++) {
        kob_set *more = kob_set_open(made, folder, name, have[i], NULL);
        kob_set_release(made);
        made = more;
    }
    return made;
}

int main(int argc, char **argv) {
    if (argc != 4)
        return 2;
    snprintf(name, sizeof name, "m%s", argv[3]);
    domain = text(name);
    if (!setlocale(LC_ALL, "C.UTF-8") || !bindtextdomain(name, argv[1]))
        return 1;
    read_ids(argv[1], strtoul(argv[3], NULL, 10));
    kob_set *made = opened(argv[1]);
    if (!made || !count) {
        fprintf(stderr, "no catalogues of %s in %s\n", name, argv[1]);
        return 1;
    }
    set = made;
    printf("ns a look-up, %zu messages\nlanguages             dcgettext kob_set_find kob_languages_find\n", count);
    int bad = compare("xx", atoi(argv[2])) | compare("a0:x0:xx", atoi(argv[2])) |
              compare("a0:x0:a1:x1:a2:xx", atoi(argv[2]));
    kob_set_release(made);
    return bad;
}
