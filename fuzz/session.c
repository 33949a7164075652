/* A session of catsession, whose text comes in pieces: in how many, and with how many workers, the first two bytes say.
 * What it prints doesn't depend on that, but for the answers of workers that aren't there. */
#include "programs.h"

enum { MOST_PIECES = 12, MOST_WORKERS = 16 };

/* The line that ends a session: `catsession:LINE: TEXT` or `catsession: TEXT` (docs/reference/scripts.md). */
static void check_error(const struct run *run) {
    static const char *const texts[] = { "bad line",   "not UTF-8",     "round too large",        "cannot read input",
                                         "store closed", "cannot write output", "no place for a reader", "no thread",
                                         "out of memory" };
    unsigned line = 0;
    int len = 0;
    size_t known = 0;
    bool has_line = sscanf(run->errors, "catsession:%u: %n", &line, &len) == 1 && len;
    const char *text = run->errors + (has_line ? (size_t)len : strlen("catsession: "));
    REQUIRE(has_line ? line >= 1 : !strncmp(run->errors, "catsession: ", 12));
    for (size_t place = 0; place < sizeof texts / sizeof *texts; place++)
        known += !strncmp(text, texts[place], strlen(texts[place])) && !strcmp(text + strlen(texts[place]), "\n");
    REQUIRE(known == 1);
}

int LLVMFuzzerTestOneInput(const uint8_t *data, size_t size) {
    struct rest rest = { data, data + size };
    unsigned pieces = 2 + take_byte(&rest) % MOST_PIECES, workers = take_byte(&rest) % (MOST_WORKERS + 1);
    char number[8];
    snprintf(number, sizeof number, "%u", workers);
    char *words[] = { (char[]){ "catsession" }, workers ? (char[]){ "--workers" } : NULL, number, NULL };
    size_t len = (size_t)(rest.end - rest.at);
    struct run whole = run_program("catsession", words, rest.at, len, 1);
    struct run parts = run_program("catsession", words, rest.at, len, pieces);
    note_lines(whole.output, whole.output_len);
    note_lines(whole.errors, whole.errors_len);
    REQUIRE(whole.status == parts.status && whole.output_len == parts.output_len);
    REQUIRE(!memcmp(whole.output, parts.output, whole.output_len));
    REQUIRE(!strcmp(whole.errors, parts.errors));
    if (whole.status)
        check_error(&whole);
    else
        REQUIRE(whole.errors_len == 0);
    free_run(&whole);
    free_run(&parts);
    return 0;
}
