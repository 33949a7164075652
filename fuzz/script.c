/* A script for catserve, and the same text for catsession. If catserve runs it, both answer alike; otherwise its one
 * line names a kind and a line, and it answers nothing (docs/reference/scripts.md). */
#include "programs.h"

static size_t lines_in(const uint8_t *bytes, size_t len) {
    size_t lines = 1;
    for (size_t place = 0; place < len; place++)
        lines += bytes[place] == '\n';
    return lines;
}

/* The line of a refused script: `catserve: KIND LINE`. */
static void check_error(const struct run *run, size_t lines) {
    unsigned kind = 0, line = 0;
    int len = 0;
    REQUIRE(run->output_len == 0 && sscanf(run->errors, "catserve: %u %u\n%n", &kind, &line, &len) == 2);
    REQUIRE((size_t)len == run->errors_len && kind >= 1 && kind <= 9);
    REQUIRE(kind == 3 ? line >= 1 && line <= lines : line == 0);
}

int LLVMFuzzerTestOneInput(const uint8_t *data, size_t size) {
    char *words[] = { (char[]){ "catserve" }, NULL };
    struct run script = run_program("catserve", words, data, size, 1);
    words[0] = (char[]){ "catsession" };
    struct run session = run_program("catsession", words, data, size, 1);
    note_lines(script.output, script.output_len);
    note_lines(script.errors, script.errors_len);
    note_lines(session.errors, session.errors_len);
    if (script.status == 0) {
        REQUIRE(script.errors_len == 0 && session.status == 0 && session.errors_len == 0);
        REQUIRE(session.output_len == script.output_len && !memcmp(session.output, script.output, script.output_len));
    } else {
        check_error(&script, lines_in(data, size));
        REQUIRE(session.status == 1 && !strncmp(session.errors, "catsession:", 11));
    }
    free_run(&script);
    free_run(&session);
    return 0;
}
