/* Runs a target on files, for compilers without a fuzzer: each argument is a file, or a folder of files. It says how
 * many inputs ran; a finding ends it with the name of its input above what the sanitizer says. */
#include "target.h"

#include <dirent.h>
#include <limits.h>
#include <signal.h>
#include <unistd.h>

enum { MOST_SECONDS = 60 }; /* of an input */

static const char *current = "";
static unsigned long count;

static void run_file(const char *name) {
    FILE *file = fopen(name, "rb");
    uint8_t *bytes = NULL;
    size_t len = 0, room = 0;
    REQUIRE(file);
    for (size_t more = 1; more; len += more) {
        if (len == room)
            REQUIRE((bytes = realloc(bytes, room = room ? 2 * room : 4096)));
        more = fread(bytes + len, 1, room - len, file);
    }
    fclose(file);
    /* a block of just this size, so that a byte after it isn't read unseen */
    uint8_t *exact = malloc(len ? len : 1);
    REQUIRE(exact);
    memcpy(exact, bytes, len);
    free(bytes);
    current = name;
    alarm(MOST_SECONDS);
    LLVMFuzzerTestOneInput(exact, len);
    alarm(0);
    free(exact);
    count++;
}

static int is_shown(const struct dirent *entry) { return entry->d_name[0] != '.'; }

static void run_path(const char *path) {
    struct dirent **entries;
    int found = scandir(path, &entries, is_shown, alphasort);
    if (found < 0) {
        run_file(path);
        return;
    }
    for (int place = 0; place < found; place++) {
        char name[PATH_MAX];
        snprintf(name, sizeof name, "%s/%s", path, entries[place]->d_name);
        run_path(name);
        free(entries[place]);
    }
    free(entries);
}

/* Called by the runtimes of both compilers when a sanitizer has found something. */
void __sanitizer_set_death_callback(void (*callback)(void)) __attribute__((weak));

static void say_which(void) { fprintf(stderr, "replay: the input was %s\n", current); }

static void say_that_it_hangs(int number) {
    (void)number;
    dprintf(STDERR_FILENO, "replay: the input was %s: it takes more than %d seconds\n", current, MOST_SECONDS);
    _exit(1);
}

int main(int argc, char **argv) {
    if (__sanitizer_set_death_callback)
        __sanitizer_set_death_callback(say_which);
    signal(SIGALRM, say_that_it_hangs);
    for (int place = 1; place < argc; place++)
        run_path(argv[place]);
    fprintf(stderr, "%lu inputs\n", count);
    return count ? 0 : 1;
}
