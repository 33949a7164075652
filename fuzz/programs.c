#include "programs.h"

#include <ctype.h>
#include <errno.h>
#include <fcntl.h>
#include <limits.h>
#include <poll.h>
#include <signal.h>
#include <sys/ioctl.h>
#include <sys/mman.h>
#include <sys/prctl.h>
#include <sys/stat.h>
#include <sys/wait.h>
#include <unistd.h>

/* A file in memory for what a program prints. */
static int new_file(void) {
    int file = memfd_create("output", MFD_CLOEXEC);
    REQUIRE(file >= 0);
    return file;
}

static char *take_file(int file, size_t *len) {
    struct stat about;
    REQUIRE(fstat(file, &about) == 0);
    *len = (size_t)about.st_size;
    char *text = malloc(*len + 1);
    REQUIRE(text && pread(file, text, *len, 0) == (ssize_t)*len);
    text[*len] = '\0';
    close(file);
    return text;
}

/* Wait until the program has read all that was written, or has ended. */
static void wait_until_read(int pipe) {
    struct pollfd gone = { pipe, 0, 0 };
    for (int waiting = 1; ioctl(pipe, FIONREAD, &waiting) == 0 && waiting > 0;)
        if (poll(&gone, 1, 1) == 1)
            return;
}

static void write_pieces(int pipe, const uint8_t *bytes, size_t len, unsigned pieces) {
    size_t size = len / (pieces ? pieces : 1) + 1;
    while (len > 0) {
        size_t now = size < len ? size : len;
        ssize_t done = write(pipe, bytes, now);
        if (done < 0 && errno != EINTR)
            return; /* (it has ended before it has read all) */
        bytes += done > 0 ? done : 0;
        len -= done > 0 ? (size_t)done : 0;
        if (pieces > 1 && len > 0)
            wait_until_read(pipe);
    }
}

struct run run_program(const char *name, char *const words[], const uint8_t *bytes, size_t len, unsigned pieces) {
    char path[PATH_MAX];
    const char *folder = getenv("PROGRAMS");
    int ends[2], output = new_file(), errors = new_file(), how;
    snprintf(path, sizeof path, "%s/%s", folder ? folder : "bin", name);
    REQUIRE(pipe2(ends, O_CLOEXEC) == 0 && signal(SIGPIPE, SIG_IGN) != SIG_ERR);
    pid_t program = vfork();
    REQUIRE(program >= 0);
    if (program == 0) {
        prctl(PR_SET_PDEATHSIG, SIGKILL);
        dup2(ends[0], STDIN_FILENO);
        dup2(output, STDOUT_FILENO);
        dup2(errors, STDERR_FILENO);
        execv(path, words);
        _exit(127);
    }
    close(ends[0]);
    write_pieces(ends[1], bytes, len, pieces);
    close(ends[1]);
    while (waitpid(program, &how, 0) < 0)
        REQUIRE(errno == EINTR);
    if (WIFSIGNALED(how))
        fprintf(stderr, "%s was ended by signal %d\n", path, WTERMSIG(how));
    if (WIFEXITED(how) && WEXITSTATUS(how) == 127)
        fprintf(stderr, "%s can't be run: PROGRAMS names the folder of the programs, which is %s\n", path, folder);
    REQUIRE(WIFEXITED(how) && WEXITSTATUS(how) <= 1);
    struct run run = { .status = WEXITSTATUS(how) };
    run.output = take_file(output, &run.output_len);
    run.errors = take_file(errors, &run.errors_len);
    return run;
}

void free_run(struct run *run) {
    free(run->output);
    free(run->errors);
}

/* --- what the fuzzer is told ---------------------------------------------------------------------------------- */

enum { FEATURES = 4096 };

#ifdef __AFL_COMPILER
/* AFL++ numbers what is in this section, as it numbers the edges of the code. */
__attribute__((section("__sancov_guards"), used)) static uint32_t guards[FEATURES];
void __sanitizer_cov_trace_pc_guard(uint32_t *guard);

static void note(unsigned feature) { __sanitizer_cov_trace_pc_guard(&guards[feature % FEATURES]); }
#else
__attribute__((section("__libfuzzer_extra_counters"), used)) static uint8_t counters[FEATURES];

static void note(unsigned feature) { counters[feature % FEATURES] = 1; }
#endif

void note_lines(const char *text, size_t len) {
    unsigned before = 0;
    for (const char *end = text + len; text < end;) {
        const char *stop = memchr(text, '\n', (size_t)(end - text));
        unsigned hash = 5381, fields = 0;
        for (stop = stop ? stop : end; text < stop; text++) {
            fields += *text == '\t' || *text == ' ';
            /* (the kind of a refusal counts; the numbers of versions and lines don't) */
            if (!isdigit((unsigned char)*text) || fields == 1)
                hash = hash * 33 + (fields > 1 ? 0 : (unsigned char)*text);
        }
        text = stop + 1;
        note(hash * 31 + fields);
        note((hash * 31 + fields) ^ before * 7);
        before = hash;
    }
}
