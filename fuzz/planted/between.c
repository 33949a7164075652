/* A stand-in for catserve and catsession, which fuzz/plant gives to the targets script and session. It runs the true
 * program and passes on what it reads and prints, with an off-by-one at the end of a buffer of ROOM bytes: for session, a
 * read that fills it loses its last byte; for script, an output of catserve that is longer does. */
#include <stdio.h>
#include <stdlib.h>
#include <string.h>
#include <sys/wait.h>
#include <unistd.h>

enum { ROOM = 64 };

/* Write all that can be written. */
static void put(int to, const char *bytes, size_t len) {
    while (len > 0) {
        ssize_t done = write(to, bytes, len);
        if (done <= 0)
            return;
        bytes += done;
        len -= (size_t)done;
    }
}

#ifdef PLANTED_IN_session
static void pass_on_input(int to) {
    char bytes[ROOM];
    for (ssize_t len; (len = read(STDIN_FILENO, bytes, ROOM)) > 0;)
        put(to, bytes, len < ROOM ? (size_t)len : ROOM - 1);
}
#else
static void pass_on_input(int to) {
    static char bytes[1 << 16];
    for (ssize_t len; (len = read(STDIN_FILENO, bytes, sizeof bytes)) > 0;)
        put(to, bytes, (size_t)len);
}
#endif

static void pass_on_output(int from, const char *name) {
    static char all[1 << 20];
    size_t have = 0;
    for (ssize_t len; (len = read(from, all + have, sizeof all - have)) > 0;)
        have += (size_t)len;
#ifdef PLANTED_IN_script
    if (have > ROOM && strstr(name, "catserve"))
        have--;
#else
    (void)name;
#endif
    put(STDOUT_FILENO, all, have);
}

int main(int argc, char **argv) {
    char path[4096];
    int input[2], output[2], how = 0;
    (void)argc;
    snprintf(path, sizeof path, "%s/%s", TRUE_FOLDER, argv[0]);
    if (pipe(input) || pipe(output))
        return 1;
    pid_t program = fork();
    if (program == 0) {
        dup2(input[0], STDIN_FILENO);
        dup2(output[1], STDOUT_FILENO);
        close(input[0]), close(input[1]), close(output[0]), close(output[1]);
        execv(path, argv);
        _exit(127);
    }
    close(input[0]);
    close(output[1]);
    pid_t writer = fork();
    if (writer == 0) {
        close(output[0]);
        pass_on_input(input[1]);
        _exit(0);
    }
    close(input[1]);
    pass_on_output(output[0], argv[0]);
    waitpid(program, &how, 0);
    return WIFEXITED(how) ? WEXITSTATUS(how) : 1;
}
