/* Runs a program on one file after another, and prints what each run took: bench/run starts its programs with it. A
 * process of Python takes longer to start another one than a small catalogue takes to compile; make and ninja don't.
 *
 *     spawn LIST PROGRAM [ARGUMENT ..]
 *
 * LIST has the names of the files, one a line; each is the last argument of a run. What the program writes is thrown
 * away. For each run it prints the nanoseconds from the start to the end, the microseconds of processor time, the peak
 * memory in kB, and the status. */
#define _DEFAULT_SOURCE
#include <fcntl.h>
#include <spawn.h>
#include <stdio.h>
#include <string.h>
#include <sys/resource.h>
#include <sys/wait.h>
#include <time.h>
#include <unistd.h>

extern char **environ;

static long long nanoseconds(void) {
    struct timespec now;
    clock_gettime(CLOCK_MONOTONIC, &now);
    return now.tv_sec * 1000000000LL + now.tv_nsec;
}

static long long microseconds(struct timeval time) { return time.tv_sec * 1000000LL + time.tv_usec; }

/* Run the program on one file, the last of its words, and print the line. Return whether it could be run. */
static int run(const char *file, char **words) {
    posix_spawn_file_actions_t actions;
    if (posix_spawn_file_actions_init(&actions)
        || posix_spawn_file_actions_addopen(&actions, STDOUT_FILENO, "/dev/null", O_WRONLY, 0)
        || posix_spawn_file_actions_adddup2(&actions, STDOUT_FILENO, STDERR_FILENO))
        return 0;
    pid_t child;
    int status;
    struct rusage used;
    long long began = nanoseconds();
    int cause = posix_spawn(&child, words[0], &actions, NULL, words, environ);
    if (cause) {
        fprintf(stderr, "spawn: %s < %s: %s\n", words[0], file, strerror(cause));
        return 0;
    }
    if (wait4(child, &status, 0, &used) != child) {
        perror("spawn");
        return 0;
    }
    long long took = nanoseconds() - began;
    long long processor = microseconds(used.ru_utime) + microseconds(used.ru_stime);
    posix_spawn_file_actions_destroy(&actions);
    return printf("%lld %lld %ld %d\n", took, processor, used.ru_maxrss, status) > 0;
}

int main(int argc, char **argv) {
    char file[4096];
    FILE *list = argc > 2 ? fopen(argv[1], "r") : NULL;
    if (!list) {
        fprintf(stderr, "usage: spawn LIST PROGRAM [ARGUMENT ..]\n");
        return 2;
    }
    /* (the words of a run: the list's name makes room for the file's at their end) */
    char **words = argv + 1;
    memmove(words, argv + 2, (size_t)(argc - 2) * sizeof *words);
    words[argc - 2] = file;
    while (fgets(file, sizeof file, list)) {
        file[strcspn(file, "\n")] = 0;
        if (!run(file, words))
            return 2;
    }
    return fclose(list) ? 2 : 0;
}
