/* The two programs that msgfmt-or-gnu runs: finding, starting and ending them. */
#include "or_gnu.h"

#include <errno.h>
#include <fcntl.h>
#include <signal.h>
#include <stdio.h>
#include <stdlib.h>
#include <string.h>
#include <sys/auxv.h>
#include <sys/mman.h>
#include <sys/resource.h>
#include <sys/stat.h>
#include <sys/wait.h>
#include <unistd.h>

const char taken[] = "msgfmt-or-gnu: this program was taken for one of the two that it runs\n";

/* --- files ---------------------------------------------------------------------------------------------------- */

int duplicate_above(int descriptor) {
    int higher = fcntl(descriptor, F_DUPFD_CLOEXEC, ABOVE_STREAMS);
    if (higher < 0 && errno == EINVAL) /* the limit of descriptors is no higher than that */
        errno = EMFILE;
    return higher;
}

int raised(int descriptor) {
    if (descriptor < 0)
        return -1;
    int higher = duplicate_above(descriptor);
    int cause = errno;
    close(descriptor);
    errno = cause;
    return higher;
}

int unnamed_file(void) {
    int made = memfd_create(program_name, MFD_CLOEXEC);
    if (made >= 0)
        return raised(made);
    const char *folder = getenv("TMPDIR");
    char *name = NULL;
    if (asprintf(&name, "%s/%s.XXXXXX", folder && *folder ? folder : "/tmp", program_name) < 0)
        return -1;
    made = mkstemp(name);
    int cause = errno;
    if (made >= 0)
        unlink(name);
    free(name);
    errno = cause;
    return raised(made);
}

char *read_all(int descriptor, size_t *len) { return read_most(descriptor, SIZE_MAX, len); }

char *read_most(int descriptor, size_t most, size_t *len) {
    struct stat about;
    size_t room = 1 << 16, have = 0;
    if (fstat(descriptor, &about) == 0 && S_ISREG(about.st_mode))
        room = (size_t)about.st_size + 2; /* one more byte to see the end of the file, and NUL */
    char *bytes = malloc(room);
    while (bytes) {
        ssize_t more = read(descriptor, bytes + have, room - have - 1);
        if (more < 0 && errno == EINTR)
            continue;
        if (more < 0)
            break;
        have += (size_t)more;
        if (more == 0 || have > most) {
            bytes[have] = '\0';
            *len = have;
            return bytes;
        }
        if (have + 1 == room) {
            char *larger = realloc(bytes, room *= 2);
            if (!larger)
                break;
            bytes = larger;
        }
    }
    int cause = errno;
    free(bytes);
    errno = cause;
    return NULL;
}

bool write_all(int descriptor, const char *bytes, size_t len) {
    while (len > 0) {
        ssize_t done = write(descriptor, bytes, len);
        if (done < 0 && errno == EINTR)
            continue;
        if (done < 0)
            return false;
        bytes += done;
        len -= (size_t)done;
    }
    return true;
}

int descriptor_of(const char *path) {
    static const char *const streams[] = {"/dev/stdin", "/dev/stdout", "/dev/stderr"};
    int number = -1, len = 0;
    for (int stream = STDIN_FILENO; stream <= STDERR_FILENO; stream++)
        if (!strcmp(path, streams[stream]))
            return stream;
    if (sscanf(path, "/dev/fd/%d%n", &number, &len) == 1 && !path[len])
        return number;
    if (sscanf(path, "/proc/self/fd/%d%n", &number, &len) == 1 && !path[len])
        return number;
    return -1;
}

/* --- running -------------------------------------------------------------------------------------------------- */

static volatile sig_atomic_t child, handed_on; /* the program that runs, and the signal that it was passed, or 0 */

static void hand_on(int number) {
    if (child > 0) {
        handed_on = number;
        kill((pid_t)child, number);
        return;
    }
    signal(number, SIG_DFL);
    raise(number);
}

/* Pass signals that end the driver on to the program first. Signals that are ignored (nohup) stay ignored. */
static void hand_on_signals(sigset_t *handed) {
    static const int numbers[] = {SIGHUP, SIGINT, SIGQUIT, SIGTERM};
    sigemptyset(handed);
    for (size_t place = 0; place < sizeof numbers / sizeof *numbers; place++) {
        struct sigaction now, handing = {.sa_handler = hand_on, .sa_flags = SA_RESTART};
        sigaddset(handed, numbers[place]);
        if (sigaction(numbers[place], NULL, &now) == 0 && now.sa_handler == SIG_DFL)
            sigaction(numbers[place], &handing, NULL);
    }
}

static struct ending wait_for(pid_t program) {
    int how;
    while (waitpid(program, &how, 0) < 0)
        if (errno != EINTR)
            return (struct ending){.failure = errno};
    if (WIFSIGNALED(how))
        return (struct ending){.status = 128 + WTERMSIG(how), .signal = WTERMSIG(how)};
    return (struct ending){.status = WEXITSTATUS(how)};
}

void take_streams(struct streams streams) {
    if (streams.input >= 0)
        dup2(streams.input, STDIN_FILENO);
    if (streams.output >= 0)
        dup2(streams.output, STDOUT_FILENO);
    if (streams.errors >= 0)
        dup2(streams.errors, STDERR_FILENO);
    if (streams.extra >= 0)
        dup2(streams.extra, streams.extra_as);
}

static sigset_t mask_of_programs;
static bool has_mask;

void keep_signal_mask(void) { has_mask = sigprocmask(SIG_SETMASK, NULL, &mask_of_programs) == 0; }

/* vfork doesn't copy this process, and the child makes nothing but system calls. posix_spawn would set every signal,
 * one by one. */
struct ending run_program(const char *path, char **words, struct streams streams) {
    sigset_t handed, before;
    volatile int failure = 0;
    hand_on_signals(&handed);
    signal(SIGCHLD, SIG_DFL); /* (if it were ignored, nobody would learn how the program ended) */
    sigprocmask(SIG_BLOCK, &handed, &before);
    pid_t program = vfork();
    if (program == 0) {
        take_streams(streams);
        sigprocmask(SIG_SETMASK, has_mask ? &mask_of_programs : &before, NULL);
        execv(path, words);
        failure = errno;
        _exit(127);
    }
    if (program < 0)
        failure = errno;
    child = failure ? 0 : program;
    sigprocmask(SIG_SETMASK, &before, NULL);
    struct ending ending = program < 0 ? (struct ending){0} : wait_for(program);
    child = 0;
    if (failure)
        ending = (struct ending){.failure = failure};
    return ending;
}

int become_program(const char *path, char **words, struct streams streams) {
    take_streams(streams);
    execv(path, words);
    return errno;
}

void end_as(struct ending ending) {
    if (ending.signal) {
        struct rlimit none = {0, 0};
        setrlimit(RLIMIT_CORE, &none); /* the program has already dumped core, if it was to */
        signal(ending.signal, SIG_DFL);
        raise(ending.signal);
    }
    _exit(ending.status);
}

/* --- finding -------------------------------------------------------------------------------------------------- */

char *find_ours(void) {
    static const char ending[] = "-or-gnu";
    const char *named = getenv("KOBDZILA_MSGFMT");
    if (named && *named)
        return strdup(named);
    char *self = realpath("/proc/self/exe", NULL);
    if (!self)
        self = realpath((const char *)getauxval(AT_EXECFN), NULL);
    if (!self)
        return NULL;
    size_t len = strlen(self), end = strlen(ending);
    if (len > end && !strcmp(self + len - end, ending))
        self[len - end] = '\0';
    return self;
}

static bool is_one_file(const struct stat *one, const char *path) {
    struct stat other;
    return stat(path, &other) == 0 && one->st_dev == other.st_dev && one->st_ino == other.st_ino;
}

/* Whether a program couldn't be run for the machine's sake, and not for its own. */
static bool is_shortage(int cause) {
    return cause == EAGAIN || cause == ENOMEM || cause == EMFILE || cause == ENFILE;
}

/* Read what a program prints for --version, at most `room` bytes with a NUL. Returns 0, ENOEXEC if it isn't a program
 * that answers, or the errno of why it can't be asked. */
static int ask_version(const char *path, char *answer, size_t room) {
    char *words[] = {(char *)path, "--version", NULL};
    int none = raised(open("/dev/null", O_RDWR));
    int cause = none < 0 ? errno : 0;
    int out = cause ? -1 : unnamed_file();
    if (none >= 0 && out < 0)
        cause = errno;
    if (!cause) {
        struct ending ending = run_program(path, words, (struct streams){none, out, none, -1, -1});
        if (handed_on) /* (it was for this program, which only asks the other one) */
            end_as((struct ending){.status = 128 + handed_on, .signal = handed_on});
        ssize_t len = pread(out, answer, room - 1, 0);
        answer[len > 0 ? len : 0] = '\0';
        cause = is_shortage(ending.failure) ? ending.failure : ending.failure || ending.status ? ENOEXEC : 0;
    }
    close(none);
    close(out);
    return cause;
}

enum { ANSWER_SIZE = 1000 };

/* Whether the program at `path` is GNU msgfmt, by the contents of its file or, for a script, by its --version. If that
 * can't be asked, `cause` gets the errno. */
static bool is_gnu(const char *path, int *cause) {
    char answer[ANSWER_SIZE];
    size_t len = 0;
    int file = raised(open(path, O_RDONLY | O_NOCTTY));
    char *bytes = file < 0 ? NULL : read_all(file, &len);
    close(file);
    bool is_program = bytes && len > 4 && !memcmp(bytes, "\177ELF", 4);
    bool is_driver = is_program && memmem(bytes, len, taken, sizeof taken - 1);
    bool is_known = is_program && memmem(bytes, len, "gettext-tools", strlen("gettext-tools"));
    free(bytes);
    if (is_driver || is_known)
        return is_known && !is_driver;
    int failure = ask_version(path, answer, sizeof answer);
    if (failure && failure != ENOEXEC)
        *cause = failure;
    return !failure && strstr(answer, "GNU gettext");
}

/* Whether the file can be run and is GNU msgfmt, and neither the driver nor Kobdzila's msgfmt. */
static bool is_candidate(const char *path, const char *ours, int *cause) {
    struct stat about;
    if (stat(path, &about) < 0 || !S_ISREG(about.st_mode) || access(path, X_OK) < 0)
        return false;
    return !is_one_file(&about, "/proc/self/exe") && !is_one_file(&about, ours) && is_gnu(path, cause);
}

/* Find GNU msgfmt in a folder of the PATH, or return NULL. */
static char *find_in(const char *folder, int len, const char *ours, int *cause) {
    static const char *const names[] = {"msgfmt", "gmsgfmt"};
    for (int place = 0; place < 2 && !*cause; place++) {
        char *path = NULL;
        if (asprintf(&path, "%.*s/%s", len ? len : 1, len ? folder : ".", names[place]) < 0) {
            *cause = ENOMEM;
            return NULL;
        }
        if (is_candidate(path, ours, cause))
            return path;
        free(path);
    }
    return NULL;
}

char *find_gnu(const char *ours) {
    const char *named = getenv("GNU_MSGFMT"), *folders = getenv("PATH");
    char *path = NULL;
    int cause = 0;
    if (named && *named)
        return strdup(named);
    if (!ours && !(ours = find_ours()))
        return NULL;
    while (folders && !path && !cause) {
        const char *end = strchrnul(folders, ':');
        path = find_in(folders, (int)(end - folders), ours, &cause);
        folders = *end ? end + 1 : NULL;
    }
    errno = cause;
    return path;
}

int gnu_version(const char *path) {
    char answer[ANSWER_SIZE];
    int major = 0, minor = 0;
    int cause = ask_version(path, answer, sizeof answer);
    if (cause && cause != ENOEXEC) {
        errno = cause;
        return -1;
    }
    const char *end = cause ? NULL : strchr(answer, ')');
    return end && sscanf(end + 1, "%4d.%3d", &major, &minor) == 2 ? 1000 * major + minor : 0;
}

enum { FIRST_WITH_FLAG_LINES = 26 }; /* GNU gettext 0.26 */

bool knows_flag_lines(int version) { return version >= FIRST_WITH_FLAG_LINES; }

char *why_no_flag_lines(const char *path, int version) {
    static const char known[] = "flags in a line #= are known to GNU msgfmt since 0.26, and";
    char *why = NULL;
    int len;
    if (!path)
        len = asprintf(&why, "%s there is none on the PATH; it is in the package gettext", known);
    else if (version == 0)
        len = asprintf(&why, "%s %s doesn't say which version it is", known, path);
    else
        len = asprintf(&why, "%s %s is %d.%d", known, path, version / 1000, version % 1000);
    return len < 0 ? NULL : why;
}
