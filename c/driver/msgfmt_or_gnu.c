/* A msgfmt for build systems. It takes GNU msgfmt's options and runs Kobdzila's msgfmt if that can serve them, and GNU
 * msgfmt otherwise, and for every text that Kobdzila's refuses. See msgfmt-or-gnu(1). */
#include "or_gnu.h"
#include "or_gnu_formats.h"
#include "or_gnu_macros.h"
#include "replace.h"

#include <errno.h>
#include <fcntl.h>
#include <poll.h>
#include <signal.h>
#include <stdio.h>
#include <stdlib.h>
#include <string.h>
#include <sys/stat.h>
#include <sys/sysmacros.h>
#include <time.h>
#include <unistd.h>

const char program_name[] = "msgfmt-or-gnu";
static const char guard[] = "MSGFMT_OR_GNU_RUNS";
static const char version_line[] = "msgfmt-or-gnu (Kobdzila) " KOBDZILA_VERSION "\n";
/* The first line without a GNU msgfmt. Build systems take the first number of --version for GNU gettext's: this is the
 * release whose options are known here. */
static const char release_line[] = "msgfmt 0.22, by msgfmt-or-gnu\n";
static const char help_lines[] =
    "\nThis is msgfmt-or-gnu: Kobdzila's msgfmt compiles what it can, and GNU msgfmt everything else.\n"
    "msgfmt-or-gnu --summary LOG prints the table of a log (MSGFMT_OR_GNU_LOG). Its page is msgfmt-or-gnu(1).\n";
static const char unwritten[] = "msgfmt: cannot write "; /* what Kobdzila's msgfmt says of FILE */
static const char in_gettext[] = "; it is in the package gettext";
enum { TEXT_LIMIT = 67108864, EMPTY_MO = 28 }; /* bytes of the largest PO text, and of an empty MO file */

/* The state of one run of the driver. */
struct run {
    struct request *request;
    char *ours;       /* the msgfmt of Kobdzila to start; NULL if the one in this program is called */
    char *gnu;        /* NULL if there is none, or it wasn't looked for yet */
    bool looked;
    char *input;      /* the path at which the PO file was found */
    char *input_name; /* the name that the two programs get for it */
    struct text text;
    struct text utf8; /* the text in UTF-8, if it was converted */
    bool is_dependent; /* libkobdzila compiles it */
    unsigned long long header_line;
    size_t plain_macros;
    int recoded;      /* a descriptor for that, or -1 */
    struct streams streams;
    struct timespec start;
};

_Noreturn static void stop(const char *what, const char *why) {
    tell("msgfmt-or-gnu: %s%s", what, why);
    _exit(1);
}

_Noreturn void stop_for_memory(void) { stop("out of memory", ""); }

static double milliseconds_of(const struct run *run) {
    struct timespec now;
    clock_gettime(CLOCK_MONOTONIC, &now);
    return (double)(now.tv_sec - run->start.tv_sec) * 1e3 + (double)(now.tv_nsec - run->start.tv_nsec) / 1e6;
}

static bool has_gnu(struct run *run) {
    if (!run->looked && !(run->gnu = find_gnu(run->ours)) && errno)
        stop("cannot look for GNU msgfmt: ", strerror(errno));
    run->looked = true;
    return run->gnu != NULL;
}

/* --- GNU msgfmt ------------------------------------------------------------------------------------------------- */

/* Return the arguments for GNU msgfmt: those given, except for its name and for a pipe that was already read. */
static char **words_for_gnu(struct run *run) {
    struct request *request = run->request;
    request->given[0] = run->gnu;
    for (char **word = request->given; *word; word++)
        if (run->input_name && request->input_count == 1 && *word == request->inputs[0])
            *word = run->text.kept >= 0 ? run->input_name : *word;
    return request->given;
}

/* Other programs run --version and --help and read what GNU msgfmt prints; the driver adds its own lines after that. */
static bool is_about_itself(const struct request *request) { return request->wants_version || request->wants_help; }

static const char *own_lines(const struct request *request) {
    return request->wants_version ? version_line : help_lines;
}

/* Run GNU msgfmt about itself, and print its lines and the driver's own at once: the reader may go after the first. */
static struct ending tell_of_both(const struct run *run, char **words) {
    const char *own = own_lines(run->request);
    struct streams streams = run->streams;
    streams.output = unnamed_file();
    if (streams.output < 0)
        stop("cannot keep the output: ", strerror(errno));
    struct ending ending = run_program(run->gnu, words, streams);
    size_t len = 0;
    bool done = ending.failure || ending.status || write_all(streams.output, own, strlen(own));
    char *lines = lseek(streams.output, 0, SEEK_SET) < 0 ? NULL : read_all(streams.output, &len);
    if ((!done || !lines || !write_all(STDOUT_FILENO, lines, len)) && ending.status == 0)
        ending.status = 1;
    free(lines);
    return ending;
}

/* Hand the run to GNU msgfmt, whose exit status becomes the driver's. */
_Noreturn static void end_by_gnu(struct run *run, const char *why) {
    const char *log = getenv("MSGFMT_OR_GNU_LOG");
    bool asks = is_about_itself(run->request);
    if (run->text.kept >= 0)
        lseek(run->text.kept, 0, SEEK_SET);
    char **words = words_for_gnu(run);
    if (!asks && (!log || !*log)) {
        int failure = become_program(run->gnu, words, run->streams);
        tell("msgfmt-or-gnu: cannot run %s: %s", run->gnu, strerror(failure));
        _exit(1);
    }
    struct ending ending = asks ? tell_of_both(run, words) : run_program(run->gnu, words, run->streams);
    if (ending.failure) {
        tell("msgfmt-or-gnu: cannot run %s: %s", run->gnu, strerror(ending.failure));
        ending.status = 1;
    }
    if (!asks)
        log_files(run->request, "GNU", ending.status, why, milliseconds_of(run));
    end_as(ending);
}

/* End a run that needs GNU msgfmt on a machine without one. */
_Noreturn static void end_without_gnu(struct run *run) {
    const struct request *request = run->request;
    if (is_about_itself(request)) {
        char *lines = NULL;
        int len = request->wants_version ? asprintf(&lines, "%s%s", release_line, version_line)
                                         : asprintf(&lines, "%s", help_lines + 1);
        if (len < 0)
            stop_for_memory();
        _exit(write_all(STDOUT_FILENO, lines, (size_t)len) ? 0 : 1);
    }
    tell("msgfmt-or-gnu: %s: this needs GNU msgfmt, and there is none on the PATH%s", request->why, in_gettext);
    char why[WHY_SIZE + sizeof "; no GNU msgfmt"];
    snprintf(why, sizeof why, "%s; no GNU msgfmt", request->why);
    log_files(request, "ours", 1, why, milliseconds_of(run));
    _exit(1);
}

/* --- the PO file ------------------------------------------------------------------------------------------------ */

static bool is_standard_input(const char *name) { return !strcmp(name, "-") || !strcmp(name, "/dev/stdin"); }

static bool is_standard_output(const char *name) {
    return name && (!strcmp(name, "-") || descriptor_of(name) == STDOUT_FILENO);
}

/* Open the PO file as GNU msgfmt looks for it: in each folder of -D, under its name and with .po and .pot added. */
static int open_input(struct run *run) {
    static const char *const endings[] = {"", ".po", ".pot"};
    const struct request *request = run->request;
    const char *name = request->inputs[0];
    bool is_relative = *name != '/' && request->folder_count > 0;
    for (int folder = 0; folder < (is_relative ? request->folder_count : 1); folder++)
        for (int ending = 0; ending < 3; ending++) {
            const char *at = is_relative && strcmp(request->folders[folder], ".") ? request->folders[folder] : "";
            const char *slash = *at && at[strlen(at) - 1] != '/' ? "/" : "";
            free(run->input);
            if (asprintf(&run->input, "%s%s%s%s", at, slash, name, endings[ending]) < 0)
                stop_for_memory();
            int file = raised(open(run->input, O_RDONLY | O_NOCTTY));
            if (file >= 0 || errno != ENOENT)
                return file;
        }
    free(run->input);
    run->input = strdup(name);
    errno = ENOENT;
    return -1;
}

static bool is_null_device(const struct stat *about) {
    return S_ISCHR(about->st_mode) && about->st_rdev == makedev(1, 3);
}

/* Keep what came from a pipe so that both programs can read it, as standard input or by the descriptor's number. */
static bool keep_input(struct run *run) {
    run->text.kept = unnamed_file();
    if (run->text.kept < 0 || !write_all(run->text.kept, run->text.bytes, run->text.len))
        return false;
    lseek(run->text.kept, 0, SEEK_SET);
    int number = is_standard_input(run->request->inputs[0]) ? STDIN_FILENO : descriptor_of(run->input);
    if (number == STDIN_FILENO) {
        run->streams.input = run->text.kept;
        return true;
    }
    run->streams.extra = run->text.kept;
    run->streams.extra_as = number;
    if (number <= STDERR_FILENO) { /* (a number that nobody has, kept at once: the caller's descriptors stay) */
        run->streams.extra = run->streams.extra_as = fcntl(run->text.kept, F_DUPFD, 9);
        free(run->input);
        if (run->streams.extra < 0 || asprintf(&run->input, "/dev/fd/%d", run->streams.extra_as) < 0)
            stop_for_memory();
    }
    return true;
}

/* Read the PO text. Returns 0, or the errno of why it can't be read. */
static int read_text(struct run *run, char *why) {
    const char *name = run->request->inputs[0];
    struct stat about;
    bool is_stream = is_standard_input(name);
    int file = is_stream ? STDIN_FILENO : open_input(run);
    if (is_stream && !(run->input = strdup(name)))
        stop_for_memory();
    if (file < 0 || fstat(file, &about) < 0)
        return errno;
    if (!is_stream && S_ISREG(about.st_mode) && about.st_size > TEXT_LIMIT) {
        snprintf(why, WHY_SIZE, "file too large");
        close(file);
        return 0;
    }
    run->text.bytes = read_most(file, TEXT_LIMIT, &run->text.len);
    int cause = errno;
    if (run->text.bytes && run->text.len > TEXT_LIMIT) {
        tell("msgfmt-or-gnu: %s: more than 64 MiB: save it in a file, and give the name of that", name);
        _exit(1);
    }
    if (!is_stream)
        close(file);
    if (!run->text.bytes)
        return cause;
    if ((is_stream || !S_ISREG(about.st_mode)) && !is_null_device(&about) && !keep_input(run))
        return errno;
    return 0;
}

/* --- Kobdzila's msgfmt ------------------------------------------------------------------------------------------ */

static bool wants_statistics(const struct request *request) {
    return request->wants_statistics || request->verbosity > 0;
}

/* The name of a text that was converted, which Kobdzila's msgfmt reads from its standard input. */
static char recoded_name[] = "-";

/* Write the name of the PO file in place of the name that msgfmt read the text under. */
static void name_input(struct run *run, struct answer *answer) {
    static const char front[] = "-:";
    size_t len = strlen(run->input_name), count = 0;
    for (char *line = answer->said; (line = strstr(line, front)); line++)
        count++;
    char *lines = malloc(answer->len + count * len + 1), *to = lines;
    if (!lines)
        stop_for_memory();
    for (char *line = answer->said, *end; *line; line = end) {
        end = strchrnul(line, '\n');
        end += *end == '\n';
        if (!strncmp(line, front, strlen(front))) {
            to = mempcpy(to, run->input_name, len);
            line++;
        }
        to = mempcpy(to, line, (size_t)(end - line));
    }
    *to = '\0';
    free(answer->said);
    *answer = (struct answer){answer->ending, lines, (size_t)(to - lines)};
}

/* Run Kobdzila's msgfmt. Its -c checks both the header and formats, so either of those checks asks for it. */
static struct answer run_ours(struct run *run, const char *output, int standard_output) {
    const struct request *request = run->request;
    struct answer answer = {0};
    char *named = NULL;
    struct streams streams = run->streams;
    if (asprintf(&named, "--output-file=%s", output) < 0)
        stop_for_memory();
    char *words[8] = {run->ours ? run->ours : (char[]){"msgfmt"}, named};
    int count = 2;
    if (request->checks_format || request->checks_header)
        words[count++] = "--check";
    if (request->keeps_fuzzy)
        words[count++] = "--use-fuzzy";
    if (wants_statistics(request) || request->checks_compatibility)
        words[count++] = "--statistics";
    words[count++] = "--";
    words[count++] = run->recoded >= 0 ? recoded_name : run->input_name;
    if (run->text.kept >= 0)
        lseek(run->text.kept, 0, SEEK_SET);
    if (run->recoded >= 0) {
        lseek(run->recoded, 0, SEEK_SET);
        streams.input = run->recoded;
    }
    streams.output = standard_output;
    streams.errors = unnamed_file();
    if (streams.errors < 0)
        stop("cannot keep the error output: ", strerror(errno));
    answer.ending = run->ours ? run_program(run->ours, words, streams) : call_linked(words, streams);
    lseek(streams.errors, 0, SEEK_SET);
    answer.said = read_all(streams.errors, &answer.len);
    if (!answer.said && errno == ENOMEM)
        stop_for_memory();
    if (!answer.said)
        stop("cannot read the error output back: ", strerror(errno));
    close(streams.errors);
    free(named);
    if (run->recoded >= 0)
        name_input(run, &answer);
    return answer;
}

/* The text in UTF-8. */
static struct part utf8_of(const struct run *run) {
    const struct text *text = run->utf8.bytes ? &run->utf8 : &run->text;
    return (struct part){text->bytes, text->bytes + text->len};
}

/* Compile the text by Kobdzila's msgfmt or, if msgfmt refuses such texts, by libkobdzila. */
static struct answer run_compiler(struct run *run, const char *output, int standard_output) {
    const struct request *request = run->request;
    if (!run->is_dependent)
        return run_ours(run, output, standard_output);
    bool checked = request->checks_format || request->checks_header;
    struct macro_text text = {utf8_of(run), run->input_name, checked, request->keeps_fuzzy, run->header_line,
                              run->plain_macros, has_gnu(run)};
    return compile_macros(&text, output, standard_output);
}

/* Whether the statistics count messages that -C has to warn about. */
static bool leaves_messages_out(const struct run *run, const struct answer *answer) {
    return run->request->checks_compatibility && memmem(answer->said, answer->len, ", ", 2);
}

/* Whether GNU msgfmt warns about them, and so has to make the MO file. */
static bool is_left_to_gnu(struct run *run, const struct answer *answer) {
    return leaves_messages_out(run, answer) && has_gnu(run);
}

static const char *output_of(const struct run *run) {
    return run->request->output ? run->request->output : "messages.mo";
}

/* Whether there is a regular file that may not be written. GNU msgfmt replaces it if its folder may be written;
 * Kobdzila's opens it first. */
static bool is_read_only(const char *name) {
    struct stat old;
    return stat(name, &old) == 0 && S_ISREG(old.st_mode) && access(name, W_OK) < 0 && errno == EACCES;
}

/* Put the MO file that was compiled to memory in the place of the output. */
static void replace_output(const struct run *run, struct answer *answer, int memory) {
    const char *name = output_of(run);
    size_t len = 0;
    lseek(memory, 0, SEEK_SET);
    char *bytes = read_all(memory, &len);
    int cause = bytes ? write_in_one_step(name, bytes, len, 0666) : errno;
    free(bytes);
    if (!cause)
        return;
    free(answer->said);
    answer->ending = (struct ending){.status = 1, .cause = cause};
    answer->said = text_of("%s%s\n", unwritten, name);
    answer->len = strlen(answer->said);
}

/* Compile the text. It is compiled to memory first if there may be no file to write: like GNU msgfmt, the driver writes
 * none without -o if nothing is translated; and with -C GNU msgfmt takes over if messages are left out. */
static struct answer compile(struct run *run) {
    struct stat made;
    const char *output = run->request->output;
    bool replaces = is_read_only(output_of(run));
    if (output && !run->request->checks_compatibility && !replaces)
        return run_compiler(run, output, -1);
    int memory = unnamed_file();
    if (memory < 0)
        stop("cannot keep an MO file: ", strerror(errno));
    struct answer answer = run_compiler(run, "-", memory);
    bool is_empty = !output && fstat(memory, &made) == 0 && made.st_size <= EMPTY_MO;
    bool writes = !answer.ending.failure && !answer.ending.status && !is_empty && !is_left_to_gnu(run, &answer);
    if (writes && replaces)
        replace_output(run, &answer, memory);
    close(memory);
    if (!writes || replaces)
        return answer;
    free(answer.said);
    return run_compiler(run, output_of(run), -1);
}

/* Return the reason why the text was refused, from `NAME:LINE: REASON`, or NULL if the run failed for another
 * reason. */
static char *refusal_of(const struct run *run, const struct answer *answer) {
    if (answer->ending.status != 1)
        return NULL;
    size_t len = strlen(run->input_name);
    for (char *line = answer->said, *next; *line; line = next) {
        next = strchrnul(line, '\n');
        next = *next ? next + 1 : next;
        if (strncmp(line, run->input_name, len) || line[len] != ':')
            continue;
        size_t digits = strspn(line + len + 1, "0123456789");
        char *reason = line + len + 1 + digits; /* (the name may have line ends of its own) */
        if (digits && !strncmp(reason, ": ", 2) && strncmp(reason, ": warning: ", 11)) {
            char *copy = strndup(reason + 2, strcspn(reason + 2, "\n"));
            if (!copy)
                stop_for_memory();
            return copy;
        }
    }
    return NULL;
}

/* Return the end of a message of Kobdzila's msgfmt. The file's name may have line ends of its own. */
static char *end_of_message(const struct run *run, char *message) {
    size_t len = strlen(run->input_name);
    bool is_named = !strncmp(message, run->input_name, len) && message[len] == ':';
    return strchrnul(message + (is_named ? len : 0), '\n');
}

/* Print what Kobdzila's msgfmt printed: warnings only if asked for, and statistics the way GNU msgfmt prints them. */
static bool pass_on(const struct run *run, const struct answer *answer) {
    const struct request *request = run->request;
    bool has_compiled = answer->ending.status == 0;
    const char *name = request->inputs[0];
    char *lines = malloc(answer->len + strlen(name) + sizeof ": \n"), *to = lines;
    if (!lines)
        stop_for_memory();
    for (char *line = answer->said, *end; *line; line = *end ? end + 1 : end) {
        end = end_of_message(run, line);
        bool is_last = !*end || !end[1];
        bool is_warning = memmem(line, (size_t)(end - line), ": warning: header field '", 25);
        if (is_warning ? !request->checks_header : has_compiled && is_last && !wants_statistics(request))
            continue;
        if (has_compiled && is_last && !is_warning && request->wants_statistics + request->verbosity >= 2)
            to = stpcpy(stpcpy(to, name), ": ");
        to = stpcpy(mempcpy(to, line, (size_t)(end - line)), "\n");
    }
    bool done = write_all(STDERR_FILENO, lines, (size_t)(to - lines));
    free(lines);
    return done;
}

/* Return the errno of why a folder doesn't take the MO file, which is compiled to memory once more for its size, or 0. */
static int why_no_room(struct run *run, const char *folder) {
    struct stat made;
    int memory = unnamed_file(), file = raised(open(folder, O_TMPFILE | O_WRONLY, 0600)), cause = 0;
    if (memory >= 0 && file >= 0) {
        struct answer answer = run_compiler(run, "-", memory);
        if (answer.ending.status == 0 && fstat(memory, &made) == 0 && made.st_size > 0)
            cause = posix_fallocate(file, 0, made.st_size);
        free(answer.said);
    }
    close(memory);
    close(file);
    return cause == EOPNOTSUPP || cause == EINVAL ? 0 : cause;
}

/* Return the errno of why a msgfmt that was started couldn't write a file, as far as that can be found out afterwards, or
 * 0. */
static int why_not_written(struct run *run, const char *name) {
    int file = open(name, O_WRONLY | O_NONBLOCK | O_NOCTTY | O_CLOEXEC);
    if (file < 0 && errno != ENOENT)
        return errno;
    close(file);
    char *folder = strdup(name), *slash = folder ? strrchr(folder, '/') : NULL;
    if (!folder)
        return ENOMEM;
    if (slash)
        slash[slash == folder] = '\0';
    const char *in = slash ? folder : ".";
    int cause = access(in, W_OK | X_OK) < 0 ? errno : why_no_room(run, in);
    free(folder);
    return cause;
}

static bool has_not_written(const struct answer *answer) {
    return answer->ending.status && !strncmp(answer->said, unwritten, strlen(unwritten));
}

static void say_why_not_written(struct run *run, const struct answer *answer) {
    const char *name = output_of(run);
    if (!has_not_written(answer))
        return;
    int cause = answer->ending.cause;
    if (!cause && run->ours && strcmp(name, "-"))
        cause = why_not_written(run, name);
    if (cause)
        tell("msgfmt-or-gnu: %s: %s", strcmp(name, "-") ? name : "standard output", strerror(cause));
}

/* Whether nobody reads standard output any more, which ends a program that doesn't ignore the signal for that. */
static bool has_lost_reader(const struct run *run) {
    struct pollfd output = {.fd = STDOUT_FILENO, .events = POLLOUT};
    struct sigaction now;
    return is_standard_output(run->request->output) && poll(&output, 1, 0) == 1 && (output.revents & POLLERR) &&
           sigaction(SIGPIPE, NULL, &now) == 0 && now.sa_handler == SIG_DFL;
}

/* End a run that Kobdzila's msgfmt has served, with its output and exit status. */
/* `why` is the reason for which GNU msgfmt would have been run, or empty; it is told if the text was refused. */
_Noreturn static void end_by_ours(struct run *run, struct answer *answer, const char *why, bool is_refused) {
    if (answer->ending.failure && !run->ours)
        stop("cannot keep the output: ", strerror(answer->ending.failure));
    if (answer->ending.failure) {
        tell("msgfmt-or-gnu: cannot run %s: %s", run->ours, strerror(answer->ending.failure));
        _exit(1);
    }
    if (has_not_written(answer) && has_lost_reader(run)) { /* (Kobdzila's msgfmt ignores the signal) */
        answer->ending = (struct ending){.status = 128 + SIGPIPE, .signal = SIGPIPE};
    } else {
        if (!pass_on(run, answer) && answer->ending.status == 0)
            answer->ending.status = 1;
        say_why_not_written(run, answer);
    }
    char reason[WHY_SIZE + sizeof "; no GNU msgfmt"];
    snprintf(reason, sizeof reason, "%s%s", why, *why ? "; no GNU msgfmt" : "");
    if (*why && is_refused)
        tell("msgfmt-or-gnu: no GNU msgfmt on the PATH to run in its place (%s)%s", why, in_gettext);
    log_files(run->request, "ours", answer->ending.status, reason, milliseconds_of(run));
    end_as(answer->ending);
}

/* --- a run ------------------------------------------------------------------------------------------------------ */

/* End a run on a text with flags in `#=` lines, which Kobdzila's msgfmt and older versions of GNU's take for
 * comments. */
_Noreturn static void end_with_flag_lines(struct run *run, unsigned long long line) {
    int version = has_gnu(run) ? gnu_version(run->gnu) : 0;
    if (version < 0)
        stop("cannot ask GNU msgfmt for its version: ", strerror(errno));
    if (knows_flag_lines(version))
        end_by_gnu(run, "flags in #=");
    char *why = why_no_flag_lines(run->gnu, version);
    if (!why)
        stop_for_memory();
    tell("%s:%llu: %s", run->request->inputs[0], line, why);
    free(why);
    log_files(run->request, run->gnu ? "GNU" : "ours", 1, "flags in #=; no GNU msgfmt 0.26", milliseconds_of(run));
    _exit(1);
}

_Noreturn static void compile_text(struct run *run, const char *why) {
    struct answer answer = compile(run);
    const char *refusal = answer.ending.failure ? NULL : refusal_of(run, &answer);
    bool is_refused = refusal || (answer.ending.status && !has_not_written(&answer));
    if (answer.ending.status == 0 && leaves_messages_out(run, &answer))
        refusal = "-C and messages that are left out";
    if (refusal && has_gnu(run))
        end_by_gnu(run, refusal);
    end_by_ours(run, &answer, *why ? why : refusal ? refusal : "", is_refused);
}

/* Keep the text that was converted or changed where Kobdzila's msgfmt reads it. */
static void keep_changed(struct run *run) {
    if (run->recoded >= 0)
        close(run->recoded);
    run->recoded = unnamed_file();
    if (run->recoded < 0 || !write_all(run->recoded, run->utf8.bytes, run->utf8.len))
        stop("cannot keep the converted text: ", strerror(errno));
}

/* Convert the text if its charset asks for it. A text with a byte that has no character is left to GNU msgfmt, and so is
 * one whose charset is to stay; libkobdzila would convert it, too. */
static void recode(struct run *run, char *why) {
    struct text *utf8 = &run->utf8;
    struct part text = {run->text.bytes, run->text.bytes + run->text.len};
    enum recoding done = run->request->keeps_charset ? AS_IT_IS : recode_text(text, &utf8->bytes, &utf8->len);
    if (done == NO_MEMORY)
        stop_for_memory();
    if (done == NO_CHARACTER)
        snprintf(why, WHY_SIZE, "a byte that is no character");
    if (done == RECODED)
        keep_changed(run);
}

/* Scan the text. If GNU msgfmt reads the flags of an entry otherwise, they are changed for Kobdzila's msgfmt, and the
 * text is scanned once more. */
static struct needs scan_text(struct run *run) {
    struct part text = utf8_of(run);
    size_t len = (size_t)(text.end - text.at);
    struct needs needs = needs_of(run->request, text.at, len);
    if (!needs.flags_differ)
        return needs;
    char *copy = malloc(len + 1);
    if (!copy)
        stop_for_memory();
    memcpy(copy, text.at, len);
    if (!settle_flags(text, copy)) {
        free(copy);
        return needs;
    }
    free(run->utf8.bytes);
    run->utf8 = (struct text){.bytes = copy, .len = len, .kept = -1};
    keep_changed(run);
    return needs_of(run->request, copy, len);
}

/* --- formats that libkobdzila checks ---------------------------------------------------------------------------- */

/* End a run on a text with such faults: GNU msgfmt says what they are, or this program in its words. */
_Noreturn static void end_with_faults(struct run *run, const struct format_faults *faults, const char *why) {
    if (has_gnu(run))
        end_by_gnu(run, why);
    for (size_t place = 0; place < faults->count; place++)
        tell("%s:%u: %s", run->input_name, faults->at[place].line, faults->at[place].why);
    tell("msgfmt: found %zu fatal error%s", faults->count, faults->count == 1 ? "" : "s");
    log_files(run->request, "ours", 1, why, milliseconds_of(run));
    _exit(1);
}

/* Leave a format that isn't read here to GNU msgfmt. Without GNU msgfmt only keep this reason for the log, if there is
 * no other. */
static void leave_unread(struct run *run, const char *flag, char *why) {
    if (!why[0])
        snprintf(why, WHY_SIZE, "%s that is not read here", flag);
    if (has_gnu(run))
        end_by_gnu(run, why);
}

/* Check the formats. A text that is refused here will be refused as well when it is compiled. As in GNU msgfmt, only a
 * check of the header tells which plural forms serve many numbers. */
static void check_formats(struct run *run, const char *flag, char *why) {
    const struct request *request = run->request;
    unsigned options = (request->checks_header ? KOB_CHECKED : 0) | (request->keeps_fuzzy ? KOB_USE_FUZZY : 0);
    struct format_faults faults;
    kob_refusal refusal;
    if (find_format_faults(&faults, utf8_of(run), options, &refusal)) {
        if (faults.unread)
            leave_unread(run, faults.unread, why);
        if (faults.count)
            end_with_faults(run, &faults, flag);
        free_format_faults(&faults);
    } else if (refusal.fault == KOB_MEMORY) {
        stop_for_memory();
    }
}

_Noreturn static void drive(struct run *run) {
    struct request *request = run->request;
    char why[WHY_SIZE] = "";
    if (request->why[0]) {
        if (has_gnu(run))
            end_by_gnu(run, request->why);
        end_without_gnu(run);
    }
    int failure = read_text(run, why);
    run->input_name = run->input;
    if (failure) {
        snprintf(why, sizeof why, "%s", strerror(failure));
        if (has_gnu(run))
            end_by_gnu(run, why);
        tell("msgfmt-or-gnu: cannot read %s: %s", request->inputs[0], why);
        log_files(request, "ours", 1, why, milliseconds_of(run));
        _exit(1);
    }
    if (!why[0])
        recode(run, why);
    struct needs needs = scan_text(run);
    if (!why[0])
        memcpy(why, needs.why, sizeof why);
    if (needs.line)
        end_with_flag_lines(run, needs.line);
    if (!why[0] && !is_utf8(run->input))
        snprintf(why, sizeof why, "a name that isn't UTF-8");
    if (why[0] && has_gnu(run))
        end_by_gnu(run, why);
    if (needs.format && has_library())
        check_formats(run, needs.format, why);
    run->is_dependent = needs.is_dependent && has_library() && !(request->keeps_charset && needs.helps);
    run->header_line = needs.header_line;
    run->plain_macros = needs.plain_macros;
    if (!run->is_dependent) { /* (msgfmt reads the file for itself) */
        free(run->text.bytes);
        free(run->utf8.bytes);
    }
    compile_text(run, why);
}

int main(int count, char **words) {
    struct run run = {.text.kept = -1, .recoded = -1, .streams = {-1, -1, -1, -1, -1}};
    clock_gettime(CLOCK_MONOTONIC, &run.start);
    if (getenv(guard)) {
        write_all(STDERR_FILENO, taken, strlen(taken));
        return 1;
    }
    if (count == 3 && !strcmp(words[1], "--summary"))
        return summarise(words[2]);
    const char *named = getenv("KOBDZILA_MSGFMT");
    bool is_called = is_linked() && !(named && *named);
    run.ours = is_called ? NULL : find_ours();
    run.request = read_words(count, words);
    if (!run.ours && !is_called)
        stop("cannot find msgfmt next to this program: ", strerror(errno));
    if (!run.request || setenv(guard, "1", 1) < 0)
        stop_for_memory();
    if (run.ours && access(run.ours, X_OK) < 0) {
        int cause = errno;
        if (cause == ENOENT || cause == ENOTDIR)
            stop("there is no ", run.ours);
        tell("msgfmt-or-gnu: cannot run %s: %s", run.ours, strerror(cause));
        return 1;
    }
    drive(&run);
}
