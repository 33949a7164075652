/* What the parts of msgfmt-or-gnu share: the request of a command line, the needs of a PO text, the two programs that
 * may compile it, and the log. */
#ifndef OR_GNU_H
#define OR_GNU_H

#include <stdbool.h>
#include <stddef.h>
#include <sys/types.h>

enum { WHY_SIZE = 200 }; /* bytes of a reason, with its NUL */

/* What becomes of a backslash: two of them in words from outside, so that what is shown can be read back. */
enum backslashes { DOUBLED, AS_THEY_ARE };

/* This program's name, before what it says of itself. */
extern const char program_name[];

/* Write how bytes are shown, with a NUL, and return its length. What has no room is left out, by whole characters. */
size_t show(char *to, size_t room, const char *bytes, size_t len, enum backslashes backslashes);
/* Return how bytes are shown; NULL if out of memory. */
char *shown(const char *bytes, size_t len, enum backslashes backslashes);
/* Print a line on the error output, in which all that the values bring is shown. */
void tell(const char *format, ...) __attribute__((format(printf, 1, 2)));

/* What the arguments ask for. Its strings are the arguments themselves. */
struct request {
    char **given;        /* the arguments in their order, and NULL */
    char **inputs;       /* the PO files */
    int input_count;
    const char *output;  /* NULL for messages.mo */
    const char **folders; /* where relative PO files are looked for (-D) */
    int folder_count;
    bool checks_format, checks_header, checks_compatibility;
    bool keeps_fuzzy, keeps_charset, wants_statistics;
    int verbosity;
    bool wants_version, wants_help;
    char why[WHY_SIZE]; /* why only GNU msgfmt can serve it, as it is shown, or empty */
};

/* Read the arguments as GNU msgfmt does, including shortened, repeated and permuted options. NULL if out of memory. */
struct request *read_words(int count, char **words);

/* The PO text of a request. */
struct text {
    char *bytes;
    size_t len;
    int kept; /* a descriptor for what was read from a pipe, or -1 */
};

/* A piece of a PO text. */
struct part {
    const char *at, *end;
};

/* What became of a text that may be in another charset than UTF-8. A byte without a character is NO_CHARACTER. */
enum recoding { AS_IT_IS, RECODED, NO_CHARACTER, NO_MEMORY };

/* Convert a text to UTF-8, with `UTF-8` in place of the charset's name, if its header names a charset that GNU msgfmt
 * calls portable and that libkobdzila decodes. The caller frees *bytes. */
enum recoding recode_text(struct part text, char **bytes, size_t *len);

/* What decides which program compiles a PO text. */
struct needs {
    char why[WHY_SIZE];      /* why Kobdzila's msgfmt would refuse it or can't check it, as it is shown, or empty */
    bool helps;              /* GNU msgfmt may compile what Kobdzila's refuses of it */
    unsigned long long line; /* the number of the first `#=` line that has a flag, or 0 */
    unsigned long long header_line; /* that of the header's first keyword, or 0 */
    bool is_dependent;       /* an entry may have system-dependent strings, which libkobdzila compiles */
    size_t plain_macros;     /* how many entries have a macro without being flagged c-format */
    const char *format;      /* the flag of formats that are to be checked by libkobdzila, or NULL */
    bool has_odd_format;     /* a C format that is to be checked has a directive that only GNU msgfmt reads */
    bool flags_differ;       /* GNU msgfmt reads the flags of an entry otherwise, and that matters */
};

/* Scan a PO text, in one pass. */
struct needs needs_of(const struct request *request, const char *bytes, size_t len);

bool is_utf8(const char *name);
/* Return how many bytes the character at `at` has, and which it is; 0 if these bytes are no UTF-8. */
size_t character_at(const unsigned char *at, size_t len, unsigned *which);

/* How a program ended. */
struct ending {
    int status;  /* its exit status, or 128 plus the number of the signal */
    int signal;  /* the signal that killed it, or 0 */
    int failure; /* the errno of why it couldn't be started, or 0 */
    int cause;   /* the errno of its last call that failed, or 0 if that isn't known */
};

/* What a compiler of PO texts printed in a run, and how it ended. */
struct answer {
    struct ending ending;
    char *said;
    size_t len;
};

/* The descriptors for a program's streams; -1 is the driver's own stream. */
struct streams {
    int input, output, errors;
    int extra, extra_as; /* a descriptor that the program gets as number extra_as, or -1 */
};

/* What a driver says that was taken for one of the two programs, by which it is recognised. */
extern const char taken[];

/* Return the path of the Kobdzila msgfmt that was built or installed with this program; NULL and errno on failure. */
char *find_ours(void);
/* Find GNU msgfmt and return its path. `ours` is never taken for it; NULL means find_ours(). Returns NULL if there is
 * none, with errno 0, or if that can't be found out, with its cause. */
char *find_gnu(const char *ours);
/* Return the version of the GNU msgfmt at `path` as 1000 * major + minor, 0 if it doesn't say which, or -1 and errno if
 * it can't be asked. */
int gnu_version(const char *path);
/* Whether that version knows flags in `#=` lines, which Kobdzila's msgfmt takes for comments. */
bool knows_flag_lines(int version);
/* Return why a text with such flags isn't compiled; `path` is NULL if there is no GNU msgfmt. NULL if out of memory. */
char *why_no_flag_lines(const char *path, int version);

/* Give this process the program's streams. */
void take_streams(struct streams streams);
/* Run a program until it ends. A signal that ends the driver is passed on to the program first. */
struct ending run_program(const char *path, char **words, struct streams streams);

/* Have programs run with the signals blocked that are blocked now. A thread that blocks others calls it before that. */
void keep_signal_mask(void);
/* Replace this process by the program. Returns only on failure, with why. */
int become_program(const char *path, char **words, struct streams streams);
/* End the driver the way the program ended. */
_Noreturn void end_as(struct ending ending);

/* Whether Kobdzila's msgfmt is a part of this program. */
bool is_linked(void);
/* Call it, as run_program runs a program. This process keeps the input; its output and errors are its own again. */
struct ending call_linked(char **words, struct streams streams);

enum { ABOVE_STREAMS = 10 }; /* the first number for the driver's own descriptors */
/* Duplicate a descriptor above those of the streams, with FD_CLOEXEC; -1 and errno on failure. */
int duplicate_above(int descriptor);
/* Move a descriptor there, and return its new number; -1 and errno on failure. */
int raised(int descriptor);
/* Open a file without a name, in memory or in TMPDIR; -1 and errno on failure. */
int unnamed_file(void);
/* Read everything from a descriptor, and add a NUL; NULL and errno on failure. */
char *read_all(int descriptor, size_t *len);

/* Like read_all, but stop once there are more than `most` bytes. */
char *read_most(int descriptor, size_t most, size_t *len);
bool write_all(int descriptor, const char *bytes, size_t len);
/* Return the descriptor that a path such as /dev/stdout or /dev/fd/63 names, or -1. */
int descriptor_of(const char *path);

/* Append a line for each PO file to the log, if there is one. */
void log_files(const struct request *request, const char *who, int status, const char *why, double milliseconds);
/* Print the table of a log, and return the exit status. */
int summarise(const char *name);

#endif
