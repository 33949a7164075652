/* What the parts of kob-compile share: the options, the catalogues of a run, and how each of them ended. */
#ifndef COMPILE_H
#define COMPILE_H

#include "kobdzila.h"
#include "or_gnu_formats.h"
#include "replace.h"
#include "said.h"

#include <signal.h>
#include <stdatomic.h>
#include <stdbool.h>
#include <stddef.h>
#include <stdio.h>
#include <sys/types.h>
#include <time.h>

/* The exit status of a run; of several that apply, the largest. */
enum status { DONE = 0, REFUSED = 1, USAGE = 2, TROUBLE = 3 };

/* What the arguments ask for. Its strings are the arguments themselves. */
struct options {
    char **places;         /* folders and files */
    int place_count;
    const char *output;    /* the folder for MO files (-o), or NULL: each is written next to its PO file */
    const char *domain;    /* -d, or NULL */
    const char *sarif;     /* --sarif, or NULL */
    const char **excluded; /* names of folders that aren't looked into */
    int excluded_count;
    unsigned jobs;         /* threads, at least 1 */
    bool checks, keeps_fuzzy, wants_statistics; /* as in msgfmt */
    bool only_checks;      /* --check: no MO file is written */
    bool forces, watches, wants_json, without_gnu, is_quiet;
};

/* Read the arguments. Returns true, or false with the exit status if the run ends here. */
bool read_options(struct options *options, int count, char **words, enum status *status);

enum outcome {
    WAITING,     /* not reached: the run was interrupted */
    IS_CURRENT,  /* its MO file is newer */
    IS_COMPILED, /* and written, unless the run only checks */
    IS_REFUSED,  /* the PO text is: `line` and `why` say where and why */
    IS_UNREAD,   /* the PO file can't be read */
    IS_UNWRITTEN /* the MO file can't be written */
};

/* A PO file, and what became of it. */
struct catalogue {
    char *po, *mo;        /* its path, and that of its MO file */
    char *language;       /* as its path names it */
    char *domain;         /* the text domain, or NULL if neither the path nor -d names one */
    off_t size;
    struct timespec time; /* of its last change, when it was found */
    bool is_changed;      /* since the last round of --watch */
    bool is_kept;         /* its outcome is that of an earlier round */
    enum outcome outcome;
    bool by_gnu;          /* the answer is GNU msgfmt's */
    bool lacks_gnu;       /* GNU msgfmt may compile it, and there is none */
    enum kob_fault fault; /* why Kobdzila refused it */
    unsigned line;        /* 0 if the reason has no line */
    char *why;            /* the reason, as it is printed, or NULL */
    struct format_faults formats; /* with -c: what is wrong with formats but C's; the first is `line` and `why` */
    unsigned missing;     /* a bit for each field that the header lacks, in the order of `fields`; with -c */
    unsigned header_line;
    kob_counts counts;
    size_t mo_size;
};

struct catalogues {
    struct catalogue *at;
    size_t count, room;
};

/* A run of the program. */
struct run {
    struct options options;
    struct catalogues catalogues;
    mode_t mode;            /* of a new MO file */
    bool has_blocks;        /* the terminal speaks UTF-8 */
    struct timespec start;
    atomic_size_t finished; /* how many catalogues have ended */
};

/* The number of the signal that ends the run, or 0; and those that do, with a 0 after them. */
extern volatile sig_atomic_t stopped_by;
extern const int ending_signals[];

/* ---- finding PO files (find.c, layout.c) */

/* What a search is told about the folders that it enters, and which files it has to compile in any case. */
struct watcher;

/* Find the PO files of the arguments, sorted by path. Files and folders that can't be read are reported. Returns the
 * status. */
enum status find_catalogues(struct run *run, struct watcher *watcher);
void free_catalogues(struct catalogues *catalogues);
/* Give a PO file its language, domain and MO file, by its path. False if its place under -o isn't known. */
bool place_catalogue(const struct options *options, struct catalogue *it);
/* Whether a name ends with `.po`. */
bool is_po_name(const char *name);
/* Return the path of a name in a folder. */
char *path_of(const char *folder, const char *name);

/* ---- compiling (queue.c, one.c, gnu.c) */

/* Compile the catalogues that need it, several at once, the largest first. */
void compile_all(struct run *run);
/* Compile one; it may be called by several threads. */
void compile_one(const struct run *run, struct catalogue *it);
/* What GNU msgfmt made of a PO file: an MO file, or else why it refused that, if it says so. The caller frees both. */
struct gnu_answer {
    char *mo;
    size_t len;
    kob_counts counts;
    char *why;
    unsigned line;    /* of what it refused, or of the header of which it warns */
    unsigned missing; /* a bit for each field that the header lacks */
    bool is_missing;  /* there is no GNU msgfmt */
};
/* Compile a PO file with GNU msgfmt, if there is one; it may be called by several threads. */
struct gnu_answer ask_gnu(const struct run *run, char *name);
/* Say why GNU msgfmt couldn't be run, or which signal ended it, if that is so. */
void report_gnu_failure(void);
/* Return why there is no GNU msgfmt that knows flags in `#=` lines, or NULL if there is one. */
char *why_no_gnu_for_flag_lines(void);
/* ---- what is printed (report.c, table.c, progress.c, json.c, sarif.c) */

enum status status_of(const struct run *run);
/* Print warnings, with --statistics the counts, and the table; and what was refused or has failed. */
void report_counts(const struct run *run);
void report_troubles(const struct run *run);
/* Print what --json and --sarif ask for. Returns the status, which a failure raises. */
enum status print_for_machines(const struct run *run, enum status status);
void print_table(const struct run *run, FILE *to);
void print_summary(const struct run *run, FILE *to);
/* Show on a terminal how far the run is, if it has taken half a second; and take it away. */
void show_progress(const struct run *run);
void clear_progress(void);
bool has_progress(void);
void print_json(const struct run *run, FILE *to, enum status status);
bool write_sarif(const struct run *run);
void print_json_text(FILE *to, const char *text);

double seconds_since(struct timespec start);
/* Return the share of a part, in tenths of a per cent, rounded down; but 1 for less than that, if the part isn't 0. */
unsigned tenths_of(size_t part, size_t whole);

/* ---- watching (watch.c) */

/* Compile, and again on each change, until a signal stops it. */
enum status watch(struct run *run);
/* Hear of changes in this folder, and if it is taken away where no folder above it is watched. */
void watch_folder(struct watcher *watcher, const char *path, bool is_given);
/* Whether this PO file was changed since the last search. */
bool was_changed(const struct watcher *watcher, const char *path);

#endif
