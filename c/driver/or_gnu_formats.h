/* What is wrong with formats in a PO text. libkobdzila finds it; here it is said, in GNU msgfmt's words. */
#ifndef OR_GNU_FORMATS_H
#define OR_GNU_FORMATS_H

#include "kobdzila.h"
#include "or_gnu_text.h"

/* ---- the arguments of a format (or_gnu_arguments.c) */

enum argument_kind { INTEGER, FLOATING, CHARACTER, TEXT, PERCENT, ANY };

struct argument {
    const char *name; /* a piece of the format, or NULL */
    size_t len;
    enum argument_kind kind;
};

/* The arguments that a format takes, or why it is none. */
struct arguments {
    struct argument *at;
    size_t count, room;
    unsigned directives; /* which were read so far */
    char *why;           /* why it is no format, or NULL */
    bool has_failed;     /* memory ran out, and what is here isn't all of it */
};

void add_argument(struct arguments *arguments, struct argument argument);
/* Note why a text is no format, and return NULL. */
const char *refuse_format(struct arguments *arguments, const char *words, ...) __attribute__((format(printf, 2, 3)));
/* Order them by their names. */
void sort_arguments(struct arguments *arguments);
int compare_names(const struct argument *one, const struct argument *two);
/* Compare the names at two places; the end of a list comes after all names. */
int compare_at(const struct arguments *ones, size_t here, const struct arguments *others, size_t there);
void free_arguments(struct arguments *arguments);
/* Return these words, formatted; NULL if memory runs out. */
char *words_of(const char *words, ...) __attribute__((format(printf, 1, 2)));

/* How the two texts are called. */
struct called {
    const char *original, *form;
};

/* ---- each language (or_gnu_python.c, or_gnu_brace.c) */

typedef void read_format(struct arguments *arguments, const char *text);
/* Return how the arguments of two formats differ; NULL if they don't or if memory runs out. */
typedef char *find_difference(const struct arguments *original, const struct arguments *form, struct called called,
                              bool is_strict);

read_format read_python_format, read_brace_format;
find_difference python_difference, brace_difference;

/* ---- all of a text (or_gnu_faults.c) */

/* What is wrong with a form. */
struct format_fault {
    unsigned line;
    char *id, *why; /* the msgid, and what is said; never NULL */
};

struct format_faults {
    struct format_fault *at;
    size_t count;
    const char *unread; /* the flag of the first format that libkobdzila doesn't read, or NULL */
};

/* Whether libkobdzila is a part of this program. Otherwise only GNU msgfmt checks formats but C's, and compiles
 * macros. */
bool has_library(void);
/* Whether the flag of a format that libkobdzila checks stands in a text, wherever that is. */
bool names_checked_format(struct part text);
/* Find what is wrong with the formats of a text in UTF-8. `options` are those of kob_open_po. False and the refusal if
 * libkobdzila refuses the text or if memory runs out. */
bool find_format_faults(struct format_faults *faults, struct part text, unsigned options, kob_refusal *why);
void free_format_faults(struct format_faults *faults);

#endif
