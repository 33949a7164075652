/* What the parts of kob-msgunfmt share: the options, and the layout of strings. */
#ifndef UNFMT_H
#define UNFMT_H

#include <stdbool.h>
#include <stddef.h>

/* The exit statuses, as GNU msgunfmt has them. */
enum status { DONE = 0, FAILED = 1 };

/* What the arguments ask for. Its strings are the arguments themselves. */
struct options {
    char **names;       /* of the MO files; `-` is standard input */
    int name_count;
    const char *output; /* -o, or NULL: standard output */
    int width;          /* of a line */
    bool wraps, indents, escapes, sorts, forces, is_strict;
};

/* Read the arguments. Returns true, or false with the exit status if the run ends here. */
bool read_options(struct options *options, int count, char **words, enum status *status);

/* How strings are laid out. */
struct layout {
    int width; /* of a line; INT_MAX: no line is broken */
    bool indents;
};

/* What is written so far. */
struct output {
    char *bytes;
    size_t len, room;
};

/* Add bytes to the output; it ends the run if memory runs out. */
void add(struct output *to, const char *bytes, size_t len);
/* Add an entry of a PO text that isn't wrapped: each line with another keyword begins a string. */
void add_entry(struct output *to, const struct layout *layout, const char *text, size_t len);

#endif
