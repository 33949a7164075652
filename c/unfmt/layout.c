/* The layout of strings, as GNU msgunfmt 0.21 prints them: lines end where `breaks` allows it, before the width is full;
 * a string that needs several lines begins with an empty one, unless lines are indented. */
#include "unfmt.h"
#include "breaks.h"
#include "replace.h"

#include <limits.h>
#include <stdlib.h>
#include <string.h>

enum { TAB = 8 };

/* What is printed of a string between two quotes if no line is broken; an escape `\n` ends all portions but the last. */
struct portion {
    const char *at;
    size_t len;
    bool is_last;
};

/* ---- the output */

void add(struct output *to, const char *bytes, size_t len) {
    if (to->room - to->len < len) {
        size_t room = 2 * to->room + len;
        char *more = realloc(to->bytes, room);
        if (!more)
            stop_for_memory();
        to->bytes = more;
        to->room = room;
    }
    memcpy(to->bytes + to->len, bytes, len);
    to->len += len;
}

static void add_spaces(struct output *to, int count) {
    while (count-- > 0)
        add(to, " ", 1);
}

/* ---- characters */

/* A character, or an escape, which is several characters of ASCII. */
struct unit {
    size_t len;     /* in bytes */
    uint32_t first; /* the first character */
};

/* The text is UTF-8, since the catalogue was opened. */
static struct unit unit_at(const char *at) {
    const unsigned char *bytes = (const unsigned char *)at;
    if (bytes[0] == '\\')
        return (struct unit){bytes[1] >= '0' && bytes[1] <= '3' ? 4 : 2, bytes[0]};
    if (bytes[0] < 0x80)
        return (struct unit){1, bytes[0]};
    size_t len = bytes[0] < 0xe0 ? 2 : bytes[0] < 0xf0 ? 3 : 4;
    uint32_t code = bytes[0] & (0xffu >> (len + 1));
    for (size_t place = 1; place < len; place++)
        code = code << 6 | (bytes[place] & 0x3f);
    return (struct unit){len, code};
}

/* ---- breaking lines */

/* A line that is being filled, in a text that is broken. */
struct line {
    struct behind behind; /* what is known of the text */
    int width;
    int full;             /* the columns of what is sure to stay on the line */
    int piece;            /* those of what comes after the last place where it may end */
    char *end;            /* the mark of that place, or NULL */
};

/* End the line at the last place where it may, if what comes after that doesn't fit. */
static void end_if_full(struct line *line) {
    if (!line->end || line->full + line->piece <= line->width)
        return;
    *line->end = true;
    line->full = 0;
}

/* Note whether the line may end before a character; `mark` is the mark of that place. */
static void pass(struct line *line, enum chance chance, char *mark) {
    if (chance == NO_BREAK)
        return;
    end_if_full(line);
    line->full = chance == MUST_BREAK ? 0 : line->full + line->piece;
    line->piece = 0;
    line->end = chance == MUST_BREAK ? NULL : mark;
}

/* Take a unit. No line ends within an escape, or before the escape that ends the portion. */
static void take(struct line *line, struct unit unit, const char *at, char *mark, bool is_last) {
    enum chance chance = chance_before(&line->behind, unit.first);
    bool is_end = is_last && unit.first == '\\' && at[1] == 'n';
    pass(line, is_end ? NO_BREAK : chance, mark);
    if (chance != MUST_BREAK)
        line->piece += columns_of(unit.first);
    for (size_t place = 1; unit.first == '\\' && place < unit.len; place++) {
        chance_before(&line->behind, (unsigned char)at[place]);
        line->piece++;
    }
}

/* Mark the bytes before which a line ends. The first line begins at column `start`; each has `width` columns. Returns
 * whether there is one. */
static bool mark_breaks(struct portion portion, int start, int width, char *marks) {
    struct line line = {.width = width, .full = start};
    memset(marks, false, portion.len);
    for (size_t place = 0; place < portion.len;) {
        struct unit unit = unit_at(portion.at + place);
        take(&line, unit, portion.at + place, marks + place, place + unit.len == portion.len);
        place += unit.len;
    }
    end_if_full(&line);
    return memchr(marks, true, portion.len);
}

/* ---- strings */

static int next_tab(int column) { return (column / TAB + 1) * TAB; }

/* The column at which a string begins: behind the keyword, or on a further line if it is empty. */
static int column_of(const struct layout *layout, size_t keyword_len) {
    if (layout->indents)
        return next_tab((int)keyword_len);
    return keyword_len ? (int)keyword_len + 1 : 0;
}

/* Add a portion, in one line or several. */
static void add_marked(struct output *to, const struct layout *layout, struct portion portion, const char *marks) {
    add(to, "\"", 1);
    for (size_t place = 0; place < portion.len; place++) {
        if (marks[place]) {
            add(to, "\"\n", 2);
            add_spaces(to, column_of(layout, 0));
            add(to, "\"", 1);
        }
        add(to, portion.at + place, 1);
    }
    add(to, "\"\n", 2);
}

/* Break a portion that begins behind a keyword of this length. Columns are counted from the quote that opens a further
 * line; the one that closes it has room as well. */
static bool break_portion(const struct layout *layout, size_t keyword_len, struct portion portion, char *marks) {
    int further = column_of(layout, 0) + 1, start = column_of(layout, keyword_len) + 1 - further;
    if (layout->width != INT_MAX)
        return mark_breaks(portion, start, layout->width - 1 - further, marks);
    memset(marks, false, portion.len);
    return false;
}

/* Add the first portion of a string with its keyword. */
static void add_first(struct output *to, const struct layout *layout, const char *keyword, size_t len,
                      struct portion portion, char *marks) {
    bool is_broken = break_portion(layout, len, portion, marks);
    add(to, keyword, len);
    add_spaces(to, column_of(layout, len) - (int)len);
    if (!layout->indents && portion.len && (!portion.is_last || is_broken)) {
        add(to, "\"\"\n", 3);
        break_portion(layout, 0, portion, marks);
    }
    add_marked(to, layout, portion, marks);
}

/* Add a portion that isn't the first. */
static void add_further(struct output *to, const struct layout *layout, struct portion portion, char *marks) {
    break_portion(layout, 0, portion, marks);
    add_spaces(to, column_of(layout, 0));
    add_marked(to, layout, portion, marks);
}

/* ---- the text that isn't wrapped */

/* Return the length of the line at `at`, without its LF. */
static size_t line_len(const char *at, const char *end) {
    const char *feed = memchr(at, '\n', (size_t)(end - at));
    return (size_t)((feed ? feed : end) - at);
}

/* Read the portion that is a line, from its quote on. */
static struct portion portion_of(const char *at, const char *end) {
    size_t len = line_len(at, end);
    const char *next = at + len + 1;
    return (struct portion){at + 1, len - 2, next >= end || *next != '"'};
}

void add_entry(struct output *to, const struct layout *layout, const char *text, size_t len) {
    const char *end = text + len;
    char *marks = malloc(len + 1);
    if (!marks)
        stop_for_memory();
    for (const char *at = text; at < end; at += line_len(at, end) + 1) {
        if (*at == '"') {
            add_further(to, layout, portion_of(at, end), marks);
            continue;
        }
        const char *keyword = at;
        size_t keyword_len = (size_t)((const char *)memchr(at, ' ', (size_t)(end - at)) - at);
        at += keyword_len + 1;
        struct portion first = portion_of(at, end);
        if (!first.len && !first.is_last) /* (what it stands for is written anew) */
            at += line_len(at, end) + 1;
        add_first(to, layout, keyword, keyword_len, portion_of(at, end), marks);
    }
    free(marks);
}
