/* A PO text as GNU msgfmt reads it, for the scan in or_gnu_text.c: its tokens, its entries, and the bytes that strings
 * stand for (GNU gettext manual, "PO Files"). */
#ifndef OR_GNU_TEXT_H
#define OR_GNU_TEXT_H

#include "or_gnu.h"

#include <stdbool.h>
#include <stdint.h>
#include <string.h>

static inline bool begins(struct part part, const char *word) {
    size_t len = strlen(word);
    return (size_t)(part.end - part.at) >= len && !memcmp(part.at, word, len);
}

static inline bool is(struct part part, const char *word) {
    return (size_t)(part.end - part.at) == strlen(word) && begins(part, word);
}

/* Return where a word first stands in a part, or NULL. Its byte number `rare` is the one to look for. */
const char *find(struct part part, const char *word, size_t rare);

/* ---- tokens (or_gnu_tokens.c) */

enum kind { END, COMMENT, MSGCTXT, MSGID, MSGID_PLURAL, MSGSTR, DOMAIN, STRING, NUMBER, OPEN, CLOSE, JUNK };

struct token {
    enum kind kind;
    struct part part;        /* of a string what is between its quotes, of a comment what follows its `#` */
    unsigned long long line;
    bool obsolete, previous; /* it stands behind `#~`, behind `#|`; behind `#~|` it is both */
};

struct lexer {
    const char *at, *end;
    unsigned long long line;
    bool obsolete, previous;
    bool saw_obsolete; /* there was a `#~` since this was last set to false */
};

struct token next_token(struct lexer *lexer);

/* ---- strings (or_gnu_strings.c) */

/* What is left of the strings of a keyword, from the first quote to the last one. */
struct spelled {
    struct part rest;
    bool in_string;
};

struct spelled spelled(struct part strings);
/* Add the bytes that strings stand for to a hash. */
uint64_t hash_strings(uint64_t hash, struct part strings);
/* Return the next byte that the strings stand for, or -1 at their end. */
int next_byte(struct spelled *strings);
/* Go behind the first place where the strings have a word, which doesn't begin again inside of itself. False if there is
 * none. */
bool skip_behind(struct spelled *strings, const char *word);
/* Whether a text has a directive with a macro, such as `%08<PRIx64>`, as far as that isn't cut into several strings. */
bool names_macro(struct part text);
/* Whether the strings of a keyword may have a directive with the flag `I`, which libkobdzila then decides. A `%` that is
 * spelled as an escape isn't seen. */
bool may_have_digits_flag(struct part text);
/* Whether the string between two quotes begins or ends with a newline. */
bool begins_with_newline(struct part string);
bool ends_with_newline(struct part string);

/* ---- entries (or_gnu_entries.c) */

/* The flags of an entry. */
struct flags {
    bool fuzzy, c_format; /* as GNU msgfmt has them: those of the last line of flags */
    bool our_fuzzy, our_c_format; /* as Kobdzila's has them: those of all lines, up to the last `#~` */
    const char *checked;  /* the first flag of a format that libkobdzila checks, or NULL: of the last line of flags */
    const char *our_checked; /* of all lines, as Kobdzila's has them */
    bool is_checked_again;   /* several lines have one */
    bool objc_format;     /* of the last line of flags */
    bool has_range;
    struct part other;    /* the first flag of a format that only GNU msgfmt checks, or NULL */
};

struct entry {
    unsigned long long line, msgstr_line; /* of the first keyword, and of the first `msgstr` */
    struct part whole;                    /* its keywords and strings */
    struct part context, id, plural, form; /* strings from the first quote to the last one, or NULL; the first form */
    struct flags flags;
    bool is_obsolete, is_translated, newlines_differ;
    bool is_broken;    /* GNU msgfmt refuses it */
    const char *fault; /* why, if Kobdzila's msgfmt doesn't */
};

struct reader {
    struct lexer lexer;
    struct token token;
    struct flags flags; /* of the comments since the last entry */
    bool in_previous;   /* what is read is the part behind `#|` */
    unsigned long long flag_line; /* the number of the first `#=` line that has a flag, or 0 */
    bool has_fuzzy;  /* there was a flag `fuzzy`, of whatever entry */
    bool has_domain; /* there was a `domain` line, perhaps an obsolete one */
};

struct reader read_text_from(struct part text);
/* Read the next entry, or a part of a text that isn't one. False at the end of the text. */
bool read_entry(struct reader *reader, struct entry *entry);

/* Change the lines of flags in a copy of a text so that Kobdzila's msgfmt reads them as GNU msgfmt does: of several before
 * an entry the last one counts, and `#!` has flags as well. False if there is nothing to change. */
bool settle_flags(struct part text, char *copy);

/* Return the flag of a format that libkobdzila checks, if the flag is that, perhaps behind `possible-`; NULL otherwise
 * (or_gnu_faults.c). */
const char *checked_format(struct part flag);

/* ---- keys (or_gnu_keys.c) */

/* The keys of entries, those of obsolete ones among them. */
struct keys {
    struct key *at;
    size_t obsolete, count, room; /* obsolete ones, which come first, and all */
    bool has_failed; /* memory ran out */
};

void add_key(struct keys *keys, const struct entry *entry);
/* Whether an obsolete entry has the key of another one; it frees the keys. */
bool has_obsolete_repeat(struct keys *keys);

/* ---- formats of C (or_gnu_c_format.c) */

/* Whether the strings of a keyword have a directive of C that only GNU msgfmt reads, such as `%Zu`. */
bool has_odd_directive(struct part strings);
/* Whether a PO text may have one, in whatever entry. A `%` that is spelled as an escape isn't seen. */
bool may_have_odd_directive(struct part text);

/* ---- the header (or_gnu_header.c) */

/* Whether a plural rule stands in the header's text and can't be read. */
bool has_broken_rule(struct part header);

#endif
