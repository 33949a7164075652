/* The entries of a PO text, by the grammar of GNU msgfmt. That has no comment inside an entry, and its obsolete entries and
 * previous msgids have the same form as all others. */
#include "or_gnu_text.h"

#include <limits.h>
#include <string.h>

/* ---- flags */

/* Whether a flag says that the texts are, or may be, formats of this language. */
static bool says(struct part flag, const char *format) {
    static const char possible[] = "possible-";
    if (begins(flag, possible))
        flag.at += sizeof possible - 1;
    return is(flag, format);
}

static bool denies(struct part flag, const char *format) {
    const char *dash = memchr(flag.at, '-', (size_t)(flag.end - flag.at));
    return (begins(flag, "no-") || begins(flag, "impossible-")) && is((struct part){dash + 1, flag.end}, format);
}

/* Whether a flag is of another format than C's. */
static bool is_of_other(struct part flag) {
    static const char ending[] = "-format";
    size_t len = (size_t)(flag.end - flag.at), ending_len = sizeof ending - 1;
    return len > ending_len && !memcmp(flag.end - ending_len, ending, ending_len) && !is(flag, "c-format") &&
           !begins(flag, "no-") && !begins(flag, "impossible-");
}

static void take_flag(struct flags *flags, struct part flag) {
    flags->fuzzy |= is(flag, "fuzzy");
    if (says(flag, "c-format") || denies(flag, "c-format"))
        flags->c_format = says(flag, "c-format");
    flags->objc_format |= says(flag, "objc-format");
    flags->has_range |= is(flag, "range:");
    const char *checked = checked_format(flag);
    if (!flags->checked)
        flags->checked = checked;
    if (!checked && !flags->other.at && is_of_other(flag))
        flags->other = flag;
}

/* Cut off the next flag. False if there is none; flags are separated by blanks and commas. */
static bool next_flag(struct part *rest, struct part *flag) {
    static const char separators[] = "\n \t\r\f\v,";
    while (rest->at < rest->end && memchr(separators, *rest->at, sizeof separators - 1))
        rest->at++;
    flag->at = rest->at;
    while (rest->at < rest->end && !memchr(separators, *rest->at, sizeof separators - 1))
        rest->at++;
    flag->end = rest->at;
    return flag->at < flag->end;
}

/* Take in a comment: `#,` has flags, and in GNU msgfmt `#!` has them as well. */
static void look_at_comment(struct reader *reader, const struct token *token) {
    struct part rest = token->part, flag;
    char mark = rest.at < rest.end ? *rest.at++ : '\0';
    struct flags *flags = &reader->flags;
    struct flags now = {.our_fuzzy = flags->our_fuzzy, .our_c_format = flags->our_c_format,
                        .our_checked = flags->our_checked, .is_checked_again = flags->is_checked_again};
    if (mark == '=' && !reader->flag_line && next_flag(&rest, &flag))
        reader->flag_line = token->line;
    if (mark != ',' && mark != '!')
        return;
    bool is_ours = mark == ',' && !token->obsolete && !token->previous;
    while (next_flag(&rest, &flag)) {
        take_flag(&now, flag);
        now.our_fuzzy |= is_ours && is(flag, "fuzzy");
        now.our_c_format |= is_ours && is(flag, "c-format");
    }
    now.is_checked_again |= is_ours && now.checked && flags->our_checked;
    if (is_ours && !now.our_checked)
        now.our_checked = now.checked;
    reader->has_fuzzy |= now.fuzzy;
    *flags = now;
}

static bool has_flags(const struct token *token) {
    struct part part = token->part;
    return token->kind == COMMENT && !token->obsolete && !token->previous && (begins(part, ",") || begins(part, "!"));
}

bool settle_flags(struct part text, char *copy) {
    struct lexer lexer = {text.at, text.end, 1, false, false, false};
    char *last = NULL;
    bool is_changed = false;
    for (struct token token; (token = next_token(&lexer)).kind != END;) {
        if (token.kind != COMMENT)
            last = NULL;
        if (!has_flags(&token))
            continue;
        char *mark = copy + (token.part.at - text.at);
        is_changed |= last || *mark == '!';
        if (last)
            *last = ' ';
        *mark = ',';
        last = mark;
    }
    return is_changed;
}

/* ---- the tokens of an entry */

static void advance(struct reader *reader) {
    reader->token = next_token(&reader->lexer);
    if (reader->lexer.saw_obsolete) {
        reader->flags.our_fuzzy = reader->flags.our_c_format = reader->flags.is_checked_again = false;
        reader->flags.our_checked = NULL;
    }
    reader->lexer.saw_obsolete = false;
}

struct reader read_text_from(struct part text) {
    struct reader reader = {.lexer = {text.at, text.end, 1, false, false, false}};
    advance(&reader);
    return reader;
}

static bool is_at(const struct reader *reader, enum kind kind) {
    return reader->token.kind == kind && reader->token.previous == reader->in_previous;
}

/* What GNU msgfmt refuses, as the log says it. */
static const char mixed[] = "inconsistent use of #~", bad_line[] = "a bad line #~ or #|";
static const char in_entry[] = "a comment inside an entry";

static bool refuse_for(struct entry *entry, const char *fault) {
    entry->is_broken = true;
    entry->fault = fault;
    return false;
}

/* Note that GNU msgfmt refuses the entry at the current token; and why, if Kobdzila's doesn't. */
static bool refuse(const struct reader *reader, struct entry *entry) {
    const struct token *token = &reader->token;
    if (token->obsolete != entry->is_obsolete && token->kind != END && token->kind != COMMENT)
        return refuse_for(entry, mixed);
    if (entry->is_obsolete || token->obsolete || token->previous || reader->in_previous)
        return refuse_for(entry, bad_line);
    return refuse_for(entry, token->kind == COMMENT ? in_entry : NULL);
}

/* Take a token of this kind, which has to be as obsolete as the entry. */
static bool take(struct reader *reader, struct entry *entry, enum kind kind) {
    if (!is_at(reader, kind) || reader->token.obsolete != entry->is_obsolete)
        return refuse(reader, entry);
    entry->whole.end = reader->token.part.end;
    advance(reader);
    return true;
}

/* What is known of the strings of a keyword. */
struct ends {
    bool is_empty, begins, ends; /* they begin and end with a newline */
};

static bool take_strings(struct reader *reader, struct entry *entry, struct part *strings, struct ends *ends) {
    *ends = (struct ends){.is_empty = true};
    if (is_at(reader, STRING))
        strings->at = reader->token.part.at - 1;
    do {
        struct part string = reader->token.part;
        if (!take(reader, entry, STRING))
            return false;
        strings->end = string.end + 1;
        if (string.at == string.end)
            continue;
        if (ends->is_empty)
            ends->begins = begins_with_newline(string);
        ends->ends = ends_with_newline(string);
        ends->is_empty = false;
    } while (is_at(reader, STRING));
    return true;
}

/* ---- the parts of an entry */

/* Take a context, if there is one, and the msgid. */
static bool take_id(struct reader *reader, struct entry *entry, struct ends *ends) {
    if (is_at(reader, MSGCTXT) &&
        (!take(reader, entry, MSGCTXT) || !take_strings(reader, entry, &entry->context, ends)))
        return false;
    return take(reader, entry, MSGID) && take_strings(reader, entry, &entry->id, ends);
}

static void compare(struct entry *entry, const struct ends *id, const struct ends *other) {
    entry->newlines_differ |= id->begins != other->begins || id->ends != other->ends;
}

/* Take the strings of a form, of which the first one says whether the entry is translated. */
static bool take_form(struct reader *reader, struct entry *entry, const struct ends *id) {
    struct ends ends;
    struct part form = {NULL, NULL};
    if (!take_strings(reader, entry, &form, &ends))
        return false;
    if (!entry->form.at) {
        entry->form = form;
        entry->is_translated = !ends.is_empty;
    }
    compare(entry, id, &ends);
    return true;
}

/* The number that digits are, or the largest one if they are a larger one. */
static unsigned long number_of(struct part digits) {
    unsigned long number = 0;
    for (const char *at = digits.at; at < digits.end; at++)
        number = number > (ULONG_MAX - 9) / 10 ? ULONG_MAX : 10 * number + (unsigned long)(*at - '0');
    return number;
}

static bool take_index(struct reader *reader, struct entry *entry, unsigned long index) {
    if (!take(reader, entry, OPEN))
        return false;
    if (is_at(reader, NUMBER) && number_of(reader->token.part) != index)
        return refuse(reader, entry);
    return take(reader, entry, NUMBER) && take(reader, entry, CLOSE);
}

static bool take_forms(struct reader *reader, struct entry *entry, const struct ends *id) {
    struct ends plural;
    if (!take(reader, entry, MSGID_PLURAL) || !take_strings(reader, entry, &entry->plural, &plural))
        return false;
    compare(entry, id, &plural);
    entry->msgstr_line = reader->token.line;
    unsigned long index = 0;
    do
        if (!take(reader, entry, MSGSTR) || !take_index(reader, entry, index++) || !take_form(reader, entry, id))
            return false;
    while (is_at(reader, MSGSTR));
    return true;
}

/* Take what stands behind `#|`: a msgid with its context and its plural. */
static bool take_previous(struct reader *reader, struct entry *entry) {
    struct entry before = {.is_obsolete = reader->token.obsolete};
    struct ends ends;
    reader->in_previous = true;
    bool done = take_id(reader, &before, &ends);
    if (done && is_at(reader, MSGID_PLURAL))
        done = take(reader, &before, MSGID_PLURAL) && take_strings(reader, &before, &before.plural, &ends);
    if (done && (reader->token.kind == END || reader->token.kind == COMMENT))
        done = refuse(reader, &before);
    reader->in_previous = false;
    if (!done)
        return refuse_for(entry, before.fault);
    return before.is_obsolete == reader->token.obsolete || refuse_for(entry, mixed);
}

/* Refuse a token that begins no entry. Behind a comment, Kobdzila's msgfmt goes on with the entry before it. */
static bool refuse_start(const struct reader *reader, struct entry *entry, bool has_previous) {
    bool is_live = !has_previous && !reader->token.obsolete && !reader->token.previous;
    if (is_live && (reader->token.kind == STRING || reader->token.kind == MSGSTR))
        return refuse_for(entry, in_entry);
    return is_live ? refuse(reader, entry) : refuse_for(entry, bad_line);
}

static bool take_entry(struct reader *reader, struct entry *entry) {
    struct ends id;
    bool has_previous = reader->token.previous;
    if (has_previous && !take_previous(reader, entry))
        return false;
    entry->line = reader->token.line;
    entry->is_obsolete = reader->token.obsolete;
    entry->whole = reader->token.part;
    entry->flags = reader->flags;
    reader->flags = (struct flags){0};
    if (!is_at(reader, MSGCTXT) && !is_at(reader, MSGID))
        return refuse_start(reader, entry, has_previous);
    if (!take_id(reader, entry, &id))
        return false;
    if (is_at(reader, MSGID_PLURAL))
        return take_forms(reader, entry, &id);
    entry->msgstr_line = reader->token.line;
    return take(reader, entry, MSGSTR) && take_form(reader, entry, &id);
}

/* Go on from a fault: to a comment, or to where an entry may begin. */
static void recover(struct reader *reader) {
    for (enum kind kind; (kind = reader->token.kind) != END && kind != COMMENT && kind != MSGID && kind != MSGCTXT;)
        advance(reader);
}

bool read_entry(struct reader *reader, struct entry *entry) {
    *entry = (struct entry){0};
    while (reader->token.kind == COMMENT || reader->token.kind == DOMAIN) {
        bool is_domain = reader->token.kind == DOMAIN;
        reader->has_domain |= is_domain;
        if (!is_domain)
            look_at_comment(reader, &reader->token);
        advance(reader);
        if (is_domain && reader->token.kind == STRING)
            advance(reader);
    }
    if (reader->token.kind == END)
        return false;
    if (!take_entry(reader, entry))
        recover(reader);
    return true;
}
