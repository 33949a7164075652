/* Compiling one PO file: by the proved compiler in libkobdzila, and by GNU msgfmt if that refuses it. */
#include "compile.h"
#include "file_bytes.h"
#include "or_gnu.h"

#include <errno.h>
#include <fcntl.h>
#include <stdlib.h>
#include <string.h>
#include <sys/stat.h>

enum { MOST_TEXT = 67108864 }; /* bytes of the largest PO text */

/* The text of a PO file. */
struct text_bytes {
    const char *at;
    size_t len;
};

static void end_with(struct catalogue *it, enum outcome outcome, int cause) {
    it->outcome = outcome;
    it->why = text_of("%s", cause == EINVAL && outcome == IS_UNREAD ? "not a regular file" : strerror(cause));
}

/* ---- the MO file */

/* Give the MO file the time of a PO file that was changed since the search, and perhaps after it was read: so the next run
 * compiles it again. */
static void mark_as_old(const struct catalogue *it) {
    struct stat now;
    if (stat(it->po, &now) < 0)
        return;
    struct timespec times[] = {{.tv_nsec = UTIME_OMIT}, now.st_mtim};
    bool is_same_time = now.st_mtim.tv_sec == it->time.tv_sec && now.st_mtim.tv_nsec == it->time.tv_nsec;
    if (now.st_size != it->size || !is_same_time)
        utimensat(AT_FDCWD, it->mo, times, 0);
}

static void write_mo(const struct run *run, struct catalogue *it, const char *bytes, size_t len) {
    int cause = 0;
    if (stopped_by) /* nothing is written any more */
        return;
    it->mo_size = len;
    if (!run->options.only_checks) {
        cause = run->options.output ? make_folders(it->mo) : 0;
        if (!cause)
            cause = write_in_one_step(it->mo, bytes, len, run->mode);
        if (!cause)
            mark_as_old(it);
    }
    if (cause)
        end_with(it, IS_UNWRITTEN, cause);
    else
        it->outcome = IS_COMPILED;
}

/* ---- what msgfmt warns of */

/* Scan the text for what decides who compiles it, as msgfmt-or-gnu does. */
static struct needs scan(const struct run *run, struct text_bytes text) {
    bool checks = run->options.checks;
    struct request request = {.checks_format = checks, .checks_header = checks,
                              .keeps_fuzzy = run->options.keeps_fuzzy};
    return needs_of(&request, text.at, text.len);
}

/* Note the fields that the header lacks. */
static void look_for_fields(const struct run *run, struct catalogue *it, const kob_catalogue *made,
                            struct text_bytes text) {
    it->missing = missing_fields(made);
    if (it->missing)
        it->header_line = (unsigned)scan(run, text).header_line;
}

/* ---- who compiles */

/* Compile with GNU msgfmt what Kobdzila refused. If GNU's refuses it as well, the reason is Kobdzila's, unless the text has
 * something that only GNU msgfmt serves. */
static void hand_to_gnu(const struct run *run, struct catalogue *it, bool is_for_gnu) {
    struct gnu_answer answer = ask_gnu(run, it->po);
    it->lacks_gnu = answer.is_missing && is_for_gnu;
    if (answer.mo || (answer.why && is_for_gnu)) {
        free(it->why);
        free_format_faults(&it->formats);
        it->why = answer.why;
        it->line = answer.mo ? 0 : answer.line;
        it->by_gnu = true;
    } else {
        free(answer.why);
    }
    if (answer.mo) {
        it->counts = answer.counts;
        it->missing = answer.missing;
        it->header_line = answer.line;
        write_mo(run, it, answer.mo, answer.len);
        free(answer.mo);
    }
    if (stopped_by && it->outcome == IS_REFUSED)
        it->outcome = WAITING;
}

static void end_refused(const struct run *run, struct catalogue *it, kob_refusal why, struct text_bytes text) {
    if (why.fault == KOB_MEMORY) {
        end_with(it, IS_UNREAD, ENOMEM);
        return;
    }
    it->outcome = IS_REFUSED;
    it->fault = why.fault;
    it->line = why.line;
    it->why = text_of("%s", kob_fault_text(why.fault));
    if (!run->options.without_gnu && !stopped_by)
        hand_to_gnu(run, it, why.fault == KOB_PO_TOO_LARGE || scan(run, text).helps);
}

/* Whether a text has `#=`. (memmem looks at each byte, and takes a tenth of the time of a whole compilation.) */
static bool has_flag_mark(struct text_bytes text) {
    const char *end = text.at + text.len;
    for (const char *at = text.at; at < end && (at = memchr(at, '=', (size_t)(end - at))); at++)
        if (at > text.at && at[-1] == '#')
            return true;
    return false;
}

/* Compile a text with flags in `#=` lines, which Kobdzila's compiler takes for comments, with a GNU msgfmt that knows
 * them. False if the text has none. */
static bool serve_flag_lines(const struct run *run, struct catalogue *it, struct text_bytes text) {
    size_t line = has_flag_mark(text) ? scan(run, text).line : 0;
    if (!line)
        return false;
    it->outcome = IS_REFUSED;
    it->line = (unsigned)line;
    it->why = run->options.without_gnu ? text_of("flags in a line #= need GNU msgfmt") : why_no_gnu_for_flag_lines();
    if (!it->why)
        hand_to_gnu(run, it, true);
    if (!it->why && it->outcome == IS_REFUSED)
        it->why = text_of("GNU msgfmt refuses it");
    return true;
}

/* Leave a text with a format that only GNU msgfmt can check to it. False if there is no GNU msgfmt. */
static bool leave_to_gnu(const struct run *run, struct catalogue *it) {
    if (run->options.without_gnu || stopped_by)
        return false;
    it->outcome = IS_REFUSED;
    hand_to_gnu(run, it, true);
    if (!it->by_gnu) {
        it->outcome = WAITING;
        it->lacks_gnu = false;
    } else if (it->outcome == IS_REFUSED) {
        it->fault = KOB_PO_FORMAT_MISMATCH; /* (most likely) */
    }
    return it->by_gnu;
}

/* Refuse a text that compiles, for formats of other languages than C, or leave it to GNU msgfmt, which may know more of
 * them than Kobdzila. False if nothing is wrong with them. */
static bool refuse_formats(const struct run *run, struct catalogue *it, struct text_bytes text) {
    unsigned options = KOB_CHECKED | (run->options.keeps_fuzzy ? KOB_USE_FUZZY : 0);
    struct part part = {text.at, text.at + text.len};
    kob_refusal why;
    if (!run->options.checks || !has_library() || !names_checked_format(part))
        return false;
    if (!find_format_faults(&it->formats, part, options, &why))
        stop_for_memory(); /* (the text has compiled) */
    if (it->formats.unread && leave_to_gnu(run, it))
        return true;
    if (!it->formats.count)
        return false;
    it->outcome = IS_REFUSED;
    it->line = it->formats.at[0].line;
    it->why = text_of("%s", it->formats.at[0].why);
    if (!run->options.without_gnu && !stopped_by)
        hand_to_gnu(run, it, false);
    return true;
}

/* Leave a text with a C format that only GNU msgfmt can check to it. False if there is none, or no GNU msgfmt. */
static bool leaves_formats_to_gnu(const struct run *run, struct catalogue *it, struct text_bytes text) {
    struct part part = {text.at, text.at + text.len};
    if (!run->options.checks || run->options.without_gnu || !may_have_odd_directive(part))
        return false;
    return scan(run, text).has_odd_format && leave_to_gnu(run, it); /* (few texts are scanned) */
}

/* Compile with GNU msgfmt a text of which a C format has a macro left, or which has macros and flags that GNU msgfmt
 * reads otherwise. False if there is none of that, or if GNU msgfmt refuses it. */
static bool compiles_macros_by_gnu(const struct run *run, struct catalogue *it, const kob_catalogue *made,
                                   struct text_bytes text) {
    enum { MINOR_REVISION = 4 }; /* the place of its lowest byte in an MO file */
    bool is_dependent = kob_mo_file(made).at[MINOR_REVISION];
    if (run->options.without_gnu || stopped_by || !is_dependent)
        return false;
    struct needs needs = scan(run, text);
    if (!needs.flags_differ && left_macros(made) <= needs.plain_macros)
        return false;
    hand_to_gnu(run, it, false);
    return it->outcome == IS_COMPILED || it->outcome == IS_UNWRITTEN;
}

static void compile_text(const struct run *run, struct catalogue *it, struct text_bytes text) {
    unsigned how = (run->options.checks ? KOB_CHECKED : 0) | (run->options.keeps_fuzzy ? KOB_USE_FUZZY : 0)
                   | KOB_WITHOUT_INDEX; /* (one message is looked up, the header) */
    kob_refusal why;
    kob_catalogue *made = kob_open_po(text.at, text.len, how, &why);
    if (!made) {
        end_refused(run, it, why, text);
        return;
    }
    if (leaves_formats_to_gnu(run, it, text) || refuse_formats(run, it, text) ||
        compiles_macros_by_gnu(run, it, made, text)) {
        kob_release(made);
        return;
    }
    it->counts = statistics_of(made);
    if (run->options.checks)
        look_for_fields(run, it, made, text);
    kob_text bytes = kob_mo_file(made);
    write_mo(run, it, bytes.at, bytes.len);
    kob_release(made);
}

/* The text in UTF-8, if it is decoded under a name that GNU msgfmt calls portable, so that no byte within a character is
 * taken for a backslash. Otherwise the text as it is, which the library may decode all the same. *owned is freed by the
 * caller. False if memory runs out. */
static bool take_utf8(struct text_bytes *text, char **owned) {
    size_t len;
    enum recoding done = recode_text((struct part){text->at, text->at + text->len}, owned, &len);
    if (done == RECODED)
        *text = (struct text_bytes){*owned, len};
    return done != NO_MEMORY;
}

void compile_one(const struct run *run, struct catalogue *it) {
    struct text_bytes text;
    unsigned char *bytes = file_bytes(it->po, REGULAR_FILES, MOST_TEXT, &text.len);
    text.at = (const char *)bytes;
    if (!bytes) {
        end_with(it, IS_UNREAD, errno);
        return;
    }
    if (text.len > MOST_TEXT) { /* (then nothing was read) */
        end_refused(run, it, (kob_refusal){KOB_PO_TOO_LARGE, 0}, (struct text_bytes){"", 0});
        free(bytes);
        return;
    }
    char *utf8 = NULL;
    if (!take_utf8(&text, &utf8))
        end_with(it, IS_UNREAD, ENOMEM);
    else if (!serve_flag_lines(run, it, text))
        compile_text(run, it, text);
    free(utf8);
    free(bytes);
}
