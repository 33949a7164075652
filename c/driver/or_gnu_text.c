/* Scans a PO text for what only GNU msgfmt compiles, checks or refuses, before either program runs, so that none runs in
 * vain. A text that is given to GNU msgfmt without need only costs time; so does one that Kobdzila's refuses. */
#include "or_gnu_formats.h"

#include <string.h>
#include <strings.h>

enum { MOST_OF_FLAG = 81 }; /* bytes of a flag, or of another piece of the text, that a reason shows, with its NUL */

/* The state of the scan after the entries so far. */
struct scan {
    const struct request *request;
    struct needs needs;
    bool has_macros;   /* `<PRI` is somewhere in the text */
    bool has_obsolete; /* and so is `#~` */
    bool has_header, has_broken_rule;
    struct keys keys;
};

static void needs_gnu(struct scan *scan, const char *before, struct part what) {
    char *why = scan->needs.why;
    if (!why[0])
        show(stpcpy(why, before), MOST_OF_FLAG, what.at, (size_t)(what.end - what.at), DOUBLED);
}

static void needs_gnu_for(struct scan *scan, const char *why) { needs_gnu(scan, why, (struct part){why, why}); }

static void needs_gnu_for_flags(struct scan *scan) {
    scan->needs.flags_differ = true;
    needs_gnu_for(scan, "flags read otherwise by GNU");
}

static void needs_gnu_for_c_format(struct scan *scan) {
    scan->needs.has_odd_format = true;
    needs_gnu_for(scan, "c-format not read here");
}

/* ---- the header */

static bool is_name(struct part part, const char *name) {
    return strlen(name) == (size_t)(part.end - part.at) && !strncasecmp(name, part.at, strlen(name));
}

static bool is_ascii(struct part text) {
    for (; text.at < text.end; text.at++)
        if ((unsigned char)*text.at >= 0x80)
            return false;
    return true;
}

/* Copy the name of the charset that the header's text has, cut if it is long. False if it has none. */
static bool copy_charset(struct part header, char *name, size_t room) {
    struct spelled rest = spelled(header);
    if (!skip_behind(&rest, "charset="))
        return false;
    for (int byte; (byte = next_byte(&rest)) > 0 && !strchr(" \t\n", byte) && room > 1; room--)
        *name++ = (char)byte;
    *name = '\0';
    return true;
}

/* Decide by the header's charset whether the text is compiled or given to GNU msgfmt, which also warns of a header without a
 * charset. A text that is converted says UTF-8. */
static void look_for_charset(struct scan *scan, struct part header, struct part text) {
    char name[MOST_OF_FLAG];
    if (!copy_charset(header, name, sizeof name)) {
        needs_gnu_for(scan, "no charset");
        return;
    }
    struct part copy = {name, name + strlen(name)};
    if (is_name(copy, "UTF-8") || ((is_name(copy, "ASCII") || is_name(copy, "US-ASCII")) && is_ascii(text)))
        return;
    scan->needs.helps = true;
    needs_gnu(scan, "charset=", copy);
}

static bool is_header(const struct entry *entry) {
    struct spelled id = spelled(entry->id);
    return !entry->context.at && next_byte(&id) < 0;
}

static void look_at_header(struct scan *scan, const struct entry *entry, struct part text) {
    if (scan->has_header || !entry->is_translated)
        return;
    scan->has_header = true;
    scan->needs.header_line = entry->line;
    scan->has_broken_rule = has_broken_rule(entry->form);
    look_for_charset(scan, entry->form, text);
}

/* ---- other entries */

/* Take in an entry that is kept. */
static void look_at_kept(struct scan *scan, const struct entry *entry) {
    const struct flags *flags = &entry->flags;
    struct spelled id = spelled(entry->id);
    bool checks = scan->request->checks_format;
    if (entry->newlines_differ && next_byte(&id) >= 0)
        needs_gnu_for(scan, "newlines differ");
    bool may_depend = scan->has_macros && find(entry->whole, "<PRI", 0);
    struct part forms = {entry->form.at, entry->whole.end};
    /* GNU msgfmt splits formats of Objective-C at macros and flags `I`, as it does those of C */
    if (flags->objc_format && (may_depend || may_have_digits_flag(forms)))
        needs_gnu_for(scan, "objc-format");
    if (checks && flags->other.at)
        needs_gnu(scan, "", flags->other);
    if (checks && flags->c_format && (has_odd_directive(entry->id) || has_odd_directive(entry->plural)))
        needs_gnu_for_c_format(scan);
    if (checks && flags->checked && (flags->has_range || !has_library()))
        needs_gnu_for(scan, flags->checked);
    if (checks && !scan->needs.format)
        scan->needs.format = flags->checked;
    bool has_macro = flags->c_format && may_depend;
    scan->needs.plain_macros += may_depend && !has_macro && (names_macro(entry->id) || names_macro(forms));
    bool may_be_format = flags->c_format || flags->our_c_format;
    bool has_flag = may_be_format && has_library() && may_have_digits_flag(forms);
    scan->needs.is_dependent |= has_macro || (flags->c_format && has_flag);
    scan->needs.helps |= has_macro && !has_library();
    if (has_macro && !has_library())
        needs_gnu_for(scan, "system-dependent format");
    else if (((checks || may_depend || has_flag) && flags->c_format != flags->our_c_format) ||
             (checks && (flags->checked != flags->our_checked || flags->is_checked_again)))
        needs_gnu_for_flags(scan);
}

static void look_at_live(struct scan *scan, const struct entry *entry, struct part text) {
    const struct flags *flags = &entry->flags;
    bool has_id = !is_header(entry);
    if (!has_id)
        look_at_header(scan, entry, text);
    if (flags->fuzzy != flags->our_fuzzy && has_id)
        needs_gnu_for_flags(scan);
    if (entry->plural.at && scan->request->checks_compatibility)
        needs_gnu_for(scan, "-C and a plural message");
    if (entry->is_translated && (!flags->fuzzy || !has_id || scan->request->keeps_fuzzy))
        look_at_kept(scan, entry);
}

static void look_at_entry(struct scan *scan, const struct entry *entry, struct part text) {
    if (entry->is_broken) {
        if (entry->fault)
            needs_gnu_for(scan, entry->fault);
        return;
    }
    if (scan->has_obsolete)
        add_key(&scan->keys, entry);
    if (!entry->is_obsolete)
        look_at_live(scan, entry, text);
}

struct needs needs_of(const struct request *request, const char *bytes, size_t len) {
    struct part text = {bytes, bytes + len};
    struct scan scan = {.request = request, .has_macros = find(text, "<PRI", 0), .has_obsolete = find(text, "#~", 1)};
    struct entry entry;
    if (begins(text, "\xef\xbb\xbf"))
        needs_gnu_for(&scan, "a byte order mark");
    struct reader reader = read_text_from((struct part){text.at + (scan.needs.why[0] ? 3 : 0), text.end});
    while (read_entry(&reader, &entry))
        look_at_entry(&scan, &entry, text);
    scan.needs.line = reader.flag_line;
    if (request->checks_compatibility && reader.has_fuzzy)
        needs_gnu_for(&scan, "-C and a fuzzy message");
    scan.needs.helps |= reader.has_domain;
    if (reader.has_domain)
        needs_gnu_for(&scan, "a domain line");
    if (has_obsolete_repeat(&scan.keys) || scan.keys.has_failed)
        needs_gnu_for(&scan, "an obsolete duplicate");
    if (request->checks_header && scan.has_broken_rule)
        needs_gnu_for(&scan, "unreadable plural rule");
    if (request->checks_header && !scan.has_header)
        needs_gnu_for(&scan, "no header");
    return scan.needs;
}
