/* The faults of formats in a PO text: libkobdzila finds them, and what differs is said in GNU msgfmt's words. */
#include "or_gnu_formats.h"

#include <stdio.h>
#include <stdlib.h>
#include <string.h>

#pragma weak kob_check_formats
#pragma weak kob_format_fault_count
#pragma weak kob_format_fault_at
#pragma weak kob_format_faults_free

bool has_library(void) { return kob_check_formats != NULL; }

/* ---- the languages */

/* A language whose formats are checked here, and how its texts are read to say what differs, if they are. All others
 * but C are left to GNU msgfmt. */
static const struct language {
    enum kob_format_language number;
    const char *flag, *name;
    read_format *read;
    find_difference *difference;
} languages[] = {
    {KOB_OBJC_FORMAT, "objc-format", "Objective C ", NULL, NULL},
    {KOB_PYTHON_FORMAT, "python-format", "Python ", read_python_format, python_difference},
    {KOB_PYTHON_BRACE_FORMAT, "python-brace-format", "Python brace ", read_brace_format, brace_difference},
    {KOB_JAVA_FORMAT, "java-format", "Java MessageFormat ", NULL, NULL},
    {KOB_JAVA_PRINTF_FORMAT, "java-printf-format", "Java printf ", NULL, NULL},
    {KOB_CSHARP_FORMAT, "csharp-format", "C# ", NULL, NULL},
    {KOB_JAVASCRIPT_FORMAT, "javascript-format", "JavaScript ", NULL, NULL},
    {KOB_SCHEME_FORMAT, "scheme-format", "Scheme ", NULL, NULL},
    {KOB_LISP_FORMAT, "lisp-format", "Lisp ", NULL, NULL},
    {KOB_LIBREP_FORMAT, "librep-format", "librep ", NULL, NULL},
    {KOB_RUBY_FORMAT, "ruby-format", "Ruby ", NULL, NULL},
    {KOB_SH_FORMAT, "sh-format", "Shell ", NULL, NULL},
    {KOB_AWK_FORMAT, "awk-format", "awk ", NULL, NULL},
    {KOB_LUA_FORMAT, "lua-format", "Lua ", NULL, NULL},
    {KOB_OBJECT_PASCAL_FORMAT, "object-pascal-format", "Object Pascal ", NULL, NULL},
    {KOB_SMALLTALK_FORMAT, "smalltalk-format", "Smalltalk ", NULL, NULL},
    {KOB_QT_FORMAT, "qt-format", "Qt ", NULL, NULL},
    {KOB_QT_PLURAL_FORMAT, "qt-plural-format", "Qt plural ", NULL, NULL},
    {KOB_KDE_FORMAT, "kde-format", "KDE ", NULL, NULL},
    {KOB_KDE_KUIT_FORMAT, "kde-kuit-format", "KDE KUIT ", NULL, NULL},
    {KOB_BOOST_FORMAT, "boost-format", "Boost ", NULL, NULL},
    {KOB_TCL_FORMAT, "tcl-format", "Tcl ", NULL, NULL},
    {KOB_PERL_FORMAT, "perl-format", "Perl ", NULL, NULL},
    {KOB_PERL_BRACE_FORMAT, "perl-brace-format", "Perl brace ", NULL, NULL},
    {KOB_PHP_FORMAT, "php-format", "PHP ", NULL, NULL},
    {KOB_GCC_INTERNAL_FORMAT, "gcc-internal-format", "GCC internal ", NULL, NULL},
    {KOB_GFC_INTERNAL_FORMAT, "gfc-internal-format", "GFC internal ", NULL, NULL},
    {KOB_YCP_FORMAT, "ycp-format", "YCP ", NULL, NULL},
};
enum { LANGUAGES = sizeof languages / sizeof *languages };

const char *checked_format(struct part flag) {
    static const char possible[] = "possible-";
    if (begins(flag, possible))
        flag.at += sizeof possible - 1;
    for (size_t place = 0; place < LANGUAGES; place++)
        if (is(flag, languages[place].flag))
            return languages[place].flag;
    return NULL;
}

bool names_checked_format(struct part text) {
    size_t len = (size_t)(text.end - text.at);
    for (size_t place = 0; place < LANGUAGES; place++)
        if (memmem(text.at, len, languages[place].flag, strlen(languages[place].flag)))
            return true;
    return false;
}

/* Find the language of a fault. NULL for one that isn't in the table, though libkobdzila checks it. */
static const struct language *language_of(const kob_format_fault *fault) {
    for (size_t place = 0; place < LANGUAGES; place++)
        if (languages[place].number == fault->language)
            return &languages[place];
    return NULL;
}

/* ---- the texts of an entry */

/* Return what strings stand for, with a NUL; NULL if memory runs out. */
static char *text_of_strings(struct part strings) {
    char *text = malloc((size_t)(strings.end - strings.at) + 1), *to = text;
    struct spelled rest = spelled(strings);
    for (int byte; text && (byte = next_byte(&rest)) >= 0;)
        *to++ = (char)byte;
    if (text)
        *to = '\0';
    return text;
}

/* Find the strings of a form, which are all behind its `msgstr`. */
static struct part strings_of_form(const struct entry *entry, unsigned form) {
    struct lexer lexer = {entry->form.at, entry->whole.end + 1, 1, false, false, false};
    struct part strings = {NULL, NULL};
    unsigned at_form = 0;
    for (struct token token; (token = next_token(&lexer)).kind != END;) {
        at_form += token.kind == MSGSTR;
        if (token.kind != STRING || at_form != form)
            continue;
        if (!strings.at)
            strings.at = token.part.at - 1;
        strings.end = token.part.end + 1;
    }
    return strings;
}

/* ---- what is said of a fault */

/* A fault with the texts that it is about. */
struct question {
    const kob_format_fault *fault;
    char *original, *form;
    struct called called;
    bool has_plural;
};

static char *why_invalid(const struct question *question, const struct language *language,
                         const struct arguments *form) {
    return words_of("'%s' is not a valid %sformat string, unlike '%s'.%s%s", question->called.form,
                    language ? language->name : "", question->called.original, form->why ? " Reason: " : "",
                    form->why ? form->why : "");
}

/* A plural form may have been compared leniently; what differs even so is the better reason. */
static char *why_different(const struct question *question, const struct language *language,
                           const struct arguments *original, const struct arguments *form) {
    char *why = NULL;
    bool is_read = language && language->difference;
    if (is_read && question->has_plural)
        why = language->difference(original, form, question->called, false);
    if (is_read && !why)
        why = language->difference(original, form, question->called, true);
    return why ? why : words_of("format specifications in '%s' and '%s' are not the same", question->called.original,
                                question->called.form);
}

/* Return why the form is at fault; NULL if memory runs out. */
static char *why_at_fault(const struct question *question) {
    const struct language *language = language_of(question->fault);
    struct arguments original = {0}, form = {0};
    if (language && language->read) {
        language->read(&original, question->original);
        language->read(&form, question->form);
    }
    char *why = NULL;
    if (!original.has_failed && !form.has_failed)
        why = question->fault->difference == KOB_FORMAT_INVALID ? why_invalid(question, language, &form)
                                                                : why_different(question, language, &original, &form);
    free_arguments(&original);
    free_arguments(&form);
    return why;
}

static bool say(struct format_fault *said, const kob_format_fault *fault, const struct entry *entry) {
    char name[sizeof "msgstr[4294967295]"] = "msgstr";
    if (entry->plural.at)
        snprintf(name, sizeof name, "msgstr[%u]", fault->form);
    struct question question = {fault, text_of_strings(entry->plural.at ? entry->plural : entry->id),
                                text_of_strings(strings_of_form(entry, fault->form)),
                                {entry->plural.at ? "msgid_plural" : "msgid", name}, entry->plural.at};
    said->line = fault->line;
    said->id = text_of_strings(entry->id);
    said->why = question.original && question.form ? why_at_fault(&question) : NULL;
    free(question.original);
    free(question.form);
    return said->id && said->why;
}

/* ---- all faults */

/* Go on to the entry whose `msgstr` stands on this line, and whose flags are those that libkobdzila reads. */
static bool find_entry(struct reader *reader, struct entry *entry, unsigned line) {
    while (entry->msgstr_line != line || entry->is_obsolete || !entry->flags.our_checked)
        if (!read_entry(reader, entry))
            return false;
    return true;
}

/* Say one fault, or note that a format is not read here. False if memory runs out. */
static bool take_fault(struct format_faults *faults, const kob_format_fault *fault, const struct entry *entry) {
    const struct language *language = language_of(fault);
    if (fault->difference != KOB_FORMAT_UNREAD)
        return say(&faults->at[faults->count++], fault, entry);
    if (!faults->unread)
        faults->unread = language ? language->flag : "a format";
    return true;
}

/* Say all faults, which come in the order of the text. False if memory runs out. */
static bool say_all(struct format_faults *faults, const kob_format_faults *found, struct part text) {
    struct reader reader = read_text_from(text);
    struct entry entry = {0};
    kob_format_fault fault;
    faults->at = calloc(kob_format_fault_count(found), sizeof *faults->at);
    if (!faults->at)
        return false;
    for (size_t place = 0; kob_format_fault_at(found, place, &fault) && find_entry(&reader, &entry, fault.line); place++)
        if (!take_fault(faults, &fault, &entry))
            return false;
    return true;
}

bool find_format_faults(struct format_faults *faults, struct part text, unsigned options, kob_refusal *why) {
    *faults = (struct format_faults){0};
    kob_format_faults *found = kob_check_formats(text.at, (size_t)(text.end - text.at), options, why);
    if (!found)
        return false;
    bool done = !kob_format_fault_count(found) || say_all(faults, found, text);
    kob_format_faults_free(found);
    if (!done) {
        free_format_faults(faults);
        *why = (kob_refusal){.fault = KOB_MEMORY};
    }
    return done;
}

void free_format_faults(struct format_faults *faults) {
    for (size_t place = 0; place < faults->count; place++) {
        free(faults->at[place].id);
        free(faults->at[place].why);
    }
    free(faults->at);
    *faults = (struct format_faults){0};
}
