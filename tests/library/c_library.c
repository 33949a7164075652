/* Calls libkobdzila. Run by tests/library/c_library.sh.
 *
 *   c_library calls            each function, and each refusal
 *   c_library threads          4 threads ask while the catalogue is swapped 10,000 times, and the old one released;
 *                              then the same with sets
 *   c_library changing         opens bytes that another thread writes to all the time, and reads each string
 *   c_library refusals MO..    opens each file, with no memory behind its last byte, and prints its refusal's number
 */
#define _GNU_SOURCE
#include "kobdzila.h"

#include <pthread.h>
#include <stdatomic.h>
#include <stdint.h>
#include <stdio.h>
#include <stdlib.h>
#include <string.h>
#include <sys/mman.h>
#include <sys/stat.h>
#include <unistd.h>

static int wrong;

static void is(const char *what, int holds) {
    if (!holds) {
        printf("wrong: %s\n", what);
        wrong = 1;
    }
}

static int same(kob_text text, const char *string) {
    return text.at && text.len == strlen(string) && !memcmp(text.at, string, text.len);
}

#include "c_library_mo.h"

/* ---- each function */

static const char po[] = "msgid \"\"\nmsgstr \"Plural-Forms: nplurals=2; plural=n>1;\\n\"\n"
                         "msgid \"file\"\nmsgid_plural \"files\"\nmsgstr[0] \"fichier\"\nmsgstr[1] \"fichiers\"\n"
                         "msgctxt \"menu\"\nmsgid \"Open\"\nmsgstr \"Ouvrir\"\n"
                         "msgctxt \"disk\"\nmsgid \"file\"\nmsgid_plural \"files\"\nmsgstr[0] \"fiche\"\nmsgstr[1] \"fiches\"\n"
                         "#, fuzzy\nmsgid \"hi\"\nmsgstr \"salut\"\n";

static kob_text text(const char *string) { return (kob_text){ string, strlen(string) }; }

static void look_ups(const kob_catalogue *c) {
    const char *missing = "no such message";
    is("gettext", !strcmp(kob_gettext(c, "file"), "fichier"));
    is("gettext of none", kob_gettext(c, missing) == missing);
    is("gettext of no text", !strcmp(kob_gettext(c, "\xff"), "\xff"));
    is("gettext in no context", !strcmp(kob_gettext(c, "Open"), "Open"));
    is("pgettext", !strcmp(kob_pgettext(c, "menu", "Open"), "Ouvrir"));
    is("pgettext of none", kob_pgettext(c, "other", missing) == missing);
    is("ngettext of 1", !strcmp(kob_ngettext(c, "file", "files", 1), "fichier"));
    is("ngettext of 2", !strcmp(kob_ngettext(c, "file", "files", 2), "fichiers"));
    is("ngettext of none, 1", !strcmp(kob_ngettext(c, "x", "y", 1), "x"));
    is("ngettext of none, 0", !strcmp(kob_ngettext(c, "x", "y", 0), "y"));
    is("npgettext", !strcmp(kob_npgettext(c, "disk", "file", "files", 2), "fiches"));
    is("npgettext of none", !strcmp(kob_npgettext(c, "menu", "file", "files", 2), "files"));
}

static void texts(const kob_catalogue *c) {
    const kob_text none = { NULL, 0 };
    unsigned long long two = 2;
    kob_text found = kob_find(c, none, text("file"), &two);
    is("find", same(found, "fichiers") && found.at[found.len] == 0);
    is("find in a context", same(kob_find(c, text("menu"), text("Open"), NULL), "Ouvrir"));
    is("find of none", !kob_find(c, none, text("Open"), NULL).at);
    is("find of the header", kob_find(c, none, text(""), NULL).at != NULL);
    is("find of NULL", !kob_find(c, none, none, NULL).at && !kob_find(c, none, none, &two).at);
    kob_entry e;
    is("count", kob_count(c) == 4);
    is("the header", kob_entry_at(c, 0, &e) && same(e.msgid, "") && !e.context.at && !e.plural.at && e.forms == 1);
    is("an entry in a context", kob_entry_at(c, 1, &e) && same(e.context, "disk") && same(e.msgid, "file"));
    is("its plural", same(e.plural, "files") && e.forms == 2);
    is("its form", same(kob_form_at(c, 1, 1), "fiches"));
    is("a form too many", !kob_form_at(c, 1, 2).at && !kob_form_at(c, 9, 0).at);
    is("an entry too many", !kob_entry_at(c, 4, &e));
}

/* what is written of a catalogue is opened as the same */
static void po_files(void) {
    static const char entry[] = "\nmsgctxt \"disk\"\nmsgid \"file\"\nmsgid_plural \"files\"\n";
    kob_catalogue *c = kob_open_po(po, strlen(po), 0, NULL);
    kob_po_file *plain = kob_write_po(c, 0), *escaped = kob_write_po(c, KOB_ESCAPED);
    kob_text text = kob_po_text(plain), ascii = kob_po_text(escaped);
    kob_catalogue *again = kob_open_po(text.at, text.len, 0, NULL), *same_again = kob_open_po(ascii.at, ascii.len, 0, NULL);
    kob_text file = kob_mo_file(c);
    is("the PO file reads back", again && kob_mo_file(again).len == file.len &&
       !memcmp(kob_mo_file(again).at, file.at, file.len));
    is("the escaped one as well", same_again && kob_mo_file(same_again).len == file.len &&
       !memcmp(kob_mo_file(same_again).at, file.at, file.len));
    is("an entry of it", memmem(text.at, text.len, entry, sizeof entry - 1) != NULL);
    kob_release(c);
    is("a PO file stays when its catalogue is released", text.len && !memcmp(text.at, "msgid \"\"\n", 9));
    kob_release(again);
    kob_release(same_again);
    kob_po_free(plain);
    kob_po_free(escaped);
    kob_po_free(NULL);
}

/* a PO file in another charset, whose texts are those that iconv(1) writes */
static void recoding(void) {
    static const char latin[] = "msgid \"\"\nmsgstr \"Content-Type: text/plain; charset=ISO-8859-2\\n\"\nmsgid \"a\"\nmsgstr \"\351\271\"\n";
    static const char utf8[] = "msgid \"\"\nmsgstr \"Content-Type: text/plain; charset=UTF-8\\n\"\nmsgid \"a\"\nmsgstr \"\303\251\305\241\"\n";
    static const char none[] = "msgid \"\"\nmsgstr \"charset=ISO-8859-7\\n\"\nmsgid \"a\"\nmsgstr \"\256\"\n";
    kob_refusal why;
    kob_po_file *file = kob_recode_po(latin, strlen(latin), &why);
    is("a PO file in ISO-8859-2", file && why.fault == KOB_NO_FAULT && same(kob_po_text(file), utf8));
    kob_po_free(file);
    is("a PO file in UTF-8", !kob_recode_po(utf8, strlen(utf8), &why) && why.fault == KOB_PO_CHARSET && why.line == 0);
    is("a byte without a character", !kob_recode_po(none, strlen(none), &why) && why.fault == KOB_PO_NO_CHARACTER &&
       why.line == 4);
    is("an empty PO file", !kob_recode_po(NULL, 0, NULL));
}

/* The faults that GNU msgfmt 0.21 reports of the same text with --check-format, by their lines and forms. */
static void formats(void) {
    static const char text_of_faults[] = "msgid \"\"\nmsgstr \"charset=UTF-8\\nPlural-Forms: nplurals=2; plural=n>1;\\n\"\n"
        "#, python-format\nmsgid \"%(a)s\"\nmsgstr \"%(b)s\"\n"
        "#, python-brace-format\nmsgid \"{a}\"\nmsgid_plural \"{a}s\"\nmsgstr[0] \"{a}\"\nmsgstr[1] \"{\"\n"
        "#, python-format\nmsgid \"%d\"\nmsgstr \"%d\"\n"
        "#, fuzzy, python-format\nmsgid \"%s\"\nmsgstr \"%d\"\n";
    kob_refusal why;
    kob_format_fault fault;
    kob_format_faults *faults = kob_check_formats(text_of_faults, strlen(text_of_faults), 0, &why);
    is("the faults of formats", faults && why.fault == KOB_NO_FAULT && kob_format_fault_count(faults) == 2);
    is("other arguments", faults && kob_format_fault_at(faults, 0, &fault) && fault.line == 5 &&
       fault.language == KOB_PYTHON_FORMAT && fault.form == 0 && fault.difference == KOB_FORMAT_ARGUMENTS);
    is("no format", faults && kob_format_fault_at(faults, 1, &fault) && fault.line == 9 &&
       fault.language == KOB_PYTHON_BRACE_FORMAT && fault.form == 1 && fault.difference == KOB_FORMAT_INVALID);
    is("no further fault", faults && !kob_format_fault_at(faults, 2, &fault));
    kob_format_faults_free(faults);
    faults = kob_check_formats(text_of_faults, strlen(text_of_faults), KOB_USE_FUZZY, NULL);
    is("a fuzzy entry", faults && kob_format_fault_count(faults) == 3);
    kob_format_faults_free(faults);
    is("a refused text", !kob_check_formats("msgid", 5, 0, &why) && why.fault == KOB_PO_BAD_ORDER && why.line == 1);
    kob_format_faults_free(NULL);
}

static void files(const kob_catalogue *c, const char *name) {
    kob_text file = kob_mo_file(c);
    kob_refusal why;
    kob_catalogue *again = kob_open_mo(file.at, file.len, &why);
    is("the MO file reads back", again && why.fault == KOB_NO_FAULT && kob_count(again) == kob_count(c));
    kob_counts counts;
    kob_statistics(c, &counts);
    is("the statistics", counts.translated == 3 && counts.fuzzy == 1 && counts.untranslated == 0);
    kob_statistics(again, &counts);
    is("an MO file has no statistics", counts.translated == 0 && counts.fuzzy == 0 && counts.untranslated == 0);
    look_ups(again);
    texts(again);
    FILE *f = fopen(name, "wb");
    is("a file is written", f && fwrite(file.at, 1, file.len, f) == file.len && !fclose(f));
    kob_catalogue *read = kob_open_file(name, KOB_MO, 0, NULL);
    is("a file is opened", read && kob_count(read) == 4);
    kob_release(read);
    is("a file is no PO text", !kob_open_file(name, KOB_PO, 0, &why) && why.fault != KOB_NO_FAULT);
    unlink(name);
    is("no file", !kob_open_file(name, KOB_MO, 0, &why) && why.fault == KOB_UNREADABLE);
    is("a folder", !kob_open_file("/", KOB_MO, 0, &why) && why.fault == KOB_UNREADABLE);
    kob_release(again);
}

/* ---- sets */

static kob_set *set_with(kob_set *set, const char *domain, const char *locale, const char *text_of_it) {
    kob_catalogue *c = kob_open_po(text_of_it, strlen(text_of_it), 0, NULL);
    kob_refusal why = { KOB_MEMORY, 7 };
    kob_set *more = kob_set_with(set, domain, locale, c, &why);
    is("a set with one catalogue more", more && why.fault == KOB_NO_FAULT && why.line == 0);
    kob_release(c);
    return more;
}

static void set_look_ups(const kob_set *set) {
    const char *missing = "no such message";
    is("gettext of a set", !strcmp(kob_set_gettext(set, "app", "fr", "file"), "fichier"));
    is("gettext by a language's territory", !strcmp(kob_set_gettext(set, "app", "sv:fr_CA:de", "file"), "fichier"));
    is("gettext of a later language", !strcmp(kob_set_gettext(set, "app", "fr:de", "hi"), "hallo"));
    is("gettext behind C", !strcmp(kob_set_gettext(set, "app", "C:fr", "file"), "file"));
    is("gettext in another domain", !strcmp(kob_set_gettext(set, "lib", "fr", "file"), "file"));
    is("gettext of none in a set", kob_set_gettext(set, "app", "fr:de", missing) == missing);
    is("gettext in no text", kob_set_gettext(set, "app", "\xff", missing) == missing);
    is("pgettext of a set", !strcmp(kob_set_pgettext(set, "app", "fr", "menu", "Open"), "Ouvrir"));
    is("pgettext of none in a set", !strcmp(kob_set_pgettext(set, "app", "de", "menu", "Open"), "Open"));
    is("ngettext of a set, 1", !strcmp(kob_set_ngettext(set, "app", "fr", "file", "files", 1), "fichier"));
    is("ngettext of a set, 2", !strcmp(kob_set_ngettext(set, "app", "fr", "file", "files", 2), "fichiers"));
    is("ngettext by the second one's rule", !strcmp(kob_set_ngettext(set, "app", "sv:de", "day", "days", 0), "Tage"));
    is("ngettext of none in a set", !strcmp(kob_set_ngettext(set, "app", "sv", "x", "y", 0), "y"));
    is("npgettext of a set", !strcmp(kob_set_npgettext(set, "app", "fr", "disk", "file", "files", 2), "fiches"));
    is("npgettext of none in a set", !strcmp(kob_set_npgettext(set, "app", "fr", "menu", "file", "files", 1), "file"));
}

static void set_texts(const kob_set *set) {
    const kob_text none = { NULL, 0 };
    unsigned long long two = 2;
    kob_text found = kob_set_find(set, text("app"), text("fr"), none, text("file"), &two);
    is("find in a set", same(found, "fichiers") && found.at[found.len] == 0);
    is("find in a context of a set", same(kob_set_find(set, text("app"), text("fr"), text("menu"), text("Open"), NULL), "Ouvrir"));
    is("find of none in a set", !kob_set_find(set, text("app"), text("de"), none, text("file"), &two).at);
    is("find in no domain", !kob_set_find(set, none, text("fr"), none, text("file"), &two).at);
}

static void set_refusals(const kob_set *set, kob_catalogue *c) {
    static const char *const names[] = { "", "a b", "a/b", "\xc3\xa9", "\xff",
        "aaaaaaaaaaaaaaaaaaaaaaaaaaaaaaaaaaaaaaaaaaaaaaaaaaaaaaaaaaaaaaaaa" };
    for (size_t i = 0; i < sizeof names / sizeof *names; i++) {
        kob_refusal why = { KOB_NO_FAULT, 0 };
        is("a domain is no name", !kob_set_with(set, names[i], "fr", c, &why) && why.fault == KOB_BAD_NAME);
        why.fault = KOB_NO_FAULT;
        is("a locale is no name", !kob_set_with(set, "app", names[i], c, &why) && why.fault == KOB_BAD_NAME);
        is("no name, and nobody asks why", !kob_set_with(set, "app", names[i], c, NULL));
        why.fault = KOB_NO_FAULT;
        is("a file of no name", !kob_set_open(set, ".", names[i], "fr", &why) && why.fault == KOB_BAD_NAME);
    }
    kob_refusal why;
    is("a file of another folder", !kob_set_open(set, ".", "app", "..", &why) && why.fault == KOB_BAD_NAME);
    is("no file of a set", !kob_set_open(set, ".", "app", "fr", &why) && why.fault == KOB_UNREADABLE);
}

/* a catalogue where installed ones stand */
static void set_files(const kob_set *set, kob_catalogue *c) {
    kob_text file = kob_mo_file(c);
    is("folders are made", !mkdir("locale", 0777) && !mkdir("locale/fr", 0777) && !mkdir("locale/fr/LC_MESSAGES", 0777));
    FILE *f = fopen("locale/fr/LC_MESSAGES/tool.mo", "wb");
    is("a file is installed", f && fwrite(file.at, 1, file.len, f) == file.len && !fclose(f));
    kob_set *more = kob_set_open(set, "locale", "tool", "fr", NULL);
    is("an installed file is found", more && !strcmp(kob_set_gettext(more, "tool", "fr", "file"), "fichier"));
    kob_set_release(more);
    f = fopen("locale/fr/LC_MESSAGES/tool.mo", "wb");
    is("a bad file is installed", f && fwrite("no", 1, 2, f) == 2 && !fclose(f));
    kob_refusal why;
    is("a bad file is refused", !kob_set_open(set, "locale", "tool", "fr", &why) && why.fault == KOB_MO_SHORT);
    unlink("locale/fr/LC_MESSAGES/tool.mo");
    rmdir("locale/fr/LC_MESSAGES");
    rmdir("locale/fr");
    rmdir("locale");
}

/* ---- lists of languages that are looked at once */

static int same_found(kob_text a, kob_text b) { return a.at == b.at && a.len == b.len; }

/* Each call in a list answers as it does in the set. */
static void list_answers(const kob_set *set, const char *domain, const char *languages, const char *msgid) {
    static const char *const contexts[] = { NULL, "menu", "disk" };
    const kob_text none = { NULL, 0 };
    kob_languages list = kob_set_languages(set, text(domain), text(languages));
    is("gettext in a list", kob_languages_gettext(&list, msgid) == kob_set_gettext(set, domain, languages, msgid));
    for (int i = 0; i < 3; i++) {
        const char *context = contexts[i];
        is("pgettext in a list", kob_languages_pgettext(&list, context, msgid) ==
                                     kob_set_pgettext(set, domain, languages, context, msgid));
        kob_text in = context ? text(context) : none;
        for (unsigned long long n = 0; n < 3; n++) {
            is("npgettext in a list", kob_languages_npgettext(&list, context, msgid, "plural", n) ==
                                          kob_set_npgettext(set, domain, languages, context, msgid, "plural", n));
            is("find in a list, with a number",
               same_found(kob_languages_find(&list, in, text(msgid), &n),
                          kob_set_find(set, text(domain), text(languages), in, text(msgid), &n)));
        }
        is("find in a list", same_found(kob_languages_find(&list, in, text(msgid), NULL),
                                        kob_set_find(set, text(domain), text(languages), in, text(msgid), NULL)));
        is("find of NULL in a list", !kob_languages_find(&list, in, none, NULL).at &&
                                         !kob_set_find(set, text(domain), text(languages), in, none, NULL).at);
    }
    for (unsigned long long n = 0; n < 3; n++)
        is("ngettext in a list", kob_languages_ngettext(&list, msgid, "plural", n) ==
                                     kob_set_ngettext(set, domain, languages, msgid, "plural", n));
}

/* ---- many look-ups at once */

#define MOST 50

/* As many questions as `count`, of all calls, some of which have no answer. */
static void ask_many(kob_question *questions, size_t count) {
    static const char *const msgids[] = { "file", "hi", "day", "Open", "", "no such message", "\xff", "message 7" };
    static const char *const contexts[] = { NULL, "menu", "disk", NULL, "" };
    static const unsigned long long numbers[] = { 0, 1, 2 };
    for (size_t i = 0; i < count; i++) {
        const char *context = contexts[i % 5];
        questions[i].context = context ? text(context) : (kob_text){ NULL, 0 };
        questions[i].msgid = i % 11 == 10 ? (kob_text){ NULL, 0 } : text(msgids[i % 8]);
        questions[i].n = i % 4 == 3 ? NULL : &numbers[i % 3];
    }
}

/* Each answer of a call for many is that of the call for one, and nothing is written behind the last. */
static void many_answers(const kob_catalogue *c, const kob_set *set, const char *languages, size_t count) {
    kob_question q[MOST];
    kob_text one[MOST + 1], in_set[MOST + 1], in_list[MOST + 1], mark = text("mark");
    kob_languages list = kob_set_languages(set, text("app"), text(languages));
    ask_many(q, count);
    one[count] = in_set[count] = in_list[count] = mark;
    kob_find_many(c, q, count, one);
    kob_set_find_many(set, text("app"), text(languages), q, count, in_set);
    kob_languages_find_many(&list, q, count, in_list);
    for (size_t i = 0; i < count; i++) {
        is("one of many", same_found(one[i], kob_find(c, q[i].context, q[i].msgid, q[i].n)));
        is("none of many", q[i].msgid.at || !one[i].at);
        kob_text found = kob_set_find(set, text("app"), text(languages), q[i].context, q[i].msgid, q[i].n);
        is("one of many in a set", same_found(in_set[i], found));
        is("one of many in a list", same_found(in_list[i], found));
    }
    is("no answer too many", same_found(one[count], mark) && same_found(in_set[count], mark) &&
                                 same_found(in_list[count], mark));
}

static void many_answer(const kob_catalogue *c, const kob_set *set) {
    static const size_t counts[] = { 0, 1, 15, 16, 17, 31, 32, 33, MOST };
    static const char *const languages[] = { "fr", "de:fr", "sv:fr_CA:de", "C", "", "\xff" };
    for (size_t i = 0; i < sizeof counts / sizeof *counts; i++)
        for (size_t l = 0; l < sizeof languages / sizeof *languages; l++)
            many_answers(c, set, languages[l], counts[i]);
}

/* The text of `po`, followed by `count` more messages. */
static char *po_and(size_t count) {
    char *bytes = malloc(sizeof po + 64 * count), *end = stpcpy(bytes, po);
    for (size_t i = 0; i < count; i++)
        end += snprintf(end, 64, "msgid \"message %zu\"\nmsgstr \"Meldung %zu\"\n", i, i);
    return bytes;
}

/* Only a catalogue that is larger than a processor's own cache has hints. */
static void many_of_a_large_catalogue(void) {
    char *bytes = po_and(20000);
    kob_catalogue *large = kob_open_po(bytes, strlen(bytes), KOB_CHECKED, NULL);
    free(bytes);
    kob_set *none = kob_set_new(), *set = kob_set_with(none, "app", "fr", large, NULL);
    is("a large catalogue", !strcmp(kob_gettext(large, "message 7"), "Meldung 7"));
    many_answer(large, set);
    kob_release(large);
    kob_set_release(none);
    kob_set_release(set);
}

static void lists_answer(const kob_set *set) {
    static const char *const domains[] = { "app", "lib", "", "\xff" };
    static const char *const languages[] = { "fr", "de", "sv:de:fr", "sv:nb:da:fi:fr_CA:de", "fr:C:de", "C:fr", "sv:C:fr",
        "POSIX", "fr_CA", "de_AT@euro:fr", "::de::fr:", "fr:fr:fr", "", ":", "\xff", "fr:\xff" };
    static const char *const msgids[] = { "file", "hi", "day", "Open", "", "no such message", "\xff" };
    for (size_t d = 0; d < sizeof domains / sizeof *domains; d++)
        for (size_t l = 0; l < sizeof languages / sizeof *languages; l++)
            for (size_t m = 0; m < sizeof msgids / sizeof *msgids; m++)
                list_answers(set, domains[d], languages[l], msgids[m]);
    kob_languages list = kob_set_languages(set, text("app"), text("sv:fr_CA:de")), copy = list;
    is("a copy of a list", !strcmp(kob_languages_gettext(&copy, "file"), "fichier"));
    is("a later language of a list", !strcmp(kob_languages_ngettext(&list, "day", "days", 0), "Tage"));
    kob_languages nowhere = kob_set_languages(set, (kob_text){ NULL, 0 }, (kob_text){ NULL, 0 });
    is("a list of NULL", !strcmp(kob_languages_gettext(&nowhere, "file"), "file"));
}

/* Look up by a list of `count` catalogues. Each of them has one message of its own. */
static void list_of(const kob_set *set, int count) {
    char languages[200] = "", msgid[20];
    for (int i = 0; i < count; i++)
        snprintf(languages + strlen(languages), sizeof languages - strlen(languages), "%sx%02d", i ? ":" : "", i);
    kob_languages list = kob_set_languages(set, text("app"), text(languages));
    for (int i = 0; i < 20; i++) {
        snprintf(msgid, sizeof msgid, "in x%02d", i);
        is("a long list", !strcmp(kob_languages_gettext(&list, msgid), i < count ? "here" : msgid));
        list_answers(set, "app", languages, msgid);
    }
}

static void long_lists(void) {
    kob_set *set = kob_set_new();
    for (int i = 0; i < 20; i++) {
        char locale[20], bytes[100];
        snprintf(locale, sizeof locale, "x%02d", i);
        snprintf(bytes, sizeof bytes, "msgid \"in %s\"\nmsgstr \"here\"\n", locale);
        kob_set *more = set_with(set, "app", locale, bytes);
        kob_set_release(set);
        set = more;
    }
    for (int count = 15; count <= 20; count++)
        list_of(set, count);
    kob_set_release(set);
}

/* ---- sets that grow */

static void sets(void) {
    kob_set *none = kob_set_new();
    is("the set of no catalogues", none && kob_set_version(none) == 0 && !strcmp(kob_set_gettext(none, "app", "fr", "a"), "a"));
    kob_catalogue *fr = kob_open_po(po, strlen(po), KOB_CHECKED, NULL);
    kob_set *one = kob_set_with(none, "app", "fr", fr, NULL);
    kob_set *two = set_with(one, "app", "de", "msgid \"hi\"\nmsgstr \"hallo\"\nmsgid \"day\"\nmsgid_plural \"days\"\n"
                            "msgstr[0] \"Tag\"\nmsgstr[1] \"Tage\"\n");
    is("versions", kob_set_version(none) == 0 && kob_set_version(one) == 1 && kob_set_version(two) == 2);
    is("the set before stays", !strcmp(kob_set_gettext(one, "app", "de", "hi"), "hi"));
    kob_set_release(none);
    kob_set_release(one);
    set_refusals(two, fr);
    set_files(two, fr);
    many_answer(fr, two);
    kob_release(fr);
    set_look_ups(two);
    set_texts(two);
    lists_answer(two);
    kob_set *three = set_with(two, "app", "fr", "msgid \"file\"\nmsgstr \"dossier\"\n");
    is("a catalogue is replaced", !strcmp(kob_set_gettext(three, "app", "fr", "file"), "dossier"));
    is("and no other", !strcmp(kob_set_gettext(three, "app", "de", "hi"), "hallo"));
    is("nor that of the set before", !strcmp(kob_set_gettext(two, "app", "fr", "file"), "fichier"));
    is("a set is retained", kob_set_retain(three) == three);
    kob_set_release(three);
    kob_set_release(two);
    is("one holder of the set is left", !strcmp(kob_set_gettext(three, "app", "de", "hi"), "hallo"));
    kob_set_release(three);
    kob_set_release(NULL);
}

/* a set of more catalogues than stand in one run of it */
static void many(void) {
    kob_set *set = kob_set_new();
    char bytes[100], locale[20], wanted[20];
    for (int i = 0; i < 700; i++) {
        snprintf(locale, sizeof locale, "l%03d", i * 263 % 700);
        snprintf(bytes, sizeof bytes, "msgid \"a\"\nmsgstr \"%s\"\n", locale);
        kob_set *more = set_with(set, "app", locale, bytes);
        kob_set_release(set);
        set = more;
    }
    for (int i = 0; i < 700; i++) {
        snprintf(wanted, sizeof wanted, "l%03d", i);
        is("each of 700 catalogues", !strcmp(kob_set_gettext(set, "app", wanted, "a"), wanted));
        kob_languages list = kob_set_languages(set, text("app"), text(wanted));
        is("each of them in a list", !strcmp(kob_languages_gettext(&list, "a"), wanted));
    }
    kob_set_release(set);
}

/* ---- each refusal */

static void refuses_po(const char *bytes, size_t len, enum kob_fault fault, unsigned line) {
    kob_refusal why = { KOB_NO_FAULT, 0 };
    kob_catalogue *c = kob_open_po(bytes, len, KOB_CHECKED, &why);
    if (c || why.fault != fault || why.line != line) {
        printf("wrong: a PO text is refused %d at line %u, and not %d at line %u (%s)\n", why.fault, why.line, fault, line,
               kob_fault_text(fault));
        wrong = 1;
        kob_release(c);
    }
}

#define HEADER(rule) "msgid \"\"\nmsgstr \"Plural-Forms: " rule "\\n\"\n"
#define PLURAL "msgid \"a\"\nmsgid_plural \"b\"\nmsgstr[0] \"c\"\n"

static void po_refusals(void) {
    static const struct {
        enum kob_fault fault;
        unsigned line;
        const char *bytes;
    } all[] = {
        { KOB_PO_NOT_UTF8, 1, "\xff" },
        { KOB_PO_BAD_ESCAPE, 2, "msgid \"a\"\nmsgstr \"\\q\"\n" },
        { KOB_PO_OPEN_STRING, 1, "msgid \"a\nmsgstr \"x\"\n" },
        { KOB_PO_BAD_WORD, 1, "word\n" },
        { KOB_PO_BAD_TEXT, 1, "msgid \"\\004\"\nmsgstr \"x\"\n" },
        { KOB_PO_BAD_ORDER, 1, "msgstr \"x\"\n" },
        { KOB_PO_BAD_INDEX, 3, "msgid \"a\"\nmsgid_plural \"b\"\nmsgstr[1] \"x\"\n" },
        { KOB_PO_DUPLICATE, 3, "msgid \"a\"\nmsgstr \"x\"\nmsgid \"a\"\nmsgstr \"y\"\n" },
        { KOB_PO_CHARSET, 1, "msgid \"\"\nmsgstr \"Content-Type: text/plain; charset=EUC-TW\\n\"\n" },
        { KOB_PO_NO_CHARACTER, 4, "msgid \"\"\nmsgstr \"charset=CP1252\\n\"\nmsgid \"a\"\nmsgstr \"\x81\"\n" },
        { KOB_PO_NO_RULE, 1, PLURAL },
        { KOB_PO_BAD_RULE, 1, HEADER("nplurals=1; plural=;") PLURAL },
        { KOB_PO_FORM_COUNT, 3, HEADER("nplurals=2; plural=n>1;") PLURAL },
        { KOB_PO_PLURAL_RANGE, 1, HEADER("nplurals=1; plural=n>1;") PLURAL },
        { KOB_PO_FORMAT_MISMATCH, 2, "#, c-format\nmsgid \"%d\"\nmsgstr \"%s\"\n" },
        { KOB_PO_NEWLINE_MISMATCH, 1, "msgid \"a\\n\"\nmsgstr \"b\"\n" },
    };
    for (size_t i = 0; i < sizeof all / sizeof *all; i++)
        refuses_po(all[i].bytes, strlen(all[i].bytes), all[i].fault, all[i].line);
    size_t large = 67108865;
    char *blank = calloc(large, 1);
    if (blank)
        refuses_po(blank, large, KOB_PO_TOO_LARGE, 0);
    free(blank);
}

static void fault_texts(void) {
    for (int fault = KOB_NO_FAULT; fault <= KOB_BAD_NAME; fault++) {
        int known = fault <= KOB_MO_NO_CHARACTER || (fault >= KOB_PO_TOO_LARGE && fault <= KOB_PO_NEWLINE_MISMATCH) ||
                    fault == KOB_PO_NO_CHARACTER || fault == KOB_PO_NOT_READ_BACK || fault == KOB_UNREADABLE || fault == KOB_BAD_NAME;
        is("a fault has a text", known == (strcmp(kob_fault_text((enum kob_fault)fault), "unknown fault") != 0));
    }
}

/* A file of two messages in a charset: "" and "a". */
static kob_catalogue *in_charset(const char *charset, const char *translation, kob_refusal *why) {
    unsigned char file[256] = { 0xde, 0x12, 0x04, 0x95 };
    char header[64];
    int len = snprintf(header, sizeof header, "charset=%s\n", charset);
    unsigned words[] = { 0, 2, 28, 44, 0, 60, 0, 60, 1, 61, (unsigned)len, 63, (unsigned)strlen(translation),
                         64 + (unsigned)len };
    for (size_t i = 0; i < sizeof words / sizeof *words; i++)
        file[4 + 4 * i] = (unsigned char)words[i];
    file[61] = 'a';
    memcpy(file + 63, header, (size_t)len + 1);
    memcpy(file + 64 + len, translation, strlen(translation) + 1);
    return kob_open_mo(file, 65 + (size_t)len + strlen(translation), why);
}

/* Files in KOI8-R, EUC-JP and CP1252 are decoded; a byte without a character and an unknown charset are refused. */
static void mo_charsets(void) {
    kob_refusal why;
    kob_catalogue *c = in_charset("KOI8-R", "\xc4\xc1", &why);
    is("an MO file in KOI8-R is opened", c && !strcmp(kob_gettext(c, "a"), "\xd0\xb4\xd0\xb0"));
    is("its header says UTF-8", c && !strcmp(kob_gettext(c, ""), "charset=UTF-8\n"));
    kob_release(c);
    c = in_charset("koi8-r", "ascii", &why);
    is("one whose bytes are ASCII", c && !strcmp(kob_gettext(c, "a"), "ascii"));
    kob_release(c);
    c = in_charset("EUC-JP", "\xa4\xa2\x8e\xb1", &why);
    is("an MO file in EUC-JP", c && !strcmp(kob_gettext(c, "a"), "\xe3\x81\x82\xef\xbd\xb1"));
    kob_release(c);
    is("an incomplete character", !in_charset("EUC-JP", "\xa4", &why) && why.fault == KOB_MO_NO_CHARACTER);
    is("a byte without a character", !in_charset("CP1252", "\x81", &why) && why.fault == KOB_MO_NO_CHARACTER);
    is("a charset that isn't decoded", !in_charset("EUC-TW", "\xa4\xa2", &why) && why.fault == KOB_MO_BAD_TEXT);
    is("and one that is ASCII", !in_charset("EUC-TW", "x", &why) && why.fault == KOB_MO_CHARSET);
}

/* A text in ISO-8859-1 is decoded, unless it has to be UTF-8. */
static void charsets(void) {
    static const char latin[] = "msgid \"\"\nmsgstr \"charset=ISO-8859-1\\n\"\nmsgid \"a\"\nmsgstr \"\xfc\"\n";
    static const char crlf[] = "# K\xf6rner\r\n\r\nmsgid \"\"\r\nmsgstr \"\"\r\n\"charset=ISO-8859-1\\n\"\r\n\r\n"
                               "msgid \"a\"\r\nmsgstr \"\xfc\"\r\n#, fuzzy\r\nmsgid \"b\"\r\nmsgstr \"c\"\r\n";
    kob_refusal why;
    kob_catalogue *c = kob_open_po(latin, strlen(latin), KOB_CHECKED, &why);
    is("a text in ISO-8859-1 is opened", c != NULL);
    is("its texts are UTF-8", c && !strcmp(kob_gettext(c, "a"), "\xc3\xbc"));
    is("its header says so", c && !strcmp(kob_gettext(c, ""), "charset=UTF-8\n"));
    kob_release(c);
    c = kob_open_po(latin, strlen(latin), KOB_STRICT, &why);
    is("a strict reader refuses it", !c && why.fault == KOB_PO_NOT_UTF8 && why.line == 4);
    c = kob_open_po(crlf, strlen(crlf), KOB_CHECKED, &why);
    is("one whose lines end with CRLF", c && !strcmp(kob_gettext(c, "a"), "\xc3\xbc"));
    is("its fuzzy message", c && !strcmp(kob_gettext(c, "b"), "b"));
    kob_release(c);
    mo_charsets();
}

/* The counts that `msgfmt --statistics` prints of the same text. */
static void statistics(void) {
    static const char text[] = "msgid \"\"\nmsgstr \"charset=UTF-8\\n\"\nmsgid \"a\"\nmsgstr \"x\"\n"
                               "#, fuzzy\nmsgid \"b\"\nmsgstr \"x\"\n#, fuzzy\nmsgid \"c\"\nmsgstr \"x\"\n"
                               "msgid \"d\"\nmsgstr \"\"\nmsgid \"e\"\nmsgstr \"\"\nmsgid \"f\"\nmsgstr \"\"\n";
    kob_counts counts;
    for (unsigned options = 0; options <= KOB_USE_FUZZY; options += KOB_USE_FUZZY) {
        kob_catalogue *c = kob_open_po(text, strlen(text), options, NULL);
        kob_statistics(c, &counts);
        is("each of the statistics", counts.translated == 1 && counts.fuzzy == 2 && counts.untranslated == 3);
        kob_release(c);
    }
}

static void calls(void) {
    kob_catalogue *c = kob_open_po(po, strlen(po), KOB_CHECKED, NULL);
    is("a PO text is opened", c != NULL);
    look_ups(c);
    texts(c);
    files(c, "c_library.mo");
    po_files();
    recoding();
    formats();
    is("retain", kob_retain(c) == c);
    kob_release(c);
    is("one holder is left", !strcmp(kob_gettext(c, "hi"), "hi"));
    kob_release(c);
    kob_release(NULL);
    c = kob_open_po(po, strlen(po), KOB_USE_FUZZY, NULL);
    is("fuzzy messages", !strcmp(kob_gettext(c, "hi"), "salut"));
    kob_release(c);
    charsets();
    statistics();
    sets();
    many();
    many_of_a_large_catalogue();
    long_lists();
    po_refusals();
    mo_refusals();
    system_strings("c_library.mo");
    without_index("c_library.mo");
    fault_texts();
}

/* ---- threads */

#define THREADS 4
#define SWAPS 10000

static pthread_mutex_t lock = PTHREAD_MUTEX_INITIALIZER;
static kob_catalogue *shown;
static atomic_int ended;

static kob_catalogue *hold(void) {
    pthread_mutex_lock(&lock);
    kob_catalogue *c = kob_retain(shown);
    pthread_mutex_unlock(&lock);
    return c;
}

static void *ask(void *arg) {
    size_t *asked = arg;
    while (!atomic_load(&ended)) {
        kob_catalogue *c = hold();
        const char *a = kob_gettext(c, "a"), *b = kob_gettext(c, "b");
        if ((strcmp(a, "one") || strcmp(b, "one")) && (strcmp(a, "two") || strcmp(b, "two")))
            atomic_store(&ended, 2);
        kob_release(c);
        ++*asked;
    }
    return NULL;
}

static kob_catalogue *of_text(const char *all) {
    char bytes[100];
    int len = snprintf(bytes, sizeof bytes, "msgid \"a\"\nmsgstr \"%s\"\nmsgid \"b\"\nmsgstr \"%s\"\n", all, all);
    return kob_open_po(bytes, (size_t)len, 0, NULL);
}

static void threads(void) {
    pthread_t ids[THREADS];
    size_t asked[THREADS] = { 0 };
    shown = of_text("one");
    for (int i = 0; i < THREADS; i++)
        pthread_create(&ids[i], NULL, ask, &asked[i]);
    for (int i = 0; i < SWAPS && !atomic_load(&ended); i++) {
        kob_catalogue *next = of_text(i % 2 ? "one" : "two");
        pthread_mutex_lock(&lock);
        kob_catalogue *last = shown;
        shown = next;
        pthread_mutex_unlock(&lock);
        kob_release(last);
    }
    int none = 0;
    is("each thread saw whole catalogues", atomic_compare_exchange_strong(&ended, &none, 1));
    for (int i = 0; i < THREADS; i++) {
        pthread_join(ids[i], NULL);
        is("each thread asked", asked[i] > 0);
    }
    kob_release(shown);
}

/* the same with sets: each has one catalogue more than the last, in the place of the one before */

static kob_set *shown_set;

static kob_set *hold_set(void) {
    pthread_mutex_lock(&lock);
    kob_set *set = kob_set_retain(shown_set);
    pthread_mutex_unlock(&lock);
    return set;
}

static void *ask_set(void *arg) {
    size_t *asked = arg;
    unsigned long long last = 0;
    while (!atomic_load(&ended)) {
        kob_set *set = hold_set();
        unsigned long long version = kob_set_version(set);
        const char *wanted = version % 2 ? "one" : "two";
        if (version < last || strcmp(kob_set_gettext(set, "app", "sv:fr_CA", "a"), wanted) ||
            strcmp(kob_set_gettext(set, "app", "fr", "b"), wanted) || strcmp(kob_set_gettext(set, "app", "de", "a"), "still"))
            atomic_store(&ended, 2);
        last = version;
        kob_set_release(set);
        ++*asked;
    }
    return NULL;
}

static kob_set *with_text(const kob_set *set, const char *locale, const char *all) {
    kob_catalogue *c = of_text(all);
    kob_set *more = kob_set_with(set, "app", locale, c, NULL);
    kob_release(c);
    return more;
}

static void threads_of_sets(void) {
    pthread_t ids[THREADS];
    size_t asked[THREADS] = { 0 };
    kob_set *none = kob_set_new(), *one = with_text(none, "de", "still");
    kob_set_release(none);
    shown_set = with_text(one, "fr", "two");
    kob_set_release(one);
    atomic_store(&ended, 0);
    for (int i = 0; i < THREADS; i++)
        pthread_create(&ids[i], NULL, ask_set, &asked[i]);
    for (int i = 0; i < SWAPS && !atomic_load(&ended); i++) {
        kob_set *next = with_text(shown_set, "fr", i % 2 ? "two" : "one");
        pthread_mutex_lock(&lock);
        kob_set *last = shown_set;
        shown_set = next;
        pthread_mutex_unlock(&lock);
        kob_set_release(last);
    }
    int none_ended = 0;
    is("each thread saw whole sets", atomic_compare_exchange_strong(&ended, &none_ended, 1));
    for (int i = 0; i < THREADS; i++) {
        pthread_join(ids[i], NULL);
        is("each thread asked a set", asked[i] > 0);
    }
    is("the last set", kob_set_version(shown_set) == 2 + SWAPS);
    kob_set_release(shown_set);
}

/* ---- bytes that change while they are opened */

#define OPENINGS 2000

static unsigned char *changing;
static size_t changing_len;

/* Put each byte out of place for a moment, over and over: tables point anywhere, strings aren't closed, texts aren't
 * UTF-8. */
static void *change(void *none) {
    volatile unsigned char *bytes = changing;
    for (unsigned at = 1; !atomic_load(&ended); at = at * 1103515245 + 12345) {
        size_t place = at / 8 % changing_len;
        unsigned char was = bytes[place];
        bytes[place] = at & 1 ? 0xff : 0x7f;
        for (volatile int i = 0; i < 50; i++) {
        }
        bytes[place] = was;
    }
    return none;
}

/* Read all that the catalogue has: a sum that nothing else is compared with. */
static unsigned sum_of(const kob_catalogue *c) {
    unsigned sum = 0;
    kob_entry entry;
    for (size_t i = 0; kob_entry_at(c, i, &entry); i++) {
        for (size_t form = 0; form < entry.forms; form++) {
            kob_text of_form = kob_form_at(c, i, form);
            for (size_t at = 0; at < of_form.len; at++)
                sum += (unsigned char)of_form.at[at];
        }
        sum += kob_find(c, entry.context, entry.msgid, NULL).at != NULL;
    }
    return sum;
}

/* Open these bytes while they change: as an MO file or a PO text. What they were in between is either a catalogue or
 * refused. */
static void open_changing(enum kob_kind kind, const void *bytes, size_t len) {
    pthread_t thread;
    size_t opened = 0;
    changing = malloc(len);
    memcpy(changing, bytes, len);
    changing_len = len;
    atomic_store(&ended, 0);
    pthread_create(&thread, NULL, change, NULL);
    /* (on a busy machine the other thread may rest while a byte is wrong: then there are more openings) */
    for (int i = 0; i < OPENINGS || (!opened && i < 10000 * OPENINGS); i++) {
        kob_refusal why = { KOB_NO_FAULT, 0 };
        kob_catalogue *c = kind == KOB_MO ? kob_open_mo(changing, len, &why) : kob_open_po(changing, len, 0, &why);
        is("what isn't opened is refused", c || why.fault != KOB_NO_FAULT);
        if (c && sum_of(c))
            opened++;
        kob_release(c);
    }
    atomic_store(&ended, 1);
    pthread_join(thread, NULL);
    is("bytes that change are opened now and then", opened > 0);
    free(changing);
}

static void changes(void) {
    char *bytes = po_and(500);
    size_t len = strlen(bytes);
    kob_catalogue *c = kob_open_po(bytes, len, 0, NULL);
    kob_text mo = kob_mo_file(c);
    open_changing(KOB_MO, mo.at, mo.len);
    open_changing(KOB_PO, bytes, len);
    kob_release(c);
    free(bytes);
}

/* ---- files with no memory behind them */

static void print_refusal(const char *name) {
    FILE *f = fopen(name, "rb");
    if (!f)
        exit(2);
    fseek(f, 0, SEEK_END);
    size_t len = (size_t)ftell(f), page = (size_t)sysconf(_SC_PAGESIZE), whole = (len + page - 1) / page * page;
    rewind(f);
    unsigned char *room = mmap(NULL, whole + page, PROT_READ | PROT_WRITE, MAP_PRIVATE | MAP_ANONYMOUS, -1, 0);
    unsigned char *bytes = room + whole - len;
    if (room == MAP_FAILED || fread(bytes, 1, len, f) != len || mprotect(room + whole, page, PROT_NONE))
        exit(2);
    fclose(f);
    kob_refusal why;
    kob_catalogue *c = kob_open_mo(bytes, len, &why);
    /* (the program that this is compared with reads revision 0.0 alone) */
    int is_mo = len >= 28 && (!memcmp(bytes, "\xde\x12\x04\x95", 4) || !memcmp(bytes, "\x95\x04\x12\xde", 4));
    int is_revised = is_mo && memcmp(bytes + 4, "\0\0\0", 4);
    munmap(room, whole + page);
    if (is_revised)
        printf("refused %d\n", KOB_MO_REVISION);
    else if (c)
        printf("accepted %zu\n", kob_count(c));
    else
        printf("refused %d\n", why.fault);
    kob_release(c);
}

int main(int argc, char **argv) {
    const char *what = argc > 1 ? argv[1] : "";
    if (!strcmp(what, "calls"))
        calls();
    else if (!strcmp(what, "changing"))
        changes();
    else if (!strcmp(what, "threads")) {
        threads();
        threads_of_sets();
    } else
        for (int i = 2; i < argc; i++)
            print_refusal(argv[i]);
    return wrong;
}
