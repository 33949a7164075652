/* A part of c_library.c: MO files that are made, opened and refused, a word or a string of each being changed. */
#ifndef C_LIBRARY_MO_H
#define C_LIBRARY_MO_H

static void put(unsigned char *at, uint32_t word) {
    for (int i = 0; i < 4; i++)
        at[i] = (unsigned char)(word >> 8 * i);
}

/* An MO file of `count` entries with these strings. */
struct string {
    const char *at;
    uint32_t len;
};

static unsigned char *mo_of(const struct string *originals, const struct string *translations, uint32_t n, size_t *len) {
    uint32_t at = 28 + 16 * n;
    *len = at;
    for (uint32_t i = 0; i < n; i++)
        *len += originals[i].len + translations[i].len + 2;
    unsigned char *file = calloc(1, *len);
    const uint32_t words[] = { 0x950412de, 0, n, 28, 28 + 8 * n, 0, at };
    for (int i = 0; i < 7; i++)
        put(file + 4 * i, words[i]);
    for (uint32_t i = 0; i < 2 * n; i++) {
        struct string s = i < n ? originals[i] : translations[i - n];
        put(file + 28 + 8 * i, s.len);
        put(file + 32 + 8 * i, at);
        memcpy(file + at, s.at, s.len);
        at += s.len + 1;
    }
    return file;
}

static void refuses_mo(const unsigned char *file, size_t len, enum kob_fault fault) {
    kob_refusal why = { KOB_NO_FAULT, 0 };
    kob_catalogue *c = kob_open_mo(file, len, &why);
    if (c || why.fault != fault || why.line != 0) {
        printf("wrong: an MO file is refused %d, and not %d (%s)\n", why.fault, fault, kob_fault_text(fault));
        wrong = 1;
        kob_release(c);
    }
}

static void refuses_strings(struct string o, struct string t, enum kob_fault fault) {
    size_t len;
    unsigned char *file = mo_of(&o, &t, 1, &len);
    refuses_mo(file, len, fault);
    free(file);
}

/* The bytes of one entry, with one word or byte of the file changed. */
static void refuses_changed(size_t offset, uint32_t word, enum kob_fault fault) {
    const struct string o = { "a", 1 }, t = { "b", 1 };
    size_t len;
    unsigned char *file = mo_of(&o, &t, 1, &len);
    put(file + offset, word);
    refuses_mo(file, len, fault);
    free(file);
}

/* 300 entries that share one translation of a million bytes. */
static void refuses_swollen(void) {
    const uint32_t n = 300, long_one = 1000000, at = 28 + 16 * n;
    size_t len = at + 4 * n + long_one + 1;
    unsigned char *file = calloc(1, len);
    const uint32_t words[] = { 0x950412de, 0, n, 28, 28 + 8 * n, 0, at };
    for (int i = 0; i < 7; i++)
        put(file + 4 * i, words[i]);
    for (uint32_t i = 0; i < n; i++) {
        put(file + 28 + 8 * i, 3);
        put(file + 32 + 8 * i, at + 4 * i);
        snprintf((char *)file + at + 4 * i, 4, "%03u", i);
        put(file + 28 + 8 * (n + i), long_one);
        put(file + 32 + 8 * (n + i), at + 4 * n);
    }
    memset(file + at + 4 * n, 'x', long_one);
    refuses_mo(file, len, KOB_MO_SWOLLEN);
    free(file);
}

static void mo_refusals(void) {
    const struct string falling[] = { { "b", 1 }, { "a", 1 } }, two[] = { { "c", 1 }, { "d", 1 } };
    size_t len;
    refuses_mo((const unsigned char *)"", 268435457, KOB_MO_TOO_LARGE);
    refuses_mo(NULL, 0, KOB_MO_SHORT);
    refuses_changed(0, 1, KOB_MO_MAGIC);
    refuses_changed(4, 2, KOB_MO_REVISION);
    refuses_changed(4, 1, KOB_MO_DEPENDENT_TABLES);
    refuses_changed(32, 1000, KOB_MO_BOUNDS);
    refuses_changed(28, 0, KOB_MO_NO_NUL);
    refuses_strings((struct string){ "\xff", 1 }, (struct string){ "b", 1 }, KOB_MO_BAD_TEXT);
    refuses_strings((struct string){ "a", 1 }, (struct string){ "b\0c", 3 }, KOB_MO_FORMS);
    unsigned char *file = mo_of(falling, two, 2, &len);
    refuses_mo(file, len, KOB_MO_ORDER);
    free(file);
    refuses_strings((struct string){ "", 0 }, (struct string){ "charset=EUC-TW\n", 15 }, KOB_MO_CHARSET);
    refuses_swollen();
}

/* What GNU msgfmt writes of a message and of one with %<PRIu64>, which has revision 0.1. */
static const uint32_t system_dependent[] = { 0x950412de, 1, 1, 48, 56, 5, 64, 1, 84, 1, 92, 96, 1, 140, 1, 142, 1, 0, 0,
                                             0, 0, 7, 144, 100, 120, 151, 3, 0, 1, 0xffffffff, 155, 1, 0, 3, 0xffffffff };

/* The text that GNU msgfmt writes this file of. */
static const char system_text[] = "msgid \"s\"\nmsgstr \"S\"\n"
                                  "#, c-format\nmsgid \"n %<PRIu64>\"\nmsgstr \"%<PRIu64> N\"\n";

static void compiles_system_strings(const unsigned char *file, size_t len) {
    kob_counts counts = { 0, 0, 0 };
    kob_refusal why;
    kob_catalogue *c = kob_open_po(system_text, strlen(system_text), KOB_CHECKED, &why);
    is("a text with a macro is compiled", c && kob_count(c) == 2);
    kob_text made = kob_mo_file(c);
    is("its file is GNU msgfmt's", made.len == len && !memcmp(made.at, file, len));
    is("its string has the value of PRIu64", !strcmp(kob_gettext(c, "n %lu"), "%lu N"));
    is("its other string", !strcmp(kob_gettext(c, "s"), "S"));
    kob_statistics(c, &counts);
    is("its statistics", counts.translated == 2 && !counts.fuzzy && !counts.untranslated);
    kob_release(c);
    is("KOB_STRICT refuses it", !kob_open_po(system_text, strlen(system_text), KOB_STRICT, &why) &&
                                    why.fault == KOB_PO_SYSTEM_DEPENDENT && why.line == 4);
}

static void system_strings(const char *name) {
    const char strings[] = "s\0S\0PRIu64\0n %\0% N";
    unsigned char bytes[sizeof system_dependent + sizeof strings];
    for (size_t i = 0; i < sizeof system_dependent / 4; i++)
        put(bytes + 4 * i, system_dependent[i]);
    memcpy(bytes + sizeof system_dependent, strings, sizeof strings);
    kob_refusal why;
    compiles_system_strings(bytes, sizeof bytes);
    kob_catalogue *c = kob_open_mo(bytes, sizeof bytes, &why);
    is("a file of revision 0.1 is opened", c && kob_count(c) == 2);
    is("its string has the value of PRIu64", c && !strcmp(kob_gettext(c, "n %lu"), "%lu N"));
    kob_release(c);
    FILE *f = fopen(name, "wb");
    is("it is written", f && fwrite(bytes, 1, sizeof bytes, f) == sizeof bytes && !fclose(f));
    c = kob_open_file(name, KOB_MO, 0, &why);
    is("it is opened by its name", c && kob_count(c) == 2);
    kob_release(c);
    is("KOB_STRICT refuses it", !kob_open_file(name, KOB_MO, KOB_STRICT, &why) && why.fault == KOB_MO_REVISION);
    unlink(name);
    put(bytes + 84, 0);
    refuses_mo(bytes, sizeof bytes, KOB_MO_DEPENDENT_SEGMENT);
}

/* A catalogue without an index, of a PO text or of its MO file, answers as with one. */
static void without_index(const char *name) {
    enum { COUNT = 300 };
    char bytes[64 * COUNT], *end = bytes, msgid[20], wanted[20];
    for (int i = 0; i < COUNT; i++)
        end += sprintf(end, "msgid \"message %d\"\nmsgstr \"Meldung %d\"\n", i, i);
    kob_catalogue *c = kob_open_po(bytes, strlen(bytes), KOB_WITHOUT_INDEX, NULL);
    is("a PO text is opened without an index", c && kob_count(c) == COUNT);
    kob_text file = kob_mo_file(c);
    FILE *f = fopen(name, "wb");
    is("its MO file is written", f && fwrite(file.at, 1, file.len, f) == file.len && !fclose(f));
    kob_catalogue *read = kob_open_file(name, KOB_MO, KOB_WITHOUT_INDEX, NULL);
    is("an MO file is opened without an index", read && kob_count(read) == COUNT);
    for (int i = 0; i < COUNT; i++) {
        snprintf(msgid, sizeof msgid, "message %d", i);
        snprintf(wanted, sizeof wanted, "Meldung %d", i);
        is("each message of the PO text", !strcmp(kob_gettext(c, msgid), wanted));
        is("each message of the MO file", !strcmp(kob_gettext(read, msgid), wanted));
    }
    is("a message that isn't there", !strcmp(kob_gettext(c, "message"), "message"));
    kob_release(c);
    kob_release(read);
    unlink(name);
}

#endif
