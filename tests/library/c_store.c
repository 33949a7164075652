/* Calls the live store of libkobdzila in one thread. It is linked with the wrappers below around malloc and realloc
 * (-Wl,--wrap=malloc and so on), and run by tests/library/c_store.sh. It prints what is wrong, and nothing else.
 *
 *   c_store calls     each function, and each refusal; handles freed in every order
 *   c_store memory    each request for memory refused in turn */
#include "kobdzila.h"

#include <errno.h>
#include <stdio.h>
#include <stdlib.h>
#include <string.h>

static int wrong;

static void is(const char *what, int holds) {
    if (!holds) {
        printf("wrong: %s\n", what);
        wrong = 1;
    }
}

/* ---- what the library asks of the C library */

static unsigned long requests, refused, bytes;
static long blocks;

void *__real_malloc(size_t len);
void *__real_realloc(void *old, size_t len);
void __real_free(void *block);

void *__wrap_malloc(size_t len) {
    void *block = ++requests == refused ? NULL : __real_malloc(len);
    bytes += len;
    blocks += block != NULL;
    return block;
}

void *__wrap_realloc(void *old, size_t len) {
    void *block = ++requests == refused ? NULL : __real_realloc(old, len);
    bytes += len;
    blocks += block != NULL && old == NULL;
    return block;
}

void __wrap_free(void *block) {
    blocks -= block != NULL;
    __real_free(block);
    errno = EDOM;
}

/* ---- catalogues and stores of the tests */

/* A catalogue that translates `file` as `one`, in the plural as `more`, and in the context `menu` as `menu`. */
static kob_catalogue *catalogue_of(const char *one, const char *more) {
    char po[400];
    int len = snprintf(po, sizeof po,
                       "msgid \"\"\nmsgstr \"Plural-Forms: nplurals=2; plural=n>1;\\n\"\n"
                       "msgid \"file\"\nmsgid_plural \"files\"\nmsgstr[0] \"%s\"\nmsgstr[1] \"%s\"\n"
                       "msgctxt \"menu\"\nmsgid \"file\"\nmsgid_plural \"files\"\nmsgstr[0] \"menu\"\n"
                       "msgstr[1] \"menus\"\n", one, more);
    kob_catalogue *c = kob_open_po(po, (size_t)len, KOB_CHECKED, NULL);
    is("a catalogue is compiled", c != NULL);
    return c;
}

static int load(kob_store *store, const char *locale, const char *one) {
    kob_catalogue *c = catalogue_of(one, "more");
    kob_refusal why = { KOB_MEMORY, 7 };
    int is_loaded = kob_store_load(store, "app", locale, c, &why);
    is("a load says why", is_loaded ? why.fault == KOB_NO_FAULT && why.line == 0 : why.fault == KOB_MEMORY);
    kob_release(c);
    return is_loaded;
}

static void show(kob_store *store, const char *locale, const char *one) {
    unsigned long long version = 0, before = kob_store_version(store);
    is("a load", load(store, locale, one));
    is("a publish", kob_store_publish(store, &version) && version == before + 1);
}

static int says(const kob_set *set, const char *locale, const char *text) {
    return set && !strcmp(kob_set_gettext(set, "app", locale, "file"), text);
}

/* ---- each function */

static void versions(void) {
    kob_store *store = kob_store_new();
    kob_reader *reader = kob_store_reader(store);
    unsigned long long version = 9;
    is("a new store", kob_store_version(store) == 0 && kob_store_pending(store) == 0 && kob_store_retained(store) == 0);
    is("a new reader", kob_reader_version(reader) == 0 && says(kob_reader_enter(reader), "fr", "file"));
    is("a publish of no loads", kob_store_publish(store, &version) && version == 0);
    is("two loads", load(store, "fr", "fichier") && load(store, "de", "Datei"));
    is("they are pending", kob_store_pending(store) == 2 && kob_store_version(store) == 0);
    const kob_set *set = kob_reader_enter(reader);
    is("nobody sees what is pending", says(set, "fr", "file") && kob_reader_version(reader) == 0);
    is("both are published", kob_store_publish(store, &version) && version == 2 && kob_store_version(store) == 2);
    is("none is pending", kob_store_pending(store) == 0);
    is("an entry stays as it was", says(set, "fr", "file") && kob_reader_version(reader) == 0 &&
                                       kob_set_version(set) == 0);
    set = kob_reader_enter(reader);
    is("both are seen", says(set, "fr", "fichier") && says(set, "de", "Datei") && kob_reader_version(reader) == 2);
    is("the version of its set", kob_set_version(set) == 2);
    is("an entry that finds nothing new", kob_reader_enter(reader) == set && says(set, "fr", "fichier"));
    show(store, "fr", "dossier");
    is("one catalogue is replaced", says(kob_reader_enter(reader), "fr", "dossier") && says(set, "de", "Datei"));
    kob_languages list = kob_set_languages(set, (kob_text){ "app", 3 }, (kob_text){ "fr:de", 5 });
    is("it is in a list", !strcmp(kob_languages_gettext(&list, "file"), "dossier"));
    is("nobody asks for the version", kob_store_publish(store, NULL) && kob_store_version(store) == 3);
    kob_reader *late = kob_store_reader(store);
    is("a late reader", kob_reader_version(late) == 3 && says(kob_reader_enter(late), "fr", "dossier"));
    kob_reader_free(late);
    kob_reader_free(reader);
    kob_store_free(store);
}

/* All look-ups, in a set that a reader has entered. */
static void look_ups(void) {
    kob_store *store = kob_store_new();
    show(store, "fr", "fichier");
    kob_reader *reader = kob_store_reader(store);
    const kob_set *set = kob_reader_enter(reader);
    const kob_text none = { NULL, 0 }, app = { "app", 3 }, fr = { "fr", 2 }, menu = { "menu", 4 }, id = { "file", 4 };
    const unsigned long long two = 2;
    is("gettext", !strcmp(kob_set_gettext(set, "app", "sv:fr_CA", "file"), "fichier"));
    is("pgettext", !strcmp(kob_set_pgettext(set, "app", "fr", "menu", "file"), "menu"));
    is("ngettext", !strcmp(kob_set_ngettext(set, "app", "fr", "file", "files", 2), "more"));
    is("npgettext", !strcmp(kob_set_npgettext(set, "app", "fr", "menu", "file", "files", 2), "menus"));
    is("find", kob_set_find(set, app, fr, none, id, NULL).len == 7);
    is("find in a context, with a number", kob_set_find(set, app, fr, menu, id, &two).len == 5);
    is("find of none", !kob_set_find(set, app, none, none, id, NULL).at);
    kob_languages list = kob_set_languages(set, app, fr), no_list = kob_set_languages(set, app, none);
    is("gettext in a list", !strcmp(kob_languages_gettext(&list, "file"), "fichier"));
    is("pgettext in a list", !strcmp(kob_languages_pgettext(&list, "menu", "file"), "menu"));
    is("ngettext in a list", !strcmp(kob_languages_ngettext(&list, "file", "files", 2), "more"));
    is("npgettext in a list", !strcmp(kob_languages_npgettext(&list, "menu", "file", "files", 2), "menus"));
    is("find in a list", kob_languages_find(&list, none, id, NULL).len == 7);
    is("find in a context, with a number, in a list", kob_languages_find(&list, menu, id, &two).len == 5);
    is("find in no list", !kob_languages_find(&no_list, none, id, NULL).at);
    const kob_question questions[] = { { none, id, NULL }, { menu, id, &two }, { none, menu, NULL } };
    kob_text answers[3], in_list[3];
    kob_set_find_many(set, app, fr, questions, 3, answers);
    is("find many", answers[0].len == 7 && answers[1].len == 5 && !answers[2].at);
    kob_languages_find_many(&list, questions, 3, in_list);
    is("find many in a list", in_list[0].at == answers[0].at && in_list[1].at == answers[1].at && !in_list[2].at);
    is("gettext of NULL", !kob_set_gettext(set, "app", "fr", NULL));
    kob_catalogue *c = catalogue_of("filo", "fili");
    kob_refusal why = { KOB_MEMORY, 7 };
    kob_set *more = kob_set_with(set, "app", "it", c, &why);
    is("a set is made of a lent one", more && why.fault == KOB_NO_FAULT && kob_set_version(more) == 2);
    is("a lent set refuses a name", !kob_set_with(set, "app", "a/b", c, &why) && why.fault == KOB_BAD_NAME);
    show(store, "fr", "dossier");
    kob_reader_free(reader);
    kob_store_free(store);
    kob_release(c);
    is("the set that was made stays", says(more, "it", "filo") && says(more, "fr", "fichier"));
    kob_set_release(more);
}

static void notices(void) {
    kob_store *store = kob_store_new(), *other = kob_store_new();
    kob_reader *reader = kob_store_reader(store);
    show(store, "fr", "one");
    kob_notice *first = kob_store_notice(store);
    show(store, "fr", "two");
    kob_notice *second = kob_store_notice(store), *strange = kob_store_notice(other);
    is("an entry after a notice", says(kob_reader_enter_after(reader, second), "fr", "two"));
    is("and after an older one", says(kob_reader_enter_after(reader, first), "fr", "two"));
    is("its version", kob_reader_version(reader) == 2);
    show(store, "fr", "three");
    is("a notice of another store", !kob_reader_enter_after(reader, strange) && kob_reader_version(reader) == 2);
    is("an older notice, and there is news", says(kob_reader_enter_after(reader, first), "fr", "three"));
    kob_store_free(store);
    is("a notice after the store's end", says(kob_reader_enter_after(reader, second), "fr", "three"));
    kob_notice_free(second);
    kob_reader_free(reader);
    kob_notice_free(first);
    kob_store_free(other);
    kob_notice_free(strange);
}

static void refusals(void) {
    static const char *const names[] = { "", "a b", "a/b", "\xc3\xa9", "\xff", NULL,
        "aaaaaaaaaaaaaaaaaaaaaaaaaaaaaaaaaaaaaaaaaaaaaaaaaaaaaaaaaaaaaaaaa" };
    kob_store *store = kob_store_new();
    kob_catalogue *c = catalogue_of("one", "more");
    is("a load before", load(store, "de", "Datei"));
    for (size_t i = 0; i < sizeof names / sizeof *names; i++) {
        kob_refusal why = { KOB_NO_FAULT, 7 };
        is("a domain is no name", !kob_store_load(store, names[i], "fr", c, &why) && why.fault == KOB_BAD_NAME);
        is("a refusal of a load has no line", why.line == 0);
        why.fault = KOB_NO_FAULT;
        is("a locale is no name", !kob_store_load(store, "app", names[i], c, &why) && why.fault == KOB_BAD_NAME);
        is("nobody asks why", !kob_store_load(store, names[i], "fr", c, NULL));
    }
    is("what was pending is", kob_store_pending(store) == 1 && kob_store_publish(store, NULL));
    kob_reader *reader = kob_store_reader(store);
    is("and is published", says(kob_reader_enter(reader), "de", "Datei") && kob_store_version(store) == 1);
    is("its text", !strcmp(kob_fault_text(KOB_VERSIONS_SPENT), "no more versions"));
    kob_reader_free(reader);
    kob_store_free(store);
    kob_release(c);
}

/* A replaced set lasts while a reader has it, and no longer than the next publish or count after that. */
static void retained(void) {
    kob_store *store = kob_store_new();
    show(store, "fr", "one");
    kob_reader *reader = kob_store_reader(store);
    const char *text = kob_set_gettext(kob_reader_enter(reader), "app", "fr", "file");
    for (int i = 0; i < 100; i++)
        show(store, "fr", "two");
    is("a reader holds one set", kob_store_retained(store) == 1 && !strcmp(text, "one"));
    long before = blocks;
    kob_reader_enter(reader);
    for (int i = 0; i < 100; i++)
        show(store, "fr", "two");
    is("a set that nobody has is freed", kob_store_retained(store) == 1 && blocks <= before);
    kob_reader_enter(reader);
    is("and without a publish", kob_store_retained(store) == 0 && blocks < before);
    kob_reader_free(reader);
    kob_store_free(store);
}

/* A reader that has left holds no set, and its own is empty until it enters again. */
static void leaving(void) {
    kob_store *store = kob_store_new();
    kob_reader *reader = kob_store_reader(store);
    kob_reader_leave(reader);
    is("a reader leaves before it enters", kob_reader_version(reader) == 0);
    show(store, "fr", "one");
    const kob_set *set = kob_reader_enter(reader);
    is("it enters the newest", says(set, "fr", "one"));
    kob_catalogue *c = catalogue_of("zwei", "zweien");
    for (int times = 0; times < 2; times++) {
        kob_reader_leave(reader);
        is("a set that was left is empty", says(set, "fr", "file"));
        is("its version stays", kob_reader_version(reader) == 1 && kob_set_version(set) == 1);
        kob_languages list = kob_set_languages(set, (kob_text){ "app", 3 }, (kob_text){ "fr:de", 5 });
        is("so are its lists", !strcmp(kob_languages_gettext(&list, "file"), "file"));
        kob_set *more = kob_set_with(set, "app", "de", c, NULL);
        is("a set is made of it", says(more, "de", "zwei") && says(more, "fr", "file") && kob_set_version(more) == 1);
        kob_set_release(more);
    }
    is("it enters the same again", says(kob_reader_enter(reader), "fr", "one"));
    kob_reader_leave(reader);
    show(store, "fr", "two");
    kob_notice *notice = kob_store_notice(store);
    is("what it left was freed", kob_store_retained(store) == 0);
    is("it enters a newer one", says(kob_reader_enter(reader), "fr", "two") && kob_reader_version(reader) == 2);
    kob_reader_leave(reader);
    show(store, "fr", "three");
    is("it enters after a notice", says(kob_reader_enter_after(reader, notice), "fr", "three"));
    kob_reader_leave(reader);
    kob_store *other = kob_store_new();
    kob_notice *strange = kob_store_notice(other);
    is("not after a strange one", !kob_reader_enter_after(reader, strange) && kob_reader_version(reader) == 3);
    kob_store_free(other);
    kob_store_free(store);
    is("nor with the store", says(kob_reader_enter(reader), "fr", "three"));
    kob_reader_leave(reader);
    kob_reader_free(reader);
    kob_notice_free(notice);
    kob_notice_free(strange);
    kob_release(c);
}

/* Readers in different versions, which all leave: the memory of these versions is back at the next count. */
static void all_left(void) {
    enum { COUNT = 20 };
    kob_reader *readers[COUNT];
    kob_store *store = kob_store_new();
    for (int i = 0; i < COUNT; i++)
        readers[i] = kob_store_reader(store);
    for (int i = 0; i < COUNT; i++) {
        show(store, "fr", "one");
        is("an entry in each", says(kob_reader_enter(readers[i]), "fr", "one"));
    }
    show(store, "fr", "two");
    is("each version is retained", kob_store_retained(store) == COUNT);
    long before = blocks;
    for (int i = 0; i < COUNT; i++) {
        kob_reader_leave(readers[i]);
        is("a reader that leaves frees nothing", blocks == before);
    }
    is("none is retained", kob_store_retained(store) == 0 && blocks < before - COUNT);
    before = blocks;
    for (int i = 0; i < COUNT; i++)
        is("each enters the newest", says(kob_reader_enter(readers[i]), "fr", "two"));
    is("to enter allocates nothing", blocks == before && kob_store_retained(store) == 0);
    for (int i = 0; i < COUNT; i++)
        kob_reader_free(readers[i]);
    kob_store_free(store);
}

/* A set that a reader lends has no references: to retain it and to release it changes nothing. */
static void lent_sets(void) {
    kob_store *store = kob_store_new();
    show(store, "fr", "one");
    kob_reader *reader = kob_store_reader(store);
    kob_set *lent = (kob_set *)kob_reader_enter(reader);
    is("a lent set is retained as itself", kob_set_retain(lent) == lent && says(lent, "fr", "one"));
    for (int i = 0; i < 3; i++)
        kob_set_release(lent);
    is("a lent set outlasts its release", says(lent, "fr", "one") && kob_set_version(lent) == 1);
    kob_catalogue *c = catalogue_of("two", "twos");
    kob_set *own = kob_set_with(lent, "app", "de", c, NULL);
    show(store, "fr", "three");
    for (int i = 0; i < 3; i++)
        kob_set_retain(lent);
    is("a lent set ends with the next entry", says(kob_reader_enter(reader), "fr", "three"));
    is("a set that is made of it doesn't", says(own, "fr", "one") && says(own, "de", "two") && kob_set_version(own) == 2);
    kob_reader_free(reader);
    kob_store_free(store);
    is("nor with the store", says(kob_set_retain(own), "de", "two"));
    kob_set_release(own);
    is("one reference is left", says(own, "fr", "one"));
    kob_set_release(own);
    kob_release(c);
}

/* Free a store, two readers and a notice in each of the 24 orders. */
static void orders(void) {
    for (int order = 0; order < 24; order++) {
        kob_store *store = kob_store_new();
        show(store, "fr", "one");
        kob_reader *readers[2] = { kob_store_reader(store), kob_store_reader(store) };
        show(store, "fr", "two");
        kob_notice *notice = kob_store_notice(store);
        kob_reader_enter(readers[1]);
        int left[4] = { 0, 1, 2, 3 }, rest = order;
        for (int count = 4; count; count--) {
            int at = rest % count, which = left[at];
            rest /= count;
            left[at] = left[count - 1];
            errno = 77;
            if (which == 0)
                kob_store_free(store);
            else if (which == 3)
                kob_notice_free(notice);
            else
                kob_reader_free(readers[which - 1]);
            is("what frees a handle keeps errno", errno == 77);
            for (int i = 0; i < count - 1; i++)
                if (left[i] == 1 || left[i] == 2)
                    is("a reader works on", says(kob_reader_enter(readers[left[i] - 1]), "fr", "two"));
        }
    }
    kob_store_free(NULL);
    kob_reader_free(NULL);
    kob_notice_free(NULL);
}

static void many_readers(void) {
    enum { COUNT = 1000 };
    static kob_reader *readers[COUNT];
    kob_store *store = kob_store_new();
    show(store, "fr", "one");
    for (int i = 0; i < COUNT; i++)
        readers[i] = kob_store_reader(store);
    show(store, "fr", "two");
    for (int i = 0; i < COUNT; i++)
        is("each of 1,000 readers", says(kob_reader_enter(readers[i]), "fr", "two"));
    for (int i = 0; i < COUNT; i++)
        kob_reader_free(readers[(i * 7) % COUNT]);
    kob_store_free(store);
}

/* As many catalogues as a set has in several of its runs. */
static void many_catalogues(void) {
    kob_store *store = kob_store_new();
    kob_reader *reader = kob_store_reader(store);
    char locale[20];
    for (int i = 0; i < 700; i++) {
        snprintf(locale, sizeof locale, "l%03d", i * 263 % 700);
        is("each load", load(store, locale, locale));
        if (i % 7 == 6)
            is("seven at once", kob_store_publish(store, NULL));
    }
    const kob_set *set = kob_reader_enter(reader);
    for (int i = 0; i < 700; i++) {
        snprintf(locale, sizeof locale, "l%03d", i);
        is("each of 700 catalogues", says(set, locale, locale));
    }
    is("how many", kob_reader_version(reader) == 700);
    kob_reader_free(reader);
    kob_store_free(store);
}

/* What a publish of one load among many catalogues takes: memory for the runs that change, and not for all rows,
 * though a reader has each of the versions before. So it is for a set with one catalogue more. */
static void shared_runs(void) {
    enum { COUNT = 4000, READERS = 3, TIMES = 40, MOST_BYTES = 50000 };
    kob_store *store = kob_store_new();
    kob_reader *readers[READERS];
    kob_catalogue *c = catalogue_of("one", "more");
    char locale[20];
    for (int i = 0; i < COUNT; i++) {
        snprintf(locale, sizeof locale, "l%d", i);
        is("each load", kob_store_load(store, "app", locale, c, NULL));
    }
    is("all at once", kob_store_publish(store, NULL));
    for (int i = 0; i < READERS; i++)
        readers[i] = kob_store_reader(store);
    for (int i = 0; i < TIMES; i++) {
        snprintf(locale, sizeof locale, "l%d", i * 1709 % COUNT);
        is("a load more", kob_store_load(store, "app", locale, c, NULL));
        bytes = 0;
        is("a publish of it", kob_store_publish(store, NULL));
        is("a publish shares the runs that it leaves", bytes < MOST_BYTES);
        const kob_set *set = kob_reader_enter(readers[i % READERS]);
        bytes = 0;
        kob_set *next = kob_set_with(set, "app", locale, c, NULL);
        is("a set shares them as well", bytes < MOST_BYTES && says(next, locale, "one"));
        kob_set_release(next);
    }
    for (int i = 0; i < READERS; i++)
        kob_reader_free(readers[i]);
    kob_store_free(store);
    kob_release(c);
}

static void calls(void) {
    versions();
    look_ups();
    notices();
    refusals();
    retained();
    leaving();
    all_left();
    lent_sets();
    orders();
    many_readers();
    many_catalogues();
    shared_runs();
    is("all blocks were freed", blocks == 0);
}

/* ---- each request refused in turn */

static kob_store *given;
static kob_reader *given_reader;
static kob_catalogue *given_catalogue;

/* Calls that may fail: each returns whether it did what it should, and leaves no handle behind. */
static int new_store(void) {
    kob_store *store = kob_store_new();
    kob_store_free(store);
    return store != NULL;
}

static int new_reader(void) {
    kob_reader *reader = kob_store_reader(given);
    is("a reader of the newest", !reader || says(kob_reader_enter(reader), "fr", "one"));
    kob_reader_free(reader);
    return reader != NULL;
}

static int new_notice(void) {
    kob_notice *notice = kob_store_notice(given);
    is("an entry after it", !notice || says(kob_reader_enter_after(given_reader, notice), "fr", "one"));
    kob_notice_free(notice);
    return notice != NULL;
}

static int add_load(void) {
    unsigned long long before = kob_store_pending(given);
    kob_refusal why = { KOB_NO_FAULT, 7 };
    int is_loaded = kob_store_load(given, "app", "de", given_catalogue, &why);
    is("a load's reason", why.fault == (is_loaded ? KOB_NO_FAULT : KOB_MEMORY) && why.line == 0);
    is("what is pending", kob_store_pending(given) == before + (is_loaded ? 1 : 0));
    return is_loaded;
}

static int publish(void) {
    unsigned long long pending = kob_store_pending(given), before = kob_store_version(given), version = before;
    int is_published = kob_store_publish(given, &version);
    is("a publish's version", version == before + (is_published ? pending : 0) && version == kob_store_version(given));
    is("what is pending then", kob_store_pending(given) == (is_published ? 0 : pending));
    const kob_set *set = kob_reader_enter(given_reader);
    is("an entry then", says(set, "fr", "one") && kob_reader_version(given_reader) == version);
    return is_published;
}

static int publish_two(void) {
    unsigned long kept = refused;
    refused = 0;
    is("two loads are pending", add_load() && add_load());
    requests = 0;
    refused = kept;
    int is_published = publish();
    refused = 0;
    is("and are published", is_published || publish());
    return is_published;
}

static void sweep(const char *what, int (*call)(void), int takes_memory) {
    unsigned long n = 0;
    int was_refused = 1, told = 0;
    while (was_refused && !wrong) {
        requests = 0;
        refused = ++n;
        int is_done = call();
        was_refused = requests >= n && n < 1000;
        refused = 0;
        told += !is_done;
        is(what, is_done || was_refused);
        is("what the reader sees stays", says(kob_reader_enter(given_reader), "fr", "one"));
        if (wrong)
            printf("wrong: %s, request %lu refused\n", what, n);
    }
    is("a request was refused", !takes_memory || told > 0);
}

static int enter(void) {
    requests = 0;
    const kob_set *set = kob_reader_enter(given_reader);
    int is_right = says(set, "fr", "one") && kob_set_version(set) == kob_reader_version(given_reader) &&
                   kob_store_version(given) > 0 && kob_store_retained(given) < 9;
    kob_reader_leave(given_reader);
    is_right = is_right && says(kob_reader_enter(given_reader), "fr", "one");
    is("an entry, leaving, look-ups and numbers allocate nothing", requests == 0);
    return is_right;
}

static void memory(void) {
    given = kob_store_new();
    char locale[20];
    for (int i = 0; i < 200; i++) { /* so that what is loaded below is not in the first run */
        snprintf(locale, sizeof locale, "a%03d", i);
        show(given, locale, "early");
    }
    show(given, "fr", "one");
    given_reader = kob_store_reader(given);
    given_catalogue = catalogue_of("Datei", "Dateien");
    sweep("kob_store_new", new_store, 1);
    sweep("kob_store_reader", new_reader, 1);
    sweep("kob_store_notice", new_notice, 1);
    sweep("kob_reader_enter", enter, 0);
    for (int times = 0; times < 9; times++) {
        sweep("kob_store_load", add_load, 1);
        sweep("kob_store_publish", publish, 1);
        sweep("kob_store_publish of two loads", publish_two, 1);
        is("an entry that finds news", enter());
    }
    kob_release(given_catalogue);
    kob_reader_free(given_reader);
    kob_store_free(given);
    is("all blocks were freed", blocks == 0);
}

int main(int argc, char **argv) {
    if (argc != 2)
        return 2;
    if (!strcmp(argv[1], "calls"))
        calls();
    else
        memory();
    return wrong;
}
