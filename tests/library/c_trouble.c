/* Calls libkobdzila in trouble. It is linked with the wrappers below around malloc and its kin, open, fopen and statx
 * (-Wl,--wrap=malloc and so on), and run by tests/library/c_trouble.sh. It prints what is wrong, and nothing else.
 *
 *   c_trouble memory FOLDER     each call, with each of its requests for memory refused in turn
 *   c_trouble files FOLDER      FIFOs, devices, large files, leases, no file descriptors left; errno, which free changes here
 *   c_trouble null FOLDER       NULL where the header allows it
 *
 * FOLDER has the catalogue fr/LC_MESSAGES/app.mo, which translates `a` as `b`; it is also the place for files. */
#define _GNU_SOURCE
#include "kobdzila.h"

#include <errno.h>
#include <fcntl.h>
#include <pthread.h>
#include <signal.h>
#include <stdatomic.h>
#include <stdio.h>
#include <stdlib.h>
#include <string.h>
#include <sys/resource.h>
#include <sys/stat.h>
#include <unistd.h>

static int wrong;
static char name_of_mo[4096], name_of_file[4096];
static const char *folder;

static void is(const char *what, int holds) {
    if (!holds) {
        printf("wrong: %s\n", what);
        wrong = 1;
    }
}

/* ---- what the library asks of the C library */

static unsigned long requests, refused, blocks;
static size_t largest, whole; /* a request for `whole` bytes or more is one for a whole file */
static unsigned long wholes;
static int free_changes_errno, leaves_open;

void *__real_malloc(size_t len);
void *__real_realloc(void *old, size_t len);
void *__real_calloc(size_t n, size_t len);
void __real_free(void *block);
int __real_open(const char *name, int flags, ...);
FILE *__real_fopen(const char *name, const char *mode);

static int is_refused(size_t len) {
    largest = len > largest ? len : largest;
    wholes += whole && len >= whole;
    if (++requests != refused)
        return 0;
    errno = ENOMEM;
    return 1;
}

void *__wrap_malloc(size_t len) {
    void *block = is_refused(len) ? NULL : __real_malloc(len);
    blocks += block != NULL;
    return block;
}

void *__wrap_calloc(size_t n, size_t len) {
    void *block = is_refused(n * len) ? NULL : __real_calloc(n, len);
    blocks += block != NULL;
    return block;
}

void *__wrap_realloc(void *old, size_t len) {
    void *block = is_refused(len) ? NULL : __real_realloc(old, len);
    blocks += block != NULL && old == NULL;
    return block;
}

void __wrap_free(void *block) {
    blocks -= block != NULL;
    __real_free(block);
    if (free_changes_errno)
        errno = EDOM;
}

int __wrap_open(const char *name, int flags, ...) {
    leaves_open |= !(flags & O_CLOEXEC);
    return __real_open(name, flags);
}

FILE *__wrap_fopen(const char *name, const char *mode) {
    leaves_open |= *mode == 'r' && !strchr(mode, 'e');
    return __real_fopen(name, mode);
}

/* A filter of system calls may be older than this one, as Docker's was. */
int __wrap_statx(int folder, const char *name, int how, unsigned wanted, void *status) {
    (void)folder, (void)name, (void)how, (void)wanted, (void)status;
    errno = EPERM;
    return -1;
}

/* ---- each request refused in turn */

static const char po[] = "msgid \"\"\nmsgstr \"Plural-Forms: nplurals=2; plural=n>1;\\n\"\n"
                         "msgid \"file\"\nmsgid_plural \"files\"\nmsgstr[0] \"fichier\"\nmsgstr[1] \"fichiers\"\n"
                         "msgctxt \"menu\"\nmsgid \"Open\"\nmsgstr \"Ouvrir\"\n";

static int has_texts(const kob_catalogue *c) {
    unsigned long before = requests;
    kob_text none = { NULL, 0 }, id = { "file", 4 };
    unsigned long long two = 2;
    kob_entry entry;
    int has = kob_count(c) == 3 && !strcmp(kob_gettext(c, "file"), "fichier") &&
              !strcmp(kob_pgettext(c, "menu", "Open"), "Ouvrir") &&
              !strcmp(kob_ngettext(c, "file", "files", 2), "fichiers") &&
              !strcmp(kob_npgettext(c, "menu", "file", "files", 2), "files") && kob_find(c, none, id, &two).len == 8 &&
              kob_entry_at(c, 1, &entry) && entry.forms == 2 && kob_form_at(c, 1, 1).len == 8 &&
              kob_mo_file(c).len > 28;
    is("look-ups allocate nothing", requests == before);
    return has;
}

static int set_has_texts(const kob_set *set) {
    unsigned long before = requests;
    kob_text none = { NULL, 0 }, app = { "app", 3 }, fr = { "fr", 2 }, id = { "file", 4 };
    int has = !strcmp(kob_set_gettext(set, "app", "sv:fr", "file"), "fichier") &&
              !strcmp(kob_set_pgettext(set, "app", "fr", "menu", "Open"), "Ouvrir") &&
              !strcmp(kob_set_ngettext(set, "app", "fr", "file", "files", 2), "fichiers") &&
              !strcmp(kob_set_npgettext(set, "app", "fr", "menu", "file", "files", 2), "files") &&
              kob_set_find(set, app, fr, none, id, NULL).len == 7 && kob_set_version(set) >= 1;
    kob_languages list = kob_set_languages(set, app, fr);
    has = has && kob_languages_find(&list, none, id, NULL).len == 7 &&
          !strcmp(kob_languages_ngettext(&list, "file", "files", 2), "fichiers");
    is("look-ups in a set allocate nothing", requests == before);
    return has;
}

/* What the calls are given, what one of them made (a catalogue or a set), and the calls. */
static kob_catalogue *given;
static kob_set *given_set;
static const void *mo_bytes;
static size_t mo_len;

struct made {
    kob_catalogue *c;
    kob_set *set;
    kob_refusal why;
};
typedef void action(struct made *made);

static void open_mo(struct made *made) { made->c = kob_open_mo(mo_bytes, mo_len, &made->why); }

static void open_po(struct made *made) { made->c = kob_open_po(po, strlen(po), KOB_CHECKED, &made->why); }

static void open_mo_file(struct made *made) { made->c = kob_open_file(name_of_mo, KOB_MO, 0, &made->why); }

static void open_po_file(struct made *made) { made->c = kob_open_file(name_of_file, KOB_PO, 0, &made->why); }

static void new_set(struct made *made) {
    made->set = kob_set_new();
    made->why = (kob_refusal){ made->set ? KOB_NO_FAULT : KOB_MEMORY, 0 };
}

static void set_with(struct made *made) { made->set = kob_set_with(given_set, "app", "fr", given, &made->why); }

static void set_open(struct made *made) { made->set = kob_set_open(given_set, folder, "whole", "fr", &made->why); }

static void sweep(const char *what, action *call, int (*is_right)(const kob_catalogue *, const kob_set *)) {
    unsigned long before = blocks, n = 0;
    int was_refused = 1, told = 0;
    while (was_refused) {
        struct made made = { NULL, NULL, { KOB_BAD_NAME, 9 } };
        requests = 0;
        refused = ++n;
        call(&made);
        was_refused = requests >= n;
        refused = 0;
        int succeeded = made.c || made.set;
        if (succeeded)
            is(what, made.why.fault == KOB_NO_FAULT && is_right(made.c, made.set));
        else
            is(what, was_refused && made.why.fault == KOB_MEMORY && made.why.line == 0);
        told += !succeeded;
        is("what it was given stays", has_texts(given) && set_has_texts(given_set));
        kob_release(made.c);
        kob_set_release(made.set);
        is("nothing is leaked", blocks == before);
        if (wrong) {
            printf("wrong: %s, request %lu refused\n", what, n);
            return;
        }
    }
    is("a request was refused", told > 0);
}

static int catalogue_is_right(const kob_catalogue *c, const kob_set *set) { return c && !set && has_texts(c); }

static int empty_set_is_right(const kob_catalogue *c, const kob_set *set) {
    return !c && set && kob_set_version(set) == 0;
}

static int set_is_right(const kob_catalogue *c, const kob_set *set) {
    return !c && set && kob_set_version(set) == 2 && set_has_texts(set);
}

static int opened_set_is_right(const kob_catalogue *c, const kob_set *set) {
    return set_is_right(c, set) && !strcmp(kob_set_gettext(set, "whole", "fr", "file"), "fichier");
}

static void write_file(const char *name, const void *bytes, size_t len) {
    FILE *f = fopen(name, "wb");
    is("a file is written", f && fwrite(bytes, 1, len, f) == len && !fclose(f));
}

/* PO texts of several sizes, so that what grows does so at other requests */
static void sweep_sizes(void) {
    for (size_t n = 0; n <= 40; n++) {
        char bytes[40 * 60], *at = bytes;
        for (size_t i = 0; i < n; i++)
            at += sprintf(at, "msgid \"%zu\"\nmsgstr \"%zu %s\"\n", i, i, "a translation of it");
        unsigned long before = blocks;
        for (unsigned long k = 1;; k++) {
            kob_refusal why = { KOB_BAD_NAME, 9 };
            requests = 0;
            refused = k;
            kob_catalogue *c = kob_open_po(bytes, (size_t)(at - bytes), 0, &why);
            int was_refused = requests >= k;
            refused = 0;
            is("a text of some messages", c ? kob_count(c) == n : was_refused && why.fault == KOB_MEMORY);
            kob_release(c);
            is("nothing is leaked of some messages", blocks == before);
            if (!was_refused || wrong)
                break;
        }
    }
}

/* the faults of a PO file's formats */
static void sweep_formats(void) {
    static const char bytes[] = "#, python-format\nmsgid \"%(a)s %(b)s\"\nmsgstr \"%(a)s %(c)d\"\n";
    unsigned long before = blocks;
    for (unsigned long k = 1;; k++) {
        kob_refusal why;
        requests = 0;
        refused = k;
        kob_format_faults *faults = kob_check_formats(bytes, strlen(bytes), 0, &why);
        int was_refused = requests >= k;
        refused = 0;
        is("faults", faults ? kob_format_fault_count(faults) == 1 : was_refused && why.fault == KOB_MEMORY);
        kob_format_faults_free(faults);
        is("nothing is leaked of faults", blocks == before);
        if (!was_refused || wrong)
            break;
    }
}

/* the PO file of a catalogue */
static void sweep_po_file(void) {
    unsigned long before = blocks;
    for (unsigned long k = 1;; k++) {
        requests = 0;
        refused = k;
        kob_po_file *file = kob_write_po(given, 0);
        int was_refused = requests >= k;
        refused = 0;
        is("a PO file", file ? kob_po_text(file).len > 100 : was_refused);
        kob_po_free(file);
        is("nothing is leaked of a PO file", blocks == before);
        if (!was_refused || wrong)
            break;
    }
}

/* a PO file in another charset */
static void sweep_recoding(void) {
    static const char bytes[] = "msgid \"\"\nmsgstr \"charset=KOI8-R\\n\"\nmsgid \"a\"\nmsgstr \"\301\"\n";
    unsigned long before = blocks;
    for (unsigned long k = 1;; k++) {
        kob_refusal why;
        requests = 0;
        refused = k;
        kob_po_file *file = kob_recode_po(bytes, strlen(bytes), &why);
        int was_refused = requests >= k;
        refused = 0;
        is("a decoded file", file ? kob_po_text(file).len == strlen(bytes) : was_refused && why.fault == KOB_MEMORY);
        kob_po_free(file);
        is("nothing is leaked of decoding", blocks == before);
        if (!was_refused || wrong)
            break;
    }
}

static void memory(void) {
    char name[4200];
    given = kob_open_po(po, strlen(po), 0, NULL);
    kob_set *none = kob_set_new();
    given_set = kob_set_with(none, "app", "fr", given, NULL);
    kob_set_release(none);
    is("a catalogue and a set are made", given && given_set);
    kob_text file = kob_mo_file(given);
    mo_bytes = file.at;
    mo_len = file.len;
    snprintf(name, sizeof name, "%s/fr/LC_MESSAGES/whole.mo", folder);
    strcpy(name_of_mo, name);
    write_file(name, file.at, file.len);
    write_file(name_of_file, po, strlen(po));
    sweep("kob_open_mo", open_mo, catalogue_is_right);
    sweep("kob_open_po", open_po, catalogue_is_right);
    sweep("kob_open_file, MO", open_mo_file, catalogue_is_right);
    sweep("kob_open_file, PO", open_po_file, catalogue_is_right);
    sweep("kob_set_new", new_set, empty_set_is_right);
    sweep("kob_set_with", set_with, set_is_right);
    sweep("kob_set_open", set_open, opened_set_is_right);
    sweep_sizes();
    sweep_po_file();
    sweep_recoding();
    sweep_formats();
    kob_release(given);
    kob_set_release(given_set);
    is("all blocks were freed", blocks == 0);
}

/* ---- files */

static void refuses(const char *what, const char *name, enum kob_kind kind, enum kob_fault fault, int cause) {
    kob_refusal why = { KOB_NO_FAULT, 9 };
    errno = 0;
    largest = 0;
    kob_catalogue *c = kob_open_file(name, kind, 0, &why);
    if (c || why.fault != fault || (cause && errno != cause))
        printf("wrong: %s: refused %d (%s), errno %d\n", what, why.fault, kob_fault_text(why.fault), errno), wrong = 1;
    kob_release(c);
}

static atomic_int has_writer;

static void *write_slowly(void *name) {
    int from = open(name_of_mo, O_RDONLY | O_CLOEXEC), to = open(name, O_WRONLY | O_CLOEXEC);
    char byte;
    atomic_store(&has_writer, 1);
    while (read(from, &byte, 1) == 1 && write(to, &byte, 1) == 1)
        usleep(100);
    close(from);
    close(to);
    return NULL;
}

static void fifos(void) {
    char name[4200];
    snprintf(name, sizeof name, "%s/fifo", folder);
    unlink(name);
    is("a FIFO is made", !mkfifo(name, 0600));
    refuses("a FIFO that nobody writes to is empty", name, KOB_MO, KOB_MO_SHORT, 0);
    int held = open(name, O_RDONLY | O_NONBLOCK | O_CLOEXEC); /* so that the writer always has a reader */
    pthread_t writer;
    is("a FIFO has a writer", held >= 0 && !pthread_create(&writer, NULL, write_slowly, name));
    while (!atomic_load(&has_writer))
        usleep(1000);
    kob_catalogue *c = kob_open_file(name, KOB_MO, 0, NULL);
    is("a FIFO is read as it comes", c && !strcmp(kob_gettext(c, "a"), "b"));
    kob_release(c);
    pthread_join(writer, NULL);
    close(held);
    unlink(name);
}

/* How many file descriptors are open. */
static int descriptors(void) {
    int count = 0;
    for (int file = 0; file < 1024; file++)
        count += fcntl(file, F_GETFD) >= 0;
    return count;
}

static void *open_fifo(void *name) {
    kob_release(kob_open_file(name, KOB_MO, 0, NULL));
    return NULL;
}

/* Threads that are cancelled while they read a file leave neither its descriptor nor its bytes behind. */
static void cancelled(void) {
    char name[4200];
    snprintf(name, sizeof name, "%s/fifo", folder);
    is("a FIFO for threads is made", !mkfifo(name, 0600));
    int writer = open(name, O_RDWR | O_CLOEXEC), before = descriptors();
    unsigned long had = blocks;
    for (int i = 0; i < 20; i++) {
        pthread_t thread;
        is("a thread is started", !pthread_create(&thread, NULL, open_fifo, name));
        while (descriptors() == before)
            usleep(100);
        pthread_cancel(thread);
        usleep(1000);
        close(writer); /* so that the FIFO ends, if the thread still reads it */
        pthread_join(thread, NULL);
        writer = open(name, O_RDWR | O_CLOEXEC);
    }
    is("a thread that is cancelled leaves no descriptor", descriptors() == before);
    is("nor a block", blocks == had);
    close(writer);
    unlink(name);
}

/* A file is opened as its bytes are, and so is a FIFO, which can be read only once. */
static void opened_as_bytes(const char *what, const char *text, unsigned options) {
    char fifo[4200], said[200];
    size_t len = strlen(text);
    write_file(name_of_file, text, len);
    snprintf(fifo, sizeof fifo, "%s/fifo", folder);
    unlink(fifo);
    int made = !mkfifo(fifo, 0600), held = open(fifo, O_RDONLY | O_NONBLOCK | O_CLOEXEC);
    int writer = open(fifo, O_WRONLY | O_CLOEXEC);
    snprintf(said, sizeof said, "%s: a FIFO has the text", what);
    is(said, made && held >= 0 && write(writer, text, len) == (ssize_t)len);
    close(writer);
    kob_refusal why[3];
    kob_catalogue *c[3] = { kob_open_po(text, len, options, &why[0]),
                            kob_open_file(name_of_file, KOB_PO, options, &why[1]),
                            kob_open_file(fifo, KOB_PO, options, &why[2]) };
    for (int i = 1; i < 3; i++) {
        snprintf(said, sizeof said, "%s, options %u, is opened as its bytes: %s", what, options,
                 i == 1 ? "a file" : "a FIFO");
        is(said, !c[i] == !c[0] && why[i].fault == why[0].fault && why[i].line == why[0].line);
        if (c[0] && c[i]) {
            kob_text wanted = kob_mo_file(c[0]), got = kob_mo_file(c[i]);
            is(said, got.len == wanted.len && !memcmp(got.at, wanted.at, got.len));
        }
        kob_release(c[i]);
    }
    kob_release(c[0]);
    close(held);
    unlink(fifo);
    unlink(name_of_file);
}

static void texts_that_are_read_twice(void) {
    static const char *const texts[][2] = {
        { "a text in UTF-8", po },
        { "a text in KOI8-R", "msgid \"\"\nmsgstr \"Content-Type: text/plain; charset=KOI8-R\\n\"\n"
                              "msgid \"a\"\nmsgstr \"\xc1\"\n" },
        { "a byte without a character", "msgid \"\"\nmsgstr \"Content-Type: text/plain; charset=ISO-8859-8\\n\"\n"
                                        "msgid \"a\"\nmsgstr \"\xff\"\n" },
        { "a charset that nobody knows", "msgid \"\"\nmsgstr \"Content-Type: text/plain; charset=NONE\\n\"\n" },
        { "a macro", "#, c-format\nmsgid \"%<PRIu64> a\"\nmsgstr \"%<PRIu64> b\"\n" },
        { "a flag I", "#, c-format\nmsgid \"%d a\"\nmsgstr \"%Id b\"\n" },
        { "a fault in line 3", "msgid \"a\"\nmsgstr \"b\"\nmsgid\n" },
    };
    for (size_t i = 0; i < sizeof texts / sizeof *texts; i++) {
        opened_as_bytes(texts[i][0], texts[i][1], 0);
        opened_as_bytes(texts[i][0], texts[i][1], KOB_CHECKED);
        opened_as_bytes(texts[i][0], texts[i][1], KOB_STRICT);
    }
}

/* An MO file that this library wrote is opened in the one block that it was read into, or copied to. */
static void opened_in_one_block(void) {
    enum { MESSAGES = 2000 };
    char *text = malloc(MESSAGES * 300), *end = text;
    for (int i = 0; i < MESSAGES; i++)
        end += sprintf(end, "msgid \"%d\"\nmsgstr \"%0200d\"\n", i, i);
    kob_catalogue *c = kob_open_po(text, (size_t)(end - text), 0, NULL);
    kob_text file = kob_mo_file(c);
    write_file(name_of_file, file.at, file.len);
    free(text);
    wholes = 0;
    whole = file.len;
    kob_release(kob_open_file(name_of_file, KOB_MO, 0, NULL));
    is("a file is opened in the block that it was read into", wholes == 1);
    kob_release(kob_open_mo(file.at, file.len, NULL));
    is("bytes are copied once", wholes == 2);
    whole = 0;
    kob_release(c);
    unlink(name_of_file);
}

static void large_files(void) {
    int file = open(name_of_file, O_RDWR | O_CREAT | O_TRUNC | O_CLOEXEC, 0600);
    is("a large file is made", file >= 0 && !ftruncate(file, (off_t)1 << 40));
    close(file);
    refuses("a file of a terabyte", name_of_file, KOB_MO, KOB_MO_TOO_LARGE, 0);
    is("no memory is allocated for a file that is too large", largest < 100000);
    refuses("a PO text of a terabyte", name_of_file, KOB_PO, KOB_PO_TOO_LARGE, 0);
    unlink(name_of_file);
    refuses("a device without end", "/dev/zero", KOB_PO, KOB_PO_TOO_LARGE, 0);
    is("a device without end takes what is read at most", largest <= 67108865);
    refuses("a device without bytes", "/dev/null", KOB_MO, KOB_MO_SHORT, 0);
    refuses("a file of /proc, which says that it is empty", "/proc/version", KOB_MO, KOB_MO_MAGIC, 0);
}

static int leased;

static void give_back(int number) {
    (void)number;
    fcntl(leased, F_SETLEASE, F_UNLCK);
}

/* A file is waited for that a program, here this one, gives back as soon as it hears that somebody opens it. */
static void leases(void) {
    leased = open(name_of_mo, O_RDONLY | O_CLOEXEC);
    signal(SIGIO, give_back);
    if (!fcntl(leased, F_SETLEASE, F_WRLCK)) { /* (not on every file system) */
        kob_catalogue *c = kob_open_file(name_of_mo, KOB_MO, 0, NULL);
        is("a file with a lease is read", c && !strcmp(kob_gettext(c, "a"), "b"));
        kob_release(c);
    }
    close(leased);
    signal(SIGIO, SIG_DFL);
}

static void no_descriptors(void) {
    struct rlimit limit, none;
    getrlimit(RLIMIT_NOFILE, &limit);
    none = limit;
    none.rlim_cur = 0;
    setrlimit(RLIMIT_NOFILE, &none);
    refuses("no file descriptor is left", name_of_mo, KOB_MO, KOB_UNREADABLE, EMFILE);
    kob_set *set = kob_set_new();
    kob_refusal why;
    is("nor for a set",
       !kob_set_open(set, folder, "app", "fr", &why) && why.fault == KOB_UNREADABLE && errno == EMFILE);
    setrlimit(RLIMIT_NOFILE, &limit);
    kob_set *more = kob_set_open(set, folder, "app", "fr", &why);
    is("then there are some", more && !strcmp(kob_set_gettext(more, "app", "fr", "a"), "b"));
    kob_set_release(more);
    kob_set_release(set);
}

static void files(void) {
    free_changes_errno = 1;
    refuses("no file", "no such file", KOB_MO, KOB_UNREADABLE, ENOENT);
    refuses("a folder", folder, KOB_MO, KOB_UNREADABLE, EISDIR);
    kob_set *set = kob_set_new();
    kob_refusal why;
    is("no file of a set",
       !kob_set_open(set, folder, "none", "fr", &why) && why.fault == KOB_UNREADABLE && errno == ENOENT);
    kob_catalogue *c = kob_open_file(name_of_mo, KOB_MO, 0, NULL);
    errno = 77;
    kob_release(c);
    kob_set_release(set);
    is("a release keeps errno", errno == 77);
    no_descriptors();
    leases();
    fifos();
    cancelled();
    texts_that_are_read_twice();
    opened_in_one_block();
    large_files();
    is("files are closed in programs that are started", !leaves_open);
}

/* ---- NULL */

static void null(void) {
    kob_catalogue *c = kob_open_po(po, strlen(po), 0, NULL);
    kob_catalogue *none = kob_open_po(NULL, 0, 0, NULL);
    is("a text of no bytes", none && kob_count(none) == 0);
    is("a file of no bytes", !kob_open_mo(NULL, 0, NULL) && !kob_open_file("none", KOB_MO, 0, NULL));
    is("gettext of NULL", !kob_gettext(c, NULL) && !kob_pgettext(c, "menu", NULL) && !kob_pgettext(c, NULL, NULL));
    is("ngettext of NULL", !kob_ngettext(c, NULL, "files", 2) && !kob_npgettext(c, "menu", NULL, "files", 2));
    is("a context of NULL is none",
       !strcmp(kob_pgettext(c, NULL, "file"), "fichier") && !strcmp(kob_pgettext(c, NULL, "Open"), "Open"));
    is("and with a number", !strcmp(kob_npgettext(c, NULL, "file", "files", 2), "fichiers"));
    is("a plural of NULL", !kob_ngettext(c, "none", NULL, 2) && !strcmp(kob_ngettext(c, "none", NULL, 1), "none"));
    kob_text no_text = { NULL, 0 };
    kob_text empty_text = { "", 0 };
    is("find of no text", !kob_find(c, no_text, no_text, NULL).at);
    is("find of an empty text is the header", kob_find(c, no_text, empty_text, NULL).at != NULL);
    kob_set *empty = kob_set_new(), *set = kob_set_with(empty, "app", "fr", c, NULL);
    is("names of NULL", !kob_set_with(set, NULL, "fr", c, NULL) && !kob_set_with(set, "app", NULL, c, NULL));
    is("files of names of NULL",
       !kob_set_open(set, folder, NULL, "fr", NULL) && !kob_set_open(set, folder, "app", NULL, NULL));
    is("a set's gettext of NULL",
       !kob_set_gettext(set, "app", "fr", NULL) && !kob_set_pgettext(set, "app", "fr", "menu", NULL));
    is("a set's ngettext of NULL",
       !kob_set_ngettext(set, "app", "fr", NULL, "b", 2) && !kob_set_npgettext(set, "app", "fr", "m", NULL, "b", 2));
    is("a set's domain and languages of NULL", !strcmp(kob_set_gettext(set, NULL, "fr", "file"), "file") &&
                                                   !strcmp(kob_set_gettext(set, "app", NULL, "file"), "file"));
    is("a set's context of NULL", !strcmp(kob_set_pgettext(set, "app", "fr", NULL, "file"), "fichier"));
    is("a set's find of no text", !kob_set_find(set, no_text, no_text, no_text, no_text, NULL).at);
    kob_languages list = kob_set_languages(set, (kob_text){ "app", 3 }, (kob_text){ "fr", 2 });
    is("a list's gettext of NULL", !kob_languages_gettext(&list, NULL) && !kob_languages_pgettext(&list, "menu", NULL));
    is("a list's ngettext of NULL",
       !kob_languages_ngettext(&list, NULL, "b", 2) && !kob_languages_npgettext(&list, "m", NULL, "b", 2));
    is("a list's context of NULL", !strcmp(kob_languages_pgettext(&list, NULL, "file"), "fichier"));
    is("a list's find of no text", !kob_languages_find(&list, no_text, no_text, NULL).at);
    is("a list's find of an empty text is the header", kob_languages_find(&list, no_text, empty_text, NULL).at != NULL);
    list = kob_set_languages(set, no_text, no_text);
    is("a list of no text", !kob_languages_find(&list, no_text, (kob_text){ "file", 4 }, NULL).at);
    kob_release(none);
    kob_release(NULL);
    kob_release(c);
    kob_set_release(empty);
    kob_set_release(set);
    kob_set_release(NULL);
}

int main(int argc, char **argv) {
    if (argc != 3)
        return 2;
    alarm(200 * SLOWER);
    folder = argv[2];
    snprintf(name_of_mo, sizeof name_of_mo, "%s/fr/LC_MESSAGES/app.mo", folder);
    snprintf(name_of_file, sizeof name_of_file, "%s/file", folder);
    if (!strcmp(argv[1], "memory"))
        memory();
    else if (!strcmp(argv[1], "files"))
        files();
    else
        null();
    return wrong;
}
