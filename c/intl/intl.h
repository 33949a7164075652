/* What the files of libkobdzila-intl.so share: gettext and its relatives on top of libkobdzila, for programs compiled
 * for those of the C library (GNU gettext manual, "Locating Catalogs" and "The LANGUAGE variable"). */
#ifndef INTL_H
#define INTL_H

#include "kobdzila.h"

#include <signal.h>
#include <stddef.h>
#include <stdint.h>
#include <time.h>

#define SHOWN __attribute__((visibility("default")))

#define MOST_MO 268435456 /* bytes of an MO file that libkobdzila opens */

struct question {
    const char *domain, *msgid, *plural; /* the program's arguments; `domain` may be NULL, and `plural` goes with `n` */
    const unsigned long *n;
    int category;
};

/* ---- lock.c: locks, signals and forks.
 *
 * A thread is quiet while it uses the locks or runs code of the C library that isn't safe in a signal handler: it isn't
 * cancelled, and signals wait, except for those that report a fault of the thread itself. So no handler of a signal that
 * calls gettext finds its own thread with a lock. */
struct quiet {
    sigset_t signals; /* as they were */
    int cancel_state;
};
void begin_quiet(struct quiet *before);
void end_quiet(const struct quiet *before);

/* The lock over all state kept here. It is held for moments: never while the C library is called for something that may
 * load a module or wait for a thread that does. */
void take_lock(void);
void leave_lock(void);

/* A lock over the calls that change a locale or a text domain in the C library and then here. It is taken before the
 * other one, and gettext doesn't take it. */
void begin_change(void);
void end_change(void);

/* Around iconv_open, which may load a module: a fork waits for it, since the C library's own locks would stay taken in the
 * child. After begin_opening returned 0 nothing may be opened, in a child that was forked without waiting. */
int begin_opening(void);
void end_opening(void);

/* Note that a locale or a text domain has changed: what threads have remembered isn't used any more. */
void note_change(void);

/* Return how many changes were noted. It may be called without the lock. */
unsigned long long changes(void);

/* ---- c_library.c: the functions of the C library that this library overrides. */
struct c_library {
    char *(*textdomain)(const char *);
    char *(*bindtextdomain)(const char *, const char *);
    char *(*bind_textdomain_codeset)(const char *, const char *);
    char *(*setlocale)(int, const char *);
};
const struct c_library *c_library(void);

/* ---- named.c, under the lock: lists whose members begin with this structure, and are never removed. */
struct named {
    struct named *next;
    const char *name;
};

/* Return the member of this name; NULL if there is none. */
struct named *find_named(struct named *list, const char *name);

/* Return the member of this name. If it is new, it has `size` bytes, and everything but its name is 0. NULL if memory
 * runs out. */
struct named *find_or_add_named(struct named **list, const char *name, size_t size);

/* ---- domains.c, under the lock: the current text domain, a domain's folder, and the codeset that its strings are
 * wanted in. A domain without a name has no folder. */
const char *current_domain(void);
const char *folder_of(const char *domain);
const char *wanted_codeset(const char *domain);

/* Return the domain's own codeset; NULL if it has none. */
const char *codeset_of(const char *domain);

/* Return how often a folder was bound to the domain. */
unsigned long bindings_of(const char *domain);

/* Without the lock: look up the folder of domains that aren't bound, if that wasn't done yet. */
void know_default_folder(void);

/* ---- locales.c, under the lock: the thread's locale. */

/* Return the name of the category's folder, such as LC_MESSAGES; NULL if gettext doesn't know the category. */
const char *category_name(int category);

/* Return the list of locales to search, first to last: LANGUAGE, or the category's locale. NULL in the locale C, where
 * messages aren't translated. */
const char *languages_for(int category);

/* Return the codeset of the thread's locale, and that of the process's locale. */
const char *locale_codeset(void);
const char *process_codeset(void);

/* Whether the program has more privileges than its caller (getauxval(3), AT_SECURE). */
int is_secure(void);

/* Without the lock: copy what the process's locale is called, if that wasn't done yet. */
void know_locale(void);

/* Whether it was copied. If memory ran out, it wasn't: then messages aren't translated for now. */
int is_locale_known(void);

/* ---- aliases.c, under the lock: whether locale.alias was read, if it can be; it is read now if it wasn't. */
int know_aliases(void);

/* Return the locale that a name is an alias for in locale.alias; NULL if it isn't an alias. */
const char *alias_value(const char *name);

/* ---- names.c: the folders that may have a locale's catalogue. */

enum { WITH_NORMALIZED = 1, WITH_CODESET = 2, WITH_TERRITORY = 4, WITH_MODIFIER = 8 };

struct part {
    const char *at;
    size_t len;
};
/* A locale name split into language[_territory][.codeset][@modifier], and which parts it has. */
struct name {
    struct part language, territory, codeset, normalized, modifier;
    unsigned has;
};

/* `normalized` must have room for `len + 4` bytes. */
struct name parts_of(const char *text, size_t len, char *normalized);

/* Return the parts of the next folder to search after the one with these, in the C library's order; -1 if there is
 * none. Begin with FIRST_FOLDER. */
#define FIRST_FOLDER 16
int next_folder(const struct name *name, int parts);

/* Write the name with these parts and a NUL, at most 2 * len + 8 bytes for a name of `len` bytes. Returns its end. */
char *put_name(char *to, const struct name *name, int parts);

/* ---- files.c, under the lock: a catalogue's file, opened once, and again if it has changed when a folder was bound to
 * its text domain. */

enum standing {
    UNREAD,  /* not opened yet (0, as in a new structure), or memory or file descriptors ran out: try again */
    MISSING, /* there is no such file, or it is no catalogue */
    TAKEN    /* a catalogue */
};
/* Which file it was; all 0 if there was none. The time when it was written may be set, as `cp -p` does, and stays if the
 * file's mode changes so that it can be read. That of its last change of any kind moves then. */
struct stamp {
    uint64_t device, inode, size;
    struct timespec written, changed;
};

#define MOST_CHARSET 64

/* The texts of a file. They are never freed, since the program may keep any string that it was given. */
struct catalogue {
    struct catalogue *earlier; /* of the same file, before that changed */
    kob_catalogue *held;
    char *header;    /* as it was in the file, but for its charset in UTF-8, if libkobdzila decoded the texts; or NULL */
    int is_coded;    /* its strings are coded byte by byte (image.c), since they aren't UTF-8 */
    int has_charset; /* its header names one; otherwise its texts are as they are wanted, in whatever codeset */
    char charset[MOST_CHARSET + 1]; /* that its texts are in, if they aren't coded */
};
struct file {
    struct named named;
    struct catalogue *catalogue; /* if it is TAKEN */
    enum standing standing;
    struct stamp stamp;
    unsigned long bindings; /* of its text domain, when the file was looked at */
    unsigned number;        /* its name in the store, from 1 on; 0 if its catalogue isn't there */
    int is_shown;
};

/* Whether a call failed because it ran out of something that may be available the next time. */
int may_pass(int cause);

/* Return the file of this name, unopened if it is new; NULL if memory runs out. */
struct file *file_of(const char *name);

/* Return the standing of a file of a text domain that was bound so often. The file is opened now if it wasn't, or if it
 * has changed and its domain was bound again. */
enum standing standing_of(struct file *file, unsigned long bindings);

/* Whether that is known without opening the file. */
int is_known(const struct file *file, unsigned long bindings);

/* ---- opened.c: the catalogue of an MO file's bytes. Return UNREAD if memory ran out. */
enum standing opened(const unsigned char *bytes, size_t len, struct catalogue **catalogue);

/* ---- rows.c: the strings of an MO file. */

/* The key is the msgid, with its context. The plural follows its NUL; `plural_room` counts that NUL, and is 0 if there is
 * no plural. The text is the forms, separated by NUL, and a NUL follows it. */
struct row {
    const unsigned char *key, *text;
    uint32_t key_len, plural_room, text_len;
};
struct rows {
    struct row *at;
    size_t count;
    unsigned char *made; /* the strings with system-dependent parts; both blocks are from malloc */
};
enum reading { ROWS_READ, NO_ROWS, NO_MEMORY };

/* Read the rows of a file of major revision 0 or 1. All of their strings are in the file, or in `made`. */
enum reading read_rows(const unsigned char *bytes, size_t len, struct rows *rows);

/* Whether a file has another revision than 0.0; and whether the C library refuses it then, since it has no hash table. */
int is_revised(const unsigned char *bytes);
int lacks_hash_table(const unsigned char *bytes);

/* Return the header in a file that libkobdzila opens; NULL if its first row isn't one. */
const char *header_in(const unsigned char *bytes, size_t len);

/* ---- parts.c: what a system-dependent part such as PRIu64 stands for; NULL if it is unknown. */
const char *part_value(const char *name);

/* ---- image.c: MO files of revision 0 for libkobdzila, made of rows. */

/* Return a new file with these rows, and its length. The strings are coded if that is wanted; otherwise they are as they
 * are. NULL if memory runs out, or, with a length of 0, if it would be too large. */
unsigned char *image_of(const struct rows *rows, int is_coded, size_t *len);

/* Code a msgid: write at most `2 * strlen(msgid) + 2` bytes, and return how many. */
size_t code_key(char *to, const char *msgid);

/* Undo the coding of a text: write at most `len` bytes, and return how many. */
size_t decode(char *to, const char *text, size_t len);

/* ---- codesets.c: what texts were wanted in. A codeset is never removed. */

struct codeset;

/* Whether two names are of one codeset, as far as that is seen without the C library's list of aliases. */
int is_same_codeset(const char *a, const char *b);
int is_utf8(const char *codeset);
int is_ascii(const char *codeset);

/* Whether the texts of the catalogue, which aren't coded, need no conversion to this codeset. */
int is_as_wanted(const struct catalogue *catalogue, const char *codeset);

/* Under the lock: return the codeset of this name; NULL if it is too long or memory runs out. */
struct codeset *codeset_named(const char *name);
const char *name_of(const struct codeset *codeset);

/* Return the text in this codeset, or NULL if it wasn't converted yet. It takes no lock. */
const char *converted(const struct codeset *codeset, const char *text);

/* Under the lock: remember what a text is in this codeset. False if memory ran out. */
int keep_converted(struct codeset *codeset, const char *text, const char *as);

/* ---- convert.c, without the lock: convert all forms of a message to a codeset, and keep them there. */
enum conversion { CONVERTED, NOT_CONVERTED, OUT_OF_MEMORY };
enum conversion convert(const struct catalogue *catalogue, const char *msgid, struct codeset *to);

/* ---- texts.c: look-ups in a catalogue. */

/* Return the text that answers the question, as it is in the catalogue; NULL if there is none. */
const char *text_of(const struct catalogue *catalogue, const struct question *q);

/* Return a form of an entry. */
kob_text form_of(const struct catalogue *catalogue, size_t place, size_t form);

/* Find the number of the entry with this msgid. False if there is none. */
int find_place(const struct catalogue *catalogue, const char *msgid, size_t *place, kob_entry *entry);

/* ---- shown.c: the live store with the catalogues of all files that were opened. */

/* Under the lock: publish the file's catalogue, unless it is there. False if that can't be done now. */
int show(struct file *file);

/* Under the lock: return a new reader; NULL if memory runs out. */
kob_reader *new_reader(void);

/* Look a message up in the files whose numbers are in the list, first to last. NULL if none has it. */
const char *text_in(kob_reader *reader, const char *numbers, const struct question *q);

/* ---- lists.c, under the lock: the files to search for a message, in order. */

struct list {
    struct list *next;
    const char *folder, *category, *domain, *languages; /* the key of the list, stored in `texts` */
    struct file **files;
    size_t count;
    char texts[];
};

/* Return the list for these arguments; NULL if memory or file descriptors run out. It is valid until the next call. */
const struct list *list_for(const char *folder, const char *category, const char *domain, const char *languages);

/* ---- recalled.c: what a thread remembers, so that its next question needs no lock. */

/* Answer a question by what this thread remembers: store the translation, or NULL if there is none, in *text. Return 0
 * if the thread has to ask under the lock. */
int recall(const struct question *q, const char **text);

/* Under the lock: remember how questions like this one are answered. `files` is NULL if nothing is translated. */
void remember(const struct question *q, const struct list *files);

#endif
