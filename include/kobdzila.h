/* libkobdzila: looks up translations in message catalogues of GNU gettext. See kobdzila(3).
 *
 * Strings are UTF-8. A look-up returns a string that is borrowed from the catalogue or set, or the caller's own `msgid`
 * or `plural`. A borrowed string is valid until the catalogue or set is freed, and must not be written to. Any number
 * of threads may use one catalogue or set at once. Don't call these functions from a signal handler, nor in the forked
 * child of a process that had several threads.
 *
 * NULL is allowed only where this header says so, and for these arguments:
 *   - a `msgid`: the look-up returns NULL, or for a kob_text whose `at` is NULL such a one;
 *   - a `context`: the message has none;
 *   - a `plural`: NULL is returned where `plural` would be;
 *   - a `domain`, a `locale` or `languages`: the empty string, which is no name and finds nothing;
 *   - `why`: the caller doesn't want the reason;
 *   - `bytes`, if `len` is 0;
 *   - `version`: the caller doesn't want the number;
 *   - the argument of kob_release, kob_set_release and the functions whose name ends in _free, which do nothing then.
 *
 * The functions that release or free something preserve errno. After KOB_UNREADABLE it says why.
 */
#ifndef KOBDZILA_H
#define KOBDZILA_H

#include <stddef.h>

#if defined __SIZEOF_POINTER__ && __SIZEOF_POINTER__ != 8
#error "libkobdzila is for 64-bit Linux: compile without -m32 or -mx32"
#endif

/* The version of this header, as "0.2.0". */
#define KOB_VERSION "0.2.0"

#ifdef __cplusplus
extern "C" {
#endif

/* Return the version of the library that is loaded at run time. Its major version is that of KOB_VERSION; the rest may
 * be later. */
const char *kob_version(void);

/* A catalogue. It is immutable and reference-counted: releasing its last reference frees it. */
typedef struct kob_catalogue kob_catalogue;

/* Why an operation failed. If several reasons hold, the first one in its group below is reported. */
enum kob_fault {
    KOB_NO_FAULT = 0,
    /* MO files: kob_open_mo, and kob_open_file with KOB_MO */
    KOB_MO_TOO_LARGE = 1,   /* more than 268,435,456 bytes */
    KOB_MO_SHORT = 2,       /* fewer than 28 bytes */
    KOB_MO_MAGIC = 3,       /* no magic number, in either byte order */
    KOB_MO_REVISION = 4,    /* the revision isn't 0.0, 0.1, 1.0 or 1.1; with KOB_STRICT, isn't 0.0 */
    KOB_MO_BOUNDS = 5,      /* a table or a string isn't wholly inside the file */
    KOB_MO_NO_NUL = 6,      /* a string isn't terminated by NUL */
    KOB_MO_BAD_TEXT = 7,    /* a string isn't UTF-8, or a key holds byte 4 twice */
    KOB_MO_FORMS = 8,       /* an entry has several plurals, or several forms and no plural */
    KOB_MO_ORDER = 9,       /* the keys aren't in strictly ascending order */
    KOB_MO_CHARSET = 10,    /* the header names a charset that isn't decoded */
    KOB_MO_SWOLLEN = 11,    /* the MO file that kob_mo_file would return is too large */
    KOB_MEMORY = 12,        /* out of memory, which says nothing about the input */
    /* MO files of minor revision 1: their system-dependent part */
    KOB_MO_DEPENDENT_TABLES = 13,         /* the header isn't 48 bytes long, or a table isn't inside the file */
    KOB_MO_DEPENDENT_SEGMENT = 14,        /* a segment isn't wholly inside the file, or isn't terminated by NUL */
    KOB_MO_DEPENDENT_DESCRIPTOR = 15,     /* a string's descriptor isn't wholly inside the file */
    KOB_MO_DEPENDENT_SEGMENT_NUMBER = 16, /* a descriptor names a segment that the file doesn't have */
    KOB_MO_DEPENDENT_TEXT = 17,           /* a piece of a string isn't wholly inside the file */
    KOB_MO_DEPENDENT_OPEN_TEXT = 18,      /* the last piece of a string isn't terminated by NUL */
    KOB_MO_DEPENDENT_SWOLLEN = 19,        /* all these strings together have more than 268,435,456 bytes */
    /* MO files in another charset */
    KOB_MO_NO_CHARACTER = 20, /* the charset that the header names has no character for a byte */
    /* PO files, with the line */
    KOB_PO_TOO_LARGE = 101, /* more than 67,108,864 bytes */
    KOB_PO_NOT_UTF8 = 102,
    KOB_PO_BAD_ESCAPE = 103,
    KOB_PO_OPEN_STRING = 104,
    KOB_PO_BAD_WORD = 105,
    KOB_PO_BAD_TEXT = 106,
    KOB_PO_BAD_ORDER = 107,
    KOB_PO_BAD_INDEX = 108,
    KOB_PO_DUPLICATE = 109,
    KOB_PO_CHARSET = 110,
    KOB_PO_SYSTEM_DEPENDENT = 111,
    KOB_PO_NO_RULE = 112,
    KOB_PO_BAD_RULE = 113,
    KOB_PO_FORM_COUNT = 114,
    KOB_PO_PLURAL_RANGE = 115,
    KOB_PO_FORMAT_MISMATCH = 116,
    KOB_PO_NEWLINE_MISMATCH = 117,
    KOB_PO_NO_CHARACTER = 119, /* the charset that the header names has no character for a byte */
    KOB_PO_NOT_READ_BACK = 120, /* the MO file with system-dependent strings doesn't read back as the messages: never
                                 * seen; a defect of this library */
    KOB_UNREADABLE = 201,   /* kob_open_file, kob_set_open: can't read the file; see errno */
    KOB_BAD_NAME = 202,     /* a text domain or locale isn't 1 to 64 letters, digits and _ - . @ + */
    KOB_VERSIONS_SPENT = 204 /* kob_store_load: the store has accepted 2^58 - 1 loads, its limit */
};

/* Why there is no catalogue or set, and the line of a PO file. */
typedef struct {
    enum kob_fault fault;
    unsigned line; /* in a PO file; 0 if the fault has no line */
} kob_refusal;

/* How to open a file: 0, or any of these combined with `|`. For an MO file the first two don't count. */
enum kob_options {
    KOB_CHECKED = 1,   /* run the checks of `msgfmt -c` */
    KOB_USE_FUZZY = 2, /* include fuzzy messages */
    KOB_STRICT = 4,    /* refuse a charset other than UTF-8 and US-ASCII, system-dependent strings, as `msgfmt` does,
                        * and an MO file's revision other than 0.0 */
    KOB_WITHOUT_INDEX = 8 /* build no index, for a program that wants the MO file or the entries: opening takes less
                           * time and memory, and look-ups answer the same but take longer */
};

/* The format of a file. */
enum kob_kind { KOB_MO, KOB_PO };

/* Return a short English description of `fault`, a static string. */
const char *kob_fault_text(enum kob_fault fault);

/* Open the MO file in `bytes` and return its catalogue, with one reference, which the caller releases with kob_release.
 * On failure, return NULL and store the reason in *why, unless `why` is NULL. The bytes are copied before they are
 * checked, so the caller may free them as soon as the call returns. If another thread writes to them meanwhile, the
 * copy is some mixture of old and new bytes, which is opened or refused as a whole.
 *
 * The file may be of revision 0.0, 0.1, 1.0 or 1.1. System-dependent strings have the values of <inttypes.h> on x86-64
 * and aarch64 Linux: `PRIu64` stands for `lu`. A message with a segment of another name is left out.
 *
 * If its strings aren't UTF-8, or its header names another charset, they are decoded from the charset that its header
 * names, one of those that kob_open(3) lists, and the catalogue's header says `charset=UTF-8`. */
kob_catalogue *kob_open_mo(const void *bytes, size_t len, kob_refusal *why);

/* Compile the PO file in `bytes` and return its catalogue. `options` is 0 or a combination of enum kob_options.
 *
 * If the file isn't UTF-8, or its header names another charset, it is decoded from the charset that its header names,
 * one of those that kob_open(3) lists, and the catalogue's header says `charset=UTF-8`. The header
 * must be at the front of the file. The file may have 67,108,864 bytes before and after it is decoded.
 *
 * A message that is flagged `c-format` is system-dependent if its msgid or a translation has a macro of <inttypes.h>,
 * such as `%<PRIu64>`. Look-ups ask for such a message, and get it, with the values that kob_open_mo says. kob_mo_file
 * is then the file that GNU msgfmt writes: of revision 0.1, or of 1.1 if a translation has the flag `I`.
 *
 * References, failures and the bytes are treated as by kob_open_mo. */
kob_catalogue *kob_open_po(const void *bytes, size_t len, unsigned options, kob_refusal *why);

/* Open the file `name`, an MO file (KOB_MO) or a PO file (KOB_PO), with `options`, and return its catalogue.
 * References and failures are treated as by kob_open_mo; after KOB_UNREADABLE errno says why, for example ENOENT, or
 * EMFILE if no file descriptor is left.
 *
 * A regular file is read up to the size that it has when it is opened. A FIFO, a device and the like are read to their
 * end, up to the size limit of the format; a FIFO that nobody has open for writing counts as empty. A regular PO file
 * that isn't UTF-8, or has macros or the flag `I`, is read twice. The file is opened once, with O_CLOEXEC. This function
 * and kob_set_open aren't cancellation points: a thread that is cancelled meanwhile finishes the call first. */
kob_catalogue *kob_open_file(const char *name, enum kob_kind kind, unsigned options, kob_refusal *why);

/* Take another reference to `catalogue` and return it. */
kob_catalogue *kob_retain(kob_catalogue *catalogue);

/* Drop a reference to `catalogue`. Dropping the last one frees it: no call on the catalogue may then be running or
 * follow, and its strings become invalid. */
void kob_release(kob_catalogue *catalogue);

/* Return the translation of `msgid`, in `context` for kob_pgettext, or `msgid` itself if there is none. */
const char *kob_gettext(const kob_catalogue *catalogue, const char *msgid);
const char *kob_pgettext(const kob_catalogue *catalogue, const char *context, const char *msgid);

/* Return the plural form for `n`, chosen by the plural rule in the catalogue's header. If there is no translation,
 * return `msgid` if `n` is 1 and `plural` otherwise. */
const char *kob_ngettext(const kob_catalogue *catalogue, const char *msgid, const char *plural, unsigned long long n);
const char *kob_npgettext(const kob_catalogue *catalogue, const char *context, const char *msgid, const char *plural,
                          unsigned long long n);

/* A string by its address and its length in bytes. It need not end in NUL. `at` is NULL if there is no string. */
typedef struct {
    const char *at;
    size_t len;
} kob_text;

/* Return the translation of `msgid`: in `context` unless `context.at` is NULL, and the plural form for *n unless `n` is
 * NULL. The result's `at` is NULL if there is no translation; otherwise it is followed by a NUL, which `len` doesn't
 * count. */
kob_text kob_find(const kob_catalogue *catalogue, kob_text context, kob_text msgid, const unsigned long long *n);

/* One look-up, with the arguments of kob_find: `context.at` is NULL if there is no context, and `n` if there is no
 * number. */
typedef struct {
    kob_text context, msgid;
    const unsigned long long *n;
} kob_question;

/* Do `count` look-ups and store their results in `answers`, in order, each as kob_find returns it. In a catalogue of
 * tens of thousands of messages this is faster than `count` calls of kob_find, because the waits for memory overlap. In
 * a small one it calls kob_find for each. */
void kob_find_many(const kob_catalogue *catalogue, const kob_question *questions, size_t count, kob_text *answers);

/* Return the number of entries of `catalogue`, including the header. */
size_t kob_count(const kob_catalogue *catalogue);

/* The strings of an entry, which don't end in NUL. `at` is NULL if the entry has no context, or no plural. */
typedef struct {
    kob_text context, msgid, plural;
    size_t forms; /* number of forms, at least 1 */
} kob_entry;

/* Store entry number `index` in *entry and return 1, or return 0 if there is no such entry. Entries are numbered
 * from 0, in ascending order of their keys' bytes. */
int kob_entry_at(const kob_catalogue *catalogue, size_t index, kob_entry *entry);

/* Return form number `form` of entry number `index`, both counted from 0. It doesn't end in NUL; `at` is NULL if there
 * is no such form. */
kob_text kob_form_at(const kob_catalogue *catalogue, size_t index, size_t form);

/* How many messages of a PO file are translated, fuzzy and untranslated. The header is none of them. */
typedef struct {
    size_t translated, fuzzy, untranslated;
} kob_counts;

/* Store the statistics of the PO file that `catalogue` was compiled from in *counts, as `msgfmt --statistics` prints
 * them: fuzzy messages and untranslated ones count whether or not they are entries of the catalogue. For a catalogue
 * from an MO file, which has no statistics, all three are 0. */
void kob_statistics(const kob_catalogue *catalogue, kob_counts *counts);

/* Return the bytes of the MO file of `catalogue`, whichever format it was opened from. It is of revision 0.0, but for a
 * PO file with system-dependent strings (kob_open_po). The bytes are borrowed from the catalogue. */
kob_text kob_mo_file(const kob_catalogue *catalogue);

/* A PO file that was written of a catalogue, or decoded. It is immutable, and needs nothing that it was made of. */
typedef struct kob_po_file kob_po_file;

/* How to write a PO file: 0, or KOB_ESCAPED. */
enum kob_po_options {
    KOB_ESCAPED = 1 /* write octal escapes for bytes other than printable ASCII */
};

/* Write the PO file of `catalogue`, whichever format it was opened from, or return NULL if memory runs out. It has the
 * entries in their order, as `msgunfmt --force-po --no-wrap` writes them, and no comments and flags. kob_open_po opens
 * it as the same catalogue, but for entries whose translation is empty, if it has at most 67,108,864 bytes. The caller
 * frees it with kob_po_free. */
kob_po_file *kob_write_po(const kob_catalogue *catalogue, unsigned options);

/* Return the PO file in `bytes` in UTF-8: decoded from the charset that the header at its front names, with UTF-8 in
 * place of that name. kob_open_po opens it as it opens `bytes`. If it is refused, return NULL and store the reason in
 * *why: KOB_PO_CHARSET if such a header isn't there or names no charset that is decoded, as in a file in UTF-8, or
 * KOB_PO_NO_CHARACTER, KOB_PO_TOO_LARGE or KOB_MEMORY. The caller frees the file with kob_po_free. */
kob_po_file *kob_recode_po(const void *bytes, size_t len, kob_refusal *why);

/* Return the bytes of a PO file, which don't end in NUL. They are borrowed from it. */
kob_text kob_po_text(const kob_po_file *file);

/* Free a PO file. No other call may be using it. */
void kob_po_free(kob_po_file *file);

/* The language of a format, by the flag of its entry: KOB_PYTHON_FORMAT is `python-format`. */
enum kob_format_language {
    KOB_OBJC_FORMAT = 0, KOB_CXX_FORMAT = 1, KOB_PYTHON_FORMAT = 2, KOB_PYTHON_BRACE_FORMAT = 3, KOB_JAVA_FORMAT = 4,
    KOB_JAVA_PRINTF_FORMAT = 5, KOB_CSHARP_FORMAT = 6, KOB_JAVASCRIPT_FORMAT = 7, KOB_SCHEME_FORMAT = 8,
    KOB_LISP_FORMAT = 9, KOB_ELISP_FORMAT = 10, KOB_LIBREP_FORMAT = 11, KOB_RUST_FORMAT = 12, KOB_GO_FORMAT = 13,
    KOB_RUBY_FORMAT = 14, KOB_SH_FORMAT = 15, KOB_SH_PRINTF_FORMAT = 16, KOB_AWK_FORMAT = 17, KOB_LUA_FORMAT = 18,
    KOB_OBJECT_PASCAL_FORMAT = 19, KOB_MODULA2_FORMAT = 20, KOB_D_FORMAT = 21, KOB_OCAML_FORMAT = 22,
    KOB_SMALLTALK_FORMAT = 23, KOB_QT_FORMAT = 24, KOB_QT_PLURAL_FORMAT = 25, KOB_KDE_FORMAT = 26,
    KOB_KDE_KUIT_FORMAT = 27, KOB_BOOST_FORMAT = 28, KOB_TCL_FORMAT = 29, KOB_PERL_FORMAT = 30,
    KOB_PERL_BRACE_FORMAT = 31, KOB_PHP_FORMAT = 32, KOB_GCC_INTERNAL_FORMAT = 33, KOB_GFC_INTERNAL_FORMAT = 34,
    KOB_YCP_FORMAT = 35
};

/* What is wrong with a form whose original is a format, or may be one. */
enum kob_format_difference {
    KOB_FORMAT_INVALID = 0,   /* it is no format */
    KOB_FORMAT_ARGUMENTS = 1, /* its arguments don't agree with the original's */
    KOB_FORMAT_UNREAD = 2     /* unknown: it or its original has a directive that isn't read (Lisp, Objective-C) */
};

/* A fault of one form. */
typedef struct {
    unsigned line; /* of the entry's msgstr */
    enum kob_format_language language;
    unsigned form; /* counted from 0; 0 if the entry has no plural */
    enum kob_format_difference difference;
} kob_format_fault;

/* The faults of the formats in a PO file. It is immutable. */
typedef struct kob_format_faults kob_format_faults;

/* List the faults of the formats in the PO file in `bytes`, as `msgfmt --check-format` of GNU gettext finds them: of
 * each entry that is flagged as formats of a language in the list that kob_check_formats(3) has, and that is in the
 * catalogue with these options, of which KOB_STRICT doesn't count. Formats of C are checked by
 * kob_open_po with KOB_CHECKED. Return the list, which may be empty, and which the caller frees with
 * kob_format_faults_free. If the file is refused, return NULL and store the reason in *why, as kob_open_po does; of an
 * entry's content nothing else is checked. */
kob_format_faults *kob_check_formats(const void *bytes, size_t len, unsigned options, kob_refusal *why);

/* Return how many faults there are. */
size_t kob_format_fault_count(const kob_format_faults *faults);

/* Store fault number `index` in *fault and return 1, or return 0 if there is none. Faults are numbered from 0, in the
 * order of the file. */
int kob_format_fault_at(const kob_format_faults *faults, size_t index, kob_format_fault *fault);

/* Free a list of faults. No other call may be using it. */
void kob_format_faults_free(kob_format_faults *faults);

/* A set of catalogues, each for a text domain and a locale. It is immutable and reference-counted. To replace
 * catalogues while threads look up in them, use a kob_store. */
typedef struct kob_set kob_set;

/* Return an empty set, with one reference, or NULL if memory runs out. */
kob_set *kob_set_new(void);

/* Return a new set, with one reference, that has `catalogue` for `domain` and `locale`, replacing the one that `set`
 * may have there, and shares all others with `set`. On failure (KOB_BAD_NAME or KOB_MEMORY), return NULL and store
 * the reason in *why. `set` is unchanged, and the caller keeps its references to `set` and `catalogue`. */
kob_set *kob_set_with(const kob_set *set, const char *domain, const char *locale, const kob_catalogue *catalogue,
                      kob_refusal *why);

/* Like kob_set_with, with the catalogue of the MO file FOLDER/LOCALE/LC_MESSAGES/DOMAIN.mo, which is where
 * catalogues are installed. Also fails as kob_open_file does; `.` and `..` are KOB_BAD_NAME here. */
kob_set *kob_set_open(const kob_set *set, const char *folder, const char *domain, const char *locale, kob_refusal *why);

/* Take another reference to `set` and return it, and drop a reference, as for a catalogue. A set that is borrowed from
 * a reader has no reference count: for it, kob_set_retain returns the set and kob_set_release does nothing, and it
 * becomes invalid when the reader enters again or leaves. */
kob_set *kob_set_retain(kob_set *set);
void kob_set_release(kob_set *set);

/* Return how many catalogues were added to get from an empty set to `set`, replaced ones included. */
unsigned long long kob_set_version(const kob_set *set);

/* Like the functions for one catalogue, for the catalogues of a text domain. `languages` is a list of locales
 * separated by `:`, as in the environment variable LANGUAGE. The first one whose catalogue has the message provides
 * the translation, and the plural rule. */
const char *kob_set_gettext(const kob_set *set, const char *domain, const char *languages, const char *msgid);
const char *kob_set_pgettext(const kob_set *set, const char *domain, const char *languages, const char *context,
                             const char *msgid);
const char *kob_set_ngettext(const kob_set *set, const char *domain, const char *languages, const char *msgid,
                             const char *plural, unsigned long long n);
const char *kob_set_npgettext(const kob_set *set, const char *domain, const char *languages, const char *context,
                              const char *msgid, const char *plural, unsigned long long n);

/* Like kob_find, for the catalogues of a text domain, in the order of a list of languages. */
kob_text kob_set_find(const kob_set *set, kob_text domain, kob_text languages, kob_text context, kob_text msgid,
                      const unsigned long long *n);

/* Like kob_find_many, for the catalogues of a text domain. The list of languages is resolved once. */
void kob_set_find_many(const kob_set *set, kob_text domain, kob_text languages, const kob_question *questions,
                       size_t count, kob_text *answers);

/* A list of languages that was resolved in a text domain of a set, for many look-ups. Its members are private. It is a
 * plain value: copy it as you like; there is nothing to free. */
typedef struct kob_languages {
    const kob_set *set;
    kob_text domain, languages;
    unsigned count, places[16];
} kob_languages;

/* Resolve a list of languages: find the catalogues that it names. The result is valid as long as `set` is (if it is
 * borrowed from a reader, until the reader enters again or leaves), and as long as the bytes of `domain` and
 * `languages` are: a list that names more than 16 catalogues of the set is resolved again at each look-up. This
 * allocates nothing and can't fail. */
kob_languages kob_set_languages(const kob_set *set, kob_text domain, kob_text languages);

/* Return what the functions for a set return for its text domain and list of languages. They are faster, since they
 * don't search for the catalogues. */
const char *kob_languages_gettext(const kob_languages *list, const char *msgid);
const char *kob_languages_pgettext(const kob_languages *list, const char *context, const char *msgid);
const char *kob_languages_ngettext(const kob_languages *list, const char *msgid, const char *plural,
                                   unsigned long long n);
const char *kob_languages_npgettext(const kob_languages *list, const char *context, const char *msgid,
                                    const char *plural, unsigned long long n);
kob_text kob_languages_find(const kob_languages *list, kob_text context, kob_text msgid, const unsigned long long *n);
void kob_languages_find_many(const kob_languages *list, const kob_question *questions, size_t count,
                             kob_text *answers);

/* A live store: a set of catalogues that is replaced while threads look up in it. A *load* is a catalogue for a text
 * domain and a locale. A *publish* shows all pending loads in one step. A *version* is the number of loads that were
 * published so far. Readers never block, neither on a publish nor on each other, and a publish never waits
 * for readers.
 *
 * Any number of threads may use one store at once. Loads and publishes of several threads take turns by a lock, which
 * readers don't take. */
typedef struct kob_store kob_store;

/* A reader of a store: the handle through which one thread looks up. It may move between threads, but only one thread
 * may use it at a time. */
typedef struct kob_reader kob_reader;

/* A notice: proof that a version was published, to pass to another thread. Only one thread may use it at a time. */
typedef struct kob_notice kob_notice;

/* Return a store that has published the empty set, at version 0, or NULL if memory runs out. */
kob_store *kob_store_new(void);

/* Add a pending load: from the next publish on, `catalogue` is the one for `domain` and `locale`. Return 1, or return 0
 * and store the reason (KOB_BAD_NAME, KOB_MEMORY or KOB_VERSIONS_SPENT) in *why. A refused load changes neither the
 * store nor the pending loads. The caller keeps its reference to `catalogue`. */
int kob_store_load(kob_store *store, const char *domain, const char *locale, const kob_catalogue *catalogue,
                   kob_refusal *why);

/* Publish all pending loads in one step: a reader sees all of them or none. Return 1 and store the new version in
 * *version, or return 0 if memory ran out or the store was busy. Then nothing has changed, the loads are still pending,
 * and you can publish again. If no load is pending, nothing is published, and the current version is stored.
 *
 * A store is busy if some 60 readers were all interrupted within the same few instructions of kob_reader_enter. */
int kob_store_publish(kob_store *store, unsigned long long *version);

/* Return the version that is published: the number of loads published so far. */
unsigned long long kob_store_version(const kob_store *store);

/* Return the number of loads that the next publish will show. */
unsigned long long kob_store_pending(const kob_store *store);

/* Free the replaced sets that no reader is in, and return how many are left: those that some reader is in. A publish
 * frees such sets as well; a reader that leaves one frees nothing, so that it needn't wait for that. */
size_t kob_store_retained(const kob_store *store);

/* Return a notice of the version that is published now, or NULL if memory runs out. */
kob_notice *kob_store_notice(const kob_store *store);

/* Return a new reader, which has entered the version that is published now, or NULL if memory runs out. This doesn't
 * wait for a publish that is running. Make one for each thread, as many as you want. */
kob_reader *kob_store_reader(const kob_store *store);

/* Enter the newest version, and return its set. The set is borrowed: it and every string from it are valid until this
 * reader enters again, leaves or is freed, whatever is published meanwhile. kob_set_retain doesn't keep it longer.
 * Entering allocates nothing and can't fail. A reader's versions never decrease. */
const kob_set *kob_reader_enter(kob_reader *reader);

/* Like kob_reader_enter, but the set is never older than the version of `notice`. Return NULL if the notice is of
 * another store; the set that was entered before then stays valid. */
const kob_set *kob_reader_enter_after(kob_reader *reader, const kob_notice *notice);

/* Leave the set that was entered last, so that the reader keeps none in memory; to leave twice does nothing. Call it if
 * the reader may be idle for long. Leaving never blocks, and frees nothing unless the store was freed. Until the reader
 * enters again, which takes a little longer then, its set is empty. */
void kob_reader_leave(kob_reader *reader);

/* Return the version that the reader entered last, which is also kob_set_version of its set. */
unsigned long long kob_reader_version(const kob_reader *reader);

/* Free a notice, a reader or a store, in any order: readers keep working after their store was freed. No other call
 * may be using what is freed. */
void kob_notice_free(kob_notice *notice);
void kob_reader_free(kob_reader *reader);
void kob_store_free(kob_store *store);

#ifdef __cplusplus
}
#endif
#endif
