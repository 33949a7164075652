/* Catalogues, the C part: memory, reference counts and files. The look-ups are in crates/kobdzila_c (exports.h). */
#include "file_bytes.h"
#include "held.h"

#include <unistd.h>

const char *kob_version(void) { return KOB_VERSION; }

/* Allocate room for a catalogue, with one reference; NULL and the reason if memory runs out. */
static kob_catalogue *room_for_catalogue(kob_refusal *why) {
    kob_catalogue *c = malloc(sizeof *c + kobdzila_size());
    if (!c)
        return refuse(why, KOB_MEMORY, 0);
    atomic_init(&c->holders, 1);
    return c;
}

/* Say why a file wasn't read, by errno. */
static kob_catalogue *unreadable(kob_refusal *why) {
    return refuse(why, errno == ENOMEM ? KOB_MEMORY : KOB_UNREADABLE, 0);
}

/* Return the catalogue if it was opened. Otherwise free it, store the reason in *why and return NULL. */
static kob_catalogue *opened(kob_catalogue *c, kob_refusal *why) {
    enum kob_fault fault = (enum kob_fault)kobdzila_number(read_catalogue(c), FAULT, 0);
    unsigned line = (unsigned)kobdzila_number(read_catalogue(c), LINE, 0);
    refuse(why, fault, line);
    if (fault == KOB_NO_FAULT)
        return c;
    kob_release(c);
    return NULL;
}

/* Open the MO file that was handed over to `c`. The options that say how to compile don't count. */
static kob_catalogue *open_handed_mo(kob_catalogue *c, unsigned options, kob_refusal *why) {
    kobdzila_bytes_open_mo(options & KOB_STRICT, options & KOB_WITHOUT_INDEX, held_catalogue(c));
    return opened(c, why);
}

/* What is checked is the library's own copy, which the program's other threads can't change. */
kob_catalogue *kob_open_mo(const void *bytes, size_t len, kob_refusal *why) {
    if (len > MOST_MO)
        return refuse(why, KOB_MO_TOO_LARGE, 0);
    kob_catalogue *c = room_for_catalogue(why);
    if (!c)
        return NULL;
    kobdzila_bytes_new(len, held_catalogue(c));
    kobdzila_bytes_add(len ? bytes : "", len, held_catalogue(c));
    return open_handed_mo(c, 0, why);
}

/* (The proved library compiles a copy of its own.) */
kob_catalogue *kob_open_po(const void *bytes, size_t len, unsigned options, kob_refusal *why) {
    if (len > MOST_PO)
        return refuse(why, KOB_PO_TOO_LARGE, 0);
    kob_catalogue *c = room_for_catalogue(why);
    if (!c)
        return NULL;
    kobdzila_open_po(len ? bytes : "", len, options & KOB_CHECKED, options & KOB_USE_FUZZY, options & KOB_STRICT,
                     options & KOB_WITHOUT_INDEX, held_catalogue(c));
    return opened(c, why);
}

/* Open the PO text that was handed over to `c`, or NULL and the fault WANTED_AGAIN. */
static kob_catalogue *open_handed_po(kob_catalogue *c, unsigned options, kob_refusal *why) {
    kobdzila_bytes_open_po(options & KOB_CHECKED, options & KOB_USE_FUZZY, options & KOB_STRICT,
                           options & KOB_WITHOUT_INDEX, held_catalogue(c));
    return opened(c, why);
}

/* A catalogue to which a file is handed over, and whether that has begun. */
struct receiver {
    struct held_catalogue *held;
    int has_begun;
};

static void begin(void *to, size_t len) {
    struct receiver *receiver = to;
    kobdzila_bytes_new(len, receiver->held);
    receiver->has_begun = 1;
}

static void add(void *to, const unsigned char *piece, size_t len) {
    kobdzila_bytes_add(piece, len, ((struct receiver *)to)->held);
}

/* Hand a file over to a new catalogue, of which nothing is open yet. */
static kob_catalogue *handed_file(int file, size_t most, enum kob_fault too_large, kob_refusal *why) {
    kob_catalogue *c = room_for_catalogue(why);
    if (!c)
        return NULL;
    size_t len;
    struct receiver receiver = { held_catalogue(c), 0 };
    int is_read = opened_pieces(file, most, &len, (struct taker){ begin, add, &receiver });
    if (is_read && len <= most)
        return c;
    if (is_read)
        refuse(why, too_large, 0);
    else
        unreadable(why);
    if (receiver.has_begun)
        kob_release(c);
    else
        free_quietly(c);
    return NULL;
}

/* Open a PO file whose text is read as a whole first. */
static kob_catalogue *open_read_po(int file, unsigned options, kob_refusal *why) {
    size_t len;
    unsigned char *bytes = opened_bytes(file, ALL_FILES, MOST_PO, &len);
    if (!bytes)
        return unreadable(why);
    kob_catalogue *c = kob_open_po(bytes, len, options, why);
    free_quietly(bytes);
    return c;
}

/* A text that the library compiles in its own memory is gone then. So it comes from a regular file, which is read once
 * more if the text is in another charset, or has macros or the flag I. */
static kob_catalogue *open_po_file(int file, unsigned options, kob_refusal *why) {
    kob_refusal refusal;
    if (!is_regular(file))
        return open_read_po(file, options, why);
    kob_catalogue *c = handed_file(file, MOST_PO, KOB_PO_TOO_LARGE, &refusal);
    if (c)
        c = open_handed_po(c, options, &refusal);
    if (!c && (unsigned)refusal.fault == WANTED_AGAIN && lseek(file, 0, SEEK_SET) == 0)
        return open_read_po(file, options, why);
    refuse(why, refusal.fault, refusal.line);
    return c;
}

static kob_catalogue *open_mo_file(int file, unsigned options, kob_refusal *why) {
    kob_catalogue *c = handed_file(file, MOST_MO, KOB_MO_TOO_LARGE, why);
    return c ? open_handed_mo(c, options, why) : NULL;
}

kob_catalogue *kob_open_file(const char *name, enum kob_kind kind, unsigned options, kob_refusal *why) {
    struct open_file file = begin_reading(name);
    kob_catalogue *c = file.number < 0 ? unreadable(why)
                       : kind == KOB_PO ? open_po_file(file.number, options, why)
                                        : open_mo_file(file.number, options, why);
    end_reading(file);
    return c;
}

kob_catalogue *kob_retain(kob_catalogue *c) {
    add_holder(&c->holders);
    return c;
}

void kob_release(kob_catalogue *c) {
    if (!c || !was_last_holder(&c->holders))
        return;
    int cause = errno;
    kobdzila_close(held_catalogue(c));
    free_quietly(c);
    errno = cause;
}

static struct lent ask_hinted(const kob_catalogue *c, kob_text context, kob_text msgid, uint32_t call, uint64_t n,
                              uint64_t hint) {
    struct lent out;
    kobdzila_answer(read_catalogue(c), bytes_of(context), context.len, bytes_of(msgid), msgid.len, call, n, hint, &out);
    return out;
}

static struct lent ask(const kob_catalogue *c, kob_text context, kob_text msgid, uint32_t call, uint64_t n) {
    return ask_hinted(c, context, msgid, call, n, NO_HINT);
}

const char *kob_gettext(const kob_catalogue *c, const char *msgid) {
    if (!msgid)
        return NULL;
    struct lent out;
    kobdzila_gettext(read_catalogue(c), (const unsigned char *)msgid, strlen(msgid), &out);
    return found_or(out, msgid);
}

const char *kob_pgettext(const kob_catalogue *c, const char *context, const char *msgid) {
    return msgid ? found_or(ask(c, text_of(context), text_of(msgid), in_context(context), 0), msgid) : NULL;
}

const char *kob_ngettext(const kob_catalogue *c, const char *msgid, const char *plural, unsigned long long n) {
    return msgid ? found_or(ask(c, text_of(""), text_of(msgid), WITH_NUMBER, n), n == 1 ? msgid : plural) : NULL;
}

const char *kob_npgettext(const kob_catalogue *c, const char *context, const char *msgid, const char *plural,
                          unsigned long long n) {
    if (!msgid)
        return NULL;
    return found_or(ask(c, text_of(context), text_of(msgid), in_context(context) | WITH_NUMBER, n),
                    n == 1 ? msgid : plural);
}

kob_text kob_find(const kob_catalogue *c, kob_text context, kob_text msgid, const unsigned long long *n) {
    if (!msgid.at)
        return no_text;
    if (!context.at && !n) { /* the call of most messages has an export of its own, which is faster */
        struct lent out;
        kobdzila_gettext(read_catalogue(c), (const unsigned char *)msgid.at, msgid.len, &out);
        return found_text(out);
    }
    return found_text(ask(c, present(context), msgid, call_of(context, n), number_of(n)));
}

static uint64_t hint_of(const kob_catalogue *c, const kob_question *q) {
    kob_text context = present(q->context), msgid = present(q->msgid);
    return kobdzila_hint(read_catalogue(c), bytes_of(context), context.len, bytes_of(msgid), msgid.len,
                         call_of(q->context, q->n));
}

static kob_text find_hinted(const kob_catalogue *c, const kob_question *q, uint64_t hint) {
    if (!q->msgid.at)
        return no_text;
    return found_text(ask_hinted(c, present(q->context), q->msgid, call_of(q->context, q->n), number_of(q->n), hint));
}

/* A small catalogue has no hints, so its first question tells that the others needn't ask for one. */
void kob_find_many(const kob_catalogue *c, const kob_question *questions, size_t count, kob_text *answers) {
    uint64_t hints[BLOCK];
    for (size_t size; count; questions += size, answers += size, count -= size) {
        size = block_size(count);
        hints[0] = hint_of(c, questions);
        if (hints[0] == NO_HINT) {
            for (size_t i = 0; i < count; i++)
                answers[i] = kob_find(c, questions[i].context, questions[i].msgid, questions[i].n);
            return;
        }
        for (size_t i = 1; i < size; i++)
            hints[i] = hint_of(c, &questions[i]);
        for (size_t i = 0; i < size; i++)
            answers[i] = find_hinted(c, &questions[i], hints[i]);
    }
}

size_t kob_count(const kob_catalogue *c) { return (size_t)kobdzila_number(read_catalogue(c), COUNT, 0); }

static kob_text text_at(const kob_catalogue *c, uint32_t part, size_t index, size_t form) {
    struct lent out;
    kobdzila_text(read_catalogue(c), part, index, form, &out);
    return (kob_text){ (const char *)out.at, out.len };
}

int kob_entry_at(const kob_catalogue *c, size_t index, kob_entry *entry) {
    if (index >= kob_count(c))
        return 0;
    entry->context = kobdzila_number(read_catalogue(c), HAS_CONTEXT, index) ? text_at(c, CONTEXT, index, 0) : no_text;
    entry->msgid = text_at(c, MSGID, index, 0);
    entry->plural = kobdzila_number(read_catalogue(c), HAS_PLURAL, index) ? text_at(c, PLURAL, index, 0) : no_text;
    entry->forms = (size_t)kobdzila_number(read_catalogue(c), FORMS, index);
    return 1;
}

kob_text kob_form_at(const kob_catalogue *c, size_t index, size_t form) {
    if (form >= kobdzila_number(read_catalogue(c), FORMS, index))
        return no_text;
    return text_at(c, FORM, index, form);
}

void kob_statistics(const kob_catalogue *c, kob_counts *counts) {
    counts->translated = (size_t)kobdzila_number(read_catalogue(c), TRANSLATED, 0);
    counts->fuzzy = (size_t)kobdzila_number(read_catalogue(c), FUZZY, 0);
    counts->untranslated = (size_t)kobdzila_number(read_catalogue(c), UNTRANSLATED, 0);
}

kob_text kob_mo_file(const kob_catalogue *c) { return text_at(c, FILE_BYTES, 0, 0); }

const char *kob_fault_text(enum kob_fault fault) {
    static const char *const mo[] = { "no fault", "file too large", "file too short", "not an MO file",
        "unknown revision", "out of bounds", "string not closed", "bad text", "wrong plural forms",
        "keys out of order", "unsupported charset", "map too large", "out of memory",
        "system-dependent tables out of bounds", "bad segment", "descriptor out of bounds", "unknown segment number",
        "system-dependent string out of bounds", "system-dependent string not closed",
        "system-dependent strings too large", "byte without a character" };
    static const char *const po[] = { "file too large", "not UTF-8", "bad escape", "string not closed", "unknown word",
        "bad text", "out of order", "wrong plural index", "duplicate message", "unsupported charset",
        "system-dependent format", "plural message without a rule", "unreadable plural rule",
        "wrong number of plural forms", "plural rule fails", "format arguments differ", "newlines differ" };
    if (fault >= KOB_NO_FAULT && fault <= KOB_MO_NO_CHARACTER)
        return mo[fault];
    if (fault >= KOB_PO_TOO_LARGE && fault <= KOB_PO_NEWLINE_MISMATCH)
        return po[fault - KOB_PO_TOO_LARGE];
    switch (fault) {
    case KOB_PO_NO_CHARACTER: return "byte without a character";
    case KOB_PO_NOT_READ_BACK: return "file not read back";
    case KOB_UNREADABLE: return "file not readable";
    case KOB_BAD_NAME: return "not a name";
    case KOB_VERSIONS_SPENT: return "no more versions";
    default: return "unknown fault";
    }
}
