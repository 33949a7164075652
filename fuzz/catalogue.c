/* An MO file or a PO text, and every look-up in it through libkobdzila: in the catalogue, in a set, by a list of
 * languages and in a live store, which must all agree.
 *
 * The first byte says what the others are: bit 0 a PO text, and then bit 1 KOB_CHECKED and bit 2 KOB_USE_FUZZY. */
#include "target.h"

#include "kobdzila.h"

enum { MOST_ENTRIES = 2000 };

static const unsigned long long numbers[] = { 0, 1, 2, 3, 5, 11, 21, 100, 101, 1000000, 4294967296, ~0ull };
enum { NUMBERS = sizeof numbers / sizeof *numbers };

static bool is_same(kob_text one, kob_text two) {
    if (!one.at || !two.at)
        return !one.at && !two.at;
    return one.len == two.len && !memcmp(one.at, two.at, one.len);
}

static kob_text text_of(const char *string) { return (kob_text){ string, strlen(string) }; }

/* Read each byte of a text, and the NUL that follows an answer. */
static void read_text(kob_text text, bool has_nul) {
    volatile unsigned sum = 0;
    for (size_t place = 0; text.at && place < text.len; place++)
        sum += (unsigned char)text.at[place];
    REQUIRE(sum <= 255 * text.len && (!has_nul || !text.at || text.at[text.len] == '\0'));
}

/* The key of an entry in an MO file: the context, byte 4 and the msgid. */
static int compare_keys(const kob_entry *one, const kob_entry *two) {
    size_t len[2], lens[2] = { (one->context.at ? one->context.len + 1 : 0) + one->msgid.len,
                               (two->context.at ? two->context.len + 1 : 0) + two->msgid.len };
    char *keys[2];
    for (int which = 0; which < 2; which++) {
        const kob_entry *entry = which ? two : one;
        char *to = keys[which] = malloc(lens[which] + 1);
        REQUIRE(to);
        if (entry->context.at) {
            memcpy(to, entry->context.at, entry->context.len);
            to[entry->context.len] = '\4';
            to += entry->context.len + 1;
        }
        memcpy(to, entry->msgid.at, entry->msgid.len);
        len[which] = lens[which];
    }
    int order = memcmp(keys[0], keys[1], len[0] < len[1] ? len[0] : len[1]);
    free(keys[0]);
    free(keys[1]);
    return order ? order : len[0] < len[1] ? -1 : len[0] > len[1];
}

/* Where the same question is asked in the other ways. */
struct places {
    const kob_catalogue *catalogue;
    const kob_set *set;
    const kob_set *lent;
    kob_languages list;
};

/* The calls of gettext, which take strings that end at a NUL. */
static void ask_by_strings(const struct places *in, const kob_entry *entry, unsigned long long n, kob_text one,
                           kob_text form) {
    char *context = entry->context.at ? strndup(entry->context.at, entry->context.len) : NULL;
    char *msgid = strndup(entry->msgid.at, entry->msgid.len);
    REQUIRE(msgid && (context || !entry->context.at));
    const char *answers[] = {
        context ? kob_pgettext(in->catalogue, context, msgid) : kob_gettext(in->catalogue, msgid),
        context ? kob_set_pgettext(in->set, "shop", "ll_CC", context, msgid)
                : kob_set_gettext(in->set, "shop", "ll", msgid),
        context ? kob_languages_pgettext(&in->list, context, msgid) : kob_languages_gettext(&in->list, msgid),
        context ? kob_npgettext(in->catalogue, context, msgid, "plural", n)
                : kob_ngettext(in->catalogue, msgid, "plural", n),
        context ? kob_set_npgettext(in->lent, "shop", "xx:ll", context, msgid, "plural", n)
                : kob_set_ngettext(in->lent, "shop", "xx:ll", msgid, "plural", n),
        context ? kob_languages_npgettext(&in->list, context, msgid, "plural", n)
                : kob_languages_ngettext(&in->list, msgid, "plural", n),
    };
    for (size_t place = 0; place < sizeof answers / sizeof *answers; place++)
        REQUIRE(is_same(text_of(answers[place]), place < 3 ? one : form));
    free(context);
    free(msgid);
}

/* An entry's forms: its own texts, and the answer for each number is one of them. */
static void ask_for_entry(const struct places *in, size_t place, const kob_entry *entry) {
    kob_text first = kob_form_at(in->catalogue, place, 0), domain = text_of("shop"), locale = text_of("ll");
    REQUIRE(entry->forms >= 1 && entry->msgid.at && !kob_form_at(in->catalogue, place, entry->forms).at);
    REQUIRE(entry->plural.at || entry->forms == 1);
    for (size_t form = 0; form < entry->forms; form++)
        read_text(kob_form_at(in->catalogue, place, form), false);
    kob_text one = kob_find(in->catalogue, entry->context, entry->msgid, NULL);
    REQUIRE(one.at && is_same(one, first));
    read_text(one, true);
    REQUIRE(is_same(one, kob_set_find(in->set, domain, locale, entry->context, entry->msgid, NULL)));
    for (size_t which = 0; which < NUMBERS; which++) {
        bool is_form = false;
        kob_text text = kob_find(in->catalogue, entry->context, entry->msgid, &numbers[which]);
        read_text(text, true);
        for (size_t form = 0; form < entry->forms && !is_form; form++)
            is_form = is_same(text, kob_form_at(in->catalogue, place, form));
        REQUIRE(is_form);
        REQUIRE(is_same(text, kob_set_find(in->lent, domain, locale, entry->context, entry->msgid, &numbers[which])));
        REQUIRE(is_same(text, kob_languages_find(&in->list, entry->context, entry->msgid, &numbers[which])));
        if (which < 3)
            ask_by_strings(in, entry, numbers[which], one, text);
    }
}

/* All questions at once, and some that no entry has. */
static void ask_many(const struct places *in, size_t count) {
    kob_question *questions = calloc(2 * count + !count, sizeof *questions);
    kob_text *answers[3];
    REQUIRE(questions);
    for (size_t place = 0; place < 2 * count; place++) {
        kob_entry entry;
        REQUIRE(kob_entry_at(in->catalogue, place / 2, &entry));
        questions[place] = (kob_question){ entry.context, entry.msgid, place % 3 ? &numbers[place % NUMBERS] : NULL };
        if (place % 2 && entry.msgid.len) /* a key that is cut */
            questions[place].msgid.len--;
    }
    for (int which = 0; which < 3; which++)
        REQUIRE((answers[which] = calloc(2 * count + !count, sizeof **answers)));
    kob_find_many(in->catalogue, questions, 2 * count, answers[0]);
    kob_set_find_many(in->set, text_of("shop"), text_of("xx:ll_CC"), questions, 2 * count, answers[1]);
    kob_languages_find_many(&in->list, questions, 2 * count, answers[2]);
    for (size_t place = 0; place < 2 * count; place++) {
        const kob_question *q = &questions[place];
        kob_text alone = kob_find(in->catalogue, q->context, q->msgid, q->n);
        for (int which = 0; which < 3; which++)
            REQUIRE(is_same(alone, answers[which][place]));
    }
    for (int which = 0; which < 3; which++)
        free(answers[which]);
    free(questions);
}

/* The catalogue as a PO file: opened again, each translated entry is there. */
static void ask_for_text(const kob_catalogue *catalogue, size_t count) {
    kob_po_file *file = kob_write_po(catalogue, count % 2 ? KOB_ESCAPED : 0);
    kob_text text = kob_po_text(file);
    kob_catalogue *again = kob_open_po(text.at, text.len, 0, NULL);
    REQUIRE(again || text.len > 67108864);
    for (size_t place = 0, kept = 0; again && place < count; place++) {
        kob_entry one, two;
        REQUIRE(kob_entry_at(catalogue, place, &one));
        if (!kob_form_at(catalogue, place, 0).len)
            continue;
        REQUIRE(kob_entry_at(again, kept, &two) && is_same(one.msgid, two.msgid) && one.forms == two.forms);
        for (size_t form = 0; form < one.forms; form++)
            REQUIRE(is_same(kob_form_at(catalogue, place, form), kob_form_at(again, kept, form)));
        kept++;
    }
    kob_release(again);
    kob_po_free(file);
}

/* The catalogue as an MO file has the same entries, and is itself again. */
static void ask_for_file(const kob_catalogue *catalogue, size_t count) {
    kob_refusal why;
    kob_text file = kob_mo_file(catalogue);
    kob_catalogue *again = kob_open_mo(file.at, file.len, &why);
    bool is_dependent = file.len > 4 && file.at[4]; /* (the minor revision: reading such a file expands its strings) */
    REQUIRE(again && kob_count(again) == count && (is_dependent || is_same(kob_mo_file(again), file)));
    for (size_t place = 0; place < count; place++) {
        kob_entry one, two;
        REQUIRE(kob_entry_at(catalogue, place, &one) && kob_entry_at(again, place, &two) && one.forms == two.forms);
        REQUIRE(is_same(one.context, two.context) && is_same(one.msgid, two.msgid) && is_same(one.plural, two.plural));
        for (size_t form = 0; form < one.forms; form++)
            REQUIRE(is_same(kob_form_at(catalogue, place, form), kob_form_at(again, place, form)));
    }
    kob_release(again);
}

/* A set and a live store with the catalogue, whose readers outlive the store. */
static void ask_everywhere(kob_catalogue *catalogue, size_t count) {
    kob_refusal why;
    kob_set *empty = kob_set_new();
    kob_set *set = empty ? kob_set_with(empty, "shop", "ll", catalogue, &why) : NULL;
    kob_store *store = kob_store_new();
    kob_reader *reader = store ? kob_store_reader(store) : NULL;
    unsigned long long version;
    REQUIRE(set && reader && kob_set_version(set) == 1 && kob_reader_version(reader) == 0);
    REQUIRE(!kob_set_with(set, "a/b", "ll", catalogue, &why) && why.fault == KOB_BAD_NAME);
    REQUIRE(kob_store_load(store, "shop", "ll", catalogue, &why) && kob_store_pending(store) == 1);
    REQUIRE(kob_store_publish(store, &version) && version == 1 && kob_store_version(store) == 1);
    kob_notice *notice = kob_store_notice(store);
    REQUIRE(notice);
    struct places in = { catalogue, set, kob_reader_enter_after(reader, notice),
                         kob_set_languages(set, text_of("shop"), text_of(":ll_CC:yy")) };
    REQUIRE(in.lent && kob_set_version(in.lent) == 1);
    kob_retain(catalogue);
    kob_release(catalogue);
    kob_store_free(store);
    kob_set_release(empty);
    for (size_t place = 0; place < count && place < MOST_ENTRIES; place++) {
        kob_entry entry, before;
        REQUIRE(kob_entry_at(catalogue, place, &entry));
        REQUIRE(!place || (kob_entry_at(catalogue, place - 1, &before) && compare_keys(&before, &entry) < 0));
        ask_for_entry(&in, place, &entry);
    }
    ask_many(&in, count < MOST_ENTRIES ? count : MOST_ENTRIES);
    kob_notice_free(notice);
    kob_reader_free(reader);
    kob_set_release(set);
}

static void check_refusal(kob_refusal why, bool is_po, const uint8_t *bytes, size_t len) {
    size_t lines = 1;
    for (size_t place = 0; place < len; place++)
        lines += bytes[place] == '\n';
    bool is_mo_fault = why.fault >= KOB_MO_TOO_LARGE && why.fault <= KOB_MO_NO_CHARACTER;
    bool is_po_fault = (why.fault >= KOB_PO_TOO_LARGE && why.fault <= KOB_PO_NEWLINE_MISMATCH) ||
                       why.fault == KOB_PO_NO_CHARACTER || why.fault == KOB_MO_SWOLLEN;
    /* (KOB_PO_NOT_READ_BACK is a defect of the library) */
    REQUIRE(is_po ? is_po_fault : is_mo_fault);
    REQUIRE(why.line <= lines && (is_po || !why.line) && *kob_fault_text(why.fault));
}

int LLVMFuzzerTestOneInput(const uint8_t *data, size_t size) {
    struct rest rest = { data, data + size };
    unsigned options = take_byte(&rest);
    bool is_po = options & 1;
    size_t len = (size_t)(rest.end - rest.at);
    kob_refusal why = { KOB_NO_FAULT, 0 };
    /* (a block of its own: what the library reads after it, or after the call, is seen) */
    uint8_t *bytes = malloc(len ? len : 1);
    REQUIRE(bytes);
    memcpy(bytes, rest.at, len);
    kob_catalogue *catalogue =
        is_po ? kob_open_po(bytes, len, options >> 1 & 3, &why) : kob_open_mo(bytes, len, &why);
    free(bytes);
    if (!catalogue) {
        check_refusal(why, is_po, rest.at, len);
        return 0;
    }
    size_t count = kob_count(catalogue);
    kob_entry none;
    REQUIRE(why.fault == KOB_NO_FAULT && !kob_entry_at(catalogue, count, &none));
    ask_everywhere(catalogue, count);
    ask_for_file(catalogue, count);
    ask_for_text(catalogue, count);
    kob_release(catalogue);
    return 0;
}
