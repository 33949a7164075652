/* What the C files call of the proved library (crates/kobdzila_c), as Rattle exports it; no program calls these. Each
 * kind of value has a type of its own, so that the compiler tells them apart. C allocates their memory and never looks
 * into it. */
#ifndef EXPORTS_H
#define EXPORTS_H

#include <stdbool.h>
#include <stddef.h>
#include <stdint.h>

/* A catalogue, why it was refused, or the bytes that are handed over for one; what was made of a catalogue or of a PO
 * text; a set, a reader that lends one, or why there is none; and a live store's parts. */
struct held_catalogue;
struct held_output;
struct held_set;
struct held_store;
struct held_notice;
struct held_entrance;

/* Bytes that the library lends. */
struct lent {
    const unsigned char *at;
    size_t len;
};

/* The places in a set that a list of languages names; a larger count than MOST_PLACES says that there are more. */
enum { MOST_PLACES = 16 };
struct places {
    unsigned count, at[MOST_PLACES];
};

/* `call` of a look-up; both flags together are npgettext. */
enum { GETTEXT = 0, IN_CONTEXT = 1, WITH_NUMBER = 2 };

/* The hint that says nothing. */
#define NO_HINT UINT64_MAX

/* `which` of each ..._number, and `part` of kobdzila_text. A fault is one of enum kob_fault; or BUSY, for which the
 * header's functions return 0 or NULL; or WANTED_AGAIN, for a PO text that is to be opened by kobdzila_open_po. */
enum { FAULT = 0 };
enum { LINE = 1, COUNT = 2, FORMS = 3, HAS_CONTEXT = 4, HAS_PLURAL = 5 };
enum { TRANSLATED = 6, FUZZY = 7, UNTRANSLATED = 8 };
enum { FAULT_LINE = 3, FAULT_LANGUAGE = 4, FAULT_FORM = 5, FAULT_DIFFERENCE = 6 };
enum { VERSION = 1, PENDING = 2, RETAINED = 3 };
enum { FILE_BYTES = 0, CONTEXT = 1, MSGID = 2, PLURAL = 3, FORM = 4 };
enum { BUSY = 203, WANTED_AGAIN = 205 };

/* ---- catalogues */
size_t kobdzila_size(void);
void kobdzila_open_po(const unsigned char *bytes, size_t len, uint32_t checked, uint32_t use_fuzzy, uint32_t strict,
                      uint32_t without_index, struct held_catalogue *out);
void kobdzila_bytes_new(uint64_t len, struct held_catalogue *out);
void kobdzila_bytes_add(const unsigned char *piece, size_t len, struct held_catalogue *held);
void kobdzila_bytes_open_mo(uint32_t strict, uint32_t without_index, struct held_catalogue *held);
void kobdzila_bytes_open_po(uint32_t checked, uint32_t use_fuzzy, uint32_t strict, uint32_t without_index,
                            struct held_catalogue *held);
void kobdzila_close(struct held_catalogue *catalogue);
uint64_t kobdzila_number(const struct held_catalogue *catalogue, uint32_t which, uint64_t index);
void kobdzila_text(const struct held_catalogue *catalogue, uint32_t part, uint64_t index, uint64_t form,
                   struct lent *out);
void kobdzila_gettext(const struct held_catalogue *catalogue, const unsigned char *msgid, size_t msgid_len,
                      struct lent *out);
void kobdzila_answer(const struct held_catalogue *catalogue, const unsigned char *context, size_t context_len,
                     const unsigned char *msgid, size_t msgid_len, uint32_t call, uint64_t n, uint64_t hint,
                     struct lent *out);
uint64_t kobdzila_hint(const struct held_catalogue *catalogue, const unsigned char *context, size_t context_len,
                       const unsigned char *msgid, size_t msgid_len, uint32_t call);

/* ---- what is made of catalogues and PO texts */
size_t kobdzila_output_size(void);
void kobdzila_write_po(const struct held_catalogue *catalogue, uint32_t escape, struct held_output *out);
void kobdzila_format_faults(const unsigned char *bytes, size_t len, uint32_t checked, uint32_t use_fuzzy,
                            struct held_output *out);
void kobdzila_recode(const unsigned char *bytes, size_t len, struct held_output *out);
uint64_t kobdzila_output_number(const struct held_output *output, uint32_t which, uint64_t index);
void kobdzila_output_text(const struct held_output *output, struct lent *out);
void kobdzila_output_close(struct held_output *output);

/* ---- sets, and the sets that readers lend */
bool kobdzila_is_name(const unsigned char *bytes, size_t len);
size_t kobdzila_set_size(void);
void kobdzila_set_new(struct held_set *out);
void kobdzila_set_with(const struct held_set *set, const unsigned char *domain, size_t domain_len,
                       const unsigned char *locale, size_t locale_len, const struct held_catalogue *catalogue,
                       struct held_set *out);
void kobdzila_set_close(struct held_set *set);
uint64_t kobdzila_set_number(const struct held_set *set, uint32_t which);
void kobdzila_set_answer(const struct held_set *set, const unsigned char *domain, size_t domain_len,
                         const unsigned char *languages, size_t languages_len, const unsigned char *context,
                         size_t context_len, const unsigned char *msgid, size_t msgid_len, uint32_t call, uint64_t n,
                         struct lent *out);
void kobdzila_set_languages(const struct held_set *set, const unsigned char *domain, size_t domain_len,
                            const unsigned char *languages, size_t languages_len, struct places *out);
void kobdzila_set_answer_at(const struct held_set *set, const unsigned *places, size_t count,
                            const unsigned char *context, size_t context_len, const unsigned char *msgid,
                            size_t msgid_len, uint32_t call, uint64_t n, uint64_t hint, struct lent *out);
uint64_t kobdzila_set_hint(const struct held_set *set, const unsigned *places, size_t count,
                           const unsigned char *context, size_t context_len, const unsigned char *msgid,
                           size_t msgid_len, uint32_t call);

/* ---- live stores, notices and readers; a reader is a set, that of its version, or the empty one once it has left */
size_t kobdzila_store_size(void);
void kobdzila_store_open(struct held_store *out);
void kobdzila_store_load(const unsigned char *domain, size_t domain_len, const unsigned char *locale,
                         size_t locale_len, const struct held_catalogue *catalogue, struct held_store *store);
void kobdzila_store_publish(struct held_store *store);
void kobdzila_store_reclaim(struct held_store *store);
uint64_t kobdzila_store_number(const struct held_store *store, uint32_t which);
void kobdzila_store_close(struct held_store *store);
size_t kobdzila_notice_size(void);
void kobdzila_store_notice(const struct held_store *store, struct held_notice *out);
void kobdzila_notice_close(struct held_notice *notice);
size_t kobdzila_entrance_size(void);
void kobdzila_store_entrance(const struct held_store *store, struct held_entrance *out);
void kobdzila_entrance_reader(const struct held_entrance *entrance, struct held_set *out);
void kobdzila_entrance_close(struct held_entrance *entrance);
void kobdzila_reader_leave(struct held_set *reader);
uint32_t kobdzila_reader_is_current(const struct held_set *reader);
void kobdzila_reader_enter(struct held_set *reader);
void kobdzila_reader_enter_after(struct held_set *reader, const struct held_notice *notice);

#endif
