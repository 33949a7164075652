/* What the C files of the library share: the handles of the header, their reference counts, and strings. */
#ifndef HELD_H
#define HELD_H

#include "exports.h"
#include "kobdzila.h"

#include <errno.h>
#include <stdalign.h>
#include <stdatomic.h>
#include <stdlib.h>
#include <string.h>

/* How many bytes of an MO file and of a PO file are read. */
#define MOST_MO 268435456
#define MOST_PO 67108864

/* Each handle is followed by a value of the proved library, for which the handle leaves room that is aligned as malloc
 * aligns. */
struct kob_catalogue {
    alignas(max_align_t) atomic_size_t holders;
};

/* Whose a set is: its references', which are counted, or a reader's, which lends it. */
enum owner { COUNTED, LENT };

struct kob_set {
    alignas(max_align_t) atomic_size_t holders;
    enum owner owner;
};

static inline struct held_catalogue *held_catalogue(kob_catalogue *c) {
    return (struct held_catalogue *)(void *)(c + 1);
}

static inline const struct held_catalogue *read_catalogue(const kob_catalogue *c) {
    return (const struct held_catalogue *)(const void *)(c + 1);
}

static inline struct held_set *held_set(kob_set *set) { return (struct held_set *)(void *)(set + 1); }

static inline const struct held_set *read_set(const kob_set *set) {
    return (const struct held_set *)(const void *)(set + 1);
}

static inline void add_holder(atomic_size_t *holders) { atomic_fetch_add(holders, 1); }

static inline int was_last_holder(atomic_size_t *holders) { return atomic_fetch_sub(holders, 1) == 1; }

/* Free a block and keep errno, which free may change before glibc 2.33. GCC assumes that free doesn't, and would drop
 * the last line if it weren't for the fence. */
static inline void free_quietly(void *block) {
    int cause = errno;
    free(block);
    atomic_signal_fence(memory_order_seq_cst);
    errno = cause;
}

static inline void *refuse(kob_refusal *why, enum kob_fault fault, unsigned line) {
    if (why)
        *why = (kob_refusal){ fault, line };
    return NULL;
}

static inline uint32_t call_of(kob_text context, const unsigned long long *n) {
    return (context.at ? IN_CONTEXT : GETTEXT) | (n ? WITH_NUMBER : GETTEXT);
}

/* Many questions are asked in blocks of this size: first all hints of a block, then its answers. */
enum { BLOCK = 32 };

static inline size_t block_size(size_t count) { return count < BLOCK ? count : BLOCK; }

static inline uint64_t number_of(const unsigned long long *n) { return n ? *n : 0; }

static inline uint32_t in_context(const char *context) { return context ? IN_CONTEXT : GETTEXT; }

/* No string: the answer to a msgid that is none, and to one that isn't found. */
static const kob_text no_text = { NULL, 0 };

/* Replace a missing string by the empty one, so that its address is never NULL. */
static inline kob_text present(kob_text text) { return text.at ? text : (kob_text){ "", 0 }; }

static inline kob_text text_of(const char *string) {
    return string ? (kob_text){ string, strlen(string) } : (kob_text){ "", 0 };
}

static inline const unsigned char *bytes_of(kob_text text) { return (const unsigned char *)text.at; }

/* A string that is found includes its NUL, so it has at least one byte. */
static inline const char *found_or(struct lent found, const char *other) {
    return found.len ? (const char *)found.at : other;
}

static inline kob_text found_text(struct lent found) {
    return found.len ? (kob_text){ (const char *)found.at, found.len - 1 } : no_text;
}
#endif
