/* Live stores, the C part: memory, and the lock that puts the calls on a store in order. The store itself is in
 * crates/snapshot_store and crates/kobdzila_c (exports.h). */
#include "held.h"

#include <pthread.h>

/* The proved library's store is in one call at a time: each call but the first and the last holds the lock. The
 * entrance never changes, so nobody locks it. */
struct kob_store {
    alignas(max_align_t) pthread_mutex_t lock;
    unsigned long long name; /* which no other store of the process ever has */
    struct held_entrance *entrance;
};

/* A notice is followed by the proved library's. */
struct kob_notice {
    alignas(max_align_t) unsigned long long store; /* the name of its store */
};

/* A reader is the set that it lends. It is followed by as many bytes as a cache line has, which nobody uses: so what
 * one thread writes as it enters lies in no line that another thread's reader is in. */
struct kob_reader {
    alignas(max_align_t) unsigned long long store;
    kob_set lent;
};
enum { CACHE_LINE = 64 };

static struct held_store *held_store(kob_store *store) { return (struct held_store *)(void *)(store + 1); }

static struct held_notice *held_notice(kob_notice *notice) { return (struct held_notice *)(void *)(notice + 1); }

static const struct held_notice *read_notice(const kob_notice *notice) {
    return (const struct held_notice *)(const void *)(notice + 1);
}

/* Lock the store and return the proved library's. Calls that only read take the lock as well. */
static struct held_store *lock(const kob_store *store) {
    kob_store *locked = (kob_store *)store;
    pthread_mutex_lock(&locked->lock);
    return held_store(locked);
}

static void unlock(const kob_store *store) { pthread_mutex_unlock(&((kob_store *)store)->lock); }

/* Add an entrance to a new store; without one the store is freed. */
static kob_store *with_entrance(kob_store *store) {
    store->entrance = malloc(kobdzila_entrance_size());
    if (store->entrance && kobdzila_store_number(held_store(store), FAULT) == KOB_NO_FAULT) {
        kobdzila_store_entrance(held_store(store), store->entrance);
        return store;
    }
    free_quietly(store->entrance);
    store->entrance = NULL;
    kob_store_free(store);
    return NULL;
}

kob_store *kob_store_new(void) {
    static atomic_ullong names;
    kob_store *store = malloc(sizeof *store + kobdzila_store_size());
    if (!store)
        return NULL;
    pthread_mutex_init(&store->lock, NULL);
    store->name = atomic_fetch_add(&names, 1) + 1;
    kobdzila_store_open(held_store(store));
    return with_entrance(store);
}

int kob_store_load(kob_store *store, const char *domain, const char *locale, const kob_catalogue *catalogue,
                   kob_refusal *why) {
    kob_text domain_text = text_of(domain), locale_text = text_of(locale);
    struct held_store *held = lock(store);
    kobdzila_store_load(bytes_of(domain_text), domain_text.len, bytes_of(locale_text), locale_text.len,
                        read_catalogue(catalogue), held);
    enum kob_fault fault = (enum kob_fault)kobdzila_store_number(held, FAULT);
    unlock(store);
    refuse(why, fault, 0);
    return fault == KOB_NO_FAULT;
}

int kob_store_publish(kob_store *store, unsigned long long *version) {
    struct held_store *held = lock(store);
    kobdzila_store_publish(held);
    enum kob_fault fault = (enum kob_fault)kobdzila_store_number(held, FAULT);
    unsigned long long published = kobdzila_store_number(held, VERSION);
    unlock(store);
    if (fault != KOB_NO_FAULT)
        return 0;
    if (version)
        *version = published;
    return 1;
}

static uint64_t number(const kob_store *store, uint32_t which) {
    uint64_t number = kobdzila_store_number(lock(store), which);
    unlock(store);
    return number;
}

unsigned long long kob_store_version(const kob_store *store) { return number(store, VERSION); }

unsigned long long kob_store_pending(const kob_store *store) { return number(store, PENDING); }

/* (What is freed first is no part of what the store answers.) */
size_t kob_store_retained(const kob_store *store) {
    struct held_store *held = lock(store);
    kobdzila_store_reclaim(held);
    size_t retained = (size_t)kobdzila_store_number(held, RETAINED);
    unlock(store);
    return retained;
}

kob_notice *kob_store_notice(const kob_store *store) {
    kob_notice *notice = malloc(sizeof *notice + kobdzila_notice_size());
    if (!notice)
        return NULL;
    notice->store = store->name;
    kobdzila_store_notice(lock(store), held_notice(notice));
    unlock(store);
    return notice;
}

/* (The entrance makes readers without the lock, which a publish holds for as long as it takes.) */
kob_reader *kob_store_reader(const kob_store *store) {
    kob_reader *reader = malloc(sizeof *reader + kobdzila_set_size() + CACHE_LINE);
    if (!reader)
        return NULL;
    reader->store = store->name;
    atomic_init(&reader->lent.holders, 0);
    reader->lent.owner = LENT;
    kobdzila_entrance_reader(store->entrance, held_set(&reader->lent));
    if (kobdzila_set_number(read_set(&reader->lent), FAULT) == KOB_NO_FAULT)
        return reader;
    kob_reader_free(reader);
    return NULL;
}

/* The proved library moves a reader out of this memory and back to enter. If there is nothing new, it need not. */
const kob_set *kob_reader_enter(kob_reader *reader) {
    if (!kobdzila_reader_is_current(read_set(&reader->lent)))
        kobdzila_reader_enter(held_set(&reader->lent));
    return &reader->lent;
}

const kob_set *kob_reader_enter_after(kob_reader *reader, const kob_notice *notice) {
    if (reader->store != notice->store)
        return NULL;
    kobdzila_reader_enter_after(held_set(&reader->lent), read_notice(notice));
    return kobdzila_set_number(read_set(&reader->lent), FAULT) == KOB_NO_FAULT ? &reader->lent : NULL;
}

void kob_reader_leave(kob_reader *reader) { kobdzila_reader_leave(held_set(&reader->lent)); }

unsigned long long kob_reader_version(const kob_reader *reader) { return kob_set_version(&reader->lent); }

void kob_notice_free(kob_notice *notice) {
    if (!notice)
        return;
    int cause = errno;
    kobdzila_notice_close(held_notice(notice));
    free_quietly(notice);
    errno = cause;
}

void kob_reader_free(kob_reader *reader) {
    if (!reader)
        return;
    int cause = errno;
    kobdzila_set_close(held_set(&reader->lent));
    free_quietly(reader);
    errno = cause;
}

void kob_store_free(kob_store *store) {
    if (!store)
        return;
    int cause = errno;
    pthread_mutex_destroy(&store->lock);
    kobdzila_store_close(held_store(store));
    if (store->entrance)
        kobdzila_entrance_close(store->entrance);
    free_quietly(store->entrance);
    free_quietly(store);
    errno = cause;
}
