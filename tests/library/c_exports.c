/* Asks the exports of the proved library for numbers that the header's functions don't return, in one thread: why a
 * publish or an entry failed, and whether an entry would find something new. No clause says when they are which. It is
 * linked with the archive of the proved library and the wrappers below, and run by tests/library/c_store.sh. It prints
 * what is wrong, and nothing else. */
#include "exports.h"
#include "kobdzila.h"

#include <stdio.h>
#include <stdlib.h>

static int wrong;

static void is(const char *what, int holds) {
    if (!holds) {
        printf("wrong: %s\n", what);
        wrong = 1;
    }
}

/* ---- what the library asks of the C library: one request is refused */

static unsigned long requests, refused;

void *__real_malloc(size_t len);
void *__real_realloc(void *old, size_t len);

void *__wrap_malloc(size_t len) { return ++requests == refused ? NULL : __real_malloc(len); }

void *__wrap_realloc(void *old, size_t len) { return ++requests == refused ? NULL : __real_realloc(old, len); }

/* ---- values in memory of the size that the exports tell; none is freed before the end */

static void *room(size_t size) {
    void *made = malloc(size);
    if (!made)
        abort();
    return made;
}

static struct held_catalogue *catalogue;
static struct held_store *store;

static void load(void) {
    static const unsigned char app[] = "app", fr[] = "fr";
    kobdzila_store_load(app, 3, fr, 2, catalogue, store);
    is("a load", kobdzila_store_number(store, FAULT) == KOB_NO_FAULT);
}

static struct held_set *reader_of_store(void) {
    struct held_entrance *entrance = room(kobdzila_entrance_size());
    struct held_set *reader = room(kobdzila_set_size());
    kobdzila_store_entrance(store, entrance);
    kobdzila_entrance_reader(entrance, reader);
    kobdzila_entrance_close(entrance);
    free(entrance);
    is("a reader", kobdzila_set_number(reader, FAULT) == KOB_NO_FAULT);
    return reader;
}

static void publish(void) {
    load();
    kobdzila_store_publish(store);
    is("a publish", kobdzila_store_number(store, FAULT) == KOB_NO_FAULT);
}

/* A publish that is refused a request says that memory ran out. */
static void refused_publishes(void) {
    int told = 0;
    for (unsigned long n = 1; n < 1000; n++) {
        load();
        requests = 0;
        refused = n;
        kobdzila_store_publish(store);
        int was_refused = requests >= n;
        refused = 0;
        uint64_t fault = kobdzila_store_number(store, FAULT);
        is("a publish without memory", fault == KOB_NO_FAULT || (was_refused && fault == KOB_MEMORY));
        told += fault == KOB_MEMORY;
        if (!was_refused)
            break;
    }
    is("a publish was refused memory", told > 0);
    kobdzila_store_publish(store);
}

/* An entry after a notice finds its version, also of a reader that has left: nothing else is busy. */
static void entries_after_notices(void) {
    struct held_set *reader = reader_of_store();
    struct held_notice *notice = room(kobdzila_notice_size());
    for (int times = 0; times < 4; times++) {
        publish();
        kobdzila_store_notice(store, notice);
        if (times % 2)
            kobdzila_reader_leave(reader);
        kobdzila_reader_enter_after(reader, notice);
        is("an entry after a notice", kobdzila_set_number(reader, FAULT) == KOB_NO_FAULT);
        is("its version", kobdzila_set_number(reader, VERSION) == kobdzila_store_number(store, VERSION));
        kobdzila_notice_close(notice);
    }
    kobdzila_set_close(reader);
    free(notice);
    free(reader);
}

/* A reader is current until the next publish, however many there were. */
static void current_readers(void) {
    struct held_set *reader = reader_of_store();
    for (int times = 0; times < 1100; times++) {
        is("a reader in the newest version is current", kobdzila_reader_is_current(reader));
        publish();
        is("no other is", !kobdzila_reader_is_current(reader));
        kobdzila_reader_enter(reader);
    }
    is("the last version", kobdzila_set_number(reader, VERSION) == kobdzila_store_number(store, VERSION));
    kobdzila_reader_leave(reader);
    is("one that left isn't current", !kobdzila_reader_is_current(reader));
    kobdzila_set_close(reader);
    free(reader);
}

int main(void) {
    static const unsigned char po[] = "msgid \"file\"\nmsgstr \"Datei\"\n";
    catalogue = room(kobdzila_size());
    kobdzila_open_po(po, sizeof po - 1, 0, 0, 0, 0, catalogue);
    store = room(kobdzila_store_size());
    kobdzila_store_open(store);
    refused_publishes();
    entries_after_notices();
    current_readers();
    kobdzila_store_close(store);
    kobdzila_close(catalogue);
    free(store);
    free(catalogue);
    return wrong;
}
