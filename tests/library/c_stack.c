/* Measures how much of a thread's stack the calls of libkobdzila take: each input is opened, listed and asked in a
 * thread whose stack was filled with one byte before. Run by tests/library/c_trouble.sh.
 *
 *   c_stack MOST FILE..    MO files, and PO texts by the ending .po; it prints the greatest number of bytes of all,
 * and ends with 1 if that is more than MOST */
#define _GNU_SOURCE
#include "kobdzila.h"

#include <pthread.h>
#include <stdio.h>
#include <stdlib.h>
#include <string.h>
#include <sys/mman.h>

#define ROOM ((size_t)8 << 20)
#define FILLED 0xa5

static const char *name;

static int is_po(void) {
    size_t len = strlen(name);
    return len > 3 && !strcmp(name + len - 3, ".po");
}

static void ask_all(const kob_catalogue *c) {
    kob_set *none = kob_set_new(), *set = kob_set_with(none, "app", "fr", c, NULL);
    for (size_t i = 0; i < kob_count(c) && i < 1000; i++) {
        kob_entry e;
        const kob_text app = { "app", 3 }, fr = { "fr:de:pl", 8 };
        const unsigned long long n = i;
        kob_entry_at(c, i, &e);
        kob_find(c, e.context, e.msgid, &n);
        kob_form_at(c, i, 0);
        kob_set_find(set, app, fr, e.context, e.msgid, &n);
        const kob_languages list = kob_set_languages(set, app, fr);
        kob_languages_find(&list, e.context, e.msgid, &n);
    }
    kob_gettext(c, "no such message");
    kob_ngettext(c, "no such message", "x", 5);
    kob_set_release(none);
    kob_set_release(set);
}

static void show(kob_store *store, const kob_catalogue *c, kob_reader *reader) {
    kob_store_load(store, "app", "fr", c, NULL);
    kob_store_load(store, "app", "de", c, NULL);
    kob_store_publish(store, NULL);
    kob_notice *notice = kob_store_notice(store);
    kob_set_ngettext(kob_reader_enter_after(reader, notice), "app", "fr:de", "no such message", "x", 5);
    kob_notice_free(notice);
}

/* The store is given the last reference to the catalogue, and frees it in a publish, with a set that it replaced. */
static void publish(kob_catalogue *c) {
    kob_catalogue *empty = kob_open_po("", 0, 0, NULL);
    kob_store *store = kob_store_new();
    kob_reader *reader = kob_store_reader(store);
    show(store, c, reader);
    kob_release(c);
    for (int i = 0; i < 3; i++)
        show(store, empty, reader);
    kob_release(empty);
    kob_store_free(store);
    kob_reader_free(reader);
}

static void *work(void *none) {
    kob_refusal why;
    kob_catalogue *c = kob_open_file(name, is_po() ? KOB_PO : KOB_MO, KOB_CHECKED, &why);
    if (c) {
        ask_all(c);
        publish(c);
    }
    return none;
}

/* what a thread takes that does nothing is no call's */
static void *idle(void *none) { return none; }

static size_t taken_by(void *(*what)(void *)) {
    unsigned char *stack = mmap(NULL, ROOM, PROT_READ | PROT_WRITE, MAP_PRIVATE | MAP_ANONYMOUS, -1, 0);
    pthread_attr_t attributes;
    pthread_t thread;
    if (stack == MAP_FAILED)
        exit(2);
    memset(stack, FILLED, ROOM);
    if (pthread_attr_init(&attributes) || pthread_attr_setstack(&attributes, stack, ROOM) ||
        pthread_create(&thread, &attributes, what, NULL))
        exit(2);
    pthread_join(thread, NULL);
    size_t free_bytes = 0;
    while (free_bytes < ROOM && stack[free_bytes] == FILLED)
        free_bytes++;
    munmap(stack, ROOM);
    return ROOM - free_bytes;
}

int main(int argc, char **argv) {
    size_t most = 0, none = taken_by(idle);
    const char *which = "";
    for (int i = 2; i < argc; i++) {
        name = argv[i];
        size_t taken = taken_by(work);
        taken = taken > none ? taken - none : 0;
        if (taken > most) {
            most = taken;
            which = name;
        }
    }
    printf("%zu bytes, for %s\n", most, which);
    return argc < 3 || most > strtoul(argv[1], NULL, 10);
}
