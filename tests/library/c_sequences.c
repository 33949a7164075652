/* Calls the handles of libkobdzila in every order: each sequence of N calls over two stores, two readers, a set, a
 * notice and a catalogue, and each sequence once more for each request for memory that it makes, with that request
 * refused. After each call, what every handle answers is compared with a model; at the end each block has been freed.
 * Run by tests/library/c_sequences.sh, also with AddressSanitizer. It prints what is wrong and then how many sequences
 * it ran.
 *
 *   c_sequences N [PART PARTS]   the sequences of N calls, or every PARTS-th of them from number PART on */
#include "kobdzila.h"

#include <stdio.h>
#include <stdlib.h>
#include <string.h>

enum { MOST_CALLS = 8 };

/* ---- what the library asks of the C library */

static unsigned long requests, refused;
static long blocks;

void *__real_malloc(size_t len);
void *__real_realloc(void *old, size_t len);
void __real_free(void *block);

void *__wrap_malloc(size_t len) {
    void *block = ++requests == refused ? NULL : __real_malloc(len);
    blocks += block != NULL;
    return block;
}

void *__wrap_realloc(void *old, size_t len) {
    void *block = ++requests == refused ? NULL : __real_realloc(old, len);
    blocks += block != NULL && old == NULL;
    return block;
}

void __wrap_free(void *block) {
    blocks -= block != NULL;
    __real_free(block);
}

/* ---- the calls */

enum call { NEW, LOAD, PUBLISH, FREE, NOTICE, READER, ENTER, AFTER, LEAVE, END, RETAIN_LENT, RELEASE_LENT, WITH, RETAIN,
            RELEASE, END_NOTICE, END_CATALOGUE };

static const struct step {
    enum call call;
    int reader, store;
} STEPS[] = {
    { NEW, 0, 0 }, { NEW, 0, 1 }, { LOAD, 0, 0 }, { LOAD, 0, 1 }, { PUBLISH, 0, 0 }, { PUBLISH, 0, 1 }, { FREE, 0, 0 },
    { FREE, 0, 1 }, { NOTICE, 0, 0 }, { NOTICE, 0, 1 }, { READER, 0, 0 }, { READER, 0, 1 }, { READER, 1, 0 },
    { READER, 1, 1 }, { ENTER, 0, 0 }, { ENTER, 1, 0 }, { AFTER, 0, 0 }, { AFTER, 1, 0 }, { LEAVE, 0, 0 },
    { LEAVE, 1, 0 }, { END, 0, 0 }, { END, 1, 0 }, { RETAIN_LENT, 0, 0 }, { RETAIN_LENT, 1, 0 },
    { RELEASE_LENT, 0, 0 }, { RELEASE_LENT, 1, 0 }, { WITH, 0, 0 }, { WITH, 1, 0 }, { RETAIN, 0, 0 }, { RELEASE, 0, 0 },
    { END_NOTICE, 0, 0 }, { END_CATALOGUE, 0, 0 },
};
enum { STEP_COUNT = sizeof STEPS / sizeof *STEPS };

static const char *const NAMES[] = { "new", "load", "publish", "free", "notice", "reader", "enter", "enter after",
    "leave", "end", "retain lent", "release lent", "with", "retain", "release", "end of notice", "end of catalogue" };

/* ---- the handles, and the model of what they answer: load number J of a store is for the locale lJ */

struct store {
    kob_store *handle;
    int instance; /* of all stores of the sequence */
};

static struct state {
    kob_catalogue *catalogue;
    struct store stores[2];
    int instances, pending[MOST_CALLS], published[MOST_CALLS]; /* by instance */
    kob_reader *readers[2];
    int of[2], at[2];       /* the instance of a reader's store, and its version */
    const kob_set *lent[2]; /* the set of a reader, if it has entered */
    int is_away[2];         /* whether the reader has left */
    kob_set *set;
    int set_holders, set_at;
    kob_notice *notice;
    int notice_of;
} now;

static kob_catalogue *given; /* which is opened once */
static const struct step *steps[MOST_CALLS];
static int length, wrong;

static void is(const char *what, int holds) {
    if (holds)
        return;
    wrong = 1;
    printf("wrong: %s, refused %lu:", what, refused);
    for (int i = 0; i < length; i++)
        printf(" %s %d %d;", NAMES[steps[i]->call], steps[i]->reader, steps[i]->store);
    printf("\n");
}

/* Whether the step can be made: the handles that it uses are there, and those that it makes are not. The first store and
 * the first reader come first, since they are alike. */
static int is_possible(const struct step *step) {
    const kob_store *store = now.stores[step->store].handle;
    const kob_reader *reader = now.readers[step->reader];
    switch (step->call) {
    case NEW: return !store && (step->store == 0 || now.stores[0].handle);
    case LOAD: return store && now.catalogue;
    case PUBLISH:
    case FREE: return store != NULL;
    case NOTICE: return store && !now.notice;
    case READER: return store && !reader && (step->reader == 0 || now.readers[0]);
    case ENTER:
    case LEAVE:
    case END:
    case RETAIN_LENT:
    case RELEASE_LENT: return reader != NULL;
    case AFTER: return reader && now.notice;
    case WITH: return reader && !now.set && now.catalogue;
    case RETAIN: return now.set && now.set_holders == 1;
    case RELEASE: return now.set != NULL;
    case END_NOTICE: return now.notice != NULL;
    default: return now.catalogue != NULL;
    }
}

static const char *locale_of(int load) {
    static const char *const locales[] = { "l0", "l1", "l2", "l3", "l4", "l5", "l6", "l7", "l8", "l9" };
    return locales[load];
}

/* Whether the set has loads 1 to `version`, and no more. */
static int is_at(const kob_set *set, int version) {
    for (int load = 0; load <= version + 1; load++)
        if (!strcmp(kob_set_gettext(set, "app", locale_of(load), "a"), "b") != (load >= 1 && load <= version))
            return 0;
    return 1;
}

/* ---- the calls, which fail only if a request of theirs is refused, and the model of them */

/* Whether a request was refused since there were `before`. */
static int was_refused(unsigned long before) { return before < refused && refused <= requests; }

static void make_store(struct store *store) {
    unsigned long before = requests;
    store->handle = kob_store_new();
    is("a store is made", store->handle || was_refused(before));
    if (store->handle)
        store->instance = now.instances++;
}

static void load_or_publish(const struct step *step, struct store *store) {
    unsigned long before = requests;
    int *pending = &now.pending[store->instance], *published = &now.published[store->instance];
    kob_refusal why;
    int did = step->call == LOAD
        ? kob_store_load(store->handle, "app", locale_of(*published + *pending + 1), now.catalogue, &why)
        : kob_store_publish(store->handle, NULL);
    is("a load and a publish are made", did || was_refused(before));
    if (did && step->call == LOAD)
        ++*pending;
    else if (did)
        *published += *pending, *pending = 0;
}

static void make_reader(int number, const struct store *store) {
    unsigned long before = requests;
    now.readers[number] = kob_store_reader(store->handle);
    now.of[number] = store->instance;
    now.at[number] = now.published[store->instance];
    now.lent[number] = NULL;
    now.is_away[number] = 0;
    is("a reader is made", now.readers[number] || was_refused(before));
}

/* The set that the reader lends, after an entry. */
static kob_set *lent_by(int number) {
    now.lent[number] = kob_reader_enter(now.readers[number]);
    now.at[number] = now.published[now.of[number]];
    now.is_away[number] = 0;
    return (kob_set *)now.lent[number];
}

static void make_set(int number) {
    unsigned long before = requests;
    const kob_set *lent = lent_by(number);
    now.set = kob_set_with(lent, "more", "fr", now.catalogue, NULL);
    now.set_holders = 1;
    now.set_at = now.at[number];
    is("a set is made", now.set || was_refused(before));
}

static void make_notice(const struct store *store) {
    unsigned long before = requests;
    now.notice = kob_store_notice(store->handle);
    now.notice_of = store->instance;
    is("a notice is made", now.notice || was_refused(before));
}

static void enter_after(int number) {
    const kob_set *set = kob_reader_enter_after(now.readers[number], now.notice);
    is("an entry after a notice of its store", (set != NULL) == (now.of[number] == now.notice_of));
    if (!set)
        return;
    now.at[number] = now.published[now.of[number]];
    now.lent[number] = set;
    now.is_away[number] = 0;
}

static void release_set(void) {
    kob_set_release(now.set);
    if (--now.set_holders == 0)
        now.set = NULL;
}

static void make(const struct step *step) {
    struct store *store = &now.stores[step->store];
    switch (step->call) {
    case NEW: make_store(store); return;
    case LOAD:
    case PUBLISH: load_or_publish(step, store); return;
    case READER: make_reader(step->reader, store); return;
    case WITH: make_set(step->reader); return;
    case NOTICE: make_notice(store); return;
    default: break;
    }
    unsigned long before = requests;
    switch (step->call) {
    case FREE: kob_store_free(store->handle), store->handle = NULL; break;
    case ENTER: lent_by(step->reader); break;
    case AFTER: enter_after(step->reader); break;
    case LEAVE: kob_reader_leave(now.readers[step->reader]), now.is_away[step->reader] = 1; break;
    case END: kob_reader_free(now.readers[step->reader]), now.readers[step->reader] = NULL; break;
    case RETAIN_LENT: is("a lent set is itself", kob_set_retain(lent_by(step->reader)) == lent_by(step->reader)); break;
    case RELEASE_LENT: kob_set_release(lent_by(step->reader)); break;
    case RETAIN: is("a set is itself", kob_set_retain(now.set) == now.set), now.set_holders++; break;
    case RELEASE: release_set(); break;
    case END_NOTICE: kob_notice_free(now.notice), now.notice = NULL; break;
    default: kob_release(now.catalogue), now.catalogue = NULL; break;
    }
    is("such a call asks for no memory", requests == before);
}

/* ---- what the handles answer */

static void compare(void) {
    for (int i = 0; i < 2; i++) {
        const struct store *store = &now.stores[i];
        if (store->handle)
            is("the numbers of a store",
               kob_store_version(store->handle) == (unsigned)now.published[store->instance] &&
                   kob_store_pending(store->handle) == (unsigned)now.pending[store->instance]);
        if (now.readers[i]) {
            is("the version of a reader", kob_reader_version(now.readers[i]) == (unsigned)now.at[i]);
            if (now.is_away[i])
                is("what a reader that has left finds", !now.lent[i] || is_at(now.lent[i], 0));
            else if (now.at[i] == now.published[now.of[i]])
                is("what a reader finds", is_at(lent_by(i), now.at[i]));
        }
    }
    if (now.set)
        is("what a set finds", is_at(now.set, now.set_at) && kob_set_version(now.set) == (unsigned)now.set_at + 1 &&
                                   !strcmp(kob_set_gettext(now.set, "more", "fr", "a"), "b"));
    if (now.catalogue)
        is("what a catalogue finds", !strcmp(kob_gettext(now.catalogue, "a"), "b"));
}

/* Free what is left: the stores first, or last. */
static void free_all(int stores_first) {
    for (int turn = 0; turn < 2; turn++) {
        if (turn != stores_first) {
            for (int i = 0; i < 2; i++)
                kob_store_free(now.stores[i].handle);
            continue;
        }
        for (int i = 0; i < 2; i++)
            kob_reader_free(now.readers[i]);
        kob_notice_free(now.notice);
        while (now.set)
            release_set();
        kob_release(now.catalogue);
    }
}

/* Make the steps that are possible, with request number `number` refused (0: none), and return how many were made. */
static unsigned long run(unsigned long number, int stores_first) {
    now = (struct state){ .catalogue = kob_retain(given) };
    long before = blocks;
    requests = 0;
    refused = number;
    for (int i = 0; i < length; i++) {
        if (is_possible(steps[i]))
            make(steps[i]);
        compare();
    }
    unsigned long made = requests;
    refused = 0;
    free_all(stores_first);
    is("all blocks were freed", blocks == before);
    return made;
}

/* ---- all sequences: whether a step is possible is asked of the state after the steps before it */

static unsigned long sequences, runs, part, parts = 1;

static void run_all(void) {
    if (sequences++ % parts != part)
        return;
    unsigned long made = run(0, sequences & 1);
    for (unsigned long number = 1; number <= made; number++)
        run(number, number & 1);
    runs += made + 1;
}

/* A state with the handles that the steps so far leave, of which none is real. */
static void suppose(void) {
    static char thing;
    now = (struct state){ .catalogue = (kob_catalogue *)(void *)&thing };
    for (int i = 0; i < length; i++) {
        const struct step *step = steps[i];
        switch (step->call) {
        case NEW: now.stores[step->store].handle = (kob_store *)(void *)&thing; break;
        case FREE: now.stores[step->store].handle = NULL; break;
        case READER: now.readers[step->reader] = (kob_reader *)(void *)&thing; break;
        case END: now.readers[step->reader] = NULL; break;
        case NOTICE: now.notice = (kob_notice *)(void *)&thing; break;
        case END_NOTICE: now.notice = NULL; break;
        case WITH: now.set = (kob_set *)(void *)&thing, now.set_holders = 1; break;
        case RETAIN: now.set_holders++; break;
        case RELEASE: now.set = --now.set_holders ? now.set : NULL; break;
        case END_CATALOGUE: now.catalogue = NULL; break;
        default: break;
        }
    }
}

static void extend(int wanted) {
    if (length == wanted) {
        run_all();
        return;
    }
    for (int i = 0; i < STEP_COUNT && !wrong; i++) {
        suppose();
        if (!is_possible(&STEPS[i]))
            continue;
        steps[length++] = &STEPS[i];
        extend(wanted);
        length--;
    }
}

int main(int argc, char **argv) {
    int wanted = argc > 1 ? atoi(argv[1]) : 0;
    if (wanted < 1 || wanted > MOST_CALLS || (argc != 2 && argc != 4))
        return 2;
    if (argc == 4)
        part = strtoul(argv[2], NULL, 10), parts = strtoul(argv[3], NULL, 10);
    static const char po[] = "msgid \"a\"\nmsgstr \"b\"\n";
    given = kob_open_po(po, sizeof po - 1, 0, NULL);
    extend(wanted);
    kob_release(given);
    is("all blocks were freed at the end", blocks == 0);
    printf("%lu sequences, %lu runs\n", sequences, runs);
    return wrong;
}
