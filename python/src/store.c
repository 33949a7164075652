/* The live store of libkobdzila as a Python type, and what it shares with its snapshots, which are in snapshot.c.
 *
 * A snapshot has a reader of its own as long as it is open, since a reader's answers are valid until it enters again.
 * Readers that no snapshot has are kept for the next one, so a snapshot allocates nothing in the library; they have left
 * their version, so they keep no catalogues. Look-ups and new readers, which wait for nobody, hold the interpreter's
 * lock; loads and publishes release it. */
#include "shared.h"

#include <string.h>

struct store {
    struct object base;
    struct shared *shared;
};

static struct store *store_of(PyObject *object) { return (struct store *)object; }

struct shared *shared_of(PyObject *store) { return store_of(store)->shared; }

/* ------------------------------------------------------------------------------------------------ forks */

/* A child has one thread, and its stores are as they were at the fork. So the process forks while no thread is in a call
 * that changes a store, and no lock of the library is held. Calls that are made with the interpreter's lock need no lock
 * of ours: the thread that forks has it. */
static pthread_mutex_t all_lock = PTHREAD_MUTEX_INITIALIZER; /* for the list of all stores */
static struct shared *all;

static void before_fork(void) {
    pthread_mutex_lock(&all_lock);
    for (struct shared *shared = all; shared; shared = shared->next)
        pthread_mutex_lock(&shared->calls);
}

static void after_fork(void) {
    for (struct shared *shared = all; shared; shared = shared->next)
        pthread_mutex_unlock(&shared->calls);
    pthread_mutex_unlock(&all_lock);
}

static void after_fork_in_child(void) {
    for (struct shared *shared = all; shared; shared = shared->next)
        pthread_mutex_init(&shared->calls, NULL);
    pthread_mutex_init(&all_lock, NULL);
}

static int forks_are_followed;

static void follow_forks(void) { forks_are_followed = !pthread_atfork(before_fork, after_fork, after_fork_in_child); }

static void add_to_all(struct shared *shared) {
    pthread_mutex_init(&shared->calls, NULL);
    pthread_mutex_lock(&all_lock);
    shared->next = all;
    if (all)
        all->previous = shared;
    all = shared;
    pthread_mutex_unlock(&all_lock);
}

static void remove_from_all(struct shared *shared) {
    pthread_mutex_lock(&all_lock);
    *(shared->previous ? &shared->previous->next : &all) = shared->next;
    if (shared->next)
        shared->next->previous = shared->previous;
    pthread_mutex_unlock(&all_lock);
    pthread_mutex_destroy(&shared->calls);
}

/* ------------------------------------------------------------------------------------------------ what is shared */

static struct shared *new_shared(void) {
    struct shared *shared = PyMem_Calloc(1, sizeof *shared);
    if (!shared)
        return NULL;
    shared->holders = 1;
    shared->store = kob_store_new();
    if (!shared->store) {
        PyMem_Free(shared);
        return NULL;
    }
    add_to_all(shared);
    return shared;
}

/* Forget the answers that are kept for the newest version. */
static void forget_texts(struct shared *shared) {
    while (shared->texts) {
        struct texts *first = shared->texts;
        shared->texts = first->next;
        drop_texts(first);
    }
    shared->texts_count = 0;
}

void drop_shared(struct shared *shared) {
    if (!shared || --shared->holders)
        return;
    remove_from_all(shared);
    forget_texts(shared);
    while (shared->idle_count)
        kob_reader_free(shared->idle[--shared->idle_count]);
    kob_notice_free(shared->notice);
    kob_store_free(shared->store);
    PyMem_Free(shared);
}

kob_reader *take_reader(struct shared *shared) {
    return shared->idle_count ? shared->idle[--shared->idle_count] : kob_store_reader(shared->store);
}

/* Keep the notice of a publish, unless a later one was kept meanwhile. */
static void keep_notice(struct shared *shared, kob_notice *notice, unsigned long long version) {
    if (notice && (!shared->notice || version >= shared->noticed)) {
        kob_notice *before = shared->notice;
        shared->notice = notice;
        shared->noticed = version;
        notice = before;
    }
    kob_notice_free(notice);
}

const kob_set *enter(const struct shared *shared, kob_reader *reader) {
    return shared->notice ? kob_reader_enter_after(reader, shared->notice) : kob_reader_enter(reader);
}

void give_back(struct shared *shared, kob_reader *reader) {
    if (shared->idle_count == MOST_IDLE) {
        kob_reader_free(reader);
        return;
    }
    kob_reader_leave(reader);
    shared->idle[shared->idle_count++] = reader;
}

static struct texts *new_texts(unsigned long long version, PyObject *domain, PyObject *languages) {
    struct texts *texts = PyMem_Calloc(1, sizeof *texts);
    if (!texts)
        return NULL;
    texts->holders = 1;
    texts->version = version;
    texts->domain = Py_NewRef(domain);
    texts->languages = Py_NewRef(languages);
    texts->answers.entries = MOST_ANSWERS; /* (as many as are kept at most) */
    return texts;
}

void drop_texts(struct texts *texts) {
    if (!texts || --texts->holders)
        return;
    forget(&texts->answers);
    Py_DECREF(texts->domain);
    Py_DECREF(texts->languages);
    PyMem_Free(texts);
}

/* Return whether two exact str objects have the same text. */
static int is_same(PyObject *one, PyObject *other) { return one == other || PyUnicode_Compare(one, other) == 0; }

/* Return where the list has the answers, or its end. */
static struct texts **link_to(struct shared *shared, PyObject *domain, PyObject *languages) {
    struct texts **link = &shared->texts;
    while (*link && !(is_same((*link)->domain, domain) && is_same((*link)->languages, languages)))
        link = &(*link)->next;
    return link;
}

/* Take one out of the list, where it is, or the last one. Return it with the list's reference. */
static struct texts *take_out(struct shared *shared, struct texts **link) {
    struct texts *texts = *link;
    *link = texts->next;
    shared->texts_count--;
    return texts;
}

struct texts *take_texts(struct shared *shared, unsigned long long version, PyObject *domain, PyObject *languages) {
    if (!is_exact(domain, languages) || (shared->texts && version < shared->texts->version))
        return new_texts(version, domain, languages);
    if (shared->texts && version > shared->texts->version)
        forget_texts(shared);
    struct texts **link = link_to(shared, domain, languages), *found;
    if (*link) {
        found = take_out(shared, link);
    } else {
        found = new_texts(version, domain, languages);
        if (found && shared->texts_count == MOST_TEXTS) {
            for (link = &shared->texts; (*link)->next; link = &(*link)->next) {}
            drop_texts(take_out(shared, link));
        }
    }
    if (!found)
        return NULL;
    found->next = shared->texts;
    shared->texts = found;
    shared->texts_count++;
    found->holders++;
    return found;
}

/* ------------------------------------------------------------------------------------------------ the store */

static PyObject *store_new(PyTypeObject *type, PyObject *args, PyObject *keywords) {
    PyObject *self = new_object(type, args, keywords);
    if (!self)
        return NULL;
    store_of(self)->shared = new_shared();
    if (store_of(self)->shared)
        return self;
    Py_DECREF(self);
    return PyErr_NoMemory();
}

static void store_dealloc(PyObject *object) {
    drop_shared(store_of(object)->shared);
    free_object(object);
}

/* Store the bytes of a name in *name and return 1. Return 0 if no text domain or locale has such a name, and -1 with an
 * exception if it isn't a str. */
static int name_of(PyObject *object, const char **name) {
    Py_ssize_t len;
    *name = PyUnicode_AsUTF8AndSize(object, &len);
    if (*name)
        return strlen(*name) == (size_t)len;
    if (!PyErr_ExceptionMatches(PyExc_UnicodeEncodeError))
        return -1;
    PyErr_Clear();
    return 0;
}

PyDoc_STRVAR(load_text, "_load($self, domain, locale, catalogue, /)\n--\n\n"
                        "Keep a catalogue for the next publish. Raise Refused if a name isn't valid.");

static PyObject *store_load(PyObject *object, PyObject *const *args, Py_ssize_t given, PyObject *keywords) {
    static const char *const names[] = { "domain", "locale", "catalogue" };
    static const struct signature wanted = { "_load", names, 3, 3 };
    const struct store *self = store_of(object);
    PyObject *room[3], *const *got = all_of(&wanted, args, given, keywords, room);
    const char *domain, *locale;
    int is_domain = got ? name_of(got[0], &domain) : -1, is_locale = got ? name_of(got[1], &locale) : -1;
    if (is_domain < 0 || is_locale < 0)
        return NULL;
    if (!PyObject_TypeCheck(got[2], (PyTypeObject *)self->base.state->catalogue) || !held_in(got[2])) {
        PyErr_SetString(PyExc_TypeError, "not a catalogue that was opened");
        return NULL;
    }
    kob_refusal why = { KOB_BAD_NAME, 0 };
    int is_loaded = 0;
    if (is_domain && is_locale) {
        kob_catalogue *held = kob_retain(held_in(got[2])); /* (`_read_mo` of another thread may replace it) */
        BEGIN_CALLS(self->shared)
        is_loaded = kob_store_load(self->shared->store, domain, locale, held, &why);
        kob_release(held);
        END_CALLS(self->shared)
    }
    return is_loaded ? Py_NewRef(Py_None) : refuse(self->base.state, &why);
}

PyDoc_STRVAR(publish_text, "_publish($self, /)\n--\n\n"
                           "Show all loads since the last publish in one step, and return the version.");

static PyObject *store_publish(PyObject *object, PyObject *unused) {
    (void)unused;
    struct shared *shared = store_of(object)->shared;
    unsigned long long version = 0;
    kob_notice *notice = NULL;
    int is_done;
    BEGIN_CALLS(shared)
    is_done = kob_store_publish(shared->store, &version);
    if (is_done)
        notice = kob_store_notice(shared->store);
    END_CALLS(shared)
    if (!is_done) {
        PyErr_SetString(PyExc_MemoryError, "out of memory, or the store is busy: the loads are still pending");
        return NULL;
    }
    keep_notice(shared, notice, version);
    return PyLong_FromUnsignedLongLong(version);
}

/* Return a number of the store. Another thread may hold the store's lock, and `retained` frees catalogues, so the
 * interpreter's lock is released. */
static PyObject *number_from(PyObject *object, unsigned long long (*number)(const kob_store *)) {
    struct shared *shared = store_of(object)->shared;
    unsigned long long value;
    BEGIN_CALLS(shared)
    value = number(shared->store);
    END_CALLS(shared)
    return PyLong_FromUnsignedLongLong(value);
}

static unsigned long long retained(const kob_store *store) { return kob_store_retained(store); }

static PyObject *store_version(PyObject *object, void *unused) {
    (void)unused;
    return number_from(object, kob_store_version);
}

static PyObject *store_pending(PyObject *object, void *unused) {
    (void)unused;
    return number_from(object, kob_store_pending);
}

static PyObject *store_retained(PyObject *object, void *unused) {
    (void)unused;
    return number_from(object, retained);
}

static PyMethodDef store_methods[] = {
    { "_load", FAST(store_load), KEYWORDS, load_text },
    { "_publish", store_publish, METH_NOARGS, publish_text },
    { NULL, NULL, 0, NULL },
};

static PyGetSetDef store_properties[] = {
    { "version", store_version, NULL, "The published version: the number of loads published so far.", NULL },
    { "pending", store_pending, NULL, "The number of loads that the next publish will show.", NULL },
    { "retained", store_retained, NULL, "The number of replaced versions that a snapshot still has.", NULL },
    { NULL, NULL, NULL, NULL, NULL },
};

PyDoc_STRVAR(store_text, "A live store of catalogues.");

static PyType_Slot store_slots[] = {
    { Py_tp_doc, (void *)store_text },   { Py_tp_new, store_new },
    { Py_tp_dealloc, store_dealloc },    { Py_tp_methods, store_methods },
    { Py_tp_getset, store_properties },  { 0, NULL },
};

static PyType_Spec store_spec = {
    .name = "kobdzila._kobdzila.Store",
    .basicsize = sizeof(struct store),
    .flags = Py_TPFLAGS_DEFAULT | Py_TPFLAGS_BASETYPE,
    .slots = store_slots,
};

int add_store_type(PyObject *module, struct state *state) {
    static pthread_once_t once = PTHREAD_ONCE_INIT;
    pthread_once(&once, follow_forks);
    if (!forks_are_followed) {
        PyErr_NoMemory();
        return -1;
    }
    state->store = add_type(module, "Store", &store_spec);
    return state->store ? 0 : -1;
}
