/* A snapshot, which looks up in one version of a store, as a Python type.
 *
 * The library answers, and what it answered is kept: see answers.h. A text is known by its place in memory, which no
 * other text of the version has. */
#include "shared.h"

struct snapshot {
    struct object base;
    struct shared *shared;
    kob_reader *reader; /* NULL: the snapshot was closed */
    const kob_set *set; /* which the reader lends */
    PyObject *domain, *languages; /* str */
    kob_languages list;  /* these two in the set, looked at once; its set is NULL if one of them isn't UTF-8 */
    struct texts *texts; /* their answers */
    struct texts *other; /* those of the domain and the languages that were asked last, if these were others, or NULL */
};

static struct snapshot *snapshot_of(PyObject *object) { return (struct snapshot *)object; }

/* Return whether the object is a str. 0: an exception. */
static int is_text(PyObject *object, const char *name) {
    if (PyUnicode_Check(object))
        return 1;
    PyErr_Format(PyExc_TypeError, "%s isn't a str", name);
    return 0;
}

/* Let the snapshot have a reader that enters the store. Return 0, or -1 with an exception. */
static int open_snapshot(struct snapshot *self, struct shared *shared) {
    self->shared = shared;
    shared->holders++;
    self->reader = take_reader(shared);
    if (!self->reader) {
        PyErr_NoMemory();
        return -1;
    }
    self->set = enter(shared, self->reader);
    kob_text domain, languages;
    int is_domain = utf8_of(self->domain, &domain), is_languages = utf8_of(self->languages, &languages);
    if (is_domain > 0 && is_languages > 0)
        self->list = kob_set_languages(self->set, domain, languages);
    if (is_domain < 0 || is_languages < 0)
        return -1;
    self->texts = take_texts(shared, kob_reader_version(self->reader), self->domain, self->languages);
    if (self->texts)
        return 0;
    PyErr_NoMemory();
    return -1;
}

static PyObject *snapshot_new(PyTypeObject *type, PyObject *args, PyObject *keywords) {
    const struct state *state = state_of(type);
    PyObject *store, *domain, *languages;
    if (!state || !PyArg_ParseTuple(args, "OOO", &store, &domain, &languages))
        return NULL;
    if (keywords || !PyObject_TypeCheck(store, (PyTypeObject *)state->store)) {
        PyErr_SetString(PyExc_TypeError, "the method snapshot of a Store makes a snapshot");
        return NULL;
    }
    if (!is_text(domain, "domain") || !is_text(languages, "languages"))
        return NULL;
    PyObject *self = new_object(type, NULL, NULL);
    if (!self)
        return NULL;
    snapshot_of(self)->domain = Py_NewRef(domain);
    snapshot_of(self)->languages = Py_NewRef(languages);
    if (open_snapshot(snapshot_of(self), shared_of(store)) < 0)
        Py_CLEAR(self);
    return self;
}

/* Give the reader back; what was answered stays, since it is str objects. */
static void close_snapshot(struct snapshot *self) {
    kob_reader *reader = self->reader;
    struct texts *texts = self->texts, *other = self->other;
    self->reader = NULL;
    self->set = NULL;
    self->list = (kob_languages){ 0 };
    self->texts = self->other = NULL;
    drop_texts(texts);
    drop_texts(other);
    if (reader)
        give_back(self->shared, reader);
}

static void snapshot_dealloc(PyObject *object) {
    struct snapshot *self = snapshot_of(object);
    close_snapshot(self);
    drop_shared(self->shared);
    Py_XDECREF(self->domain);
    Py_XDECREF(self->languages);
    free_object(object);
}

PyDoc_STRVAR(close_text, "close($self, /)\n--\n\n"
                         "Close the snapshot: from now on a look-up raises ValueError. Closing it again does nothing.");

static PyObject *snapshot_close(PyObject *object, PyObject *unused) {
    (void)unused;
    close_snapshot(snapshot_of(object));
    return Py_NewRef(Py_None);
}

/* Return whether the snapshot is open. 0: an exception. */
static int is_open(const struct snapshot *self) {
    if (self->reader)
        return 1;
    PyErr_SetString(PyExc_ValueError, "the snapshot was closed");
    return 0;
}

/* ------------------------------------------------------------------------------------------------ look-ups */

/* Where a look-up looks, and for what. The number chooses the plural form. */
struct question {
    PyObject *domain, *languages, *context /* NULL: none */, *msgid;
    unsigned long long n;
};

/* Ask the library. The result's `at` is NULL if there is no translation, or with an exception. */
static kob_text text_for(const struct snapshot *self, const struct question *asked) {
    kob_text domain, languages, context = { NULL, 0 }, msgid, none = { NULL, 0 };
    if ((asked->context && utf8_of(asked->context, &context) <= 0) || utf8_of(asked->msgid, &msgid) <= 0)
        return none;
    if (self->list.set && asked->domain == self->domain && asked->languages == self->languages)
        return kob_languages_find(&self->list, context, msgid, &asked->n);
    if (utf8_of(asked->domain, &domain) <= 0 || utf8_of(asked->languages, &languages) <= 0)
        return none;
    return kob_set_find(self->set, domain, languages, context, msgid, &asked->n);
}

/* Return the translation of a message, and keep it in `answers`. Return NULL if there is none, or with an exception. */
static PyObject *looked_up(const struct snapshot *self, struct answers *answers, const struct question *asked) {
    kob_text text = text_for(self, asked);
    if (!text.at && PyErr_Occurred())
        return NULL;
    PyObject *known = text.at ? known_answer(answers, (uint64_t)(uintptr_t)text.at) : NULL, *answer = known;
    if (!known)
        answer = text.at ? new_answer(answers, (uint64_t)(uintptr_t)text.at, text) : Py_NewRef(Py_None);
    if (answer && asked->n < SMALL)
        keep_recent(answers, &(struct recent){ asked->msgid, asked->context, (size_t)asked->n, answer }, known != NULL);
    return answer;
}

/* Return the answers of languages in a text domain, borrowed, or NULL if they can't be kept. */
static struct texts *texts_of(struct snapshot *self, PyObject *domain, PyObject *languages) {
    if (domain == self->domain && languages == self->languages)
        return self->texts;
    if (self->other && self->other->domain == domain && self->other->languages == languages)
        return self->other;
    if (!is_exact(domain, languages))
        return NULL;
    struct texts *other = take_texts(self->shared, kob_reader_version(self->reader), domain, languages);
    drop_texts(self->other);
    self->other = other;
    return other;
}

/* Return the translation of a message that is exactly a str, as `found` does. */
static PyObject *found_exact(struct snapshot *self, const struct question *asked) {
    if (!is_open(self))
        return NULL;
    struct texts *texts = texts_of(self, asked->domain, asked->languages);
    if (!texts) {
        kob_text text = text_for(self, asked);
        return text.at ? PyUnicode_FromStringAndSize(text.at, (Py_ssize_t)text.len) : NULL;
    }
    PyObject *answer = NULL;
    if (asked->n < SMALL)
        answer = recent_answer(&texts->answers, asked->context, asked->msgid, (size_t)asked->n);
    if (!answer) {
        texts->holders++; /* (a finalizer may close the snapshot while an exception is made) */
        answer = looked_up(self, &texts->answers, asked);
        drop_texts(texts);
    }
    if (answer == Py_None)
        Py_CLEAR(answer);
    return answer;
}

/* Return the translation, or NULL if there is none, or with an exception. */
static PyObject *found(struct snapshot *self, struct question asked) {
    if (is_exact(asked.context, asked.msgid))
        return found_exact(self, &asked);
    struct key key = { NULL, NULL };
    PyObject *answer = NULL;
    if (is_open(self) && key_of(asked.context, asked.msgid, &key) > 0) {
        asked.context = key.context;
        asked.msgid = key.msgid;
        answer = found_exact(self, &asked);
    }
    drop_key(&key);
    return answer;
}

/* Answer gettext or pgettext: the form for 1 of a message that has plural forms, as the standard module does. */
static PyObject *plain(struct snapshot *self, PyObject *domain, PyObject *context, PyObject *msgid) {
    PyObject *answer = found(self, (struct question){ domain, self->languages, context, msgid, 1 });
    return answer || PyErr_Occurred() ? answer : Py_NewRef(msgid);
}

/* Answer ngettext or npgettext, whose last three arguments are `last`. */
static PyObject *counted(struct snapshot *self, PyObject *domain, PyObject *context, PyObject *const *last) {
    unsigned long long n;
    int is_plain = number_of(last[2], &n);
    if (is_plain < 0)
        return NULL;
    if (!is_plain)
        return other_number((PyObject *)self, self->base.state->names[OTHER_NUMBER], domain, context, last);
    PyObject *answer = found(self, (struct question){ domain, self->languages, context, last[0], n });
    return answer || PyErr_Occurred() ? answer : Py_NewRef(n == 1 ? last[0] : last[1]);
}

/* Return the arguments of a call whose arguments aren't just all given in their order. NULL: an exception. */
static PyObject *const *named_arguments(const char *name, int call, PyObject *const *args, Py_ssize_t given,
                                        PyObject *keywords, PyObject **room) {
    static const char *const names[] = { "domain", "context", "message", "domain", "context", "msgid1", "msgid2", "n" };
    const char *own[5];
    struct signature wanted = { name, own, 0, 0 };
    const char *const *all = names + (call & WITH_NUMBER ? 3 : 0);
    for (int k = 0; k < (call & WITH_NUMBER ? 5 : 3); k++)
        if ((k != 0 || call & IN_DOMAIN) && (k != 1 || call & IN_CONTEXT))
            own[wanted.count++] = all[k];
    wanted.required = wanted.count;
    return take(&wanted, args, given, keywords, room) < 0 ? NULL : room;
}

PyObject *snapshot_answer(PyObject *object, const char *name, int call, PyObject *const *args, Py_ssize_t given,
                          PyObject *keywords) {
    struct snapshot *self = snapshot_of(object);
    Py_ssize_t count = (call & WITH_NUMBER ? 3 : 1) + (call & IN_CONTEXT ? 1 : 0) + (call & IN_DOMAIN ? 1 : 0);
    PyObject *room[5], *const *got = args;
    if ((given != count || keywords) && !(got = named_arguments(name, call, args, given, keywords, room)))
        return NULL;
    PyObject *domain = call & IN_DOMAIN ? *got++ : self->domain;
    PyObject *context = call & IN_CONTEXT ? *got++ : NULL;
    return call & WITH_NUMBER ? counted(self, domain, context, got) : plain(self, domain, context, got[0]);
}

#define LOOK_UP(name, call)                                                                                            \
    static PyObject *snapshot_##name(PyObject *object, PyObject *const *args, Py_ssize_t given, PyObject *keywords) {  \
        return snapshot_answer(object, #name, call, args, given, keywords);                                            \
    }

LOOK_UP(gettext, 0)
LOOK_UP(pgettext, IN_CONTEXT)
LOOK_UP(ngettext, WITH_NUMBER)
LOOK_UP(npgettext, IN_CONTEXT | WITH_NUMBER)
LOOK_UP(dgettext, IN_DOMAIN)
LOOK_UP(dpgettext, IN_DOMAIN | IN_CONTEXT)
LOOK_UP(dngettext, IN_DOMAIN | WITH_NUMBER)
LOOK_UP(dnpgettext, IN_DOMAIN | IN_CONTEXT | WITH_NUMBER)

PyDoc_STRVAR(find_text, "find($self, domain, languages, message, context=None, n=None)\n--\n\n"
                        "Return a translation, in its form for `n` unless that is None, or None if there is none.\n\n"
                        "`languages` is a list of locales separated by colons, which is used as it is.");

/* Store what a call of find asks. Return 0, or -1 with an exception. */
static int take_question(PyObject *const *args, Py_ssize_t given, PyObject *keywords, struct question *asked) {
    static const char *const names[] = { "domain", "languages", "message", "context", "n" };
    static const struct signature wanted = { "find", names, 5, 3 };
    PyObject *got[5];
    if (take(&wanted, args, given, keywords, got) < 0)
        return -1;
    *asked = (struct question){ got[0], got[1], got[3] && got[3] != Py_None ? got[3] : NULL, got[2], 1 };
    if (!got[4] || got[4] == Py_None)
        return 0;
    asked->n = PyLong_AsUnsignedLongLong(got[4]);
    return asked->n == (unsigned long long)-1 && PyErr_Occurred() ? -1 : 0;
}

static PyObject *snapshot_find(PyObject *object, PyObject *const *args, Py_ssize_t given, PyObject *keywords) {
    struct question asked;
    if (take_question(args, given, keywords, &asked) < 0 || !is_open(snapshot_of(object)))
        return NULL;
    kob_text text = text_for(snapshot_of(object), &asked);
    if (text.at)
        return PyUnicode_FromStringAndSize(text.at, (Py_ssize_t)text.len);
    return PyErr_Occurred() ? NULL : Py_NewRef(Py_None);
}

PyDoc_STRVAR(recall_text, "_recall($self, domain, languages, message, context=None, n=None)\n--\n\n"
                          "Return what find does, and keep the answer for calls with the same str objects.");

static PyObject *snapshot_recall(PyObject *object, PyObject *const *args, Py_ssize_t given, PyObject *keywords) {
    struct question asked;
    if (take_question(args, given, keywords, &asked) < 0)
        return NULL;
    PyObject *text = found(snapshot_of(object), asked);
    return text || PyErr_Occurred() ? text : Py_NewRef(Py_None);
}

static PyObject *snapshot_version(PyObject *object, void *unused) {
    (void)unused;
    const struct snapshot *self = snapshot_of(object);
    return is_open(self) ? PyLong_FromUnsignedLongLong(kob_reader_version(self->reader)) : NULL;
}

static PyObject *snapshot_domain(PyObject *object, void *unused) {
    (void)unused;
    return Py_NewRef(snapshot_of(object)->domain);
}

static PyObject *snapshot_languages(PyObject *object, void *unused) {
    (void)unused;
    return Py_NewRef(snapshot_of(object)->languages);
}

#define CALL(name, arguments, text)                                                                                    \
    { #name, FAST(snapshot_##name), KEYWORDS, #name "($self, /, " arguments ")\n--\n\n" text }
#define PLAIN "Return the translation of `message`"
#define COUNTED "Return the plural form for `n`"

static PyMethodDef snapshot_methods[] = {
    CALL(gettext, "message", PLAIN ", or `message` itself if there is none."),
    CALL(pgettext, "context, message", PLAIN " in `context`, or `message` if there is none."),
    CALL(ngettext, "msgid1, msgid2, n", COUNTED ". If there is no translation, return `msgid1` if `n` is 1\n"
                                                "and `msgid2` otherwise."),
    CALL(npgettext, "context, msgid1, msgid2, n", COUNTED " of a message in `context`, like ngettext."),
    CALL(dgettext, "domain, message", PLAIN " in a text domain."),
    CALL(dpgettext, "domain, context, message", PLAIN " in `context`, in a text domain."),
    CALL(dngettext, "domain, msgid1, msgid2, n", COUNTED " in a text domain."),
    CALL(dnpgettext, "domain, context, msgid1, msgid2, n", COUNTED " of a message in `context`, in a text domain."),
    { "find", FAST(snapshot_find), KEYWORDS, find_text },
    { "_recall", FAST(snapshot_recall), KEYWORDS, recall_text },
    { "close", snapshot_close, METH_NOARGS, close_text },
    { NULL, NULL, 0, NULL },
};

static PyGetSetDef snapshot_properties[] = {
    { "version", snapshot_version, NULL, "The version of all answers.", NULL },
    { "domain", snapshot_domain, NULL, "The text domain of the calls without one.", NULL },
    { "languages", snapshot_languages, NULL, "The locales to search, in order, separated by colons.", NULL },
    { NULL, NULL, NULL, NULL, NULL },
};

PyDoc_STRVAR(snapshot_text, "Look-ups in one version of a store.");

static PyType_Slot snapshot_slots[] = {
    { Py_tp_doc, (void *)snapshot_text },   { Py_tp_new, snapshot_new },
    { Py_tp_dealloc, snapshot_dealloc },    { Py_tp_methods, snapshot_methods },
    { Py_tp_getset, snapshot_properties },  { 0, NULL },
};

static PyType_Spec snapshot_spec = {
    .name = "kobdzila._kobdzila.Snapshot",
    .basicsize = sizeof(struct snapshot),
    .flags = Py_TPFLAGS_DEFAULT | Py_TPFLAGS_BASETYPE,
    .slots = snapshot_slots,
};

int add_snapshot_type(PyObject *module, struct state *state) {
    state->snapshot = add_type(module, "Snapshot", &snapshot_spec);
    return state->snapshot ? 0 : -1;
}
