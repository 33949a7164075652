/* The extension module kobdzila._kobdzila: the catalogues of libkobdzila as a Python type, and the module itself. Its
 * stores are in store.c.
 *
 * It uses the limited API of Python 3.10, so one build also serves each later version. The type has the look-ups of
 * the standard module gettext as methods in C; the classes of the package inherit them. */
#include "module.h"
#include "sorted.h"

#include <errno.h>
#include <stdlib.h>
#include <string.h>

static struct PyModuleDef definition;

struct catalogue {
    struct object base;
    kob_catalogue *held; /* NULL: an empty catalogue */
    const char *file;    /* its MO file, in which all its texts lie */
    int is_by_dict;      /* whether its texts were put into a dict, by which methods in Python answer */
    PyObject *fallback;  /* asked for what isn't found; NULL or None: nobody */
    struct answers answers;
};

static struct catalogue *catalogue_of(PyObject *object) { return (struct catalogue *)object; }

kob_catalogue *held_in(PyObject *catalogue) { return catalogue_of(catalogue)->held; }

/* ------------------------------------------------------------------------------------------------ opening */

/* Let `self` have this catalogue, and its reference, in place of the one that it has. NULL: none. */
static void hold(struct catalogue *self, kob_catalogue *opened) {
    forget(&self->answers);
    kob_release(self->held);
    self->held = opened;
    self->file = opened ? kob_mo_file(opened).at : NULL;
    self->is_by_dict = 0;
    self->answers.entries = opened ? kob_count(opened) : 0;
}

/* Return a new reference to the bytes of an object that has the buffer protocol. */
static PyObject *bytes_of(PyObject *object) {
    if (PyBytes_Check(object))
        return Py_NewRef(object);
    PyObject *view = PyMemoryView_FromObject(object);
    if (!view)
        return NULL;
    PyObject *bytes = PyBytes_FromObject(view);
    Py_DECREF(view);
    return bytes;
}

/* Store the truth of an argument, or of False if it isn't given, in *truth. Return 0, or -1 with an exception. */
static int truth_of(PyObject *object, int *truth) {
    *truth = object ? PyObject_IsTrue(object) : 0;
    return *truth < 0 ? -1 : 0;
}

const struct state *state_of(PyTypeObject *type) {
    for (; type; type = PyType_GetSlot(type, Py_tp_base)) {
        PyObject *module = PyType_GetModule(type);
        if (module && PyModule_GetDef(module) == &definition)
            return PyModule_GetState(module);
        PyErr_Clear();
    }
    PyErr_SetString(PyExc_TypeError, "not a type of this module");
    return NULL;
}

PyObject *new_object(PyTypeObject *type, PyObject *args, PyObject *keywords) {
    (void)args, (void)keywords;
    const struct state *state = state_of(type);
    if (!state)
        return NULL;
    allocfunc allocate = (allocfunc)PyType_GetSlot(type, Py_tp_alloc);
    PyObject *self = allocate(type, 0);
    if (self)
        ((struct object *)self)->state = state;
    return self;
}

void free_object(PyObject *object) {
    PyTypeObject *type = Py_TYPE(object);
    freefunc release = (freefunc)PyType_GetSlot(type, Py_tp_free);
    release(object);
    Py_DECREF(type);
}

PyObject *refuse(const struct state *state, const kob_refusal *why) {
    if (why->fault == KOB_MEMORY)
        return PyErr_NoMemory();
    PyObject *refusal =
        PyObject_CallFunction(state->refused, "iIs", (int)why->fault, why->line, kob_fault_text(why->fault));
    if (refusal) {
        PyErr_SetObject(state->refused, refusal);
        Py_DECREF(refusal);
    }
    return NULL;
}

enum { MO = -1 }; /* the options of an MO file */

/* Open the bytes as an MO file, or as a PO text with these options, in `self`. Return 0, or -1 with an exception. */
static int open_bytes(struct catalogue *self, PyObject *object, int options) {
    PyObject *bytes = bytes_of(object);
    char *at;
    Py_ssize_t len;
    if (!bytes || PyBytes_AsStringAndSize(bytes, &at, &len) < 0) {
        Py_XDECREF(bytes);
        return -1;
    }
    kob_refusal why;
    kob_catalogue *opened;
    Py_BEGIN_ALLOW_THREADS
    opened = options == MO ? open_mo(at, (size_t)len, &why) : kob_open_po(at, (size_t)len, (unsigned)options, &why);
    Py_END_ALLOW_THREADS
    Py_DECREF(bytes);
    if (!opened) {
        refuse(self->base.state, &why);
        return -1;
    }
    hold(self, opened);
    return 0;
}

/* Return a new catalogue of the class, opened from bytes. */
static PyObject *opened_from(PyObject *class, PyObject *object, int options) {
    PyObject *self = new_object((PyTypeObject *)class, NULL, NULL);
    if (self && open_bytes(catalogue_of(self), object, options) < 0)
        Py_CLEAR(self);
    return self;
}

PyDoc_STRVAR(from_mo_text, "from_mo($type, data, /)\n--\n\n"
                           "Open the MO file in `data`, a bytes-like object.");

static PyObject *from_mo(PyObject *class, PyObject *data) { return opened_from(class, data, MO); }

/* Store the options of a PO text in *options. Return 0, or -1 with an exception. */
static int options_of(PyObject *checked, PyObject *use_fuzzy, int *options) {
    int is_checked, keeps_fuzzy;
    if (truth_of(checked, &is_checked) < 0 || truth_of(use_fuzzy, &keeps_fuzzy) < 0)
        return -1;
    *options = (is_checked ? KOB_CHECKED : 0) | (keeps_fuzzy ? KOB_USE_FUZZY : 0);
    return 0;
}

PyDoc_STRVAR(from_po_text, "from_po($type, data, checked=False, use_fuzzy=False)\n--\n\n"
                           "Compile the PO text in `data`, a bytes-like object.\n\n"
                           "`checked` runs the checks of `msgfmt -c`; `use_fuzzy` also keeps fuzzy messages.");

static PyObject *from_po(PyObject *class, PyObject *const *args, Py_ssize_t given, PyObject *keywords) {
    static const char *const names[] = { "data", "checked", "use_fuzzy" };
    static const struct signature wanted = { "from_po", names, 3, 1 };
    PyObject *got[3];
    int options;
    if (take(&wanted, args, given, keywords, got) < 0 || options_of(got[1], got[2], &options) < 0)
        return NULL;
    return opened_from(class, got[0], options);
}

/* Open the file `name`, as bytes in the file system's encoding, in `self`. Return 0, or -1 with an exception. */
static int open_file(struct catalogue *self, PyObject *name, int options) {
    const char *at = PyBytes_AsString(name);
    kob_refusal why;
    kob_catalogue *opened;
    int cause;
    Py_BEGIN_ALLOW_THREADS
    opened = options == MO ? open_mo_file(at, &why) : kob_open_file(at, KOB_PO, (unsigned)options, &why);
    cause = errno;
    Py_END_ALLOW_THREADS
    if (opened) {
        hold(self, opened);
        return 0;
    }
    if (why.fault == KOB_UNREADABLE) {
        PyObject *path = PyUnicode_DecodeFSDefault(at);
        errno = cause;
        if (path)
            PyErr_SetFromErrnoWithFilenameObject(PyExc_OSError, path);
        Py_XDECREF(path);
    } else {
        refuse(self->base.state, &why);
    }
    return -1;
}

/* Return whether the file `name`, as bytes, is a PO file: as `po` says, or by the end of its name. -1: an exception. */
static int is_po(PyObject *po, PyObject *name) {
    if (po && po != Py_None)
        return PyObject_IsTrue(po);
    const char *at = PyBytes_AsString(name);
    size_t len = strlen(at);
    return len > 3 && strcmp(at + len - 3, ".po") == 0;
}

PyDoc_STRVAR(open_text, "open($type, path, po=None, checked=False, use_fuzzy=False)\n--\n\n"
                        "Open the MO file or PO file `path`.\n\n"
                        "`po` says which of the two it is; if it is None, a name that ends in .po means a PO file.\n"
                        "The other options are those of from_po. Raise OSError if the file can't be read.");

static PyObject *open_path(PyObject *class, PyObject *const *args, Py_ssize_t given, PyObject *keywords) {
    static const char *const names[] = { "path", "po", "checked", "use_fuzzy" };
    static const struct signature wanted = { "open", names, 4, 1 };
    PyObject *got[4], *name = NULL, *self = NULL;
    int options;
    if (take(&wanted, args, given, keywords, got) < 0 || options_of(got[2], got[3], &options) < 0 ||
        !PyUnicode_FSConverter(got[0], &name))
        return NULL;
    int po = is_po(got[1], name);
    if (po >= 0)
        self = new_object((PyTypeObject *)class, NULL, NULL);
    if (self && open_file(catalogue_of(self), name, po ? options : MO) < 0)
        Py_CLEAR(self);
    Py_DECREF(name);
    return self;
}

PyDoc_STRVAR(read_mo_text, "_read_mo($self, data, /)\n--\n\n"
                           "Open the MO file in `data` in place of this catalogue.");

static PyObject *read_mo(PyObject *self, PyObject *data) {
    return open_bytes(catalogue_of(self), data, MO) < 0 ? NULL : Py_NewRef(Py_None);
}

PyDoc_STRVAR(share_text, "_share($self, /)\n--\n\n"
                         "Return an object of this class with the same catalogue and the same fallback.");

static PyObject *share(PyObject *object, PyObject *unused) {
    (void)unused;
    struct catalogue *self = catalogue_of(object);
    PyObject *other = new_object(Py_TYPE(object), NULL, NULL);
    if (!other)
        return NULL;
    hold(catalogue_of(other), self->held ? kob_retain(self->held) : NULL);
    catalogue_of(other)->is_by_dict = self->is_by_dict;
    catalogue_of(other)->fallback = Py_XNewRef(self->fallback);
    return other;
}

/* ------------------------------------------------------------------------------------------------ look-ups */

/* Look a message up in the library, and keep the answer. Return it as `found` does. */
static PyObject *looked_up(struct catalogue *self, PyObject *context, PyObject *msgid, unsigned long long n,
                           size_t form) {
    kob_text key, in = { NULL, 0 };
    if (utf8_of(msgid, &key) <= 0 || (context && utf8_of(context, &in) <= 0))
        return NULL;
    kob_text text = kob_find(self->held, in, key, form == UNKNOWN ? &n : NULL);
    if (!text.at)
        return NULL;
    /* (if the form is unknown, the text itself is the key, which is no other entry's first form) */
    uint64_t first = (uint64_t)(text.at - self->file), number = form == UNKNOWN ? 0 : form;
    PyObject *known = known_answer(&self->answers, number << 32 | first), *answer = known;
    if (!known) {
        if (number)
            text = kob_find(self->held, in, key, &n);
        answer = new_answer(&self->answers, number << 32 | first, text);
    }
    if (answer && form != UNKNOWN)
        keep_recent(&self->answers, &(struct recent){ msgid, context, form, answer }, known != NULL);
    return answer;
}

static PyObject *found(struct catalogue *self, PyObject *context, PyObject *msgid, unsigned long long n);

/* Look up what isn't exactly a str. Its methods may open another file in this catalogue's place. */
static PyObject *found_by_key(struct catalogue *self, PyObject *context, PyObject *msgid, unsigned long long n) {
    struct key key;
    PyObject *answer = key_of(context, msgid, &key) > 0 ? found(self, key.context, key.msgid, n) : NULL;
    drop_key(&key);
    return answer;
}

/* Return the plural form for `n`, as str. Return NULL if there is no translation, or with an exception. */
static PyObject *found(struct catalogue *self, PyObject *context, PyObject *msgid, unsigned long long n) {
    if (!self->held)
        return NULL;
    if (!is_exact(context, msgid))
        return found_by_key(self, context, msgid, n);
    size_t form = form_for(&self->answers, self->held, n);
    PyObject *recent = recent_answer(&self->answers, context, msgid, form);
    return recent ? recent : looked_up(self, context, msgid, n, form);
}

static int has_fallback(const struct catalogue *self) { return self->fallback && self->fallback != Py_None; }

/* How many arguments the calls of enum call have. */
static const int counts[] = { 1, 2, 3, 4 };

/* Return the fallback's answer to a call, or `own` if there is no fallback. */
static PyObject *passed_on(const struct catalogue *self, enum call call, PyObject *const *got, PyObject *own) {
    if (PyErr_Occurred())
        return NULL;
    if (!has_fallback(self))
        return Py_NewRef(own);
    PyObject *fallback = Py_NewRef(self->fallback);
    PyObject *answer = call_method(fallback, self->base.state->names[call], got, counts[call]);
    Py_DECREF(fallback);
    return answer;
}

static PyObject *by_dict(PyObject *object, enum call call, PyObject *const *got) {
    return call_method(object, catalogue_of(object)->base.state->names[BY_DICT + call], got, counts[call]);
}

PyDoc_STRVAR(gettext_text, "gettext($self, /, message)\n--\n\n"
                           "Return the translation of `message`, or `message` itself if there is none.");

static PyObject *catalogue_gettext(PyObject *object, PyObject *const *args, Py_ssize_t given, PyObject *keywords) {
    static const char *const names[] = { "message" };
    static const struct signature wanted = { "gettext", names, 1, 1 };
    PyObject *room[1], *const *got = all_of(&wanted, args, given, keywords, room);
    if (!got)
        return NULL;
    if (catalogue_of(object)->is_by_dict)
        return by_dict(object, GETTEXT, got);
    PyObject *answer = found(catalogue_of(object), NULL, got[0], 1);
    return answer ? answer : passed_on(catalogue_of(object), GETTEXT, got, got[0]);
}

PyDoc_STRVAR(pgettext_text, "pgettext($self, /, context, message)\n--\n\n"
                            "Return the translation of `message` in `context`, or `message` if there is none.");

static PyObject *catalogue_pgettext(PyObject *object, PyObject *const *args, Py_ssize_t given, PyObject *keywords) {
    static const char *const names[] = { "context", "message" };
    static const struct signature wanted = { "pgettext", names, 2, 2 };
    PyObject *room[2], *const *got = all_of(&wanted, args, given, keywords, room);
    if (!got)
        return NULL;
    if (catalogue_of(object)->is_by_dict)
        return by_dict(object, PGETTEXT, got);
    PyObject *answer = found(catalogue_of(object), got[0], got[1], 1);
    return answer ? answer : passed_on(catalogue_of(object), PGETTEXT, got, got[1]);
}

/* Answer ngettext or npgettext, whose last three arguments are msgid1, msgid2 and n. */
static PyObject *counted(struct catalogue *self, enum call call, PyObject *const *got, PyObject *context) {
    PyObject *const *last = got + (context ? 1 : 0);
    unsigned long long n;
    if (self->is_by_dict)
        return by_dict((PyObject *)self, call, got);
    int is_plain = number_of(last[2], &n);
    if (is_plain < 0)
        return NULL;
    if (!is_plain && !self->held && has_fallback(self))
        return passed_on(self, call, got, last[1]);
    if (!is_plain)
        return other_number((PyObject *)self, self->base.state->names[OTHER_NUMBER], NULL, context, last);
    PyObject *answer = found(self, context, last[0], n);
    return answer ? answer : passed_on(self, call, got, n == 1 ? last[0] : last[1]);
}

PyDoc_STRVAR(ngettext_text, "ngettext($self, /, msgid1, msgid2, n)\n--\n\n"
                            "Return the plural form for `n`. If there is no translation, return `msgid1` if `n` is 1\n"
                            "and `msgid2` otherwise.");

static PyObject *catalogue_ngettext(PyObject *object, PyObject *const *args, Py_ssize_t given, PyObject *keywords) {
    static const char *const names[] = { "msgid1", "msgid2", "n" };
    static const struct signature wanted = { "ngettext", names, 3, 3 };
    PyObject *room[3], *const *got = all_of(&wanted, args, given, keywords, room);
    if (!got)
        return NULL;
    return counted(catalogue_of(object), NGETTEXT, got, NULL);
}

PyDoc_STRVAR(npgettext_text, "npgettext($self, /, context, msgid1, msgid2, n)\n--\n\n"
                             "Return the plural form for `n` of a message in `context`, like ngettext.");

static PyObject *catalogue_npgettext(PyObject *object, PyObject *const *args, Py_ssize_t given, PyObject *keywords) {
    static const char *const names[] = { "context", "msgid1", "msgid2", "n" };
    static const struct signature wanted = { "npgettext", names, 4, 4 };
    PyObject *room[4], *const *got = all_of(&wanted, args, given, keywords, room);
    if (!got)
        return NULL;
    return counted(catalogue_of(object), NPGETTEXT, got, got[0]);
}

/* ------------------------------------------------------------------------------------------------ listing */

/* A catalogue's memory is the library's. Whatever makes an object that the garbage collector tracks, such as a tuple,
 * may run a finalizer, which may open another file in this catalogue's place. So what reads the library's memory in
 * between has a reference of its own. */

/* Return the text as a new str, or None if there is none. */
static PyObject *text_or_none(kob_text text) {
    return text.at ? PyUnicode_DecodeUTF8(text.at, (Py_ssize_t)text.len, NULL) : Py_NewRef(Py_None);
}

static PyObject *forms_of(const kob_catalogue *held, size_t index, size_t count) {
    PyObject *forms = PyTuple_New((Py_ssize_t)count);
    for (size_t k = 0; forms && k < count; k++) {
        PyObject *form = text_or_none(kob_form_at(held, index, k));
        if (!form || PyTuple_SetItem(forms, (Py_ssize_t)k, form) < 0)
            Py_CLEAR(forms);
    }
    return forms;
}

/* Return the parts of an entry, as a tuple. */
static PyObject *parts_of(const kob_catalogue *held, size_t index) {
    kob_entry entry;
    if (!kob_entry_at(held, index, &entry)) {
        PyErr_SetString(PyExc_IndexError, "no such entry");
        return NULL;
    }
    PyObject *parts[] = { text_or_none(entry.context), text_or_none(entry.msgid), text_or_none(entry.plural),
                          forms_of(held, index, entry.forms) };
    PyObject *all = NULL;
    if (parts[0] && parts[1] && parts[2] && parts[3])
        all = PyTuple_Pack(4, parts[0], parts[1], parts[2], parts[3]);
    for (int k = 0; k < 4; k++)
        Py_XDECREF(parts[k]);
    return all;
}

PyDoc_STRVAR(entry_text, "_entry($self, index, /)\n--\n\n"
                         "Return the context, msgid, plural and forms of an entry. IndexError if there is none.");

static PyObject *entry_at(PyObject *object, PyObject *index) {
    size_t number = PyLong_AsSize_t(index);
    if (number == (size_t)-1 && PyErr_Occurred())
        return NULL;
    if (!catalogue_of(object)->held) {
        PyErr_SetString(PyExc_IndexError, "no such entry");
        return NULL;
    }
    kob_catalogue *held = kob_retain(catalogue_of(object)->held);
    PyObject *parts = parts_of(held, number);
    kob_release(held);
    return parts;
}

/* Compare a key of an MO file, the context before byte 4 if there is one, with the key of an entry. */
static int compare_keys(kob_text key, const kob_entry *entry) {
    const kob_text parts[] = { entry->context, { "\4", 1 }, entry->msgid };
    for (int k = entry->context.at ? 0 : 2; k < 3; k++) {
        size_t shared = key.len < parts[k].len ? key.len : parts[k].len;
        int order = memcmp(key.at, parts[k].at, shared);
        if (order || key.len < parts[k].len)
            return order ? order : -1;
        key = (kob_text){ key.at + shared, key.len - shared };
    }
    return key.len != 0;
}

PyDoc_STRVAR(index_text, "_index($self, key, /)\n--\n\n"
                         "Return the number of the entry with this key of an MO file, a str, or -1.");

static PyObject *index_of_key(PyObject *object, PyObject *name) {
    kob_text key;
    int is_text = utf8_of(name, &key);
    if (is_text < 0)
        return NULL;
    const kob_catalogue *held = catalogue_of(object)->held;
    size_t first = 0, end = is_text && held ? kob_count(held) : 0;
    kob_entry entry;
    while (first < end) {
        size_t middle = first + (end - first) / 2;
        int order = kob_entry_at(held, middle, &entry) ? compare_keys(key, &entry) : -1;
        if (order == 0)
            return PyLong_FromSize_t(middle);
        if (order > 0)
            first = middle + 1;
        else
            end = middle;
    }
    return PyLong_FromLong(-1);
}

PyDoc_STRVAR(mo_file_text, "mo_file($self, /)\n--\n\n"
                           "Return the catalogue as the bytes of an MO file, whichever format it was opened from.");

static PyObject *mo_file(PyObject *object, PyObject *unused) {
    (void)unused;
    if (!catalogue_of(object)->held) {
        PyErr_SetString(PyExc_ValueError, "no catalogue was opened");
        return NULL;
    }
    kob_catalogue *held = kob_retain(catalogue_of(object)->held);
    kob_text file = kob_mo_file(held);
    PyObject *bytes = PyBytes_FromStringAndSize(file.at, (Py_ssize_t)file.len);
    kob_release(held);
    return bytes;
}

static PyObject *count_of(PyObject *object, void *unused) {
    (void)unused;
    const kob_catalogue *held = catalogue_of(object)->held;
    return PyLong_FromSize_t(held ? kob_count(held) : 0);
}

static PyObject *fallback_of(PyObject *object, void *unused) {
    (void)unused;
    PyObject *fallback = catalogue_of(object)->fallback;
    return Py_NewRef(fallback ? fallback : Py_None);
}

static int set_fallback(PyObject *object, PyObject *fallback, void *unused) {
    (void)unused;
    PyObject *before = catalogue_of(object)->fallback;
    catalogue_of(object)->fallback = Py_XNewRef(fallback);
    Py_XDECREF(before);
    return 0;
}

static PyObject *is_by_dict_of(PyObject *object, void *unused) {
    (void)unused;
    return PyBool_FromLong(catalogue_of(object)->is_by_dict);
}

static int set_is_by_dict(PyObject *object, PyObject *value, void *unused) {
    (void)unused;
    int is_by_dict;
    if (truth_of(value, &is_by_dict) < 0)
        return -1;
    catalogue_of(object)->is_by_dict = is_by_dict;
    return 0;
}

/* ------------------------------------------------------------------------------------------------ the type */

static int catalogue_traverse(PyObject *object, visitproc visit, void *arg) {
    Py_VISIT(Py_TYPE(object));
    Py_VISIT(catalogue_of(object)->fallback);
    return 0;
}

static int catalogue_clear(PyObject *object) {
    Py_CLEAR(catalogue_of(object)->fallback);
    return 0;
}

/* Give up a reference to the fallback of a catalogue that is freed. Within another call it leaves the fallback to that one,
 * so that a long chain is freed in a loop. */
static void release_fallback(struct chain *chain, PyObject *fallback) {
    if (chain->releasing && !chain->left) {
        chain->left = fallback;
        return;
    }
    chain->releasing++;
    while (fallback) {
        Py_DECREF(fallback);
        fallback = chain->left;
        chain->left = NULL;
    }
    chain->releasing--;
}

static void catalogue_dealloc(PyObject *object) {
    PyObject *type = Py_NewRef(Py_TYPE(object)); /* (it keeps the module's state) */
    PyObject_GC_UnTrack(object);
    PyObject *fallback = catalogue_of(object)->fallback;
    struct chain *chain = fallback ? catalogue_of(object)->base.state->chain : NULL;
    catalogue_of(object)->fallback = NULL;
    hold(catalogue_of(object), NULL);
    free_object(object);
    if (fallback)
        release_fallback(chain, fallback);
    Py_DECREF(type);
}

static PyMethodDef catalogue_methods[] = {
    { "from_mo", from_mo, METH_O | METH_CLASS, from_mo_text },
    { "from_po", FAST(from_po), KEYWORDS | METH_CLASS, from_po_text },
    { "open", FAST(open_path), KEYWORDS | METH_CLASS, open_text },
    { "gettext", FAST(catalogue_gettext), KEYWORDS, gettext_text },
    { "pgettext", FAST(catalogue_pgettext), KEYWORDS, pgettext_text },
    { "ngettext", FAST(catalogue_ngettext), KEYWORDS, ngettext_text },
    { "npgettext", FAST(catalogue_npgettext), KEYWORDS, npgettext_text },
    { "mo_file", mo_file, METH_NOARGS, mo_file_text },
    { "_entry", entry_at, METH_O, entry_text },
    { "_index", index_of_key, METH_O, index_text },
    { "_read_mo", read_mo, METH_O, read_mo_text },
    { "_share", share, METH_NOARGS, share_text },
    { NULL, NULL, 0, NULL },
};

static PyGetSetDef catalogue_properties[] = {
    { "count", count_of, NULL, "The number of entries, including the header.", NULL },
    { "_fallback", fallback_of, set_fallback, "The translations to search for what isn't found, or None.", NULL },
    { "_is_by_dict", is_by_dict_of, set_is_by_dict, "Whether methods in Python answer, from a dict of the translations.", NULL },
    { NULL, NULL, NULL, NULL, NULL },
};

PyDoc_STRVAR(catalogue_text, "A message catalogue. It never changes once it is open.");

static PyType_Slot catalogue_slots[] = {
    { Py_tp_doc, (void *)catalogue_text },
    { Py_tp_new, new_object },
    { Py_tp_dealloc, catalogue_dealloc },
    { Py_tp_traverse, catalogue_traverse },
    { Py_tp_clear, catalogue_clear },
    { Py_tp_methods, catalogue_methods },
    { Py_tp_getset, catalogue_properties },
    { 0, NULL },
};

static PyType_Spec catalogue_spec = {
    .name = "kobdzila._kobdzila.Catalogue",
    .basicsize = sizeof(struct catalogue),
    .flags = Py_TPFLAGS_DEFAULT | Py_TPFLAGS_BASETYPE | Py_TPFLAGS_HAVE_GC,
    .slots = catalogue_slots,
};

/* ------------------------------------------------------------------------------------------------ the module */

PyDoc_STRVAR(format_faults_text, "format_faults($module, data, use_fuzzy, /)\n--\n\n"
                                 "Return what is wrong with the formats of other languages than C in a PO text, as\n"
                                 "tuples of the line of a msgstr, the language, the form and the difference.");

/* Return the faults as a list of tuples of int. */
static PyObject *listed(const kob_format_faults *faults) {
    PyObject *list = PyList_New(0);
    kob_format_fault fault;
    for (size_t k = 0; list && kob_format_fault_at(faults, k, &fault); k++) {
        PyObject *row = Py_BuildValue("(IiIi)", fault.line, (int)fault.language, fault.form, (int)fault.difference);
        if (!row || PyList_Append(list, row) < 0)
            Py_CLEAR(list);
        Py_XDECREF(row);
    }
    return list;
}

static PyObject *format_faults(PyObject *module, PyObject *args) {
    PyObject *bytes;
    int use_fuzzy;
    char *at;
    Py_ssize_t len;
    if (!PyArg_ParseTuple(args, "Sp", &bytes, &use_fuzzy) || PyBytes_AsStringAndSize(bytes, &at, &len) < 0)
        return NULL;
    kob_refusal why;
    kob_format_faults *faults;
    Py_BEGIN_ALLOW_THREADS
    faults = kob_check_formats(at, (size_t)len, KOB_CHECKED | (use_fuzzy ? KOB_USE_FUZZY : 0), &why);
    Py_END_ALLOW_THREADS
    if (!faults)
        return refuse(PyModule_GetState(module), &why);
    PyObject *list = listed(faults);
    kob_format_faults_free(faults);
    return list;
}

static PyMethodDef functions[] = {
    { "format_faults", format_faults, METH_VARARGS, format_faults_text },
    { NULL, NULL, 0, NULL },
};

/* Return the attribute `name` of a module of the package. */
static PyObject *imported(const char *module_name, const char *name) {
    PyObject *module = PyImport_ImportModule(module_name);
    PyObject *value = module ? PyObject_GetAttrString(module, name) : NULL;
    Py_XDECREF(module);
    return value;
}

PyObject *add_type(PyObject *module, const char *name, PyType_Spec *spec) {
    PyObject *type = PyType_FromModuleAndSpec(module, spec, NULL);
    if (type && PyModule_AddObjectRef(module, name, type) < 0)
        Py_CLEAR(type);
    return type;
}

static int fill(PyObject *module) {
    static const char *const names[CALLS] = { "gettext",       "pgettext",       "ngettext",
                                              "npgettext",     "_other_number",  "_dict_gettext",
                                              "_dict_pgettext", "_dict_ngettext", "_dict_npgettext" };
    struct state *state = PyModule_GetState(module);
    state->chain = PyMem_Calloc(1, sizeof *state->chain);
    if (!state->chain) {
        PyErr_NoMemory();
        return -1;
    }
    for (int k = 0; k < CALLS; k++) {
        state->names[k] = PyUnicode_InternFromString(names[k]);
        if (!state->names[k])
            return -1;
    }
    state->refused = imported("kobdzila._refused", "Refused");
    if (!state->refused)
        return -1;
    state->catalogue = add_type(module, "Catalogue", &catalogue_spec);
    if (!state->catalogue || add_store_type(module, state) < 0 || add_snapshot_type(module, state) < 0 ||
        add_lazy_type(module) < 0)
        return -1;
    return PyModule_AddStringConstant(module, "version", kob_version());
}

static int module_traverse(PyObject *module, visitproc visit, void *arg) {
    struct state *state = PyModule_GetState(module);
    Py_VISIT(state->catalogue);
    Py_VISIT(state->store);
    Py_VISIT(state->snapshot);
    Py_VISIT(state->refused);
    for (int k = 0; k < CALLS; k++)
        Py_VISIT(state->names[k]);
    return 0;
}

static int module_clear(PyObject *module) {
    struct state *state = PyModule_GetState(module);
    Py_CLEAR(state->catalogue);
    Py_CLEAR(state->store);
    Py_CLEAR(state->snapshot);
    Py_CLEAR(state->refused);
    for (int k = 0; k < CALLS; k++)
        Py_CLEAR(state->names[k]);
    return 0;
}

static void module_free(void *module) {
    struct state *state = PyModule_GetState(module);
    module_clear(module);
    PyMem_Free(state->chain);
}

/* From Python 3.12 on a module says that an interpreter with a lock of its own may load it. Earlier ones refuse a slot
 * that they don't know. */
enum { MULTIPLE_INTERPRETERS = 3, OWN_LOCK = 2 };

static PyModuleDef_Slot first_slots[] = {
    { Py_mod_exec, fill },
    { 0, NULL },
};

static PyModuleDef_Slot slots_since_12[] = {
    { Py_mod_exec, fill },
    { MULTIPLE_INTERPRETERS, (void *)OWN_LOCK },
    { 0, NULL },
};

static struct PyModuleDef definition = {
    PyModuleDef_HEAD_INIT,
    .m_name = "kobdzila._kobdzila",
    .m_doc = "The catalogues and stores of libkobdzila.",
    .m_size = sizeof(struct state),
    .m_methods = functions,
    .m_slots = first_slots,
    .m_traverse = module_traverse,
    .m_clear = module_clear,
    .m_free = module_free,
};

PyMODINIT_FUNC PyInit__kobdzila(void);
PyMODINIT_FUNC PyInit__kobdzila(void) {
    if (strtoul(Py_GetVersion() + strlen("3."), NULL, 10) >= 12)
        definition.m_slots = slots_since_12;
    return PyModuleDef_Init(&definition);
}
