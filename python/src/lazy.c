/* Translations that ask for a snapshot at each call, as a Python type: see kobdzila._lazy. */
#include "module.h"

struct lazy {
    struct object base;
    PyObject *current; /* what is called for a snapshot, or NULL */
    PyObject *plain;   /* a type of snapshots that has the methods of the extension, or NULL */
};

static struct lazy *lazy_of(PyObject *object) { return (struct lazy *)object; }

static int lazy_traverse(PyObject *object, visitproc visit, void *arg) {
    Py_VISIT(Py_TYPE(object));
    Py_VISIT(lazy_of(object)->current);
    Py_VISIT(lazy_of(object)->plain);
    return 0;
}

static int lazy_clear(PyObject *object) {
    Py_CLEAR(lazy_of(object)->current);
    Py_CLEAR(lazy_of(object)->plain);
    return 0;
}

static void lazy_dealloc(PyObject *object) {
    PyObject_GC_UnTrack(object);
    lazy_clear(object);
    free_object(object);
}

static PyObject *current_of(PyObject *object, void *unused) {
    (void)unused;
    if (lazy_of(object)->current)
        return Py_NewRef(lazy_of(object)->current);
    PyErr_SetString(PyExc_AttributeError, "current");
    return NULL;
}

static int set_current(PyObject *object, PyObject *current, void *unused) {
    (void)unused;
    PyObject *before = lazy_of(object)->current;
    lazy_of(object)->current = Py_XNewRef(current);
    Py_XDECREF(before);
    return 0;
}

/* Return 1 if a subclass of Snapshot has the extension's own method, 0 if it has another, or -1 with an exception. */
static int has_own(PyObject *snapshot, PyObject *type, PyObject *name) {
    PyObject *own = PyObject_GetAttr(snapshot, name), *its = PyObject_GetAttr(type, name);
    int is_own = own && its ? own == its : -1;
    Py_XDECREF(own);
    Py_XDECREF(its);
    return is_own;
}

/* Return whether the extension's own methods are those of this object's type, and remember the type. -1: an exception. */
static int is_plain(struct lazy *self, PyObject *snapshot) {
    PyObject *type = (PyObject *)Py_TYPE(snapshot), *own = self->base.state->snapshot;
    if (type == self->plain)
        return 1;
    int is_own = PyObject_TypeCheck(snapshot, (PyTypeObject *)own);
    for (int k = GETTEXT; is_own > 0 && k <= NPGETTEXT; k++)
        is_own = has_own(own, type, self->base.state->names[k]);
    if (is_own > 0) {
        PyObject *before = self->plain;
        self->plain = Py_NewRef(type);
        Py_XDECREF(before);
    }
    return is_own;
}

/* Call a method of any object with the arguments that a method in C gets. */
static PyObject *passed_on(PyObject *to, PyObject *name, PyObject *const *args, Py_ssize_t given, PyObject *keywords) {
    Py_ssize_t count = keywords ? PyTuple_Size(keywords) : 0;
    PyObject *method = PyObject_GetAttr(to, name), *positional = method ? PyTuple_New(given) : NULL;
    PyObject *named = count && positional ? PyDict_New() : NULL, *answer = NULL;
    int is_well = positional && (!count || named);
    for (Py_ssize_t k = 0; is_well && k < given; k++)
        is_well = PyTuple_SetItem(positional, k, Py_NewRef(args[k])) == 0;
    for (Py_ssize_t k = 0; is_well && k < count; k++)
        is_well = PyDict_SetItem(named, PyTuple_GetItem(keywords, k), args[given + k]) == 0;
    if (is_well)
        answer = PyObject_Call(method, positional, named);
    Py_XDECREF(named);
    Py_XDECREF(positional);
    Py_XDECREF(method);
    return answer;
}

static PyObject *answer(PyObject *object, enum call call, PyObject *const *args, Py_ssize_t given, PyObject *keywords) {
    static const char *const names[] = { "gettext", "pgettext", "ngettext", "npgettext" };
    static const int kinds[] = { 0, IN_CONTEXT, WITH_NUMBER, IN_CONTEXT | WITH_NUMBER };
    struct lazy *self = lazy_of(object);
    PyObject *current = current_of(object, NULL), *snapshot = current ? PyObject_CallNoArgs(current) : NULL;
    Py_XDECREF(current);
    if (!snapshot)
        return NULL;
    int is_own = is_plain(self, snapshot);
    PyObject *answer = NULL;
    if (is_own > 0)
        answer = snapshot_answer(snapshot, names[call], kinds[call], args, given, keywords);
    else if (is_own == 0)
        answer = passed_on(snapshot, self->base.state->names[call], args, given, keywords);
    Py_DECREF(snapshot);
    return answer;
}

#define LOOK_UP(name, call)                                                                                            \
    static PyObject *lazy_##name(PyObject *object, PyObject *const *args, Py_ssize_t given, PyObject *keywords) {      \
        return answer(object, call, args, given, keywords);                                                            \
    }

LOOK_UP(gettext, GETTEXT)
LOOK_UP(pgettext, PGETTEXT)
LOOK_UP(ngettext, NGETTEXT)
LOOK_UP(npgettext, NPGETTEXT)

#define CALL(name, arguments, text)                                                                                    \
    { #name, FAST(lazy_##name), KEYWORDS, #name "($self, /, " arguments ")\n--\n\n" text }

static PyMethodDef lazy_methods[] = {
    CALL(gettext, "message", "Return the translation of `message`."),
    CALL(pgettext, "context, message", "Return the translation of `message` in `context`."),
    CALL(ngettext, "msgid1, msgid2, n", "Return the plural form for `n`."),
    CALL(npgettext, "context, msgid1, msgid2, n", "Return the plural form for `n` of a message in `context`."),
    { NULL, NULL, 0, NULL },
};

static PyGetSetDef lazy_properties[] = {
    { "current", current_of, set_current, "The function that returns the current snapshot.", NULL },
    { NULL, NULL, NULL, NULL, NULL },
};

PyDoc_STRVAR(lazy_text, "Translations that get a snapshot at each call.");

static PyType_Slot lazy_slots[] = {
    { Py_tp_doc, (void *)lazy_text },     { Py_tp_new, new_object },
    { Py_tp_dealloc, lazy_dealloc },      { Py_tp_traverse, lazy_traverse },
    { Py_tp_clear, lazy_clear },          { Py_tp_methods, lazy_methods },
    { Py_tp_getset, lazy_properties },    { 0, NULL },
};

static PyType_Spec lazy_spec = {
    .name = "kobdzila._kobdzila.LazyTranslations",
    .basicsize = sizeof(struct lazy),
    .flags = Py_TPFLAGS_DEFAULT | Py_TPFLAGS_BASETYPE | Py_TPFLAGS_HAVE_GC,
    .slots = lazy_slots,
};

int add_lazy_type(PyObject *module) {
    PyObject *type = add_type(module, "LazyTranslations", &lazy_spec);
    Py_XDECREF(type);
    return type ? 0 : -1;
}
