/* What the parts of the extension module share: the arguments of its functions, the module's state, and refusals. */
#ifndef MODULE_H
#define MODULE_H

#include "answers.h"

/* (Python's pyconfig.h may be that of the machine on which this is compiled for another one) */
_Static_assert(SIZEOF_VOID_P == sizeof(void *) && SIZEOF_SIZE_T == sizeof(size_t) && SIZEOF_LONG == sizeof(long) &&
                   SIZEOF_LONG_LONG == sizeof(long long) && SIZEOF_WCHAR_T == sizeof(wchar_t),
               "pyconfig.h is that of a machine with other sizes");

/* ------------------------------------------------------------------------------------------------ arguments */

/* The arguments of a function: its name for messages, their names, and how many must be given. */
struct signature {
    const char *function;
    const char *const *names;
    Py_ssize_t count, required;
};

/* Store the arguments, borrowed, in `out`, with NULL for those that aren't given. Return 0, or -1 with an exception. */
int take(const struct signature *wanted, PyObject *const *args, Py_ssize_t given, PyObject *keywords, PyObject **out);

/* Return the arguments of a call that takes all of them: `args` itself in the usual case, else `out`. NULL: an
 * exception. */
static inline PyObject *const *all_of(const struct signature *wanted, PyObject *const *args, Py_ssize_t given,
                                      PyObject *keywords, PyObject **out) {
    if (given == wanted->count && !keywords)
        return args;
    return take(wanted, args, given, keywords, out) < 0 ? NULL : out;
}

/* Store the UTF-8 of a str in *text and return 1. Return 0 if the object isn't a str or has a surrogate, since no
 * catalogue has such a message, and -1 with an exception if memory runs out. */
static inline int utf8_of(PyObject *object, kob_text *text) {
    Py_ssize_t len;
    text->at = PyUnicode_AsUTF8AndSize(object, &len);
    if (text->at) {
        text->len = (size_t)len;
        return 1;
    }
    if (!PyErr_ExceptionMatches(PyExc_UnicodeEncodeError) && !PyErr_ExceptionMatches(PyExc_TypeError))
        return -1;
    PyErr_Clear();
    return 0;
}

/* A message, and its context or NULL, as exact str objects: what a look-up takes for arguments that are anything else. */
struct key {
    PyObject *context, *msgid;
};

static inline int is_exact(PyObject *context, PyObject *msgid) {
    return PyUnicode_CheckExact(msgid) && (!context || PyUnicode_CheckExact(context));
}

/* Store the key of a message as the standard module has it: with a context both are texts, by their `__str__`; without
 * one the object is the key of a dict, so it finds the str that it is equal to. Return 1, 0 if there is no such str, or
 * -1 with an exception. Whatever it is, drop_key follows. Methods of the objects run meanwhile. */
int key_of(PyObject *context, PyObject *msgid, struct key *key);
void drop_key(struct key *key);

/* Call a method with up to 6 arguments. */
PyObject *call_method(PyObject *object, PyObject *name, PyObject *const *args, int count);

/* Answer ngettext or npgettext for a number that is negative, too large or no int, by Python's rule: call the method
 * with the domain unless it is NULL, the context and the key of the message or None, and the last three arguments. */
PyObject *other_number(PyObject *object, PyObject *name, PyObject *domain, PyObject *context, PyObject *const *last);

/* Store the value of an int from 0 to 2**64 - 1 in *n and return 1. Return 0 if the object is anything else, and -1
 * with an exception. */
static inline int number_of(PyObject *object, unsigned long long *n) {
    *n = PyLong_AsUnsignedLongLong(object);
    if (*n != (unsigned long long)-1 || !PyErr_Occurred())
        return 1;
    if (!PyErr_ExceptionMatches(PyExc_OverflowError) && !PyErr_ExceptionMatches(PyExc_TypeError))
        return -1;
    PyErr_Clear();
    return 0;
}

typedef PyObject *(*fast_function)(PyObject *, PyObject *const *, Py_ssize_t, PyObject *);

#define FAST(function) ((PyCFunction)(void (*)(void))(fast_function)(function))
#define KEYWORDS (METH_FASTCALL | METH_KEYWORDS)

/* ------------------------------------------------------------------------------------------------ the module */

/* The calls that are passed on to a method in Python, and their names: the four of gettext, of which BY_DICT and what
 * follows are those of a catalogue whose texts were put into a dict. */
enum call { GETTEXT, PGETTEXT, NGETTEXT, NPGETTEXT, OTHER_NUMBER, BY_DICT, CALLS = BY_DICT + 4 };

/* How many calls release a fallback, and one that is left to them. */
struct chain {
    int releasing;
    PyObject *left;
};

struct state {
    struct chain *chain;
    PyObject *catalogue; /* the type */
    PyObject *store;     /* the type */
    PyObject *snapshot;  /* the type */
    PyObject *refused;   /* kobdzila.Refused */
    PyObject *names[CALLS];
};

/* What each object of the module's types begins with. */
struct object {
    PyObject_HEAD
    const struct state *state; /* of the module, which the type keeps alive */
};

/* Return the state of the module whose type `type` is or inherits from. NULL: an exception. */
const struct state *state_of(PyTypeObject *type);

/* Return an object that has the state and is zero otherwise, or NULL with an exception. The arguments are for __init__. */
PyObject *new_object(PyTypeObject *type, PyObject *args, PyObject *keywords);

/* Free an object that holds nothing any more. */
void free_object(PyObject *object);

/* Raise what a refusal means, and return NULL. */
PyObject *refuse(const struct state *state, const kob_refusal *why);

/* Return the catalogue that an object of the type holds, or NULL if it is an empty one. */
kob_catalogue *held_in(PyObject *catalogue);

/* Add a type to the module. Return it, a new reference, or NULL with an exception. */
PyObject *add_type(PyObject *module, const char *name, PyType_Spec *spec);

/* Add the types of store.c, snapshot.c and lazy.c to the module. Return 0, or -1 with an exception. */
int add_store_type(PyObject *module, struct state *state);
int add_snapshot_type(PyObject *module, struct state *state);
int add_lazy_type(PyObject *module);

/* Answer one of the eight calls with the arguments that a method in C gets: the domain (IN_DOMAIN), the context
 * (IN_CONTEXT) and the message, or two messages and a number (WITH_NUMBER). */
enum { IN_CONTEXT = 1, WITH_NUMBER = 2, IN_DOMAIN = 4 };
PyObject *snapshot_answer(PyObject *snapshot, const char *name, int call, PyObject *const *args, Py_ssize_t given,
                          PyObject *keywords);

#endif
