/* The arguments of the extension's functions. */
#include "module.h"

/* Return the number of the argument that `keyword` names, or -1. */
static Py_ssize_t index_of(const struct signature *wanted, PyObject *keyword) {
    for (Py_ssize_t k = 0; k < wanted->count; k++)
        if (PyUnicode_CompareWithASCIIString(keyword, wanted->names[k]) == 0)
            return k;
    return -1;
}

/* Store the keyword arguments in `out`. Return 0, or -1 with an exception. */
static int take_keywords(const struct signature *wanted, PyObject *const *values, PyObject *keywords, PyObject **out) {
    Py_ssize_t count = PyTuple_Size(keywords);
    for (Py_ssize_t k = 0; k < count; k++) {
        PyObject *keyword = PyTuple_GetItem(keywords, k);
        Py_ssize_t index = index_of(wanted, keyword);
        if (index < 0) {
            PyErr_Format(PyExc_TypeError, "%s() got an unexpected keyword argument '%U'", wanted->function, keyword);
            return -1;
        }
        if (out[index]) {
            PyErr_Format(PyExc_TypeError, "%s() got multiple values for argument '%U'", wanted->function, keyword);
            return -1;
        }
        out[index] = values[k];
    }
    return 0;
}

int take(const struct signature *wanted, PyObject *const *args, Py_ssize_t given, PyObject *keywords, PyObject **out) {
    if (given > wanted->count) {
        PyErr_Format(PyExc_TypeError, "%s() takes %zd arguments (%zd given)", wanted->function, wanted->count, given);
        return -1;
    }
    for (Py_ssize_t k = 0; k < wanted->count; k++)
        out[k] = k < given ? args[k] : NULL;
    if (keywords && take_keywords(wanted, args + given, keywords, out) < 0)
        return -1;
    for (Py_ssize_t k = 0; k < wanted->required; k++)
        if (!out[k]) {
            PyErr_Format(PyExc_TypeError, "%s() missing argument: '%s'", wanted->function, wanted->names[k]);
            return -1;
        }
    return 0;
}

/* Return the text of an object as an exact str. */
static PyObject *text_of(PyObject *object) {
    PyObject *text = PyObject_Str(object);
    PyObject *exact = text ? PyUnicode_FromObject(text) : NULL;
    Py_XDECREF(text);
    return exact;
}

/* Store the str to which an object is equal as a key of a dict. Return 1, 0 if there is none, or -1 with an exception. */
static int same_text(PyObject *object, PyObject **text) {
    if (PyUnicode_Check(object)) {
        *text = PyUnicode_FromObject(object);
        return *text ? 1 : -1;
    }
    Py_hash_t hash = PyObject_Hash(object);
    if (hash == -1)
        return -1;
    if (PyBytes_Check(object)) /* (which equals no str, and warns of being compared with one) */
        return 0;
    *text = text_of(object);
    if (!*text)
        return -1;
    return PyObject_Hash(*text) == hash ? PyObject_RichCompareBool(*text, object, Py_EQ) : 0;
}

int key_of(PyObject *context, PyObject *msgid, struct key *key) {
    *key = (struct key){ NULL, NULL };
    if (!context)
        return same_text(msgid, &key->msgid);
    key->context = text_of(context);
    key->msgid = key->context ? text_of(msgid) : NULL;
    return key->msgid ? 1 : -1;
}

void drop_key(struct key *key) {
    Py_CLEAR(key->context);
    Py_CLEAR(key->msgid);
}

PyObject *call_method(PyObject *object, PyObject *name, PyObject *const *args, int count) {
    PyObject *all[6] = { NULL };
    for (int k = 0; k < count; k++)
        all[k] = args[k];
    return PyObject_CallMethodObjArgs(object, name, all[0], all[1], all[2], all[3], all[4], all[5], NULL);
}

PyObject *other_number(PyObject *object, PyObject *name, PyObject *domain, PyObject *context, PyObject *const *last) {
    struct key key;
    PyObject *answer = NULL;
    int is_key = key_of(context, last[0], &key);
    if (is_key >= 0) {
        PyObject *const args[] = { domain, key.context ? key.context : Py_None, is_key ? key.msgid : Py_None,
                                   last[0], last[1], last[2] };
        answer = call_method(object, name, domain ? args : args + 1, domain ? 6 : 5);
    }
    drop_key(&key);
    return answer;
}
