/* The extension module of the Python package, by calls that the input chooses (python_calls.py), in an interpreter that
 * is a part of this program. The calls are the same for the same bytes. */
#define PY_SSIZE_T_CLEAN
#include <Python.h>

#include "target.h"

#ifndef FOLDER_OF_CALLS
#error FOLDER_OF_CALLS must be the folder of python_calls.py, and FOLDER_OF_PACKAGE that of the package kobdzila
#endif

PyMODINIT_FUNC PyInit__kobdzila(void);

static PyObject *run;

/* End the run as a finding, with Python's traceback. */
static void stop(void) {
    PyErr_Print();
    abort();
}

static void begin(void) {
    PyConfig config;
    PyConfig_InitIsolatedConfig(&config);
    config.write_bytecode = 0;
    config.install_signal_handlers = 0;
    /* so that the sanitizer knows each block */
    putenv((char[]){ "PYTHONMALLOC=malloc" });
    config.use_environment = 1;
    REQUIRE(PyImport_AppendInittab("kobdzila._kobdzila", PyInit__kobdzila) == 0);
    REQUIRE(!PyStatus_Exception(Py_InitializeFromConfig(&config)));
    PyConfig_Clear(&config);
    PyObject *path = PySys_GetObject("path");
    for (int place = 0; place < 2; place++) {
        PyObject *folder = PyUnicode_FromString(place ? FOLDER_OF_PACKAGE : FOLDER_OF_CALLS);
        REQUIRE(path && folder && PyList_Insert(path, 0, folder) == 0);
        Py_DECREF(folder);
    }
    PyObject *calls = PyImport_ImportModule("python_calls");
    if (!calls || !(run = PyObject_GetAttrString(calls, "run")))
        stop();
}

int LLVMFuzzerTestOneInput(const uint8_t *data, size_t size) {
    if (!run)
        begin();
    PyObject *done = PyObject_CallFunction(run, "y#", (const char *)data, (Py_ssize_t)size);
    if (!done)
        stop();
    Py_DECREF(done);
    return 0;
}
