/* What the files of the module hunkravy._native share. It is written for the stable interface of Python 3.11. */
#ifndef NATIVE_H
#define NATIVE_H

#define PY_SSIZE_T_CLEAN
#define Py_LIMITED_API 0x030B0000
#include <Python.h>

#include <stdbool.h>
#include <stdlib.h>
#include <string.h>

#include "hunkravy.h"

/* Slots of types have functions as `void *`, which POSIX converts to and ISO C does not. */
#define SLOT(function) (__extension__(void *)(function))

/* The bit of Py_TPFLAGS_IMMUTABLETYPE keeps Python code from changing the types. */
enum { TYPE_FLAGS = Py_TPFLAGS_DEFAULT | 1 << 8 };

/* The first fields of each object: its lock, and how many forks there had been when its process had the lock. */
#define LOCKED \
    PyObject_HEAD PyThread_type_lock lock; \
    unsigned long forks

typedef struct {
    LOCKED;
} Locked;

/* How many forks are between this process and the one that has imported the module. */
extern unsigned long forks;

/* Makes an object, whose fields after these are zeros. */
static inline void *new_object(PyTypeObject *type)
{
    Locked *object = (Locked *)PyType_GenericAlloc(type, 0);
    if (object != NULL && (object->lock = PyThread_allocate_lock()) == NULL) {
        Py_CLEAR(object);
        PyErr_NoMemory();
    } else if (object != NULL) {
        object->forks = forks;
    }
    return object;
}

/*
 * Whether this process can have the lock of an object. If a thread had it when the process was forked, it has it for ever, and
 * what it was doing is half done. Then sets an exception.
 */
static inline bool is_usable(void *object)
{
    Locked *self = object;
    if (self->forks != forks) {
        if (!PyThread_acquire_lock(self->lock, NOWAIT_LOCK)) {
            PyErr_SetString(PyExc_RuntimeError, "a thread was using this object when the process was forked");
            return false;
        }
        self->forks = forks;
        PyThread_release_lock(self->lock);
    }
    return true;
}

/* Work on fewer bytes takes less time than releasing the interpreter's lock may cost. */
#define RELEASE_FROM 4096

/* Returns whether a length is right. If it is not, sets an exception. */
static inline bool has_length(const char *name, Py_ssize_t found, size_t length)
{
    if ((size_t)found != length) {
        PyErr_Format(PyExc_ValueError, "%s must have %zu bytes, not %zd", name, length, found);
    }
    return (size_t)found == length;
}

/* Copies bytes, of which there may be none, at a null pointer. The places may overlap. */
static inline void copy(uint8_t *to, const void *from, size_t length)
{
    if (length != 0) {
        memmove(to, from, length);
    }
}

/* Releases the interpreter's lock if work on so many bytes is long enough. Returns what `end_work` needs. */
static inline PyThreadState *begin_work(size_t length)
{
    return length < RELEASE_FROM ? NULL : PyEval_SaveThread();
}

static inline void end_work(PyThreadState *released)
{
    if (released != NULL) {
        PyEval_RestoreThread(released);
    }
}

/*
 * Takes the lock of an object, and begins work. If it has to wait, the interpreter's lock is released in any case. A thread
 * that has an object's lock never waits for the interpreter's: once the interpreter ends, it would have both forever.
 */
static inline PyThreadState *lock(void *object, size_t length)
{
    PyThread_type_lock own = ((Locked *)object)->lock;
    if (PyThread_acquire_lock(own, NOWAIT_LOCK)) {
        return begin_work(length);
    }
    PyThreadState *released = PyEval_SaveThread();
    PyThread_acquire_lock(own, WAIT_LOCK);
    return released;
}

static inline void unlock(void *object, PyThreadState *released)
{
    PyThread_release_lock(((Locked *)object)->lock);
    end_work(released);
}

/* Overwrites and frees an object of so many bytes. */
static inline void free_object(PyObject *object, size_t length)
{
    PyTypeObject *type = Py_TYPE(object);
    if (((Locked *)object)->lock != NULL) {
        PyThread_free_lock(((Locked *)object)->lock);
    }
    hunkravy_wipe((uint8_t *)object + sizeof(PyObject), length - sizeof(PyObject));
    PyObject_Free(object);
    Py_DECREF(type);
}

/* Makes bytes, which are written at `*out`. */
static inline PyObject *new_bytes(size_t length, uint8_t **out)
{
    PyObject *bytes = PyBytes_FromStringAndSize(NULL, (Py_ssize_t)length);
    *out = bytes == NULL ? NULL : (uint8_t *)PyBytes_AsString(bytes);
    return bytes;
}

/* Converts an integer from 0 to 2^64 - 1, for a format with "O&". Raises an error for any other, and cuts off no bits. */
static inline int natural(PyObject *given, void *result)
{
    int is_too_large = 0;
    PyObject *number = PyNumber_Index(given);
    *(uint64_t *)result = 0;
    if (number != NULL && PyLong_AsLongLongAndOverflow(number, &is_too_large) < 0 && is_too_large <= 0 &&
        !PyErr_Occurred()) {
        PyErr_Format(PyExc_ValueError, "must not be negative: %R", number);
    } else if (number != NULL && !PyErr_Occurred()) {
        *(uint64_t *)result = PyLong_AsUnsignedLongLong(number);
    }
    Py_XDECREF(number);
    return PyErr_Occurred() == NULL;
}

/* What the module has of its own, whatever its names are bound to. */
typedef struct {
    PyObject *invalid_tag;
    PyTypeObject *state, *file;
} Module;

/* The types of random_access.c. */
extern PyType_Spec file_spec, batch_spec;

#endif
