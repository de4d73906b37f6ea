/*
 * The types RandomAccessFile and Batch of the module hunkravy._native: the files of hunkravy_file.h with the buffers, the
 * exceptions and the threads of Python.
 *
 * As in sqlite3 only the thread that has opened a file may use it, unless `check_same_thread` is false. Each call has the
 * lock of its file, and releases the interpreter's lock while it reads, writes or commits. Python calls the handlers of
 * signals between two of its own instructions, so an exception of one leaves no call here half done.
 */
#include "native.h"

#include <errno.h>

#include "hunkravy_file.h"

typedef struct {
    LOCKED;
    hunkravy_file *file;
    /* The thread that may use it, or 0 for all. */
    unsigned long thread;
    /* How many blocks of batches are being run. A batch may be undone before its block ends. */
    uint64_t blocks;
    /* Whether the block of a batch was dropped, since no batch was open. */
    bool has_dropped;
} File;

/* ---- Exceptions */

static const struct {
    int code;
    const char *cause;
} CAUSES[] = {
    {HUNKRAVY_NO_FILE, "header"},
    {HUNKRAVY_WRONG_JOURNAL, "journal"},
    {HUNKRAVY_DAMAGED_PAGE, "damaged"},
    {HUNKRAVY_FILE_TOO_LONG, "too_long"},
    {HUNKRAVY_FILE_LOCKED, "locked"},
    {HUNKRAVY_FILE_MOVED, "moved"},
    {HUNKRAVY_FILE_BROKEN, "broken"},
};

/* Raises RandomAccessError with the cause of a code, if it has one, and the number of a page that is damaged. */
static bool raise_cause(int code, uint64_t page)
{
    size_t i = 0;
    while (i < sizeof CAUSES / sizeof CAUSES[0] && CAUSES[i].code != code) {
        i++;
    }
    if (i == sizeof CAUSES / sizeof CAUSES[0]) {
        return false;
    }
    PyObject *module = PyImport_ImportModule("hunkravy._random_access");
    PyObject *type = module == NULL ? NULL : PyObject_GetAttrString(module, "RandomAccessError");
    PyObject *error = type == NULL      ? NULL
        : code == HUNKRAVY_DAMAGED_PAGE ? PyObject_CallFunction(type, "sK", CAUSES[i].cause, page)
                                        : PyObject_CallFunction(type, "s", CAUSES[i].cause);
    if (error != NULL) {
        PyErr_SetObject(type, error);
    }
    Py_XDECREF(error);
    Py_XDECREF(type);
    Py_XDECREF(module);
    return true;
}

/* Returns the result if the code is HUNKRAVY_OK. Otherwise drops it, and returns null with the code's exception. */
static PyObject *result_of(int code, uint64_t page, PyObject *path, PyObject *result)
{
    if (code == HUNKRAVY_OK) {
        return result;
    }
    Py_XDECREF(result);
    if (raise_cause(code, page)) {
        return NULL;
    }
    if (code == ENOMEM) {
        return PyErr_NoMemory();
    }
    if (code > 0) {
        PyObject *name = path == NULL ? NULL : PyUnicode_DecodeFSDefault(PyBytes_AsString(path));
        errno = code;
        PyErr_SetFromErrnoWithFilenameObject(PyExc_OSError, name);
        Py_XDECREF(name);
        return NULL;
    }
    PyObject *type = code == HUNKRAVY_OPEN_BATCH || code == HUNKRAVY_WRONG_STATE ? PyExc_RuntimeError
        : code == HUNKRAVY_WRONG_VARIANT                                         ? PyExc_TypeError
                                                                                 : PyExc_ValueError;
    PyErr_SetString(type,
        code == HUNKRAVY_WRONG_STATE         ? "this batch has not begun, or has ended"
            : code == HUNKRAVY_WRONG_VARIANT ? "use one of the six variants, such as Aegis256"
                                             : hunkravy_error_text(code));
    return NULL;
}

/* ---- Turns */

/* Waits, without the interpreter's lock, until no thread has the lock of a file. */
static void wait_for_turn(File *self)
{
    PyThreadState *released = PyEval_SaveThread();
    PyThread_acquire_lock(self->lock, WAIT_LOCK);
    PyThread_release_lock(self->lock);
    PyEval_RestoreThread(released);
}

/*
 * Takes the lock of a file that this thread may use. A thread that has it never waits for the interpreter's lock. After a
 * fork another thread may have it for ever, so it is not taken. Returns whether there is no exception.
 */
static bool begin(File *self)
{
    if (self->file != NULL && hunkravy_file_check(self->file) == HUNKRAVY_FILE_LOCKED) {
        return !raise_cause(HUNKRAVY_FILE_LOCKED, 0);
    }
    if (self->thread != 0 && self->thread != PyThread_get_thread_ident()) {
        PyErr_SetString(PyExc_RuntimeError,
            "the file was opened in another thread: open it with check_same_thread=False, and let threads take turns");
        return false;
    }
    while (self->file != NULL && !PyThread_acquire_lock(self->lock, NOWAIT_LOCK)) {
        wait_for_turn(self);
    }
    if (self->file == NULL) {
        PyErr_SetString(PyExc_ValueError, "I/O operation on closed file");
    }
    return self->file != NULL;
}

/* Whether the block of a batch was dropped, so that nothing will be committed, until all batches are discarded or undone. */
static bool has_dropped(File *self)
{
    self->has_dropped = self->has_dropped && hunkravy_file_open_batches(self->file) != 0;
    return self->has_dropped;
}

static PyObject *raise_dropped(void)
{
    PyErr_SetString(PyExc_RuntimeError, "a batch was dropped and has not ended: discard the changes");
    return NULL;
}

/*
 * The same for a change. In a block whose batch was undone it would be in no batch, and after a batch whose block was
 * dropped no later one would commit, so there it fails.
 */
static bool begin_change(File *self)
{
    if (!begin(self)) {
        return false;
    }
    bool is_dropped = has_dropped(self), has_ended = self->blocks > hunkravy_file_open_batches(self->file);
    if (!is_dropped && !has_ended) {
        return true;
    }
    PyThread_release_lock(self->lock);
    if (is_dropped) {
        (void)raise_dropped();
    } else {
        PyErr_SetString(PyExc_RuntimeError, "the batch of this block has ended: it was undone or discarded");
    }
    return false;
}

/*
 * Makes a call of the library on the file `called` without the interpreter's lock, and releases that of the file before
 * taking it again.
 */
#define CALL(self, code, page, call) \
    do { \
        hunkravy_file *called = (self)->file; \
        PyThreadState *released = PyEval_SaveThread(); \
        (code) = (call); \
        (page) = hunkravy_file_damaged_page(called); \
        PyThread_release_lock((self)->lock); \
        PyEval_RestoreThread(released); \
    } while (0)

/* The method NAME without arguments. */
#define METHOD(NAME, BEGIN, CALLED) \
    static PyObject *NAME(PyObject *object, PyObject *none) \
    { \
        File *self = (File *)object; \
        int code; \
        uint64_t page; \
        (void)none; \
        if (!BEGIN(self)) { \
            return NULL; \
        } \
        CALL(self, code, page, CALLED); \
        return result_of(code, page, NULL, Py_NewRef(Py_None)); \
    }

METHOD(file_commit, begin_change, hunkravy_file_commit(called))
METHOD(file_discard, begin, (hunkravy_file_discard(called), HUNKRAVY_OK))

/* ---- Opening and closing */

/* Returns the number of a variant, or one that no variant has, with an exception or without. */
static uint32_t variant_of(PyObject *cipher)
{
    uint64_t number = UINT32_MAX;
    PyObject *found = PyObject_GetAttrString(cipher, "_VARIANT");
    if (found == NULL && PyErr_ExceptionMatches(PyExc_AttributeError)) {
        PyErr_Clear();
    } else if (found != NULL && natural(found, &number) && number > UINT32_MAX) {
        number = UINT32_MAX;
    }
    Py_XDECREF(found);
    return (uint32_t)number;
}

/*
 * Opens the file at a path in an object whose lock this thread has, or creates one if there is a page size, and releases the
 * lock: whatever waits for the interpreter's lock, or raises an error, could run code that waits for this one.
 */
static int open_at(
    File *self, PyObject *path, uint32_t variant, const Py_buffer *key, const uint32_t *page_size, bool checks)
{
    hunkravy_file *file;
    const char *name = PyBytes_AsString(path);
    unsigned long thread = checks ? PyThread_get_thread_ident() : 0;
    PyThreadState *released = PyEval_SaveThread();
    int code = page_size != NULL ? hunkravy_file_create(&file, name, variant, key->buf, (size_t)key->len, *page_size)
                                 : hunkravy_file_open(&file, name, variant, key->buf, (size_t)key->len);
    if (code == HUNKRAVY_OK) {
        self->thread = thread;
        __atomic_store_n(&self->file, file, __ATOMIC_RELEASE);
    }
    PyThread_release_lock(self->lock);
    PyEval_RestoreThread(released);
    return code;
}

/* Opens a file in an object, or creates one. */
static int open_in(File *self, PyObject *given, PyObject *named, bool is_new)
{
    static char *of_create[] = {"path", "key", "cipher", "check_same_thread", "page_size", NULL};
    static char *of_open[] = {"path", "key", "cipher", "check_same_thread", NULL};
    PyObject *cipher = NULL, *path = NULL, *size = Py_None;
    Py_buffer key = {.obj = NULL};
    uint32_t variant = HUNKRAVY_AEGIS256;
    uint64_t page_size = 0;
    int checks = 1;
    if (!PyArg_ParseTupleAndKeywords(given, named, is_new ? "O&y*|$OpO:create" : "O&y*|$Op:RandomAccessFile",
            is_new ? of_create : of_open, PyUnicode_FSConverter, &path, &key, &cipher, &checks, &size)) {
        return -1;
    }
    if (cipher != NULL) {
        variant = variant_of(cipher);
    }
    if (!PyErr_Occurred() && size != Py_None && natural(size, &page_size) &&
        (page_size == 0 || page_size > UINT32_MAX)) {
        /* 0 is the default for None alone, and no larger number is a page size either. */
        page_size = 1;
    }
    /* No code of the caller runs from here on, such as an attribute's: it could wait for this lock. */
    bool is_free = !PyErr_Occurred() && self->file == NULL && PyThread_acquire_lock(self->lock, NOWAIT_LOCK);
    if (is_free) {
        const uint32_t size_of_new = (uint32_t)page_size;
        (void)result_of(open_at(self, path, variant, &key, is_new ? &size_of_new : NULL, checks), 0, path, NULL);
    } else if (!PyErr_Occurred()) {
        PyErr_SetString(PyExc_RuntimeError, "the file is open already, or a thread was using this object at a fork");
    }
    PyBuffer_Release(&key);
    Py_DECREF(path);
    return PyErr_Occurred() == NULL ? 0 : -1;
}

static PyObject *file_new(PyTypeObject *type, PyObject *given, PyObject *named)
{
    (void)given;
    (void)named;
    return new_object(type);
}

static int file_init(PyObject *object, PyObject *given, PyObject *named)
{
    return open_in((File *)object, given, named, false);
}

static PyObject *file_create(PyObject *type, PyObject *given, PyObject *named)
{
    PyObject *object = new_object((PyTypeObject *)type);
    if (object != NULL && open_in((File *)object, given, named, true) < 0) {
        Py_CLEAR(object);
    }
    return object;
}

/*
 * Closes the file, after a commit if `commits`, or after its changes are discarded if `discards`. In a forked process nobody
 * can wait for the lock of a file: a thread of the other process may have it for ever, and what that was doing is half done
 * here. Then the memory is left as it is.
 */
static PyObject *close_file(File *self, bool commits, bool discards)
{
    bool is_here = self->file != NULL && hunkravy_file_check(self->file) != HUNKRAVY_FILE_LOCKED;
    if (is_here && !begin(self) && self->file != NULL) {
        return NULL;
    }
    if (self->file == NULL) {
        PyErr_Clear();
        /* Another thread may be closing it. */
        if (is_usable(self)) {
            wait_for_turn(self);
        }
        PyErr_Clear();
        Py_RETURN_NONE;
    }
    if (!is_here && !PyThread_acquire_lock(self->lock, NOWAIT_LOCK)) {
        self->file = NULL;
        Py_RETURN_NONE;
    }
    /* What other threads find is not freed. */
    hunkravy_file *file = self->file;
    self->file = NULL;
    PyThreadState *released = PyEval_SaveThread();
    if (discards) {
        hunkravy_file_discard(file);
    }
    int code = is_here && commits ? hunkravy_file_commit(file) : HUNKRAVY_OK;
    uint64_t page = hunkravy_file_damaged_page(file);
    int closed = hunkravy_file_close(file);
    PyThread_release_lock(self->lock);
    PyEval_RestoreThread(released);
    return result_of(code == HUNKRAVY_OK ? closed : code, page, NULL, Py_NewRef(Py_None));
}

static PyObject *file_close(PyObject *object, PyObject *none)
{
    (void)none;
    return close_file((File *)object, false, false);
}

/* A file that is dropped without `close` loses its changes. One that a thread of another process was using is left. */
static void file_free(PyObject *object)
{
    File *self = (File *)object;
    PyTypeObject *type = Py_TYPE(object);
    if (self->lock != NULL && PyThread_acquire_lock(self->lock, NOWAIT_LOCK)) {
        if (self->file != NULL) {
            hunkravy_file_discard(self->file);
            (void)!hunkravy_file_close(self->file);
        }
        PyThread_release_lock(self->lock);
        PyThread_free_lock(self->lock);
    }
    freefunc release = __extension__(freefunc) PyType_GetSlot(type, Py_tp_free);
    release(object);
    Py_DECREF(type);
}

static PyObject *file_enter(PyObject *object, PyObject *none)
{
    (void)none;
    if (!begin((File *)object)) {
        return NULL;
    }
    int code = hunkravy_file_check(((File *)object)->file);
    PyThread_release_lock(((File *)object)->lock);
    return result_of(code, 0, NULL, Py_NewRef(object));
}

/* Whether a block has ended with an exception: the first of the arguments of `__exit__`. Less than 0 is an error. */
static int has_failed(PyObject *given)
{
    PyObject *kind, *error, *traceback;
    return !PyArg_ParseTuple(given, "OOO", &kind, &error, &traceback) ? -1 : kind != Py_None;
}

/*
 * Whether the exception of a block goes on, and that of its end is dropped: in a process that did not open the file. There
 * the code that would catch the other one is that of the process that did.
 */
static bool goes_on(const File *self, int failed)
{
    bool is_forked = failed > 0 && self->file != NULL && hunkravy_file_check(self->file) == HUNKRAVY_FILE_LOCKED;
    if (is_forked) {
        PyErr_Clear();
    }
    return is_forked;
}

static PyObject *file_exit(PyObject *object, PyObject *given)
{
    int failed = has_failed(given);
    PyObject *result = failed < 0 ? NULL : close_file((File *)object, !failed, failed);
    if (result == NULL && failed > 0 && ((File *)object)->file == NULL) {
        /* The exception of the block goes on: that the file is broken is not news. Another thread has not closed it. */
        PyErr_Clear();
        Py_RETURN_NONE;
    }
    return result;
}

/* ---- The contents */

static PyObject *file_read_at(PyObject *object, PyObject *given)
{
    File *self = (File *)object;
    uint64_t offset, length, size, page = 0;
    size_t found;
    uint8_t *out;
    int code;
    if (!PyArg_ParseTuple(given, "O&O&", natural, &offset, natural, &length) || !begin(self)) {
        return NULL;
    }
    size = hunkravy_file_size(self->file);
    length = offset >= size ? 0 : length < size - offset ? length : size - offset;
    PyObject *result = new_bytes((size_t)length, &out);
    if (result == NULL) {
        PyThread_release_lock(self->lock);
        return NULL;
    }
    CALL(self, code, page, hunkravy_file_read(called, offset, out, (size_t)length, &found));
    return result_of(code, page, NULL, result);
}

/* Fills a buffer from a place on, and returns how many bytes there are. */
static PyObject *file_read_into(PyObject *object, PyObject *given)
{
    File *self = (File *)object;
    Py_buffer buffer;
    uint64_t offset, page;
    size_t found = 0;
    int code;
    if (!PyArg_ParseTuple(given, "O&w*", natural, &offset, &buffer)) {
        return NULL;
    }
    if (begin(self)) {
        CALL(self, code, page, hunkravy_file_read(called, offset, buffer.buf, (size_t)buffer.len, &found));
        (void)result_of(code, page, NULL, NULL);
    }
    PyBuffer_Release(&buffer);
    return PyErr_Occurred() == NULL ? PyLong_FromSize_t(found) : NULL;
}

static PyObject *file_write_at(PyObject *object, PyObject *given)
{
    File *self = (File *)object;
    Py_buffer data;
    uint64_t offset, page;
    int code;
    if (!PyArg_ParseTuple(given, "O&y*", natural, &offset, &data)) {
        return NULL;
    }
    /* Made first, so that no change is made whose result cannot be. */
    PyObject *result = PyLong_FromSsize_t(data.len);
    if (result == NULL || !begin_change(self)) {
        Py_CLEAR(result);
    } else {
        CALL(self, code, page, hunkravy_file_write(called, offset, data.buf, (size_t)data.len));
        result = result_of(code, page, NULL, result);
    }
    PyBuffer_Release(&data);
    return result;
}

static PyObject *file_truncate(PyObject *object, PyObject *given)
{
    File *self = (File *)object;
    uint64_t size, page;
    int code;
    PyObject *result = natural(given, &size) ? PyLong_FromUnsignedLongLong(size) : NULL;
    if (result == NULL || !begin_change(self)) {
        Py_XDECREF(result);
        return NULL;
    }
    CALL(self, code, page, hunkravy_file_truncate(called, size));
    return result_of(code, page, NULL, result);
}

static PyObject *file_size(PyObject *object, void *closure)
{
    File *self = (File *)object;
    (void)closure;
    if (!begin(self)) {
        return NULL;
    }
    int code = hunkravy_file_check(self->file);
    uint64_t size = hunkravy_file_size(self->file);
    PyThread_release_lock(self->lock);
    return result_of(code, 0, NULL, PyLong_FromUnsignedLongLong(size));
}

static PyObject *file_closed(PyObject *object, void *closure)
{
    (void)closure;
    return PyBool_FromLong(((File *)object)->file == NULL);
}

static PyObject *file_is_in_batch(PyObject *object, void *closure)
{
    File *self = (File *)object;
    (void)closure;
    if (!begin(self)) {
        return NULL;
    }
    bool is_in_block =
        !has_dropped(self) && self->blocks != 0 && self->blocks == hunkravy_file_open_batches(self->file);
    PyThread_release_lock(self->lock);
    return PyBool_FromLong(is_in_block);
}

/* ---- Batches */

/* A batch of a file, and its number while it is open. */
typedef struct {
    PyObject_HEAD PyObject *file;
    uint64_t number;
} Batch;

static PyObject *batch_new(PyTypeObject *type, PyObject *given, PyObject *named)
{
    const Module *module = PyType_GetModuleState(type);
    PyObject *file;
    (void)named;
    if (!PyArg_ParseTuple(given, "O", &file)) {
        return NULL;
    }
    /* An object may say that it has another type than it has, as a proxy does. */
    if (!PyObject_TypeCheck(file, module->file)) {
        return PyErr_SetString(PyExc_TypeError, "a batch is one of a RandomAccessFile"), NULL;
    }
    Batch *self = (Batch *)PyType_GenericAlloc(type, 0);
    if (self != NULL) {
        self->file = Py_NewRef(file);
    }
    return (PyObject *)self;
}

static PyObject *batch_enter(PyObject *object, PyObject *none)
{
    Batch *self = (Batch *)object;
    File *file = (File *)self->file;
    (void)none;
    if (self->number != 0) {
        return PyErr_SetString(PyExc_RuntimeError, "this batch has begun"), NULL;
    }
    if (!begin_change(file)) {
        return NULL;
    }
    if (self->number != 0) {
        /* Another thread has begun it meanwhile. */
        PyThread_release_lock(file->lock);
        return PyErr_SetString(PyExc_RuntimeError, "this batch has begun"), NULL;
    }
    int code = hunkravy_file_begin(file->file, &self->number);
    file->blocks += code == HUNKRAVY_OK;
    PyThread_release_lock(file->lock);
    return result_of(code, 0, NULL, Py_NewRef(self->file));
}

/* The block of a batch is over, or will never be. */
static void leave_block(Batch *self)
{
    if (self->number != 0) {
        self->number = 0;
        ((File *)self->file)->blocks--;
    }
}

/* Commits after the outermost block, unless that raised an exception. Undoes a batch that none will commit. */
static PyObject *batch_exit(PyObject *object, PyObject *given)
{
    Batch *self = (Batch *)object;
    File *file = (File *)self->file;
    uint64_t number, page;
    int failed = has_failed(given), code;
    if (failed > 0 && file->file == NULL) {
        leave_block(self);
        Py_RETURN_NONE;
    }
    bool has_begun = failed >= 0 && begin(file);
    if (!has_begun && !goes_on(file, failed)) {
        return NULL;
    }
    /* Another thread may have ended it meanwhile, and begun it again. */
    number = self->number;
    leave_block(self);
    if (!has_begun) {
        Py_RETURN_NONE;
    }
    bool is_lost = !failed && has_dropped(file);
    CALL(file, code, page,
        failed || is_lost ? (hunkravy_file_undo(called, number), HUNKRAVY_OK) : hunkravy_file_end(called, number));
    return is_lost ? raise_dropped() : result_of(code, page, NULL, Py_NewRef(Py_None));
}

static int batch_traverse(PyObject *object, visitproc visit, void *arg)
{
    Py_VISIT(Py_TYPE(object));
    Py_VISIT(((Batch *)object)->file);
    return 0;
}

static void batch_free(PyObject *object)
{
    Batch *self = (Batch *)object;
    File *file = (File *)self->file;
    PyTypeObject *type = Py_TYPE(object);
    PyObject_GC_UnTrack(object);
    file->has_dropped = file->has_dropped || self->number != 0;
    leave_block(self);
    Py_DECREF(file);
    PyObject_GC_Del(object);
    Py_DECREF(type);
}

static PyMethodDef batch_methods[] = {
    {"__enter__", batch_enter, METH_NOARGS, NULL},
    {"__exit__", batch_exit, METH_VARARGS, NULL},
    {NULL, NULL, 0, NULL},
};

/* A cycle with a batch has a subclass of files in it, which the collector clears. A batch without a file would be none. */
static PyType_Slot batch_slots[] = {{Py_tp_new, SLOT(batch_new)}, {Py_tp_dealloc, SLOT(batch_free)},
    {Py_tp_traverse, SLOT(batch_traverse)}, {Py_tp_methods, batch_methods}, {0, NULL}};

PyType_Spec batch_spec = {"hunkravy._native.Batch", sizeof(Batch), 0, TYPE_FLAGS | Py_TPFLAGS_HAVE_GC, batch_slots};

static PyMethodDef file_methods[] = {
    {"create", (PyCFunction)(void (*)(void))file_create, METH_CLASS | METH_VARARGS | METH_KEYWORDS,
        "create($type, path, key, *, cipher=Aegis256, check_same_thread=True, page_size=None)\n--\n\n"
        "Creates an empty file at a path where there is none, and opens it. `page_size` is from 256 to 65,536\n"
        "bytes of contents. A page of the default size fills a block of 4,096 bytes."},
    {"read_at", file_read_at, METH_VARARGS,
        "read_at($self, offset, length, /)\n--\n\n"
        "Returns the bytes of the contents from `offset` on: `length`, or fewer at the end of the contents."},
    {"_read_into", file_read_into, METH_VARARGS, NULL},
    {"write_at", file_write_at, METH_VARARGS,
        "write_at($self, offset, data, /)\n--\n\n"
        "Writes the data over the contents from `offset` on, and returns their length. Zeros fill a gap in\n"
        "front, even if there are no data. After an exception nothing has changed, unless it is one of a\n"
        "commit."},
    {"truncate", file_truncate, METH_O,
        "truncate($self, size, /)\n--\n\n"
        "Truncates the contents to `size` bytes, or extends them with zeros, and returns `size`. The file\n"
        "itself does not become shorter."},
    {"commit", file_commit, METH_NOARGS,
        "commit($self, /)\n--\n\n"
        "Writes all changes, so that after a crash all of them are there, or none. On return they are. After\n"
        "an exception they are still in memory, unless each later call raises \"broken\": then open the file\n"
        "again, which gives the contents before the changes or after them. In a batch it raises\n"
        "`RuntimeError`, and changes nothing."},
    {"discard", file_discard, METH_NOARGS,
        "discard($self, /)\n--\n\n"
        "Discards all changes since the last commit, and ends each batch."},
    {"close", file_close, METH_NOARGS,
        "close($self, /)\n--\n\n"
        "Commits the changes, and closes the file, even after an exception. Commits nothing in a process that\n"
        "did not open the file; in a batch, with a `RuntimeError`; and after a change or a commit that has\n"
        "failed, whose exception it raises once more. In a thread that may not use the file it raises\n"
        "`RuntimeError`, and closes nothing."},
    {"__enter__", file_enter, METH_NOARGS, NULL},
    {"__exit__", file_exit, METH_VARARGS, NULL},
    {NULL, NULL, 0, NULL},
};

static PyGetSetDef file_fields[] = {
    {"size", file_size, NULL, "The length of the contents in bytes.", NULL},
    {"closed", file_closed, NULL, "Whether the file is closed.", NULL},
    {"_is_in_batch", file_is_in_batch, NULL, NULL, NULL},
    {NULL, NULL, NULL, NULL, NULL},
};

static PyType_Slot file_slots[] = {{Py_tp_new, SLOT(file_new)}, {Py_tp_init, SLOT(file_init)},
    {Py_tp_dealloc, SLOT(file_free)}, {Py_tp_methods, file_methods}, {Py_tp_getset, file_fields}, {0, NULL}};

PyType_Spec file_spec = {
    "hunkravy._native.RandomAccessFile", sizeof(File), 0, TYPE_FLAGS | Py_TPFLAGS_BASETYPE, file_slots};
