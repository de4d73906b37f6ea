/*
 * The module hunkravy._native: the C library with the buffers, the exceptions and the threads of Python. The package's
 * Python files give its functions names, defaults and types.
 *
 * It is written for the stable interface of Python 3.11, so one extension file serves that version and all later ones.
 * Each function is called with the interpreter's lock, and releases it while the library works on much. An object that
 * changes has a lock of its own, which is held meanwhile. Buffers keep their place and length until a function returns.
 */
#include "native.h"

#include <pthread.h>

#include "hunkravy_records.h"

/* The longest keys and nonces, and the longest tags. */
#define MOST_KEY_BYTES HUNKRAVY_AEGIS256_KEY_BYTES
#define MOST_TAG_BYTES HUNKRAVY_LONG_TAG_BYTES

/* ---- What the types share */

/* Returns the result if the code is HUNKRAVY_OK. Otherwise drops it, and returns null with the code's exception. */
static void *result_of(void *object, int code, void *result)
{
    if (code == HUNKRAVY_OK) {
        return result;
    }
    Py_XDECREF(result);
    if (code == HUNKRAVY_WRONG_STATE) {
        return PyErr_SetString(PyExc_RuntimeError, "this message has already ended"), NULL;
    }
    const Module *module = PyType_GetModuleState(Py_TYPE(object));
    PyErr_SetString(code == HUNKRAVY_INVALID_TAG ? module->invalid_tag : PyExc_ValueError, hunkravy_error_text(code));
    return NULL;
}

/*
 * Returns where to read data that are processed at `to`: `bytes` where they are, and any others at `to`, where they are
 * copied with the interpreter's lock, so that no thread of Python can change them meanwhile.
 */
static const uint8_t *source(const Py_buffer *data, uint8_t *to, size_t length)
{
    if (PyBytes_CheckExact(data->obj)) {
        return data->buf;
    }
    copy(to, data->buf, length);
    return to;
}

/* ---- A message in chunks, or a MAC. The library knows which, and returns an error for the functions of another. */

/* A chunk that was decrypted, which is secret until the tag is verified. */
typedef struct Chunk {
    struct Chunk *previous;
    size_t length;
    uint8_t bytes[];
} Chunk;

typedef struct {
    LOCKED;
    size_t tag_bytes;
    bool is_mac;
    hunkravy_state state;
    /* The last chunk of a message that is decrypted, and the length of all of them. */
    Chunk *last;
    size_t length;
} State;

static void free_chunk(Chunk *chunk)
{
    hunkravy_wipe(chunk, sizeof *chunk + chunk->length);
    free(chunk);
}

static void free_chunks(State *self)
{
    while (self->last != NULL) {
        Chunk *chunk = self->last;
        self->last = chunk->previous;
        free_chunk(chunk);
    }
    self->length = 0;
}

static void state_free(PyObject *object)
{
    free_chunks((State *)object);
    free_object(object, sizeof(State));
}

/* Returns the ciphertext of the next chunk. */
static PyObject *encrypt_chunk(State *self, const Py_buffer *data)
{
    uint8_t *out;
    size_t length = (size_t)data->len;
    PyObject *result = new_bytes(length, &out);
    if (result == NULL) {
        return NULL;
    }
    const uint8_t *from = source(data, out, length);
    PyThreadState *released = lock(self, length);
    int code = hunkravy_state_encrypt(&self->state, out, from, length);
    unlock(self, released);
    return result_of(self, code, result);
}

/* Takes in the next chunk of a ciphertext, and keeps what it is decrypted to. */
static PyObject *decrypt_chunk(State *self, const Py_buffer *data)
{
    size_t length = (size_t)data->len;
    Chunk *chunk = length > HUNKRAVY_MAX_BYTES ? NULL : malloc(sizeof(Chunk) + length);
    if (chunk == NULL) {
        return PyErr_NoMemory();
    }
    chunk->length = length;
    const uint8_t *from = source(data, chunk->bytes, length);
    PyThreadState *released = lock(self, length);
    int code = hunkravy_state_decrypt_unverified(&self->state, chunk->bytes, from, length);
    if (code == HUNKRAVY_OK && length != 0) {
        chunk->previous = self->last;
        self->last = chunk;
        self->length += length;
    } else {
        free_chunk(chunk);
    }
    unlock(self, released);
    return result_of(self, code, Py_NewRef(Py_None));
}

/* Verifies the tag of a ciphertext, and copies the message to `out` if it is right. Erases the chunks in both cases. */
static int finish(State *self, const Py_buffer *tag, uint8_t *out)
{
    uint8_t *end = out + self->length;
    int code = hunkravy_state_decrypt_final(&self->state, NULL, 0, tag->buf, self->tag_bytes);
    for (const Chunk *chunk = self->last; code == HUNKRAVY_OK && chunk != NULL; chunk = chunk->previous) {
        end -= chunk->length;
        memcpy(end, chunk->bytes, chunk->length);
    }
    free_chunks(self);
    return code;
}

/* Ends a ciphertext, and returns its message. */
static PyObject *decrypt_final(State *self, const Py_buffer *tag)
{
    uint8_t *out;
    int code = HUNKRAVY_OK;
    PyThreadState *released;
    if (!has_length("the tag", tag->len, self->tag_bytes)) {
        return NULL;
    }
    /* New bytes need the interpreter's lock too. */
    while ((released = lock(self, 0)) != NULL) {
        unlock(self, released);
    }
    PyObject *message = new_bytes(self->length, &out);
    if (message != NULL) {
        released = begin_work(self->length);
        code = finish(self, tag, out);
    }
    unlock(self, released);
    return result_of(self, code, message);
}

/* Takes in the next bytes of the input of a MAC. */
static PyObject *mac_update(State *self, const Py_buffer *data)
{
    PyThreadState *released = lock(self, (size_t)data->len);
    int code = hunkravy_mac_update(&self->state, data->buf, (size_t)data->len);
    unlock(self, released);
    return result_of(self, code, Py_NewRef(Py_None));
}

static PyObject *mac_verify(State *self, const Py_buffer *mac)
{
    if (!has_length("the MAC", mac->len, self->tag_bytes)) {
        return NULL;
    }
    PyThreadState *released = lock(self, 0);
    int code = hunkravy_mac_final_verify(&self->state, mac->buf, self->tag_bytes);
    unlock(self, released);
    return result_of(self, code, Py_NewRef(Py_None));
}

/* The methods that take bytes. */
#define STATE_METHOD(NAME) \
    static PyObject *state_##NAME(PyObject *object, PyObject *argument) \
    { \
        Py_buffer bytes; \
        if (!is_usable(object) || PyObject_GetBuffer(argument, &bytes, PyBUF_SIMPLE) < 0) { \
            return NULL; \
        } \
        PyObject *result = NAME((State *)object, &bytes); \
        PyBuffer_Release(&bytes); \
        return result; \
    }

STATE_METHOD(encrypt_chunk)
STATE_METHOD(decrypt_chunk)
STATE_METHOD(decrypt_final)
STATE_METHOD(mac_update)
STATE_METHOD(mac_verify)

/* Returns the tag of a message that was encrypted, which ends, or the MAC of the input so far. */
static PyObject *state_final(PyObject *object, PyObject *none)
{
    State *self = (State *)object;
    uint8_t *tag;
    PyObject *result = is_usable(self) ? new_bytes(self->tag_bytes, &tag) : NULL;
    (void)none;
    if (result == NULL) {
        return NULL;
    }
    PyThreadState *released = lock(self, 0);
    int code = self->is_mac ? hunkravy_mac_final(&self->state, tag, self->tag_bytes)
                            : hunkravy_state_encrypt_final(&self->state, tag, self->tag_bytes);
    unlock(self, released);
    return result_of(self, code, result);
}

/* Returns a MAC with a copy of the state, and a lock of its own. */
static PyObject *state_mac_copy(PyObject *object, PyObject *none)
{
    State *self = (State *)object;
    State *other = !is_usable(self) ? NULL
        : self->is_mac              ? new_object(Py_TYPE(object))
                                    : result_of(self, HUNKRAVY_WRONG_STATE, NULL);
    (void)none;
    if (other != NULL) {
        PyThreadState *released = lock(self, 0);
        other->tag_bytes = self->tag_bytes;
        other->is_mac = self->is_mac;
        other->state = self->state;
        unlock(self, released);
    }
    return (PyObject *)other;
}

static PyMethodDef state_methods[] = {
    {"encrypt", state_encrypt_chunk, METH_O, NULL},
    {"decrypt", state_decrypt_chunk, METH_O, NULL},
    {"decrypt_final", state_decrypt_final, METH_O, NULL},
    {"mac_update", state_mac_update, METH_O, NULL},
    {"mac_verify", state_mac_verify, METH_O, NULL},
    {"mac_copy", state_mac_copy, METH_NOARGS, NULL},
    {"final", state_final, METH_NOARGS, NULL},
    {NULL, NULL, 0, NULL},
};

/* ---- A cipher with its key: messages in one call, and keystreams */

typedef struct {
    LOCKED;
    unsigned int variant;
    /* The length of the key, and of nonces. */
    size_t key_bytes;
    size_t tag_bytes;
    uint8_t key[MOST_KEY_BYTES];
} Cipher;

/* The arguments of a message in one call. Only a call that writes to a buffer has an output. */
typedef struct {
    Py_buffer nonce;
    Py_buffer data;
    Py_buffer associated;
    Py_buffer output;
} Arguments;

static PyObject *cipher_new(PyTypeObject *type, PyObject *arguments, PyObject *named)
{
    Py_buffer key;
    uint64_t number;
    Py_ssize_t tag_length;
    Cipher *self = NULL;
    (void)named;
    if (!PyArg_ParseTuple(arguments, "O&y*n", natural, &number, &key, &tag_length)) {
        return NULL;
    }
    uint32_t variant = number > UINT32_MAX ? UINT32_MAX : (uint32_t)number;
    if (hunkravy_key_bytes(variant) == 0) {
        PyErr_SetString(PyExc_TypeError, "use one of the six variants, such as Aegis256");
    } else if (tag_length != HUNKRAVY_SHORT_TAG_BYTES && tag_length != HUNKRAVY_LONG_TAG_BYTES) {
        PyErr_Format(PyExc_ValueError, "tag_length must be 16 or 32, not %zd", tag_length);
    } else if (has_length("the key", key.len, hunkravy_key_bytes(variant))) {
        self = new_object(type);
    }
    if (self != NULL) {
        self->variant = variant;
        self->key_bytes = (size_t)key.len;
        self->tag_bytes = (size_t)tag_length;
        copy(self->key, key.buf, self->key_bytes);
    }
    PyBuffer_Release(&key);
    return (PyObject *)self;
}

static void cipher_free(PyObject *object)
{
    free_object(object, sizeof(Cipher));
}

static void release(Arguments *arguments)
{
    PyBuffer_Release(&arguments->nonce);
    PyBuffer_Release(&arguments->data);
    PyBuffer_Release(&arguments->associated);
    PyBuffer_Release(&arguments->output);
}

/* Checks the lengths, and sets `length` to that of the result. */
static bool check(Cipher *self, const Arguments *arguments, bool is_decrypted, size_t *length)
{
    size_t given = (size_t)arguments->data.len;
    int code = is_decrypted && given < self->tag_bytes ? HUNKRAVY_INVALID_TAG
        : given > HUNKRAVY_MAX_BYTES                   ? HUNKRAVY_MESSAGE_TOO_LONG
                                                       : HUNKRAVY_OK;
    if (!has_length("the nonce", arguments->nonce.len, self->key_bytes)) {
        return false;
    }
    *length = is_decrypted ? given - self->tag_bytes : given + self->tag_bytes;
    result_of(self, code, NULL);
    return code == HUNKRAVY_OK;
}

/*
 * Encrypts to `out`, with the tag after the ciphertext, or decrypts the bytes in front of their tag. The nonce and the
 * tag are copied first, with the interpreter's lock.
 */
static int transform(
    const Cipher *self, const Arguments *arguments, const uint8_t *associated, uint8_t *out, bool is_decrypted)
{
    size_t associated_length = (size_t)arguments->associated.len, key_bytes = self->key_bytes;
    size_t length = (size_t)arguments->data.len - (is_decrypted ? self->tag_bytes : 0);
    uint8_t nonce[MOST_KEY_BYTES], tag[MOST_TAG_BYTES];
    copy(nonce, arguments->nonce.buf, key_bytes);
    if (is_decrypted) {
        memcpy(tag, (const uint8_t *)arguments->data.buf + length, self->tag_bytes);
    }
    const uint8_t *from = source(&arguments->data, out, length);
    PyThreadState *released = begin_work(length + associated_length);
    int code = is_decrypted ? hunkravy_decrypt(self->variant, out, from, length, associated, associated_length, nonce,
                                  key_bytes, self->key, key_bytes, tag, self->tag_bytes)
                            : hunkravy_encrypt(self->variant, out, from, length, associated, associated_length, nonce,
                                  key_bytes, self->key, key_bytes, out + length, self->tag_bytes);
    end_work(released);
    return code;
}

/* Transforms to new bytes, and returns them. */
static PyObject *to_new(Cipher *self, const Arguments *arguments, size_t length, bool is_decrypted)
{
    uint8_t *out;
    PyObject *result = new_bytes(length, &out);
    if (result == NULL) {
        return NULL;
    }
    return result_of(self, transform(self, arguments, arguments->associated.buf, out, is_decrypted), result);
}

/* Transforms to the output, and returns its length. The inputs may lie there, so the associated data are copied too. */
static PyObject *to_output(Cipher *self, const Arguments *arguments, size_t length, bool is_decrypted)
{
    size_t associated_length = (size_t)arguments->associated.len;
    if (!has_length("the output buffer", arguments->output.len, length)) {
        return NULL;
    }
    PyObject *result = PyLong_FromSize_t(length);
    uint8_t *associated = result == NULL ? NULL : PyMem_Malloc(associated_length);
    if (associated == NULL) {
        Py_XDECREF(result);
        return PyErr_NoMemory();
    }
    copy(associated, arguments->associated.buf, associated_length);
    int code = transform(self, arguments, associated, arguments->output.buf, is_decrypted);
    PyMem_Free(associated);
    return result_of(self, code, result);
}

/* The arguments are the nonce, the data, the associated data and perhaps the output. */
static PyObject *in_one_call(PyObject *object, PyObject *given, bool is_decrypted)
{
    Cipher *self = (Cipher *)object;
    Arguments arguments = {.output = {.obj = NULL}};
    PyObject *result = NULL;
    size_t length;
    if (!PyArg_ParseTuple(
            given, "y*y*y*|w*", &arguments.nonce, &arguments.data, &arguments.associated, &arguments.output)) {
        return NULL;
    }
    if (check(self, &arguments, is_decrypted, &length)) {
        result = PyTuple_Size(given) == 3 ? to_new(self, &arguments, length, is_decrypted)
                                          : to_output(self, &arguments, length, is_decrypted);
    }
    release(&arguments);
    return result;
}

static PyObject *cipher_encrypt(PyObject *object, PyObject *given)
{
    return in_one_call(object, given, false);
}

static PyObject *cipher_decrypt(PyObject *object, PyObject *given)
{
    return in_one_call(object, given, true);
}

static PyObject *cipher_keystream(PyObject *object, PyObject *given)
{
    const Cipher *self = (Cipher *)object;
    Py_buffer nonce;
    Py_ssize_t length;
    uint8_t *out;
    PyObject *result = NULL;
    if (!PyArg_ParseTuple(given, "y*n", &nonce, &length)) {
        return NULL;
    }
    if (length < 0) {
        PyErr_SetString(PyExc_ValueError, "length must not be negative");
    } else if (has_length("the nonce", nonce.len, self->key_bytes)) {
        result = new_bytes((size_t)length, &out);
    }
    if (result != NULL) {
        PyThreadState *released = begin_work((size_t)length);
        int code =
            hunkravy_stream(self->variant, out, (size_t)length, nonce.buf, self->key_bytes, self->key, self->key_bytes);
        end_work(released);
        result = result_of(object, code, result);
    }
    PyBuffer_Release(&nonce);
    return result;
}

/* Begins a message in chunks. The arguments are the nonce, and the associated data, without which it is a MAC. */
static PyObject *cipher_begin(PyObject *object, PyObject *given)
{
    const Cipher *self = (Cipher *)object;
    Arguments arguments;
    State *state = NULL;
    memset(&arguments, 0, sizeof arguments);
    if (PyArg_ParseTuple(given, "y*|y*", &arguments.nonce, &arguments.associated) &&
        has_length("the nonce", arguments.nonce.len, self->key_bytes)) {
        state = new_object(((Module *)PyType_GetModuleState(Py_TYPE(object)))->state);
    }
    if (state != NULL) {
        const uint8_t *nonce = arguments.nonce.buf, *associated = arguments.associated.buf, *key = self->key;
        size_t length = (size_t)arguments.associated.len, key_bytes = self->key_bytes;
        state->tag_bytes = self->tag_bytes;
        state->is_mac = PyTuple_Size(given) == 1;
        PyThreadState *released = begin_work(length);
        int code = state->is_mac
            ? hunkravy_mac_init(self->variant, &state->state, nonce, key_bytes, key, key_bytes)
            : hunkravy_state_init(self->variant, &state->state, associated, length, nonce, key_bytes, key, key_bytes);
        end_work(released);
        state = result_of(object, code, state);
    }
    release(&arguments);
    return (PyObject *)state;
}

static PyMethodDef cipher_methods[] = {
    {"encrypt", cipher_encrypt, METH_VARARGS, NULL},
    {"decrypt", cipher_decrypt, METH_VARARGS, NULL},
    {"keystream", cipher_keystream, METH_VARARGS, NULL},
    {"begin", cipher_begin, METH_VARARGS, NULL},
    {NULL, NULL, 0, NULL},
};

/* ---- A record stream */

typedef struct {
    LOCKED;
    /* The bytes of the context, which the stream points to. */
    PyObject *context;
    uint8_t key[HUNKRAVY_RECORD_KEY_BYTES];
    uint8_t prefix[HUNKRAVY_RECORD_PREFIX_BYTES];
    hunkravy_record_stream stream;
} Records;

static PyObject *records_new(PyTypeObject *type, PyObject *arguments, PyObject *named)
{
    Py_buffer key, prefix;
    PyObject *context;
    Records *self = NULL;
    (void)named;
    if (!PyArg_ParseTuple(arguments, "y*y*S", &key, &prefix, &context)) {
        return NULL;
    }
    if (has_length("the key", key.len, sizeof self->key) && has_length("the prefix", prefix.len, sizeof self->prefix)) {
        self = new_object(type);
    }
    if (self != NULL) {
        self->context = Py_NewRef(context);
        copy(self->key, key.buf, sizeof self->key);
        copy(self->prefix, prefix.buf, sizeof self->prefix);
    }
    PyBuffer_Release(&key);
    PyBuffer_Release(&prefix);
    return (PyObject *)self;
}

static void records_free(PyObject *object)
{
    Py_XDECREF(((Records *)object)->context);
    free_object(object, sizeof(Records));
}

/*
 * Begins to open at a record: the arguments are its number, and how many bytes the messages before it have. Without
 * arguments it begins to seal.
 */
static PyObject *records_begin(PyObject *object, PyObject *given)
{
    Records *self = (Records *)object;
    uint8_t header[HUNKRAVY_RECORD_HEADER_BYTES];
    uint64_t number = 0, before = 0;
    const uint8_t *context = (const uint8_t *)PyBytes_AsString(self->context);
    size_t length = (size_t)PyBytes_Size(self->context);
    if (!is_usable(self) || !PyArg_ParseTuple(given, "|O&O&", natural, &number, natural, &before)) {
        return NULL;
    }
    PyThreadState *released = lock(self, 0);
    int code = PyTuple_Size(given) == 0
        ? hunkravy_record_begin(&self->stream, self->key, self->prefix, context, length, header)
        : hunkravy_record_begin_open_at(&self->stream, self->key, self->prefix, context, length, number, before);
    unlock(self, released);
    return result_of(object, code, Py_NewRef(Py_None));
}

/* Seals a message where it lies in its record. */
static PyObject *records_seal(PyObject *object, PyObject *given)
{
    Records *self = (Records *)object;
    Py_buffer record;
    int is_last, code = HUNKRAVY_WRONG_RECORD_LENGTH;
    if (!is_usable(self) || !PyArg_ParseTuple(given, "w*p", &record, &is_last)) {
        return NULL;
    }
    if (record.len >= HUNKRAVY_RECORD_BYTES) {
        size_t length = (size_t)record.len - HUNKRAVY_RECORD_BYTES;
        PyThreadState *released = lock(self, length);
        code = is_last ? hunkravy_record_seal_last(&self->stream, record.buf, length)
                       : hunkravy_record_seal(&self->stream, record.buf, length);
        unlock(self, released);
    }
    PyBuffer_Release(&record);
    return result_of(object, code, Py_NewRef(Py_None));
}

/* Opens a record where it lies. Returns whether it is the last one. */
static PyObject *records_open(PyObject *object, PyObject *given)
{
    Records *self = (Records *)object;
    Py_buffer record;
    size_t length;
    int is_last = 0;
    if (!is_usable(self) || !PyArg_ParseTuple(given, "w*", &record)) {
        return NULL;
    }
    PyThreadState *released = lock(self, (size_t)record.len);
    int code = hunkravy_record_open(&self->stream, record.buf, (size_t)record.len, &length, &is_last);
    unlock(self, released);
    PyBuffer_Release(&record);
    return result_of(object, code, PyBool_FromLong(is_last));
}

static PyMethodDef records_methods[] = {
    {"begin", records_begin, METH_VARARGS, NULL},
    {"seal", records_seal, METH_VARARGS, NULL},
    {"open", records_open, METH_VARARGS, NULL},
    {NULL, NULL, 0, NULL},
};

/* ---- The module */

unsigned long forks;

static void count_fork(void)
{
    forks++;
}

/* Returns their number, also of those that Python has not made. */
static PyObject *count_of_forks(PyObject *module, PyObject *none)
{
    (void)module;
    (void)none;
    return PyLong_FromUnsignedLong(forks);
}

/* Returns the length of a record with this head, in any stream, or a code. It is not verified. */
static PyObject *record_length(PyObject *module, PyObject *head)
{
    static const uint8_t no_key[HUNKRAVY_RECORD_KEY_BYTES];
    hunkravy_record_stream stream;
    size_t length = 0;
    int code = hunkravy_record_begin_open_at(&stream, no_key, no_key, NULL, 0, 0, 0);
    (void)module;
    if (PyBytes_Size(head) != HUNKRAVY_RECORD_HEAD_BYTES) {
        return PyErr_Occurred() ? NULL : PyLong_FromLong(HUNKRAVY_WRONG_RECORD_LENGTH);
    }
    code = code == HUNKRAVY_OK ? hunkravy_record_len(&stream, (uint8_t *)PyBytes_AsString(head), &length) : code;
    return PyLong_FromLong(code == HUNKRAVY_OK ? (long)length : code);
}

static PyMethodDef functions[] = {{"forks", count_of_forks, METH_NOARGS, NULL},
    {"record_length", record_length, METH_O, NULL}, {NULL, NULL, 0, NULL}};

static PyType_Slot cipher_slots[] = {
    {Py_tp_new, SLOT(cipher_new)}, {Py_tp_dealloc, SLOT(cipher_free)}, {Py_tp_methods, cipher_methods}, {0, NULL}};
static PyType_Slot state_slots[] = {{Py_tp_dealloc, SLOT(state_free)}, {Py_tp_methods, state_methods}, {0, NULL}};
static PyType_Slot records_slots[] = {
    {Py_tp_new, SLOT(records_new)}, {Py_tp_dealloc, SLOT(records_free)}, {Py_tp_methods, records_methods}, {0, NULL}};

/* Only `Cipher.begin` makes states. */
static PyType_Spec specs[] = {
    {"hunkravy._native.Cipher", sizeof(Cipher), 0, TYPE_FLAGS, cipher_slots},
    {"hunkravy._native.State", sizeof(State), 0, TYPE_FLAGS | Py_TPFLAGS_DISALLOW_INSTANTIATION, state_slots},
    {"hunkravy._native.Records", sizeof(Records), 0, TYPE_FLAGS, records_slots},
};

static int execute(PyObject *object)
{
    static bool is_counted;
    Module *module = PyModule_GetState(object);
    if (module->state != NULL) {
        return 0;
    }
    if (!is_counted && pthread_atfork(NULL, NULL, count_fork) != 0) {
        return PyErr_NoMemory(), -1;
    }
    is_counted = true;
    if (hunkravy_level() == 0) {
        PyErr_SetString(PyExc_ImportError, "hunkravy needs a processor with x86-64-v2 (SSE4.2, POPCNT) or better");
        return -1;
    }
    module->invalid_tag = PyErr_NewExceptionWithDoc(
        "hunkravy.InvalidTag", "The tag is not that of the message, or the MAC is not that of the input.", NULL, NULL);
    int result = PyModule_AddObjectRef(object, "InvalidTag", module->invalid_tag);
    result = result < 0 ? result : PyModule_AddIntConstant(object, "LEVEL", hunkravy_level());
    PyType_Spec *all[] = {&specs[0], &specs[1], &specs[2], &file_spec, &batch_spec};
    for (size_t i = 0; result == 0 && i < sizeof all / sizeof all[0]; i++) {
        PyObject *type = PyType_FromModuleAndSpec(object, all[i], NULL);
        result = type == NULL ? -1 : PyModule_AddType(object, (PyTypeObject *)type);
        if (all[i]->slots == state_slots) {
            module->state = (PyTypeObject *)type;
        } else if (all[i] == &file_spec) {
            module->file = (PyTypeObject *)type;
        } else {
            Py_XDECREF(type);
        }
    }
    result = result < 0 ? result : PyModule_AddIntConstant(object, "PREFIX_BYTES", HUNKRAVY_RECORD_PREFIX_BYTES);
    result = result < 0 ? result : PyModule_AddIntConstant(object, "HEAD_BYTES", HUNKRAVY_RECORD_HEAD_BYTES);
    result = result < 0 ? result : PyModule_AddIntConstant(object, "RECORD_BYTES", HUNKRAVY_RECORD_BYTES);
    result = result < 0 ? result : PyModule_AddStringConstant(object, "VERSION", HUNKRAVY_VERSION);
    return result;
}

static int traverse(PyObject *object, visitproc visit, void *arg)
{
    const Module *module = PyModule_GetState(object);
    Py_VISIT(module->invalid_tag);
    Py_VISIT(module->state);
    Py_VISIT(module->file);
    return 0;
}

static int clear(PyObject *object)
{
    Module *module = PyModule_GetState(object);
    Py_CLEAR(module->invalid_tag);
    Py_CLEAR(module->state);
    Py_CLEAR(module->file);
    return 0;
}

static void free_module(void *object)
{
    clear(object);
}

static PyModuleDef_Slot slots[] = {{Py_mod_exec, SLOT(execute)}, {0, NULL}};
static PyModuleDef definition = {
    .m_base = PyModuleDef_HEAD_INIT,
    .m_name = "hunkravy._native",
    .m_size = sizeof(Module),
    .m_methods = functions,
    .m_slots = slots,
    .m_traverse = traverse,
    .m_clear = clear,
    .m_free = free_module,
};

PyMODINIT_FUNC PyInit__native(void)
{
    return PyModuleDef_Init(&definition);
}
