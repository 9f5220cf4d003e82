/*
 * The calls of include/fantailclock.h for CPython, as fantailclock.py asks them: it has the public names, this file makes the calls. What is here is
 * there a second time by ctypes, for hosts that cannot build this; the tests run over both.
 *
 * A call takes its arguments by position: first all numbers are read (any object with __index__; OverflowError where 64 bits do not hold one), and the
 * choice to fold (any object, a true one folds), then the memory is lent, input before output. Memory is bytes in one piece (PyObject_GetBuffer, which refuses
 * all else), is read and written where it lies, and is given back before the call returns. A refusal is raised by the callable that `refuse_by` was handed.
 * States are bytes objects.
 */
#include <patchlevel.h>
#if PY_VERSION_HEX >= 0x030B0000
#define Py_LIMITED_API 0x030B0000 /* the stable ABI: it has the buffer protocol from 3.11 on; for 3.9 and 3.10 this is built for the version at hand */
#endif
#define PY_SSIZE_T_CLEAN
#include <Python.h>
#include <string.h>

#include "fantailclock.h"

#define FREELY 4096 /* so many bytes are allocated before it is asked whether the call is refused, and handled without giving up the interpreter's lock */

typedef struct { PyObject *refuse; } module_state;

/* The numbers of a window; those that a call does not take are 0. */
typedef struct { uint64_t alphabet, byte_offset, start, end; } window;

/* A call that writes to memory. Its answer has the fields of fc_packed whatever the function, what a covered read tells in `position`; an encoder's state is
 * replaced where it is accepted. Of a whole text that is packed, alphabet and choice stand in `encoder`. */
typedef struct call {
    PyObject *module;
    fc_packed (*make)(struct call *, uint8_t *out, size_t room);
    Py_buffer input;
    union { window window; fc_encoder encoder; } of;
} call;

typedef PyObject *const *arguments;

/* Raises a refusal, with its values: position, byte and count of 5, bases of 7, base of 18. */
static PyObject *refused_with(PyObject *module, uint64_t refusal, unsigned long long first, unsigned long long second, unsigned long long third) {
    module_state *state = PyModule_GetState(module);
    if (state->refuse == NULL) {
        PyErr_SetString(PyExc_SystemError, "refuse_by was not called");
        return NULL;
    }
    PyObject *answer = PyObject_CallFunction(state->refuse, "KKKK", (unsigned long long)refusal, first, second, third);
    if (answer != NULL) {
        Py_DECREF(answer);
        PyErr_SetString(PyExc_SystemError, "a refusal was not raised");
    }
    return NULL;
}

static PyObject *refused(PyObject *module, uint64_t refusal) {
    return refused_with(module, refusal, 0, 0, 0);
}

static int counted(Py_ssize_t given, Py_ssize_t wanted) {
    if (given != wanted) PyErr_Format(PyExc_TypeError, "%zd arguments, not %zd", wanted, given);
    return given == wanted;
}

static int number(PyObject *from, uint64_t *to) {
    PyObject *index = PyNumber_Index(from);
    if (index == NULL) return 0;
    *to = PyLong_AsUnsignedLongLong(index);
    Py_DECREF(index);
    if (*to != UINT64_MAX || !PyErr_Occurred()) return 1;
    PyErr_SetString(PyExc_OverflowError, "not a number of 64 bits");
    return 0;
}

/* The choice to fold, as a truth value. */
static int choice(PyObject *from, uint64_t *to) {
    int truth = PyObject_IsTrue(from);
    *to = truth == 1;
    return truth >= 0;
}

static PyObject *from_number(uint64_t value) {
    return PyLong_FromUnsignedLongLong(value);
}

/* Copies a state out of the memory that has it. */
static int taken(PyObject *from, void *to, size_t size) {
    Py_buffer lent;
    if (PyObject_GetBuffer(from, &lent, PyBUF_SIMPLE) < 0) return 0;
    int fits = (size_t)lent.len == size;
    if (fits) memcpy(to, lent.buf, size);
    else PyErr_Format(PyExc_ValueError, "a state of %zd bytes, not %zd", lent.len, (Py_ssize_t)size);
    PyBuffer_Release(&lent);
    return fits;
}

static PyObject *from_state(const void *state, size_t size) {
    return PyBytes_FromStringAndSize(state, (Py_ssize_t)size);
}

/* Lends memory for output beside the input, which it must not overlap. */
static int lend_out(PyObject *owner, const Py_buffer *input, Py_buffer *out) {
    if (PyObject_GetBuffer(owner, out, PyBUF_WRITABLE) < 0) return 0;
    uintptr_t from = (uintptr_t)input->buf, to = (uintptr_t)out->buf;
    if (input->len == 0 || out->len == 0 || from >= to + (size_t)out->len || to >= from + (size_t)input->len) return 1;
    PyBuffer_Release(out);
    PyErr_SetString(PyExc_ValueError, "input and output memory overlap");
    return 0;
}

/* Makes a call; a long one without the interpreter's lock. */
static fc_packed made(call *c, uint8_t *out, size_t room) {
    if (room <= FREELY && c->input.len <= FREELY) return c->make(c, out, room);
    PyThreadState *thread = PyEval_SaveThread();
    fc_packed answer = c->make(c, out, room);
    PyEval_RestoreThread(thread);
    return answer;
}

static PyObject *refused_call(call *c, fc_packed answer) {
    return refused_with(c->module, answer.refusal, answer.position, answer.byte, answer.bad_count);
}

/* New memory for a call that writes so many bytes. A long one is first made with none, so that one that is refused by an earlier question is over before memory
 * is sought: a window may be 2^60 bases long. Memory that cannot be had is memory too short. */
static PyObject *room_for(call *c, uint64_t room) {
    if (room > FREELY) {
        call asked = *c;
        fc_packed answer = asked.make(&asked, NULL, 0);
        if (answer.refusal != FC_ACCEPTED && answer.refusal != FC_REFUSED_SHORT_MEMORY) return refused_call(c, answer);
    }
    PyObject *out = room <= PY_SSIZE_T_MAX ? PyBytes_FromStringAndSize(NULL, (Py_ssize_t)room) : NULL;
    if (out != NULL) return out;
    PyErr_Clear();
    return refused(c->module, FC_REFUSED_SHORT_MEMORY);
}

/* What a call writes, as a new bytes object. */
static PyObject *written(call *c, uint64_t room) {
    PyObject *out = room_for(c, room);
    if (out == NULL) return NULL;
    char *memory = PyBytes_AsString(out);
    fc_packed answer = made(c, (uint8_t *)memory, room);
    PyObject *front = out;
    if (answer.refusal != 0) front = refused_call(c, answer);
    else if (answer.count != room) front = PyBytes_FromStringAndSize(memory, (Py_ssize_t)answer.count);
    if (front != out) Py_DECREF(out);
    return front;
}

/* The count that a call writes to lent memory. */
static PyObject *written_into(call *c, PyObject *owner) {
    Py_buffer out;
    if (!lend_out(owner, &c->input, &out)) return NULL;
    fc_packed answer = made(c, out.buf, (size_t)out.len);
    PyBuffer_Release(&out);
    return answer.refusal != 0 ? refused_call(c, answer) : from_number(answer.count);
}

/* Makes a call whose input is lent, into `out` where there is one, and gives the input back. */
static PyObject *finished(call *c, uint64_t room, PyObject *out) {
    PyObject *answer = out != NULL ? written_into(c, out) : written(c, room);
    PyBuffer_Release(&c->input);
    return answer;
}

/* The bytes that so many symbols fill behind some bits; a state with more than 7 of those is refused whatever the memory. */
static uint64_t bytes_filled(uint64_t pending_bits, uint64_t symbols, uint64_t bits) {
    return pending_bits > 7 ? 0 : symbols / 8 * bits + (pending_bits + symbols % 8 * bits) / 8;
}

static uint64_t bits_of(uint64_t alphabet) {
    return fc_bits_per_symbol(alphabet).value;
}

/* Alphabets */

static PyObject *abi_version(PyObject *module, PyObject *nothing) {
    (void)module, (void)nothing;
    return from_number(fc_abi_version());
}

static PyObject *bits_per_symbol(PyObject *module, PyObject *alphabet) {
    uint64_t a;
    if (!number(alphabet, &a)) return NULL;
    fc_number answer = fc_bits_per_symbol(a);
    return answer.refusal != 0 ? refused(module, answer.refusal) : from_number(answer.value);
}

static PyObject *contains(PyObject *module, arguments given, Py_ssize_t count) {
    uint64_t alphabet, byte;
    if (!counted(count, 2) || !number(given[0], &alphabet) || !number(given[1], &byte)) return NULL;
    fc_number answer = fc_contains(alphabet, byte);
    return answer.refusal != 0 ? refused(module, answer.refusal) : PyBool_FromLong(answer.value == 1);
}

static PyObject *display_name(PyObject *module, PyObject *alphabet) {
    uint64_t a;
    uint8_t name[8];
    if (!number(alphabet, &a)) return NULL;
    fc_count answer = fc_display_name(a, name, sizeof name);
    return answer.refusal != 0 ? refused(module, answer.refusal) : PyUnicode_DecodeASCII((char *)name, (Py_ssize_t)answer.count, NULL);
}

static PyObject *guess_alphabet(PyObject *module, arguments given, Py_ssize_t count) {
    uint64_t fold;
    Py_buffer lent;
    (void)module;
    if (!counted(count, 2) || !choice(given[0], &fold) || PyObject_GetBuffer(given[1], &lent, PyBUF_SIMPLE) < 0) return NULL;
    PyThreadState *thread = lent.len > FREELY ? PyEval_SaveThread() : NULL;
    fc_number answer = fc_guess_alphabet(fold, lent.buf, (size_t)lent.len);
    if (thread != NULL) PyEval_RestoreThread(thread);
    PyBuffer_Release(&lent);
    return from_number(answer.value);
}

static PyObject *later_alphabet(PyObject *module, arguments given, Py_ssize_t count) {
    uint64_t one, other;
    if (!counted(count, 2) || !number(given[0], &one) || !number(given[1], &other)) return NULL;
    fc_number answer = fc_later_alphabet(one, other);
    return answer.refusal != 0 ? refused(module, answer.refusal) : from_number(answer.value);
}

static PyObject *guesser_new(PyObject *module, PyObject *fold) {
    uint64_t f;
    (void)module;
    if (!choice(fold, &f)) return NULL;
    fc_guesser state = fc_guesser_new(f);
    return from_state(&state, sizeof state);
}

static PyObject *guesser_update(PyObject *module, arguments given, Py_ssize_t count) {
    fc_guesser state;
    Py_buffer lent;
    if (!counted(count, 2) || !taken(given[0], &state, sizeof state) || PyObject_GetBuffer(given[1], &lent, PyBUF_SIMPLE) < 0) return NULL;
    PyThreadState *thread = lent.len > FREELY ? PyEval_SaveThread() : NULL;
    fc_guessing answer = fc_guesser_update(state, lent.buf, (size_t)lent.len);
    if (thread != NULL) PyEval_RestoreThread(thread);
    PyBuffer_Release(&lent);
    return answer.refusal != 0 ? refused(module, answer.refusal) : from_state(&answer.next, sizeof answer.next);
}

static PyObject *guesser_guess(PyObject *module, PyObject *from) {
    fc_guesser state;
    if (!taken(from, &state, sizeof state)) return NULL;
    fc_number answer = fc_guesser_guess(state);
    return answer.refusal != 0 ? refused(module, answer.refusal) : from_number(answer.value);
}

/* Packing */

static fc_packed make_encode(call *c, uint8_t *out, size_t room) {
    return fc_encode_sequence(c->of.encoder.alphabet, c->of.encoder.fold, c->input.buf, (size_t)c->input.len, out, room);
}

static PyObject *encode(PyObject *module, arguments given, PyObject *out) {
    call c = {.module = module, .make = make_encode};
    fc_encoder *by = &c.of.encoder;
    if (!number(given[0], &by->alphabet) || !choice(given[1], &by->fold) || PyObject_GetBuffer(given[2], &c.input, PyBUF_SIMPLE) < 0) return NULL;
    return finished(&c, fc_packed_length((uint64_t)c.input.len, bits_of(by->alphabet)), out);
}

static PyObject *encode_sequence(PyObject *module, arguments given, Py_ssize_t count) {
    return counted(count, 3) ? encode(module, given, NULL) : NULL;
}

static PyObject *encode_sequence_into(PyObject *module, arguments given, Py_ssize_t count) {
    return counted(count, 4) ? encode(module, given, given[3]) : NULL;
}

static PyObject *encoder_new(PyObject *module, arguments given, Py_ssize_t count) {
    uint64_t alphabet, fold;
    if (!counted(count, 2) || !number(given[0], &alphabet) || !choice(given[1], &fold)) return NULL;
    fc_encoder_started answer = fc_encoder_new(alphabet, fold);
    return answer.refusal != 0 ? refused(module, answer.refusal) : from_state(&answer.next, sizeof answer.next);
}

static fc_packed make_update(call *c, uint8_t *out, size_t room) {
    fc_updated answer = fc_encoder_update(c->of.encoder, c->input.buf, (size_t)c->input.len, out, room);
    if (answer.refusal == 0) c->of.encoder = answer.next;
    return (fc_packed){.refusal = answer.refusal, .count = answer.count};
}

/* The bytes that a piece completes, or their count, and the next state. */
static PyObject *update(PyObject *module, arguments given, PyObject *out) {
    call c = {.module = module, .make = make_update};
    if (!taken(given[0], &c.of.encoder, sizeof c.of.encoder) || PyObject_GetBuffer(given[1], &c.input, PyBUF_SIMPLE) < 0) return NULL;
    uint64_t room = bytes_filled(c.of.encoder.pending_bits, (uint64_t)c.input.len, bits_of(c.of.encoder.alphabet));
    PyObject *answer = finished(&c, room, out);
    return answer == NULL ? NULL : Py_BuildValue("(Ny#)", answer, (char *)&c.of.encoder, (Py_ssize_t)sizeof c.of.encoder);
}

static PyObject *encoder_update(PyObject *module, arguments given, Py_ssize_t count) {
    return counted(count, 2) ? update(module, given, NULL) : NULL;
}

static PyObject *encoder_update_into(PyObject *module, arguments given, Py_ssize_t count) {
    return counted(count, 3) ? update(module, given, given[2]) : NULL;
}

/* What an update would answer with memory of so many bytes, of which none is lent: the count and the next state. */
static PyObject *encoder_ask(PyObject *module, arguments given, Py_ssize_t count) {
    fc_encoder state;
    uint64_t room;
    Py_buffer piece;
    if (!counted(count, 3) || !number(given[2], &room) || !taken(given[0], &state, sizeof state)) return NULL;
    if (PyObject_GetBuffer(given[1], &piece, PyBUF_SIMPLE) < 0) return NULL;
    PyThreadState *thread = piece.len > FREELY ? PyEval_SaveThread() : NULL;
    fc_updated answer = fc_encoder_ask(state, piece.buf, (size_t)piece.len, room);
    if (thread != NULL) PyEval_RestoreThread(thread);
    PyBuffer_Release(&piece);
    if (answer.refusal != 0) return refused(module, answer.refusal);
    return Py_BuildValue("(Ky#)", (unsigned long long)answer.count, (char *)&answer.next, (Py_ssize_t)sizeof answer.next);
}

static fc_packed make_finalize(call *c, uint8_t *out, size_t room) {
    return fc_encoder_finalize(c->of.encoder, out, room);
}

static PyObject *encoder_finalize(PyObject *module, PyObject *state) {
    call c = {.module = module, .make = make_finalize};
    return taken(state, &c.of.encoder, sizeof c.of.encoder) ? written(&c, c.of.encoder.pending_bits != 0) : NULL;
}

static PyObject *encoder_finalize_into(PyObject *module, arguments given, Py_ssize_t count) {
    call c = {.module = module, .make = make_finalize};
    return counted(count, 2) && taken(given[0], &c.of.encoder, sizeof c.of.encoder) ? written_into(&c, given[1]) : NULL;
}

static PyObject *byte_range_for_bases(PyObject *module, arguments given, Py_ssize_t count) {
    uint64_t start, end, bits;
    if (!counted(count, 3) || !number(given[0], &start) || !number(given[1], &end) || !number(given[2], &bits)) return NULL;
    fc_range answer = fc_byte_range_for_bases(start, end, bits);
    if (answer.refusal != 0) return refused(module, answer.refusal);
    return Py_BuildValue("(KK)", (unsigned long long)answer.start, (unsigned long long)answer.end);
}

/* Reads of a window. Their arguments are told by a letter each: alphabet, data, byte offset, start, end. */

static uint64_t *place_of(window *w, char letter) {
    return letter == 'a' ? &w->alphabet : letter == 'o' ? &w->byte_offset : letter == 's' ? &w->start : &w->end;
}

static PyObject *read_bases(call *c, arguments given, Py_ssize_t count, const char *letters, int into) {
    Py_ssize_t wanted = (Py_ssize_t)strlen(letters);
    if (!counted(count, wanted + into)) return NULL;
    for (Py_ssize_t i = 0; i < wanted; i++)
        if (letters[i] != 'd' && !number(given[i], place_of(&c->of.window, letters[i]))) return NULL;
    if (PyObject_GetBuffer(given[strchr(letters, 'd') - letters], &c->input, PyBUF_SIMPLE) < 0) return NULL;
    window w = c->of.window;
    return finished(c, w.start < w.end ? w.end - w.start : 0, into ? given[wanted] : NULL);
}

static fc_packed of_count(fc_count answer) {
    return (fc_packed){.refusal = answer.refusal, .count = answer.count};
}

static fc_packed of_covered(fc_covered answer) {
    return (fc_packed){.refusal = answer.refusal, .count = answer.count, .position = answer.value};
}

/* A read under its name, and under the name with `_into`; `told` takes its answer. */
#define READ(name, told, letters, ...)                                                                 \
    static fc_packed make_##name(call *c, uint8_t *out, size_t room) {                                 \
        window w = c->of.window;                                                                       \
        const uint8_t *data = c->input.buf;                                                            \
        size_t len = (size_t)c->input.len;                                                             \
        return told(fc_##name(__VA_ARGS__, out, room));                                                \
    }                                                                                                  \
    static PyObject *name(PyObject *module, arguments given, Py_ssize_t count) {                       \
        call c = {.module = module, .make = make_##name};                                              \
        return read_bases(&c, given, count, letters, 0);                                               \
    }                                                                                                  \
    static PyObject *name##_into(PyObject *module, arguments given, Py_ssize_t count) {                \
        call c = {.module = module, .make = make_##name};                                              \
        return read_bases(&c, given, count, letters, 1);                                               \
    }

READ(decode_substring_from_bytes_at_offset, of_count, "adose", w.alphabet, data, len, w.byte_offset, w.start, w.end)
READ(decode_substring_from_bytes, of_count, "adse", w.alphabet, data, len, w.start, w.end)
READ(decode_string_from_bytes, of_count, "ade", w.alphabet, data, len, w.end)
READ(decode_covered, of_covered, "adose", w.alphabet, data, len, w.byte_offset, w.start, w.end)
READ(decode_rolling, of_count, "adose", w.alphabet, data, len, w.byte_offset, w.start, w.end)
READ(decode_2bit, of_count, "dose", data, len, w.byte_offset, w.start, w.end)
READ(decode_3bit, of_count, "dose", data, len, w.byte_offset, w.start, w.end)
READ(decode_4bit, of_count, "dose", data, len, w.byte_offset, w.start, w.end)
READ(decode_5bit, of_count, "dose", data, len, w.byte_offset, w.start, w.end)

/* Streams */

static PyObject *stream_new(PyObject *module, arguments given, Py_ssize_t count) {
    uint64_t alphabet, skip, budget;
    if (!counted(count, 3) || !number(given[0], &alphabet) || !number(given[1], &skip) || !number(given[2], &budget)) return NULL;
    fc_stream_started answer = fc_stream_new(alphabet, skip, budget);
    return answer.refusal != 0 ? refused(module, answer.refusal) : from_state(&answer.next, sizeof answer.next);
}

static fc_streamed streamed(fc_stream state, const Py_buffer *source, uint8_t *out, size_t room) {
    PyThreadState *thread = room > FREELY || source->len > FREELY ? PyEval_SaveThread() : NULL;
    fc_streamed answer = fc_stream_read(state, source->buf, (size_t)source->len, out, room);
    if (thread != NULL) PyEval_RestoreThread(thread);
    return answer;
}

/* The bases or their count, the bytes taken, the status and the next state. */
static PyObject *step(PyObject *bases, fc_streamed answer) {
    if (bases == NULL) return NULL;
    return Py_BuildValue("(NKKy#)", bases, (unsigned long long)answer.taken, (unsigned long long)answer.status, (char *)&answer.next,
                         (Py_ssize_t)sizeof answer.next);
}

static PyObject *stream_read_into(PyObject *module, arguments given, Py_ssize_t count) {
    fc_stream state;
    Py_buffer source, out;
    if (!counted(count, 3) || !taken(given[0], &state, sizeof state) || PyObject_GetBuffer(given[1], &source, PyBUF_SIMPLE) < 0) return NULL;
    int lent = lend_out(given[2], &source, &out);
    fc_streamed answer = {0};
    if (lent) {
        answer = streamed(state, &source, out.buf, (size_t)out.len);
        PyBuffer_Release(&out);
    }
    PyBuffer_Release(&source);
    if (!lent) return NULL;
    return answer.refusal != 0 ? refused(module, answer.refusal) : step(from_number(answer.written), answer);
}

/* The most bases that a stream can write from so many source bytes, of `most` that were asked for. */
static uint64_t most_bases(fc_stream state, uint64_t len, uint64_t most) {
    uint64_t bits = bits_of(state.alphabet), bases = state.budget < most ? state.budget : most;
    uint64_t there = bits == 0 || state.pending_bits > 7 ? 0 : (state.pending_bits + len * 8) / bits;
    return there < bases ? there : bases;
}

/* At most so many bases as a new bytes object, which is no longer than the source allows; the status is that of memory for all that were asked for. */
static PyObject *stream_read(PyObject *module, arguments given, Py_ssize_t count) {
    fc_stream state;
    uint64_t most;
    Py_buffer source;
    if (!counted(count, 3) || !number(given[2], &most) || !taken(given[0], &state, sizeof state)) return NULL;
    if (PyObject_GetBuffer(given[1], &source, PyBUF_SIMPLE) < 0) return NULL;
    uint64_t room = most_bases(state, (uint64_t)source.len, most);
    PyObject *out = PyBytes_FromStringAndSize(NULL, (Py_ssize_t)room);
    fc_streamed answer = {0};
    if (out != NULL) answer = streamed(state, &source, (uint8_t *)PyBytes_AsString(out), room);
    PyBuffer_Release(&source);
    if (out == NULL) return NULL;
    if (answer.status == FC_FULL && answer.written < most) answer.status = FC_HUNGRY;
    PyObject *bases = out;
    if (answer.refusal != 0) bases = refused(module, answer.refusal);
    else if (answer.written != room) bases = PyBytes_FromStringAndSize(PyBytes_AsString(out), (Py_ssize_t)answer.written);
    if (bases != out) Py_DECREF(out);
    return step(bases, answer);
}

static PyObject *stream_end(PyObject *module, PyObject *from) {
    fc_stream state;
    if (!taken(from, &state, sizeof state)) return NULL;
    fc_ended answer = fc_stream_end(state);
    if (answer.refusal != 0) return refused_with(module, answer.refusal, answer.outstanding, 0, 0);
    Py_RETURN_NONE;
}

/* The module */

static PyObject *refuse_by(PyObject *module, PyObject *refuse) {
    module_state *state = PyModule_GetState(module);
    PyObject *before = state->refuse;
    Py_INCREF(refuse);
    state->refuse = refuse;
    Py_XDECREF(before);
    Py_RETURN_NONE;
}

#define ONE(name, flag) {#name, name, flag, NULL}
#define MANY(name) {#name, (PyCFunction)(void (*)(void))name, METH_FASTCALL, NULL}
#define BOTH(name) MANY(name), MANY(name##_into)

static PyMethodDef methods[] = {
    ONE(refuse_by, METH_O),
    ONE(abi_version, METH_NOARGS),
    ONE(bits_per_symbol, METH_O),
    MANY(contains),
    ONE(display_name, METH_O),
    MANY(guess_alphabet),
    MANY(later_alphabet),
    ONE(guesser_new, METH_O),
    MANY(guesser_update),
    ONE(guesser_guess, METH_O),
    BOTH(encode_sequence),
    MANY(encoder_new),
    BOTH(encoder_update),
    MANY(encoder_ask),
    ONE(encoder_finalize, METH_O),
    MANY(encoder_finalize_into),
    MANY(byte_range_for_bases),
    BOTH(decode_substring_from_bytes_at_offset),
    BOTH(decode_substring_from_bytes),
    BOTH(decode_string_from_bytes),
    BOTH(decode_covered),
    BOTH(decode_rolling),
    BOTH(decode_2bit),
    BOTH(decode_3bit),
    BOTH(decode_4bit),
    BOTH(decode_5bit),
    MANY(stream_new),
    BOTH(stream_read),
    ONE(stream_end, METH_O),
    {NULL, NULL, 0, NULL},
};

static int traverse(PyObject *module, visitproc visit, void *arg) {
    module_state *state = PyModule_GetState(module);
    if (state != NULL) Py_VISIT(state->refuse);
    return 0;
}

static int clear(PyObject *module) {
    module_state *state = PyModule_GetState(module);
    if (state != NULL) Py_CLEAR(state->refuse);
    return 0;
}

static void release(void *module) {
    clear(module);
}

static PyModuleDef_Slot slots[] = {{0, NULL}};

static struct PyModuleDef definition = {
    PyModuleDef_HEAD_INIT,
    .m_name = "_fantailclock",
    .m_doc = "The calls of the C ABI, for fantailclock.py.",
    .m_size = sizeof(module_state),
    .m_methods = methods,
    .m_slots = slots,
    .m_traverse = traverse,
    .m_clear = clear,
    .m_free = release,
};

PyMODINIT_FUNC PyInit__fantailclock(void) {
    return PyModuleDef_Init(&definition);
}
