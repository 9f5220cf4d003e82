"""Fantailclock: packed alphabets and their coders, over the C ABI of the proved library.

Input is any object with contiguous bytes (bytes, bytearray, memoryview, mmap), and is read where it lies. A plain name
gives new bytes; the name with `_into` writes to the front of memory that the caller lends, answers the count, and leaves
every other byte as it was; input and output memory that overlap are a ValueError. A number is anything with `__index__`.
A call that is refused raises the subclass of `Refused` that has the rules' number, and has changed nothing.

    >>> import fantailclock as fc
    >>> packed = fc.encode_sequence(fc.Alphabet.Dna3bit, b"ACGTNRYU")
    >>> packed.hex()
    '053977'
    >>> first, end = fc.byte_range_for_bases(2, 6, fc.Alphabet.Dna3bit.bits_per_symbol)
    >>> fc.decode_covered(fc.Alphabet.Dna3bit, packed[first:end], first, 2, 6)
    b'GTNR'

Soft-masked text: with `fold=True` a guess, a packing or an encoder takes a byte a to z for its uppercase letter in the four
packed alphabets, Dna2bit to Protein, and what was packed so reads back in uppercase. Ascii and Unknown do not fold. Without
it every byte is taken as it is. The choice is part of a guesser's and an encoder's state and stays; any true value folds.

    >>> fc.guess_alphabet(b"ACgt"), fc.guess_alphabet(b"ACgt", fold=True)
    (<Alphabet.Ascii: 4>, <Alphabet.Dna2bit: 0>)
    >>> fc.encode_sequence(fc.Alphabet.Dna2bit, b"ACgt", fold=True).hex()
    '9c'

A genome's alphabet comes out of its chromosomes' guesses, with none of them read again: the guess for one text followed by
another is the later of their two guesses, provided that all fold alike. `guess_genome` takes the chromosomes one by one, and
`later_alphabet` combines two guesses, as for chromosomes that come in pieces, with a `Guesser` for each.

    >>> fc.guess_genome([b"ACGT", b"acgtn", b"GATtaca"], fold=True)
    <Alphabet.Dna3bit: 1>
    >>> genome = fc.Alphabet.Dna2bit
    >>> for pieces in [b"AC", b"GT"], [b"ACGT", b"ACGX"]:
    ...     guesser = fc.Guesser()
    ...     for piece in pieces:
    ...         guesser.update(piece)
    ...     genome = fc.later_alphabet(genome, guesser.guess())
    >>> genome
    <Alphabet.Protein: 3>

A text with a byte that is no symbol of the alphabet raises `NotMember`, which has the first such byte and the count of all of
them; by the count a stray letter is told from a wrong file.

    >>> for text in b"ACNT", b"ACDEFGHIKLMN":
    ...     try:
    ...         fc.encode_sequence(fc.Alphabet.Dna2bit, text)
    ...     except fc.NotMember as refused:
    ...         print(f"{refused.count} of {len(text)}: {refused}")
    1 of 4: refused by 5: byte 4E at position 2 is no member, the only one
    9 of 12: refused by 5: byte 44 at position 2 is no member, the first of 9

What an `update` would do can be asked before memory is lent for it: `ask` gives the count of bytes that it would write into
memory of so many bytes and the encoder as it would be after it, or raises its refusal, and changes nothing. With room 0
`ShortMemory` tells that the piece needs memory at all; with 2^60 or more it never comes, and the count is what the update uses.

    >>> encoder, piece = fc.SequenceEncoder(fc.Alphabet.Dna2bit), b"ACGTACGTN"
    >>> try:
    ...     encoder.ask(piece, 0)
    ... except fc.ShortMemory:
    ...     asked = encoder.ask(piece, 1 << 60)
    >>> asked.count, asked.next.state.bad_count
    (2, 1)
    >>> page = bytearray(asked.count)
    >>> encoder.update_into(piece, page), page.hex()
    (2, '9c9c')
    >>> bytes(encoder.state) == bytes(asked.next.state)
    True

The covered read also refuses a code that no symbol has, as a damaged disk leaves it in a file of Protein, and `NoSymbol` tells
which base has it. The other reads and the streams show X for it, and X stands for a residue that was seen and is not known.

    >>> damaged = bytes.fromhex("0740")  # codes 0 and 29
    >>> fc.decode_string_from_bytes(fc.Alphabet.Protein, damaged, 2)
    b'AX'
    >>> try:
    ...     fc.decode_covered(fc.Alphabet.Protein, damaged, 0, 0, 2)
    ... except fc.NoSymbol as refused:
    ...     print(f"base {refused.base}: {refused}")
    base 1: refused by 18: the code of base 1 stands for no symbol

The shared object is made by bindings/python/build; it is found there, beside this file, or where FANTAILCLOCK_SO says.
Calls go through the extension module that stands beside it, or by ctypes where there is none, which is ten times as slow;
`WAY` tells which, and FANTAILCLOCK_WAY (`extension` or `ctypes`) asks for one of them. Calls on more than a few thousand
bytes release the interpreter's lock: memory that is lent to a call must be left alone by other threads until it returns.
"""

from __future__ import annotations

import contextlib
import ctypes
import enum
import functools
import importlib.machinery
import importlib.util
import io
import mmap
import operator
import os
import pathlib
import queue
import struct
import sys
import threading
from typing import TYPE_CHECKING, Any, Iterable, NamedTuple, Optional, Protocol, SupportsIndex, Tuple, Union

if TYPE_CHECKING:
    from typing_extensions import Buffer
else:
    Buffer = Any  # any object with contiguous bytes; collections.abc has a name for it from 3.12 on

ABI_VERSION = 4


class Refused(Exception):
    """A call that was refused: `number` is the rules' number, 1 to 9 or 18. No byte and no state has changed."""

    number: int = 0
    about: str = ""

    def __str__(self) -> str:
        return f"refused by {self.number}: {self.about}"


class Unsound(Refused):
    """A state that no list of calls can leave."""

    number, about = 1, "unsound state"


class TooFar(Refused):
    """A position, or a text's length, above 2^60."""

    number, about = 2, "position above 2^60"


class Uncovered(Refused):
    """The covered read was not lent every byte of its window's range."""

    number, about = 3, "bytes of the range not lent"


class ShortMemory(Refused):
    """The output memory is shorter than what would be written, or cannot be had."""

    number, about = 4, "output memory too short"


class NotMember(Refused):
    """The text's first byte that is no symbol of the alphabet: its `position`, over all pieces, and the `byte` as it was
    received, folding or not; and the `count` of all such bytes of the text, this one included. A position alone does not
    tell a stray letter from a wrong file; the count, beside the text's length, does."""

    number = 5

    def __init__(self, position: int, byte: int, count: int) -> None:
        super().__init__(position, byte, count)
        self.position, self.byte, self.count = position, byte, count
        which = "the only one" if count == 1 else f"the first of {count}"
        self.about = f"byte {byte:02X} at position {position} is no member, {which}"


class BadSkip(Refused):
    """A skip of more than 7 bits."""

    number, about = 6, "skip above 7"


class Outstanding(Refused, EOFError):
    """A stream that ended before its window was complete: `bases` are still to come (0 where only the skip is due)."""

    number = 7

    def __init__(self, bases: int) -> None:
        super().__init__(bases)
        self.bases = bases
        self.about = f"stream not complete, {bases} bases outstanding"


class NoAlphabet(Refused):
    """No alphabet has this number."""

    number, about = 8, "no such alphabet"


class TooWide(Refused):
    """More than 8 bits per symbol."""

    number, about = 9, "more than 8 bits"


class NoSymbol(Refused):
    """The covered read met a code that no symbol of the alphabet has: `base` is the window's first base with such a code,
    counted from 0 at the sequence's start. Only Protein has such codes, 29 to 31, and no accepted text packs to them: the file
    was damaged, or is another one. X stands for a residue that was seen and is not known, and they are not that; the other
    reads and the streams show X for them all the same."""

    number = 18

    def __init__(self, base: int) -> None:
        super().__init__(base)
        self.base = base
        self.about = f"the code of base {base} stands for no symbol"


_REFUSALS = {
    refusal.number: refusal
    for refusal in (
        Unsound, TooFar, Uncovered, ShortMemory, NotMember, BadSkip, Outstanding, NoAlphabet, TooWide, NoSymbol
    )
}
_TOLD = {NotMember: 3, Outstanding: 1, NoSymbol: 1}  # how many values a refusal tells; the others tell none


def _refuse(number, *values):
    """Raises the refusal that has this number, with its values: position, byte and count of 5, bases of 7, base of 18."""
    refusal = _REFUSALS[number]
    raise refusal(*values[: _TOLD.get(refusal, 0)])


# The C ABI: the structs and functions of include/fantailclock.h under the same names. Every number is 64 bits wide.


def _numbers(*names):
    return [(name, ctypes.c_uint64) for name in names]


class fc_number(ctypes.Structure):
    """A number."""

    _fields_ = _numbers("refusal", "value")


class fc_count(ctypes.Structure):
    """A count."""

    _fields_ = _numbers("refusal", "count")


class fc_covered(ctypes.Structure):
    """The count of a covered read; where it is refused by 18, the window's first base whose code is no symbol's, else 0."""

    _fields_ = _numbers("refusal", "count", "value")


class fc_range(ctypes.Structure):
    """First byte and end of a range."""

    _fields_ = _numbers("refusal", "start", "end")


class fc_packed(ctypes.Structure):
    """The count of a packing; where it is refused by 5, the first non-member and the number of all of them, else 0."""

    _fields_ = _numbers("refusal", "count", "position", "byte", "bad_count")


class fc_guesser(ctypes.Structure):
    """A guesser's state: the mask of the alphabets that hold every byte seen, 16 to 31; whether it folds, 0 or 1."""

    _fields_ = _numbers("mask", "fold")


class fc_guessing(ctypes.Structure):
    """A guesser's state after a call."""

    _fields_ = _numbers("refusal") + [("next", fc_guesser)]


class fc_encoder(ctypes.Structure):
    """An encoder's state: symbols seen, bits that fill no byte yet, the first byte that was no member, as received (ignored
    where `has_bad` is 0); whether it folds, 0 or 1; how many bytes of all accepted pieces were no members: 0 exactly where
    `has_bad` is 0, else at most `seen - bad_position`. With any other count the state is refused by 1."""

    _fields_ = _numbers(
        "alphabet", "seen", "pending_bits", "pending", "has_bad", "bad_position", "bad_byte", "fold", "bad_count"
    )


class fc_encoder_started(ctypes.Structure):
    """An encoder's first state."""

    _fields_ = _numbers("refusal") + [("next", fc_encoder)]


class fc_updated(ctypes.Structure):
    """The count of an update, made or asked about, and the encoder's state after it."""

    _fields_ = _numbers("refusal", "count") + [("next", fc_encoder)]


class fc_stream(ctypes.Structure):
    """A stream's state: bits still to be passed over, bases still to come, bits taken and not used."""

    _fields_ = _numbers("alphabet", "skip", "budget", "pending_bits", "pending")


class fc_stream_started(ctypes.Structure):
    """A stream's first state."""

    _fields_ = _numbers("refusal") + [("next", fc_stream)]


class fc_streamed(ctypes.Structure):
    """What a stream's read has taken and written, its status, and the state after it."""

    _fields_ = _numbers("refusal", "taken", "written", "status") + [("next", fc_stream)]


class fc_ended(ctypes.Structure):
    """A stream's end: the bases still to come where it is refused by 7."""

    _fields_ = _numbers("refusal", "outstanding")


_N = [ctypes.c_uint64]
_MEMORY = [ctypes.c_void_p, ctypes.c_size_t]

_FUNCTIONS = {
    "fc_abi_version": (ctypes.c_uint64, []),
    "fc_bits_per_symbol": (fc_number, _N),
    "fc_contains": (fc_number, 2 * _N),
    "fc_display_name": (fc_count, _N + _MEMORY),
    "fc_guesser_new": (fc_guesser, _N),
    "fc_guesser_update": (fc_guessing, [fc_guesser] + _MEMORY),
    "fc_guesser_guess": (fc_number, [fc_guesser]),
    "fc_guess_alphabet": (fc_number, _N + _MEMORY),
    "fc_later_alphabet": (fc_number, 2 * _N),
    "fc_encoder_new": (fc_encoder_started, 2 * _N),
    "fc_encoder_update": (fc_updated, [fc_encoder] + 2 * _MEMORY),
    "fc_encoder_ask": (fc_updated, [fc_encoder] + _MEMORY + _N),
    "fc_encoder_finalize": (fc_packed, [fc_encoder] + _MEMORY),
    "fc_encode_sequence": (fc_packed, 2 * _N + 2 * _MEMORY),
    "fc_byte_range_for_bases": (fc_range, 3 * _N),
    "fc_decode_substring_from_bytes_at_offset": (fc_count, _N + _MEMORY + 3 * _N + _MEMORY),
    "fc_decode_substring_from_bytes": (fc_count, _N + _MEMORY + 2 * _N + _MEMORY),
    "fc_decode_string_from_bytes": (fc_count, _N + _MEMORY + _N + _MEMORY),
    "fc_decode_covered": (fc_covered, _N + _MEMORY + 3 * _N + _MEMORY),
    "fc_decode_rolling": (fc_count, _N + _MEMORY + 3 * _N + _MEMORY),
    "fc_decode_2bit": (fc_count, _MEMORY + 3 * _N + _MEMORY),
    "fc_decode_3bit": (fc_count, _MEMORY + 3 * _N + _MEMORY),
    "fc_decode_4bit": (fc_count, _MEMORY + 3 * _N + _MEMORY),
    "fc_decode_5bit": (fc_count, _MEMORY + 3 * _N + _MEMORY),
    "fc_stream_new": (fc_stream_started, 3 * _N),
    "fc_stream_read": (fc_streamed, [fc_stream] + 2 * _MEMORY),
    "fc_stream_end": (fc_ended, [fc_stream]),
}


def _path():
    """The shared object: the one that FANTAILCLOCK_SO names, else one beside this file, else the one that `build` makes."""
    here = pathlib.Path(__file__).resolve().parent
    beside = here / "libfantailclock.so"
    made = here / "../../target/bindings/python/libfantailclock.so"
    return os.environ.get("FANTAILCLOCK_SO") or str(beside if beside.exists() else made)


def _of_this_version(path, version):
    if version != ABI_VERSION:
        raise ImportError(f"{path} has ABI version {version}, not {ABI_VERSION}")


def _has_all(path, loaded, names):
    """ImportError where a function is missing: one that is only added does not raise the version, so that a library of this
    version may be older than this module."""
    missing = ", ".join(name for name in names if not hasattr(loaded, name))
    if missing:
        raise ImportError(f"{path} lacks {missing}: it is older than this module; make it with bindings/python/build")


def _load():
    """The shared object with every function's types; ImportError where there is none, or one of another version or an older
    one."""
    path = _path()
    try:
        loaded = ctypes.CDLL(path)
    except OSError as error:
        raise ImportError(f"{error}; make it with bindings/python/build") from error
    _has_all(path, loaded, ["fc_abi_version"])
    loaded.fc_abi_version.restype = ctypes.c_uint64
    _of_this_version(path, loaded.fc_abi_version())
    _has_all(path, loaded, _FUNCTIONS)
    for name, (answer, arguments) in _FUNCTIONS.items():
        function = getattr(loaded, name)
        function.restype, function.argtypes = answer, arguments
    return loaded


lib: ctypes.CDLL = _load()


def _extension():
    """The extension module that stands beside the shared object, with its version tested; None where there is none, where
    the shared object was named without a folder, so that the system found it, or where ctypes is asked for."""
    asked = os.environ.get("FANTAILCLOCK_WAY")
    if asked not in (None, "", "ctypes", "extension"):
        raise ImportError(f"FANTAILCLOCK_WAY is {asked}, not extension or ctypes")
    folder = os.path.dirname(lib._name)
    names = [os.path.join(folder, f"_fantailclock{suffix}") for suffix in importlib.machinery.EXTENSION_SUFFIXES]
    path = next((name for name in names if folder and os.path.exists(name)), None)
    if asked == "extension" and path is None:
        raise ImportError(f"no extension module beside {lib._name}; make it with bindings/python/build")
    if asked == "ctypes" or path is None:
        return None
    spec = importlib.util.spec_from_file_location("_fantailclock", path)
    extension = importlib.util.module_from_spec(spec)
    spec.loader.exec_module(extension)
    _of_this_version(path, extension.abi_version())
    _has_all(path, extension, [name for name in vars(_Ctypes) if not name.startswith("_")])
    extension.refuse_by(_refuse)
    return extension


# The calls by ctypes, as the extension module has them: the same arguments by position, the same order of questions, the
# same answers. Numbers are read first, then memory is lent.


class _Buffer(ctypes.Structure):
    """CPython's Py_buffer."""

    _fields_ = [
        ("buf", ctypes.c_void_p),
        ("obj", ctypes.c_void_p),
        ("len", ctypes.c_ssize_t),
        ("itemsize", ctypes.c_ssize_t),
        ("readonly", ctypes.c_int),
        ("ndim", ctypes.c_int),
        ("format", ctypes.c_char_p),
        ("shape", ctypes.c_void_p),
        ("strides", ctypes.c_void_p),
        ("suboffsets", ctypes.c_void_p),
        ("internal", ctypes.c_void_p),
    ]


_WRITABLE = 1  # PyBUF_WRITABLE; without it PyBUF_SIMPLE
_get_buffer = ctypes.pythonapi.PyObject_GetBuffer
_get_buffer.argtypes = [ctypes.py_object, ctypes.POINTER(_Buffer), ctypes.c_int]
_release_buffer = ctypes.pythonapi.PyBuffer_Release
_release_buffer.argtypes = [ctypes.POINTER(_Buffer)]
_release_buffer.restype = None


class _Lent:
    """An object's bytes, lent to one call where they lie: address and length, held until the block ends. A bytes object
    stands for its own address, which ctypes finds faster."""

    __slots__ = ("_owner", "_writable", "_view")

    def __init__(self, owner, writable=False):
        self._owner, self._writable, self._view = owner, writable, None

    def __enter__(self):
        if type(self._owner) is bytes and not self._writable:
            return self._owner, len(self._owner)
        view = _Buffer()
        _get_buffer(self._owner, view, _WRITABLE if self._writable else 0)
        self._view = view
        return view.buf, view.len

    def __exit__(self, *_):
        if self._view is not None:
            _release_buffer(self._view)


def _number(value):
    """A number for the C ABI, which would cut off what 64 bits do not hold."""
    if type(value) is not int:
        value = operator.index(value)
    if not 0 <= value < 1 << 64:
        raise OverflowError("not a number of 64 bits")
    return value


# the values that a refusal has
_VALUES = {fc_packed: ("position", "byte", "bad_count"), fc_ended: ("outstanding",), fc_covered: ("value",)}


def _accepted(answer):
    """The answer of an accepted call; raises the refusal of any other, with its values."""
    if answer.refusal:
        _refuse(answer.refusal, *(getattr(answer, name) for name in _VALUES.get(type(answer), ())))
    return answer


def _overlap(source, length, out, room):
    """Whether two memories share a byte; the bytes of a bytes object, which cannot be lent for output, share none."""
    return type(source) is not bytes and length and room and source < out + room and out < source + length


def _into(function, first, source, numbers, out):
    """The answer of a call with input and output memory, both lent."""
    with _Lent(source) as (address, length), _Lent(out, writable=True) as (room_address, room):
        if _overlap(address, length, room_address, room):
            raise ValueError("input and output memory overlap")
        return _accepted(function(*first, address, length, *numbers, room_address, room))


_FREELY = 1 << 16  # so many bytes are allocated before it is asked whether the call is refused


def _own(function, before, room):
    """The answer of a call that writes `room` bytes (none where that is below 0), and what it wrote, as new bytes;
    `before` are the arguments before its memory.

    A long one is first made with no memory, so that one that is refused by an earlier question is over before memory is
    sought: a window may be 2^60 bases long. Memory that cannot be had is memory too short."""
    if room > _FREELY:
        asked = function(*before, None, 0)
        if asked.refusal != ShortMemory.number:
            _accepted(asked)
    try:
        out = bytes(room if room > 0 else 0)  # filled in place: nobody else holds it yet
    except (MemoryError, OverflowError):
        raise ShortMemory from None
    answer = function(*before, out, len(out))
    if answer.refusal:
        _accepted(answer)
    return answer, out if answer.count == room else out[: answer.count]


_HUNGRY, _FULL = 1, 3  # statuses of a stream


def _filled(pending_bits, symbols, bits):
    """The bytes that symbols fill behind some bits; a state with more than 7 of those is refused whatever the memory."""
    return 0 if pending_bits > 7 else (pending_bits + symbols * bits) // 8


def _read_by_ctypes(name, first, last):
    """A read of a window, plain and into lent memory; `first` numbers stand before its data, `last` behind."""
    function, many = getattr(lib, name), first + 1 + last

    def plain(*given):
        before, data, behind = [*map(_number, given[:first])], given[first], [*map(_number, given[first + 1 :])]
        room = behind[-1] - behind[-2] if last > 1 else behind[-1]
        if type(data) is bytes:
            return _own(function, (*before, data, len(data), *behind), room)[1]
        with _Lent(data) as (address, length):
            return _own(function, (*before, address, length, *behind), room)[1]

    def into(*given):
        before, behind = [*map(_number, given[:first])], [*map(_number, given[first + 1 : many])]
        return _into(function, before, given[first], behind, given[many]).count

    return staticmethod(plain), staticmethod(into)


class _Ctypes:
    """The calls of the extension module, by ctypes."""

    @staticmethod
    def bits_per_symbol(alphabet):
        return _accepted(lib.fc_bits_per_symbol(_number(alphabet))).value

    @staticmethod
    def contains(alphabet, byte):
        return _accepted(lib.fc_contains(_number(alphabet), _number(byte))).value == 1

    @staticmethod
    def display_name(alphabet):
        return _own(lib.fc_display_name, [_number(alphabet)], 8)[1].decode("ascii")

    @staticmethod
    def guess_alphabet(fold, text):
        fold = bool(fold)
        with _Lent(text) as memory:
            return lib.fc_guess_alphabet(fold, *memory).value

    @staticmethod
    def later_alphabet(one, other):
        return _accepted(lib.fc_later_alphabet(_number(one), _number(other))).value

    @staticmethod
    def guesser_new(fold):
        return bytes(lib.fc_guesser_new(bool(fold)))

    @staticmethod
    def guesser_update(state, text):
        with _Lent(text) as memory:
            return bytes(_accepted(lib.fc_guesser_update(fc_guesser.from_buffer_copy(state), *memory)).next)

    @staticmethod
    def guesser_guess(state):
        return _accepted(lib.fc_guesser_guess(fc_guesser.from_buffer_copy(state))).value

    @staticmethod
    def encode_sequence(alphabet, fold, text):
        alphabet, fold = _number(alphabet), bool(fold)
        with _Lent(text) as (address, length):
            room = (length * lib.fc_bits_per_symbol(alphabet).value + 7) // 8
            return _own(lib.fc_encode_sequence, (alphabet, fold, address, length), room)[1]

    @staticmethod
    def encode_sequence_into(alphabet, fold, text, out):
        return _into(lib.fc_encode_sequence, [_number(alphabet), bool(fold)], text, [], out).count

    @staticmethod
    def encoder_new(alphabet, fold):
        return bytes(_accepted(lib.fc_encoder_new(_number(alphabet), bool(fold))).next)

    @staticmethod
    def encoder_update(state, piece):
        state = fc_encoder.from_buffer_copy(state)
        with _Lent(piece) as (address, length):
            room = _filled(state.pending_bits, length, lib.fc_bits_per_symbol(state.alphabet).value)
            answer, packed = _own(lib.fc_encoder_update, (state, address, length), room)
        return packed, bytes(answer.next)

    @staticmethod
    def encoder_update_into(state, piece, out):
        answer = _into(lib.fc_encoder_update, [fc_encoder.from_buffer_copy(state)], piece, [], out)
        return answer.count, bytes(answer.next)

    @staticmethod
    def encoder_ask(state, piece, room):
        room, state = _number(room), fc_encoder.from_buffer_copy(state)
        with _Lent(piece) as memory:
            answer = _accepted(lib.fc_encoder_ask(state, *memory, room))
        return answer.count, bytes(answer.next)

    @staticmethod
    def encoder_finalize(state):
        state = fc_encoder.from_buffer_copy(state)
        return _own(lib.fc_encoder_finalize, [state], int(state.pending_bits > 0))[1]

    @staticmethod
    def encoder_finalize_into(state, out):
        with _Lent(out, writable=True) as memory:
            return _accepted(lib.fc_encoder_finalize(fc_encoder.from_buffer_copy(state), *memory)).count

    @staticmethod
    def byte_range_for_bases(start, end, bits):
        answer = _accepted(lib.fc_byte_range_for_bases(_number(start), _number(end), _number(bits)))
        return answer.start, answer.end

    decode_substring_from_bytes_at_offset, decode_substring_from_bytes_at_offset_into = _read_by_ctypes(
        "fc_decode_substring_from_bytes_at_offset", 1, 3
    )
    decode_substring_from_bytes, decode_substring_from_bytes_into = _read_by_ctypes(
        "fc_decode_substring_from_bytes", 1, 2
    )
    decode_string_from_bytes, decode_string_from_bytes_into = _read_by_ctypes("fc_decode_string_from_bytes", 1, 1)
    decode_covered, decode_covered_into = _read_by_ctypes("fc_decode_covered", 1, 3)
    decode_rolling, decode_rolling_into = _read_by_ctypes("fc_decode_rolling", 1, 3)
    decode_2bit, decode_2bit_into = _read_by_ctypes("fc_decode_2bit", 0, 3)
    decode_3bit, decode_3bit_into = _read_by_ctypes("fc_decode_3bit", 0, 3)
    decode_4bit, decode_4bit_into = _read_by_ctypes("fc_decode_4bit", 0, 3)
    decode_5bit, decode_5bit_into = _read_by_ctypes("fc_decode_5bit", 0, 3)

    @staticmethod
    def stream_new(alphabet, skip, budget):
        return bytes(_accepted(lib.fc_stream_new(_number(alphabet), _number(skip), _number(budget))).next)

    @staticmethod
    def stream_read(state, source, most):
        most, state = _number(most), fc_stream.from_buffer_copy(state)
        with _Lent(source) as (address, length):
            bits = lib.fc_bits_per_symbol(state.alphabet).value
            there = 0 if not bits or state.pending_bits > 7 else (state.pending_bits + length * 8) // bits
            out = bytes(min(there, state.budget, most))
            answer = _accepted(lib.fc_stream_read(state, address, length, out, len(out)))
        hungry = answer.status == _FULL and answer.written < most  # there would be memory for more
        status = _HUNGRY if hungry else answer.status
        return out[: answer.written], answer.taken, status, bytes(answer.next)

    @staticmethod
    def stream_read_into(state, source, out):
        answer = _into(lib.fc_stream_read, [fc_stream.from_buffer_copy(state)], source, [], out)
        return answer.written, answer.taken, answer.status, bytes(answer.next)

    @staticmethod
    def stream_end(state):
        _accepted(lib.fc_stream_end(fc_stream.from_buffer_copy(state)))


_calls: Any = _extension() or _Ctypes
WAY: str = "ctypes" if _calls is _Ctypes else "extension"


# The public names


class _Named(enum.IntEnum):
    """A number that is printed by its name."""

    def __str__(self) -> str:
        return self.name

    def __format__(self, spec: str) -> str:
        return int.__format__(self, spec) if spec[-1:] in tuple("bcdeEfFgGnoxX%") else str.__format__(self.name, spec)


class Alphabet(_Named):
    """The six alphabets by their numbers. Where a function takes one, any number may stand; above 5 it is refused by 8."""

    Dna2bit = 0
    Dna3bit = 1
    DnaIupac = 2
    Protein = 3
    Ascii = 4
    Unknown = 5

    @property
    def bits_per_symbol(self) -> int:
        """The bits of one symbol's code: 2, 3, 4, 5, 8, 8."""
        return _calls.bits_per_symbol(self)

    def contains(self, byte: SupportsIndex) -> bool:
        """Whether the byte, a number, is a symbol of the alphabet, as it is: nothing is folded."""
        return _calls.contains(self, byte)

    @property
    def display_name(self) -> str:
        """dna2bit, dna3bit, dnaio, protein, ASCII or Unknown."""
        return _calls.display_name(self)


_ALPHABETS = tuple(Alphabet)


def guess_alphabet(text: Buffer, *, fold: bool = False) -> Alphabet:
    """The first of Dna2bit, Dna3bit, DnaIupac, Protein and Ascii that holds every byte of the text; with `fold` a byte a to z
    counts as its uppercase letter in the first four."""
    return _ALPHABETS[_calls.guess_alphabet(fold, text)]


def later_alphabet(one: SupportsIndex, other: SupportsIndex) -> Alphabet:
    """The later of two alphabets in the order of their numbers, Dna2bit the first and Unknown the last. The guess for one text
    followed by another is the later of their two guesses, provided that all three fold alike. It is proved of the library that
    this holds, that the combining is associative and commutative, that a guess combined with itself is unchanged, and that
    Dna2bit is its neutral member. A number above 5 is refused by 8."""
    return _ALPHABETS[_calls.later_alphabet(one, other)]


def _is_text(value):
    """Whether a value is one text, a str or memory of single bytes, and no list of texts."""
    if isinstance(value, str):
        return True
    try:
        with memoryview(value) as view:
            return view.ndim == 1 and view.itemsize == 1
    except TypeError:
        return False


def guess_genome(chromosomes: Iterable[Buffer], *, fold: bool = False) -> Alphabet:
    """The guess for a genome out of its chromosomes' guesses: what `guess_alphabet` gives for all of them joined, and Dna2bit for
    none. Each chromosome is guessed once, by the same choice to fold, and every one is taken, also where the answer is Ascii
    already. None is copied or kept: a generator may read them one by one. The genome's alphabet packs every chromosome, by the
    same choice. One text by itself is a TypeError, since its bytes are no chromosomes."""
    if _is_text(chromosomes):
        raise TypeError(f"chromosomes are an iterable of texts, not one text, {type(chromosomes).__name__}")
    guesses = map(functools.partial(_calls.guess_alphabet, bool(fold)), chromosomes)
    return _ALPHABETS[functools.reduce(_calls.later_alphabet, guesses, int(Alphabet.Dna2bit))]


def _kept(state, kind, fold=False):
    """A state that a host hands in; it has its own choice to fold."""
    if not isinstance(state, kind):
        raise TypeError(f"a state is an {kind.__name__}, not {type(state).__name__}")
    if fold:
        raise TypeError("the choice to fold is the state's own")
    return bytes(state)


class Guesser:
    """The same guess, piece by piece, with `fold` or without for the whole text. A state that was kept (an `fc_guesser`) may
    be handed in, and has its choice."""

    def __init__(self, state: Optional[fc_guesser] = None, *, fold: bool = False) -> None:
        self._state = _calls.guesser_new(fold) if state is None else _kept(state, fc_guesser, fold)

    @property
    def state(self) -> fc_guesser:
        """The state, to be kept; a copy."""
        return fc_guesser.from_buffer_copy(self._state)

    def update(self, text: Buffer) -> None:
        """Takes one more piece of the text."""
        self._state = _calls.guesser_update(self._state, text)

    def guess(self) -> Alphabet:
        """The guess for what was seen; Dna2bit for no bytes."""
        return _ALPHABETS[_calls.guesser_guess(self._state)]


def encode_sequence_into(alphabet: SupportsIndex, text: Buffer, out: Buffer, *, fold: bool = False) -> int:
    """Packs a text into the front of `out`; the count is (len * bits + 7) // 8. With `fold` a byte a to z is packed as its
    uppercase letter, except in Ascii and Unknown."""
    return _calls.encode_sequence_into(alphabet, fold, text, out)


def encode_sequence(alphabet: SupportsIndex, text: Buffer, *, fold: bool = False) -> bytes:
    """Packs a text; with `fold` a byte a to z as its uppercase letter, except in Ascii and Unknown."""
    return _calls.encode_sequence(alphabet, fold, text)


class Asked(NamedTuple):
    """The answer of `SequenceEncoder.ask`: the bytes that the update would write, and the encoder as it would be after it.
    Whoever goes on from `next` must have made the update too, unless the count is 0: the bytes are nowhere else."""

    count: int  # type: ignore[assignment] # which a tuple has as a method
    next: "SequenceEncoder"


class SequenceEncoder:
    """Packs a text that comes in pieces: each `update` gives the bytes that its piece completes, `finalize` the last one
    where bits pend; `ask` tells what an `update` would do. With `fold` a byte a to z of any piece is packed as its uppercase
    letter, except in Ascii and Unknown. A byte that is no member is reported by `finalize`: the first as it was received, and
    how many there are in all pieces. A refused call leaves the encoder as it was, its piece uncounted; an accepted `finalize`
    ends the text, and every call after it is a ValueError. A state that was kept (an `fc_encoder`) may be handed in, and has
    its choice."""

    def __init__(
        self, alphabet: Optional[SupportsIndex] = None, state: Optional[fc_encoder] = None, *, fold: bool = False
    ) -> None:
        if (alphabet is None) == (state is None):
            raise TypeError("an encoder starts from an alphabet or from a state")
        self._state = _calls.encoder_new(alphabet, fold) if state is None else _kept(state, fc_encoder, fold)
        self._ended = False

    @property
    def state(self) -> fc_encoder:
        """The state, to be kept; a copy. Its `bad_count` is the number of non-members so far."""
        return fc_encoder.from_buffer_copy(self._state)

    def _open(self):
        if self._ended:
            raise ValueError("the text was ended by finalize")
        return self._state

    def update_into(self, piece: Buffer, out: Buffer) -> int:
        """Packs a piece behind what pends, into the front of `out`; the count of bytes that it completes."""
        count, self._state = _calls.encoder_update_into(self._open(), piece, out)
        return count

    def update(self, piece: Buffer) -> bytes:
        """Packs a piece behind what pends; the bytes that it completes."""
        packed, self._state = _calls.encoder_update(self._open(), piece)
        return packed

    def ask(self, piece: Buffer, room: SupportsIndex) -> Asked:
        """What `update_into` would do with output memory of `room` bytes, which is a number here: no memory is lent, nothing is
        written, and the encoder stays as it is. Raises what the update would raise: with room 0 `ShortMemory` where the piece
        completes a byte, and so needs memory at all. With 2^60 or more that never comes, and the count is how many bytes the
        update will use: lent so many or more it gives the same count and the same next state, lent fewer it is refused.
        Non-members of the piece are counted in the next state and raise nothing here."""
        count, state = _calls.encoder_ask(self._open(), piece, room)
        return Asked(count, SequenceEncoder._at(state))

    @classmethod
    def _at(cls, state):
        encoder = cls.__new__(cls)
        encoder._state, encoder._ended = state, False
        return encoder

    def finalize_into(self, out: Buffer) -> int:
        """Ends the text: writes the last byte where bits pend, with zeros behind them; the count, 0 or 1."""
        count = _calls.encoder_finalize_into(self._open(), out)
        self._ended = True
        return count

    def finalize(self) -> bytes:
        """Ends the text: the last byte where bits pend, with zeros behind them, else nothing."""
        last = _calls.encoder_finalize(self._open())
        self._ended = True
        return last


def byte_range_for_bases(start: SupportsIndex, end: SupportsIndex, bits: SupportsIndex) -> Tuple[int, int]:
    """First byte and end of the bytes of a packed file that hold the bases from `start` to `end`, not including `end`."""
    return _calls.byte_range_for_bases(start, end, bits)


# Reads of a window: the bases from `start` to `end`, not including `end`, of a packed file of which `data` are the bytes
# from `byte_offset` on. A window whose end is at most its start is empty. All but the covered read take a byte that is
# not lent for zero: compare what was fetched with what was asked for, or use `decode_covered`. They also show X for a code of
# Protein that no symbol has, which the covered read refuses.


def decode_substring_from_bytes_at_offset(
    alphabet: SupportsIndex, data: Buffer, byte_offset: SupportsIndex, start: SupportsIndex, end: SupportsIndex
) -> bytes:
    """The window's bases; every byte that is not lent reads as zero, and a code of Protein that no symbol has as X."""
    return _calls.decode_substring_from_bytes_at_offset(alphabet, data, byte_offset, start, end)


def decode_substring_from_bytes_at_offset_into(
    alphabet: SupportsIndex,
    data: Buffer,
    byte_offset: SupportsIndex,
    start: SupportsIndex,
    end: SupportsIndex,
    out: Buffer,
) -> int:
    """The window's bases, into the front of `out`; every byte that is not lent reads as zero, and a code of Protein that no
    symbol has as X."""
    return _calls.decode_substring_from_bytes_at_offset_into(alphabet, data, byte_offset, start, end, out)


def decode_substring_from_bytes(
    alphabet: SupportsIndex, data: Buffer, start: SupportsIndex, end: SupportsIndex
) -> bytes:
    """The window's bases where `data` are the file's first bytes: byte_offset 0."""
    return _calls.decode_substring_from_bytes(alphabet, data, start, end)


def decode_substring_from_bytes_into(
    alphabet: SupportsIndex, data: Buffer, start: SupportsIndex, end: SupportsIndex, out: Buffer
) -> int:
    """The window's bases, into the front of `out`, where `data` are the file's first bytes: byte_offset 0."""
    return _calls.decode_substring_from_bytes_into(alphabet, data, start, end, out)


def decode_string_from_bytes(alphabet: SupportsIndex, data: Buffer, seq_len: SupportsIndex) -> bytes:
    """The first `seq_len` bases: byte_offset and start 0."""
    return _calls.decode_string_from_bytes(alphabet, data, seq_len)


def decode_string_from_bytes_into(alphabet: SupportsIndex, data: Buffer, seq_len: SupportsIndex, out: Buffer) -> int:
    """The first `seq_len` bases, into the front of `out`: byte_offset and start 0."""
    return _calls.decode_string_from_bytes_into(alphabet, data, seq_len, out)


def decode_covered(
    alphabet: SupportsIndex, data: Buffer, byte_offset: SupportsIndex, start: SupportsIndex, end: SupportsIndex
) -> bytes:
    """The covered read: the same bases, refused by 3 where a byte of the window's range is not lent, then by 18 where a base of
    the window has a code that no symbol has (`NoSymbol`, with the first such base)."""
    return _calls.decode_covered(alphabet, data, byte_offset, start, end)


def decode_covered_into(
    alphabet: SupportsIndex,
    data: Buffer,
    byte_offset: SupportsIndex,
    start: SupportsIndex,
    end: SupportsIndex,
    out: Buffer,
) -> int:
    """The covered read, into the front of `out`: refused by 3 where a byte of the window's range is not lent, and at last by 18
    where a base of the window has a code that no symbol has (`NoSymbol`, with the first such base)."""
    return _calls.decode_covered_into(alphabet, data, byte_offset, start, end, out)


def decode_rolling(
    alphabet: SupportsIndex, data: Buffer, byte_offset: SupportsIndex, start: SupportsIndex, end: SupportsIndex
) -> bytes:
    """The engine for any alphabet."""
    return _calls.decode_rolling(alphabet, data, byte_offset, start, end)


def decode_rolling_into(
    alphabet: SupportsIndex,
    data: Buffer,
    byte_offset: SupportsIndex,
    start: SupportsIndex,
    end: SupportsIndex,
    out: Buffer,
) -> int:
    """The engine for any alphabet, into the front of `out`."""
    return _calls.decode_rolling_into(alphabet, data, byte_offset, start, end, out)


def decode_2bit(data: Buffer, byte_offset: SupportsIndex, start: SupportsIndex, end: SupportsIndex) -> bytes:
    """The engine for Dna2bit."""
    return _calls.decode_2bit(data, byte_offset, start, end)


def decode_2bit_into(
    data: Buffer, byte_offset: SupportsIndex, start: SupportsIndex, end: SupportsIndex, out: Buffer
) -> int:
    """The engine for Dna2bit, into the front of `out`."""
    return _calls.decode_2bit_into(data, byte_offset, start, end, out)


def decode_3bit(data: Buffer, byte_offset: SupportsIndex, start: SupportsIndex, end: SupportsIndex) -> bytes:
    """The engine for Dna3bit."""
    return _calls.decode_3bit(data, byte_offset, start, end)


def decode_3bit_into(
    data: Buffer, byte_offset: SupportsIndex, start: SupportsIndex, end: SupportsIndex, out: Buffer
) -> int:
    """The engine for Dna3bit, into the front of `out`."""
    return _calls.decode_3bit_into(data, byte_offset, start, end, out)


def decode_4bit(data: Buffer, byte_offset: SupportsIndex, start: SupportsIndex, end: SupportsIndex) -> bytes:
    """The engine for DnaIupac, two bases from one byte."""
    return _calls.decode_4bit(data, byte_offset, start, end)


def decode_4bit_into(
    data: Buffer, byte_offset: SupportsIndex, start: SupportsIndex, end: SupportsIndex, out: Buffer
) -> int:
    """The engine for DnaIupac, two bases from one byte, into the front of `out`."""
    return _calls.decode_4bit_into(data, byte_offset, start, end, out)


def decode_5bit(data: Buffer, byte_offset: SupportsIndex, start: SupportsIndex, end: SupportsIndex) -> bytes:
    """The engine for Protein, eight bases from five bytes; X for a code that no symbol has."""
    return _calls.decode_5bit(data, byte_offset, start, end)


def decode_5bit_into(
    data: Buffer, byte_offset: SupportsIndex, start: SupportsIndex, end: SupportsIndex, out: Buffer
) -> int:
    """The engine for Protein, eight bases from five bytes, into the front of `out`; X for a code that no symbol has."""
    return _calls.decode_5bit_into(data, byte_offset, start, end, out)


class Status(_Named):
    """What a stream waits for: more source, nothing, more memory."""

    Hungry = 1
    Done = 2
    Full = 3


class Streamed(NamedTuple):
    """The answer of `Stream.read`; `next` is the stream from here on."""

    taken: int
    written: int
    status: Status
    next: "Stream"


class Stream:
    """A stream by value: each read answers the next one, and takes of its source just the bytes that it needs. A state
    that was kept (an `fc_stream`) may be handed in."""

    def __init__(
        self,
        alphabet: Optional[SupportsIndex] = None,
        skip: SupportsIndex = 0,
        budget: SupportsIndex = 0,
        state: Optional[fc_stream] = None,
    ) -> None:
        if (alphabet is None) == (state is None):
            raise TypeError("a stream starts from an alphabet or from a state")
        self._state = _calls.stream_new(alphabet, skip, budget) if state is None else _kept(state, fc_stream)

    @classmethod
    def for_window(cls, alphabet: SupportsIndex, start: SupportsIndex, end: SupportsIndex) -> Stream:
        """The stream of the bases from `start` to `end`; its source begins at the first byte of `byte_range_for_bases`.
        An empty window needs no byte."""
        start, end = _number(start), _number(end)
        bits = _calls.bits_per_symbol(alphabet)
        byte_range_for_bases(start, end, bits)
        return cls(alphabet, start * bits % 8, end - start) if start < end else cls(alphabet)

    @property
    def state(self) -> fc_stream:
        """The state, to be kept; a copy."""
        return fc_stream.from_buffer_copy(self._state)

    def read(self, source: Buffer, out: Buffer) -> Streamed:
        """Takes source bytes and writes bases to the front of `out`, as many as budget, source and memory allow."""
        written, taken, status, state = _calls.stream_read_into(self._state, source, out)
        return Streamed(taken, written, Status(status), Stream._at(state))

    @classmethod
    def _at(cls, state):
        stream = cls.__new__(cls)
        stream._state = state
        return stream

    def end(self) -> None:
        """Raises `Outstanding` unless the skip is done and every base is written."""
        _calls.stream_end(self._state)


_LARGE = 1 << 21  # a large page
_STRETCH = 4 * _LARGE  # so much memory is handed out at a time, ahead of the bases
_ANEW = 1 << 25  # so many bytes and more come from the system anew; fewer may be memory that was used before
_POPULATE = 23  # MADV_POPULATE_WRITE, which Linux has from 5.14 on and Python's mmap does not name
_advise = getattr(ctypes.CDLL(None), "madvise", None) if hasattr(mmap, "MADV_HUGEPAGE") else None
if _advise is not None:
    _advise.argtypes = ctypes.c_void_p, ctypes.c_size_t, ctypes.c_int


def _units(memory, size):
    """Of the units of so many bytes that lie whole within memory, the first one's address and the last one's end."""
    with _Lent(memory, writable=True) as (address, length):
        return -(-address // size) * size, (address + length) // size * size


def _on_large_pages(memory):
    """Asks the system for large pages under new memory, where it has them and the memory is long: to hand out small ones, one
    by one, takes longer than to fill them. It may decline; nothing but the time depends on it."""
    if _advise is None or len(memory) < 2 * _LARGE:
        return
    first, end = _units(memory, _LARGE)
    _advise(first, end - first, mmap.MADV_HUGEPAGE)


@contextlib.contextmanager
def _handed_out(memory):
    """Has the system hand out long new memory a stretch ahead of the bases, by a thread that ends with the block: to clear
    pages takes about as long as to fill them, and a second processor can do it meanwhile. Gives a function that is told how
    many bytes are filled; what it asks for ends at most two stretches beyond these, since a source may end early. Nothing but
    the time depends on it."""
    if _advise is None or len(memory) < _ANEW or len(os.sched_getaffinity(0)) < 2:
        yield lambda filled: None
        return
    first, end = _units(memory, mmap.PAGESIZE)
    due, coming = queue.SimpleQueue(), first

    def hand_out():
        for stretch in iter(due.get, None):
            _advise(stretch, min(_STRETCH, end - stretch), _POPULATE)

    def filled_to(filled):
        nonlocal coming
        while coming < end and coming <= first + filled + _STRETCH:
            due.put(coming)
            coming += _STRETCH

    thread = threading.Thread(target=hand_out, name="fantailclock: memory of read()")
    with contextlib.suppress(RuntimeError):  # where no thread is to be had, pages come as they are written to
        thread.start()
    try:
        yield filled_to
    finally:
        due.put(None)
        if thread.is_alive():
            thread.join()


class Source(Protocol):
    """What a decoder reads from: anything with `read`, as a file has it; None where there is nothing yet."""

    def read(self, count: int, /) -> Optional[Buffer]:
        """At most so many bytes; none at the end."""


_NUMBERS = struct.Struct("=5Q")  # those of an fc_stream


class StreamingDecoder(io.RawIOBase):
    """A window's bases as a file, from any source with `read(n)`.

    Of the source it reads just the bytes that the bases asked for need, nothing ahead. Where the source ends with bases
    outstanding, the bases that it gave are handed out first; then every read raises `Outstanding`, an EOFError. An empty
    answer to a read thus means that the whole window was read. `read()` gives the whole window or raises. A code of Protein
    that no symbol has is handed out as X; `decode_covered` refuses it. A decoder that was closed raises ValueError, as io's own
    do; it leaves its source open."""

    CHUNK = 1 << 16  # the source bytes that one read takes at most
    LONG_CHUNK = 1 << 19  # and those that `read()` takes of a long window: fewer steps, and a cache still holds them
    AT_ONCE = 1 << 30  # the memory that `read()` asks for at once, at most; it is filled in place

    def __init__(
        self, source: Source, alphabet: SupportsIndex, leading_skip_bits: SupportsIndex, bases_to_emit: SupportsIndex
    ) -> None:
        super().__init__()
        self._source, self._state = source, _calls.stream_new(alphabet, leading_skip_bits, bases_to_emit)
        self._bits = _calls.bits_per_symbol(alphabet)

    @classmethod
    def for_window(
        cls, source: Source, alphabet: SupportsIndex, start: SupportsIndex, end: SupportsIndex
    ) -> StreamingDecoder:
        """The bases from `start` to `end`; the source begins at the first byte of `byte_range_for_bases`."""
        state = Stream.for_window(alphabet, start, end).state
        return cls(source, alphabet, state.skip, state.budget)

    @property
    def stream(self) -> Stream:
        """The stream as it stands; its `end` says whether the window is complete."""
        return Stream._at(self._state)

    def _open(self):
        if self.closed:
            raise ValueError("I/O operation on closed file.")

    def readable(self) -> bool:
        """True."""
        self._open()
        return True

    def _fetch(self, bases, most):
        """At most so many source bytes for the next bases, so many or what is left of the budget; None where there is
        nothing yet."""
        _, skip, budget, pending_bits, _ = _NUMBERS.unpack(self._state)
        due = skip + min(bases, budget) * self._bits - pending_bits
        return self._source.read(min((due + 7) // 8, most)) if due > 0 else b""

    def _stepped(self, call, bases, memory, most):
        """Steps by a call until it gives an answer: what it wrote, or None where the source has nothing yet. One source
        read, of at most so many bytes, that gives a base is enough, so an error of the source never loses a base."""
        while True:
            fetched = self._fetch(bases, most)
            if fetched is None:
                return None
            written, taken, status, state = call(self._state, fetched, memory)
            if taken != len(fetched):
                raise ValueError("the source gave more bytes than it was asked for")
            self._state = state
            if written or status != _HUNGRY:
                return written
            if not fetched:
                _calls.stream_end(state)
                raise AssertionError("a hungry stream is not complete")

    def readinto(self, out: Buffer) -> Optional[int]:
        """Writes the next bases to the front of `out`; their count, 0 at the window's end."""
        self._open()
        return self._stepped(_calls.stream_read_into, memoryview(out).nbytes, out, self.CHUNK)

    def read(self, size: Union[SupportsIndex, None] = -1) -> Optional[bytes]:
        """The next bases, at most `size` of them; without a size all that are left."""
        self._open()
        size = -1 if size is None else operator.index(size)
        if size < 0:
            return self.readall()
        return self._stepped(_calls.stream_read, size, min(size, sys.maxsize), self.CHUNK)

    def readall(self) -> Optional[bytes]:
        """All bases that are left; `Outstanding` where the source ends before them."""
        self._open()
        gathered = io.BytesIO(bytes(min(_NUMBERS.unpack(self._state)[2], self.AT_ONCE)))
        with gathered.getbuffer() as memory:
            _on_large_pages(memory)
            count, part = self._fill(memory)
        gathered.truncate(count)
        gathered.seek(count)
        while part is not None:  # None: the source has nothing yet
            part = self.read(self.CHUNK)
            if not part:
                break
            gathered.write(part)
        return None if part is None and not gathered.tell() else gathered.getvalue()

    def _fill(self, memory):
        """Reads bases until the memory is full, the window ends or the source has nothing yet; their count, and the
        answer of the last read."""
        count, answer = 0, 0
        with _handed_out(memory) as filled_to:
            while count < len(memory):
                self._open()
                filled_to(count)
                answer = self._stepped(_calls.stream_read_into, len(memory) - count, memory[count:], self.LONG_CHUNK)
                if not answer:
                    break
                count += answer
        return count, answer
