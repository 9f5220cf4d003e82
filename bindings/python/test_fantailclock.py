"""Tests of fantailclock.py: the shared tables of bindings/tables, every entry point between guard pages, the streaming
decoder, and what Python's own forms could get wrong. Expected values come from the rules or from the slow model below."""

import ctypes
import doctest
import io
import mmap
import os
import pathlib
import random
import re
import signal
import unittest

import fantailclock as fc
from fantailclock import Alphabet

HERE = pathlib.Path(__file__).resolve().parent
HEADER = (HERE.parents[1] / "include/fantailclock.h").read_text()


# The tables


def rows(name):
    """The rows of a table: line, words of the call, answer."""
    for line in (HERE.parent / "tables" / name).read_text().splitlines():
        if line and not line.startswith("#"):
            call, answer = line.split(" = ")
            yield line, call.split(), answer.strip()


def number(word):
    """A decimal number, or a power of two with a number added or taken away."""
    power = re.fullmatch(r"2\^(\d+)([+-]\d+)?", word)
    return (1 << int(power[1])) + int(power[2] or 0) if power else int(word)


def text(word):
    return b"" if word == "-" else word.encode()


# The model: packing and reading bit by bit, from the symbol lists of the rules

LISTS = [b"TCAG", b"ACGTNRYU", b"NACMGRSKTWYUBDHV", b"ACDEFGHIKLMNPQRSTVWY*X-.UBZOJ", bytes(range(256)), bytes(range(256))]
BITS = [2, 3, 4, 5, 8, 8]


CHOICES = False, True  # to fold or not
PACKED = [alphabet for alphabet in Alphabet if alphabet < Alphabet.Ascii]  # the alphabets that fold, and that have non-members


def answered(call):
    """The answer of a call; of a refusal its number and its values."""
    try:
        return call()
    except fc.Refused as refusal:
        return (refusal.number, *refusal.args)


def taken(alphabet, fold, text):
    """What a text stands for by the choice: uppercase letters in the four packed alphabets, itself in the other two."""
    return bytes(text).upper() if fold and alphabet < 4 else bytes(text)


def soft_masked(chance, text):
    """A text with runs of it in lowercase; of the six alphabets' symbols only letters change."""
    masked, at = bytearray(text), 0
    while at < len(masked):
        run = chance.randint(1, 40)
        if chance.random() < 0.5:
            masked[at : at + run] = masked[at : at + run].lower()
        at += run
    return bytes(masked)


def guessed(fold, text):
    """The first alphabet that holds every byte of a text."""
    return next(alphabet for alphabet in Alphabet if set(taken(alphabet, fold, text)) <= set(LISTS[alphabet]))


def packed_len(alphabet, symbols):
    return (symbols * BITS[alphabet] + 7) // 8


def pack(alphabet, symbols):
    """The packing of a text, a non-member as ones."""
    width = BITS[alphabet]
    codes = "".join(format(LISTS[alphabet].find(symbol) % (1 << width), f"0{width}b") for symbol in symbols)
    codes += "0" * (-len(codes) % 8)
    return bytes(int(codes[at : at + 8], 2) for at in range(0, len(codes), 8))


def put(alphabet, file, base, code):
    """Writes the code of one base into a file; all other bits stay."""
    width = BITS[alphabet]
    for bit in range(width):
        at, place = divmod(base * width + bit, 8)
        mask = 0x80 >> place
        file[at] = file[at] | mask if code >> (width - 1 - bit) & 1 else file[at] & ~mask


def not_member(alphabet, fold, text):
    """The refusal of a text that has non-members, with its values: the first as it was received, and how many there are; None
    where all are members."""
    strange = [at for at, byte in enumerate(taken(alphabet, fold, text)) if byte not in LISTS[alphabet]]
    return (5, strange[0], text[strange[0]], len(strange)) if strange else None


def codes(alphabet, data, offset, start, end):
    """The codes of the bases from start to end of a file of which the data are the bytes from an offset on; other bytes are zero."""
    width = BITS[alphabet]
    first, last = start * width // 8, (end * width + 7) // 8
    lent = bytes(data[at - offset] if 0 <= at - offset < len(data) else 0 for at in range(first, last))
    bits = "".join(format(byte, "08b") for byte in lent)[start * width % 8 :]
    return [int(bits[at * width : (at + 1) * width], 2) for at in range(end - start)]


def unpack(alphabet, data, offset, start, end):
    """The bases that they stand for, X for a code that the alphabet's list lacks."""
    symbols = LISTS[alphabet]
    return bytes(symbols[code] if code < len(symbols) else ord("X") for code in codes(alphabet, data, offset, start, end))


def asked(alphabet, offset, start, end, room, lent):
    """What a read asks of a window, into memory of `room` bytes, question by question; None where nothing refuses it. `lent` tells
    whether all bytes are that the read must have."""
    if end <= start:
        return None
    if alphabet > 5:
        return (8,)
    if max(end, offset) > 1 << 60:
        return (2,)
    if not lent():
        return (3,)
    return (4,) if room < end - start else None


def filled(alphabet, data, offset, start, end, room):
    """What a zero-filling read, or an engine, answers: the bases or the refusal."""
    refusal = asked(alphabet, offset, start, end, room, lambda: True)
    if refusal or end <= start:
        return refusal or b""
    return unpack(alphabet, data, offset, start, end)


def covered(alphabet, data, offset, start, end, room):
    """The same for the covered read, the refusal with its value."""

    def lent():
        return offset <= start * BITS[alphabet] // 8 and packed_len(alphabet, end) <= offset + len(data)

    refusal = asked(alphabet, offset, start, end, room, lent)
    if refusal or end <= start:
        return refusal or b""
    found, symbols = codes(alphabet, data, offset, start, end), LISTS[alphabet]
    lacking = [start + at for at, code in enumerate(found) if code >= len(symbols)]
    return (18, lacking[0]) if lacking else bytes(symbols[code] for code in found)


# The worked table


def refused(refusal):
    """A refusal with its values, as the table writes it."""
    if isinstance(refusal, fc.NotMember):
        return f"refused 5 {refusal.position} {refusal.byte:02X} {refusal.count}"
    if isinstance(refusal, fc.Outstanding):
        return f"refused 7 {refusal.bases}"
    if isinstance(refusal, fc.NoSymbol):
        return f"refused 18 {refusal.base}"
    return f"refused {refusal.number}"


def told(call):
    """The answer of a call as text: bytes as `show` has them, or the refusal."""
    try:
        return call()
    except fc.Refused as refusal:
        return refused(refusal)


def written(room, show, call):
    """What a call that writes to memory of `room` bytes wrote, or its refusal."""
    out = bytearray(room)
    return told(lambda: show(out[: call(out)]))


def in_hex(data):
    return data.hex().upper()


def bases(data):
    return data.decode("latin-1")


class Worked(unittest.TestCase):
    """Every row of the worked table. Each method answers one call, by every function that serves it; the rows that have the
    word `folding` hand the choice on, the others are asked with the choice left out and with `fold=False`."""

    def pack(self, alphabet, word, **choice):
        yield written(9, in_hex, lambda out: fc.encode_sequence_into(alphabet, text(word), out, **choice))
        yield told(lambda: in_hex(fc.encode_sequence(alphabet, text(word), **choice)))

    def update(self, alphabet, word, **choice):
        yield written(9, in_hex, lambda out: fc.SequenceEncoder(alphabet, **choice).update_into(text(word), out))
        yield told(lambda: in_hex(fc.SequenceEncoder(alphabet, **choice).update(text(word))))

    def counted(self, count, state):
        """What the table has of an update: the count, and four numbers of the next state."""
        return f"{count} {state.seen} {state.pending_bits} {state.pending} {state.bad_count}"

    def asked_about(self, encoder, piece, room):
        asked = encoder.ask(piece, room)
        return self.counted(asked.count, asked.next.state)

    def ask(self, alphabet, word, room, **choice):
        """Also by the call itself, and by the update of a copy that is lent memory of that length, or of more than the text can
        fill where the length is greater."""
        encoder, room = fc.SequenceEncoder(alphabet, **choice), number(room)
        state, piece = encoder.state, text(word)
        yield told(lambda: self.asked_about(encoder, piece, room))
        answer = fc.lib.fc_encoder_ask(state, piece, len(piece), room)
        self.assertTrue(not answer.refusal or (answer.count, bytes(answer.next)) == (0, bytes(state)))
        yield f"refused {answer.refusal}" if answer.refusal else self.counted(answer.count, answer.next)
        copy = fc.SequenceEncoder(state=state)
        yield told(lambda: self.counted(copy.update_into(piece, bytearray(min(room, 64))), copy.state))

    def finalize(self, alphabet, word, **choice):
        encoder = fc.SequenceEncoder(alphabet, **choice)
        encoder.update(text(word))
        yield written(9, in_hex, fc.SequenceEncoder(state=encoder.state).finalize_into)
        yield told(lambda: in_hex(encoder.finalize()))

    def read(self, alphabet, data, *numbers):
        lent = bytes.fromhex("" if data == "-" else data)
        offset, start, end, room = map(number, numbers)
        for _, read in reads(alphabet, offset, start):
            yield written(room, bases, lambda out, read=read: read(alphabet, lent, offset, start, end, out))

    def covered(self, alphabet, data, *numbers):
        offset, start, end, room = map(number, numbers)
        window = alphabet, bytes.fromhex(data), offset, start, end
        yield written(room, bases, lambda out: fc.decode_covered_into(*window, out))
        if end - start <= room:  # else the memory that it finds for itself is longer
            yield told(lambda: bases(fc.decode_covered(*window)))

    def streamed(self, alphabet, skip, budget, source, room):
        source = bytes.fromhex("" if source == "-" else source)
        return fc.Stream(alphabet, number(skip), number(budget)).read(source, bytearray(number(room)))

    def stream(self, alphabet, *words):
        step = self.streamed(alphabet, *words)
        yield f"{step.taken} {step.written} {step.status.name}"

    def end(self, alphabet, *words):
        yield told(self.streamed(alphabet, *words).next.end)

    def guess(self, word, **choice):
        guesser = fc.Guesser(**choice)
        for at in range(len(text(word))):
            guesser.update(text(word)[at : at + 1])
        yield guesser.guess().name
        yield fc.guess_alphabet(text(word), **choice).name

    def later(self, *numbers):
        yield told(lambda: str(int(fc.later_alphabet(*map(number, numbers)))))
        answer = fc.lib.fc_later_alphabet(*map(number, numbers))
        self.assertFalse(answer.refusal and answer.value)
        yield f"refused {answer.refusal}" if answer.refusal else str(answer.value)

    def genome(self, *words, **choice):
        chromosomes = [text(word) for word in words]
        yield fc.guess_genome(chromosomes, **choice).name
        yield fc.guess_genome((each for each in chromosomes), **choice).name
        yield fc.guess_alphabet(b"".join(chromosomes), **choice).name

    def range(self, *numbers):
        yield told(lambda: "{} {}".format(*fc.byte_range_for_bases(*map(number, numbers))))

    def answers(self, call, *words, **choice):
        if call in ("guess", "range", "later", "genome"):
            return list(getattr(self, call)(*words, **choice))
        named = [alphabet for alphabet in Alphabet if words[0] in ("*", alphabet.name)]
        return [answer for alphabet in named for answer in getattr(self, call)(alphabet, *words[1:], **choice)]

    def asked(self, call, *words):
        """The answers of a row's call, by every way to say its choice."""
        if call == "folding":
            return self.answers(*words, fold=True)
        has_choice = call in ("pack", "update", "ask", "finalize", "guess", "genome")
        return self.answers(call, *words) + (self.answers(call, *words, fold=False) if has_choice else [])

    def test_every_row(self):
        count, folding = 0, 0
        for line, words, expected in rows("worked.txt"):
            answers = self.asked(*words)
            self.assertTrue(answers, line)
            self.assertEqual(answers, [expected] * len(answers), line)
            count, folding = count + 1, folding + (words[0] == "folding")
        self.assertEqual((count, folding), (166, 27))

    def test_names_numbers_and_bits(self):
        names = ["dna2bit", "dna3bit", "dnaio", "protein", "ASCII", "Unknown"]
        self.assertEqual([alphabet.display_name for alphabet in Alphabet], names)
        self.assertEqual([alphabet.bits_per_symbol for alphabet in Alphabet], BITS)
        self.assertEqual(list(Alphabet), list(range(6)))
        for alphabet in Alphabet:
            members = bytes(byte for byte in range(256) if alphabet.contains(byte))
            self.assertEqual(members, bytes(sorted(LISTS[alphabet])))
            self.assertFalse(alphabet.contains(256 + ord("A")))

    def test_the_module_s_example(self):
        failed, tried = doctest.testmod(fc)
        self.assertEqual((failed, tried > 0), (0, True))


# Forged states

PATTERN = b"\xc3" * 8


class States(unittest.TestCase):
    """States that a host forges: one that is refused comes back as it was, with no byte changed."""

    def states(self, kind, struct, count):
        found = [(line, struct(*map(number, words[1:])), int(answer))
                 for line, words, answer in rows("states.txt") if words[0] == kind]
        self.assertEqual(len(found), count)
        return found

    def refusal(self, call):
        """The number by which a call is refused, 0 if it is not, and its answer."""
        try:
            return 0, call()
        except fc.Refused as refusal:
            return refusal.number, None

    def test_guessers(self):
        for line, state, refusal in self.states("guesser", fc.fc_guesser, 24):
            lowercase = state.mask if refusal or state.fold else state.mask & 16
            for piece, mask in (b"", state.mask), (b"ACGT", state.mask), (b"a", lowercase):
                guesser, after = fc.Guesser(state=state), fc.fc_guesser(mask, state.fold)
                self.assertEqual(self.refusal(lambda: guesser.update(piece))[0], refusal, line)
                self.assertEqual(bytes(guesser.state), bytes(after), line)
                answer = fc.lib.fc_guesser_update(state, ctypes.create_string_buffer(piece), len(piece))
                self.assertEqual(bytes(answer), bytes(fc.fc_guessing(refusal, after)), line)
            place = (state.mask & -state.mask).bit_length() - 1
            guess = self.refusal(fc.Guesser(state=state).guess)
            self.assertEqual(guess, (refusal, None if refusal else place), line)

    def test_encoders(self):
        for line, state, refusal in self.states("encoder", fc.fc_encoder, 188):
            next_state = fc.fc_encoder.from_buffer_copy(state)
            if not refusal and not state.has_bad:
                next_state.bad_position = next_state.bad_byte = 0  # ignored, and answered as zeros
            for call in "update", "update_into":
                self.update(line, state, b"", call, refusal, next_state)
                number = refusal or (2 if state.seen == 1 << 60 else 0)
                if number:
                    self.update(line, state, b"ACGT", call, number, state)
            self.last_byte(line, state, refusal)

    def update(self, line, state, piece, call, refusal, next_state):
        encoder, out = fc.SequenceEncoder(state=state), bytearray(PATTERN)
        memory = [out] if call == "update_into" else []
        self.assertEqual(self.refusal(lambda: getattr(encoder, call)(piece, *memory))[0], refusal, line)
        self.assertEqual(bytes(encoder.state), bytes(next_state), line)
        self.assertEqual(out, PATTERN, line)
        lent = (ctypes.c_uint8 * 8).from_buffer(out)
        answer = fc.lib.fc_encoder_update(state, ctypes.create_string_buffer(piece), len(piece), lent, 8)
        self.assertEqual((answer.refusal, answer.count, bytes(answer.next)), (refusal, 0, bytes(next_state)), line)
        self.assertEqual(out, PATTERN, line)

    def last_byte(self, line, state, refusal):
        """Its refusal; else 5 with the first non-member and the count; else the pending bits with zeros behind them."""
        out, after, encoder = bytearray(PATTERN), bytearray(PATTERN), fc.SequenceEncoder(state=state)
        bad = not refusal and state.has_bad == 1
        expected = (refusal, None) if refusal else (5, None) if bad else (0, int(state.pending_bits > 0))
        if expected == (0, 1):
            after[0] = state.pending << (8 - state.pending_bits)
            self.assertEqual(self.refusal(lambda: encoder.finalize_into(bytearray()))[0], 4, line)
        self.assertEqual((self.refusal(lambda: encoder.finalize_into(out)), out), (expected, after), line)
        if bad:
            with self.assertRaises(fc.NotMember) as caught:
                encoder.finalize()
            told = caught.exception.position, caught.exception.byte, caught.exception.count
            self.assertEqual(told, (state.bad_position, state.bad_byte, state.bad_count), line)

    def test_streams(self):
        for line, state, refusal in self.states("stream", fc.fc_stream, 35):
            stream, out = fc.Stream(state=state), bytearray(PATTERN)
            number, step = self.refusal(lambda: stream.read(b"", bytearray()))
            self.assertEqual(number, refusal, line)
            if refusal:
                self.assertEqual(self.refusal(lambda: stream.read(b"\xff" * 4, out))[0], refusal, line)
                lent = (ctypes.c_uint8 * 8).from_buffer(out)
                answer = fc.lib.fc_stream_read(state, ctypes.create_string_buffer(b"\7"), 1, lent, 8)
                self.assertEqual(bytes(answer), bytes(fc.fc_streamed(refusal, 0, 0, 0, state)), line)
                self.assertEqual(out, PATTERN, line)
            else:
                # no source and no memory: nothing moves, and the status is the first that holds
                status = fc.Status.Hungry if state.skip else fc.Status.Full if state.budget else fc.Status.Done
                self.assertEqual(step[:3], (0, 0, status), line)
                self.assertEqual(bytes(step.next.state), bytes(state), line)
            due = 7 if state.skip or state.budget else 0
            self.assertEqual(self.refusal(stream.end)[0], refusal or due, line)
            if due and not refusal:
                with self.assertRaises(fc.Outstanding) as caught:
                    stream.end()
                self.assertEqual(caught.exception.bases, state.budget, line)

    def test_refused_starts(self):
        for alphabet in 6, 256, 1 << 32, (1 << 64) - 1:
            self.assertEqual(self.refusal(lambda: fc.SequenceEncoder(alphabet))[0], 8)
            self.assertEqual(self.refusal(lambda: fc.SequenceEncoder(alphabet, fold=True))[0], 8)
            for fold in 0, 1, 2, 1 << 63, (1 << 64) - 1:
                echo = fc.fc_encoder(alphabet, fold=fold)
                started = fc.lib.fc_encoder_new(alphabet, fold)
                self.assertEqual(bytes(started), bytes(fc.fc_encoder_started(8, echo)))
            self.assertEqual(self.refusal(lambda: fc.Stream(alphabet, 8, 5))[0], 8)
        for skip in 8, 255, 256, 1 << 32, (1 << 64) - 1:
            self.assertEqual(self.refusal(lambda: fc.Stream(0, skip, 5))[0], 6)
            started = fc.lib.fc_stream_new(3, skip, 5)
            self.assertEqual(bytes(started), bytes(fc.fc_stream_started(6, fc.fc_stream(3, skip, 5, 0, 0))))


# Guard pages

libc = ctypes.CDLL(None, use_errno=True)
libc.mmap.restype = ctypes.c_void_p
libc.mmap.argtypes = [ctypes.c_void_p, ctypes.c_size_t, ctypes.c_int, ctypes.c_int, ctypes.c_int, ctypes.c_long]
libc.mprotect.argtypes = [ctypes.c_void_p, ctypes.c_size_t, ctypes.c_int]
PAGE = mmap.PAGESIZE
READ, READ_WRITE = mmap.PROT_READ, mmap.PROT_READ | mmap.PROT_WRITE


class Guarded:
    """A page between two pages that may not be touched."""

    def __init__(self):
        start = libc.mmap(None, 3 * PAGE, 0, mmap.MAP_PRIVATE | mmap.MAP_ANONYMOUS, -1, 0)
        assert start != ctypes.c_void_p(-1).value, "mmap"
        self.page = start + PAGE
        self.allow(READ_WRITE)

    def allow(self, allowed):
        assert libc.mprotect(self.page, PAGE, allowed) == 0, "mprotect"

    def place(self, back, length):
        """Where memory of this length begins in the page: against the page before, or against the one behind."""
        assert length <= PAGE
        return PAGE - length if back else 0

    def lend(self, back, length):
        return (ctypes.c_uint8 * length).from_address(self.page + self.place(back, length))

    def content(self):
        return ctypes.string_at(self.page, PAGE)


class Harness:
    """Makes calls with all memory against guard pages."""

    def __init__(self, test):
        self.test, self.input, self.output = test, Guarded(), Guarded()
        self.calls, self.entries = 0, set()

    def check(self, entry, about, data, room, expected, call):
        """The call with input and memory at either end of their pages. `expected` are the bytes at the front of the memory
        afterwards, which the call counts, or its refusal: the number, or the number and its values in a tuple; every byte
        beside them stays."""
        for from_back in False, True:
            for to_back in False, True:
                self.check_at((entry, about, room, from_back, to_back), data, expected, call)

    def check_once(self, entry, about, data, room, expected, call):
        """The same at one end of each page, the next call at another."""
        self.check_at((entry, about, room, bool(self.calls & 1), bool(self.calls & 2)), data, expected, call)

    def check_at(self, what, data, expected, call):
        entry, _, room, from_back, to_back = what
        self.entries.add(entry)
        self.calls += 1
        pattern = bytes([(0xC3 ^ self.calls) & 255])
        ctypes.memset(self.output.page, pattern[0], PAGE)
        source, out = self.input.lend(from_back, len(data)), self.output.lend(to_back, room)
        ctypes.memmove(source, bytes(data), len(data))
        self.input.allow(READ)
        try:
            answer = call(source, out)
        except fc.Refused as refusal:
            answer = (refusal.number, *refusal.args)
        self.input.allow(READ_WRITE)
        kept = expected if isinstance(expected, bytes) else b""
        wanted = (expected,) if isinstance(expected, int) else expected if isinstance(expected, tuple) else len(expected)
        front = self.output.place(to_back, room)
        after = pattern * front + kept + pattern * (PAGE - front - len(kept))
        self.test.assertEqual(answer, wanted, what)
        self.test.assertTrue(self.output.content() == after, (what, "memory is not as expected"))


ENGINES = {  # of one alphabet, by their plain names
    Alphabet.Dna2bit: "decode_2bit", Alphabet.Dna3bit: "decode_3bit", Alphabet.DnaIupac: "decode_4bit", Alphabet.Protein: "decode_5bit"
}


def reads(alphabet, offset, start):
    """The zero-filling reads and engines that serve a window, with one shape."""
    yield "fc_decode_substring_from_bytes_at_offset", fc.decode_substring_from_bytes_at_offset_into
    yield "fc_decode_rolling", fc.decode_rolling_into
    if offset == 0:
        yield "fc_decode_substring_from_bytes", lambda a, data, _, s, e, out: fc.decode_substring_from_bytes_into(a, data, s, e, out)
    if offset == 0 and start == 0:
        yield "fc_decode_string_from_bytes", lambda a, data, _, __, e, out: fc.decode_string_from_bytes_into(a, data, e, out)
    if alphabet in ENGINES:
        into = getattr(fc, f"{ENGINES[alphabet]}_into")
        yield f"fc_{ENGINES[alphabet]}", lambda _, *window: into(*window)


def rooms(needed):
    """Memory that is a byte short, just enough, and more than enough."""
    return [room for room in (needed - 1, needed, needed + 9) if 0 <= room <= PAGE]


def fitting(data, room):
    """The bytes where the memory has room for them, else refusal 4."""
    return data if len(data) <= room else 4


class BetweenGuardPages(unittest.TestCase):
    """Every entry point that is lent memory: a byte read or written outside it stops the process."""

    def setUp(self):
        self.harness, self.random = Harness(self), random.Random(1)

    def texts(self, alphabet, fold, text):
        packed = pack(alphabet, taken(alphabet, fold, text))
        about = alphabet.name, fold, len(text)
        for room in rooms(len(packed)):
            self.harness.check("fc_encode_sequence", about, text, room, fitting(packed, room),
                               lambda data, out: fc.encode_sequence_into(alphabet, data, out, fold=fold))
        stranger = b"{" if fold else b"a"
        for strange in (text[:-1] + stranger, stranger * len(text)) if text and len(LISTS[alphabet]) < 256 else ():
            self.harness.check("fc_encode_sequence", about, strange, len(text), not_member(alphabet, fold, strange),
                               lambda data, out: fc.encode_sequence_into(alphabet, data, out, fold=fold))
        for entry, function in ("fc_guess_alphabet", fc.guess_alphabet), ("fc_guesser_update", self.updated):
            self.harness.check(entry, about, text, 0, b"", lambda data, _: self.guess(function, fold, data))

    def updated(self, data, fold):
        guesser = fc.Guesser(fold=fold)
        guesser.update(data)
        return guesser.guess()

    def guess(self, function, fold, data):
        self.assertEqual(function(data, fold=fold), guessed(fold, data))
        return 0

    def pieces(self, alphabet, fold, text, before):
        first, piece = text[:before], text[before:]
        encoder, packed = fc.SequenceEncoder(alphabet, fold=fold), pack(alphabet, taken(alphabet, fold, text))
        encoder.update(first)
        start, end = len(first) * BITS[alphabet] // 8, len(text) * BITS[alphabet] // 8
        about = alphabet.name, fold, len(text), before
        for room in rooms(end - start):
            self.harness.check("fc_encoder_update", about, piece, room, fitting(packed[start:end], room),
                               lambda data, out: fc.SequenceEncoder(state=encoder.state).update_into(data, out))
            nothing = 4 if room < end - start else b""  # the page that the update would be lent is not written to
            self.harness.check("fc_encoder_ask", about, piece, room, nothing,
                               lambda data, out: self.asked(encoder, data, len(out), end - start))
        encoder.update(piece)
        for room in rooms(len(packed) - end):
            self.harness.check("fc_encoder_finalize", about, b"", room, fitting(packed[end:], room),
                               lambda _, out: fc.SequenceEncoder(state=encoder.state).finalize_into(out))

    def asked(self, encoder, data, room, count):
        asked, copy = encoder.ask(data, room), fc.SequenceEncoder(state=encoder.state)
        self.assertEqual((asked.count, len(copy.update(data)), bytes(asked.next.state)), (count, count, bytes(copy.state)))
        return 0

    def window(self, alphabet, file, lent, window):
        (first, last), (start, end) = lent, window
        data, about = file[first:last], (alphabet.name, lent, window)
        expected = unpack(alphabet, data, first, start, end)
        for room in rooms(len(expected)):
            for entry, read in reads(alphabet, first, start):
                self.harness.check(entry, about, data, room, fitting(expected, room),
                                   lambda data, out, read=read: read(alphabet, data, first, start, end, out))
            self.harness.check("fc_decode_covered", about, data, room, covered(alphabet, data, first, start, end, room),
                               lambda data, out: fc.decode_covered_into(alphabet, data, first, start, end, out))

    def stream(self, alphabet, file, window):
        start, end = window
        width, skip = BITS[alphabet], start * BITS[alphabet] % 8
        first, last = start * width // 8, (end * width + 7) // 8
        expected = unpack(alphabet, file, 0, start, end)
        for source in file[first:last], file[first : max(last, first + 1) - 1]:
            for room in rooms(len(expected)):
                count = min(end - start, room, max(len(source) * 8 - skip, 0) // width)
                taken = 0 if skip and not source else (skip + count * width + 7) // 8
                self.harness.check("fc_stream_read", (alphabet.name, window, len(source)), source, room, expected[:count],
                                   lambda data, out: self.stepped(alphabet, skip, end - start, data, out, taken))

    def stepped(self, alphabet, skip, budget, data, out, taken):
        step = fc.Stream(alphabet, skip, budget).read(data, out)
        self.assertEqual(step.taken, taken)
        return step.written

    def test_texts_and_pieces(self):
        for alphabet in Alphabet:
            for length in [*range(73), 4095, 4096]:
                members = bytes(self.random.choices(LISTS[alphabet], k=length))
                for fold, text in (False, members), (True, soft_masked(self.random, members)):
                    self.texts(alphabet, fold, text)
                    self.pieces(alphabet, fold, text, length % 9)
        print(f"{self.harness.calls} calls between guard pages")

    def test_windows_and_streams(self):
        for alphabet in Alphabet:
            for length in [*range(73), 4095, 4096]:
                files = [self.random.randbytes(packed_len(alphabet, length))]
                if alphabet == Alphabet.Protein:  # one without codes that no symbol has
                    files.append(pack(alphabet, self.random.choices(LISTS[alphabet], k=length)))
                start = self.random.randint(0, length)
                for window in (0, length), (start, self.random.randint(start, length)):
                    first, last = fc.byte_range_for_bases(*window, BITS[alphabet])
                    for file in files:
                        for lent in (first, last), (first, max(last, first + 1) - 1), (min(first + 1, last), last):
                            self.window(alphabet, file, lent, window)
                        self.stream(alphabet, file, window)
        print(f"{self.harness.calls} calls between guard pages")

    def test_names(self):
        for alphabet, name in enumerate(b"dna2bit dna3bit dnaio protein ASCII Unknown".split()):
            for room in range(9):
                self.harness.check("fc_display_name", name, b"", room, fitting(name, room),
                                   lambda _, out: fc._accepted(fc.lib.fc_display_name(alphabet, out, len(out))).count)

    def test_no_entry_point_is_left_out(self):
        for alphabet in ENGINES:
            self.texts(alphabet, True, b"ACgt")
            self.pieces(alphabet, True, b"ACgt", 1)
            self.window(alphabet, b"\7\7\7", (0, 3), (0, 4))
            self.stream(alphabet, b"\7\7\7", (0, 4))
        self.test_names()
        lent = set(re.findall(r"^fc_\w+ (fc_\w+)\(.*uint8_t \*", HEADER, re.MULTILINE))
        self.assertEqual(self.harness.entries, lent)
        declared = set(re.findall(r"^\w+ (fc_\w+)\(", HEADER, re.MULTILINE))
        self.assertEqual(set(fc._FUNCTIONS), declared)

    def test_a_trespass_is_noticed(self):
        """In a child process each: a guard page stops it."""
        guarded, other = Guarded(), Guarded()
        out, source = guarded.lend(True, 8), other.lend(True, 8)
        nine = ctypes.create_string_buffer(b"ACGTACGTA", 9)
        other.allow(READ)
        trespasses = {
            "read behind": lambda: ctypes.string_at(guarded.page + PAGE, 1),
            "read before": lambda: ctypes.string_at(guarded.page - 1, 1),
            "write behind": lambda: ctypes.memset(guarded.page + PAGE, 0, 1),
            "write to the input": lambda: ctypes.memset(source, 0, 1),
            "a text too long": lambda: fc.lib.fc_encode_sequence(4, 1, source, 9, guarded.page, PAGE),
            "memory too long": lambda: fc.lib.fc_encode_sequence(4, 1, nine, 9, out, 9),
            "a piece too long to be asked about": lambda: fc.lib.fc_encoder_ask(fc.fc_encoder(), source, 9, 9),
            "a window's bytes too many": lambda: fc.lib.fc_decode_5bit(source, 9, 0, 0, 14, guarded.page, PAGE),
        }
        for what, trespass in trespasses.items():
            self.assertEqual(self.child(trespass), signal.SIGSEGV, what)
        self.assertEqual(self.child(lambda: None), 0, "the child fails by itself")

    def child(self, act):
        """The signal that stopped a child that does this, 0 if none did."""
        child = os.fork()
        if child == 0:
            try:
                act()
            finally:
                os._exit(0)
        status = os.waitpid(child, 0)[1]
        return os.WTERMSIG(status) if os.WIFSIGNALED(status) else 0


# The streaming decoder


class Source:
    """A source that gives at most `most` bytes a read, and counts what it gave."""

    def __init__(self, data, most=1 << 30):
        self.data, self.most, self.given = data, most, 0

    def read(self, count):
        found = self.data[self.given : self.given + min(count, self.most)]
        self.given += len(found)
        return found


class Failing(Source):
    """A source that fails at its every second read and loses nothing by it."""

    failed = False

    def read(self, count):
        self.failed = not self.failed
        if self.failed:
            raise TimeoutError
        return super().read(count)


class Streaming(unittest.TestCase):
    def windows(self):
        """A file of random bits and a window of it."""
        chance = random.Random(3)
        for alphabet in Alphabet:
            for length in 0, 1, 2, 3, 7, 8, 9, 30, 70, 9000:
                start = chance.randint(0, 40)
                yield alphabet, chance.randbytes(9100), start, start + length

    def drained(self, decoder, step):
        """What reads of so many bases each give until the window's end or a refusal, which is answered too."""
        found = bytearray()
        while True:
            try:
                read = decoder.read(step)
            except TimeoutError:
                continue
            except fc.Refused as refusal:
                return found, refusal
            if not read:
                return found, None
            found += read

    def test_a_window_is_whole_and_no_byte_is_read_ahead(self):
        for alphabet, file, start, end in self.windows():
            first, last = start * BITS[alphabet] // 8, packed_len(alphabet, end)
            for most, step in (3, 5), (1 << 30, 7), (1 << 30, 1 << 20):
                for kind in Source, Failing:
                    source = kind(file[first:], most)
                    decoder = fc.StreamingDecoder.for_window(source, alphabet, start, end)
                    found, refusal = self.drained(decoder, step)
                    self.assertIsNone(refusal)
                    self.assertTrue(found == unpack(alphabet, file, 0, start, end), (alphabet, start, end, most, step))
                    decoder.stream.end()
                    self.assertEqual(source.given, last - first if start < end else 0)

    def test_a_short_source_is_never_a_whole_window(self):
        for alphabet, file, start, end in self.windows():
            width, first = BITS[alphabet], start * BITS[alphabet] // 8
            needed = packed_len(alphabet, end) - first
            for length in (0, needed // 2, needed - 1) if start < end else ():
                whole = max(length * 8 - start * width % 8, 0) // width
                for step in 5, 1 << 20:
                    source = Source(file[first : first + length], 3)
                    decoder = fc.StreamingDecoder.for_window(source, alphabet, start, end)
                    found, refusal = self.drained(decoder, step)
                    self.assertTrue(found == unpack(alphabet, file, 0, start, start + whole))
                    self.assertIsInstance(refusal, EOFError)
                    self.assertEqual((refusal.number, refusal.bases), (7, end - start - whole))
                    with self.assertRaises(fc.Outstanding):
                        decoder.read(8)
                whole_read = fc.StreamingDecoder.for_window(io.BytesIO(file[first : first + length]), alphabet, start, end)
                with self.assertRaises(fc.Outstanding):
                    whole_read.read()

    def test_nothing_is_read_before_it_is_asked_for(self):
        source = Source(b"\xe4" * 64)
        decoder = fc.StreamingDecoder.for_window(source, Alphabet.Dna2bit, 1, 200)
        for count in range(1, 200):
            decoder.read(1)
            self.assertEqual(source.given, (2 + count * 2 + 7) // 8)

    def test_the_skip_of_a_window(self):
        for alphabet in Alphabet:
            for start in [*range(17), (1 << 60) - 9, (1 << 60) - 2]:
                state = fc.Stream.for_window(alphabet, start, start + 2).state
                self.assertEqual((state.alphabet, state.skip, state.budget), (alphabet, start * BITS[alphabet] % 8, 2))

    def test_a_skip_is_due_even_with_no_base(self):
        with self.assertRaises(fc.Outstanding):
            fc.StreamingDecoder(io.BytesIO(), 0, 3, 0).read(4)
        self.assertEqual(fc.StreamingDecoder(io.BytesIO(b"\t"), 0, 3, 0).read(4), b"")
        with self.assertRaises(fc.BadSkip):
            fc.StreamingDecoder(io.BytesIO(), 0, 8, 0)
        self.assertEqual(fc.StreamingDecoder.for_window(io.BytesIO(), 0, 9, 4).read(), b"")

    def test_a_source_that_gives_too_much_is_noticed(self):
        class Generous:
            def read(self, _):
                return bytes(64)

        with self.assertRaises(ValueError):
            fc.StreamingDecoder(Generous(), 0, 0, 4).read(4)


class Forms(unittest.TestCase):
    """What Python's own forms could get wrong."""

    def test_plain_names_give_what_lent_memory_gets(self):
        chance = random.Random(4)
        for alphabet in Alphabet:
            for length in range(40):
                members = bytes(chance.choices(LISTS[alphabet], k=length))
                packed = fc.encode_sequence(alphabet, members)
                self.assertEqual(packed, pack(alphabet, members))
                cut, encoder = chance.randint(0, length), fc.SequenceEncoder(alphabet)
                joined = encoder.update(members[:cut]) + encoder.update(members[cut:]) + encoder.finalize()
                self.assertEqual(joined, packed)
                self.assertEqual(fc.decode_string_from_bytes(alphabet, packed, length), members)
                self.assertEqual(fc.decode_substring_from_bytes(alphabet, packed, cut, length), members[cut:])
                for read in fc.decode_substring_from_bytes_at_offset, fc.decode_covered, fc.decode_rolling:
                    self.assertEqual(read(alphabet, packed, byte_offset=0, start=cut, end=length), members[cut:])
                if alphabet in ENGINES:
                    self.assertEqual(getattr(fc, ENGINES[alphabet])(packed, byte_offset=0, start=cut, end=length), members[cut:])
        self.assertEqual(fc.decode_2bit(b"\x1b", 0, 1, 4), b"CAG")
        self.assertEqual(fc.decode_3bit(b"\x05\x39\x77", 0, 2, 6), b"GTNR")
        self.assertEqual(fc.decode_4bit(b"\x01\x23", 0, 1, 4), b"ACM")
        self.assertEqual(fc.decode_5bit(b"\x52\x28", 0, 1, 3), b"K*")

    def test_every_kind_of_memory(self):
        for kind in bytes, bytearray, memoryview, lambda data: memoryview(bytearray(data))[:]:
            self.assertEqual(fc.encode_sequence(0, kind(b"ACGT")), b"\x9c")
            self.assertEqual(fc.guess_alphabet(kind(b"ACGU")), Alphabet.Dna3bit)
        for wrong in "ACGT", None, 7:
            self.assertRaises(TypeError, fc.guess_alphabet, wrong)
        self.assertRaises(BufferError, fc.guess_alphabet, memoryview(b"ACGT")[::2])
        self.assertRaises(BufferError, fc.encode_sequence_into, 0, b"ACGT", b"....")  # bytes cannot be lent for output

    def test_memory_is_not_kept(self):
        data = bytearray(b"ACGT")
        fc.guess_alphabet(data)
        fc.encode_sequence_into(0, data, bytearray(4))
        with self.assertRaises(fc.ShortMemory):
            fc.encode_sequence_into(0, data, bytearray())
        data.append(0)  # refused by Python while a call still holds the memory

    def test_memory_that_overlaps(self):
        memory = memoryview(bytearray(b"ACGTACGT"))
        for source, out in (memory, memory), (memory[:5], memory[4:]), (memory[4:], memory[:5]):
            self.assertRaises(ValueError, fc.encode_sequence_into, 4, source, out)
        self.assertEqual(memory, b"ACGTACGT")
        self.assertEqual(fc.encode_sequence_into(4, memory[:4], memory[4:]), 4)
        self.assertEqual(fc.encode_sequence_into(4, memory[4:4], memory), 0)

    def test_numbers_that_64_bits_do_not_hold(self):
        for value in -1, 1 << 64, (1 << 64) + 2:
            self.assertRaises(OverflowError, fc.byte_range_for_bases, 0, value, 2)
            self.assertRaises(OverflowError, fc.encode_sequence, value, b"")
            self.assertRaises(OverflowError, fc.Stream, 0, 0, value)
            self.assertRaises(OverflowError, fc.decode_covered, 0, b"", value, 0, 1)
        self.assertRaises(TypeError, fc.byte_range_for_bases, 0, 1.5, 2)

    def test_windows_that_no_memory_holds(self):
        self.assertRaises(fc.ShortMemory, fc.decode_string_from_bytes, 0, b"", 1 << 60)
        self.assertRaises(fc.TooFar, fc.decode_string_from_bytes, 0, b"", (1 << 60) + 1)
        self.assertRaises(fc.Uncovered, fc.decode_covered, 0, b"", 0, 0, 1 << 60)
        self.assertEqual(fc.decode_covered(6, b"", (1 << 64) - 1, 5, 5), b"")  # empty before any question

    def test_empty_memory_everywhere(self):
        empty = bytearray()
        for alphabet in Alphabet:
            self.assertEqual(fc.guess_alphabet(b""), Alphabet.Dna2bit)
            self.assertEqual(fc.encode_sequence_into(alphabet, b"", empty), 0)
            encoder = fc.SequenceEncoder(alphabet)
            self.assertEqual((encoder.update_into(b"", empty), encoder.finalize_into(empty)), (0, 0))
            for _, read in reads(alphabet, 0, 0):
                self.assertEqual(read(alphabet, b"", 0, 0, 0, empty), 0)
            self.assertEqual(fc.decode_covered_into(alphabet, b"", 0, 0, 0, empty), 0)
            self.assertEqual(fc.Stream(alphabet, 0, 1).read(b"", empty)[:3], (0, 0, fc.Status.Full))

    def test_a_refused_update_leaves_the_encoder_as_it_was(self):
        encoder = fc.SequenceEncoder(Alphabet.Dna2bit)
        self.assertEqual(encoder.update(b"ACN"), b"")
        before = bytes(encoder.state)
        self.assertRaises(fc.ShortMemory, encoder.update_into, b"T", bytearray())
        self.assertEqual(bytes(encoder.state), before)
        self.assertEqual(encoder.update(b"T"), b"\x9c")
        with self.assertRaises(fc.NotMember) as caught:
            encoder.finalize()
        self.assertEqual(str(caught.exception), "refused by 5: byte 4E at position 2 is no member, the only one")

    def test_every_refusal_has_its_exception(self):
        refusals = {
            1: lambda: fc.Guesser(state=fc.fc_guesser(0)).guess(),
            2: lambda: fc.byte_range_for_bases(0, (1 << 60) + 1, 2),
            3: lambda: fc.decode_covered(4, b"", 0, 0, 1),
            4: lambda: fc.encode_sequence_into(4, b"A", bytearray()),
            5: lambda: fc.encode_sequence(0, b"ACNT"),
            6: lambda: fc.Stream(4, 8, 0),
            7: lambda: fc.Stream(4, 0, 9).end(),
            8: lambda: fc.SequenceEncoder(6),
            9: lambda: fc.byte_range_for_bases(0, 0, 9),
            18: lambda: fc.decode_covered(3, b"\xe8", 0, 0, 1),
        }
        for number, call in refusals.items():
            with self.assertRaises(fc.Refused) as caught:
                call()
            self.assertEqual((caught.exception.number, type(caught.exception)), (number, fc._REFUSALS[number]))
        self.assertEqual(set(refusals), set(fc._REFUSALS))


if __name__ == "__main__":
    unittest.main()
