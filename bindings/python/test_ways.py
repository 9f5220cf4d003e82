"""The two ways to the library, the extension module and ctypes: what each takes for a number and for memory, that both answer
alike, that nothing is kept or lost, and how they are found. Most of it is asked of the way that the tests run over."""

import ctypes
import gc
import io
import os
import pathlib
import random
import shutil
import subprocess
import sys
import tempfile
import threading
import unittest
import unittest.mock

import fantailclock as fc
from fantailclock import Alphabet
from test_fantailclock import ENGINES

try:
    import numpy
except ImportError:
    numpy = None

PACKED = bytes.fromhex("053977")


class Index:
    """A number that has nothing but `__index__`."""

    def __init__(self, value):
        self.value = value

    def __index__(self):
        return self.value


class Undecided:
    """What is neither true nor false."""

    def __bool__(self):
        raise ZeroDivisionError


class Numbers(unittest.TestCase):
    def kinds(self):
        yield int
        yield Index
        if numpy:
            yield from (numpy.uint64, numpy.int64, numpy.uint8)

    def test_every_number_may_be_any_index(self):
        for n in self.kinds():
            self.assertEqual(fc.byte_range_for_bases(n(2), n(6), n(3)), (0, 3))
            self.assertEqual(fc.encode_sequence(n(1), b"ACGTNRYU"), PACKED)
            self.assertEqual(fc.encode_sequence_into(n(1), b"ACGTNRYU", bytearray(3)), 3)
            encoder = fc.SequenceEncoder(n(1))
            self.assertEqual([encoder.ask(b"ACGTNRYU", n(room)).count for room in (3, 200)], [3, 3])
            self.assertRaises(fc.ShortMemory, encoder.ask, b"ACGTNRYU", n(2))
            self.assertEqual(encoder.update(b"ACGTNRYU") + encoder.finalize(), PACKED)
            self.assertTrue(Alphabet.Dna3bit.contains(n(ord("N"))))
            self.assertEqual(fc.later_alphabet(n(1), n(3)), Alphabet.Protein)
            self.reads(n)
            self.streams(n)

    def reads(self, n):
        for read in fc.decode_covered, fc.decode_rolling, fc.decode_substring_from_bytes_at_offset:
            self.assertEqual(read(n(1), PACKED, n(0), n(2), n(6)), b"GTNR")
        self.assertEqual(fc.decode_substring_from_bytes(n(1), PACKED, n(2), n(6)), b"GTNR")
        self.assertEqual(fc.decode_string_from_bytes(n(1), PACKED, n(6)), b"ACGTNR")
        out = bytearray(4)
        for name, (data, bases) in zip(ENGINES.values(), (("1b", b"CAG"), ("0539", b"CGT"), ("0123", b"ACM"), ("522290", b"KVL"))):
            read, into, data = getattr(fc, name), getattr(fc, f"{name}_into"), bytes.fromhex(data)
            self.assertEqual(read(data, n(0), n(1), n(4)), bases)
            self.assertEqual((into(data, n(0), n(1), n(4), out), out[:3]), (3, bases))
        for into in fc.decode_covered_into, fc.decode_rolling_into, fc.decode_substring_from_bytes_at_offset_into:
            self.assertEqual((into(n(1), PACKED, n(0), n(2), n(6), out), out), (4, b"GTNR"))
        self.assertEqual(fc.decode_substring_from_bytes_into(n(1), PACKED, n(2), n(6), out), 4)
        self.assertEqual(fc.decode_string_from_bytes_into(n(1), PACKED, n(4), out), 4)

    def streams(self, n):
        self.assertEqual(fc.Stream(n(1), n(6), n(4)).read(PACKED, bytearray(4))[:3], (3, 4, fc.Status.Done))
        self.assertEqual(fc.Stream.for_window(n(1), n(2), n(6)).state.skip, 6)
        self.assertEqual(fc.Stream.for_window(n(1), n(6), n(2)).state.budget, 0)
        self.assertEqual(fc.StreamingDecoder.for_window(io.BytesIO(PACKED), n(1), n(2), n(6)).read(n(4)), b"GTNR")
        self.assertEqual(fc.StreamingDecoder(io.BytesIO(PACKED), n(1), n(6), n(4)).read(), b"GTNR")

    def test_what_is_no_number_of_64_bits(self):
        for wrong, error in (
            (-1, OverflowError), (Index(-1), OverflowError), (1 << 64, OverflowError), (Index((1 << 64) + 2), OverflowError),
            (10**5000, OverflowError), (1.0, TypeError), ("1", TypeError), (None, TypeError), (b"1", TypeError),
        ):
            for at in 0, 2, 3, 4:
                given = [1, PACKED, 0, 2, 6]
                given[at] = wrong
                self.assertRaises(error, fc.decode_covered, *given)
                self.assertRaises(error, fc.decode_covered_into, *given, bytearray(4))
            for at in 0, 1, 2:
                given = [2, 6, 3]
                given[at] = wrong
                self.assertRaises(error, fc.byte_range_for_bases, *given)
                self.assertRaises(error, fc.Stream.for_window, *given)
                if wrong is not None:  # no alphabet
                    self.assertRaises(error, fc.Stream, *given)
            self.assertRaises(error, fc.encode_sequence, wrong, b"")
            self.assertRaises(error, Alphabet.Dna2bit.contains, wrong)
            self.assertRaises(error, fc.later_alphabet, wrong, 1)
            self.assertRaises(error, fc.later_alphabet, 1, wrong)
            for encoder in fc.SequenceEncoder(0), fc.SequenceEncoder(state=fc.fc_encoder(6)):  # before the state is asked about
                self.assertRaises(error, encoder.ask, b"ACGT", wrong)

    def test_an_index_that_fails(self):
        class Fails:
            def __index__(self):
                raise ZeroDivisionError

        self.assertRaises(ZeroDivisionError, fc.decode_covered, 1, PACKED, 0, 2, Fails())
        self.assertRaises(ZeroDivisionError, fc.byte_range_for_bases, Fails(), 2, 2)
        self.assertRaises(ZeroDivisionError, fc.later_alphabet, 6, Fails())
        self.assertRaises(ZeroDivisionError, fc.SequenceEncoder(0).ask, "ACGT", Fails())


class Memory(unittest.TestCase):
    def test_a_window_is_memory_of_its_own(self):
        """Bytes are shared by Python where they are short; what a call fills never is."""
        for byte in range(256):
            read = fc.decode_covered(Alphabet.Ascii, bytes([byte]), 0, 0, 1)
            self.assertEqual((type(read), read), (bytes, bytes([byte])))
        self.assertEqual([bytes([byte])[0] for byte in range(256)], list(range(256)))
        self.assertEqual((bytes(1), bytes(0), b"\0"), (b"\0", b"", b"\0"))

    def test_what_is_no_memory(self):
        for wrong, error in ("ACGT", TypeError), (7, TypeError), (None, TypeError), (memoryview(b"ACGT")[::2], BufferError):
            self.assertRaises(error, fc.guess_alphabet, wrong)
            self.assertRaises(error, fc.guess_genome, [b"ACGT", wrong])
            self.assertRaises(error, fc.encode_sequence, 0, wrong)
            self.assertRaises(error, fc.decode_covered, 0, wrong, 0, 0, 1)
            self.assertRaises(error, fc.SequenceEncoder(0).update, wrong)
            self.assertRaises(error, fc.SequenceEncoder(0).ask, wrong, 9)
            self.assertRaises(error, fc.Guesser().update, wrong)
            self.assertRaises(error, fc.Stream(0, 0, 4).read, wrong, bytearray(4))
        for wrong in b"....", memoryview(b"...."), memoryview(bytearray(9))[::2]:
            self.assertRaises(BufferError, fc.encode_sequence_into, 0, b"ACGT", wrong)
            self.assertRaises(BufferError, fc.decode_covered_into, 0, b"\x1b", 0, 0, 4, wrong)
            self.assertRaises(BufferError, fc.SequenceEncoder(0).update_into, b"ACGT", wrong)
            self.assertRaises(BufferError, fc.SequenceEncoder(0).finalize_into, wrong)
            self.assertRaises(BufferError, fc.Stream(0, 0, 4).read, b"\x1b", wrong)

    def test_memory_that_overlaps_is_refused_by_every_call(self):
        for source, out in (slice(0, 8), slice(0, 8)), (slice(0, 5), slice(4, 8)), (slice(4, 8), slice(0, 5)):
            memory = memoryview(bytearray(b"ACGTACGT"))
            given = memory[source], memory[out]
            calls = {
                "encode": lambda: fc.encode_sequence_into(4, *given),
                "update": lambda: fc.SequenceEncoder(4).update_into(*given),
                "stream": lambda: fc.Stream(4, 0, 4).read(*given),
                "string": lambda: fc.decode_string_from_bytes_into(4, given[0], 4, given[1]),
                "substring": lambda: fc.decode_substring_from_bytes_into(4, given[0], 0, 4, given[1]),
            }
            for name in ENGINES.values():
                calls[name] = lambda into=getattr(fc, f"{name}_into"): into(given[0], 0, 0, 4, given[1])
            for read in fc.decode_covered_into, fc.decode_rolling_into, fc.decode_substring_from_bytes_at_offset_into:
                calls[read.__name__] = lambda read=read: read(4, given[0], 0, 0, 4, given[1])
            for name, call in calls.items():
                self.assertRaisesRegex(ValueError, "overlap", call)
                self.assertEqual(memory, b"ACGTACGT", name)
        self.assertEqual(fc.encode_sequence_into(4, memory[:4], memory[4:]), 4)  # side by side
        self.assertEqual(fc.encode_sequence_into(4, memory[4:4], memory), 0)  # no byte within
        self.assertEqual(fc.decode_covered_into(4, memory, 0, 3, 3, memory[4:4]), 0)

    def test_memory_is_given_back(self):
        source, out = bytearray(b"ACGTACGT"), bytearray(1)
        for call in (
            lambda: fc.guess_alphabet(source),
            lambda: fc.guess_genome([source, source]),
            lambda: fc.encode_sequence(0, source),
            lambda: fc.encode_sequence(9, source),
            lambda: fc.encode_sequence_into(0, source, out),
            lambda: fc.encode_sequence_into(0, source, source),
            lambda: fc.encode_sequence_into(0, source, b""),
            lambda: fc.decode_covered(0, source, 0, 0, 99),
            lambda: fc.decode_covered_into(0, source, 0, 0, 9, out),
            lambda: fc.decode_4bit(source, 0, 0, 99),
            lambda: fc.decode_5bit_into(source, 0, 0, 9, out),
            lambda: fc.decode_5bit_into(source, 0, 0, 9, source),
            lambda: fc.SequenceEncoder(0).update(source),
            lambda: fc.SequenceEncoder(0).update_into(source, out),
            lambda: fc.SequenceEncoder(0).ask(source, 9),
            lambda: fc.SequenceEncoder(0).ask(source, 0),
            lambda: fc.Stream(0, 0, 4).read(source, out),
            lambda: fc.Stream(0, 0, 4).read(source, source),
        ):
            try:
                call()
            except (fc.Refused, ValueError, BufferError):
                pass
            source.append(0)  # refused by Python while the memory is lent
            out.append(0)
            del source[-1], out[-1]

    def test_long_calls_at_once(self):
        """Long calls run side by side, accepted and refused; each thread has its own memory and its own answers."""
        wrong = []

        def read(alphabet, file):
            try:
                return fc.decode_covered(alphabet, file, 0, 3, 100_000)
            except fc.NoSymbol as refused:
                return refused.base

        def work(alphabet):
            file = random.Random(alphabet).randbytes(1 << 18)
            expected = fc.decode_rolling(alphabet, file, 0, 3, 100_000)
            if alphabet == Alphabet.Protein:  # without a damaged code up to that of the last base
                file, expected = bytes(62_499) + b"\x1f", 99_999
            for _ in range(20):
                if read(alphabet, file) != expected:
                    wrong.append(alphabet)

        threads = [threading.Thread(target=work, args=(alphabet,)) for alphabet in Alphabet]
        for thread in threads:
            thread.start()
        for thread in threads:
            thread.join()
        self.assertEqual(wrong, [])


class Kept(unittest.TestCase):
    """Calls, accepted and refused, in great number: no object is kept, and none is given back too often."""

    def calls(self):
        number, source, out = Index(1 << 40), bytearray(b"ACGTACGT" * 700), bytearray(9000)
        state = fc._calls.encoder_new(0, True)
        strange = bytes(fc.fc_encoder(0, 1 << 40, has_bad=1, bad_byte=ord("N"), bad_count=1 << 40))
        for name, given in (
            ("decode_covered", (1, source, 0, 2, 6)),
            ("decode_covered", (1, source, 0, 2, 12_000)),
            ("decode_covered", (1, source, 0, 2, number)),
            ("decode_covered", (1, source, 0, 2, 1 << 61)),
            ("decode_covered", (1, source, 0, 2, -1)),
            ("decode_covered", (1, "ACGT", 0, 2, 6)),
            ("decode_covered_into", (1, source, 0, 2, 6, out)),
            ("decode_covered_into", (1, source, 0, 2, 6, source)),
            ("decode_covered_into", (1, source, 0, 2, 6, b"")),
            ("decode_covered_into", (1, source, 0, 2, 9009, out)),
            ("decode_covered", (3, bytearray(b"\0\xff"), 0, 0, 3)),  # from here on damaged codes of Protein
            ("decode_covered", (3, bytearray(b"\xff" * 5600), 0, 8, 8900)),
            ("decode_covered", (3, bytearray(b"\xff" * 9), number, (1 << 43) // 5 + 1, Index((1 << 43) // 5 + 9))),
            ("decode_covered_into", (3, bytearray(b"\0\xff"), 0, 0, 3, out)),
            ("decode_covered_into", (3, bytearray(b"\xff" * 5600), 0, 8, 8900, out)),
            ("decode_4bit", (source, number, 2, 12_000)),
            ("decode_5bit", (source, 0, 2, 1 << 61)),
            ("decode_5bit_into", (source, 0, Index(2), 9009, out)),
            ("encode_sequence", (0, False, source)),
            ("encode_sequence", (0, True, source)),
            ("encode_sequence", (0, True, b"ACNT")),
            ("encode_sequence", (0, True, bytearray(b"N" * 9000))),
            ("encode_sequence_into", (0, True, bytearray(b"N" * 9000), out)),
            ("encode_sequence", (number, [], source)),
            ("encode_sequence", (0, Undecided(), source)),
            ("encoder_new", (0, [0])),
            ("encoder_new", (0, Undecided())),
            ("guess_alphabet", ([], source)),
            ("guess_alphabet", (Undecided(), source)),
            ("later_alphabet", (3, Index(4))),
            ("later_alphabet", (3, number)),
            ("later_alphabet", (Index(-1), number)),
            ("guesser_new", ([],)),
            ("guesser_new", (Undecided(),)),
            ("guesser_update", (fc._calls.guesser_new(True), source)),
            ("encoder_update", (state, source)),
            ("encoder_update_into", (state, source, out)),
            ("encoder_update_into", (state, source, source)),
            ("encoder_ask", (state, source, number)),
            ("encoder_ask", (state, source, 9)),
            ("encoder_ask", (strange, source, Index(1 << 63))),
            ("encoder_ask", (state, source, Index(-1))),
            ("encoder_ask", (state, "ACGT", number)),
            ("encoder_ask", (b"", source, number)),
            ("encoder_finalize", (state,)),
            ("encoder_finalize", (strange,)),
            ("encoder_finalize_into", (strange, out)),
            ("encoder_finalize_into", (state, b"")),
            ("byte_range_for_bases", (0, number, 2)),
            ("byte_range_for_bases", (0, 1 << 61, 2)),
            ("display_name", (number,)),
            ("display_name", (3,)),
            ("stream_new", (0, 8, number)),
            ("stream_read", (fc._calls.stream_new(1, 6, 5), source, 1 << 20)),
            ("stream_read", (fc._calls.stream_new(1, 6, 5), "", 1 << 20)),
            ("stream_read_into", (fc._calls.stream_new(1, 6, 5000), source, out)),
            ("stream_read_into", (fc._calls.stream_new(1, 6, 5000), source, source)),
            ("stream_end", (fc._calls.stream_new(1, 6, 5),)),
        ):
            yield name, given

    def made(self, name, given, times):
        call = getattr(fc._calls, name)
        for _ in range(times):
            try:
                call(*given)
            except (fc.Refused, ValueError, TypeError, BufferError, OverflowError, ZeroDivisionError):
                pass

    def test_no_reference_is_kept_or_lost(self):
        for name, given in self.calls():
            self.made(name, given, 10)
            gc.collect()
            before, blocks = [sys.getrefcount(each) for each in given], sys.getallocatedblocks()
            self.made(name, given, 500)
            gc.collect()
            after = [sys.getrefcount(each) for each in given]
            self.assertLess(max(abs(was - now) for was, now in zip(before, after)), 100, (name, given[1:]))
            self.assertLess(abs(sys.getallocatedblocks() - blocks), 100, (name, given[1:]))


class Alike(unittest.TestCase):
    """The same calls by both ways, with arguments of every kind: the same answer, the same memory, the same exception."""

    NUMBERS = [0, 1, 2, 3, 4, 5, 6, 7, 8, 9, 100, 5000, 1 << 20, 1 << 60, (1 << 60) + 1, (1 << 64) - 1, 1 << 64, -1, Index(3), True, 1.5, None]
    TRUTHS = [False, True, 0, 1, 2, -1, 1 << 64, None, "", "no", 0.0, Index(0), Undecided()]
    SHAPES = {
        "bits_per_symbol": "n", "contains": "nn", "display_name": "n", "guess_alphabet": "bm", "later_alphabet": "nn", "guesser_new": "b",
        "guesser_update": "gm", "guesser_guess": "g", "encode_sequence": "nbm", "encode_sequence_into": "nbmo",
        "encoder_new": "nb", "encoder_update": "em", "encoder_update_into": "emo", "encoder_ask": "emn",
        "encoder_finalize": "e", "encoder_finalize_into": "eo", "byte_range_for_bases": "nnn", "stream_new": "nnn", "stream_read": "smn",
        "stream_read_into": "smo", "stream_end": "s", "decode_substring_from_bytes_at_offset": "nmnnn",
        "decode_substring_from_bytes": "nmnn", "decode_string_from_bytes": "nmn", "decode_covered": "nmnnn",
        "decode_rolling": "nmnnn", "decode_2bit": "mnnn", "decode_3bit": "mnnn", "decode_4bit": "mnnn", "decode_5bit": "mnnn",
        "decode_substring_from_bytes_at_offset_into": "nmnnno", "decode_substring_from_bytes_into": "nmnno",
        "decode_string_from_bytes_into": "nmno", "decode_covered_into": "nmnnno", "decode_rolling_into": "nmnnno",
        "decode_2bit_into": "mnnno", "decode_3bit_into": "mnnno", "decode_4bit_into": "mnnno", "decode_5bit_into": "mnnno",
    }

    def argument(self, chance, kind):
        """Makes an argument of a kind, anew for each way, so that the memory can be compared afterwards."""
        if kind == "n":
            value = chance.choice(self.NUMBERS[:11] * 3 + self.NUMBERS)
            return lambda: value
        if kind == "b":
            value = chance.choice(self.TRUTHS)
            return lambda: value
        if kind == "m":
            text = bytes(chance.choices(b"ACGTNacgt\x05\x39\x77\x80", k=chance.choice((0, 1, 3, 8, 100, 9000))))
            maker = chance.choice((bytes, bytes, bytearray, memoryview, lambda data: memoryview(data)[::2], lambda _: "ACGT"))
            return lambda: maker(text)
        if kind == "o":
            room = chance.choice((0, 1, 4, 100, 5000))
            maker = chance.choice((bytearray, bytearray, lambda room: memoryview(bytearray(room)), bytes))
            return lambda: maker(room)
        value = bytes(self.state(chance, kind))
        return lambda: value

    def state(self, chance, kind):
        """A state, sound or forged."""
        small, fold = [chance.randint(0, 9) for _ in range(7)], chance.choice((0, 0, 1, 1, 2, 1 << 63))
        if chance.random() < 0.2:
            small[chance.randint(0, 6)] = chance.choice((1 << 60, (1 << 64) - 1, 255))
        if kind == "g":
            return fc.fc_guesser(small[0] + 12, fold)
        if kind == "s":
            return fc.fc_stream(small[0], small[1], small[2] * 7, 0, 0) if small[6] > 2 else fc.fc_stream(*small[:5])
        if small[6] > 6:  # of Dna2bit and Dna3bit with non-members, most of them sound
            return fc.fc_encoder(small[0] % 2, 8 * small[1] + 8, 0, 0, 1, small[2], chance.choice(b"{{{A"), fold % 2, small[3])
        return fc.fc_encoder(*([small[0], small[1] * 8] + [0] * 5 if small[6] > 2 else small), fold, small[5] // 9)

    def told(self, calls, name, made, **choice):
        given = [make() for make in made]
        try:
            answer = getattr(calls, name)(*given, **choice)
        except fc.Refused as refusal:
            answer = str(refusal)
        except (TypeError, ValueError, BufferError, OverflowError, ZeroDivisionError) as error:
            answer = type(error)
        return answer, [bytes(each) for each in given if isinstance(each, (bytearray, memoryview))]

    @unittest.skipUnless(fc.WAY == "extension", "the extension is compared with ctypes where it is at hand")
    def test_both_ways_answer_alike(self):
        chance, kinds = random.Random(5), set()
        self.assertEqual({name for name in dir(fc._Ctypes) if name[0] != "_"}, set(self.SHAPES))
        self.assertEqual({name for name in dir(fc._calls) if name[0] != "_"}, {*self.SHAPES, "abi_version", "refuse_by"})
        for _ in range(400):
            for name, shape in self.SHAPES.items():
                made = [self.argument(chance, kind) for kind in shape]
                one, other = self.told(fc._calls, name, made), self.told(fc._Ctypes, name, made)
                self.assertEqual(one, other, (name, [make() for make in made]))
                kinds.add(one[0] if isinstance(one[0], (type, str)) else type(one[0]))
        self.assertTrue({TypeError, BufferError, OverflowError, ZeroDivisionError, bytes, int, tuple} <= kinds, kinds)
        self.assertTrue(any("is no member, the first of" in str(kind) for kind in kinds), kinds)

    @unittest.skipUnless(fc.WAY == "extension", "the extension is compared with ctypes where it is at hand")
    def test_both_ways_tell_the_same_base(self):
        """Windows of Protein, short and long, out of files from no damaged code to many; what is asked above is mostly refused
        before its codes are looked at."""
        chance, kinds = random.Random(6), {}
        for _ in range(2000):
            length, offset = chance.choice((1, 3, 8, 100, 9000)), chance.choice((0, 5, 7, (1 << 40) + 1))
            data = bytearray(length)
            for _ in range(chance.choice((0, 1, 1, 2, 9))):
                data[chance.randrange(length)] = chance.choice((0x1F, 0xF8, 0xFF, 0xFF, chance.randrange(256)))
            start = (offset * 8 + 4) // 5 + chance.randint(0, 9)
            end = min(start + chance.choice((1, 4, length, 8 * length)), (offset + length) * 8 // 5 + (chance.random() < 0.1))
            room = max(end - start + chance.choice((-1, 0, 0, 3)), 0)
            for name, more in ("decode_covered", []), ("decode_covered_into", [lambda: bytearray(room)]):
                made = [lambda value=value: value for value in (3, bytes(data), offset, start, end)] + more
                one, other = self.told(fc._calls, name, made), self.told(fc._Ctypes, name, made)
                self.assertEqual(one, other, (name, length, offset, start, end))
                kind = one[0].split(":")[0] if isinstance(one[0], str) else "accepted"
                kinds[kind] = kinds.get(kind, 0) + 1
        self.assertEqual(set(kinds), {"accepted", "refused by 3", "refused by 4", "refused by 18"})
        self.assertGreater(min(kinds["accepted"], kinds["refused by 18"]), 300, kinds)

    @unittest.skipUnless(fc.WAY == "extension", "the extension is compared with ctypes where it is at hand")
    def test_both_ways_guess_a_genome_alike(self):
        """Chromosomes of every kind, good ones and wrong ones, in a list, in a generator, or one by itself."""
        chance, kinds = random.Random(7), {}
        for _ in range(2000):
            made = [self.argument(chance, "m") for _ in range(chance.randint(0, 4))]
            fold, wrapped = self.argument(chance, "b")(), chance.choice((list, iter, lambda texts: texts[0] if texts else ""))
            told = []
            for calls in fc._calls, fc._Ctypes:
                with unittest.mock.patch.object(fc, "_calls", calls):
                    genome = [lambda: wrapped([make() for make in made])]
                    told.append(self.told(fc, "guess_genome", genome, fold=fold)[0])
            self.assertEqual(told[0], told[1], ([make() for make in made], fold))
            kinds[told[0]] = kinds.get(told[0], 0) + 1
        self.assertTrue({Alphabet.Dna2bit, Alphabet.Ascii, TypeError, BufferError, ZeroDivisionError} <= set(kinds), kinds)

    @unittest.skipUnless(fc.WAY == "extension", "the extension's own questions")
    def test_arguments_of_the_extension(self):
        for name, shape in self.SHAPES.items():
            call = getattr(fc._calls, name)
            self.assertRaises(TypeError, call, *[0] * (len(shape) + 1))
            if shape:
                self.assertRaises(TypeError, call)
        for short in b"", bytes(39), bytes(41):
            self.assertRaises(ValueError, fc._calls.stream_end, short)
            self.assertRaises(ValueError, fc._calls.encoder_finalize, short)
            self.assertRaises(ValueError, fc._calls.encoder_ask, short, b"", 0)


class Found(unittest.TestCase):
    """How the shared object and the way are found."""

    PROGRAM = "import fantailclock as fc; print(fc.guess_alphabet(b'ACGU').name, fc.WAY)"

    def imported(self, folder, **more):
        """What a program prints that imports the module from a folder."""
        kept = {name: value for name, value in os.environ.items() if name not in ("FANTAILCLOCK_SO", "FANTAILCLOCK_WAY", "PYTHONPATH")}
        command = [sys.executable, "-B", "-c", self.PROGRAM]
        ran = subprocess.run(command, cwd=folder, env={**kept, **more}, capture_output=True, text=True)
        return (ran.stdout + ran.stderr).strip().splitlines()[-1]

    def test_the_shared_object_is_found_or_missed_plainly(self):
        with tempfile.TemporaryDirectory() as elsewhere:
            shutil.copy(fc.__file__, elsewhere)
            self.assertRegex(self.imported(elsewhere), "^ImportError: .*make it with bindings/python/build")
            self.assertEqual(self.imported(elsewhere, FANTAILCLOCK_SO=fc.lib._name, FANTAILCLOCK_WAY=fc.WAY), f"Dna3bit {fc.WAY}")
            shutil.copy(fc.lib._name, elsewhere + "/libfantailclock.so")
            self.assertEqual(self.imported(elsewhere), "Dna3bit ctypes")
            self.assertRegex(self.imported(elsewhere, FANTAILCLOCK_WAY="extension"), "^ImportError: no extension module")
            self.assertRegex(self.imported(elsewhere, FANTAILCLOCK_WAY="other"), "^ImportError: FANTAILCLOCK_WAY")
            if fc.WAY == "extension":
                shutil.copy(fc._calls.__file__, elsewhere)
                self.assertEqual(self.imported(elsewhere), "Dna3bit extension")
                self.assertEqual(self.imported(elsewhere, FANTAILCLOCK_WAY="ctypes"), "Dna3bit ctypes")
                found = {"FANTAILCLOCK_SO": "libfantailclock.so", "LD_LIBRARY_PATH": elsewhere}  # by the system, not in this folder
                self.assertEqual(self.imported(elsewhere, **found), "Dna3bit ctypes")

    def without(self, path, folder, name):
        """Puts a copy of an object into a folder, from before a function was added: its name is another one there."""
        before = pathlib.Path(path).read_bytes()
        after = before.replace(name.encode() + b"\0", b"x" * len(name) + b"\0")
        self.assertNotEqual(before, after)
        pathlib.Path(folder, os.path.basename(path)).write_bytes(after)

    def test_an_object_that_is_older_than_a_function(self):
        """A function that is only added does not raise the version; without it the module is not imported, and says why."""
        for name in "later_alphabet", "encoder_ask", "decode_4bit", "decode_5bit":
            with tempfile.TemporaryDirectory() as elsewhere:
                shutil.copy(fc.__file__, elsewhere)
                self.without(fc.lib._name, elsewhere, f"fc_{name}")
                wanted = f"^ImportError: .*/libfantailclock.so lacks fc_{name}: it is older than this module; make it with "
                self.assertRegex(self.imported(elsewhere), wanted)
                shutil.copy(fc.lib._name, elsewhere)
                self.assertEqual(self.imported(elsewhere), "Dna3bit ctypes")
                if fc.WAY == "extension":
                    self.without(fc._calls.__file__, elsewhere, name)
                    self.assertRegex(self.imported(elsewhere), f"^ImportError: .*/_fantailclock.* lacks {name}: it is older")
                    self.assertEqual(self.imported(elsewhere, FANTAILCLOCK_WAY="ctypes"), "Dna3bit ctypes")

    def test_an_object_of_another_version(self):
        """Its version is told, whatever else it lacks; what has none at all is no such object."""
        this, other = fc.ABI_VERSION, fc.ABI_VERSION - 1
        for has, version, wanted in (
            (["fc_abi_version"], other, f"has ABI version {other}, not {this}"),
            (["fc_abi_version"], this, "lacks fc_bits_per_symbol, fc_contains, .*fc_later_alphabet, .*: it is older"),
            ([], None, "lacks fc_abi_version: it is older"),
        ):
            library = unittest.mock.Mock(spec=has)
            if has:
                library.fc_abi_version.return_value = version
            with unittest.mock.patch.object(fc.ctypes, "CDLL", return_value=library):
                self.assertRaisesRegex(ImportError, wanted, fc._load)

    def test_the_way_that_was_asked_for(self):
        asked = os.environ.get("FANTAILCLOCK_WAY")
        self.assertIn(fc.WAY, [asked] if asked else ["extension", "ctypes"])
        self.assertIsInstance(fc.lib, ctypes.CDLL)


if __name__ == "__main__":
    unittest.main()
