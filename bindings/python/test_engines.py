"""The engines of one alphabet: each call beside the model of a window, the engine of any alphabet, and the reads that go through
it. Answers, the bytes written and those behind them are compared; all memory of an engine is against guard pages."""

import collections
import itertools
import random
import re
import unittest

import fantailclock as fc
from test_fantailclock import BITS, ENGINES, HEADER, LISTS, Harness, answered, covered, filled, packed_len, put, unpack

FAR, TOP = 1 << 60, (1 << 64) - 1


def byte_range(alphabet, start, end):
    return start * BITS[alphabet] // 8, packed_len(alphabet, end)


def near(chance, edge):
    """A number near an edge, on either side of it."""
    return max(edge + chance.randint(-10, 10), 0)


def some_call(chance, alphabet):
    """A window of up to 200 bases, the bytes that are lent for it, from the first to the one behind the last, and memory. The bytes
    begin and stop near the window's own, anywhere, or as they should; the memory is enough in two calls of three."""
    start, length = chance.randrange(50), chance.randint(0, 200)
    first, last = byte_range(alphabet, start, start + length)
    kind = chance.randrange(5)
    lent = [near(chance, first), near(chance, last)] if kind > 1 else [first, last] if kind else chance.choices(range(last + 20), k=2)
    room = chance.choice((chance.randint(0, length), max(length - 1, 0), length + chance.randint(1, 60), length, length, length))
    window = (start + length, start) if chance.random() < 0.05 else (start, start + length)
    return window, (min(lent), lent[1]), room


class Held(unittest.TestCase):
    """Calls of engines beside what they must answer, counted by their refusal."""

    def setUp(self):
        self.harness, self.tally = Harness(self), collections.Counter()

    def held(self, alphabet, data, offset, window, room):
        """A call of an engine, by the module and by the raw function. The other reads are lent memory with the same content."""
        name, about = ENGINES[alphabet], (offset, len(data), window)
        expected, by_covered = (model(alphabet, data, offset, *window, room) for model in (filled, covered))
        told = [0, len(expected)] if isinstance(expected, bytes) else [expected[0], 0]

        def call(data, out):
            before = bytes(out)
            answer = answered(lambda: getattr(fc, f"{name}_into")(data, offset, *window, out))
            for read in fc.decode_rolling_into, fc.decode_substring_from_bytes_at_offset_into:
                other = bytearray(before)
                self.assertEqual(answered(lambda: read(alphabet, data, offset, *window, other)), answer, about)
                self.assertTrue(other == bytes(out), (about, "another memory"))
            other, bases = bytearray(before), by_covered if isinstance(by_covered, bytes) else b""
            read = answered(lambda: fc.decode_covered_into(alphabet, data, offset, *window, other))
            self.assertEqual(read, len(bases) if bases is by_covered else by_covered, about)
            self.assertTrue(other == bases + before[len(bases) :], (about, "another memory by the covered read"))
            raw = getattr(fc.lib, f"fc_{name}")(data, len(data), offset, *window, out, len(out))
            self.assertEqual([raw.refusal, raw.count], told, about)
            return answer

        self.harness.check_once(f"fc_{name}", about, data, room, expected, call)
        self.tally[told[0]] += 1


class Windows(Held):
    def test_random_windows(self):
        for alphabet in ENGINES:
            chance, within = random.Random(41), collections.Counter()
            self.tally.clear()
            for _ in range(10_000):
                window, (first, last), room = some_call(chance, alphabet)
                self.held(alphabet, chance.randbytes(last - first), first, window, room)
                own, block = byte_range(alphabet, *window), BITS[alphabet]  # eight bases
                within.update(at for at, edge in enumerate((first, last)) if own[0] < edge < own[1] and edge % block)
            self.assertEqual((set(self.tally), self.tally[0] + self.tally[4]), ({0, 4}, 10_000))
            self.assertGreater(min(self.tally[0] // 3, self.tally[4]), 1_700, self.tally)
            self.assertGreater(min(within[0], within[1]), 800, "few of the lent bytes began, or stopped, within a block")
        print(f"{self.harness.calls} calls of engines between guard pages")

    def test_every_window_and_every_run_of_bytes(self):
        """Windows of two blocks and a base more, lent every run of the blocks' bytes: those that begin or stop within a block,
        beside the window, and none at all."""
        for alphabet in ENGINES:
            file = random.Random(42).randbytes(2 * BITS[alphabet])
            for first, last in itertools.combinations_with_replacement(range(len(file) + 1), 2):
                for start, end in itertools.combinations(range(18), 2):
                    self.held(alphabet, file[first:last], first, (start, end), end - start)
        self.assertEqual(set(self.tally), {0})

    def test_every_length(self):
        """Up to those that fill a page, lent the window's bytes alone, all of them or one too few at either end."""
        chance = random.Random(43)
        for alphabet, length in itertools.product(ENGINES, [*range(1, 200), *range(505, 520), 1000, 4095, 4096]):
            start = chance.randrange(40, 48)
            first, last = byte_range(alphabet, start, start + length)
            data = chance.randbytes(last - first)
            for lent, offset in (data, first), (data[:-1], first), (data[1:], first + 1):
                self.held(alphabet, lent, offset, (start, start + length), length)
        self.assertEqual(set(self.tally), {0})

    def test_windows_far_from_the_sequence_s_start(self):
        """Up to the last base that one may have, lent bytes that begin and stop around the window's."""
        chance = random.Random(44)
        for alphabet, end, length in itertools.product(ENGINES, ((1 << 32) + 5, 1 << 40, FAR - 1, FAR), (1, 8, 9, 25)):
            first, last = byte_range(alphabet, end - length, end)
            for offset, behind in itertools.product(range(first - 6, last, 2), range(last - 5, last + 6, 2)):
                self.held(alphabet, chance.randbytes(max(behind - offset, 0)), offset, (end - length, end), length)
        self.assertEqual(set(self.tally), {0})

    def test_forged_numbers(self):
        """Around their limits, and such as a narrower field would take for small ones. What is asked is whether the window is empty,
        then 2, then 4, and nothing else."""
        numbers = 0, 1, 9, (1 << 32) + 1, FAR - 8, FAR, FAR + 1, 1 << 63, TOP
        for alphabet, offset, start, end, room in itertools.product(ENGINES, numbers, numbers, numbers, (0, 9)):
            self.held(alphabet, b"\xe8\x3c", offset, (start, end), room)  # in Protein codes 29, 0 and 30
        self.assertEqual(set(self.tally), {0, 2, 4})


class Names(unittest.TestCase):
    """The plain names, and the names themselves."""

    def engines(self):
        for alphabet, name in ENGINES.items():
            yield alphabet, getattr(fc, name), getattr(fc, f"{name}_into")

    def test_every_code_at_every_place(self):
        """Of two blocks, between codes zero, alone and in the blocks' window: its symbol, or X for one that no symbol has."""
        for alphabet, read, _ in self.engines():
            width, symbols = BITS[alphabet], LISTS[alphabet]
            for code, base in itertools.product(range(1 << width), range(16)):
                file, bases = bytearray(2 * width), bytearray(symbols[:1] * 16)
                put(alphabet, file, base, code)
                bases[base : base + 1] = symbols[code : code + 1] or b"X"
                self.assertEqual(read(file, 0, 0, 16), bases)
                self.assertEqual(read(file, 0, base, base + 1), bases[base : base + 1])
        self.assertEqual(fc.decode_5bit(b"\xe8\x3c", 0, 0, 3), b"XAX")  # codes 29, 0 and 30
        self.assertEqual(fc.decode_5bit(b"\xff" * 5, 0, 0, 8), b"X" * 8)  # code 31
        self.assertEqual(fc.decode_5bit(b"\xa8", 0, 0, 1), b"X")  # X itself

    def test_in_new_memory_of_any_length(self):
        """Around the lengths from which a way first asks without memory, or gives up the interpreter's lock."""
        chance = random.Random(45)
        for alphabet, read, into in self.engines():
            for bases in 4, 4095, 4096, 4097, 65_535, 65_536, 65_537, 200_001:
                file = chance.randbytes(packed_len(alphabet, bases))
                for lent in file, file[: len(file) // 2]:
                    expected, out = unpack(alphabet, lent, 0, 3, bases), bytearray(bases)
                    self.assertTrue(read(lent, 0, 3, bases) == expected)
                    self.assertTrue((into(lent, 0, 3, bases, out), out) == (bases - 3, expected + bytes(3)))
            self.assertRaises(fc.ShortMemory, read, b"", 0, 0, FAR)  # no memory holds it
            self.assertRaises(fc.TooFar, read, b"", 0, 0, FAR + 1)
            self.assertRaises(fc.TooFar, read, b"", FAR + 1, 0, 1)
            self.assertEqual((read(b"", TOP, TOP, TOP), into(b"", TOP, TOP, 0, bytearray())), (b"", 0))  # empty before any question

    def test_what_is_no_argument(self):
        for _, read, into in self.engines():
            for wrong, error in (-1, OverflowError), (1 << 64, OverflowError), (1.0, TypeError), (None, TypeError):
                for at in 1, 2, 3:
                    given = [b"\x52\x22", 0, 0, 4]
                    given[at] = wrong
                    self.assertRaises(error, read, *given)
                    self.assertRaises(error, into, *given, bytearray(4))
            for wrong, error in ("ACGT", TypeError), (7, TypeError), (memoryview(b"ACGT")[::2], BufferError):
                self.assertRaises(error, read, wrong, 0, 0, 4)
                self.assertRaises(error, into, wrong, 0, 0, 4, bytearray(4))
            self.assertRaises(BufferError, into, b"\x52\x22", 0, 0, 4, b"....")
            self.assertRaises(TypeError, read, 3, b"\x52\x22", 0, 0, 4)  # no alphabet is named

    def test_no_engine_is_left_out(self):
        self.assertEqual(re.findall(r"^fc_count fc_(\w+bit)\(", HEADER, re.MULTILINE), list(ENGINES.values()))


if __name__ == "__main__":
    unittest.main()
