"""Codes that no symbol has, as a damaged disk leaves them in a file of Protein: the covered read refuses them and tells the
window's first base that has one, and every other read shows X. All memory of the covered reads is against guard pages."""

import copy
import ctypes
import io
import itertools
import pickle
import random
import unittest

import fantailclock as fc
from fantailclock import Alphabet
from test_fantailclock import BITS, Harness, LISTS, answered, codes, covered, pack, packed_len, unpack
from test_fantailclock import put as put_code

PROTEIN, SYMBOLS, WIDTH = Alphabet.Protein, LISTS[Alphabet.Protein], BITS[Alphabet.Protein]
NO_SYMBOLS = 29, 30, 31


def put(file, base, code):
    """Writes the code of one base into a file of Protein."""
    put_code(PROTEIN, file, base, code)


def packed_codes(found):
    """A file of Protein with these codes, and ones for spare bits."""
    file = bytearray(b"\xff" * packed_len(PROTEIN, len(found)))
    for base, code in enumerate(found):
        put(file, base, code)
    return file


def byte_range(start, end):
    return start * WIDTH // 8, packed_len(PROTEIN, end)


def shown(test, file, start, end):
    """What every read but the covered one shows of a window."""
    bases = fc.decode_substring_from_bytes(PROTEIN, file, start, end)
    test.assertEqual(fc.decode_substring_from_bytes_at_offset(PROTEIN, file, 0, start, end), bases)
    test.assertEqual(fc.decode_rolling(PROTEIN, file, 0, start, end), bases)
    test.assertEqual(fc.decode_5bit(file, 0, start, end), bases)
    test.assertEqual(fc.decode_string_from_bytes(PROTEIN, file, end)[start:], bases)
    source = io.BytesIO(file[byte_range(start, end)[0] :])
    test.assertEqual(fc.StreamingDecoder.for_window(source, PROTEIN, start, end).read(), bases)
    return bases


class Codes(unittest.TestCase):
    def test_each_code_by_itself(self):
        for code, base in itertools.product(range(32), range(16)):
            file = bytearray(10)
            put(file, base, code)
            symbol = SYMBOLS[code : code + 1]
            self.assertEqual(shown(self, file, base, base + 1), symbol or b"X")
            self.assertEqual(answered(lambda: fc.decode_covered(PROTEIN, file, 0, base, base + 1)), symbol or (18, base))
        self.assertEqual(len(SYMBOLS), 29)
        self.assertEqual(fc.decode_covered(PROTEIN, b"\xa8", 0, 0, 1), b"X")  # X itself

    def test_every_code_of_the_other_alphabets_is_a_symbol_s(self):
        chance = random.Random(15)
        for alphabet in (each for each in Alphabet if each != PROTEIN):
            for file in bytes(range(256)), chance.randbytes(999), b"\xff" * 33, b"\x1d\x1e\x1f":
                bases = len(file) * 8 // BITS[alphabet]
                for start in 0, 1, bases // 2:
                    expected = unpack(alphabet, file, 0, start, bases)
                    self.assertEqual(answered(lambda: fc.decode_covered(alphabet, file, 0, start, bases)), expected)

    def test_windows_beside_a_damaged_base(self):
        """What stands before and behind it is read as ever."""
        text = bytes(random.Random(14).choices(SYMBOLS, k=300))
        for place in range(300):
            file = bytearray(pack(PROTEIN, text))
            put(file, place, NO_SYMBOLS[place % 3])
            self.assertEqual(fc.decode_covered(PROTEIN, file, 0, 0, place), text[:place])
            self.assertEqual(fc.decode_covered(PROTEIN, file, 0, place + 1, 300), text[place + 1 :])
            for start, end in (0, 300), (0, place + 1), (place, place + 1), (place, 300):
                self.assertEqual(answered(lambda: fc.decode_covered(PROTEIN, file, 0, start, end)), (18, place))

    def test_what_was_packed(self):
        """A window of it is never refused by 18; what an encoder wrote of a text that it then refused is."""
        text = bytes(random.Random(16).choices(SYMBOLS, k=40))
        packed = fc.encode_sequence(PROTEIN, text)
        for start, end in itertools.combinations(range(41), 2):
            self.assertEqual(fc.decode_covered(PROTEIN, packed, 0, start, end), text[start:end])
        encoder = fc.SequenceEncoder(PROTEIN)
        written = encoder.update(b"MK{ALEMK")
        self.assertEqual(answered(encoder.finalize), (5, 2, ord("{"), 1))
        self.assertEqual(answered(lambda: fc.decode_covered(PROTEIN, written, 0, 0, 8)), (18, 2))

    def test_in_new_memory_of_any_length(self):
        """Around the lengths from which a way first asks without memory, or gives up the interpreter's lock."""
        for bases in 1, 11, 12, 4095, 4096, 4097, 65_535, 65_536, 65_537, 1_000_001:
            file = bytearray(packed_len(PROTEIN, bases))
            self.assertTrue(fc.decode_covered(PROTEIN, file, 0, 0, bases) == b"A" * bases)
            put(file, bases - 1, 30)
            self.assertEqual(answered(lambda: fc.decode_covered(PROTEIN, file, 0, 0, bases)), (18, bases - 1))
            out = bytearray(b"\xc3" * bases)
            self.assertEqual(answered(lambda: fc.decode_covered_into(PROTEIN, file, 0, 0, bases, out)), (18, bases - 1))
            self.assertTrue(out == b"\xc3" * bases)
        damaged = b"\xff" * 9
        self.assertEqual(answered(lambda: fc.decode_covered(PROTEIN, damaged, 0, 0, 1 << 60)), (3,))  # before 18
        self.assertEqual(fc.decode_covered(PROTEIN, damaged, 0, 5, 5), b"")  # an empty window has no code


class BetweenGuardPages(unittest.TestCase):
    def setUp(self):
        self.harness = Harness(self)

    def asked(self, data, offset, window, room, expected, alphabet=PROTEIN):
        """A covered read, into lent memory and by the raw call: byte for byte and number for number what is expected."""

        def call(data, out):
            raw = fc.lib.fc_decode_covered(alphabet, data, len(data), offset, *window, out, len(out))
            told = [0, len(expected), 0] if isinstance(expected, bytes) else [expected[0], 0, *(expected[1:] or (0,))]
            self.assertEqual(bytes(raw), bytes(fc.fc_covered(*told)), about)
            return fc.decode_covered_into(alphabet, data, offset, *window, out)

        about = alphabet, len(data), offset, window
        self.harness.check("fc_decode_covered", about, data, room, expected, call)

    def as_the_model(self, data, offset, window, room, alphabet=PROTEIN):
        expected = covered(alphabet, data, offset, *window, room)
        self.asked(data, offset, window, room, expected, alphabet)
        return expected

    def test_every_window_and_every_place(self):
        """Windows of every length from every base of a byte on, lent nothing but their own bytes, with ones in all bits beside
        them: without a damaged code, and with one at every place."""
        chance = random.Random(11)
        for start, length in itertools.product(range(8), range(1, 41)):
            end, found = start + length, chance.choices(range(29), k=length)
            text, first = bytes(SYMBOLS[code] for code in found), byte_range(start, end)[0]
            file = packed_codes([31] * start + found)
            for room in length, length + 9:
                self.asked(file[first:], first, (start, end), room, text)
            self.asked(file[first:], first, (start, end), length - 1, (4,))
            for place in range(start, end):
                damaged = bytearray(file)
                put(damaged, place, NO_SYMBOLS[(place + length) % 3])
                self.asked(damaged[first:], first, (start, end), length, (18, place))
                at = place - start
                self.assertEqual(fc.decode_substring_from_bytes(PROTEIN, damaged, start, end), text[:at] + b"X" + text[at + 1 :])
            self.asked(damaged[first:], first, (start, end), length - 1, (4,))  # before 18
        print(f"{self.harness.calls} calls between guard pages")

    def test_every_place_of_longer_windows(self):
        """Around those that fill a page too, where the damaged code is at some places; a second one behind it is not told."""
        chance = random.Random(12)
        for length in [*range(41, 101), 511, 512, 1000, 4095, 4096]:
            start = chance.randrange(8)
            end, first = start + length, byte_range(start, start + length)[0]
            file = packed_codes(chance.choices(range(29), k=end))
            self.assertIsInstance(self.as_the_model(file[first:], first, (start, end), length), bytes)
            for place in [*range(start, end, 1 if length < 200 else 97), end - 2, end - 1]:
                damaged = bytearray(file)
                put(damaged, place, chance.choice(NO_SYMBOLS))
                put(damaged, chance.randrange(place, end), 31)
                self.asked(damaged[first:], first, (start, end), length, (18, place))

    def test_random_files_as_the_model_reads_them(self):
        """From none damaged to all, spare bits too; windows anywhere, lent what they need, more or less; memory that is short,
        enough or more."""
        chance, kinds = random.Random(13), {}
        for share, longest in itertools.product((0, 1, 0.5, 0.1, 0.02, 0.001), (30, 300, 3000)):
            for _ in range(60):
                bases = chance.randint(1, longest)
                file = packed_codes([chance.choice(NO_SYMBOLS) if chance.random() < share else chance.randrange(29) for _ in range(bases)])
                start = chance.randrange(bases)
                end = chance.randint(start + 1, bases)
                first, last = byte_range(start, end)
                first, last = max(first + 1 - chance.randrange(9), 0), last - 1 + chance.randrange(9)  # one too few in nine
                answer = self.as_the_model(file[first:last], first, (start, end), end - start + 3 - chance.randrange(5))
                kind = 0 if isinstance(answer, bytes) else answer[0]
                kinds[kind] = kinds.get(kind, 0) + 1
        self.assertEqual(set(kinds), {0, 3, 4, 18})
        self.assertGreater(min(kinds[0], kinds[18]), 200, kinds)

    def test_a_base_far_from_the_sequence_s_start(self):
        for end in (1 << 32) + 5, (1 << 33) + 7, 1 << 40, (1 << 60) - 1, 1 << 60:
            start = end - 25
            offset, last = byte_range(start, end)
            data = bytearray(last - offset)
            self.asked(data, offset, (start, end), 25, b"A" * 25)
            for bit in range((end - 1) * WIDTH - offset * 8, end * WIDTH - offset * 8):
                data[bit // 8] |= 0x80 >> bit % 8  # code 31 for the last base
            self.assertEqual(codes(PROTEIN, data, offset, end - 1, end), [31])
            self.asked(data, offset, (start, end), 25, (18, end - 1))
            self.asked(data, offset, (start, end - 1), 25, b"A" * 24)

    def test_forged_numbers(self):
        """Around their limits, and such as a narrower field would take for Protein's number or for small ones."""
        top, kinds = (1 << 64) - 1, set()
        numbers = 0, 1, 3, 9, (1 << 32) + 1, 1 << 60, (1 << 60) + 1, top
        for alphabet in 3, 6, (1 << 8) + 3, (1 << 32) + 3, top:
            for offset, start, end, room in itertools.product(numbers, numbers, numbers, (0, 9)):
                answer = self.as_the_model(b"\xe8\x3c", offset, (start, end), room, alphabet)  # codes 29, 0 and 30
                kinds.add(0 if isinstance(answer, bytes) else answer[0])
        self.assertEqual(kinds, {0, 2, 3, 4, 8, 18})


class Exceptions(unittest.TestCase):
    def refused(self):
        with self.assertRaises(fc.NoSymbol) as caught:
            fc.decode_covered(PROTEIN, b"\xe8", 5, 8, 9)
        return caught.exception

    def test_in_words(self):
        self.assertEqual(str(self.refused()), "refused by 18: the code of base 8 stands for no symbol")
        self.assertEqual(str(fc.NoSymbol((1 << 64) - 1)), "refused by 18: the code of base 18446744073709551615 stands for no symbol")

    def test_its_value_is_kept_where_it_is_sent(self):
        """As a pool of processes does, which hands the exceptions of its workers on."""
        refused = self.refused()
        for each in refused, pickle.loads(pickle.dumps(refused)), copy.copy(refused), copy.deepcopy(refused):
            self.assertEqual((type(each), each.base, each.number, each.args, str(each)), (fc.NoSymbol, 8, 18, (8,), str(refused)))

    def test_the_struct_that_comes_back(self):
        """Zeros but for what the answer tells."""
        for data, end, room, expected in (
            (b"\x07\x40", 2, 2, (18, 0, 1)), (b"\x07\x40", 1, 2, (0, 1, 0)), (b"\x07\x40", 2, 1, (4, 0, 0)), (b"\x07", 2, 2, (3, 0, 0)),
        ):
            out = ctypes.create_string_buffer(b"\xc3\xc3", 2)
            answer = fc.lib.fc_decode_covered(PROTEIN, data, len(data), 0, 0, end, out, room)
            self.assertEqual((bytes(answer), out.raw[1:]), (bytes(fc.fc_covered(*expected)), b"\xc3"))


if __name__ == "__main__":
    unittest.main()
