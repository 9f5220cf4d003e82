"""A genome's alphabet out of its chromosomes' guesses: texts of every alphabet, cut at every place, beside the model's guess for
the whole; any order and grouping; what may stand for chromosomes; the combining itself, over all alphabets and all numbers. Which
of two alphabets is the later stands in the worked table, every pair of them."""

import array
import itertools
import mmap
import random
import unittest
import weakref

import fantailclock as fc
from fantailclock import Alphabet
from test_fantailclock import CHOICES, LISTS, PAGE, READ, READ_WRITE, Guarded, answered, ctypes, guessed, pack, soft_masked, taken

try:
    import numpy
except ImportError:
    numpy = None

# numbers of no alphabet: those next to the last one, those whose lowest bits are an alphabet's, the greatest
NONE = [6, 7, 8, 255, 256, 260, 1 << 32, (1 << 32) + 5, 1 << 63, (1 << 63) + 3, (1 << 64) - 6, (1 << 64) - 1]
# for each alphabet that is guessed, a byte that it has and none before it has, folded or not
OWN = dict(zip(Alphabet, b"ANSX{"))


def texts(length):
    """Texts of each alphabet, so long: members at random, and bases with one byte that only it has at the front, inside and at
    the end. Each as it is, soft-masked, and in lowercase."""
    chance, found = random.Random(length), []
    for alphabet, own in OWN.items():
        found.append(bytes(chance.choices(LISTS[alphabet], k=length)))
        for place in 0, length // 2, length - 1:
            bases = bytearray(chance.choices(b"ACGT", k=length))
            bases[place] = own
            found.append(bytes(bases))
    return found + [soft_masked(chance, text) for text in found] + [text.lower() for text in found]


def genomes(seed, count):
    """Genomes by either choice: up to seven chromosomes, empty ones among them."""
    chance = random.Random(seed)
    for case in range(count):
        latest, chromosomes = case // 2 % 5, []
        for _ in range(case // 10 % 8):
            text = bytes(chance.choices(LISTS[chance.randint(0, latest)], k=chance.randint(0, chance.choice((0, 8, 69, 699, 8999)))))
            chromosomes.append(soft_masked(chance, text) if chance.random() < 0.3 else text)
        yield CHOICES[case % 2], chromosomes


class Texts(unittest.TestCase):
    """The guess for texts joined is the latest of their guesses."""

    def test_the_texts_are_of_every_alphabet(self):
        for fold in CHOICES:
            guesses = [guessed(fold, text) for text in texts(24)]
            self.assertTrue(all(guesses.count(alphabet) >= 4 for alphabet in OWN), guesses)

    def test_cut_in_two_at_every_place(self):
        for length, fold in itertools.product((1, 2, 24, 120), CHOICES):
            for text in texts(length):
                whole = guessed(fold, text)
                self.assertEqual(fc.guess_alphabet(text, fold=fold), whole)
                for cut in range(length + 1):
                    one, other = text[:cut], text[cut:]
                    later = fc.later_alphabet(fc.guess_alphabet(one, fold=fold), fc.guess_alphabet(other, fold=fold))
                    found = later, fc.guess_genome([one, other], fold=fold), fc.guess_genome((other, one), fold=fold)
                    self.assertEqual(found, (whole,) * 3, (fold, text, cut))

    def test_cut_in_three_at_every_two_places(self):
        for length, fold in itertools.product((1, 2, 24), CHOICES):
            for text in texts(length):
                whole = guessed(fold, text)
                for first, second in itertools.combinations_with_replacement(range(length + 1), 2):
                    parts = text[:first], text[first:second], text[second:]
                    self.assertEqual(fc.guess_genome(parts, fold=fold), whole, (fold, text, first, second))

    def test_in_any_order_and_grouping(self):
        for fold, chromosomes in genomes(21, 160):
            whole = guessed(fold, b"".join(chromosomes))
            self.assertEqual(fc.guess_genome(reversed(chromosomes), fold=fold), whole)
            self.assertEqual(fc.guess_genome(chromosomes * 2, fold=fold), whole)  # each twice
            for order in itertools.permutations(chromosomes[:4]):
                self.assertEqual(fc.guess_genome([*order, *chromosomes[4:]], fold=fold), whole)
            for cut in range(len(chromosomes) + 1):  # two parts of a genome, each by itself
                parts = [fc.guess_genome(part, fold=fold) for part in (chromosomes[:cut], chromosomes[cut:])]
                self.assertEqual(fc.later_alphabet(*parts), whole)

    def test_many_genomes(self):
        """Whole, and in pieces by a guesser for each chromosome."""
        chance = random.Random(22)
        for fold, chromosomes in genomes(23, 800):
            whole = guessed(fold, b"".join(chromosomes))
            self.assertEqual(fc.guess_genome(chromosomes, fold=fold), whole)
            in_pieces = Alphabet.Dna2bit
            for chromosome in chromosomes:
                guesser, step = fc.Guesser(fold=fold), chance.randint(1, 1 + len(chromosome))
                for at in range(0, len(chromosome), step):
                    guesser.update(chromosome[at : at + step])
                in_pieces = fc.later_alphabet(in_pieces, guesser.guess())
            self.assertEqual(in_pieces, whole)

    def test_no_chromosomes_and_empty_ones(self):
        for fold in CHOICES:
            for nothing in [], (), {}, set(), iter([]), (each for each in ()), [b""], [b"", bytearray(), memoryview(b"")], [b""] * 9:
                self.assertIs(fc.guess_genome(nothing, fold=fold), Alphabet.Dna2bit)
            for alphabet, own in OWN.items():
                for at in range(3):
                    chromosomes = [b""] * 3
                    chromosomes[at] = bytes([own])
                    self.assertIs(fc.guess_genome(chromosomes, fold=fold), alphabet)

    def test_the_genome_s_alphabet_packs_every_chromosome(self):
        """It is the first that does: each one before it refuses one chromosome at least."""
        for fold, chromosomes in genomes(24, 240):
            alphabet = fc.guess_genome(chromosomes, fold=fold)
            for chromosome in chromosomes:
                expected = taken(alphabet, fold, chromosome)
                packed = fc.encode_sequence(alphabet, chromosome, fold=fold)
                self.assertTrue(packed == pack(alphabet, expected), (alphabet, fold))
                self.assertEqual(fc.decode_covered(alphabet, packed, 0, 0, len(chromosome)), expected)
            for earlier in range(alphabet):
                answers = [answered(lambda: fc.encode_sequence(earlier, each, fold=fold)) for each in chromosomes]
                self.assertIn(5, [answer[0] for answer in answers if isinstance(answer, tuple)])

    def test_one_choice_for_all(self):
        """Guesses of several choices combined are the guess of nothing in particular."""
        mixed = fc.later_alphabet(fc.guess_alphabet(b"ACGT"), fc.guess_alphabet(b"acgt", fold=True))
        self.assertEqual(mixed, Alphabet.Dna2bit)
        self.assertRaises(fc.NotMember, fc.encode_sequence, mixed, b"acgt")
        self.assertEqual(fc.guess_genome([b"ACGT", b"acgt"]), Alphabet.Ascii)
        self.assertEqual(fc.guess_genome([b"ACGT", b"acgt"], fold=True), Alphabet.Dna2bit)


class Chromosomes(unittest.TestCase):
    """What may stand for them, and what is done with it."""

    class Text(bytearray):
        """Memory that can be seen to be gone."""

    def test_anything_that_can_be_gone_through(self):
        chromosomes = [b"ACGT", b"ACGTN", b"GATTACA"]
        for kind in list, tuple, set, iter, reversed, lambda each: dict.fromkeys(each), lambda each: dict(enumerate(each)).values():
            self.assertIs(fc.guess_genome(kind(chromosomes)), Alphabet.Dna3bit)
        for kind in bytearray, memoryview, lambda each: memoryview(bytearray(each))[:], lambda each: array.array("B", each):
            self.assertIs(fc.guess_genome(map(kind, chromosomes)), Alphabet.Dna3bit)
        if numpy:
            self.assertIs(fc.guess_genome(numpy.frombuffer(each, numpy.uint8) for each in chromosomes), Alphabet.Dna3bit)
            self.assertIs(fc.guess_genome(numpy.array([b"ACGT", b"ACGN"])), Alphabet.Dna3bit)
            rows = numpy.frombuffer(b"ACGTACGN", numpy.uint8).reshape(2, 4)
            self.assertIs(fc.guess_genome(rows), Alphabet.Dna3bit)

    def test_one_text_is_no_list_of_them(self):
        """Its bytes or letters would be taken for chromosomes, and an empty one for a genome without any."""
        with mmap.mmap(-1, PAGE) as mapped:
            wrong = ["ACGT", "", b"ACGT", b"", bytearray(b"ACGT"), memoryview(b"ACGT"), memoryview(b"ACGT")[::2], mapped]
            wrong += [array.array("B", b"AC"), (ctypes.c_char * 4)(*b"ACGT")]
            wrong += [numpy.frombuffer(b"ACGT", numpy.uint8)] if numpy else []
            for text, fold in itertools.product(wrong, CHOICES):
                with self.assertRaisesRegex(TypeError, f"iterable of texts, not one text, {type(text).__name__}$"):
                    fc.guess_genome(text, fold=fold)

    def test_what_is_no_chromosome(self):
        for wrong in None, 7, 1.5, Alphabet.Dna2bit, fc.Guesser():
            self.assertRaises(TypeError, fc.guess_genome, wrong)
        for wrong, error in (
            ("ACGT", TypeError), (65, TypeError), (None, TypeError), ([b"ACGT"], TypeError), (memoryview(b"ACGT")[::2], BufferError)
        ):
            for chromosomes in [wrong], [b"ACGT", wrong], [wrong, b"ACGT"], [b"{", wrong]:
                self.assertRaises(error, fc.guess_genome, chromosomes)
                self.assertRaises(error, fc.guess_genome, (each for each in chromosomes), fold=True)

    def test_every_one_is_taken_once_and_none_is_kept(self):
        """No more than one is alive at a time, though a generator makes each anew."""
        made = []

        def chromosomes():
            for text in b"ACGT", b"{}", b"ACGN", b"":  # Ascii from the second on
                self.assertEqual([each() for each in made], [None] * len(made), "one is still held when the next is asked for")
                chromosome = self.Text(text)
                made.append(weakref.ref(chromosome))
                yield chromosome
                del chromosome

        self.assertIs(fc.guess_genome(chromosomes()), Alphabet.Ascii)
        self.assertEqual([each() for each in made], [None] * 4)

    def test_memory_is_given_back(self):
        text = bytearray(b"ACGT" * 2000)
        for chromosomes in [text, text], [text, "ACGT"], [text, None, text], text:
            try:
                fc.guess_genome(chromosomes)
            except TypeError:
                pass
            text.append(65)  # refused by Python while the memory is lent

    def test_an_iterable_that_fails(self):
        def fails():
            yield b"ACGT"
            raise ZeroDivisionError

        self.assertRaises(ZeroDivisionError, fc.guess_genome, fails())

    def test_the_choice_is_made_once(self):
        class Turning:
            asked = 0

            def __bool__(self):
                self.asked += 1
                return self.asked == 1

        turning = Turning()
        self.assertIs(fc.guess_genome([b"acgt", b"acgt"], fold=turning), Alphabet.Dna2bit)
        self.assertEqual(turning.asked, 1)
        self.assertRaises(TypeError, fc.guess_genome, [b"acgt"], True)  # by position it could be taken for something else

    def test_between_guard_pages(self):
        """At either end of pages that may only be read, between pages that may not be touched."""
        pages, chance = [Guarded() for _ in range(4)], random.Random(25)
        for length in *range(73), 509, 512, 516, PAGE - 1, PAGE:
            for alphabet, fold, back in itertools.product(OWN, CHOICES, (False, True)):
                bases, members = (bytes(chance.choices(LISTS[each], k=length)) for each in (0, alphabet))
                chromosomes = [soft_masked(chance, bases), b"", members, bases]
                lent = [page.lend(back, len(text)) for page, text in zip(pages, chromosomes)]
                for page, memory, text in zip(pages, lent, chromosomes):
                    ctypes.memmove(memory, text, len(text))
                    page.allow(READ)
                self.assertEqual(fc.guess_genome(lent, fold=fold), guessed(fold, b"".join(chromosomes)), (alphabet, fold, back, length))
                for page in pages:
                    page.allow(READ_WRITE)


class Later(unittest.TestCase):
    """The combining of two guesses."""

    def test_every_two_and_three_alphabets(self):
        later = fc.later_alphabet
        for one in Alphabet:
            self.assertEqual((later(one, one), later(one, 0), later(0, one)), (one, one, one))
            self.assertEqual((later(one, 5), later(5, one)), (5, 5))
            for other in Alphabet:
                found = later(one, other)
                self.assertIs(type(found), Alphabet)
                self.assertIn(found, (one, other))
                self.assertEqual((later(other, one), later(int(one), int(other))), (found, found))
                for third in Alphabet:
                    self.assertEqual(later(later(one, other), third), later(one, later(other, third)))

    def test_numbers_of_no_alphabet(self):
        for none in NONE:
            for other in *Alphabet, *NONE:
                for given in (none, other), (other, none):
                    with self.assertRaises(fc.NoAlphabet) as caught:
                        fc.later_alphabet(*given)
                    self.assertEqual(str(caught.exception), "refused by 8: no such alphabet")
                    self.assertEqual(bytes(fc.lib.fc_later_alphabet(*given)), bytes(fc.fc_number(8, 0)))

    def test_what_is_no_number_of_64_bits(self):
        for wrong, error in (
            (-1, OverflowError), (1 << 64, OverflowError), ((1 << 64) + 3, OverflowError), (1.0, TypeError), ("1", TypeError), (None, TypeError)
        ):
            for other in 3, 6:  # before the number of an alphabet is asked about
                self.assertRaises(error, fc.later_alphabet, wrong, other)
                self.assertRaises(error, fc.later_alphabet, other, wrong)
        self.assertIs(fc.later_alphabet(True, False), Alphabet.Dna3bit)  # numbers in Python, as everywhere


if __name__ == "__main__":
    unittest.main()
