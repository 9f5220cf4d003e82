"""Folding: soft-masked text, whole and in pieces, beside its uppercased text without folding; every byte by both choices; the
choice as a truth value and as a number, in states that are kept or forged, and through every call."""

import io
import random
import threading
import unittest

import fantailclock as fc
import test_fantailclock as model
from fantailclock import Alphabet
from test_fantailclock import BITS, CHOICES, LISTS, PACKED, PAGE, answered, fitting, guessed, not_member, pack, rooms, soft_masked, taken

try:
    import numpy
except ImportError:
    numpy = None

def as_received(answer, text):
    """The answer for an uppercased text, with the byte that was received in place of the uppercase one."""
    if isinstance(answer, tuple) and answer[0] == fc.NotMember.number:
        return answer[0], answer[1], text[answer[1]], answer[3]
    return answer


class Texts:
    """Random soft-masked texts by every entry point that has the choice; a mix-in for tests."""

    def text(self, chance, alphabet):
        """Members, and in one of four texts a few bytes of any kind among them."""
        text = bytearray(chance.choices(LISTS[alphabet], k=chance.randint(0, chance.choice((9, 70, 700, 9000)))))
        for _ in range(chance.randint(1, 3) if text and chance.random() < 0.25 else 0):
            text[chance.randrange(len(text))] = chance.randrange(256)
        return soft_masked(chance, text)

    def cut(self, chance, text):
        """The places between pieces, some of which have no bytes."""
        places = sorted([0, len(text), *(chance.randint(0, len(text)) for _ in range(chance.randint(0, 5)))])
        return list(zip(places, places[1:]))

    def guesses(self, chance, text):
        expected = guessed(True, text)
        self.assertEqual(fc.guess_alphabet(text, fold=True), expected)
        self.assertEqual(fc.guess_alphabet(text.upper()), expected)
        on, off = fc.Guesser(fold=True), fc.Guesser()
        for start, end in self.cut(chance, text):
            on.update(text[start:end])
            off.update(text[start:end].upper())
            self.assertEqual(bytes(on.state), bytes(fc.fc_guesser(off.state.mask, 1)))
            self.assertEqual(on.guess(), off.guess())
        self.assertEqual(on.guess(), expected)

    def whole(self, alphabet, text):
        """A text packed whole gives what its uppercased text gives without folding, and reads back as that."""
        plain = taken(alphabet, True, text)
        packed = answered(lambda: fc.encode_sequence(alphabet, text, fold=True))
        self.assertEqual(packed, as_received(answered(lambda: fc.encode_sequence(alphabet, plain)), text))
        out = bytearray(len(text) + 9)
        count = answered(lambda: fc.encode_sequence_into(alphabet, text, out, fold=True))
        if isinstance(packed, tuple):
            self.assertEqual((count, out), (packed, bytes(len(text) + 9)))
        else:
            self.assertEqual((count, out[: len(packed)], any(out[len(packed) :])), (len(packed), packed, False))
            self.assertEqual(fc.decode_covered(alphabet, packed, 0, 0, len(text)), plain)
        return packed

    def in_pieces(self, chance, alphabet, text):
        """So does a text in pieces, call for call and state for state; the encoder starts anew from its state each time."""
        plain, on, off = taken(alphabet, True, text), fc.SequenceEncoder(alphabet, fold=True), fc.SequenceEncoder(alphabet)
        joined = b""
        for start, end in self.cut(chance, text):
            on, out = fc.SequenceEncoder(state=on.state), bytearray(end - start + 1)
            other = fc.SequenceEncoder(state=on.state)
            written = on.update(text[start:end])
            self.assertEqual(written, off.update(plain[start:end]))
            self.assertEqual((other.update_into(text[start:end], out), out[: len(written)]), (len(written), written))
            state = off.state
            state.fold = 1
            if state.has_bad:
                state.bad_byte = text[state.bad_position]
            self.assertEqual(bytes(on.state), bytes(state))
            self.assertEqual(bytes(other.state), bytes(state))
            joined += written
        into = answered(lambda: fc.SequenceEncoder(state=on.state).finalize_into(bytearray(1)))
        last = answered(on.finalize)
        self.assertEqual(last, as_received(answered(off.finalize), text))
        self.assertEqual(into, last if isinstance(last, tuple) else len(last))
        return last if isinstance(last, tuple) else joined + last

    def random_texts(self, seed, count):
        chance = random.Random(seed)
        for case in range(count):
            alphabet = Alphabet(case % 6)
            text = self.text(chance, alphabet)
            self.guesses(chance, text)
            self.assertEqual(self.in_pieces(chance, alphabet, text), self.whole(alphabet, text))


class SoftMasked(Texts, unittest.TestCase):
    def test_soft_masked_text_is_its_uppercased_text(self):
        self.random_texts(6, 3000)

    def test_soft_masked_text_in_threads_at_once(self):
        failed = []

        def work(seed):
            try:
                self.random_texts(seed, 200)
            except BaseException as error:
                failed.append(error)

        threads = [threading.Thread(target=work, args=(seed,)) for seed in range(8)]
        for thread in threads:
            thread.start()
        for thread in threads:
            thread.join()
        self.assertEqual(failed, [])

    def test_every_byte_by_both_choices(self):
        for alphabet in Alphabet:
            for fold in CHOICES:
                for byte in range(256):
                    one = bytes([byte])
                    stands = bytes([byte - 32]) if fold and alphabet < 4 and 0x61 <= byte <= 0x7A else one
                    expected = pack(alphabet, stands) if stands in LISTS[alphabet] else (5, 0, byte, 1)
                    self.assertEqual(answered(lambda: fc.encode_sequence(alphabet, one, fold=fold)), expected)
                    encoder = fc.SequenceEncoder(alphabet, fold=fold)
                    written, last = encoder.update(one), answered(encoder.finalize)
                    self.assertEqual(last if isinstance(last, tuple) else written + last, expected)
                    self.assertEqual(fc.guess_alphabet(one, fold=fold), guessed(fold, one))

    def test_long_texts(self):
        """More than one page and more than the table of the guess waits for; the bases come first, then something else."""
        for length in 1000, 5000, 70_000:
            text = soft_masked(random.Random(length), b"ACGT" * (length // 4))
            for behind, expected in (b"", 0), (b"n", 1), (b"s", 2), (b"x", 3), (b"{", 4), (b"`", 4), (b"\xe1", 4):
                for placed in text + behind, behind + text, text[:99] + behind + text[99:]:
                    self.assertEqual(fc.guess_alphabet(placed, fold=True), expected, (length, behind))
            self.assertEqual(fc.encode_sequence(0, text, fold=True), fc.encode_sequence(0, text.upper()))
            with self.assertRaises(fc.NotMember) as caught:
                fc.encode_sequence(0, text + b"nN", fold=True)
            refused = caught.exception
            self.assertEqual((refused.position, refused.byte, refused.count), (length, ord("n"), 2))
            self.assertEqual(str(refused), f"refused by 5: byte 6E at position {length} is no member, the first of 2")

    def test_reads_know_nothing_of_the_choice(self):
        packed = fc.encode_sequence(Alphabet.Dna3bit, b"acgtNRyu", fold=True)
        self.assertEqual(packed, bytes.fromhex("053977"))
        self.assertEqual(fc.StreamingDecoder.for_window(io.BytesIO(packed), Alphabet.Dna3bit, 2, 6).read(), b"GTNR")
        self.assertFalse(Alphabet.Dna2bit.contains(ord("a")))

    def test_lowercase_without_folding_is_as_it_was(self):
        for choice in {}, {"fold": False}:
            self.assertEqual(fc.guess_alphabet(b"acgt", **choice), Alphabet.Ascii)
            for alphabet in PACKED:
                with self.assertRaises(fc.NotMember) as caught:
                    fc.encode_sequence(alphabet, b"AaA", **choice)
                self.assertEqual(caught.exception.args, (1, ord("a"), 1))
            self.assertEqual(fc.SequenceEncoder(0, **choice).state.fold, 0)
            self.assertEqual(fc.Guesser(**choice).state.fold, 0)


class Choice(unittest.TestCase):
    """The choice as an argument and as a number of a state."""

    TRUE = [True, 1, 2, -1, 255, 256, 1 << 32, 1 << 63, 1 << 64, 1.5, "no", [0]]
    FALSE = [False, 0, None, 0.0, "", []]

    def test_any_true_value_folds(self):
        true, false = list(self.TRUE), list(self.FALSE)
        if numpy:
            true += [numpy.bool_(True), numpy.uint64(2)]
            false += [numpy.bool_(False), numpy.uint64(0)]
        for folds, values in (0, false), (1, true):
            for fold in values:
                self.assertEqual(fc.guess_alphabet(b"acgt", fold=fold), Alphabet.Dna2bit if folds else Alphabet.Ascii)
                self.assertEqual(bytes(fc.Guesser(fold=fold).state), bytes(fc.fc_guesser(31, folds)))
                for alphabet in Alphabet:
                    fresh = fc.fc_encoder(alphabet, fold=folds)
                    self.assertEqual(bytes(fc.SequenceEncoder(alphabet, fold=fold).state), bytes(fresh))
                expected = b"\x9c" if folds else (5, 0, ord("a"), 4)
                self.assertEqual(answered(lambda: fc.encode_sequence(0, b"acgt", fold=fold)), expected)
                out = bytearray(1)
                expected = (1, b"\x9c") if folds else ((5, 0, ord("a"), 4), b"\0")
                self.assertEqual((answered(lambda: fc.encode_sequence_into(0, b"acgt", out, fold=fold)), out), expected)

    def test_what_is_neither_true_nor_false(self):
        class Undecided:
            def __bool__(self):
                raise ZeroDivisionError

        fold = Undecided()
        self.assertRaises(ZeroDivisionError, fc.guess_alphabet, b"", fold=fold)
        self.assertRaises(ZeroDivisionError, fc.Guesser, fold=fold)
        self.assertRaises(ZeroDivisionError, fc.SequenceEncoder, 0, fold=fold)
        self.assertRaises(ZeroDivisionError, fc.encode_sequence, 0, b"", fold=fold)
        self.assertRaises(ZeroDivisionError, fc.encode_sequence_into, 0, b"", bytearray(), fold=fold)
        self.assertRaises(TypeError, fc.encode_sequence, None, b"", fold=fold)  # numbers first, in their order

    def test_the_choice_has_a_name(self):
        """By position it could be taken for something else."""
        self.assertRaises(TypeError, fc.guess_alphabet, b"", True)
        self.assertRaises(TypeError, fc.encode_sequence, 0, b"", True)
        self.assertRaises(TypeError, fc.encode_sequence_into, 0, b"", bytearray(), True)
        self.assertRaises(TypeError, fc.SequenceEncoder, 0, None, True)
        self.assertRaises(TypeError, fc.Guesser, True)  # no state

    def test_any_number_but_zero_folds_in_the_library(self):
        for fold in 0, 1, 2, 255, 256, 1 << 32, 1 << 63, (1 << 64) - 1:
            folds = int(fold > 0)
            self.assertEqual(bytes(fc.lib.fc_guesser_new(fold)), bytes(fc.fc_guesser(31, folds)))
            self.assertEqual(bytes(fc.lib.fc_guess_alphabet(fold, b"acgt", 4)), bytes(fc.fc_number(0, 0 if folds else 4)))
            for alphabet in Alphabet:
                started = fc.fc_encoder_started(0, fc.fc_encoder(alphabet, fold=folds))
                self.assertEqual(bytes(fc.lib.fc_encoder_new(alphabet, fold)), bytes(started))
                out, by_one = bytearray(b"\xc3" * 5), bytearray(b"\xc3" * 5)
                answers = [bytes(self.packed(alphabet, each, to)) for each, to in ((fold, out), (folds, by_one))]
                self.assertEqual((answers[0], out), (answers[1], by_one))

    def packed(self, alphabet, fold, out):
        with fc._Lent(out, writable=True) as memory:
            return fc.lib.fc_encode_sequence(alphabet, fold, b"acgt", 4, *memory)

    def test_a_state_has_its_own_choice(self):
        for fold in CHOICES:
            encoder, guesser = fc.SequenceEncoder(0, fold=fold), fc.Guesser(fold=fold)
            encoder.update(b"A")
            guesser.update(b"A")
            kept, seen = encoder.state, guesser.state
            self.assertRaises(TypeError, fc.SequenceEncoder, state=kept, fold=True)
            self.assertRaises(TypeError, fc.Guesser, state=seen, fold=True)
            self.assertRaises(TypeError, fc.SequenceEncoder, 0, kept)
            again, guessing = fc.SequenceEncoder(state=kept), fc.Guesser(state=seen)
            self.assertEqual(again.update(b"cgt"), b"\x9c" if fold else b"\xbf")
            self.assertEqual(answered(again.finalize), b"" if fold else (5, 1, ord("c"), 3))
            guessing.update(b"cgt")
            self.assertEqual(guessing.guess(), Alphabet.Dna2bit if fold else Alphabet.Ascii)

    def test_the_choice_stays(self):
        """Through accepted calls and refused ones, in the alphabets that do not fold too."""
        for alphabet in Alphabet:
            for fold in CHOICES:
                encoder, guesser = fc.SequenceEncoder(alphabet, fold=fold), fc.Guesser(fold=fold)
                for piece in b"", b"AC", b"gt", b"{}", b"acgtnACGTN":
                    self.assertRaises(fc.ShortMemory, encoder.update_into, b"acgtacgt", bytearray(1))
                    encoder.update(piece)
                    guesser.update(piece)
                    guesser.guess()
                    self.assertEqual((encoder.state.fold, guesser.state.fold), (fold, fold))
                answered(lambda: encoder.finalize_into(bytearray()))
                self.assertEqual(encoder.state.fold, fold)

    def test_forged_choices(self):
        """A number above 1 is unsound, after an alphabet that is none; the state comes back as it was, no byte changes."""
        for fold in 2, 3, 255, 256, 257, 1 << 32, (1 << 32) + 1, 1 << 63, (1 << 63) + 1, (1 << 64) - 1:
            for alphabet, refusal in [(each, 1) for each in Alphabet] + [(6, 8), (256, 8), ((1 << 64) - 1, 8)]:
                self.forged_encoder(fc.fc_encoder(alphabet, fold=fold), refusal)
            guesser = fc.Guesser(state=fc.fc_guesser(31, fold))
            self.assertEqual((answered(lambda: guesser.update(b"acgt")), answered(guesser.guess)), ((1,), (1,)))
            self.assertEqual(bytes(guesser.state), bytes(fc.fc_guesser(31, fold)))
        for fold in 0, 1:
            self.forged_encoder(fc.fc_encoder(6, fold=fold), 8)

    def forged_encoder(self, state, refusal):
        encoder, out = fc.SequenceEncoder(state=state), bytearray(b"\xc3" * 9)
        for call in (
            lambda: encoder.update(b"acgt"),
            lambda: encoder.update_into(b"acgt", out),
            lambda: encoder.finalize(),
            lambda: encoder.finalize_into(out),
        ):
            self.assertEqual(answered(call), (refusal,))
            self.assertEqual((bytes(encoder.state), out), (bytes(state), b"\xc3" * 9))

    def test_states_of_the_versions_before(self):
        for short, call in (bytes(8), "guesser_guess"), (bytes(56), "encoder_finalize"), (bytes(64), "encoder_finalize"):
            self.assertRaises(ValueError, getattr(fc._calls, call), short)


class BetweenGuardPages(unittest.TestCase):
    """Random soft-masked texts, with strange bytes among them, with all memory against guard pages, by both choices."""

    def setUp(self):
        self.harness, self.random = model.Harness(self), random.Random(7)

    def text(self, alphabet):
        text = bytearray(self.random.choices(LISTS[alphabet], k=self.random.choice((0, 1, 7, 8, 9, 63, 64, 65, 300, PAGE))))
        for _ in range(self.random.choice((0, 0, 0, 1, 3, len(text))) if text else 0):
            text[self.random.randrange(len(text))] = self.random.randrange(256)
        return soft_masked(self.random, text)

    def test_random_texts(self):
        for case in range(900):
            alphabet, fold = Alphabet(case % 6), bool(case // 6 % 2)
            text = self.text(alphabet)
            self.whole(alphabet, fold, text)
            self.pieces(alphabet, fold, text, self.random.randint(0, min(len(text), 9)))
            self.harness.check("fc_guess_alphabet", (fold, text), text, 0, b"",
                               lambda data, _: fc.guess_alphabet(data, fold=fold) - guessed(fold, data))
            self.harness.check("fc_guesser_update", (fold, text), text, 0, b"",
                               lambda data, _: self.updated(fold, data) - guessed(fold, data))

    def updated(self, fold, data):
        guesser = fc.Guesser(fold=fold)
        guesser.update(data)
        return guesser.guess()

    def whole(self, alphabet, fold, text):
        packed, strange = pack(alphabet, taken(alphabet, fold, text)), not_member(alphabet, fold, text)
        for room in rooms(len(packed)):
            expected = 4 if room < len(packed) else strange or packed
            self.harness.check("fc_encode_sequence", (alphabet.name, fold, text), text, room, expected,
                               lambda data, out: fc.encode_sequence_into(alphabet, data, out, fold=fold))

    def pieces(self, alphabet, fold, text, before):
        encoder, plain, about = fc.SequenceEncoder(alphabet, fold=fold), taken(alphabet, fold, text), (alphabet.name, fold, text)
        encoder.update(text[:before])
        packed, first, last = pack(alphabet, plain), before * BITS[alphabet] // 8, len(text) * BITS[alphabet] // 8
        for room in rooms(last - first):
            self.harness.check("fc_encoder_update", about, text[before:], room, fitting(packed[first:last], room),
                               lambda data, out: fc.SequenceEncoder(state=encoder.state).update_into(data, out))
        encoder.update(text[before:])
        strange = not_member(alphabet, fold, text)
        for room in rooms(len(packed) - last):
            self.harness.check("fc_encoder_finalize", about, b"", room, strange or fitting(packed[last:], room),
                               lambda _, out: fc.SequenceEncoder(state=encoder.state).finalize_into(out))


if __name__ == "__main__":
    unittest.main()
