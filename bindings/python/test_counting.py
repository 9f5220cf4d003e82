"""How many bytes are no members, from a stray letter to a wrong file: whole texts and texts in pieces, refused pieces among them,
beside the model's count; and states in which a host forges it."""

import copy
import ctypes
import itertools
import pickle
import random
import unittest

import fantailclock as fc
import test_fantailclock as model
from fantailclock import Alphabet
from test_fantailclock import BITS, CHOICES, LISTS, PACKED, answered, fitting, not_member, pack, soft_masked, taken

REFUSED = b"{" * 8  # a piece of non-members that fills a byte in every alphabet, so that without memory it is refused


def strangers(alphabet, fold):
    """The bytes that are no members by the choice."""
    return bytes(byte for byte in range(256) if not_member(alphabet, fold, bytes([byte])))


def judged(state):
    """Question 4, of a state that a host hands in: the refusal, 0 for none. Every number is asked, the alphabet's first."""
    if state.alphabet > 5:
        return 8
    sound = state.seen <= 1 << 60 and state.pending_bits == state.seen * BITS[state.alphabet] % 8
    sound = sound and state.pending < 1 << state.pending_bits and state.fold <= 1
    if state.has_bad == 0:
        return int(not (sound and state.bad_count == 0))  # position and byte are ignored
    strange = state.bad_byte < 256 and not_member(state.alphabet, state.fold == 1, bytes([state.bad_byte]))
    counted = 1 <= state.bad_count <= state.seen - state.bad_position
    return int(not (sound and state.has_bad == 1 and strange and counted))


def updated(state, piece):
    """The bytes that a piece completes, and the state after it, of a sound state."""
    bits = [state.pending >> bit & 1 for bit in reversed(range(state.pending_bits))]
    for byte in taken(state.alphabet, state.fold == 1, piece):
        code = LISTS[state.alphabet].find(byte)  # -1, all ones, where there is none
        bits += [code >> bit & 1 for bit in reversed(range(BITS[state.alphabet]))]
    whole, next_state = len(bits) // 8 * 8, fc.fc_encoder.from_buffer_copy(state)
    octets = [int("".join(map(str, bits[at : at + 8])), 2) for at in range(0, whole, 8)]
    next_state.seen, next_state.pending_bits = state.seen + len(piece), len(bits) - whole
    next_state.pending = int("0" + "".join(map(str, bits[whole:])), 2)
    _, position, byte, count = not_member(state.alphabet, state.fold == 1, piece) or (0, 0, 0, 0)
    if not state.has_bad:
        first = state.seen + position if count else 0
        next_state.has_bad, next_state.bad_position, next_state.bad_byte = int(count > 0), first, byte
    next_state.bad_count = state.bad_count + count
    return bytes(octets), next_state


class Texts(unittest.TestCase):
    def text(self, chance, alphabet, fold, length, share):
        """Members, in either case where the text is folded, and among them a share of non-members."""
        text = bytes(chance.choices(LISTS[alphabet], k=length))
        text, strange = bytearray(soft_masked(chance, text) if fold else text), strangers(alphabet, fold)
        for at in range(length):
            if chance.random() < share:
                text[at] = chance.choice(strange)
        return bytes(text)

    def whole(self, alphabet, fold, text):
        expected = not_member(alphabet, fold, text) or pack(alphabet, taken(alphabet, fold, text))
        self.assertEqual(answered(lambda: fc.encode_sequence(alphabet, text, fold=fold)), expected)
        out = bytearray(len(text))
        into = answered(lambda: fc.encode_sequence_into(alphabet, text, out, fold=fold))
        self.assertEqual(into, expected if isinstance(expected, tuple) else len(expected))

    def in_pieces(self, chance, alphabet, fold, text):
        """State for state; before each piece one is refused, which leaves the count as it is."""
        encoder, at = fc.SequenceEncoder(alphabet, fold=fold), 0
        while at < len(text):
            piece, state = text[at : at + chance.randint(1, 1 + len(text) // 3)], encoder.state
            self.assertEqual(answered(lambda: encoder.update_into(REFUSED, bytearray())), (4,))
            refused = fc.lib.fc_encoder_update(state, REFUSED, len(REFUSED), None, 0)
            self.assertEqual((bytes(encoder.state), bytes(refused.next)), (bytes(state), bytes(state)))
            encoder.update(piece)
            at += len(piece)
            _, position, byte, count = not_member(alphabet, fold, text[:at]) or (0, 0, 0, 0)
            state = encoder.state
            kept = state.has_bad, state.bad_position, state.bad_byte, state.bad_count
            self.assertEqual(kept, (int(count > 0), position, byte, count))
        expected = not_member(alphabet, fold, text) or int(encoder.state.pending_bits > 0)
        again = fc.SequenceEncoder(state=encoder.state)
        self.assertEqual(answered(lambda: again.finalize_into(bytearray(1))), expected)
        self.assertEqual(answered(lambda: len(encoder.finalize())), expected)

    def test_from_a_stray_letter_to_a_wrong_file(self):
        chance = random.Random(8)
        for alphabet, fold, share in itertools.product(PACKED, CHOICES, (0, 1, 0.5, 0.1, 0.02, 0.001)):
            for longest in 9, 70, 300, 5000:
                text = self.text(chance, alphabet, fold, chance.randint(0, longest), share)
                self.whole(alphabet, fold, text)
                self.in_pieces(chance, alphabet, fold, text)

    def test_nothing_but_non_members_of_every_length(self):
        """A count may be kept in fewer bits for a while: lengths around those, and some that no power of two divides."""
        for alphabet, fold in itertools.product(PACKED, CHOICES):
            byte = strangers(alphabet, fold)[:1]
            for length in [*range(1, 600), 4095, 4096, 4097, 65_535, 65_536, 65_537, 200_003]:
                text = byte * length
                self.assertEqual(answered(lambda: fc.encode_sequence(alphabet, text, fold=fold)), (5, 0, byte[0], length))
                encoder = fc.SequenceEncoder(alphabet, fold=fold)
                encoder.update(text)
                self.assertEqual(answered(encoder.finalize), (5, 0, byte[0], length))

    def test_one_non_member_at_every_place(self):
        chance = random.Random(9)
        for alphabet, fold in itertools.product(PACKED, CHOICES):
            byte, members = strangers(alphabet, fold)[:1], self.text(chance, alphabet, fold, 140, 0)
            for place in range(140):
                text = members[:place] + byte + members[place + 1 :]
                self.assertEqual(answered(lambda: fc.encode_sequence(alphabet, text, fold=fold)), (5, place, byte[0], 1))
                encoder = fc.SequenceEncoder(alphabet, fold=fold)
                encoder.update(text)
                encoder.update(text)  # the same once more: the first stays, the count goes on
                self.assertEqual(answered(encoder.finalize), (5, place, byte[0], 2))

    def test_every_byte_at_once(self):
        every = bytes(range(256))
        for fold in CHOICES:
            for alphabet, letters, others in zip(PACKED, (4, 8, 16, 26), (0, 0, 0, 3)):  # of Protein's list *, - and .
                members = letters * (1 + fold) + others
                self.assertEqual(answered(lambda: fc.encode_sequence(alphabet, every, fold=fold)), (5, 0, 0, 256 - members))
            for alphabet in Alphabet.Ascii, Alphabet.Unknown:
                encoder = fc.SequenceEncoder(alphabet, fold=fold)
                self.assertEqual(encoder.update(every), every)
                self.assertEqual((encoder.state.has_bad, encoder.state.bad_count, encoder.finalize()), (0, 0, b""))

    def test_zeros_unless_refused_by_5(self):
        """Memory is asked for before the symbols, and no answer but a refusal by 5 has a count."""
        for alphabet, text, room, expected in (
            (0, b"ACGT", 1, (0, 1, 0, 0, 0)), (0, b"ANNN", 0, (4, 0, 0, 0, 0)), (6, b"ANNN", 4, (8, 0, 0, 0, 0)),
            (0, b"ANNN", 1, (5, 0, 1, ord("N"), 3)),
        ):
            with fc._Lent(bytearray(room), writable=True) as memory:
                answer = fc.lib.fc_encode_sequence(alphabet, 0, text, len(text), *memory)
            self.assertEqual(bytes(answer), bytes(fc.fc_packed(*expected)))


class Forged(unittest.TestCase):
    """What a state keeps of its non-members, in every combination of numbers around their limits and of numbers that a narrower
    field would take for small ones, by every call and with all memory against guard pages."""

    def setUp(self):
        self.harness = model.Harness(self)

    def states(self, alphabet, fold, seen):
        """States that have seen so many symbols."""
        top = (1 << 64) - 1
        for position in 0, 2, seen - 1 & top, seen, seen + 1, top:
            most = seen - position & top  # around 2^64 where the position is beyond what was seen
            for byte, has_bad in itertools.product((ord("{"), ord("n"), ord("A"), 256 + ord("{"), top), (0, 1, 2, 257, top)):
                for count in {0, 1, most - 1 & top, most, most + 1 & top, (1 << 32) + 1, top}:
                    bits = seen * BITS[alphabet] % 8
                    yield fc.fc_encoder(alphabet, seen, bits, 0, has_bad, position, byte, fold, count)

    def check(self, state, piece):
        refusal, about = judged(state), [getattr(state, name) for name, _ in state._fields_]
        too_far = 2 if state.seen + len(piece) > 1 << 60 else 0
        written, after = (refusal or too_far, state) if refusal or too_far else updated(state, piece)
        encoder = fc.SequenceEncoder(state=state)
        self.assertEqual(answered(lambda: encoder.update(piece)), written if isinstance(written, bytes) else (written,), about)
        self.assertEqual(bytes(encoder.state), bytes(after), about)
        count = len(written) if isinstance(written, bytes) else 0
        told = bytes(fc.fc_updated(refusal or too_far, count, after))
        self.assertEqual(bytes(fc.lib.fc_encoder_update(state, piece, len(piece), ctypes.create_string_buffer(9), 9)), told, about)
        self.assertEqual(bytes(fc.lib.fc_encoder_ask(state, piece, len(piece), 9)), told, about)
        bad = (5, state.bad_position, state.bad_byte, state.bad_count) if state.has_bad == 1 else None
        last = (refusal,) if refusal else bad or bytes(state.pending_bits > 0)
        self.assertEqual(answered(fc.SequenceEncoder(state=state).finalize), last, about)
        values = [0, len(last), 0, 0, 0] if isinstance(last, bytes) else [refusal or 5, 0, *(last[1:] or (0, 0, 0))]
        raw = fc.lib.fc_encoder_finalize(state, ctypes.create_string_buffer(1), 1)
        self.assertEqual(bytes(raw), bytes(fc.fc_packed(*values)), about)
        if state.bad_position == 2:
            self.between_guard_pages(state, piece, about, written, last)
        return bad and not refusal

    def between_guard_pages(self, state, piece, about, written, last):
        self.harness.check("fc_encoder_update", about, piece, 9, written,
                           lambda data, out: fc.SequenceEncoder(state=state).update_into(data, out))
        for room in 0, 1:
            expected = fitting(last, room) if isinstance(last, bytes) else last
            self.harness.check("fc_encoder_finalize", about, b"", room, expected,
                               lambda _, out: fc.SequenceEncoder(state=state).finalize_into(out))

    def test_non_members_in_every_combination(self):
        sound, chance = 0, random.Random(10)
        for alphabet, (fold, seen) in itertools.product(Alphabet, ((0, 0), (1, 3), (0, 8), (1, (1 << 60) - 3), (0, 1 << 60))):
            for state in self.states(alphabet, fold, seen):
                sound += bool(self.check(state, chance.choice((b"", b"N", b"na{"))))
        self.assertGreater(sound, 150)  # with non-members

    def test_a_state_that_was_kept_goes_on(self):
        seen = (1 << 60) - 4
        for count in 1, 1 << 32, seen - 1, seen:
            for piece, more in (b"ACGT", 0), (b"ANGT", 1), (b"NNNN", 4):
                encoder = fc.SequenceEncoder(state=fc.fc_encoder(0, seen, has_bad=1, bad_byte=ord("N"), bad_count=count))
                encoder.update(piece)
                self.assertEqual(answered(lambda: encoder.update(b"N")), (2,))  # refused, and not counted
                self.assertEqual(answered(encoder.finalize), (5, 0, ord("N"), count + more))


class Exceptions(unittest.TestCase):
    def refused(self):
        encoder = fc.SequenceEncoder(Alphabet.Dna2bit)
        for piece in b"ACNT", b"NNAC":
            encoder.update(piece)
        with self.assertRaises(fc.NotMember) as caught:
            encoder.finalize()
        return caught.exception

    def test_in_words(self):
        self.assertEqual(str(self.refused()), "refused by 5: byte 4E at position 2 is no member, the first of 3")
        for count, which in (1, "the only one"), (2, "the first of 2"), (1 << 60, "the first of 1152921504606846976"):
            self.assertEqual(str(fc.NotMember(12, 10, count)), f"refused by 5: byte 0A at position 12 is no member, {which}")

    def test_its_values_are_kept_where_it_is_sent(self):
        """As a pool of processes does, which hands the exceptions of its workers on."""
        refused = self.refused()
        for each in refused, pickle.loads(pickle.dumps(refused)), copy.copy(refused), copy.deepcopy(refused):
            self.assertEqual((type(each), each.position, each.byte, each.count, each.number), (fc.NotMember, 2, ord("N"), 3, 5))
            self.assertEqual((str(each), each.args), (str(refused), (2, ord("N"), 3)))


if __name__ == "__main__":
    unittest.main()
