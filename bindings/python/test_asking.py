"""Updates asked about before memory is lent: every answer beside the model's, and beside that of the real call, made on a copy with
memory of that length. States under way and forged, pieces with non-members, rooms around the count and huge ones; what an encoder
and its answer are to Python."""

import collections
import ctypes
import itertools
import random
import threading
import unittest

import fantailclock as fc
from fantailclock import Alphabet
from test_counting import judged, strangers, updated
from test_fantailclock import BITS, CHOICES, LISTS, PAGE, READ, READ_WRITE, Guarded, answered, not_member, number, pack, rows
from test_fantailclock import soft_masked, taken

MOST = (1 << 64) - 1
ENOUGH = [1 << 60, (1 << 60) + 1, 1 << 63, MOST - 1, MOST]  # rooms that are enough for every piece: no text is longer than 2^60


def rooms(count):
    """Rooms around so many bytes, some that a narrower number would take for none at all, and some that are always enough."""
    around = 0, 1, count // 2, count - 1, count, count + 1, count + 9, 1 << 8, 1 << 16, 1 << 32, (1 << 32) + count
    return sorted({room for room in around if room >= 0} | set(ENOUGH))


def some_piece(chance, alphabet, fold, length):
    """Members, in either case; of every third piece one byte in four is no member, where there are such bytes."""
    piece = bytearray(soft_masked(chance, bytes(chance.choices(LISTS[alphabet], k=length))))
    strange = strangers(alphabet, fold) if chance.random() < 0.3 else b""
    for at in range(length if strange else 0):
        if chance.random() < 0.25:
            piece[at] = chance.choice(strange)
    return bytes(piece)


def begun(alphabet, fold, piece):
    """The state of an encoder that has packed a piece."""
    encoder = fc.SequenceEncoder(alphabet, fold=fold)
    encoder.update(piece)
    return encoder.state


class Comparing(unittest.TestCase):
    """Compares, and counts the cases by their refusal."""

    def setUp(self):
        self.tally = collections.Counter()

    def compare(self, state, piece, room, model):
        """An update of a state asked about, by the call itself and by the method, and made on copies with memory of that length, or
        with more than the piece can fill where there is no such memory. `model` is the rules' answer where memory is enough: a
        refusal's number, or the bytes that are written and the next state."""
        refusal = model if isinstance(model, int) else 4 * (len(model[0]) > room)
        written, after = (b"", state) if refusal else model
        about = [getattr(state, name) for name, _ in state._fields_], len(piece), room
        told, before = bytes(fc.fc_updated(refusal, len(written), after)), bytes(state)
        self.assertEqual(bytes(fc.lib.fc_encoder_ask(state, piece, len(piece), room)), told, about)
        encoder = fc.SequenceEncoder(state=state)
        answer = answered(lambda: encoder.ask(piece, room))
        if refusal:
            self.assertEqual(answer, (refusal,), about)
        else:
            self.assertIs(type(answer), fc.Asked)
            self.assertEqual((answer.count, bytes(answer.next.state)), (len(written), bytes(after)), about)
        self.assertEqual(bytes(encoder.state), before, "asking has changed the encoder")

        lent = min(room, len(piece) + 9)
        copy, out = fc.SequenceEncoder(state=state), bytearray(b"\xc3" * lent)
        made = answered(lambda: copy.update_into(piece, out))
        self.assertEqual(made, (refusal,) if refusal else answer.count, about)
        self.assertEqual(bytes(copy.state), bytes(after), about)
        self.assertEqual(out, written + b"\xc3" * (lent - len(written)), about)
        raw = fc.lib.fc_encoder_update(state, piece, len(piece), ctypes.create_string_buffer(lent + 1), lent)
        self.assertEqual(bytes(raw), told, about)
        self.tally[refusal] += 1
        return answer

    def compare_rooms(self, state, piece, some):
        """The same by many rooms; the rules' answer where there is enough."""
        model = judged(state) or (2 if state.seen + len(piece) > 1 << 60 else updated(state, piece))
        for room in some(0 if isinstance(model, int) else len(model[0])):
            self.compare(state, piece, room, model)
        return model


class Answers(Comparing):
    def test_texts_under_way(self):
        """In pieces, each asked about by every room before it is packed."""
        chance = random.Random(31)
        for alphabet, fold, _ in itertools.product(Alphabet, CHOICES, range(30)):
            encoder = fc.SequenceEncoder(alphabet, fold=fold)
            for _ in range(chance.randint(1, 5)):
                piece = some_piece(chance, alphabet, fold, chance.randint(0, chance.choice((1, 8, 8, 69, 200))))
                written, after = self.compare_rooms(encoder.state, piece, rooms)
                self.assertEqual((encoder.update(piece), bytes(encoder.state)), (written, bytes(after)))
        self.assertGreater(self.tally[0], 10_000)
        self.assertGreater(self.tally[4], 1_000)

    def test_every_length_and_every_room(self):
        """Behind every number of pending bits, by every room up to the count and one more."""
        chance = random.Random(32)
        for alphabet, fold, before in itertools.product(Alphabet, CHOICES, range(8)):
            state = begun(alphabet, fold, some_piece(chance, alphabet, fold, before))
            for length in 0, 1, 2, 3, 7, 8, 9, 17:
                piece = some_piece(chance, alphabet, fold, length)
                count = (state.pending_bits + length * BITS[alphabet]) // 8
                written, _ = self.compare_rooms(state, piece, lambda _: [*range(count + 2), *ENOUGH])
                self.assertEqual(len(written), count)
        self.assertGreater(min(self.tally[0], self.tally[4]), 2_000)

    def test_every_byte(self):
        """By itself and beside a member: what is no member is in the next state, as it was received."""
        for alphabet, fold, byte in itertools.product(Alphabet, CHOICES, range(256)):
            for piece in bytes([byte]), bytes([ord("A"), byte, byte]):
                _, after = self.compare_rooms(fc.fc_encoder(alphabet, fold=fold), piece, lambda _: (0, MOST))
                found = not_member(alphabet, fold, piece) or (5, 0, 0, 0)
                self.assertEqual((after.bad_position, after.bad_byte, after.bad_count), found[1:])

    def test_forged_states(self):
        """The table's, sound and forged: what is refused is refused by its number, whatever the piece and the room."""
        states = [(line, fc.fc_encoder(*map(number, words[1:])), int(answer))
                  for line, words, answer in rows("states.txt") if words[0] == "encoder"]
        self.assertEqual(len(states), 188)
        for (line, state, refusal), piece in itertools.product(states, (b"", b"A", b"{", b"ACGTACGT", b"NNaa{{NNa")):
            model = self.compare_rooms(state, piece, lambda count: (0, count, 9, 1 << 60, MOST))
            self.assertEqual(model if model in (1, 8) else 0, refusal, line)
        self.assertEqual(set(self.tally), {0, 1, 2, 4, 8})
        self.assertGreater(min(self.tally.values()), 50)

    def test_refusals_in_their_order(self):
        """A state with everything wrong, put right number by number."""
        state = fc.fc_encoder(6, 1 << 60, fold=2)
        for name, value, refusal in ("alphabet", 6, 8), ("alphabet", 0, 1), ("fold", 1, 2), ("seen", (1 << 60) - 4, 4):
            setattr(state, name, value)
            encoder = fc.SequenceEncoder(state=state)
            self.assertEqual(answered(lambda: encoder.ask(b"ACGT", 0)), (refusal,))
            self.assertEqual(bytes(fc.lib.fc_encoder_ask(state, b"ACGT", 4, 0)), bytes(fc.fc_updated(refusal, 0, state)))
            if refusal != 4:
                self.assertEqual(answered(lambda: encoder.ask(b"ACGT", MOST)), (refusal,))
        for room in 1, MOST:
            asked = encoder.ask(b"ACGT", room)
            self.assertEqual((asked.count, asked.next.state.seen), (1, 1 << 60))

    def test_near_the_end_of_the_longest_text(self):
        """A piece beyond it is refused before memory is asked for."""
        for alphabet, fold, left in itertools.product(Alphabet, CHOICES, range(0, 9, 2)):
            seen = (1 << 60) - left
            state = fc.fc_encoder(alphabet, seen, seen * BITS[alphabet] % 8, fold=fold)
            for length in 0, left - 1, left, left + 1, 12:
                model = self.compare_rooms(state, b"ACGTACGTACGT"[: max(length, 0)], lambda count: (0, count, 1 << 60, MOST))
                self.assertEqual(model == 2, length > left)
        self.assertTrue(all(self.tally[refusal] > 50 for refusal in (0, 2, 4)), self.tally)

    def test_long_pieces(self):
        """By calls that release the interpreter's lock, with non-members at both ends."""
        chance = random.Random(33)
        for alphabet, fold, length in itertools.product(Alphabet, CHOICES, (4095, 4096, 4097, 20_003)):
            piece = b"{" + some_piece(chance, alphabet, fold, length - 2) + b"{"
            self.compare_rooms(begun(alphabet, fold, b"ACG"), piece, lambda count: (0, count - 1, count, MOST))
        self.assertEqual(self.tally, {0: 96, 4: 96})

    def test_between_guard_pages(self):
        """A piece at either end of a page that may only be read, between pages that may not be touched; beside it the page that the
        last update was lent and that the next one will be: no byte of it changes."""
        source, page, chance = Guarded(), Guarded(), random.Random(34)
        for length, alphabet, fold in itertools.product((*range(73), 509, 512, 516, PAGE - 1, PAGE), Alphabet, CHOICES):
            encoder, piece = fc.SequenceEncoder(alphabet, fold=fold), some_piece(chance, alphabet, fold, length)
            encoder.update_into(b"ACGTACG"[: length % 8], page.lend(False, PAGE))
            written, after = updated(encoder.state, piece)
            ctypes.memset(page.page, 0xC3, PAGE)
            for back in False, True:
                lent = source.lend(back, length)
                ctypes.memmove(lent, piece, length)
                source.allow(READ)
                for room in {0, max(len(written) - 1, 0), len(written), PAGE, MOST}:
                    answer = answered(lambda: encoder.ask(lent, room))
                    told = answer if len(answer) == 1 else (answer.count, bytes(answer.next.state))
                    wanted = (4,) if room < len(written) else (len(written), bytes(after))
                    self.assertEqual(told, wanted, (alphabet, fold, length, back, room))
                source.allow(READ_WRITE)
            self.assertTrue(page.content() == b"\xc3" * PAGE, (alphabet, fold, length))


class Schedulers(unittest.TestCase):
    def test_a_page_only_where_it_is_needed(self):
        """And just as long as the piece needs it; what comes of it is one packing."""
        chance, pages, spared = random.Random(35), 0, 0
        for alphabet, fold, _ in itertools.product(Alphabet, CHOICES, range(12)):
            text, step = some_piece(chance, alphabet, fold, chance.randint(0, 200)), chance.randint(1, 9)
            encoder, packed = fc.SequenceEncoder(alphabet, fold=fold), b""
            for at in range(0, len(text), step):
                piece, page = text[at : at + step], bytearray()
                try:
                    self.assertEqual(encoder.ask(piece, 0).count, 0)
                    spared += 1
                except fc.ShortMemory:
                    page, pages = bytearray(encoder.ask(piece, MOST).count), pages + 1
                    self.assertRaises(fc.ShortMemory, encoder.ask, piece, len(page) - 1)
                    self.assertRaises(fc.ShortMemory, encoder.update_into, piece, page[1:])
                asked = encoder.ask(piece, len(page))
                self.assertEqual(encoder.update_into(piece, page), len(page))  # every byte of it is used
                self.assertEqual(bytes(encoder.state), bytes(asked.next.state))
                packed += page
            whole = pack(alphabet, taken(alphabet, fold, text))
            self.assertEqual(packed, whole[: len(packed)])
            finished = answered(lambda: packed + encoder.finalize())
            self.assertEqual(finished, not_member(alphabet, fold, text) or whole)
        self.assertGreater(min(pages, spared), 300, (pages, spared))

    def test_asked_ahead(self):
        """All pieces of a text before one of them is packed: each by the encoder as it would be then."""
        chance = random.Random(36)
        for alphabet, fold, _ in itertools.product(Alphabet, CHOICES, range(20)):
            pieces = [some_piece(chance, alphabet, fold, chance.randint(0, 30)) for _ in range(chance.randint(0, 6))]
            encoder, counts = fc.SequenceEncoder(alphabet, fold=fold), []
            ahead = encoder
            for piece in pieces:
                count, ahead = ahead.ask(piece, MOST)
                counts.append(count)
            self.assertEqual(sum(counts), sum(map(len, pieces)) * BITS[alphabet] // 8)
            self.assertEqual([len(encoder.update(piece)) for piece in pieces], counts)
            self.assertEqual(bytes(encoder.state), bytes(ahead.state))

    def test_in_threads_at_once(self):
        """One encoder that several threads ask, with pieces of their own, long ones too; nobody packs meanwhile."""
        encoder, wrong, asked = fc.SequenceEncoder(Alphabet.Dna3bit, fold=True), [], []
        encoder.update(b"acgtn")
        before = bytes(encoder.state)

        def work(seed):
            chance = random.Random(seed)
            pieces = [some_piece(chance, Alphabet.Dna3bit, True, length) for length in (3, 50, 9_000, 60_000)]
            expected = [updated(encoder.state, piece) for piece in pieces]
            for _ in range(100):
                for piece, (written, after) in zip(pieces, expected):
                    count, then = encoder.ask(piece, MOST)
                    if (count, bytes(then.state)) != (len(written), bytes(after)) or answered(lambda: encoder.ask(piece, 0)) != (4,):
                        wrong.append((seed, len(piece)))
                    asked.append(count)

        threads = [threading.Thread(target=work, args=(seed,)) for seed in range(6)]
        for thread in threads:
            thread.start()
        for thread in threads:
            thread.join()
        self.assertEqual((wrong, len(asked), bytes(encoder.state)), ([], 6 * 100 * 4, before))


class Forms(unittest.TestCase):
    """What an encoder and its answer are to Python."""

    def test_the_answer(self):
        encoder = fc.SequenceEncoder(Alphabet.Dna2bit, fold=True)
        asked = encoder.ask(b"acgtN", 1)
        count, then = asked
        self.assertEqual((type(asked), count, asked.count, asked[0]), (fc.Asked, 1, 1, 1))
        self.assertIs(then, asked.next)
        self.assertIs(type(then), fc.SequenceEncoder)
        kept = then.state
        self.assertEqual((kept.seen, kept.pending_bits, kept.pending, kept.bad_position, kept.bad_byte, kept.bad_count, kept.fold),
                         (5, 2, 3, 4, ord("N"), 1, 1))
        self.assertRaises(AttributeError, setattr, asked, "count", 2)

    def test_the_next_encoder_is_its_own(self):
        """Neither goes on with the other, nor ends with it."""
        encoder = fc.SequenceEncoder(Alphabet.Dna2bit)
        then = encoder.ask(b"ACG", 0).next
        self.assertEqual((then.update(b"T"), then.finalize()), (b"\x9c", b""))
        self.assertRaises(ValueError, then.ask, b"", 0)
        self.assertEqual((encoder.state.seen, encoder.ask(b"ACG", 0).next.state.seen), (0, 3))
        self.assertEqual((encoder.update(b"TCAG"), encoder.finalize()), (b"\x1b", b""))
        self.assertRaisesRegex(ValueError, "ended by finalize", encoder.ask, b"ACG", 0)

    def test_a_kind_of_encoder(self):
        """What is made of a state is the module's own kind, which needs nothing but the state."""
        class Named(fc.SequenceEncoder):
            def __init__(self, name):
                super().__init__(Alphabet.Dna2bit)
                self.name = name

        self.assertIs(type(Named("one").ask(b"ACGT", 1).next), fc.SequenceEncoder)

    def test_every_kind_of_memory(self):
        for kind in bytes, bytearray, memoryview, lambda data: memoryview(bytearray(data))[:], lambda data: (ctypes.c_char * 9)(*data):
            self.assertEqual(fc.SequenceEncoder(0).ask(kind(b"ACGTACGTA"), 2).count, 2)

    def test_a_room_is_a_number_and_no_memory(self):
        encoder = fc.SequenceEncoder(0)
        for wrong, error in (
            (-1, OverflowError), (1 << 64, OverflowError), ((1 << 64) + 9, OverflowError), (9.0, TypeError), ("9", TypeError),
            (None, TypeError), (bytearray(9), TypeError), (b"9", TypeError),
        ):
            for piece in b"ACGT", b"", "ACGT":  # before the piece is lent
                self.assertRaises(error, encoder.ask, piece, wrong)
        self.assertRaises(TypeError, encoder.ask, b"ACGT")
        self.assertRaises(TypeError, encoder.ask, b"ACGT", 9, 9)
        self.assertEqual((encoder.ask(b"ACGT", True).count, encoder.ask(b"ACGT", MOST).count), (1, 1))
        self.assertRaises(fc.ShortMemory, encoder.ask, b"ACGT", False)
        self.assertEqual(encoder.state.seen, 0)

    def test_nothing_is_written_or_kept(self):
        encoder = fc.SequenceEncoder(Alphabet.Ascii)
        for length in 0, 9, 9_000:
            piece = bytearray(b"acgtACGT{" * length)
            before = bytes(piece)
            for room in 0, len(piece), MOST:
                answered(lambda: encoder.ask(piece, room))
                self.assertTrue(piece == before)
                piece.append(0)  # refused by Python while the memory is lent
                del piece[-1]
        self.assertEqual(encoder.state.seen, 0)


if __name__ == "__main__":
    unittest.main()
