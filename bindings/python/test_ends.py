"""What has ended takes nothing more: an encoder after an accepted `finalize`, a decoder after `close`."""

import io
import unittest
import unittest.mock

import fantailclock as fc
from fantailclock import Alphabet


class Encoders(unittest.TestCase):
    def calls(self, encoder):
        """Every call of an encoder."""
        yield lambda: encoder.update(b"CGT")
        yield lambda: encoder.update(b"")
        yield lambda: encoder.update_into(b"CGT", bytearray(9))
        yield lambda: encoder.ask(b"CGT", 9)
        yield lambda: encoder.ask(b"", 0)
        yield lambda: encoder.finalize()
        yield lambda: encoder.finalize_into(bytearray(9))

    def test_an_ended_text_takes_no_more(self):
        for end in (lambda encoder: encoder.finalize()), (lambda encoder: encoder.finalize_into(bytearray(1))):
            for text in b"ACGTA", b"ACGT", b"":
                encoder = fc.SequenceEncoder(Alphabet.Dna2bit)
                encoder.update(text)
                end(encoder)
                before = bytes(encoder.state)
                for call in self.calls(encoder):
                    self.assertRaises(ValueError, call)
                self.assertEqual(bytes(encoder.state), before)

    def test_what_was_ended_is_one_packing(self):
        encoder = fc.SequenceEncoder(Alphabet.Dna2bit)
        packed = encoder.update(b"ACGTA") + encoder.finalize()
        self.assertEqual(packed, bytes.fromhex("9c80"))
        self.assertRaises(ValueError, encoder.update, b"CGT")

    def test_a_refused_finalize_leaves_it_open(self):
        encoder = fc.SequenceEncoder(Alphabet.Dna2bit)
        encoder.update(b"ACGTA")
        before = bytes(encoder.state)
        self.assertRaises(fc.ShortMemory, encoder.finalize_into, bytearray())
        self.assertRaises(BufferError, encoder.finalize_into, b".")
        self.assertEqual(bytes(encoder.state), before)
        self.assertEqual(encoder.update(b"CGT"), b"\x9c")
        self.assertEqual(encoder.finalize(), b"")
        strange = fc.SequenceEncoder(Alphabet.Dna2bit)
        for count in 1, 2, 3:
            self.assertEqual(strange.update(b"N"), b"")
            with self.assertRaises(fc.NotMember) as caught:
                strange.finalize()
            self.assertEqual(caught.exception.count, count)

    def test_a_state_that_was_kept_is_open(self):
        encoder = fc.SequenceEncoder(Alphabet.Dna2bit)
        encoder.update(b"ACGTA")
        kept = encoder.state
        self.assertEqual(encoder.finalize(), b"\x80")
        self.assertEqual(fc.SequenceEncoder(state=kept).update(b"CGT"), b"\x9c")
        self.assertEqual(kept.seen, 5)  # a copy: no call changes it
        self.assertRaises(TypeError, fc.SequenceEncoder, state=b"")
        self.assertRaises(TypeError, fc.SequenceEncoder)


class Decoders(unittest.TestCase):
    def decoder(self):
        return fc.StreamingDecoder.for_window(io.BytesIO(b"\x05\x39\x77"), Alphabet.Dna3bit, 2, 6)

    def test_a_closed_decoder_reads_nothing(self):
        for bases in 0, 2, 4:
            decoder = self.decoder()
            self.assertEqual(decoder.read(bases), b"GTNR"[:bases])
            decoder.close()
            for call in decoder.read, decoder.readall, decoder.readable, decoder.readline, decoder.readlines:
                self.assertRaises(ValueError, call)
            self.assertRaises(ValueError, decoder.read, 1)
            self.assertRaises(ValueError, decoder.read, 0)
            self.assertRaises(ValueError, decoder.readinto, bytearray(4))
            self.assertRaises(ValueError, next, decoder)
            self.assertRaises(ValueError, decoder.__enter__)
            decoder.close()  # once more is no error

    def test_as_io_s_own_do(self):
        own, decoder = io.BytesIO(b"GTNR"), self.decoder()
        for file in own, decoder:
            with file:
                self.assertEqual((file.readable(), file.writable() and file is decoder, file.read(1)), (True, False, b"G"))
            self.assertTrue(file.closed)
            self.assertRaises(ValueError, file.read, 1)

    def test_the_source_stays_open_and_the_stream_can_be_asked(self):
        source = io.BytesIO(b"\x05\x39\x77")
        with fc.StreamingDecoder.for_window(source, Alphabet.Dna3bit, 2, 6) as decoder:
            decoder.read(2)
        self.assertFalse(source.closed)
        with self.assertRaises(fc.Outstanding) as caught:
            decoder.stream.end()
        self.assertEqual(caught.exception.bases, 2)


class Reads(unittest.TestCase):
    """`read` with and without a size, and what `io` builds on it."""

    def test_all_of_it_is_what_the_steps_give(self):
        for alphabet in Alphabet:
            file = bytes(range(256)) * 1100  # several chunks
            bases = len(file) * 8 // alphabet.bits_per_symbol - 3
            expected = fc.decode_substring_from_bytes(alphabet, file, 1, bases)
            if alphabet == Alphabet.Protein:  # a stream shows X for the codes that no symbol has, as this read does
                self.assertRaises(fc.NoSymbol, fc.decode_covered, alphabet, file, 0, 1, bases)
            first, _ = fc.byte_range_for_bases(1, bases, alphabet.bits_per_symbol)

            def decoder():
                return fc.StreamingDecoder.for_window(io.BytesIO(file[first:]), alphabet, 1, bases)

            for size in None, -1, bases, 1 << 70:
                one = decoder()
                found = one.read(size)
                while found and len(found) < len(expected):  # a read with a size may give less
                    found += one.read(size)
                self.assertTrue(found == expected, (alphabet, size))
            self.assertTrue(decoder().readall() == expected)
            self.assertTrue(io.BufferedReader(decoder()).read() == expected)

    def test_all_of_it_into_long_memory(self):
        for alphabet, file in (Alphabet.Dna2bit, bytes(range(256)) * 5200), (Alphabet.Ascii, bytes(range(256)) * 140_000):
            end = len(file) * 8 // alphabet.bits_per_symbol - 1  # of two large pages and more, of new memory and more
            expected = fc.decode_covered(alphabet, file, 0, 1, end)
            first, _ = fc.byte_range_for_bases(1, end, alphabet.bits_per_symbol)
            for advise in fc._advise, None:
                with unittest.mock.patch.object(fc, "_advise", advise):
                    decoder = fc.StreamingDecoder.for_window(io.BytesIO(file[first:]), alphabet, 1, end)
                    self.assertTrue(decoder.read() == expected)

    def test_more_than_is_asked_for_at_once(self):
        class Small(fc.StreamingDecoder):
            AT_ONCE, CHUNK, LONG_CHUNK = 10, 3, 2

        file = bytes(range(200))
        small = Small.for_window(io.BytesIO(file), Alphabet.Dna2bit, 3, 777)
        self.assertEqual(small.read(), fc.decode_covered(Alphabet.Dna2bit, file, 0, 3, 777))
        short = Small.for_window(io.BytesIO(file[:9]), Alphabet.Dna2bit, 3, 777)
        self.assertRaises(fc.Outstanding, short.read)

    def test_what_a_read_of_the_source_takes_at_most(self):
        class Asked(io.BytesIO):
            def read(self, count):
                self.counts.append(count)
                return super().read(count)

        long, most, file = fc.StreamingDecoder.LONG_CHUNK, fc.StreamingDecoder.CHUNK, bytes((1 << 20) + 7)
        for read, expected in (
            (lambda decoder: decoder.read(), [long, long, 7]),
            (lambda decoder: decoder.read(1 << 20), [most]),
            (lambda decoder: decoder.readinto(bytearray(1 << 20)), [most]),
            (lambda decoder: decoder.readinto(bytearray(10)), [10]),
        ):
            source = Asked(file)
            source.counts = []
            read(fc.StreamingDecoder.for_window(source, Alphabet.Ascii, 0, len(file)))
            self.assertEqual(source.counts, expected)

    def test_a_window_that_no_memory_holds(self):
        far = fc.StreamingDecoder(io.BytesIO(b"\x1b"), Alphabet.Dna2bit, 0, 1 << 60)
        with self.assertRaises(fc.Outstanding) as caught:
            far.read()
        self.assertEqual(caught.exception.bases, (1 << 60) - 4)

    def test_a_source_that_has_nothing_yet(self):
        class Slow:
            given = [None, b"\x1b", None, b"\x1b", None, b""]

            def read(self, _):
                return self.given.pop(0)

        decoder = fc.StreamingDecoder(Slow(), Alphabet.Dna2bit, 0, 8)
        self.assertIsNone(decoder.readinto(bytearray(8)))
        self.assertEqual(decoder.read(), b"TCAG")
        self.assertEqual(decoder.read(), b"TCAG")
        empty = fc.StreamingDecoder(Slow(), Alphabet.Dna2bit, 0, 8)
        self.assertIsNone(empty.read())
        self.assertRaises(fc.Outstanding, empty.read)


if __name__ == "__main__":
    unittest.main()
