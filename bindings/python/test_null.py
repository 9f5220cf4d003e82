"""Null for no bytes, as foreign callers pass it: every entry point that is lent memory takes a null address with the length
0, for its input, for its output and for both, and answers what it answers for an empty slice at a valid address."""

import ctypes
import itertools
import pathlib
import re
import unittest

import fantailclock as fc
from fantailclock import Alphabet, lib
from test_fantailclock import ENGINES

HEADER = (pathlib.Path(__file__).resolve().parents[2] / "include/fantailclock.h").read_text()
PATTERN = b"\xc3" * 9


def addresses():
    """No bytes at a null address, and at a valid one."""
    yield None
    yield ctypes.create_string_buffer(1)


class Null(unittest.TestCase):
    def setUp(self):
        self.entries = set()

    def same(self, entry, *expected, first=(), numbers=(), source=b"", room=0):
        """The numbers of the answer, by null and by a valid address; `source` and `room` are lent where they are not 0."""
        self.entries.add(entry)
        has_source = source is not None
        for no_source in addresses():
            for no_room in addresses():
                out = ctypes.create_string_buffer(PATTERN, 9)
                given = [source or no_source, len(source)] if has_source else []
                answer = getattr(lib, entry)(*first, *given, *numbers, *([out if room else no_room, room]))
                fields = [getattr(answer, name) for name, _ in answer._fields_ if name != "next"]
                self.assertEqual(fields, list(expected), (entry, first, numbers, source, room))
                self.last, self.out = answer, out.raw

    def test_texts(self):
        for entry in "fc_guess_alphabet", "fc_guesser_update":
            self.entries.add(entry)
        for address, fold in itertools.product(addresses(), (0, 1)):
            answer = lib.fc_guess_alphabet(fold, address, 0)
            self.assertEqual((answer.refusal, answer.value), (0, Alphabet.Dna2bit))
            answer = lib.fc_guesser_update(fc.fc_guesser(20, fold), address, 0)
            self.assertEqual((answer.refusal, answer.next.mask, answer.next.fold), (0, 20, fold))

    def test_names(self):
        for alphabet in Alphabet:
            self.same("fc_display_name", 4, 0, first=[alphabet], source=None)

    def asked(self, state):
        """An empty piece, asked about: nothing is needed for it, and the state stays."""
        self.entries.add("fc_encoder_ask")
        for address, room in itertools.product(addresses(), (0, 9, (1 << 64) - 1)):
            self.assertEqual(bytes(lib.fc_encoder_ask(state, address, 0, room)), bytes(fc.fc_updated(0, 0, state)))

    def test_packing(self):
        for alphabet, fold in itertools.product(Alphabet, (0, 1)):
            state = lib.fc_encoder_new(alphabet, fold).next
            self.same("fc_encode_sequence", 0, 0, 0, 0, 0, first=[alphabet, fold])
            self.same("fc_encode_sequence", 0, 0, 0, 0, 0, first=[alphabet, fold], room=9)
            self.same("fc_encode_sequence", 4, 0, 0, 0, 0, first=[alphabet, fold], source=b"A")
            self.same("fc_encoder_update", 0, 0, first=[state])
            self.assertEqual(bytes(self.last.next), bytes(state))
            self.same("fc_encoder_update", 0, 0, first=[state], room=9)
            self.same("fc_encoder_update", 4, 0, first=[state], source=b"ACGT")
            self.assertEqual(bytes(self.last.next), bytes(state))
            self.asked(state)
            self.same("fc_encoder_finalize", 0, 0, 0, 0, 0, first=[state], source=None)
            if alphabet.bits_per_symbol < 8:
                pending = lib.fc_encoder_update(state, b"A", 1, None, 0).next
                self.asked(pending)
                self.same("fc_encoder_finalize", 4, 0, 0, 0, 0, first=[pending], source=None)
                strange = lib.fc_encoder_update(pending, b"{", 1, ctypes.create_string_buffer(1), 1).next
                self.same("fc_encoder_finalize", 5, 0, 1, ord("{"), 1, first=[strange], source=None)

    def test_reads(self):
        for alphabet in Alphabet:
            for entry, first, behind in (
                ("fc_decode_substring_from_bytes_at_offset", [alphabet], 1),
                ("fc_decode_rolling", [alphabet], 1),
                ("fc_decode_covered", [alphabet], 1),
                ("fc_decode_substring_from_bytes", [alphabet], 0),
                ("fc_decode_string_from_bytes", [alphabet], -1),
                *((f"fc_{name}", [], 1) for own, name in ENGINES.items() if own == alphabet),
            ):
                self.read(entry, alphabet, first, [0] * (behind + 1))

    def read(self, entry, alphabet, first, zeros):
        covered = entry == "fc_decode_covered"
        value = [0] if covered else []  # no base is told but with 18
        self.same(entry, 0, 0, *value, first=first, numbers=[*zeros, 0])
        self.same(entry, 3 if covered else 4, 0, *value, first=first, numbers=[*zeros, 1])
        self.same(entry, 4, 0, *value, first=first, numbers=[*zeros, 2], source=b"\x1b\x1b")
        self.same(entry, 4, 0, *value, first=first, numbers=[*zeros, 2], source=b"\xff\xff")  # before 18
        self.same(entry, 3 if covered else 0, 0 if covered else 9, *value, first=first, numbers=[*zeros, 9], room=9)
        code_zero = [b"T", b"A", b"N", b"A", b"\0", b"\0"][alphabet]
        self.assertEqual(self.out, PATTERN if covered else code_zero * 9)

    def test_streams(self):
        for alphabet in Alphabet:
            for skip, budget, status in (0, 0, 2), (0, 5, 3), (3, 5, 1):
                state = lib.fc_stream_new(alphabet, skip, budget).next
                self.same("fc_stream_read", 0, 0, 0, status, first=[state])
                self.assertEqual(bytes(self.last.next), bytes(state))
            self.same("fc_stream_read", 0, 0, 0, 1, first=[state], room=9)
            state = lib.fc_stream_new(alphabet, 0, 5).next
            self.same("fc_stream_read", 0, 0, 0, 3, first=[state], source=b"\x1b")

    def test_no_entry_point_is_left_out(self):
        for each in self.test_texts, self.test_names, self.test_packing, self.test_reads, self.test_streams:
            each()
        lent = set(re.findall(r"^fc_\w+ (fc_\w+)\(.*uint8_t \*", HEADER, re.MULTILINE))
        self.assertEqual(self.entries, lent)


if __name__ == "__main__":
    unittest.main()
