"""What a reader sees of the module: names that print, a docstring and type hints for each public name."""

import enum
import inspect
import io
import itertools
import pathlib
import re
import typing
import unittest

import fantailclock as fc
from fantailclock import Alphabet, Status
from test_fantailclock import ENGINES

HEADER = (pathlib.Path(__file__).resolve().parents[2] / "include/fantailclock.h").read_text()


def public():
    """The public names that the module defines, and those of its classes."""
    for name, value in vars(fc).items():
        if not name.startswith("_") and getattr(value, "__module__", None) == fc.__name__ and callable(value):
            yield name, value
            for inner, member in vars(value).items() if inspect.isclass(value) else ():
                if not inner.startswith("_") and (callable(member) or isinstance(member, (property, classmethod))):
                    yield f"{name}.{inner}", member


def function(member):
    """The function behind a name; None for a class or a struct."""
    member = member.fget if isinstance(member, property) else getattr(member, "__func__", member)
    return member if inspect.isfunction(member) else None


class Names(unittest.TestCase):
    def test_numbers_with_names_print_them(self):
        names = "Dna2bit Dna3bit DnaIupac Protein Ascii Unknown".split()
        self.assertEqual([str(alphabet) for alphabet in Alphabet], names)
        self.assertEqual([f"{alphabet}" for alphabet in Alphabet], names)
        self.assertEqual(["{:>9}|{:s}".format(status, status) for status in Status][1], "     Done|Done")
        out = io.StringIO()
        print(Alphabet.Dna2bit, Status.Full, file=out)
        self.assertEqual(out.getvalue(), "Dna2bit Full\n")
        self.assertEqual(repr(Alphabet.Dna2bit), "<Alphabet.Dna2bit: 0>")

    def test_they_are_numbers_all_the_same(self):
        self.assertEqual(f"{Alphabet.Protein:d} {Alphabet.Protein:02x} %d" % Alphabet.Protein, "3 03 3")
        self.assertEqual((Alphabet.Protein, int(Status.Full), Alphabet(5).name), (3, 3, "Unknown"))
        self.assertIsInstance(Alphabet.Protein, enum.IntEnum)

    def test_the_numbers_are_the_header_s(self):
        version = re.search(r"^#define FC_ABI_VERSION (\d+)$", HEADER, re.MULTILINE)[1]
        self.assertEqual((int(version), fc.lib.fc_abi_version()), (fc.ABI_VERSION, fc.ABI_VERSION))
        words = {name.replace("_", "").lower(): int(number) for name, number in re.findall(r"\bFC_(\w+) = (\d+)", HEADER)}
        expected = {each.name.lower(): each.value for each in (*Alphabet, *Status)}
        expected.update({f"refused{refusal.__name__.lower()}": number for number, refusal in fc._REFUSALS.items()})
        self.assertEqual(words, {**expected, "accepted": 0})

    def test_each_public_name_has_a_docstring(self):
        names = dict(public())
        self.assertGreater(len(names), 60)
        for name, member in names.items():
            about = inspect.getdoc(function(member) or member)
            self.assertTrue(about and len(about) > 4, name)
            self.assertFalse(function(member) and not function(member).__doc__, name)

    def test_each_public_function_has_hints(self):
        checked = 0
        for name, member in public():
            asked = function(member) or (vars(member).get("__init__") if inspect.isclass(member) else None)
            if not inspect.isfunction(asked) or asked.__module__ != fc.__name__:
                continue
            hints = typing.get_type_hints(asked)
            wanted = {each for each in inspect.signature(asked).parameters if each not in ("self", "cls")}
            self.assertEqual(set(hints) - {"return"}, wanted, name)
            self.assertIn("return", hints, name)
            checked += 1
        self.assertGreater(checked, 40)

    def test_signatures_are_told(self):
        self.assertEqual(list(inspect.signature(fc.decode_covered).parameters), ["alphabet", "data", "byte_offset", "start", "end"])
        self.assertEqual(fc.decode_covered(alphabet=1, data=b"\x05\x39\x77", byte_offset=0, start=2, end=6), b"GTNR")
        for name, (form, more) in itertools.product(ENGINES.values(), (("{}", []), ("{}_into", ["out"]))):
            told = inspect.signature(getattr(fc, form.format(name))).parameters
            self.assertEqual(list(told), ["data", "byte_offset", "start", "end", *more])
        self.assertEqual(list(inspect.signature(fc.guess_genome).parameters), ["chromosomes", "fold"])
        self.assertEqual(fc.guess_genome(chromosomes=[b"ACGT", b"acgn"], fold=True), Alphabet.Dna3bit)
        self.assertEqual(list(inspect.signature(fc.later_alphabet).parameters), ["one", "other"])
        self.assertEqual(fc.later_alphabet(one=Alphabet.Ascii, other=1), Alphabet.Ascii)
        self.assertEqual(list(inspect.signature(fc.SequenceEncoder.ask).parameters), ["self", "piece", "room"])
        self.assertEqual(fc.SequenceEncoder(0).ask(piece=b"ACGT", room=1).count, 1)
        self.assertEqual(fc.Asked._fields, ("count", "next"))


if __name__ == "__main__":
    unittest.main()
