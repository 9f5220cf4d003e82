#!/usr/bin/env python3
"""Brings the repository's own definitions and laws to today's spelling: words in snake case, and a dash only between the names of two things.

usage: python3 tools/respell.py [--list]      at the top of the repository, right after the kit's port.py; --list prints the pairs and changes nothing

A name of specs/ or of a law is `alike_digits` and no longer `alike-digits`, `digit_of` and no longer `digitOf`. A dash stays where it joins the names of
two definitions, as in `length-window`: a part counts as a name where specs/ or the library defines it. Names of src/, exported names and names that the
prover makes keep their spelling, and so do types, facts and modules, which are in camel case.
"""
import collections
import os
import re
import sys

TOKEN = re.compile(r"[^\s(){}\[\].,;:λ→`\"«»|⟨⟩]+")
DEFINED = re.compile(r"^\s*((?:(?:abbrev|unfoldable|pub|record|data)\s+)*)([^\s:({,.;]+)((?:\s+(?:\([^)]*\)|\{[^}]*\}))*)\s*:\s")
# words of the library that laws are named after
LIBRARY = set("length take drop map append replicate min max reverse sum zip filter mul mod pow div add sub snoc concat".split())
# a part that is a word in a name, though something is defined by it
WORDS = set("of is at in to by and or none one two three four five is_sound first last next start end due told text line lines rest base bases bytes byte number "
            "place places which state answer part kind low top digit digits value count within alphabet known fits given kept made full more left both".split())

# a definition that would have the name of the function whose answer it is, or of another, and a law that would have its definition's
CHOSEN = {
    "badFrom": "bad_from_of", "bothBad": "both_bad_of", "orFirst": "or_first_of", "membersAhead": "members_ahead_of", "leftOver": "left_over_of",
    "displayName": "display_name_of", "packedLines": "packed_lines_of", "refusedLine": "refused_line_of", "firstLacking": "first_lacking_of",
    "statusOf": "status_for", "readTold": "read_told_of", "inBlocks": "count_in_blocks", "afterRead": "reading_after", "getD-within": "get_or_within",
    "guess-told": "guess_told_lem", "later-told": "later_told_lem", "named-told": "named_told_lem", "letter-or-sign": "letter_or_sign_lem",
    "two-bits": "two_bits_lem", "kind-of": "kind_of_lem", "bit-at": "bit_at_lem", "no-memory-full": "no_memory_full", "read-far-end": "read_far_end",
    "dnaIupac-takes": "dna_iupac_takes", "dna2bit-takes": "dna2bit_takes", "dna3bit-takes": "dna3bit_takes", "protein-takes": "protein_takes",
}


def files(*endings):
    for folder, dirs, names in os.walk("crates"):
        dirs[:] = sorted(d for d in dirs if d != "out")
        for n in sorted(names):
            if n.endswith(endings):
                yield os.path.join(folder, n)


def read(path):
    with open(path, encoding="utf-8") as f:
        return f.read()


def snake(name):
    """One part of a name: a capital behind a small letter or a digit begins a word."""
    if not name or not name[0].islower():
        return name
    return re.sub(r"(?<=[a-z0-9])[A-Z]+", lambda m: "_" + m.group(0).lower(), name)


def defined():
    """What specs/ and the laws define: name, and whether specs/ or an abbrev has it."""
    out = collections.OrderedDict()
    for path in files(".antt"):
        law = not path.endswith(("Proof.antt", "Invariants.antt", "Answers.antt"))
        for line in read(path).splitlines():
            m = DEFINED.match(line)
            if m and not line.lstrip().startswith(("let ", "use ", "--", "in ")):
                thing = "/specs/" in path or "abbrev" in m.group(1) or "unfoldable" in m.group(1)
                name = m.group(2)
                if law or re.search(r"[a-z][A-Z]", name):
                    out[name] = out.get(name, False) or (thing and law)
    return out


def pairs():
    names = defined()
    things = {snake(n) for n, thing in names.items() if thing and "-" not in n} | LIBRARY
    out = {}
    for name in names:
        if name in ("non-members", "not-true") or name[0] in "◌-" or name[0].isupper() or any(c in name for c in "◌+*/%^≡≤<≢↔") or "₁" in name:
            continue
        if name in CHOSEN:
            out[name] = CHOSEN[name]
            continue
        parts = [snake(p) for p in name.split("-")]
        new = parts[0]
        for before, part in zip(parts, parts[1:]):
            both = before in things - WORDS and part in things - WORDS
            new += ("-" if both else "_") + part
        if new != name:
            out[name] = new
    return out


def main():
    change = pairs()
    there = set()
    for path in files(".antt", ".rt"):
        there.update(TOKEN.findall(read(path)))
    taken = collections.Counter(change.values())
    for old, new in sorted(change.items()):
        if new in there or taken[new] > 1:
            print(f"meets another name: {old} -> {new}", file=sys.stderr)
    if "--list" in sys.argv:
        for old, new in sorted(change.items()):
            print(old, new)
        return
    for path in files(".antt", ".rt", ".edit"):
        text = read(path)
        source = path.endswith((".rt", ".edit"))
        fresh = TOKEN.sub(lambda m: change.get(m.group(0), m.group(0)), text)
        if fresh != text:
            with open(path, "w", encoding="utf-8") as f:
                f.write(fresh)


if __name__ == "__main__":
    main()
