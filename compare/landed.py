"""The tables `Before and after` of the benchmark page: what a change did to rows that it speaks of, in one process with the archive before it.

Their figures are the files of compare/landed, one for each change that has some, as `compare/turns --keep` writes them: facts of the run, an empty line,
then for each row, at each of four places, its name, the best times before and now in nanoseconds, their ratio, and the median of the rounds' ratios.
"""

import csv
import pathlib

FOLDER = pathlib.Path(__file__).resolve().parent / "landed"

ALPHABETS = ["Dna2bit", "Dna3bit", "DnaIupac", "Protein", "Ascii"]
PACKING = [f"{calls} {alphabet}" for calls in ("update 64", "update 4096", "update 65536", "encode_sequence") for alphabet in ALPHABETS]
LONG_PACKING = [row for row in PACKING if not row.startswith("update 64 ")]
STREAMS = [f"stream 65536 {alphabet}" for alphabet in ALPHABETS]
GUESSES = [f"guess {alphabet}" for alphabet in ALPHABETS[:4]] + [f"guesser_update {n} Dna2bit" for n in (64, 4096, 65536)]
LONG_WINDOWS = [f"window {n} {read} {alphabet}" for n in (100, 1000, 100000) for read in ("zero-filling", "covered") for alphabet in ALPHABETS]
COVERED = [f"window {n} covered {alphabet}" for n in (1000, 100000) for alphabet in ALPHABETS if alphabet != "Protein"]

# For each change, a request or what NAMES calls it: what it did, and what is asked of the ratio now / before, as the goal in words, the largest ratio that
# meets it, and the rows.
REQUESTS = {
    "A3": ("a window of Dna2bit is read by arithmetic, and no call fills rows", [
        ("window of one base: not slower than before", 1.0, ["window 1 zero-filling Dna2bit", "window 1 covered Dna2bit"]),
        ("windows of 100 and 1,000 bases: at least three times as fast as before", 1 / 3,
            [f"window {n} {read} Dna2bit" for n in (100, 1000) for read in ("zero-filling", "covered")]),
    ]),
    "A5": ("the encoder counts the non-members", [
        ("`update` and `encode_sequence` where no byte is bad: within a twentieth of what they were", 1.05, PACKING),
        ("the same, folding", 1.05, [f"folded {row}" for row in PACKING]),
    ]),
    "A7": ("the covered read refuses a code of Protein that no symbol has", [
        ("covered windows of 1,000 bases and more of the other alphabets: within a tenth of what they were", 1.1, COVERED),
        ("covered window of 1,000 bases of Protein: at most 1.3 times what it was", 1.3, ["window 1000 covered Protein"]),
    ]),
    "A10": ("what packing a piece would do can be asked before, by the functions that `update` asks by", [
        ("`update`, and `encode_sequence`, which packs by the same loops: within a twentieth of what they were", 1.05, PACKING),
        ("the same, folding", 1.05, [f"folded {row}" for row in PACKING]),
    ]),
    "A12": ("windows of DnaIupac and of Protein are read in blocks, two bases from each byte and eight from five bytes", [
        ("windows of 1 and of 10 bases of these two, both reads: not slower than before", 1.0,
            [f"window {n} {read} {alphabet}" for n in (1, 10) for read in ("zero-filling", "covered") for alphabet in ("DnaIupac", "Protein")]),
    ]),
    "speed-1": ("packing, the search for non-members and the stream have faster loops", [
        ("`update` with pieces of 4,096 and of 65,536 bytes, and `encode_sequence`: not slower than before", 1.0, LONG_PACKING),
        ("stream in reads of 64 KiB: not slower than before", 1.0, STREAMS),
        ("guesses, whole and in pieces: within a twentieth of what they were", 1.05, GUESSES),
        ("windows of 100 bases and more, both reads: within a twentieth of what they were", 1.05, LONG_WINDOWS),
    ]),
}
NAMES = {"speed-1": "the faster loops"}


def figures(request):
    """The facts of a run, and for each row its four places: best before, best now, ratio, median."""
    with open(FOLDER / f"{request}.tsv", encoding="utf-8", newline="") as file:
        lines = list(csv.reader(file, delimiter="\t"))
    gap = lines.index([])
    rows = {}
    for name, *numbers in lines[gap + 1:]:
        rows.setdefault(name, []).append([float(number) for number in numbers])
    return lines[:gap], rows


def timed(time):
    return f"{time:,.1f} ns" if time < 1e5 else f"{time / 1e6:,.2f} ms"


def row_of(name, places):
    ratios = [ratio for _, _, ratio, _ in places]
    best = [timed(min(place[side] for place in places)) for side in (0, 1)]
    return [name, *best, f"{min(ratios):.3f} to {max(ratios):.3f}", f"{max(median for *_, median in places):.3f}"]


def goals_met(goals, rows):
    """The rows of a table of goals, and of what misses its goal the name, the ratio and what is asked."""
    told, missed = [], []
    for words, most, names in goals:
        largest = {name: max(ratio for _, _, ratio, _ in rows[name]) for name in names}
        worst = max(names, key=largest.get)
        late = [(name, largest[name], most) for name in names if largest[name] > most]
        missed += late
        told.append([words, f"{most:.3f}", f"{worst}: {largest[worst]:.3f}", "met" if not late else f"**not met** in {len(late)} of {len(names)}"])
    return told, missed


def sections(table, why):
    """The section of the page, and the rows that miss their goal with no reason given."""
    parts, unexplained = [], []
    for request, (words, goals) in REQUESTS.items():
        facts, rows = figures(request)
        told, missed = goals_met(goals, rows)
        parts += [f"## Before and after {NAMES.get(request, f'request {request}')}\n",
                  f"{words[0].upper()}{words[1:]}. Both archives in one process, by turns, linked at four places (`compare/turns`); the ratios are of best times.\n",
                  table(["", ""], facts).replace("--:", "---"), table(["goal", "at most", "largest now / before", "verdict"], told)]
        parts += [f"- {name}, {ratio:.3f} where {most:.3f} is asked: {why.get(name, 'no reason given')}\n" for name, ratio, most in missed]
        parts += [table(["row", "before, best", "now, best", "now / before, at four places", "largest median"], [row_of(*row) for row in rows.items()])]
        unexplained += [name for name, *_ in missed if name not in why]
    return "\n".join(parts), unexplained
