"""What a call costs, by the extension module and by ctypes, and what ctypes costs by itself: the best of several rounds, in
nanoseconds. Then windows of 8 and 64 Mi bases by a decoder, with `readinto` of 1 MiB and with `read()`, in milliseconds by the
clock and of the thread's own time.

    python3 timing.py            both ways, one after the other
    python3 timing.py WAY        one of them: extension or ctypes

Ends with status 1 where a plain window of 100 bases costs 3 microseconds or more by the extension, or where `read()` has less
than half the speed of `readinto`, by the clock or by the thread's own time: by the clock the thread that `read()` has besides
counts too, by its own time other work of the machine does not. A window of 64 Mi needs new memory from the system: where that
hands out no large pages, its times are shown and not held to the limit."""

import io
import os
import pathlib
import subprocess
import sys
import time
import timeit

LIMIT = 3000  # nanoseconds for a plain window of 100 bases by the extension
ROUNDS, MOST_ROUNDS = 15, 150
WINDOWS = [(0, b"ACGT", 8), (0, b"ACGT", 64), (4, b"acgt", 64)]  # alphabet, text, Mi bases
FROM_THE_SYSTEM = 32  # Mi bases: from here on the memory is new at each read
CLOCKS = time.perf_counter, time.thread_time


def per_call(call, rounds=25, times=2000):
    return min(timeit.repeat(call, number=times, repeat=rounds)) / times * 1e9


def calls(fc):
    """The calls by name."""
    text, out = b"ACGT" * 25, bytearray(100)
    packed = fc.encode_sequence(0, b"ACGT" * 2500)
    lent, encoder = memoryview(packed), fc.SequenceEncoder(0)
    return {
        "plain window of 100 bases": lambda: fc.decode_covered(0, packed, 0, 50, 150),
        "the same out of a memoryview": lambda: fc.decode_covered(0, lent, 0, 50, 150),
        "the same into lent memory": lambda: fc.decode_covered_into(0, packed, 0, 50, 150, out),
        "plain window of 10,000 bases": lambda: fc.decode_covered(0, packed, 0, 0, 10_000),
        "byte range": lambda: fc.byte_range_for_bases(50, 150, 2),
        "packing of 100 bases": lambda: fc.encode_sequence(0, text),
        "update with 100 bases": lambda: encoder.update(text),
        "the same asked about": lambda: encoder.ask(text, 100),
        "guess of 100 bases": lambda: fc.guess_alphabet(text),
        "ctypes alone, no argument": fc.lib.fc_abi_version,
        "ctypes alone, the window's arguments": lambda: fc.lib.fc_decode_covered(0, packed, 2500, 0, 50, 150, None, 0),
    }


def streamed(fc, alphabet, text, bases):
    """The best times of a decoder's whole window by `readinto` of 1 MiB and by `read()`, in milliseconds by each clock, asked in
    turn. Where they miss the limit there are more rounds: other work may take the memory's time from all of a few."""
    packed, best = fc.encode_sequence(alphabet, text * (bases // 4)), [[float("inf")] * len(CLOCKS)] * 2
    for done in range(MOST_ROUNDS):
        if done >= ROUNDS and within(*best):
            break
        for at, drain in enumerate([readinto, lambda decoder: decoder.read()]):
            decoder = fc.StreamingDecoder.for_window(io.BytesIO(packed), alphabet, 1, bases)
            begun = [clock() for clock in CLOCKS]
            held = drain(decoder)
            taken = [(clock() - then) * 1e3 for clock, then in zip(CLOCKS, begun)]
            best[at] = [*map(min, best[at], taken)]
            del held  # its memory goes back behind the clock
    return best


def within(into, whole):
    """Whether `read()` has half the speed of `readinto` or more by each clock."""
    return all(of_read <= 2 * of_into for of_into, of_read in zip(into, whole))


def readinto(decoder):
    memory = bytearray(1 << 20)
    while decoder.readinto(memory):
        pass


def large_pages():
    """Whether the system hands out large pages to a program that asks for them."""
    told = pathlib.Path("/sys/kernel/mm/transparent_hugepage/enabled")
    return told.exists() and "[never]" not in told.read_text()


def timed(way):
    """Prints the figures of one way; whether they are within the limits."""
    os.environ["FANTAILCLOCK_WAY"] = way
    import fantailclock as fc

    costs = {name: per_call(call) for name, call in calls(fc).items()}
    for name, cost in costs.items():
        print(f"{way:9}  {name:36}  {cost:8.0f} ns")
    fast = way == "ctypes" or costs["plain window of 100 bases"] < LIMIT
    for alphabet, text, mebi in WINDOWS:
        into, whole = streamed(fc, alphabet, text, mebi << 20)
        shown = [" ms and ".join(f"{time:.1f}" for time in times) for times in (into, whole)]
        print(f"{way:9}  {mebi} Mi bases of {fc.Alphabet(alphabet)} by a decoder: readinto of 1 MiB {shown[0]} ms, read() {shown[1]} ms")
        held_to = mebi < FROM_THE_SYSTEM or large_pages()
        fast = fast and (not held_to or within(into, whole))
    return fast


def main(ways):
    if len(ways) == 1:
        return 0 if timed(ways[0]) else 1
    return max(subprocess.run([sys.executable, "-B", __file__, way]).returncode for way in ways)


if __name__ == "__main__":
    sys.exit(main(sys.argv[1:] or ["extension", "ctypes"]))
