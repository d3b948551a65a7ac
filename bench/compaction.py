#!/usr/bin/env python3
"""Nanoseconds per row that compaction moves, and per byte, beside memcpy of as many objects of the same size.

    bench/compaction.py [SEGMENTS] [RUNS]        at most 2,048 segments

A cache whose SEGMENTS segments (default 1,000) are full, but for two, and of whose rows half were erased at random, is
compacted until no segment is sparse. Beside it stand the copies alone: as many objects, from a list of their places
into other memory. The least user and system time of RUNS runs (default 15), less that of a run without the moves; the
two take turns.
"""
import re
import subprocess

from cache_model import size_of
from timing import compiled, nanoseconds, numbers, timed

KEPT, KEY_BYTES = 50, 8
# The line of `compaction` in crates/timed/stdout: with values of 1,000 bytes a row has 8 + 32 + 8 + 1,000 = 1,048, so a
# segment of 131,072 has room for 125, and four of the six are filled by 500, of which 250 stay. All four are sparse
# then, and 250 rows fill two others, so each of them moves, and once. Two segments hold them, one stays free, and the
# three others are taken out.
BUILDS = ("compaction", "6", "1000", "50", "1", "500")


def moved_by(words):
    """How many objects a run says that it moved."""
    ran = subprocess.run(words, stdin=subprocess.DEVNULL, stdout=subprocess.PIPE, text=True, check=True)
    return int(re.search(r"moved (\d+)", ran.stdout)[1])


def measured(segments=1_000, runs=15):
    """Of each length of a value and of both, the size of an object, how many moved, and nanoseconds for each."""
    commands = {"compact": [timed(*BUILDS), "compaction"], "memcpy": [compiled("copy_objects")]}
    for length in (100, 1_000, 10_000):
        for name, words in commands.items():
            words = [*words, str(segments), str(length), str(KEPT)]
            moved = moved_by([*words, "1", "10000000"])
            rest, both = nanoseconds(runs, [*words, "0"], [*words, "1"])
            size, spent = size_of(bytes(KEY_BYTES), bytes(length)), both - rest
            yield name, length, size, moved, spent / moved


def main():
    for name, length, size, moved, spent in measured(*numbers(__doc__, 1_000, 15)):
        print(
            f"{name:<8} value {length:5d}, object {size:5d} bytes: {moved:7d} moved, "
            f"{spent:7.1f} ns each, {spent / size:6.3f} ns a byte",
            flush=True,
        )


if __name__ == "__main__":
    main()
