#!/usr/bin/env python3
"""Bytes a second that a store of values moves, and beside it memcpy between buffers of the same length.

    bench/fragments.py [MEBIBYTES] [RUNS]        MEBIBYTES of segments, from 4 to 256 (default 8)

Timed are puts into a store that is half full, gets whose slices are written into a buffer, and puts of random names
into a store that is nearly full, where compaction runs at every put. memcpy writes one of as many buffers as the
segments have bytes for, beside puts, and reads one of as many as there are names, beside gets; which one is drawn as
the names are. The least user and system time of RUNS runs (default 5), less that of a run that only fills the store or
the buffers; all take turns. Last, the store's bytes a second over those of memcpy.
"""
from timing import nanoseconds, numbers, timed

SEGMENT, DENSE, PART, OVERHEAD, MOVED = 131_072, 118_776, 12_264, 32, 4 << 30
# The line of `fragments` in crates/timed/stdout: three values of 65,536 bytes are set, and five times one of them.
BUILDS = ("fragments", "put", "65536", "3", "8", "5")


def most_values(segments, length):
    """How many values of a length so many segments surely hold: all but two are dense, and a part is an object."""
    full, rest = (length - 1) // PART, (length - 1) % PART + 1
    return (segments - 2) * DENSE // (full * (OVERHEAD + PART) + (OVERHEAD + rest + 7) // 8 * 8)


def measured(mebibytes=8, runs=5):
    """Of each step and length, how many values there are, and gigabytes a second of the store and of memcpy."""
    segments, program = mebibytes * 8, timed(*BUILDS)
    for length in (65_536, 1_048_576):
        most, room = most_values(segments, length), segments * SEGMENT // length
        half = most // 2 if most > 3 else 1
        times = MOVED // length
        for step, copy, names, buffers, name in (
            ("put", "write", half, room, "put"),
            ("get", "read", half, half, "get"),
            ("put", "write", most - 1, room, "put (full)"),
        ):
            words = [program, "fragments", step, str(length), str(names), str(segments)]
            others = [program, "fragments", copy, str(length), str(buffers), str(segments)]
            commands = [[*it, count] for it in (words, others) for count in ("0", str(times))]
            rest, both, none, copied = nanoseconds(runs, *commands)
            moved, store, memcpy = times * length, both - rest, copied - none
            yield name, names, length, moved / store, moved / memcpy


def main():
    for name, names, length, store, memcpy in measured(*numbers(__doc__, 8, 5)):
        print(
            f"{name:<11} {names:4d} values of {length:7d} bytes: {store:6.2f} GB a second, "
            f"memcpy {memcpy:6.2f}, ratio {store / memcpy:5.2f}",
            flush=True,
        )


if __name__ == "__main__":
    main()
