#!/usr/bin/env python3
"""Nanoseconds per pair of a take and a put: the small pools beside malloc and free, on one sequence of size classes.

    bench/pools.py [ROUNDS] [RUNS]

A round is 32 pairs (default 312,500 rounds). Two patterns: 32 objects nested in one another, and as many objects
replaced at random among 400,000 live ones of at most 1,024 bytes as pairs are nested. malloc and free are those of
glibc and, where they are installed, of jemalloc and mimalloc. The least user and system time of RUNS runs (default 5);
the time to fill is taken off.
"""
from timing import allocators, compiled, nanoseconds, numbers, timed

OBJECTS = 400_000


def measured(rounds=312_500, runs=5):
    """By allocator, nanoseconds a pair, nested and replaced at random."""
    pairs = rounds * 32
    commands = {"pools": [timed("pools", "100", "20", "50"), "pools"], **allocators([compiled("malloc_pairs")])}
    for name, words in commands.items():
        steps = ((rounds, 0, 0), (0, 0, 0), (0, OBJECTS, pairs), (0, OBJECTS, 0))
        nested, empty, replaced, filled = (nanoseconds(runs, [*words, *map(str, step)])[0] for step in steps)
        yield name, (nested - empty) / pairs, (replaced - filled) / pairs


def main():
    for name, nested, replaced in measured(*numbers(__doc__, 312_500, 5)):
        print(f"{name:<10} nested {nested:6.1f} ns a pair, replaced at random {replaced:6.1f} ns", flush=True)


if __name__ == "__main__":
    main()
