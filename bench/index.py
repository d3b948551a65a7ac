#!/usr/bin/env python3
"""Nanoseconds per insertion, find and removal of the indexes of keys, beside std::map and std::unordered_map.

    bench/index.py [ROWS] [RUNS]        at most 524,288 rows (default 500,000)

The keys are of several kinds. First stand the index of keys and the two maps; then, with 300,000 rows at most, the
index whose keys stand in nodes, and a std::map that has its keys, and of these two also ranges of 32 keys, which are
copied, one from each key. The least user and system time of RUNS runs (default 5), less that of a run of one step
fewer. All run with a C library that asks the system for large pages, and takes small memory out of one piece of its
own: so the segments of the nodes, which this program takes one by one, stand together as those of a range do.
"""
import os

from timing import LARGE_PAGES, compiled, nanoseconds, numbers, timed

KINDS = ("random", "ascending", "descending", "prefix12", "prefix200", "mixed")
MOST_IN_NODES = 300_000


def steps(name, kind, rows, runs, words):
    """The nanoseconds of each step."""
    more = ["nodes"] if name == "nodes" else []
    time_of = lambda step: nanoseconds(runs, [*words, kind, str(rows), step, *more])[0]
    before = time_of("keys")
    for step in ("insert", "find", "remove"):
        spent = time_of(step)
        yield step, (spent - before) / rows
        before = spent
    if name in ("nodes", "string"):
        before = time_of("insert")
        yield "range", (time_of("range") - before) / rows


def measured(rows=500_000, runs=5, kinds=KINDS):
    """Of each index and kind of keys, the nanoseconds of its steps, as they come."""
    index, maps = [timed("index", "random", "1000", "remove"), "index"], compiled("index_maps")
    os.environ["GLIBC_TUNABLES"] = f"{LARGE_PAGES}:glibc.malloc.mmap_threshold=33554432"
    for kind in kinds:
        for name, words in (("index", index), ("map", [maps, "map"]), ("hash", [maps, "hash"])):
            yield name, kind, steps(name, kind, rows, runs, words)
    for kind in kinds:
        for name, words in (("nodes", index), ("string", [maps, "string"])):
            yield name, kind, steps(name, kind, min(rows, MOST_IN_NODES), runs, words)


def main():
    for name, kind, spent in measured(*numbers(__doc__, 500_000, 5)):
        print(f"{name:<6} {kind:<10}", end="", flush=True)
        for step, nanos in spent:
            print(f" {step} {nanos:5.0f}", end="", flush=True)
        print(" ns", flush=True)


if __name__ == "__main__":
    main()
