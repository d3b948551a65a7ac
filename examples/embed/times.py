#!/usr/bin/env python3
"""Times the cache beside std::unordered_map with a list and RocksDB's LRUCache, and prints a table.

    make times
    ./times.py [-r ROUNDS] [--write]

The programs run in turn, ROUNDS times (default 9); the least time counts. With --write the table is put into README.md, between the marks
that stand there: over the library itself, never over the fake, and with no other work on the machine.
"""
import argparse
import os
import subprocess
import sys

HERE = os.path.dirname(os.path.realpath(__file__))
sys.path.insert(0, os.path.dirname(HERE))
from tables import is_over_the_fake, put_table, table  # noqa: E402

PROGRAM = f"{HERE}/{os.environ.get('OUT', 'out')}/plain/times"
CACHES = ["ours", "roomy", "map", "rocksdb"]

# pages, keys, greatest value, gets of a hundred, calls
LINES = [
    (1280, 1_000, 100, 100, 1_000_000),
    (2560, 200_000, 100, 80, 1_000_000),
    (16384, 1_000_000, 200, 80, 1_000_000),
    (65536, 400_000, 1000, 90, 1_000_000),
    (16384, 1_000_000, 200, 80, 5_000_000),
]
HEAD = ["Pages, keys, value, gets, calls"]
HEAD += ["ns a call: ours", "a tenth more pages", "map with list", "RocksDB", "MB: ours", "a tenth more", "map", "RocksDB"]
HEAD += ["Hits: ours", "map", "RocksDB"]


def measured(cache, line):
    """What a run told: ns, hits and mb. None where the cache is not built in."""
    ran = subprocess.run([PROGRAM, cache, *map(str, line)], capture_output=True, text=True)
    if ran.returncode == 2:
        return None
    if ran.returncode:
        sys.exit(f"{cache} {line}: {ran.stderr}")
    words = ran.stdout.split()
    return {name: float(value) for name, value in zip(words[1::2], words[2::2])}


def least(runs):
    return min((run for run in runs if run), key=lambda run: run["ns"], default=None)


def row(line, rounds):
    runs = {cache: [] for cache in CACHES}
    for _ in range(rounds):
        for cache in CACHES:
            runs[cache].append(measured(cache, line))
    best = [least(runs[cache]) for cache in CACHES]
    told = lambda name, form: [form.format(run[name]) if run else "" for run in best]
    hits = told("hits", "{:.1f} %")
    # (with more pages as many are found)
    del hits[CACHES.index("roomy")]
    pages, keys, value, gets, calls = line
    what = f"{pages:,}, {keys:,}, {value:,}, {gets} %, {calls // 1_000_000} M"
    return [what, *told("ns", "{:,.0f}"), *told("mb", "{:.1f}"), *hits]


def main():
    words = argparse.ArgumentParser(description=__doc__, formatter_class=argparse.RawDescriptionHelpFormatter)
    words.add_argument("-r", dest="rounds", type=int, default=9)
    words.add_argument("--write", action="store_true")
    told = words.parse_args()
    if told.write and is_over_the_fake(PROGRAM):
        sys.exit("the program is built over the fake of the library: no figure of it is written down")
    lines = table(HEAD, [row(line, told.rounds) for line in LINES])
    print(lines)
    if told.write:
        put_table(f"{HERE}/README.md", "examples/embed/times.py", lines)


if __name__ == "__main__":
    main()
