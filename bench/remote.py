#!/usr/bin/env python3
"""Nanoseconds of processor time per get of a value of 64 bytes: of rows of its own shard, and of another one.

    bench/remote.py [GETS] [RUNS]       at most 1,000,000 gets (default 500,000)

With two and with four shards. Each figure is the least user and system time of RUNS runs (default 5) of a trace of
4,096 puts and the gets behind them, less that of the puts alone, over the number of gets. A program is named by the
variable PROGRAM, or is built.
"""
import os
import random
import tempfile

from cache_model import owner_of
from timing import LARGE_PAGES, nanoseconds, numbers, program

KEYS = [b"key%04d" % number for number in range(4_096)]


def trace(shards, gets, remote):
    """The puts of all keys, and gets of rows that another shard keeps, or that the command's own does."""
    draw = random.Random(11)
    kept = [[key for key in KEYS if owner_of(key, shards) == shard] for shard in range(shards)]
    lines = [b"put %s %s" % (key, b"v" * 64) for key in KEYS]
    for _ in range(gets):
        origin = len(lines) % shards
        keeper = (origin + draw.randrange(1, shards)) % shards if remote else origin
        lines.append(b"get " + draw.choice(kept[keeper]))
    return b"\n".join(lines) + b"\n"


def least(runs, words, text):
    """The least user and system time of some runs with a trace, in nanoseconds."""
    with tempfile.NamedTemporaryFile() as file:
        file.write(text)
        file.flush()
        return nanoseconds(runs, words, source=file.name)[0]


def measured(gets=500_000, runs=5):
    """By number of shards, nanoseconds a get of its own shard's rows, and of another's."""
    built = program()
    os.environ["GLIBC_TUNABLES"] = LARGE_PAGES
    for shards in (2, 4):
        words = [built, "run", "--shards", str(shards)]
        puts = least(runs, words, trace(shards, 0, False))
        here, there = ((least(runs, words, trace(shards, gets, remote)) - puts) / gets for remote in (False, True))
        yield shards, here, there


def main():
    for shards, here, there in measured(*numbers(__doc__, 500_000, 5)):
        print(f"{shards} shards: {here:.0f} ns a get here, {there:.0f} ns a get of another shard", flush=True)


if __name__ == "__main__":
    main()
