#!/usr/bin/env python3
"""Nanoseconds per insertion, find, first scan and removal: the order of keys, the table of keys, and both together.

    bench/table.py [ROWS] [RUNS]

The order is an index in blocks. The keys are ROWS random ones of 11 to 20 bytes (default 500,000). Then come the two
together over a fifth as many keys that all have one tag, beside as many random keys. The least user and system time of
RUNS runs (default 5), less that of a run of one step fewer.
"""
from timing import nanoseconds, numbers, timed


def measured(rows=500_000, runs=5):
    """Of each kind and step, nanoseconds a row."""
    program = timed("table", "table", "1000", "remove")
    steps, scanned = ("insert", "find", "remove"), ("insert", "find", "scan", "remove")
    fifth = rows // 5
    for kind, count, names in (
        ("index", rows, steps),
        ("table", rows, steps),
        ("both", rows, scanned),
        ("both", fifth, scanned),
        ("one_tag", fifth, scanned),
    ):
        time_of = lambda step: nanoseconds(runs, [program, "table", kind, str(count), step])[0]
        before = time_of("keys")
        for step in names:
            spent = time_of(step)
            yield kind, count, step, (spent - before) / count
            before = spent


def main():
    for kind, count, step, spent in measured(*numbers(__doc__, 500_000, 5)):
        print(f"{kind} {count} {step} {int(spent)}", flush=True)


if __name__ == "__main__":
    main()
