#!/usr/bin/env python3
"""Nanoseconds for a turn of a node: beside the work of its part, with one shard, and of a node that has nothing to do.

    bench/turn.py [TURNS] [RUNS]        at most 1,000,000 turns, which is the default

The least user and system time of RUNS runs (default 15), less that of a run that makes no turn.
"""
from timing import nanoseconds, numbers, timed


def measured(turns=1_000_000, runs=15):
    """Nanoseconds of a part by itself, of a turn that does it, and of an idle turn."""
    program = timed("turns", "1000", "turns")
    steps = ("store", "parts", "node", "turns", "wait", "idle")
    spent = {step: nanoseconds(runs, [program, "turns", str(turns), step])[0] for step in steps}
    return [(spent[b] - spent[a]) / turns for a, b in zip(steps[::2], steps[1::2])]


def main():
    part, turn, idle = measured(*numbers(__doc__, 1_000_000, 15))
    print(f"a part by itself {part:.1f} ns, a turn that does it {turn:.1f} ns, an idle turn {idle:.1f} ns")


if __name__ == "__main__":
    main()
