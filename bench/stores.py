#!/usr/bin/env python3
"""Times the modes with a store of their own beside an unproved program.

    bench/stores.py [RUNS] [PAGES]

`dirty` stands beside a deque of puts and a hash map to the newest of each key, on the traces `small` and `puts` of
bench/traces.py; `values` beside a hash map of vectors, on the script `values`. Both programs are built and the traces
made where they are missing. First each program writes its text to a file, and the two are compared byte for byte; then
both run in turn, RUNS times (default 7), with their output thrown away. Printed are the least user and system time
together, the least time by the clock and the greatest memory of each, and the ratios. Both run as ./shardcache runs the
program, with a C library that asks the system for large pages, and with PAGES pages (default 8,192).
"""
import filecmp
import os
import sys

from timing import LARGE_PAGES, OUT, in_turn, numbers, program, run, trace_of, unproved


def measured(runs=7, pages=8_192):
    """Of each mode and input, what the program spent and what the unproved one did."""
    programs = {"proved": program(), "unproved": unproved()}
    os.environ["GLIBC_TUNABLES"] = LARGE_PAGES
    for mode, name in (("dirty", "small"), ("dirty", "puts"), ("values", "values")):
        trace = trace_of(name)
        commands = {which: [path, mode, "--pages", str(pages)] for which, path in programs.items()}
        reports = {which: f"{OUT}/{which}.report" for which in commands}
        for which, words in commands.items():
            run(words, trace, reports[which])
        if not filecmp.cmp(*reports.values(), shallow=False):
            sys.exit(f"{name}: the two programs write different reports")
        yield mode, name, *in_turn(runs, *commands.values(), source=trace)


def main():
    for _, name, proved, other in measured(*numbers(__doc__, 7, 8_192)):
        print(
            f"{name:<6} proved {proved.processor:.2f} s, {proved.clock:.2f} s by the clock, {int(proved.memory)} MiB; "
            f"unproved {other.processor:.2f} s, {other.clock:.2f} s, {int(other.memory)} MiB; "
            f"ratios {', '.join(f'{a / b:.2f}' for a, b in zip(proved, other))}",
            flush=True,
        )


if __name__ == "__main__":
    main()
