#!/usr/bin/env python3
"""Says where the time of a run goes, by samples of the clock, and prints two tables.

    bench/profile.py [--write]

It needs `perf` (Debian's linux-perf). The program runs the traces of `compare.py` with one shard, as ./shardcache runs it,
and is sampled 2,000 times a second. The first table has the percent of the samples by what is done, the second the functions
that have most; what the compiler put into a function counts as that function's. With --write both are put into docs/SPEED.md,
between the marks that stand there.
"""
import collections
import os
import re
import subprocess
import sys

from compare import CASES
from timing import LARGE_PAGES, OUT, program, put_between, trace_of

PARTS = {
    "finding a row by its key": r"row_cache::tables::Tables::search|key_table::|core::cmp::slices",
    "the order that scans read": r"key_index::|core::slice::sort",
    "moving rows": r"compaction::",
    "storing, linking and dropping rows": r"row_cache::|row_bytes::|regions::|object_log::|shard_store::",
    "blocks and small objects": r"shard_memory::|small_pools::|span_lists::|index_lists::|number_set::|foreign_list::",
    "parsing": r"trace_text::|shardcache::reading",
    "the log and the report": r"run_log::|report_text::|text_out::",
    "copies and zeros": r"__mem",
}
SYSTEM, TURNS = "the system: first touches of pages, reading, giving back", "turns, and what is compiled into them; else"
MARKS = ("<!-- written by bench/profile.py --write -->\n", "<!-- so far -->\n")
MOST, HERTZ = 3, 2_000


def samples(path, trace, pages):
    """How many samples each function has, and whether it is the system's."""
    record, words = f"{OUT}/profile.data", [path, "run", "--pages", pages]
    with open(trace, "rb") as given:
        subprocess.run(
            ["perf", "record", "-q", "-e", "cpu-clock", "-F", str(HERTZ), "-o", record, *words],
            stdin=given, stdout=subprocess.DEVNULL, stderr=subprocess.DEVNULL, check=True,
        )
    script = ["perf", "script", "-i", record, "-F", "ip,sym,dso"]
    lines = subprocess.run(script, stdout=subprocess.PIPE, stderr=subprocess.DEVNULL, text=True, check=True).stdout
    found = re.findall(r"^\s*[0-9a-f]+ (.*) \((.*)\)$", lines, re.MULTILINE)
    return collections.Counter((symbol, library == "[kernel.kallsyms]") for symbol, library in found)


def part_of(symbol, is_system):
    """What a function does."""
    if is_system:
        return SYSTEM
    return next((part for part, names in PARTS.items() if re.match(names, symbol)), TURNS)


def short(symbol):
    """The name of a function without what it was made for."""
    return re.sub(r"::<.*>|_(evex|avx512)_unaligned_erms", "", symbol)


def main():
    if sys.argv[1:] not in ([], ["--write"]):
        sys.exit(__doc__)
    os.environ["GLIBC_TUNABLES"] = LARGE_PAGES
    path = program()
    cases = [case.split(":") for case in CASES if case.split(":")[1] == "1"]
    taken = {name: samples(path, trace_of(name), pages) for name, _, pages in cases}
    shares = {name: collections.Counter() for name in taken}
    for name, found in taken.items():
        for (symbol, is_system), count in found.items():
            shares[name][part_of(symbol, is_system)] += 100 * count / sum(found.values())
    lines = [f"| | {' | '.join(f'`{name}`' for name in taken)} |", "|---" * (len(taken) + 1) + "|"]
    for part in [*PARTS, SYSTEM, TURNS]:
        lines.append(f"| {part} | {' | '.join(f'{shares[name][part]:.0f}' for name in taken)} |")
    lines += ["", "| Trace | The functions with most |", "|---|---|"]
    for name, found in taken.items():
        most = [f"{'system: ' * is_system}{short(symbol)} {100 * count / sum(found.values()):.0f}" for (symbol, is_system), count in found.most_common(MOST)]
        lines.append(f"| `{name}` | {', '.join(most)} |")
    text = "".join(f"{line}\n" for line in lines)
    print(text, end="")
    if sys.argv[1:]:
        put_between(MARKS, text)


if __name__ == "__main__":
    main()
