#!/usr/bin/env python3
"""Runs the program on each example and compares what it writes with the report beside the trace.

    examples/check.py

Also sees that the test of the examples has the same traces and reports: a test reads no files, so it holds them itself. A report with
journals is replayed by bench/check.py, which has nothing of the program.
"""
import os
import re
import subprocess
import sys

EXAMPLES = os.path.dirname(os.path.abspath(__file__))
TOP = os.path.join(EXAMPLES, "..")
WORDS = {
    "replaced": "run",
    "scan": "sim --shards 3 --number 7",
    "two_origins": "sim --shards 2 --number 7",
    "tables": "run",
    "evicted": "run --pages 1280",
    "dirty": "dirty",
    "index": "index",
    "values": "values",
}


def contents(name):
    with open(os.path.join(EXAMPLES, name), "rb") as file:
        return file.read()


def evicting():
    """The trace that is too long to be kept: a short row, and 390 of 12,000 letters x, which fill 1,280 pages; then one more."""
    value = "x" * 12_000
    puts = ["put k001 1"] + [f"put k{key:03} {value}" for key in range(2, 392)]
    return "\n".join([*puts, "get k001", f"put k392 {value}", "get k002", "get k001", ""]).encode()


def replay(name, words, trace):
    """Ends with what bench/check.py says where it finds another report."""
    options = [word for option in re.findall(r"--(?:shards|pages) \d+", words) for word in option.split()]
    check = [os.path.join(TOP, "bench", "check.py"), "/dev/stdin", os.path.join(EXAMPLES, f"{name}.report"), *options]
    if subprocess.run(check, input=trace, stdout=subprocess.DEVNULL, check=False).returncode:
        sys.exit(f"{name}: a replay finds another report")


def main():
    with open(os.path.join(TOP, "crates", "shardcache_tests", "src", "program_tests", "examples.rt"), encoding="utf-8") as file:
        texts = [text.replace("\\n\\\n", "\n").replace("\\n", "\n").encode() for text in re.findall(r'b"([^"]*)"', file.read())]
    for name, words in WORDS.items():
        trace = evicting() if name == "evicted" else contents("values.script" if name == "values" else f"{name}.trace")
        report = contents(f"{name}.report")
        written = subprocess.run([os.path.join(TOP, "shardcache"), *words.split()], input=trace, stdout=subprocess.PIPE, check=False).stdout
        if written != report:
            sys.exit(f"{name}: the program writes something else")
        if name != "evicted" and not (trace in texts and report in texts):
            sys.exit(f"{name}: the test has another trace or report")
        if words.split()[0] in ("run", "sim"):
            replay(name, words, trace)
        print(f"{name}: as kept")


main()
