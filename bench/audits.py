#!/usr/bin/env python3
"""Has the program audit reports that were changed, and holds its verdicts against those of bench/check.py.

    bench/audits.py [COUNT] [SEED]

Draws traces, of version 1 and 2 and for 1 to 4 shards, has the program run each, and changes its report COUNT times
(default 5,000) in all: a byte changed, a line cut, doubled or swapped with another, the last LF cut, an entry of a journal
changed. The verdict on each is `legal` exactly where the bytes are those of the run or another legal report, and else names
the line that bench/check.py finds by the definition.
"""
import random
import subprocess
import sys

from check import verdict
from timing import program

EACH = 50


def trace_by(draw):
    """A short trace of commands on few keys, so that they meet."""
    in_tables = draw.random() < 0.3
    lines = ["version 2"] if in_tables else []
    for _ in range(draw.randrange(1, 60)):
        word = draw.choice(["put", "put", "get", "get", "erase", "scan"])
        table = f" {draw.randrange(8)}" if in_tables else ""
        end = {"put": f" {draw.randrange(1000)}", "scan": f" {draw.randrange(1, 33)}"}.get(word, "")
        lines.append(f"{word}{table} {draw.choice('abcdefghij')}{end}")
    return "".join(line + "\n" for line in lines).encode()


def changed(draw, report):
    """A report with one change."""
    lines = report.splitlines(keepends=True)
    at, other = draw.randrange(len(lines)), draw.randrange(len(lines))
    way = draw.randrange(6)
    if way == 0:
        place = draw.randrange(len(report))
        return report[:place] + bytes([draw.randrange(256)]) + report[place + 1:]
    if way == 1:
        del lines[at]
    elif way == 2:
        lines.insert(at, lines[at])
    elif way == 3:
        lines[at], lines[other] = lines[other], lines[at]
    elif way == 4:
        return report[:-1]
    else:
        journals = [k for k, line in enumerate(lines) if line.startswith(b"journal") and line.count(b" ") > 1]
        if journals:
            at = draw.choice(journals)
            words = lines[at].rstrip(b"\n").split(b" ")
            place = draw.randrange(2, len(words))
            words[place] = draw.choice([b"!1", b"0", b"01", b"1", words[draw.randrange(2, len(words))]])
            lines[at] = b" ".join(words) + b"\n"
    return b"".join(lines)


def main():
    if len(sys.argv) > 3 or "-h" in sys.argv:
        sys.exit(__doc__)
    count, seed = ([int(word) for word in sys.argv[1:]] + [5_000, 7][len(sys.argv) - 1:])[:2]
    draw, run = random.Random(seed), program()
    left, legal = count, 0
    while left:
        trace, shards = trace_by(draw), draw.choice([1, 1, 2, 3, 4])
        words = ["--shards", str(shards), "--pages", "1536"]
        report = subprocess.run([run, "run", *words], input=trace, capture_output=True, check=True).stdout
        for _ in range(min(EACH, left)):
            other = changed(draw, report)
            said = subprocess.run([run, "audit", *words], input=b"%d\n" % len(trace) + trace + other, capture_output=True, check=True).stdout
            wrong = verdict(trace, other, shards, 1_536)
            wanted = b"illegal line %d\n" % wrong if wrong else b"legal\n"
            if said != wanted:
                sys.exit(f"{trace}\n{other}\n{shards} shards: {said}, and not {wanted}")
            left, legal = left - 1, legal + (wrong == 0)
    print(f"{count} reports, {legal} of them legal: as by the definition")


main()
