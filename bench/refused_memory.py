#!/usr/bin/env python3
"""Refuses each allocation of a run in turn, and sees that the program then frees all it took.

    bench/refused_memory.py [PAGES]

The program runs two traces on 1, 2 and 4 shards of PAGES pages (default 1,280) again and again, on threads and on one
thread: first with all its memory, then with its first allocation refused, then with its second, until there is none to
refuse. So does it a put that one of two shards asks of the other, and a trace of 1,000 commands that it makes. Each time
no byte may be left that was not freed. Where one was refused, the status is that of want of memory and nothing is
written; but a thread that cannot be started is done without: then the run ends with its report. Where the text is the
same in each order of the shards, it is the whole text, byte for byte. In a run on threads of a short trace these are
twice one for each shard but the first, which read it, and as many for the shards; the report of a longer one, whose
memory is taken before the shards are driven, is made on threads too.
`bench/refused_threads.py` refuses threads as the system does. g++ is needed.
"""
import os
import subprocess
import sys
import tempfile

from timing import BENCH, program

SHORT = b"put a 1\nput b 2\nget a\nscan a 32\nerase b\nput b 3\nget b\nscan b 1\n"
# so many commands that pieces of the report are made on threads
LONG = SHORT * 2_000
MODES = [["run"], *([mode, "--shards", shards] for mode in ("sim", "run") for shards in ("2", "4"))]
# Shard 0 issues the put, whose key is of shard 1.
ASKED = b"put b 1\n"
ANSWERED = b"1 stored\njournal 0\njournal 1 1\nshard 0 rows 0 live 0 lent 1 back 1\nshard 1 rows 1 live 48 lent 1 back 1\n"
MADE = ["gen", "--number", "7", "--shards", "4", "--commands", "1000"]
ANSWERS = ("stored", "replaced", "values", "missing", "erased", "scans")
DONE, MEMORY = 0, 6


def is_report(output, trace, shards):
    """Whether the output has a line for each command, a journal for each shard, and a line for each whose blocks all came back."""
    lines = output.decode().splitlines()
    commands = trace.count(b"\n")
    ends = [line.split() for line in lines[commands + shards:]]
    return len(lines) == commands + 2 * shards and all(end[0] == "shard" and end[7] == end[9] for end in ends)


def is_summary(output, commands, shards):
    """Whether the output is the summary of a run that made so many commands and evicted nothing."""
    lines = output.decode().splitlines()
    if len(lines) != 3 + shards or lines[0] != f"commands {commands}" or lines[2] != "evictions 0":
        return False
    words = lines[1].split()
    ends = [line.split() for line in lines[3:]]
    return (tuple(words[::2]) == ANSWERS and sum(map(int, words[1::2])) == commands
            and all(end[:2] == ["shard", str(shard)] and end[7] == end[9] for shard, end in enumerate(ends)))


def main():
    pages = sys.argv[1] if len(sys.argv) > 1 else "1280"
    built = program()
    with tempfile.TemporaryDirectory() as folder:
        shim, counted = os.path.join(folder, "refused.so"), os.path.join(folder, "counted")
        subprocess.run(["g++", "-O2", "-shared", "-fPIC", "-o", shim, os.path.join(BENCH, "refused_memory.cpp")], check=True)

        def run(words, trace, refused):
            """Status, output, allocations asked for, and bytes not freed."""
            given = {"LD_PRELOAD": shim, "COUNTED": counted, "REFUSED": str(refused)}
            words = [built, *words, "--pages", pages]
            ran = subprocess.run(words, input=trace, stdout=subprocess.PIPE, env=given, check=False)
            with open(counted, encoding="ascii") as file:
                return ran.returncode, ran.stdout, *map(int, file.read().split())

        def refuse_each(words, trace, is_whole):
            """How many allocations there are, and how many of them the run did without: then its text is whole."""
            said = " ".join(words)
            status, text, asked, left = run(words, trace, 0)
            if status != DONE or not is_whole(text) or left != 0:
                sys.exit(f"{said}: with all its memory: status {status}, {left} bytes not freed")
            without = 0
            for number in range(1, asked + 1):
                status, output, _, left = run(words, trace, number)
                if status == DONE and is_whole(output) and left == 0:
                    without += 1
                elif (status, output, left) != (MEMORY, b"", 0):
                    sys.exit(f"{said}: allocation {number} refused: status {status}, {len(output)} bytes written, {left} bytes not freed")
            return asked, without

        for words in MODES:
            shards = int(words[-1]) if len(words) > 1 else 1
            of_threads = 3 * (shards - 1) if words[0] == "run" else 0
            said = " ".join(words)
            asked, without = refuse_each(words, SHORT, lambda text: is_report(text, SHORT, shards))
            if without != of_threads:
                sys.exit(f"{said}: {without} allocations were done without, where {of_threads} threads are started")
            print(f"{said}: each of {asked} allocations was refused in turn: want of memory for {asked - without}, a report for {without}, nothing left")
            asked, without = refuse_each(words, LONG, lambda text: is_report(text, LONG, shards))
            if (without > 0) != (of_threads > 0):
                sys.exit(f"{said}: {without} allocations of a long run were done without")
            print(f"{said}: a longer trace: want of memory for {asked - without}, a report for {without}, nothing left")

        said = "run --shards 2"
        asked, without = refuse_each(said.split(), ASKED, lambda text: text == ANSWERED)
        print(f"{said}: one put: want of memory for {asked - without}, the whole report for {without}, nothing left")
        said = " ".join(MADE)
        summary = run(MADE, b"", 0)[1]
        if not is_summary(summary, 1000, 4):
            sys.exit(f"{said}: the summary is {summary}")
        asked, without = refuse_each(MADE, b"", lambda text: text == summary)
        print(f"{said}: want of memory for {asked - without}, the whole summary for {without}, nothing left")


main()
