#!/usr/bin/env python3
"""Runs the program on a drawn trace that evicts, and checks the report by a cache of its own.

    bench/evictions.py [NUMBER [COMMANDS [PAGES [LONGEST]]]]

The trace has COMMANDS commands (default 1,000,000) for one shard of PAGES pages (default 1,280, the fewest). They and
the lengths of the values, at most LONGEST bytes (default 1,000), are drawn by NUMBER (default 1). Puts and gets are as
many as the limits of a trace and of its replies allow. The report is replayed as `check.py` does it, every byte of it,
and besides each row that goes has to go for a put. It ends where no row went.
"""
import random
import subprocess
import sys

from cache_model import OVERHEAD, commands_of
from check import check
from timing import numbers, program

PAGE = 4_096
MOST_BYTES, MOST_REPLY_BYTES, SCAN_BYTES = 60_000_000, 500_000_000, 8_272


def drawn_commands(number, commands, pages, longest):
    """The commands, each as a list of its words. The keys' rows are about twice as many as the pages hold."""
    draw = random.Random(number)
    scans = commands // 100
    gets = min(commands * 3 // 10, (MOST_REPLY_BYTES - scans * SCAN_BYTES) // longest)
    erases = commands // 20
    puts = commands - scans - gets - erases
    mean = max(1, min(longest // 4, (MOST_BYTES - 16 * commands) // puts))
    keys = 2 * pages * PAGE // (OVERHEAD + 8 + mean)
    words = draw.choices(("put", "get", "erase", "scan"), (puts, gets, erases, scans), k=commands)
    for at, word in enumerate(words, 1):
        key = b"k%d" % draw.randrange(keys)
        if word == "put":
            length = min(longest, int(draw.expovariate(1 / mean)))
            yield [b"put", key, (b"%d-" % at).ljust(length, b"x")[:length]]
        elif word == "scan":
            yield [b"scan", key, b"%d" % draw.randint(1, 32)]
        else:
            yield [word.encode(), key]


def check_presses(commands, journal):
    """Sees that a row goes for a put alone, that is: the first command behind it in the journal is one."""
    pressed = False
    for entry in journal:
        if entry.startswith(b"!"):
            pressed = True
        elif pressed and commands[int(entry) - 1][0] != b"put":
            sys.exit(f"a row goes for command {int(entry)}, which is no put")
        else:
            pressed = False
    if pressed:
        sys.exit("the journal ends early")


def main():
    number, count, pages, longest = numbers(__doc__, 1, 1_000_000, 1_280, 1_000)
    trace = b"".join(b" ".join(command) + b"\n" for command in drawn_commands(number, count, pages, longest))
    commands = commands_of(trace)
    ran = subprocess.run([program(), "run", "--pages", str(pages)], input=trace, stdout=subprocess.PIPE, check=True)
    lines = ran.stdout.split(b"\n")
    gone = check(commands, lines, 1, pages)
    check_presses(commands, lines[len(commands)].split(b" ")[2:])
    if not gone:
        sys.exit("no row went: more commands, or fewer pages")
    share = min(gone) / (pages * PAGE)
    print(f"{count} commands in {len(trace)} bytes, {len(gone)} evictions, the least at {share:.1%} of the pages' bytes")


main()
