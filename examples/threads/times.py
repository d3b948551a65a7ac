#!/usr/bin/env python3
"""Times threads with a shard each and a mailbox between them beside maps behind a mutex, and prints a table of commands a second.

    make times
    ./times.py [-r ROUNDS] [--write]

The programs run in turn, ROUNDS times (default 5); the most commands a second count. With --write the table is put into README.md, between
the marks that stand there: over the library itself, never over the fake, on a machine of four processors or more with no other work.
"""
import argparse
import os
import subprocess
import sys

HERE = os.path.dirname(os.path.realpath(__file__))
sys.path.insert(0, os.path.dirname(HERE))
from tables import is_over_the_fake, put_table, table  # noqa: E402

OUT = os.environ.get("OUT", "out")
COMMANDS = "1000000"
HEAD = ["Threads, keys of others", "A shard each, messages", "One map, one mutex", "Four maps, four mutexes"]


def commands_a_second(program, *words):
    ran = subprocess.run([f"{HERE}/{OUT}/plain/{program}", *words], capture_output=True, text=True)
    if ran.returncode:
        sys.exit(f"{program} {' '.join(words)}: {ran.stderr}")
    told = ran.stdout.split()
    return int(told[told.index("second") + 1])


def row(threads, foreign, rounds):
    programs = [["messages"], ["locked", "1"], ["locked", "4"]]
    best = [0, 0, 0]
    for _ in range(rounds):
        for i, (program, *maps) in enumerate(programs):
            best[i] = max(best[i], commands_a_second(program, str(threads), str(foreign), COMMANDS, *maps))
    return [f"{threads}, {foreign} %", *[f"{it:,}" for it in best]]


def main():
    words = argparse.ArgumentParser(description=__doc__, formatter_class=argparse.RawDescriptionHelpFormatter)
    words.add_argument("-r", dest="rounds", type=int, default=5)
    words.add_argument("--write", action="store_true")
    told = words.parse_args()
    if told.write and is_over_the_fake(f"{HERE}/{OUT}/plain/messages"):
        sys.exit("the program is built over the fake of the library: no figure of it is written down")
    cases = [(threads, foreign) for threads in (1, 2, 4) for foreign in (0, 75) if threads > 1 or foreign == 0]
    lines = table(HEAD, [row(*case, told.rounds) for case in cases])
    print(lines)
    if told.write:
        put_table(f"{HERE}/README.md", "examples/threads/times.py", lines)


if __name__ == "__main__":
    main()
