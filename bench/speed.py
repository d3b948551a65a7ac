#!/usr/bin/env python3
"""Writes the figures of docs/SPEED.md: the program's, where its time goes, and its parts'.

    bench/speed.py [program] [parts]        both where none is named

`program` runs `compare.py --write` and `profile.py --write`. `parts` times each part beside its peer, by the scripts that do so, and
puts a line for each into docs/SPEED.md, between the marks that stand there. It needs g++, cargo and `perf`, and takes a quarter of an
hour, in which no other work should be on the machine.
"""
import os
import subprocess
import sys

import blocks
import compaction
import fragments
import index
import pools
import remote
import stores
import table
import turn
from timing import BENCH, LARGE_PAGES, machine, nanoseconds, program, put_between

MARKS = ("<!-- written by bench/speed.py -->\n", "<!-- so far -->\n")
HEAD = "| What | Script | Figures | Peer | Aims | Met |"
OPENINGS = 60


def line(what, script, figures, unit="", peer="", aims=(), least=False):
    """A line of the table: figures, and what each is to be at most, or at least."""
    meets = [figure >= aim if least else figure <= aim for figure, aim in zip(figures, aims)]
    met = "" if not aims else "yes" if all(meets) else "in part" if any(meets) else "no"
    shown = lambda these: ", ".join(f"{it:,.0f}" if unit == " ns" else f"{it:.2f}" for it in these)
    return f"| {what} | `{script}` | {shown(figures)}{unit} | {peer} | {shown(aims)} | {met} |"


def peers(spent):
    """Others' figures, by name."""
    return ", ".join(f"{name} {nanos:.0f}" for name, nanos in spent.items())


def lines_of_turns():
    part, whole, idle = turn.measured()
    yield line("a turn, beyond the work of its part", "turn", [whole - part], " ns", f"the part {part:.0f}", [40])
    yield line("a turn of a node with nothing to do", "turn", [idle], " ns")
    for shards, here, there in remote.measured():
        aim = 550 if shards == 2 else 1_000
        yield line(f"a get of another shard's row, of {shards} shards", "remote", [there], " ns", f"an own row {here:.0f}", [aim])


def lines_of_memory():
    nested, replaced = {}, {}
    for name, first, second in pools.measured():
        nested[name], replaced[name] = first, second
    for what, spent in (("nested", nested), ("replaced at random", replaced)):
        own = spent.pop("pools")
        yield line(f"a pair of take and put of the pools, {what}", "pools", [own], " ns", peers(spent), [min(spent.values())])
    passed = blocks.measured()
    own = passed.pop("lent")
    yield line("a block passed to another thread and given back", "blocks", [own], " ns", peers(passed), [min(passed.values())])
    moved = {(name, size): nanos for name, _, size, _, nanos in compaction.measured()}
    sizes = sorted({size for _, size in moved})
    ratios = [moved["compact", size] / moved["memcpy", size] for size in sizes]
    named = f"memcpy of {', '.join(map(str, sizes))} bytes"
    yield line("a row that compaction moves", "compaction", ratios, "", named, [1.5] * len(sizes))


def lines_of_keys():
    spent = {(kind, step, count): nanos for kind, count, step, nanos in table.measured()}
    of = lambda kind, steps, count=500_000: [spent[kind, step, count] for step in steps]
    three = ("insert", "find", "remove")
    yield line("the table of keys: insertion, find, removal", "table", of("table", three), " ns", "", [100, 170, 190])
    yield line("table and order: insertion, find, first scan, removal", "table", of("both", ("insert", "find", "scan", "remove")), " ns")
    tagged, drawn = (of(kind, three[:2], 100_000) for kind in ("one_tag", "both"))
    ratios = [a / b for a, b in zip(tagged, drawn)]
    yield line("keys of one tag: insertion, find", "table", ratios, "", "keys at random", [5, 5])
    found = {name: dict(steps) for name, _, steps in index.measured(kinds=("random",))}
    order, hashed = ([found[name][step] for step in three] for name in ("index", "hash"))
    named = "std::unordered_map " + ", ".join(f"{it:.0f}" for it in hashed)
    yield line("the order of keys: insertion, find, removal", "index", order, " ns", named, [450, 350])
    steps = (*three, "range")
    ratios = [found["nodes"][step] / found["string"][step] for step in steps]
    yield line("keys in nodes: insertion, find, removal, 32 keys", "index", ratios, "", "std::map", [1.5] * 4)


def lines_of_stores():
    for mode, name, proved, other in stores.measured():
        yield line(f"the mode `{mode}` on `{name}`: time, memory", "stores", [proved.processor / other.processor, proved.memory / other.memory], "", "deque and hash maps", [1.5])
    found = {(name, length): store / memcpy for name, _, length, store, memcpy in fragments.measured()}
    for name, what, aim in (("put", "a put of a value, half full", 0.6), ("get", "a get of a value", 0.6), ("put (full)", "a put, nearly full", 0.25)):
        yield line(f"{what}: 64 KiB, 1 MiB", "fragments", [found[name, 65_536], found[name, 1_048_576]], "", "memcpy's speed", [aim, aim], least=True)


def lines_of_opening():
    path = program()
    spent = nanoseconds(OPENINGS, *([path, "run", "--pages", pages] for pages in ("8192", "65536")))
    yield line("a run of an empty trace, 8,192 and 65,536 pages", "speed", [it / 1e6 for it in spent], " ms", "", [2, 2])


def main():
    words = sys.argv[1:] or ["program", "parts"]
    if not {*words} <= {"program", "parts"}:
        sys.exit(__doc__)
    if "program" in words:
        for script in ("compare.py", "profile.py"):
            subprocess.run([f"{BENCH}/{script}", "--write"], check=True)
    if "parts" not in words:
        return
    lines = [machine(), "", HEAD, "|---" * (HEAD.count("|") - 1) + "|"]
    for part in (lines_of_turns, lines_of_memory, lines_of_keys, lines_of_stores, lines_of_opening):
        # (each script sets what its own runs want)
        os.environ["GLIBC_TUNABLES"] = LARGE_PAGES if part in (lines_of_stores, lines_of_opening) else ""
        for it in part():
            print(it, flush=True)
            lines.append(it)
    put_between(MARKS, "".join(f"{it}\n" for it in lines))


if __name__ == "__main__":
    main()
