#!/usr/bin/env python3
"""Tries the built program as those would who send it bytes that others made, and writes docs/FAULTS.md.

    bench/hostile.py [PROGRAM] [--minutes M] [--traces N] [--scripts N] [--commands N] [--number N] [--parts PART...] [--quick]

PROGRAM is the built program, else the one that the other scripts take. The parts, each a section of the page:

    edges     devices, pipes, files and limits that fail it, SIGTERM, and strange words (`hostile_edges.py`)
    texts     N mutated traces and N mutated scripts (default 200,000 and 50,000), and texts at the limits, beside a reader
              of its own (`hostile_texts.py`, `reader.py`)
    valgrind  memcheck in each mode, and helgrind with four shards
    soak      M minutes (default 30) of drawn traces on 1, 2, 4 and 16 shards beside eight busy processes, each report
              judged by `check.py`
    threads   N commands (default 4,000) where no thread can be made, or fewer than shards (`refused_threads.py`)

With --parts the other sections stay as they are. With --quick all is small, and the page is printed and not written. The
script fails where anything was answered otherwise than docs/FORMATS.md says, and tells each case; a mutated text of one
stands in bench/out/hostile. Nothing else should run beside it. The file system of 64 KiB needs root.
"""
import argparse
import collections
import datetime
import os
import random
import re
import shutil
import subprocess
import sys
import tempfile
import time

from cache_model import TABLES, commands_of, regions_of
from check import check
from hostile_edges import framed, made_trace, ran, run_edges
from hostile_texts import run_long, run_mutated
from timing import BENCH, TOP, program
from traces import ALPHABET, in_tables

PAGE, MOST_WORDS = f"{TOP}/docs/FAULTS.md", 900
HEAD = """# Faults

Written by `bench/hostile.py`, which tries the built program as those would who send it bytes that others made. Right is what [FORMATS](FORMATS.md) says.
"""
SHARDS, PAGES, TABLE_PAGES, PAGE_BYTES, BUSY, SECONDS = (1, 2, 4, 16), 1_280, 1_536, 4_096, 8, 600
# The blocks on which helgrind sees races that are none, by their bytes: both lanes' slots, and a shard's pages.
RINGS, PAGED, STARTING = {256, 512}, PAGES * PAGE_BYTES, "allocate_dtv"
EXPLAINED = ("rings", "pages", "starting")


def lost(faults):
    """The line that says how many runs were answered otherwise."""
    return f"Answered otherwise, or lost: **{len(faults) or 'nothing'}**."


def table(head, rows):
    return "\n".join(f"| {' | '.join(map(str, row))} |" for row in [head, ["---"] * len(head), *rows])


def edges(given):
    """The section on edges."""
    rows, faults = run_edges(given.program)
    told = [(name, "; ".join(f"{words} ({count})" if count > 1 else words for words, count in answered.items())) for name, answered in rows]
    return f"{lost(faults)} In brackets how often; a negative status is a signal.\n\n{table(('Edge', 'Answered'), told)}", faults


def texts(given):
    """The section on mutated texts."""
    rows, faults = [], []
    for kind, count in (("traces", given.traces), ("scripts", given.scripts)):
        came, wrong = run_mutated(given.program, kind, given.number, count)
        faults += wrong
        causes = ", ".join(f"{cause} {often:,}" for cause, often in came.most_common() if cause not in ("accepted", "in tables"))
        rows.append((kind, f"{count:,}", f"{came['in tables']:,}" if kind == "traces" else "", f"{came['accepted']:,}", causes))
    count, wrong = (0, []) if given.quick else run_long(given.program)
    faults += wrong
    said = f"{lost(faults)} A reader written from FORMATS alone has to refuse each text by the same line and cause, or to accept it and to agree with the answer: " \
           f"reports by replay, other modes by each byte. {count} texts at the limits were tried too, among them lines of 70 MB."
    return f"{said}\n\n{table(('Texts', 'Tried', 'Of version 2', 'Accepted', 'Refused'), rows)}", faults


def under(tool, words, text):
    """Status, output and log of a run under a tool of valgrind."""
    with tempfile.NamedTemporaryFile() as log:
        status, output, _ = ran(["valgrind", f"--tool={tool}", f"--log-file={log.name}", *words], text, SECONDS)
        return status, output, re.sub(rb"(?m)^==\d+== ?", b"", log.read()).decode(errors="replace")


def memcheck(given, commands):
    """How many runs memcheck saw, and its faults. The errors, and the bytes left, have to be none."""
    trace, faults = made_trace(commands), []
    tables = b"".join(in_tables(line + b"\n" for line in trace.split(b"\n")))
    runs = [(["run"], trace), (["run", "--shards", "4"], trace), (["run", "--shards", "4", "--pages", str(TABLE_PAGES)], tables), (["sim", "--shards", "4"], trace),
            (["gen", "--commands", str(commands), "--shards", "2"], b""), (["audit"], framed(trace, ran([given.program, "run"], trace)[1])),
            (["dirty"], trace), (["index"], trace), (["values"], b"set 1 " + b"x" * 50_000 + b"\nread 1 12260 9\nset 1 y\ndrop 1\n"), (["run"], b"put"), (["run", "run"], b"")]
    for words, text in runs:
        status, output, log = under("memcheck", ["--leak-check=full", given.program, *words], text)
        plain = ran([given.program, *words], text)
        if "--shards" in words and words[0] == "run":
            wrong = status or fault_of(text, output, 4, TABLE_PAGES if text is tables else 8_192)
        else:
            wrong = None if (status, output) == plain[:2] else "another answer than without it"
        if wrong or "ERROR SUMMARY: 0 errors" not in log or "in use at exit: 0 bytes" not in log:
            faults.append(f"memcheck, {' '.join(words)}: {wrong}, {log[-400:]}")
        print(f"memcheck, {' '.join(words)}: {len(faults)} answered otherwise", flush=True)
    return len(runs), faults


def fault_of(trace, output, shards, pages):
    """What `check.py` finds in a report, or None."""
    try:
        check(commands_of(trace), output.split(b"\n"), shards, pages, regions_of(trace))
    except SystemExit as said:
        return said.code
    return None


def races_of(log):
    """How many places helgrind names as races, by the block that they are in: its bytes, or what it says of it."""
    seen = collections.Counter()
    for race in re.split(r"-{60,}\n", log):
        if "Possible data race" in race:
            block = re.search(r"inside a block of size ([\d,]+) alloc'd", race)
            where = re.search(r"Address 0x\w+ (.*)", race)
            size = int(block[1].replace(",", "")) if block else 0
            if STARTING in race:
                seen["starting"] += 1
            else:
                seen["rings" if size in RINGS else "pages" if size == PAGED else f"{size} bytes, {where and where[1]}"] += 1
    return seen


def valgrind(given):
    """The section on valgrind."""
    if not shutil.which("valgrind"):
        return "valgrind is not there: not tried.", []
    commands = 60 if given.quick else 2_000
    runs, faults = memcheck(given, commands)
    clean = runs - len(faults)
    trace = made_trace(commands)
    status, output, log = under("helgrind", ["--error-limit=no", given.program, "run", "--shards", "4", "--pages", str(PAGES)], trace)
    wrong = status or fault_of(trace, output, 4, PAGES)
    if wrong:
        faults.append(f"helgrind: {wrong}")
    seen = races_of(log)
    faults += [f"helgrind: {count} races in {where}" for where, count in seen.items() if where not in EXPLAINED]
    elsewhere = seen.total() - sum(seen[known] for known in EXPLAINED)
    said = f"""{lost(faults)} memcheck saw {runs} runs in all modes, of {commands:,} commands and shorter, on 1, 2 and 4 shards, with a refusal and `usage`
among them: {clean} had no error, left no byte, and answered right.

helgrind, with 4 shards of {PAGES:,} pages and {commands:,} commands, names {seen['rings']} places in the slots of rings, {seen['pages']} in shards' pages, where
blocks that are lent cross, {seen['starting']} in the C library's own start of a thread, and {elsewhere} elsewhere. It knows locks: that a thread reads a slot, and
then the block in it, only behind an acquiring load of what another released, it cannot see, since on this processor that load is a plain one. That a block has one
holder is proved; these lines alone do not tell blocks from the rest of a shard's pages. The report of that run is judged too."""
    return said, faults


def soak_trace(drawn):
    """A drawn trace, in version 1 or 2, and whether it is of version 2."""
    count, keys, longest = drawn.choice((500, 5_000, 20_000)), drawn.choice((10, 500, 20_000)), drawn.choice((20, 800, 3_000))
    lines = []
    for _ in range(count):
        word, key = drawn.choices((b"put", b"get", b"erase", b"scan"), (45, 42, 10, 3))[0], b"k%d" % drawn.randrange(keys)
        if word == b"put":
            at = drawn.randrange(26)
            lines.append(b"put %s %s\n" % (key, ALPHABET[at:at + drawn.randrange(longest)]))
        else:
            lines.append(b"scan %s %d\n" % (key, drawn.randint(1, 32)) if word == b"scan" else b"%s %s\n" % (word, key))
    return b"".join(in_tables(lines) if drawn.random() < 0.3 else lines)


def soak(given):
    """The section on the soak."""
    end, faults, spent = time.monotonic() + 60 * given.minutes, [], {shards: [] for shards in SHARDS}
    # Each ends with this script, however that ends.
    busy = [subprocess.Popen([sys.executable, "-c", f"import os\nwhile os.getppid() == {os.getpid()}: sum(range(100_000))"]) for _ in range(BUSY)]
    try:
        while time.monotonic() < end:
            for shards in SHARDS:
                at = sum(map(len, spent.values()))
                trace = soak_trace(random.Random(f"{given.number} soak {at}"))
                pages = TABLE_PAGES if regions_of(trace) == TABLES else PAGES
                began = time.monotonic()
                try:
                    status, output, _ = ran([given.program, "run", "--shards", str(shards), "--pages", str(pages)], trace, SECONDS)
                    wrong = f"status {status}" if status else fault_of(trace, output, shards, pages)
                except subprocess.TimeoutExpired:
                    wrong, output = f"no end within {SECONDS} s", b""
                took, commands = time.monotonic() - began, len(commands_of(trace))
                spent[shards].append((took, commands, output.count(b" !")))
                if wrong:
                    faults.append(f"soak {at} on {shards} shards: {wrong}")
            print(f"soak: {sum(map(len, spent.values()))} runs, {len(faults)} answered otherwise", flush=True)
    finally:
        for process in busy:
            process.kill()
            process.wait()
    rows = [(shards, f"{len(runs):,}", f"{sum(run[1] for run in runs):,}", f"{sum(run[2] for run in runs):,}", f"{sorted(runs)[len(runs) // 2][0]:.2f} s",
             f"{max(runs)[0]:.2f} s, {max(runs)[1]:,} commands") for shards, runs in spent.items() if runs]
    said = f"{lost(faults)} {given.minutes:g} minutes of drawn traces beside {BUSY} busy processes, {PAGES:,} pages a shard, {TABLE_PAGES:,} in version 2:"
    return f"{said}\n\n{table(('Shards', 'Runs', 'Commands', 'Rows that went', 'Median', 'Slowest run'), rows)}", faults


def threads(given):
    """The section on runs without threads."""
    words = [sys.executable, f"{BENCH}/refused_threads.py", given.program, str(given.commands)]
    done = subprocess.run(words, stdout=subprocess.PIPE, stderr=subprocess.PIPE, text=True, check=False)
    rows = re.findall(r"(?m)^(\d+) shards, room for (\d+) threads more, at most (\d+) .* after ([\d.]+) s$", done.stdout)
    print(done.stdout, end="", flush=True)
    faults = [f"threads: {done.stderr[-400:]}"] if done.returncode else []
    said = f"{lost(faults)} {given.commands:,} commands under `prlimit --nproc`, by `bench/refused_threads.py`, which judges each report:"
    return f"{said}\n\n{table(('Shards', 'Room for threads', 'Seen at once', 'Seconds'), rows)}", faults


SECTIONS = {
    "edges": ("Edges", edges),
    "texts": ("Mutated texts", texts),
    "valgrind": ("Under valgrind", valgrind),
    "soak": ("A soak", soak),
    "threads": ("Without threads", threads),
}


def machine(path):
    """Where and when, in one line."""
    with open("/proc/cpuinfo", encoding="utf-8") as file:
        model = re.search(r"model name\s*: (.*)", file.read())
    return f"On {datetime.date.today()}, {os.cpu_count()} processors ({model[1] if model else 'unknown'}), a program of {os.path.getsize(path):,} bytes."


def kept_section(title):
    """The section as it stands in the page."""
    found = None
    if os.path.exists(PAGE):
        with open(PAGE, encoding="utf-8") as file:
            found = re.search(rf"^## {title}\n\n(.*?)(?=^## |\Z)", file.read(), re.M | re.S)
    return found[1].strip() if found else "Not tried."


def words_of_call():
    words = argparse.ArgumentParser(description=__doc__, formatter_class=argparse.RawDescriptionHelpFormatter)
    words.add_argument("program", nargs="?")
    words.add_argument("--minutes", type=float)
    for name in ("traces", "scripts", "commands"):
        words.add_argument(f"--{name}", type=int)
    words.add_argument("--number", type=int, default=1)
    words.add_argument("--parts", nargs="+", choices=SECTIONS, default=[*SECTIONS])
    words.add_argument("--quick", action="store_true")
    given = words.parse_args()
    for name, usual, quick in (("minutes", 30, 0.1), ("traces", 200_000, 200), ("scripts", 50_000, 100), ("commands", 4_000, 400)):
        if getattr(given, name) is None:
            setattr(given, name, quick if given.quick else usual)
    given.program = os.path.realpath(given.program or program())
    return given


def main():
    given = words_of_call()
    sections, faults = {}, []
    for name, (title, call) in SECTIONS.items():
        if name in given.parts:
            text, wrong = call(given)
            faults += wrong
            sections[title] = f"{machine(given.program)} {text}"
        else:
            sections[title] = kept_section(title)
    page = "\n".join([HEAD, *[f"## {title}\n\n{text}\n" for title, text in sections.items()]])
    count = len(page.split())
    if given.quick:
        print(page)
    elif count <= MOST_WORDS:
        with open(PAGE, "w", encoding="utf-8") as file:
            file.write(page)
    print(f"{count} words, {len(faults)} answered otherwise", *faults, sep="\n")
    sys.exit(1 if faults or count > MOST_WORDS else 0)


if __name__ == "__main__":
    main()
