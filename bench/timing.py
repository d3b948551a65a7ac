"""What the scripts of this folder share: their words, the programs and traces that they need, and the timing of runs.

A script that times a part of the program builds `crates/timed`, and beside it a program of this folder by g++; one that
times the whole program takes the one that `./shardcache` builds. The variables TIMED and PROGRAM name such programs that are
built already. What is built and made here stands in bench/out.
"""
import collections
import datetime
import glob
import os
import re
import subprocess
import sys
import time

BENCH = os.path.dirname(os.path.realpath(__file__))
TOP = os.path.dirname(BENCH)
OUT = f"{BENCH}/out"
# What ./shardcache sets for the program: a C library that asks the system for large pages.
LARGE_PAGES = "glibc.malloc.hugetlb=1"

# User and system seconds, seconds by the clock, and peak memory in MiB.
Spent = collections.namedtuple("Spent", "processor clock memory")


def numbers(head, *usual):
    """The numbers that a script's words are, the usual ones for those left out. Else it ends with its head."""
    given = sys.argv[1:]
    if len(given) > len(usual) or not all(word.isdigit() for word in given):
        sys.exit(head)
    return [*map(int, given), *usual[len(given):]]


def run(words, source=os.devnull, sink=os.devnull):
    """One run, from a file into a file."""
    with open(source, "rb") as given, open(sink, "wb") as taken:
        began = time.perf_counter()
        child = subprocess.Popen(words, stdin=given, stdout=taken)
        _, status, usage = os.wait4(child.pid, 0)
        clock = time.perf_counter() - began
    child.returncode = os.waitstatus_to_exitcode(status)
    if child.returncode != 0:
        sys.exit(f"{' '.join(words)} ended with status {child.returncode}")
    return Spent(usage.ru_utime + usage.ru_stime, clock, usage.ru_maxrss / 1024)


def least(runs):
    """The least times of some runs, and their greatest memory."""
    processor, clock, memory = zip(*runs)
    return Spent(min(processor), min(clock), max(memory))


def in_turn(runs, *commands, source=os.devnull):
    """Runs commands in turn, so many times, without their output. Of each the least times and the greatest memory."""
    spent = zip(*[[run(words, source) for words in commands] for _ in range(runs)])
    return [least(own) for own in spent]


def nanoseconds(runs, *commands, source=os.devnull):
    """The least nanoseconds of user and system time of commands that run in turn."""
    return [1e9 * it.processor for it in in_turn(runs, *commands, source=source)]


def timed(*words):
    """Where the program of crates/timed stands, once a run with these words built it: those of a line of its stdout."""
    if "TIMED" in os.environ:
        return os.environ["TIMED"]
    how = {"stdout": subprocess.PIPE, "stderr": subprocess.STDOUT, "check": False}
    built = subprocess.run(["rt", "run", "--", *words], cwd=f"{TOP}/crates/timed", **how)
    if built.returncode:
        sys.exit(built.stdout.decode(errors="replace"))
    return f"{TOP}/crates/timed/out/timed"


def compiled(name):
    """Where the program of a file of this folder stands, once g++ compiled it."""
    os.makedirs(OUT, exist_ok=True)
    subprocess.run(["g++", "-O2", "-std=c++17", "-pthread", "-o", f"{OUT}/{name}", f"{BENCH}/{name}.cpp"], check=True)
    return f"{OUT}/{name}"


def program():
    """Where the program stands, once it was built."""
    if "PROGRAM" in os.environ:
        return os.environ["PROGRAM"]
    subprocess.run([f"{TOP}/shardcache", "run"], stdin=subprocess.DEVNULL, stdout=subprocess.DEVNULL, check=True)
    return f"{TOP}/crates/shardcache_main/out/shardcache_main"


def unproved():
    """Where the unproved program stands, once cargo built it."""
    subprocess.run(["cargo", "build", "--release", "--offline", "--quiet"], cwd=f"{BENCH}/unproved", check=True)
    return f"{BENCH}/unproved/target/release/unproved"


def trace_of(name, tables=False, scale=1):
    """The file of a trace of traces.py, or of paths.py, made where it is missing. It has its name once it is whole.

    One of traces.py may be made in version 2, with its keys in tables, or cut to a part of its length.
    """
    path = f"{OUT}/{name}{'.tables' * tables}{f'.{scale}' if scale != 1 else ''}.trace"
    if not os.path.exists(path):
        os.makedirs(OUT, exist_ok=True)
        # In a process of its own: what this one takes would be counted as each program's.
        made = ["traces.py", name, f"{path}.new", "--scale", str(scale), *["--tables"] * tables]
        words = ["paths.py", "/usr", "/opt", "/var"] if name == "paths" else made
        with open(f"{path}.new", "wb") as file:
            subprocess.run([f"{BENCH}/{words[0]}", *words[1:]], stdout=file, check=True)
        os.replace(f"{path}.new", path)
    return path


def machine():
    """Where and when something is timed, in one line."""
    with open("/proc/cpuinfo", encoding="utf-8") as file:
        model = re.search(r"model name\s*: (.*)", file.read())[1]
    with open("/proc/meminfo", encoding="utf-8") as file:
        memory = int(re.search(r"MemTotal:\s+(\d+)", file.read())[1]) / 1048576
    told = lambda *words: subprocess.run(words, cwd=TOP, stdout=subprocess.PIPE, text=True, check=True).stdout.split()[0]
    kit, commit = told("rt", "version"), told("git", "rev-parse", "--short", "HEAD")
    return f"On {datetime.date.today()}, {os.cpu_count()} processors ({model}), {memory:.0f} GB, {kit}, commit {commit}."


def put_between(marks, text, page="docs/SPEED.md"):
    """Puts a text between two marks of a page, its tables without spaces beside their bars."""
    text = re.sub(r"(?m)^\|.*\|$", lambda line: re.sub(r" ?\| ?", "|", line[0]), text)
    path = f"{TOP}/{page}"
    with open(path, encoding="utf-8") as file:
        front, rest = file.read().split(marks[0])
    behind = rest.split(marks[1], 1)[1]
    with open(path, "w", encoding="utf-8") as file:
        file.write(f"{front}{marks[0]}\n{text}\n{marks[1]}{behind}")


def allocators(words):
    """By name, a command over glibc's malloc and, where they are installed, over jemalloc's and mimalloc's."""
    found = {"glibc": words}
    for library in ("jemalloc.so.2", "mimalloc.so.2", "mimalloc.so.2.0"):
        for path in sorted(glob.glob(f"/usr/lib/*-linux-gnu/lib{library}")):
            found.setdefault(library.split(".")[0], ["env", f"LD_PRELOAD={path}", *words])
    return found
