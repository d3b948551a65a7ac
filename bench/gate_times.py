#!/usr/bin/env python3
"""gate_times.py [first|gate]: times the first command, the gate, or both, one after the other, and writes docs/GATE.md, docs/gate.csv and README's times.

Each runs in a fresh clone of what is committed here, and takes nothing that an earlier run kept. Its processors' time in all is what the system
counts for it and its children. That of each crate is read off /proc as the provers run, twice a second, so a process lacks up to half a second.
"""
import collections
import os
import re
import subprocess
import sys
import tempfile
import threading
import time

from timing import TOP, machine

PAGE = f"{TOP}/docs/GATE.md"
FIRST_PAGE, ALL = f"{TOP}/README.md", f"{TOP}/docs/gate.csv"
KINDS = ("proof", "tests", "start", "edits")
# How many crates have a line of their own; the others have one together.
SHOWN = 8
TICKS = os.sysconf("SC_CLK_TCK")


def kind_of(words, folder):
    """What a prover works on: a crate's proof or its tests, the check that its edits begin with, or an edit."""
    if "/rt-edit-" in folder:
        kept = words[words.index("--incremental") + 1] if "--incremental" in words else ""
        return "start" if kept.endswith("/seed") else "edits"
    return "tests" if "--test" in words else "proof"


class Sampler(threading.Thread):
    """Reads the provers' processor time off /proc until it is told to stop."""

    def __init__(self):
        super().__init__(daemon=True)
        self.stopped, self.seen, self.spent = threading.Event(), {}, collections.defaultdict(float)
        self.edits = collections.Counter()

    def run(self):
        while not self.stopped.wait(0.5):
            self.look()

    def look(self):
        for process in filter(str.isdigit, os.listdir("/proc")):
            try:
                with open(f"/proc/{process}/cmdline", "rb") as file:
                    words = [it.decode(errors="replace") for it in file.read().split(b"\0")]
                if not words[0].endswith("/bin/rattle") or "--crate-name" not in words:
                    continue
                with open(f"/proc/{process}/stat", encoding="utf-8") as file:
                    told = file.read().rpartition(")")[2].split()
                folder = os.readlink(f"/proc/{process}/cwd")
            except OSError:
                continue
            crate, kind, used = words[words.index("--crate-name") + 1], kind_of(words, folder), (int(told[11]) + int(told[12])) / TICKS
            whole = (process, told[19])
            if whole not in self.seen and kind == "edits":
                self.edits[crate] += 1
            self.spent[crate, kind] += used - self.seen.get(whole, 0)
            self.seen[whole] = used

    def end(self):
        self.stopped.set()
        self.join()


def timed(words, clone, more=None):
    """Runs the words in the clone. Returns its lines with the minutes at which each came, the minutes by the clock and of processors, and what each crate took."""
    sampler, began, lines = Sampler(), time.monotonic(), []
    sampler.start()
    how = {"stdin": subprocess.DEVNULL, "stdout": subprocess.PIPE, "stderr": subprocess.STDOUT, "text": True, "errors": "replace"}
    run = subprocess.Popen(words, cwd=clone, env={**os.environ, **(more or {})}, **how)
    for line in run.stdout:
        lines.append(((time.monotonic() - began) / 60, line.rstrip("\n")))
        print(f"{lines[-1][0]:6.1f} {lines[-1][1]}", flush=True)
    _, status, used = os.wait4(run.pid, 0)
    sampler.end()
    if os.waitstatus_to_exitcode(status):
        sys.exit(f"{' '.join(words)} failed: docs/GATE.md stays as it was")
    return lines, (time.monotonic() - began) / 60, (used.ru_utime + used.ru_stime) / 60, sampler


def minutes(seconds):
    return f"{seconds / 60:.1f}" if seconds else ""


def first_command(clone):
    """The section on the first command."""
    lines, clock, processors, sampler = timed(["./shardcache", "run"], clone, {"SHARDCACHE_ANEW": "1"})
    proved = [(at, told[1]) for at, line in lines for told in [re.match(r"shardcache: .* minutes: (\w+) is proved", line)] if told]
    rows = [f"| `{name}` | {minutes(sampler.spent[name, 'proof'])} | {at:.1f} |" for at, name in proved[-SHOWN:]]
    head = f"`./shardcache run` took **{clock:.0f} minutes** by the clock and {processors:.0f} of processors, for {len(proved)} crates. The last ones:"
    return "\n".join([head, "", "| Crate | Minutes of a processor | Proved at minute |", "|---|---|---|", *rows])


def whole_gate(clone):
    """The section on the gate."""
    lines, clock, processors, sampler = timed(["rt", "ci", "--anew"], clone)
    spent = lambda name: sum(sampler.spent[name, kind] for kind in KINDS)
    names = sorted({name for name, _ in sampler.spent}, key=lambda it: -spent(it))

    def row(what, those):
        sums = [minutes(sum(sampler.spent[it, kind] for it in those)) for kind in KINDS]
        return f"| {what} | {' | '.join(sums)} | {sum(sampler.edits[it] for it in those) or ''} | {minutes(sum(map(spent, those)))} |"

    with open(ALL, "w", encoding="utf-8") as file:
        file.write(f"crate,{','.join(KINDS)},tries\n")
        for it in names:
            file.write(f"{it},{','.join(minutes(sampler.spent[it, kind]) for kind in KINDS)},{sampler.edits[it] or ''}\n")
    rows = [row(f"`{it}`", [it]) for it in names[:SHOWN]]
    rows += [row(f"{len(names) - SHOWN} others", names[SHOWN:]), row("all", names)]
    head = f"`rt ci --anew` took **{clock:.0f} minutes** by the clock and **{processors:.0f} of processors**; its last line was `{lines[-1][1]}`."
    more = "The dearest crates, in minutes of a processor ([gate.csv](gate.csv) has all); the checks that a crate's edits begin with stand apart:"
    return "\n".join([head, "", more, "", "| Crate | Proof | Tests | Start of its edits | Edits | Tries | All |", "|---|---|---|---|---|---|---|", *rows])


SECTIONS = {"first": ("The first command", first_command), "gate": ("The gate", whole_gate)}
# What stands behind the times, and is kept as it is.
PLANTED = "What `rt plant` lets through"
HEAD = """# What the gate takes, and what it lets through

The times are written by `bench/gate.sh`, which runs each from nothing in a fresh clone and wants the machine to itself. A crate's figures are read
off its processes as they run; the sums in bold are the system's own.
"""
TIMES = ("<!-- times -->\n", "<!-- /times -->")
ROWS = {
    "first": ("`./shardcache run`", "proves the program's crates, builds it, runs it"),
    "gate": ("`.ci/run`, or `rt ci`", "proves every crate, tries wrong bodies, runs all tests"),
}


def kept_section(title):
    """The section as it stands in the page."""
    with open(PAGE, encoding="utf-8") as file:
        found = re.search(rf"^## {title}\n\n(.*?)(?=^## |\Z)", file.read(), re.M | re.S)
    return found[1].strip() if found else "Not timed."


def write_times(texts):
    """Puts the times into the first page."""
    lines = ["", "| Command | What it does | From nothing, by the clock |", "|---|---|---|"]
    for name, text in texts.items():
        clock, processors = (re.search(pattern, text)[1] for pattern in (r"\*\*(\d+) minutes\*\* by the clock", r"and \**(\d+) of processors"))
        lines.append(f"| {' | '.join(ROWS[name])} | {clock} minutes, {processors} of processors |")
    with open(FIRST_PAGE, encoding="utf-8") as file:
        front, rest = file.read().split(TIMES[0])
    with open(FIRST_PAGE, "w", encoding="utf-8") as file:
        file.write(front + TIMES[0] + "\n".join([*lines, "", ""]) + TIMES[1] + rest.split(TIMES[1], 1)[1])


def main():
    wanted = sys.argv[1:] or [*SECTIONS]
    if not set(wanted) <= set(SECTIONS):
        sys.exit(__doc__)
    for name in wanted:
        title, call = SECTIONS[name]
        with tempfile.TemporaryDirectory(prefix="timed-") as room:
            subprocess.run(["git", "clone", "-q", TOP, f"{room}/clone"], check=True)
            told = f"{machine()} {call(f'{room}/clone')}"
        texts = {it: told if it == name else kept_section(SECTIONS[it][0]) for it in SECTIONS}
        sections = [*[(SECTIONS[it][0], texts[it]) for it in SECTIONS], (PLANTED, kept_section(PLANTED))]
        with open(PAGE, "w", encoding="utf-8") as file:
            file.write("\n".join([HEAD, *[f"## {title}\n\n{text}\n" for title, text in sections]]))
        write_times(texts)


if __name__ == "__main__":
    main()
