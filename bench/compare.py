#!/usr/bin/env python3
"""Times the program beside the unproved one, and prints a table.

    bench/compare.py [-r ROUNDS] [--small-pages] [--tables] [CASE ...]
    bench/compare.py [-r ROUNDS] --audit
    bench/compare.py [-r ROUNDS] --write

It builds both programs, the unproved one (bench/unproved) by cargo, and makes the traces where they are missing, in
bench/out. A CASE is TRACE:SHARDS:PAGES with a trace of bench/traces.py, or `paths`, whose keys are the paths of this
machine's files. The two programs run in turn, ROUNDS times (default 5), with their output thrown away. Printed are the
least user and system time together, the least time by the clock and the greatest memory, each with its ratio to the
unproved program's and, behind that, what it is to be at most; with two shards also the clock beside that of one shard;
and how many rows went. Where none goes, both wrote the same bytes. The unproved program evicts
where the live bytes exceed what its option --limit says: all of the pages but one segment. Both run as ./shardcache
runs the program, with a C library that asks the system for large pages; with --small-pages neither does.

With --tables no unproved program runs: the program itself runs each trace in version 2, with its keys in eight tables,
and in version 1. The ratios are those to version 1, and behind them stand, of both versions, how many gets found a row
and how many rows went, and how many commands were answered alike.

With --audit the program's audits of its own reports are timed beside the runs that wrote them.

With --write all three tables are made, that of version 2 with one shard, and put into docs/SPEED.md, between the marks
that stand there, and what they come to into README.md. No other work should be on the machine.
"""
import filecmp
import os
import re
import sys

from cache_model import bound_of
from timing import LARGE_PAGES, OUT, in_turn, least, machine, program, put_between, run, trace_of, unproved

CASES = ["gen:1:8192", "small:1:8192", "manykeys:1:16384", "evict:1:8192", "churn:1:8192", "paths:1:32768", "scans:1:8192"]
CASES += ["gen:2:8192", "small:2:8192", "manykeys:2:8192", "evict:2:4096", "paths:2:16384"]
CASES += ["gen:4:8192", "small:4:8192", "manykeys:4:8192", "evict:4:2048", "paths:4:8192"]

# By the trace, the greatest ratios of time and memory with one shard, and of the clock with four, that are aimed at.
AIMS = {
    "gen": ("1.1", "1.3", "0.95"),
    "small": ("0.95", "1.6", "1.0"),
    "manykeys": ("0.65", "1.05", "0.9"),
    "evict": ("1.2", "1.15", "1.0"),
    "churn": ("0.65", "1.1", ""),
    "paths": ("1.1", "1.1", "0.95"),
}

HEAD = "| Trace | Shards | Time, ratio (aim) | Clock, ratio (aim) | Beside one shard | Memory, ratio (aim) | Rows that went |"
TABLES_HEAD = "| Trace | Shards | Time, ratio | Clock, ratio | Memory, ratio | Gets that found a row | Rows that went | Answered alike |"
# What is audited: a trace, the part of it that fits one input with its report, and what an audit is to take at most.
AUDITS = [("gen", 0.8, "3 times the run"), ("short", 1, "10 s")]
AUDITS_HEAD = "| Trace | Part | Trace and report | Run | Audit | Ratio | Aim |"
MOST_BYTES = 67_108_864

MARKS = ("<!-- written by bench/compare.py --write -->\n", "<!-- so far -->\n")
SUMMED = ("<!-- speed -->\n", "<!-- /speed -->\n")


def evictions(report):
    """How many rows went, by the journals of a report."""
    with open(report, "rb") as file:
        return sum(line.count(b"!") for line in file if line.startswith(b"journal "))


def answered(reports):
    """Of two reports of the same commands: how many answers of each are values, how many are the same, and how many there are."""
    hits, alike, count = [0, 0], 0, 0
    with open(reports[0], "rb") as first, open(reports[1], "rb") as second:
        for pair in zip(first, second):
            if not pair[0][:1].isdigit():
                break
            count += 1
            alike += pair[0] == pair[1]
            hits = [hit + (line.split(b" ", 2)[1] == b"value") for hit, line in zip(hits, pair)]
    return hits, alike, count


def ratio(spent, other, aim=""):
    """What was spent beside what was spent otherwise, and what that is to be at most."""
    return f"{spent / other:.2f}{f' ({aim})' if aim else ''}"


def compare_tables(case, rounds, path):
    """The line of a case: the program on the trace in version 2, beside the same in version 1."""
    name, shards, pages = case.split(":")
    traces = [trace_of(name, tables=True), trace_of(name)]
    words = [path, "run", "--shards", shards, "--pages", pages]
    reports = [f"{OUT}/tables.report", f"{OUT}/proved.report"]
    for trace, report in zip(traces, reports):
        run(words, trace, report)
    gone = [evictions(report) for report in reports]
    hits, alike, count = answered(reports)
    spent = zip(*[[run(words, trace) for trace in traces] for _ in range(rounds)])
    tables, other = (least(own) for own in spent)
    return (
        f"| `{name}` | {shards} | {tables.processor:.2f} s, {ratio(tables.processor, other.processor)} "
        f"| {tables.clock:.2f} s, {ratio(tables.clock, other.clock)} "
        f"| {tables.memory:.0f} MiB, {ratio(tables.memory, other.memory)} "
        f"| {hits[0]}, {hits[1]} | {gone[0]}, {gone[1]} | {alike} of {count} |"
    )


def compare(case, rounds, programs):
    """The line of a case: the program beside the unproved one and, where it has two shards, beside itself with one."""
    name, shards, pages = case.split(":")
    trace = trace_of(name)
    options = ["run", "--shards", shards, "--pages", pages]
    limit = ["--limit", str(bound_of(1, int(pages)))]
    commands = [[path, *options, *more] for path, more in zip(programs, ([], limit))]
    reports = [f"{OUT}/proved.report", f"{OUT}/unproved.report"]
    for words, report in zip(commands, reports):
        run(words, trace, report)
    gone = [evictions(report) for report in reports]
    if shards == "1" and gone == [0, 0] and not filecmp.cmp(*reports, shallow=False):
        sys.exit(f"{case}: the two programs write different reports")
    if shards == "2":
        commands.append([programs[0], "run", "--shards", "1", "--pages", str(2 * int(pages))])
    proved, other, *alone = in_turn(rounds, *commands, source=trace)
    time_aim, memory_aim, clock_aim = AIMS.get(name, ("", "", ""))
    one, four = shards == "1", shards == "4"
    beside_one = f"{proved.clock / alone[0].clock:.2f} (1.0)" if alone else ""
    went = f"{gone[0]}, {gone[1]}" if any(gone) else ""
    return (
        f"| `{name}` | {shards} | {proved.processor:.2f} s, {ratio(proved.processor, other.processor, time_aim * one)} "
        f"| {proved.clock:.2f} s, {ratio(proved.clock, other.clock, clock_aim * four)} | {beside_one} "
        f"| {proved.memory:.0f} MiB, {ratio(proved.memory, other.memory, memory_aim * one)} | {went} |"
    )


def compare_audit(case, rounds, path):
    """The line of an audit: the program on a trace with its own report, beside the run that wrote the report."""
    name, scale, aim = case
    trace, report, framed = trace_of(name, scale=scale), f"{OUT}/audited.report", f"{OUT}/audited"
    run([path, "run"], trace, report)
    with open(framed, "wb") as file:
        file.write(b"%d\n" % os.path.getsize(trace))
        for part in (trace, report):
            with open(part, "rb") as text:
                file.write(text.read())
    if os.path.getsize(framed) > MOST_BYTES:
        sys.exit(f"{name}: trace and report are too long for one input")
    verdict = f"{OUT}/audited.verdict"
    run([path, "audit"], framed, verdict)
    with open(verdict, "rb") as file:
        if file.read() != b"legal\n":
            sys.exit(f"{name}: the audit does not say that its report is legal")
    spent = zip(*[(run([path, "run"], trace), run([path, "audit"], framed)) for _ in range(rounds)])
    ran, audited = (least(own) for own in spent)
    mebibytes = os.path.getsize(framed) / 2 ** 20
    return (
        f"| `{name}` | {scale} | {mebibytes:.0f} MiB | {ran.processor:.2f} s | {audited.processor:.2f} s "
        f"| {ratio(audited.processor, ran.processor)} | {aim} |"
    )


def table(head, cases, line_of):
    """A table with a line for each case, printed line by line as it comes."""
    lines = []
    for line in [head, "|---" * (head.count("|") - 1) + "|", *map(line_of, cases)]:
        print(line, flush=True)
        lines.append(f"{line}\n")
    return "".join(lines)


def summed(table):
    """What the ratios of a table lie between: of one shard the time's and the memory's, of four the clock's."""
    rows = [[cell.strip() for cell in line.split("|")] for line in table.splitlines() if line.startswith("| `")]
    ratios = lambda shards, at: [float(row[at].split(", ")[1].split()[0]) for row in rows if row[2] == shards]
    between = lambda shards, at: f"{min(ratios(shards, at)):.1f} to {max(ratios(shards, at)):.1f} times"
    return (
        f"\n- one shard takes {between('1', 3)} as long;\n"
        f"- four shards take {between('4', 4)} as long by the clock; they are hardly faster than one;\n"
        f"- one shard takes {between('1', 6)} the memory.\n\n"
    )


def main():
    words, rounds = sys.argv[1:], 5
    if words[:1] == ["-r"]:
        rounds, words = int(words[1]), words[2:]
    writes = words == ["--write"]
    words = [] if writes else words
    small_pages = words[:1] == ["--small-pages"]
    words = words[1:] if small_pages else words
    audits = words == ["--audit"]
    tables = words[:1] == ["--tables"]
    cases = words[1:] if tables or audits else words
    if any(not re.fullmatch(r"\w+:\d+:\d+", it) or tables and it.startswith("paths:") for it in cases):
        sys.exit(__doc__)
    os.environ["GLIBC_TUNABLES"] = "" if small_pages else LARGE_PAGES
    own = program()
    parts = [f"{machine()} Least of {rounds} runs in turn.\n"]
    if not tables and not audits:
        other = unproved()
        parts.append(table(HEAD, cases or CASES, lambda case: compare(case, rounds, [own, other])))
    if writes:
        parts.append("The same traces in version 2, with their keys in eight tables, beside version 1:\n")
    if tables or writes:
        in_tables = cases or [it for it in CASES if not it.startswith("paths:") and (not writes or it.split(":")[1] == "1")]
        parts.append(table(TABLES_HEAD, in_tables, lambda case: compare_tables(case, rounds, own)))
    if writes:
        parts.append("Audits of the program's own reports, beside the runs that wrote them, with one shard:\n")
    if audits or writes:
        parts.append(table(AUDITS_HEAD, AUDITS, lambda case: compare_audit(case, rounds, own)))
    if writes:
        put_between(MARKS, "\n".join(parts))
        put_between(SUMMED, summed(parts[1]), "README.md")


if __name__ == "__main__":
    main()
