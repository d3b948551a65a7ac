"""The edges of the system around the program, for `hostile.py`: what it answers where a device, a pipe or a limit fails it.

Each edge is a function of the program that yields, for each of its runs, what was answered in words, and what is wrong
about it or None. Right is what docs/FORMATS.md says: a fault of the source is told, one of the sink leaves a front of
the report, want of memory writes nothing, and words that are no words are `usage`.
"""
import contextlib
import fcntl
import os
import random
import signal
import subprocess
import tempfile
import time

from cache_model import commands_of
from check import check

DONE, USAGE, REFUSED, READ_FAULT, WRITE_FAULT, MEMORY = 0, 2, 3, 4, 5, 6
SMALL = b"put a 1\nput b 2\nget a\nscan a 5\nerase b\nget b\n"
REPORT = b"1 stored\n2 stored\n3 value 1\n4 keys a b\n5 erased\n6 missing\njournal 0 1 2 3 4 5 6\nshard 0 rows 1 live 48 lent 0 back 0\n"
SCRIPT = b"set 1 hello\nread 1 1 3\ndrop 1\n"
ROOM, MIB, STEP, FIRST, BEHIND, MOST = 65_536, 1 << 20, 4, 16, 5, 4_096
TIMEOUT = 120


def framed(trace, report):
    """What the mode `audit` reads of a trace and its report."""
    return b"%d\n%s%s" % (len(trace), trace, report)


# What each mode is given.
GIVEN = {"run": SMALL, "sim": SMALL, "gen": b"", "audit": framed(SMALL, REPORT), "dirty": SMALL, "index": SMALL, "values": SCRIPT}


def made_trace(commands):
    """A drawn trace with a report of some bytes for each command."""
    drawn, lines = random.Random(commands), []
    for _ in range(commands):
        word, key = drawn.choices(("put", "get", "erase", "scan"), (40, 45, 12, 3))[0], f"key{drawn.randrange(500)}"
        lines.append({"put": f"put {key} {'v' * drawn.randrange(80)}", "scan": f"scan {key} 3"}.get(word, f"{word} {key}"))
    return "\n".join(lines).encode()


def ran(words, given=b"", timeout=TIMEOUT):
    """Status, output and errors of a run that is given a text."""
    done = subprocess.run(words, input=given, stdout=subprocess.PIPE, stderr=subprocess.PIPE, timeout=timeout, check=False)
    return done.returncode, done.stdout, done.stderr


def whole(program, trace, *words):
    """The whole report of a run that is the same each time, which is checked where it is of one shard."""
    status, report, _ = ran([program, *words], trace)
    if status != DONE:
        raise SystemExit(f"{' '.join(words)}: status {status} with all that it needs")
    if "--shards" not in words:
        check(commands_of(trace), report.split(b"\n"), 1, 8_192)
    return report


def told(status, right, what="", wrong=None):
    """The words for a status, and what is wrong about it."""
    return f"status {status}{what}", wrong or (None if status in right else f"status {status}, not one of {right}")


def full_device(program):
    """/dev/full takes nothing: a fault of the sink, in each mode, of a refusal and of `usage` too."""
    for words, given in [*(([mode], text) for mode, text in GIVEN.items()), (["run"], b"put"), ([], b"")]:
        with open("/dev/full", "wb") as full:
            yield told(subprocess.run([program, *words], input=given, stdout=full, timeout=TIMEOUT, check=False).returncode, {WRITE_FAULT})


def no_reader(program):
    """A pipe whose reader is gone before the first byte, with the signal for it ignored and not."""
    for words, given in [([mode], text) for mode, text in GIVEN.items()]:
        for restore in (False, True):
            reader, writer = os.pipe()
            os.close(reader)
            done = subprocess.run([program, *words], input=given, stdout=writer, restore_signals=restore, timeout=TIMEOUT, check=False)
            os.close(writer)
            yield told(done.returncode, {WRITE_FAULT})


def reader_goes(program):
    """A reader that takes some bytes of a long report and goes: they are a front of it."""
    trace = made_trace(20_000)
    report = whole(program, trace, "run")
    for taken in (1, 10, 4_096, 65_536, 100_000, len(report) - 1):
        with tempfile.TemporaryFile() as source:
            source.write(trace)
            source.seek(0)
            with subprocess.Popen([program, "run"], stdin=source, stdout=subprocess.PIPE, bufsize=0) as process:
                got = b""
                while len(got) < taken and (more := process.stdout.read(taken - len(got))):
                    got += more
                process.stdout.close()
                status = process.wait(TIMEOUT)
        # What is written into the pipe before its reader goes is no fault.
        yield told(status, {WRITE_FAULT, DONE}, " behind a front", None if report.startswith(got) and len(got) == taken else "no front of the report")


def writer_goes(program):
    """A writer that goes, or makes the program wait for each byte: what came is the trace."""
    for text in (b"", SMALL[:15], SMALL[:20], SMALL):
        with subprocess.Popen([program, "run"], stdin=subprocess.PIPE, stdout=subprocess.PIPE, bufsize=0) as process:
            for byte in text:
                process.stdin.write(bytes([byte]))
                time.sleep(0.001)
            process.stdin.close()
            output = process.stdout.read()
            status = process.wait(TIMEOUT)
        right = ran([program, "run"], text)
        yield told(status, {DONE, REFUSED}, ", as for what came at once", None if (status, output) == right[:2] else "another answer")


def no_source(program):
    """A standard input that is closed, a folder, or a pipe that has nothing yet and does not wait."""
    for mode in GIVEN:
        right, text = ({DONE}, None) if mode == "gen" else ({READ_FAULT}, b"read fault\n")
        with contextlib.ExitStack() as held:
            folder = os.open("/", os.O_RDONLY)
            empty, writer = os.pipe()
            fcntl.fcntl(empty, fcntl.F_SETFL, os.O_NONBLOCK)
            for descriptor in (folder, empty, writer):
                held.callback(os.close, descriptor)
            closed = ["sh", "-c", 'exec "$@" <&-', "sh", program, mode, *["--commands", "100"] * (mode == "gen")]
            for words, source in ((closed, subprocess.DEVNULL), (closed[4:], folder), (closed[4:], empty)):
                done = subprocess.run(words, stdin=source, stdout=subprocess.PIPE, timeout=TIMEOUT, check=False)
                yield told(done.returncode, right, "" if text is None else ", `read fault`", None if text in (None, done.stdout) else f"{done.stdout[:80]} is written")


def no_sink(program):
    """A standard output that is closed, only for reading, or a full pipe that does not wait: a fault of the sink."""
    report = whole(program, made_trace(20_000), "run")
    reader, writer = os.pipe()
    fcntl.fcntl(writer, fcntl.F_SETFL, os.O_NONBLOCK)
    status = subprocess.run([program, "run"], input=made_trace(20_000), stdout=writer, timeout=TIMEOUT, check=False).returncode
    os.close(writer)
    with open(reader, "rb") as file:
        yield told(status, {WRITE_FAULT}, "", None if report.startswith(file.read()) else "no front of the report")
    for mode, given in GIVEN.items():
        yield told(ran(["sh", "-c", 'exec "$@" >&-', "sh", program, mode], given)[0], {WRITE_FAULT})
        with open("/dev/null", "rb") as null:
            yield told(subprocess.run([program, mode], input=given, stdout=null, timeout=TIMEOUT, check=False).returncode, {WRITE_FAULT})


def full_files(program):
    """A file system of 64 KiB, and a limit of 64 KiB on files: what is written is a front of the report."""
    trace = made_trace(20_000)
    report = whole(program, trace, "run")
    with tempfile.TemporaryDirectory() as folder:
        mounted = os.getuid() == 0 and subprocess.run(["mount", "-t", "tmpfs", "-o", f"size={ROOM}", "none", folder], stderr=subprocess.DEVNULL, check=False).returncode == 0
        if mounted:
            try:
                yield from into_file([program, "run"], trace, report, f"{folder}/report", {WRITE_FAULT})
            finally:
                subprocess.run(["umount", folder], check=True)
        else:
            yield "no file system could be mounted: not tried", None
        # The signal for it ends a program that does not catch it.
        yield from into_file(["prlimit", f"--fsize={ROOM}", program, "run"], trace, report, f"{folder}/report", {WRITE_FAULT, -signal.SIGXFSZ})


def into_file(words, trace, report, path, right):
    with open(path, "wb") as sink:
        status = subprocess.run(words, input=trace, stdout=sink, timeout=TIMEOUT, check=False).returncode
    with open(path, "rb") as file:
        written = file.read()
    yield told(status, right, f" behind {len(written):,} bytes", None if report.startswith(written) and 0 < len(written) <= ROOM else "no front of the report")


def little_memory(program):
    """`ulimit -v` from 16 MiB in steps of 4, until five runs one after another ended with their report. Below, nothing is written."""
    for words in (["run"], ["run", "--shards", "4"], ["run", "--shards", "16"], ["sim", "--shards", "4"], ["gen"], ["audit"], ["dirty"], ["index"], ["values"]):
        done, short, last = 0, 0, FIRST
        right = None if words[0] == "run" and len(words) > 1 else ran([program, *words], GIVEN[words[0]])[1]
        for room in range(FIRST, MOST, STEP):
            status, output, errors = ran(["prlimit", f"--as={room * MIB}", program, *words], GIVEN[words[0]])
            if status == MEMORY and not output and not errors:
                short, done, last = short + 1, 0, room
            elif status == DONE and (output == right if right is not None else is_report(output, int(words[-1]))):
                done += 1
            else:
                yield f"`{' '.join(words)}`", f"status {status}, {len(output)} bytes and {errors[:80]} with {room} MiB"
            if done == BEHIND:
                break
        yield f"`{' '.join(words)}` wants memory up to {last} MiB" if short else f"`{' '.join(words)}` ends with its report", None if done == BEHIND else "no report"


def is_report(output, shards):
    """Whether a report of the small trace is as replayed."""
    try:
        check(commands_of(SMALL), output.split(b"\n"), shards, 8_192)
    except SystemExit:
        return False
    return True


def terminated(program):
    """SIGTERM in the middle of a run, at drawn times and at drawn places of the report: what is written is a front of it."""
    trace, drawn = made_trace(100_000), random.Random(1)
    for words in (["run"], ["sim", "--shards", "4", "--number", "7"]):
        began = time.perf_counter()
        report = whole(program, trace, *words)
        took = time.perf_counter() - began
        for at in range(20):
            with tempfile.TemporaryFile() as source:
                source.write(trace)
                source.seek(0)
                with subprocess.Popen([program, *words], stdin=source, stdout=subprocess.PIPE, bufsize=0) as process:
                    if at % 2:
                        time.sleep(took * drawn.random())
                        written = b""
                    else:
                        written = process.stdout.read(1 + drawn.randrange(len(report)))
                    process.send_signal(signal.SIGTERM)
                    while more := process.stdout.read(ROOM):
                        written += more
                    status = process.wait(TIMEOUT)
            front = report.startswith(written) and (status != DONE or written == report)
            what = ", the whole report" if status == DONE else " behind nothing" if not written else " behind a front"
            yield told(status, {DONE, -signal.SIGTERM}, what, None if front else "no front of the report")


def strange_words(program):
    """Words that are no UTF-8, none, empty ones, 10,000, and a long one: `usage`."""
    for words in ([b"\xff"], [b"run\xff"], [b"run", b"--shards", b"\xff"], [b"run", b"--pages=\xff\xfe"], [b"--\xff", b"run"], [b"run", b"--", b"\xff"], [],
                  [b""], [b"run", b""], [b"--help"], [b"--version"], [b"-h"], [b"run"] * 10_000, [b"run", *[b"--shards", b"1"] * 5_000],
                  [b"run", b"--", *[b"x"] * 10_000], [b"run", b"--shards=" + b"1" * 100_000], [b"x" * 100_000], [b"run", b"--shards", b"0x1"],
                  [b"run", b"--shards", "１".encode()], [b"run", b"--shards", b"+1"], [b"run", b"--shards", b"-1"], [b"run", b"--number", b"00000000001"]):
        status, output, errors = ran([program.encode(), *words], SMALL)
        yield told(status, {USAGE}, ", `usage`", None if (output, errors) == (b"usage\n", b"") else f"{output[:80]} and {errors[:80]} are written")


EDGES = {
    "`/dev/full`": full_device,
    "output: a pipe without a reader": no_reader,
    "output: a reader that goes": reader_goes,
    "output: closed, not for writing, or full and not waiting": no_sink,
    "output: 64 KiB, of a file system and of a file": full_files,
    "input: a slow writer, one that goes": writer_goes,
    "input: closed, a folder, or empty and not waiting": no_source,
    "`ulimit -v`": little_memory,
    "SIGTERM": terminated,
    "strange words": strange_words,
}


def run_edges(program):
    """For each edge what was answered how often; and what was wrong."""
    rows, faults = [], []
    for name, edge in EDGES.items():
        answered = {}
        for words, wrong in edge(program):
            answered[words] = answered.get(words, 0) + 1
            if wrong:
                faults.append(f"{name}: {words}: {wrong}")
        rows.append((name, answered))
        print(f"{name}: {answered}", flush=True)
    return rows, faults
