"""Mutated traces and scripts for `hostile.py`, each run by the program and held against `reader.py`.

A text is drawn, mutated in up to four ways, and given to the program in a mode, on shards and pages that are drawn too.
Either both refuse it by the same line and cause, or the program's answer is right: the report of `run` or `sim` as
`check.py` replays it over the reader's commands, the text of another mode byte for byte. The same number draws the same.
"""
import collections
import multiprocessing
import os
import random
import subprocess

from cache_model import regions_of
from check import check
from reader import MOST_BYTES, MOST_COMMANDS, MOST_LONG_VALUE, MOST_VALUE, Refused, commands_in, dirty_text, index_text, step_of, trace_of, values_text
from timing import OUT

PROCESSES, A_CHUNK, SECONDS = 4, 250, 300
DONE, REFUSED = 0, 3
PLAIN = b"abcdefghijklmnopqrstuvwxyz0123456789:{}\"#\xc3\xa9\xff"
KEYS = [b"a", b"b", b"k1", b"k10", b"k2", b"z", b"#", b"\xc3\xa9", b"a" * 255, b"b" * 256, b"{\"q\":1}"]
# What a mutation puts into a text.
SPLINTERS = [b"\0", b"\r", b"\n", b"\r\n", b"\r\r\n", b" ", b"  ", b"\t", b"\x7f", b"\x1f", b"\x80", b"\xff", b"#", b"0", b"8", b"33", b"-1", b"version 2\n",
             b"put", b"get ", b"scan a 32", b"scan a 032", b"erase  a", b"\xef\xbb\xbf", b"a" * 257, b"x" * 11_990, b"4294967296", b"read 1 1048576 64", b"set 999 "]


def ran(program, words, text):
    """Status, output and errors of the program on a text."""
    done = subprocess.run([program, *words], input=text, stdout=subprocess.PIPE, stderr=subprocess.PIPE, timeout=SECONDS, check=False)
    return done.returncode, done.stdout, done.stderr


def drawn_value(draw, most):
    length = draw.choice((0, 1, 5, 40, 300)) if draw.random() < 0.95 else draw.choice((most - 1, most, most + 1))
    return bytes(draw.choices(PLAIN, k=length)) if length < 1_000 else b"x" * length


def drawn_trace(draw, in_tables):
    """A trace of up to thirty lines."""
    lines = [b"version 2"] if in_tables else []
    for _ in range(draw.randrange(31)):
        word = draw.choice((b"put", b"put", b"get", b"erase", b"scan"))
        fields = [word, *([b"%d" % draw.randrange(8)] if in_tables else []), draw.choice(KEYS)]
        if word == b"put":
            fields.append(drawn_value(draw, MOST_VALUE))
        elif word == b"scan":
            fields.append(b"%d" % draw.randint(1, 32))
        lines.append(b" ".join(fields))
    return draw.choice((b"\n", b"\n", b"\r\n")).join([*lines, b""])


def drawn_script(draw):
    """A script of up to thirty lines."""
    lines, long = [], MOST_LONG_VALUE if draw.random() < 0.02 else MOST_VALUE
    for _ in range(draw.randrange(31)):
        word, name = draw.choice((b"set", b"read", b"read", b"drop")), draw.choice((0, 1, 2, 999, draw.randrange(1_000)))
        if word == b"set":
            lines.append(b"set %d %s" % (name, drawn_value(draw, 12_264 if long == MOST_VALUE else long)))
            long = MOST_VALUE
        elif word == b"read":
            lines.append(b"read %d %d %d" % (name, draw.choice((0, 1, 12_263, 12_264, MOST_LONG_VALUE)), draw.randint(0, 64)))
        else:
            lines.append(b"drop %d" % name)
    return b"\n".join([*lines, b""])


def a_line_changed(draw, text, change):
    """The text with one of its lines put through a change that answers lines."""
    lines = text.split(b"\n")
    at = draw.randrange(len(lines))
    lines[at:at + 1] = change(lines[at])
    return b"\n".join(lines)


def mutated(draw, text):
    """The text mutated in one way."""
    at, way = draw.randrange(len(text) + 1), draw.randrange(10)
    if way < 2 and at < len(text):
        return text[:at] + bytes([text[at] ^ 1 << draw.randrange(8)]) + text[at + 1:]
    if way == 2:
        return a_line_changed(draw, text, lambda line: [line[:draw.randrange(len(line) + 1)]])
    if way == 3:
        return a_line_changed(draw, text, lambda line: [line] * draw.choice((0, 2, 3)))
    if way == 4:
        return a_line_changed(draw, text, lambda line: [line + draw.choice((b"\r", b"\r\r", b" ", b"\0", b"1"))])
    if way == 5:
        return a_line_changed(draw, text, lambda line: [line.replace(b" ", draw.choice((b"", b"  ", b"\t", b" 0")), 1)])
    if way == 6:
        return text[:at] if draw.random() < 0.5 else text[at:]
    if way == 7:
        return text[:at] + bytes([draw.randrange(256)]) + text[at + 1:]
    return text[:at] + draw.choice(SPLINTERS) + text[at:]


def drawn_words(draw, in_tables):
    """A mode with its shards and pages, as words of the program."""
    mode = draw.choices(("run", "sim", "dirty", "index"), (10, 4, 2, 2))[0]
    shards = draw.choices((1, 2, 3, 4, 16), (12, 4, 2, 2, 1))[0] if mode in ("run", "sim") else 1
    return mode, shards, draw.choice((1_280, 1_536) if in_tables else (1_280, 1_280, 2_048))


def fault_of(program, text, mode, shards, pages):
    """What the reader made of a text, refused or accepted, and what the program answered otherwise, or None."""
    words = [mode, "--shards", str(shards), "--pages", str(pages)]
    status, output, errors = ran(program, words, text)
    if errors:
        return "errors", errors[:200]
    try:
        commands = commands_in(text, step_of) if mode == "values" else trace_of(text, mode, shards, pages)
    except Refused as refused:
        return refused.cause, None if (status, output) == (REFUSED, refused.text()) else (status, output[:200], refused.text())
    if status != DONE:
        return "accepted", (status, output[:200])
    if mode in ("run", "sim"):
        try:
            check(commands, output.split(b"\n"), shards, pages, regions_of(text))
        except SystemExit as said:
            return "accepted", said.code
        return "accepted", None
    text = {"values": values_text, "dirty": dirty_text, "index": index_text}[mode](commands, pages)
    return "accepted", None if output == text else (output[-200:], text[-200:])


def keep(kind, text, words, fault):
    """Keeps a text that was answered otherwise, and says where."""
    folder = f"{OUT}/hostile"
    os.makedirs(folder, exist_ok=True)
    path = f"{folder}/{kind}-{len(os.listdir(folder))}"
    with open(path, "wb") as file:
        file.write(text)
    return f"{' '.join(map(str, words))} < {path}: {fault}"


def chunk(given):
    """Runs the mutated texts of a chunk: how many came to what, and what was answered otherwise."""
    program, kind, number, start, count = given
    came, faults = collections.Counter(), []
    for at in range(start, start + count):
        draw = random.Random(f"{number} {kind} {at}")
        in_tables = kind == "traces" and draw.random() < 0.35
        text = drawn_trace(draw, in_tables) if kind == "traces" else drawn_script(draw)
        for _ in range(draw.choice((0, 1, 1, 2, 4))):
            text = mutated(draw, text)
        words = drawn_words(draw, in_tables) if kind == "traces" else ("values", 1, 8_192)
        try:
            cause, fault = fault_of(program, text, *words)
        except subprocess.TimeoutExpired:
            cause, fault = "no end", f"no end within {SECONDS} s"
        came[cause] += 1
        came["in tables"] += in_tables
        if fault:
            faults.append(keep(f"{kind}-{at}", text, words, fault))
    return came, faults


def run_mutated(program, kind, number, count):
    """Runs so many mutated texts of a kind in a pool of processes."""
    came, faults, told = collections.Counter(), [], 0
    chunks = [(program, kind, number, start, min(A_CHUNK, count - start)) for start in range(0, count, A_CHUNK)]
    with multiprocessing.Pool(PROCESSES) as pool:
        for own, wrong in pool.imap_unordered(chunk, chunks):
            came += own
            faults += wrong
            done = came.total() - came["in tables"]
            if done - told >= 10_000 or done == count:
                told = done
                print(f"{done} of {count} mutated {kind}: {len(faults)} answered otherwise", flush=True)
    return came, faults


def long_texts():
    """Texts at the limits of a trace and of a script, each with its name, its mode, its shards and its pages."""
    value = b"x" * MOST_VALUE
    put, put_in_tables = b"put a %s\n" % value, b"version 2\nput 1 a %s\n" % value
    yield "a line of 70 MB", b"#" + b"x" * 70_000_000, "run", 1, 8_192
    yield "a line of 70 MB", b"set 1 " + b"x" * 70_000_000, "values", 1, 8_192
    for word in (b"#", b"put a ", b"put ", b"scan a ", b""):
        yield f"the longest line, behind `{word.decode()}`", word + b"x" * (MOST_BYTES - len(word)), "run", 1, 8_192
    yield "a byte more than the longest", b"#" * (MOST_BYTES + 1), "run", 1, 8_192
    yield "empty lines alone", b"\n" * MOST_BYTES, "run", 2, 8_192
    yield "the most commands", b"get a\n" * MOST_COMMANDS, "run", 1, 8_192
    yield "a command more than the most", b"get a\n" * MOST_COMMANDS + b"fetch a", "run", 1, 8_192
    yield "a step more than the most", b"drop 1\n" * MOST_COMMANDS + b"drop 1", "values", 1, 8_192
    for mode, gets in (("run", 44_739), ("run", 44_740), ("dirty", 44_739), ("dirty", 44_740), ("index", 44_740)):
        yield f"{gets} gets beside the longest value", put + b"get b\n" * gets, mode, 1, 1_280
    for mode, gets in (("dirty", 44_740), ("dirty", 1), ("run", 44_740), ("run", 1)):
        yield f"{gets} gets in version 2 on few pages", put_in_tables + b"get 0 b\n" * gets, mode, 1, 1_280
    for shards, scans in ((1, 64_902), (1, 64_903), (16, 4_056), (16, 4_057)):
        yield f"{scans} scans on {shards}", b"scan a 32\n" * scans, "run", shards, 8_192
    for length in (MOST_LONG_VALUE, MOST_LONG_VALUE + 1):
        yield f"a long value of {length} bytes", b"set 1 %s\nread 1 1048560 64\n" % (b"x" * length), "values", 1, 8_192
    yield "more long values than have room", b"".join(b"set %d %s\nread %d 500000 9\n" % (at % 40, b"%d" % at * 100_000, at % 7) for at in range(90)), "values", 1, 1_280
    yield "more dirty puts than have room", b"".join(b"put k%d %s\nget k%d\n" % (at, value, at - 200) for at in range(1_000)), "dirty", 1, 1_280
    yield "more keys than have room", b"".join(b"put k%d 1\n" % at for at in range(7_200)) + b"get k7199\nerase k1\nput q 1\nput r 1\n", "index", 1, 1_280


def run_long(program):
    """Runs the texts at the limits one by one: how many, and what was answered otherwise."""
    faults, count = [], 0
    for name, text, *words in long_texts():
        count += 1
        cause, fault = fault_of(program, text, *words)
        print(f"{name}: {words[0]}, {cause}", flush=True)
        if fault:
            faults.append(f"{name}, {' '.join(map(str, words))}: {fault}")
    return count, faults
