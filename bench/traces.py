#!/usr/bin/env python3
"""Writes the traces that programs are compared on. The same arguments give the same bytes.

    bench/traces.py KIND FILE [--number N] [--scale S] [--tables]      S in (0, 1] cuts the numbers

With --tables the same commands in version 2: the table of a key is its hash, by which it is dealt to shards, modulo 8.

    gen       what the program's mode `gen` makes: 100,000 commands, values of 100 to 2,000 bytes
    small     1,000,000 commands over 100,000 keys, values of 20 to 100 bytes: 50 % get, 40 % put, 9 % erase, 1 % scan
    manykeys  500,000 puts of keys of their own in a shuffled order, then 500,000 gets
    evict     10,000 puts and 40,000 gets of 20,000 keys, values of 1,000 to 12,000 bytes
    churn     900,000 commands over 1,000,000 keys, values of 20 to 100 bytes, 85 % put: small rows go by the hundred thousand
    scans     200,000 puts of keys of their own, a scan behind each of the last 60,000 (a trace may have 64,900 scans)
    short     1,000,000 commands of four kinds over 10,000 keys, values of 1 to 8 bytes
    puts      1,000,000 puts of 500,000 keys, values of 48 bytes: about 100 bytes of memory each (with values of 100 bytes
              the trace would be too long)
    values    a script of the mode `values`: 300 values of 1 KiB to 1 MiB, and 667 reads behind each
"""
import argparse

from cache_model import TABLES, owner_of

MASK = (1 << 64) - 1
ALPHABET = b"abcdefghijklmnopqrstuvwxyz" * 470


class Lcg64Xsh32:
    """rand_pcg's Lcg64Xsh32::new(state, stream); one u32 per draw."""

    def __init__(self, state, stream):
        self.increment = (stream << 1 | 1) & MASK
        self.state = (state + self.increment) & MASK
        self.step()

    def step(self):
        self.state = (self.state * 6364136223846793005 + self.increment) & MASK

    def draw(self):
        state = self.state
        self.step()
        word = ((state >> 18 ^ state) >> 27) & 0xFFFFFFFF
        turn = state >> 59
        return (word >> turn | word << (32 - turn)) & 0xFFFFFFFF if turn else word


def value(i, length):
    """Byte j is 97 + (i + j) mod 26."""
    return ALPHABET[i % 26:i % 26 + length]


def gen(number, scale):
    draw = Lcg64Xsh32(number, 2).draw
    for i in range(1, int(100_000 * scale) + 1):
        word = draw() % 100
        key = b"k%d" % (draw() % 20_000)
        if word < 40:
            yield b"put %s %s\n" % (key, value(i, 100 + draw() % 1_901))
        elif word < 95:
            yield b"get %s\n" % key
        elif word < 99:
            yield b"erase %s\n" % key
        else:
            yield b"scan %s %d\n" % (key, 1 + draw() % 32)


def small(number, scale):
    draw = Lcg64Xsh32(number, 3).draw
    keys = int(100_000 * scale)
    for i in range(1, int(1_000_000 * scale) + 1):
        word = draw() % 100
        key = b"k%d" % (draw() % keys)
        if word < 40:
            yield b"put %s %s\n" % (key, value(i, 20 + draw() % 81))
        elif word < 90:
            yield b"get %s\n" % key
        elif word < 99:
            yield b"erase %s\n" % key
        else:
            yield b"scan %s %d\n" % (key, 1 + draw() % 32)


def evict(number, scale):
    draw = Lcg64Xsh32(number, 4).draw
    for i in range(1, int(50_000 * scale) + 1):
        word = draw() % 100
        key = b"k%d" % (draw() % 20_000)
        if word < 20:
            yield b"put %s %s\n" % (key, value(i, 1_000 + draw() % 11_001))
        else:
            yield b"get %s\n" % key


def churn(number, scale):
    draw = Lcg64Xsh32(number, 6).draw
    for i in range(1, int(900_000 * scale) + 1):
        word = draw() % 100
        key = b"k%d" % (draw() % 1_000_000)
        if word < 85:
            yield b"put %s %s\n" % (key, value(i, 20 + draw() % 81))
        else:
            yield b"get %s\n" % key


def manykeys(number, scale):
    draw = Lcg64Xsh32(number, 5).draw
    count = int(500_000 * scale)
    order = list(range(count))
    for i in range(count - 1, 0, -1):
        j = draw() % (i + 1)
        order[i], order[j] = order[j], order[i]
    for i, key in enumerate(order, 1):
        yield b"put item:%d %s\n" % (key, value(i, 8 + draw() % 33))
    for _ in range(count):
        yield b"get item:%d\n" % (draw() % count)


def scans(number, scale):
    draw = Lcg64Xsh32(number, 7).draw
    count = int(200_000 * scale)
    order = list(range(count))
    for i in range(count - 1, 0, -1):
        j = draw() % (i + 1)
        order[i], order[j] = order[j], order[i]
    for i, key in enumerate(order, 1):
        yield b"put item:%d %s\n" % (key, value(i, 8))
        if i > 0.7 * count:
            yield b"scan item:%d 1\n" % key


def short(number, scale):
    draw = Lcg64Xsh32(number, 10).draw
    for i in range(1, int(1_000_000 * scale) + 1):
        word = draw() % 100
        key = b"k%d" % (draw() % 10_000)
        if word < 40:
            yield b"put %s %s\n" % (key, value(i, 1 + draw() % 8))
        elif word < 90:
            yield b"get %s\n" % key
        elif word < 99:
            yield b"erase %s\n" % key
        else:
            yield b"scan %s 1\n" % key


def puts(number, scale):
    draw = Lcg64Xsh32(number, 8).draw
    for i in range(1, int(1_000_000 * scale) + 1):
        yield b"put p%d %s\n" % (draw() % 500_000, value(i, 48))


def values(number, scale):
    """A script of the mode `values`: 1,000 names, values of 1 KiB to 1 MiB, each power of two as often as another, and 667 reads for each."""
    draw = Lcg64Xsh32(number, 9).draw
    letters = ALPHABET[:26] * 40_330
    for i in range(1, int(300 * scale) + 1):
        length = min(1_048_576, (1 << (10 + draw() % 11)) + draw() % 1_024)
        yield b"set %d %s\n" % (draw() % 1_000, letters[i % 26:i % 26 + length])
        for _ in range(667):
            yield b"read %d %d %d\n" % (draw() % 1_000, draw() % length, draw() % 65)


KINDS = {"gen": gen, "small": small, "manykeys": manykeys, "evict": evict, "churn": churn, "scans": scans, "short": short, "puts": puts, "values": values}


def in_tables(lines):
    """The same commands in version 2, each key in the table that its hash says."""
    known = {}
    yield b"version 2\n"
    for line in lines:
        word, fields = line.split(b" ", 1)
        key = fields[:-1].split(b" ", 1)[0]
        if key not in known:
            known[key] = owner_of(key, TABLES)
        yield b"%s %d %s" % (word, known[key], fields)


def write(kind, path, number=7, scale=1.0, tables=False):
    """Writes the trace of this kind, if it is within a trace's limits."""
    if tables and kind == "values":
        raise SystemExit("a script has no tables")
    made = KINDS[kind](number, scale)
    data = b"".join(in_tables(made) if tables else made)
    lines = data.split(b"\n")[1 if tables else 0:-1]
    behind = 3 if tables else 2
    greatest = max((len(line.split(b" ", behind)[behind]) for line in lines if line.startswith(b"put ")), default=0)
    replies = sum(line.startswith(b"get ") for line in lines) * greatest + sum(line.startswith(b"scan ") for line in lines) * 8_272
    if len(data) > 67_108_864 or len(lines) > 1_048_576 or replies > 536_870_912:
        raise SystemExit(f"{kind}: too large")
    with open(path, "wb") as file:
        file.write(data)


def main():
    parser = argparse.ArgumentParser(description=__doc__, formatter_class=argparse.RawDescriptionHelpFormatter)
    parser.add_argument("kind", choices=KINDS)
    parser.add_argument("path")
    parser.add_argument("--number", type=int, default=7)
    parser.add_argument("--scale", type=float, default=1.0)
    parser.add_argument("--tables", action="store_true")
    args = parser.parse_args()
    write(args.kind, args.path, args.number, args.scale, args.tables)


if __name__ == "__main__":
    main()
