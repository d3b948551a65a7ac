#!/usr/bin/env python3
"""Draws a run: what each shard held and did, part by part of its journal.

    examples/picture.py TRACE REPORT > run.svg

For each shard, from left to right over its journal: the live bytes and the rows, a mark for each eviction, and below
them, for each of 80 stretches of the journal, the gets that found their row and those that did not, and the share of
parts that other shards issued. The rows are those of the cache of bench/cache_model.py.
"""
import os
import sys

sys.path.append(os.path.join(os.path.dirname(os.path.realpath(__file__)), "..", "bench"))
from cache_model import Cache, commands_of

WIDTH, STRETCHES = 960, 80
LIVE, ROWS, EVICTED, HIT, MISS, FOREIGN = "#3b6ea5", "#d98e04", "#c0392b", "#5b9a68", "#c9ced6", "#8e6bbf"


def gone_through(number, shards, entries, commands):
    """Goes along a shard's journal. Answers of each entry the live bytes and the rows behind it, and its kind.

    Behind these stands whether a get found its row, None where it is none, and whether another shard issued the command.
    """
    cache, seen = Cache(), []
    for entry in entries:
        found, kind, foreign = None, "done", False
        if entry.startswith(b"!"):
            cache.evict()
            kind = "evicted"
        else:
            command = commands[int(entry) - 1]
            foreign = (int(entry) - 1) % shards != number
            if command[0] != b"scan":
                reply = cache.do(int(entry), command)
                found = reply != b"missing" if command[0] == b"get" else None
        seen.append((cache.live, len(cache.rows), kind, found, foreign))
    return seen


def path(values, most, top, height):
    step = max(1, len(values) // (WIDTH // 2))
    points = [(x * WIDTH / max(1, len(values) - 1), top + height - height * values[x] / max(1, most)) for x in range(0, len(values), step)]
    return " ".join(f"{x:.1f},{y:.1f}" for x, y in points)


def panel(number, seen, top):
    """One shard's part of the picture, from `top` on, 150 high."""
    most_live, most_rows = max((it[0] for it in seen), default=0), max((it[1] for it in seen), default=0)
    text = [
        f'<text x="0" y="{top + 12}">shard {number}: {len(seen)} entries, at most {most_rows} rows and {most_live} live bytes</text>',
        f'<polyline fill="none" stroke="{LIVE}" stroke-width="1.5" points="{path([it[0] for it in seen], most_live, top + 20, 70)}"/>',
        f'<polyline fill="none" stroke="{ROWS}" points="{path([it[1] for it in seen], most_rows, top + 20, 70)}"/>',
    ]
    places = sorted({round(x * WIDTH / max(1, len(seen) - 1)) for x, it in enumerate(seen) if it[2] == "evicted"})
    if places:
        text.append(f'<path stroke="{EVICTED}" d="{"".join(f"M{x} {top + 92}v6" for x in places)}"/>')
    wide = WIDTH / STRETCHES
    for k in range(STRETCHES if seen else 0):
        part = seen[k * len(seen) // STRETCHES : (k + 1) * len(seen) // STRETCHES]
        done = max(1, len([it for it in part if it[2] == "done"]))
        hits, misses = (len([it for it in part if it[3] is wanted]) / done for wanted in (True, False))
        foreign = len([it for it in part if it[4]]) / done
        x, floor = k * wide, top + 128
        text += [
            f'<rect x="{x:.1f}" y="{floor - 28 * hits:.1f}" width="{wide - 1:.1f}" height="{28 * hits:.1f}" fill="{HIT}"/>',
            f'<rect x="{x:.1f}" y="{floor - 28 * (hits + misses):.1f}" width="{wide - 1:.1f}" height="{28 * misses:.1f}" fill="{MISS}"/>',
            f'<rect x="{x:.1f}" y="{floor + 2}" width="{wide - 1:.1f}" height="{8 * foreign:.1f}" fill="{FOREIGN}"/>',
        ]
    return text


def main():
    if len(sys.argv) != 3:
        sys.exit(__doc__)
    with open(sys.argv[1], "rb") as file:
        commands = commands_of(file.read())
    with open(sys.argv[2], "rb") as file:
        journals = [line.split()[2:] for line in file.read().split(b"\n")[len(commands) :] if line.startswith(b"journal ")]
    shards = [gone_through(number, len(journals), journal, commands) for number, journal in enumerate(journals)]
    height = 34 + 150 * len(shards)
    print(f'<svg xmlns="http://www.w3.org/2000/svg" viewBox="-8 0 {WIDTH + 16} {height}" font-family="sans-serif" font-size="12">')
    print(f'<rect x="-8" width="{WIDTH + 16}" height="{height}" fill="white"/>')
    legend = [("live bytes", LIVE), ("rows", ROWS), ("evictions", EVICTED), ("gets that found", HIT), ("gets that missed", MISS), ("issued by others", FOREIGN)]
    for k, (name, color) in enumerate(legend):
        print(f'<rect x="{150 * k}" y="8" width="10" height="10" fill="{color}"/><text x="{150 * k + 15}" y="17">{name}</text>')
    for number, seen in enumerate(shards):
        print("\n".join(panel(number, seen, 30 + 150 * number)))
    print("</svg>")


main()
