#!/usr/bin/env python3
"""Writes the table of docs/PARTS.md: of each part the crates that it stands on, their lines, and the minutes to prove them.

    tools/parts.py [--check]

With `--check` nothing is written, and the script fails where the table is not the one that it would write. The crates are those of
crates.txt, the part's own and all below it; the kit's are not counted. Lines are those of src/, specs/ and proofs/, tests included.
Minutes are of one processor, from nothing, without tests and wrong bodies: the sum of the column `proof` of docs/gate.csv.
"""
import os
import re
import sys

TOP = os.path.dirname(os.path.dirname(os.path.realpath(__file__)))
PAGE, TIMES = f"{TOP}/docs/PARTS.md", f"{TOP}/docs/gate.csv"
HEAD = "| Part | Its own crate, and those below it | Crates | Lines | Minutes |\n|---|---|---|---|---|\n"

# Of each part the crates that are its own: those below come by crates.txt.
PARTS = {
    "key_index": ["key_index"],
    "key_table": ["key_table"],
    "small_pools": ["small_pools"],
    "foreign_list": ["foreign_list"],
    "shard_memory": ["shard_memory"],
    "regions": ["regions", "compaction"],
    "row_cache": ["row_cache"],
    "shard_store": ["shard_store"],
    "fragments": ["fragments"],
    "index_tree": ["index_tree"],
    "dirty_region": ["dirty_region"],
}


def text_of(path):
    with open(path, encoding="utf-8") as file:
        return file.read()


def crates_in(folder):
    """The crates that a repository lists: of each its line, and what it uses, in the order of crates.txt."""
    found = {}
    path = f"{folder}/crates.txt"
    for line in text_of(path).splitlines() if os.path.exists(path) else []:
        told = re.match(r"(\w+)\b[^:#]*:([^#]*)", line)
        if told:
            found[told[1]] = line.strip(), told[2].split()
    return found


def crates_of(part):
    """The crates of a part and all of this repository below them, in the order of crates.txt."""
    listed, needed, wanted = crates_in(TOP), set(), [*PARTS[part]]
    while wanted:
        name = wanted.pop()
        if name in listed and name not in needed:
            needed.add(name)
            wanted += listed[name][1]
    return [name for name in listed if name in needed]


def lines_of(crate):
    """How many lines a crate has."""
    count = 0
    for folder in ("src", "specs", "proofs"):
        for at, _, files in os.walk(f"{TOP}/crates/{crate}/{folder}"):
            count += sum(text_of(f"{at}/{file}").count("\n") for file in files)
    return count


def minutes_by_crate():
    """Of each crate that the gate was timed with, the minutes of its proof."""
    return {name: float(proof) for name, proof in re.findall(r"^(\w+),([\d.]+),", text_of(TIMES), re.M)}


def row_of(part, minutes):
    """The row of a part."""
    crates = crates_of(part)
    below = " ".join(name for name in crates if name not in PARTS[part])
    own = " and ".join(f"`{name}`" for name in PARTS[part])
    lines = sum(map(lines_of, crates))
    spent = f"{sum(minutes[name] for name in crates):.0f}" if minutes.keys() >= set(crates) else "not timed"
    return f"| {own} | {below} | {len(crates)} | {lines:,} | {spent} |\n"


def main():
    if sys.argv[1:] not in ([], ["--check"]):
        sys.exit(__doc__)
    minutes = minutes_by_crate()
    table = HEAD + "".join(row_of(part, minutes) for part in PARTS)
    before = text_of(PAGE)
    after = re.sub(r"^\| Part \|.*?\n(?=\n|\Z)", lambda _: table, before, count=1, flags=re.M | re.S)
    if sys.argv[1:]:
        sys.exit("docs/PARTS.md is not what tools/parts.py writes" if before != after else 0)
    with open(PAGE, "w", encoding="utf-8") as file:
        file.write(after)


if __name__ == "__main__":
    main()
