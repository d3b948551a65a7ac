#!/usr/bin/env python3
"""What a specification stands on: the files of this repository that it imports, to the end, in reading order.

    imports.py [FILE]

FILE is crates/shardcache/specs/Table.antt where none is named. Prints the files, those that import nothing first and FILE last, each
with its lines and what is said at its head, and in the last line how many files and lines they are. A `use` of a declaration of the
code (`CRATE.specs.declared.MODULE...`) stands for the source file that declares it, which is not counted.
"""
import pathlib
import re
import sys

ROOT = pathlib.Path(__file__).resolve().parent.parent
USE = re.compile(r"^(?:pub )?use Rattle\.(\w+)\.specs\.([\w.]+?)(?:\.\{.*\}| as \w+)?$")


def imports_of(file):
    """The files of this repository that a specification imports, in the order of its `use` lines."""
    found = []
    for line in file.read_text().splitlines():
        use = USE.match(line.strip())
        if not use or use[2].startswith("declared"):
            continue
        other = ROOT / "crates" / use[1] / "specs" / (use[2].replace(".", "/") + ".antt")
        if other.is_file() and other not in found:
            found.append(other)
    return found


def in_reading_order(file, found):
    """Adds to `found` what `file` imports, and then `file`."""
    for other in imports_of(file):
        if other not in found:
            in_reading_order(other, found)
    if file not in found:
        found.append(file)


def head_of(file):
    """What the first line of a file says."""
    first = file.read_text().splitlines()[0]
    return first[3:] if first.startswith("-- ") else ""


def main():
    file = pathlib.Path(sys.argv[1]).resolve() if len(sys.argv) > 1 else ROOT / "crates/shardcache/specs/Table.antt"
    found = []
    in_reading_order(file, found)
    lines = {each: len(each.read_text().splitlines()) for each in found}
    for each in found:
        print(f"{lines[each]:5} {each.relative_to(ROOT)}: {head_of(each)}")
    print(f"{len(found)} files, {sum(lines.values())} lines")


if __name__ == "__main__":
    main()
