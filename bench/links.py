#!/usr/bin/env python3
"""Checks that each link of a document leads to a file, and that each file which a document names is there.

    bench/links.py

A file is named between backquotes. Its path begins at the top of the clone, in crates/ or beside the document; or else in a crate, or one
of its folders, that the heading or the same line before it names.
"""
import glob
import os
import re
import sys

TOP = os.path.dirname(os.path.dirname(os.path.realpath(__file__)))
DOCUMENTS = ["README.md", "examples/README.md", *sorted(os.path.relpath(path, TOP) for path in glob.glob(f"{TOP}/docs/*.md"))]
CRATES = sorted(os.listdir(f"{TOP}/crates"))
LINK = re.compile(r"\]\(([^)\s#]+)[^)]*\)")
NAMED = re.compile(r"`([\w./-]+(?:\.(?:rt|antt|py|sh|edit|trace|report|script|md)|/))`")
OWNER = re.compile(r"\*\*(\w+)\*\*|`(\w+)`")

# what each crate has, or a test's
OF_ANY = {"src/", "specs/", "specs/inside/", "proofs/", "must-fail/", "nightly/", "Answers.antt", "Invariants.antt", "src/CRATE_tests.rt"}


def is_there(path):
    return os.path.exists(f"{TOP}/{path}")


def dead_links(document, line):
    """The links of a line that lead nowhere."""
    here = os.path.dirname(document)
    return [link for link in LINK.findall(line) if ":" not in link and not is_there(os.path.normpath(os.path.join(here, link)))]


def places_of(name, folders):
    """Where a file of this name may be, where these folders were named."""
    return [name, f"crates/{name}", *[f"{folder}/{name}" for folder in folders]]


def folders_of(crate):
    """Where a crate's files are sought."""
    return [f"crates/{crate}{behind}" for behind in ("", "/src", "/specs", "/specs/inside", "/proofs", "/must-fail", "/nightly")]


def lost_files(document, line, heading):
    """The files that a line names and that are not there."""
    lost, folders = [], [os.path.dirname(document) or ".", *[folder for crate in heading for folder in folders_of(crate)]]
    for word in re.finditer(rf"{NAMED.pattern}|{OWNER.pattern}", line):
        name, crate = word[1], next(filter(None, word.groups()[1:]), None)
        if crate in CRATES:
            folders = folders_of(crate) + folders
        if not name or name in OF_ANY:
            continue
        found = next(filter(is_there, places_of(name, folders)), None)
        if not found:
            lost.append(name)
        elif found.startswith("crates/"):
            folders = [os.path.dirname(found), *folders_of(found.split("/")[1]), *folders]
    return lost


def faults(document):
    """What a document names that is not there, each with its line."""
    heading = []
    with open(f"{TOP}/{document}", encoding="utf-8") as file:
        for number, line in enumerate(file, 1):
            if line.startswith("#"):
                heading = [crate for crate in re.findall(r"\w+", line) if crate in CRATES]
            for name in dead_links(document, line) + lost_files(document, line, heading):
                yield f"{document}:{number}: {name} is not there"


def main():
    if sys.argv[1:]:
        sys.exit(__doc__)
    found = [fault for document in DOCUMENTS for fault in faults(document)]
    sys.exit("\n".join(found) or None)


main()
