#!/usr/bin/env python3
"""Writes docs/EDITS.md: which wrong body stands for which call, by crate.

    bench/edits.py [--check]

With `--check` nothing is written, and the script fails where the page is not the one that it would write.

Wrong bodies are crates/NAME/must-fail/*.edit, which the gate tries, and crates/NAME/nightly/*.edit, which bench/nightly.sh tries. Each
belongs to the function in which its `old:` text stands; where that is a constant or an import, to those of the file that name it. A
function is public where lib.rt re-exports it or its type, or C calls it; else it is a helper. One that takes nothing, or `&self` alone,
and answers nothing is a law: all that it has are its clauses.
"""
import dataclasses
import os
import re
import sys

TOP = os.path.dirname(os.path.dirname(os.path.realpath(__file__)))
PAGE = f"{TOP}/docs/EDITS.md"
FOLDERS = ("must-fail", "nightly")
HEAD = """# Wrong bodies

Written by `bench/edits.py`, by crate and by function: each row says in words what a body does there that the check has to refuse, tried
by the gate or at night. A helper is named with its file, and its wrong bodies count for no public call, though public calls use it.
Public calls without a wrong body of their own stand below their crate's table, but for laws, which change and answer nothing.
"""
FUNCTION = re.compile(r'( *)(pub |pub\(\w+\) )?(?:const )?(?:unsafe )?(extern "C" )?fn (\w+)')
CONTAINER = re.compile(r"(?:pub(?:\(\w+\))? )?(?:unsafe )?(impl|trait)\b")


@dataclasses.dataclass
class Function:
    """A function of a crate: its name with its type's, its file, its first and last line, whether it is public, and whether a call."""
    name: str
    file: str
    first: int
    last: int
    is_public: bool
    is_call: bool


@dataclasses.dataclass
class Crate:
    """The functions of a crate, and its wrong bodies: of each the folder, the words, and the functions in which it stands."""
    name: str
    functions: list
    edits: list


def text_of(path):
    with open(path, encoding="utf-8") as file:
        return file.read()


def without_brackets(text):
    """A type or a path without what stands in its angle brackets."""
    text = text.replace("->", "")
    while "<" in text:
        shorter = re.sub(r"<[^<>]*>", "", text)
        if shorter == text:
            sys.exit(f"brackets that do not close: {text}")
        text = shorter
    return text


def exported_names(library):
    """The names that lib.rt re-exports of the crate's own modules or has itself, each with its module's file, or none for lib.rt."""
    modules = set(re.findall(r"^(?:pub )?mod (\w+);", library, re.M))
    names = {name: None for name in re.findall(r"^pub (?:unsafe )?(?:fn|struct|enum|trait|const) (\w+)", library, re.M)}
    for path, many, one in re.findall(r"^pub use ([\w:]+)::(?:\{([^}]*)\}|(\w+));", library, re.M):
        if path.split("::")[0] in modules:
            names.update({name.strip(): path for name in (many or one).split(",") if name.strip()})
    return names


def files_of(folder):
    """The sources below a crate's folder that are no tests, by their paths in it."""
    found = []
    for at, folders, files in os.walk(f"{folder}/src"):
        folders[:] = [name for name in folders if name != "tests"]
        found += [os.path.relpath(os.path.join(at, file), folder) for file in files if file.endswith(".rt") and file != "tests.rt"]
    return sorted(found)


def end_of(lines, first, indent):
    """The last line of the function whose head is at a line, and whether it has a body."""
    begun, open_braces = False, 0
    for at in range(first, len(lines)):
        line, outer = lines[at], lines[at].startswith(indent) and lines[at][len(indent):len(indent) + 1] not in ("", " ")
        open_braces += line.count("{") - line.count("}")
        if outer and (line.endswith("{}") or (begun and line == indent + "}")):
            return at, True
        begun = begun or (outer and line.endswith("{"))
        if not begun and not open_braces and line.endswith(";"):
            return at, False
    sys.exit(f"no end of {lines[first]}")


def functions_of(folder, file, exported):
    """The functions of a source, in order."""
    lines, found, owner, of_trait = text_of(f"{folder}/{file}").split("\n"), [], None, False
    for at, line in enumerate(lines):
        if CONTAINER.match(line):
            head = " ".join(lines[at:next(n for n in range(at, len(lines)) if "{" in lines[n]) + 1])
            kind = CONTAINER.match(line)[1]
            words = without_brackets(head[head.index(kind) + len(kind):].split("{")[0].split(" where ")[0]).split(":")[0].split()
            owner, of_trait = words[-1], kind == "trait" or "for" in words
        elif line == "}":
            owner = None
        told = FUNCTION.match(line)
        if not told or (told[1] and not owner):
            continue
        last, has_body = end_of(lines, at, told[1])
        seen = told[2] == "pub " or (owner and of_trait)
        module = exported.get(owner or told[4], "")
        public = told[3] or seen and module != "" and (owner or module is None or f"src/{module.replace('::', '/')}.rt" == file)
        is_law = re.search(r"\((&self)?\)( \{\}?)?$", line)
        found.append(Function(f"{owner}::{told[4]}" if owner else told[4], file, at, last, bool(public), has_body and not is_law))
    return found


def names_at(line, new):
    """The constant or the import of a line, or of several imports those that the line put in its place has not."""
    named = re.match(r"(?:pub(?:\(\w+\))? )?(?:const (\w+):|use [\w:]*?(\w+);|use [\w:]*\{([^}]*)\};)", line)
    if not named:
        return []
    kept = re.split(r"[{},]\s*", new)
    return [name for name in re.split(r",\s*", named[1] or named[2] or named[3]) if not named[3] or name not in kept]


def functions_at(text, place, functions, new):
    """The one of a file's functions in which a place of its text is. Where it is in none: those that name its constant or its import."""
    lines, at = text.split("\n"), text[:place].count("\n")
    here = [it for it in functions if it.first <= at <= it.last]
    words = re.compile(rf"\b({'|'.join(names_at(lines[at], new)) or '$.'})\b")
    return here or [it for it in functions if any(words.search(line) for line in lines[it.first:it.last + 1])]


def edit_of(path, crate):
    """The words of an edit, and the functions in which it stands, each once."""
    places, file, old = [], None, None
    for line in text_of(path).split("\n"):
        if line.startswith("file: "):
            file = line.removeprefix("file: ").strip()
        elif line.startswith("old: "):
            old = line.removeprefix("old: ")
        elif line.startswith("new: "):
            text = text_of(f"{TOP}/crates/{crate.name}/{file}")
            if text.count(old) != 1:
                sys.exit(f"{path}: its old text stands {text.count(old)} times in {file}")
            new, functions = line.removeprefix("new: "), [it for it in crate.functions if it.file == file]
            places += [it for it in functions_at(text, text.index(old), functions, new) if it not in places]
    if not places:
        sys.exit(f"{path}: it stands in no function")
    return os.path.basename(path).removesuffix(".edit").replace("_", " "), places


def crate_of(name):
    folder = f"{TOP}/crates/{name}"
    sources = files_of(folder)
    exported = exported_names(text_of(f"{folder}/src/lib.rt")) if "src/lib.rt" in sources else {}
    crate = Crate(name, [it for file in sources for it in functions_of(folder, file, exported)], [])
    for kept in FOLDERS:
        here = f"{folder}/{kept}"
        for edit in sorted(os.listdir(here)) if os.path.isdir(here) else ():
            if edit.endswith(".edit"):
                crate.edits.append((kept, *edit_of(f"{here}/{edit}", crate)))
    return crate


def calls_of(crate):
    """The public calls that have a body."""
    return [it for it in crate.functions if it.is_public and it.is_call]


def edited(crate):
    """The functions at which edits stand, the public ones first."""
    named = [it for it in crate.functions if any(it in places for _, _, places in crate.edits)]
    return sorted(named, key=lambda it: not it.is_public)


def section(crate):
    """The crate's table, and its calls without a wrong body."""
    rows = []
    for it in edited(crate):
        tried = ["; ".join(words for kept, words, places in crate.edits if kept == folder and it in places) for folder in FOLDERS]
        rows.append(f"| `{it.name}`{'' if it.is_public else f', a helper in {it.file}'} | {' | '.join(tried)} |")
    table = ["| Function | In the gate | At night |", "|---|---|---|", *rows, ""] if rows else []
    without = dict.fromkeys(f"`{it.name}`" for it in calls_of(crate) if it not in edited(crate))
    last = f"No wrong body: {', '.join(without)}." if without else "Each public call has a wrong body."
    return "\n".join([f"## {crate.name}", "", *table, last, ""])


def sums(crates):
    """The table of counts, a crate a row, and all."""
    counts = []
    for it in crates:
        calls = calls_of(it)
        tries = [sum(kept == folder for kept, _, _ in it.edits) for folder in FOLDERS]
        counts.append([f"`{it.name}`", len(calls), sum(call in edited(it) for call in calls), *tries])
    counts.append(["all", *[sum(row[at] for row in counts) for at in range(1, 5)]])
    rows = [f"| {' | '.join(map(str, row))} |" for row in counts]
    head = ["## Sums", "", "| Crate | Public calls | With a wrong body | Tried in the gate | At night |", "|---|---|---|---|---|"]
    return "\n".join([*head, *rows, ""])


def page():
    names = re.findall(r"^(\w+)(?: staticlib)?:", text_of(f"{TOP}/crates.txt"), re.M)
    crates = [it for it in map(crate_of, names) if it.edits or calls_of(it)]
    return "\n".join([HEAD, *map(section, crates), sums(crates)])


def main():
    if sys.argv[1:] not in ([], ["--check"]):
        sys.exit(__doc__)
    written = page()
    if not sys.argv[1:]:
        with open(PAGE, "w", encoding="utf-8") as file:
            file.write(written)
    elif not os.path.exists(PAGE) or text_of(PAGE) != written:
        sys.exit("docs/EDITS.md is stale: bench/edits.py writes it")


main()
