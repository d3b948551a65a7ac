#!/usr/bin/env python3
"""Replays the journals of a report, and sees that all that it says is so.

    bench/check.py TRACE REPORT [--shards N] [--pages N] [--verdict]

REPORT is what `run` or `sim` wrote of TRACE with these options; without them it is one shard of 8,192 pages. Nothing
here is the program's: the caches, the hash of a key and the sizes are those of `cache_model.py`. It goes along the
journal of each shard with a cache and sees that each part of each command is done once, where its key belongs, the
parts of one origin in order; that a row which goes is the one used longest ago, and goes while more bytes are live than
a shard of so many pages may hold; that each reply is the cache's at that point, and a scan's the first keys of its
table that were found at all shards; and that the last lines say what the caches hold, and how many parts went to
another shard or came from one. Every byte of the report is compared. A trace may be of version 1 or 2.

With --verdict it says what the mode `audit` should: `legal`, or `illegal line K`. The lines of the journals are looked at
first, then the journals, where a row may go while more bytes are live than the floor, and then each line.
"""
import argparse
import re
import sys

from cache_model import Cache, bound_of, commands_of, floor_of, owner_of, regions_of


class Wrong(Exception):
    """What is wrong with a report."""


def owners_of(commands, shards):
    """Of each command the shard that its key belongs to. None of a scan, which all do."""
    known = {text: owner_of(text, shards) for text in {command[1][1] for command in commands}}
    return [None if command[0] == b"scan" else known[command[1][1]] for command in commands]


def number_in(word):
    """The number that bytes spell in digits, as the program prints it. 0 where they spell none."""
    return int(word) if word.isdigit() and not word.startswith(b"0") else 0


def replay(shard, shards, entries, commands, owners, bound):
    """Goes along a journal. Answers the cache behind it, the replies by command, and the live bytes as each row went.

    The reply to a scan is its keys.
    """
    cache, replies, evicted, last = Cache(), {}, [], [0] * shards
    for entry in entries:
        where = f"in the journal of shard {shard}, {entry.decode(errors='replace')}"
        if entry.startswith(b"!"):
            if cache.live <= bound:
                raise Wrong(f"{where}: a row goes at {cache.live} live bytes, which are not above {bound}")
            evicted.append(cache.live)
            if number_in(entry[1:]) != cache.evict():
                raise Wrong(f"{where}: another row was used longest ago")
            continue
        number = number_in(entry)
        origin = (number - 1) % shards
        if not 0 < number <= len(commands) or owners[number - 1] not in (None, shard):
            raise Wrong(f"{where}: this shard does no part of such a command")
        if number <= last[origin]:
            raise Wrong(f"{where}: behind {last[origin]} of the same origin")
        last[origin], command = number, commands[number - 1]
        scans = command[0] == b"scan"
        replies[number] = cache.scan(command[1], int(command[2])) if scans else cache.do(number, command)
    return cache, replies, evicted


def answer_of(number, command, replies):
    """The text of the answer to a command, from the replies of the shards that did a part of it."""
    if command[0] == b"scan":
        keys = sorted(key for reply in replies for key in reply)
        return b" ".join([b"%d keys" % number, *keys[:int(command[2])]])
    return b"%d %s" % (number, replies[0])


def lent_by(shard, shards, owners):
    """How many parts a shard issues to other shards, and does for others: a block is lent for each."""
    lent = 0
    for at, owner in enumerate(owners):
        if at % shards == shard:
            lent += shards - 1 if owner is None else owner != shard
        else:
            lent += owner in (None, shard)
    return lent


def check(commands, lines, shards, pages, regions=1):
    """Checks the lines of a report, and answers at how many live bytes each row went."""
    if len(lines) != len(commands) + 2 * shards + 1 or lines[-1]:
        raise Wrong("the report has more lines or fewer, or its last one does not end")
    owners, done, gone = owners_of(commands, shards), [[] for _ in commands], []
    for shard in range(shards):
        words = lines[len(commands) + shard].split(b" ")
        if words[:2] != [b"journal", b"%d" % shard]:
            raise Wrong(f"the line of the journal of shard {shard} begins otherwise")
        cache, replies, evicted = replay(shard, shards, words[2:], commands, owners, bound_of(shards, pages, regions))
        gone += evicted
        for number, reply in replies.items():
            done[number - 1].append(reply)
        lent = lent_by(shard, shards, owners)
        line = b"shard %d rows %d live %d lent %d back %d" % (shard, len(cache.rows), cache.live, lent, lent)
        if lines[len(commands) + shards + shard] != line:
            raise Wrong(f"a last line is {lines[len(commands) + shards + shard]}, and not {line}")
    for number, command in enumerate(commands, 1):
        if len(done[number - 1]) != (shards if owners[number - 1] is None else 1):
            raise Wrong(f"not every part of command {number} stands in a journal")
        answer = answer_of(number, command, done[number - 1])
        if lines[number - 1] != answer:
            raise Wrong(f"an answer is {lines[number - 1][:80]}, and not {answer[:80]}")
    return gone


def lines_of(report):
    """The lines of a report, and None for what stands behind the last LF, if anything does."""
    *lines, rest = report.split(b"\n")
    return lines + [None] if rest else lines


def entries_in(line, shard, count):
    """The entries of the journal of a shard that a line spells. None where it spells none."""
    words = line.split(b" ") if line is not None else []
    if words[:2] != [b"journal", b"%d" % shard]:
        return None
    entries = words[2:]
    spelled = all(re.fullmatch(rb"!?[1-9][0-9]{0,7}", entry) and int(entry.lstrip(b"!")) <= count for entry in entries)
    return entries if spelled else None


def report_of(commands, owners, journals, walked, shards):
    """The lines of the report of journals that were walked: each with its cache and its replies."""
    lines = []
    for number, command in enumerate(commands, 1):
        lines.append(answer_of(number, command, [replies[number] for _, replies, _ in walked if number in replies]))
    lines += [b" ".join([b"journal %d" % shard, *entries]) for shard, entries in enumerate(journals)]
    for shard, (cache, _, _) in enumerate(walked):
        lent = lent_by(shard, shards, owners)
        lines.append(b"shard %d rows %d live %d lent %d back %d" % (shard, len(cache.rows), cache.live, lent, lent))
    return lines


def verdict(trace, report, shards, pages):
    """The first line of a report that is wrong, counted from 1, in the order of an audit. 0 where none is."""
    commands, lines, floor = commands_of(trace), lines_of(report), floor_of(pages, regions_of(trace))
    count, owners, journals, walked = len(commands), owners_of(commands, shards), [], []
    for shard in range(shards):
        entries = entries_in(lines[count + shard] if count + shard < len(lines) else None, shard, count)
        if entries is None:
            return count + shard + 1
        journals.append(entries)
    for shard, entries in enumerate(journals):
        try:
            walked.append(replay(shard, shards, entries, commands, owners, floor))
        except Wrong:
            return count + shard + 1
        if len(walked[-1][1]) != sum(owner in (None, shard) for owner in owners):
            return count + shard + 1
    wanted = report_of(commands, owners, journals, walked, shards)
    for at in range(max(len(lines), len(wanted))):
        if at >= len(lines) or at >= len(wanted) or lines[at] != wanted[at]:
            return at + 1
    return 0


def main():
    words = argparse.ArgumentParser(description=__doc__, formatter_class=argparse.RawDescriptionHelpFormatter)
    words.add_argument("trace")
    words.add_argument("report")
    words.add_argument("--shards", type=int, default=1)
    words.add_argument("--pages", type=int, default=8_192)
    words.add_argument("--verdict", action="store_true")
    given = words.parse_args()
    with open(given.trace, "rb") as trace, open(given.report, "rb") as report:
        text, written = trace.read(), report.read()
    if given.verdict:
        wrong = verdict(text, written, given.shards, given.pages)
        print(f"illegal line {wrong}" if wrong else "legal")
        return
    commands = commands_of(text)
    try:
        gone = check(commands, written.split(b"\n"), given.shards, given.pages, regions_of(text))
    except Wrong as wrong:
        sys.exit(str(wrong))
    print(f"{len(commands)} commands, {given.shards} shards, {len(gone)} evictions: as replayed")


if __name__ == "__main__":
    main()
