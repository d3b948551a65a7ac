#!/usr/bin/env python3
"""Runs the program where the system makes no thread, or fewer than shards, and sees that each run ends with its report.

    bench/refused_threads.py PROGRAM [COMMANDS]

PROGRAM is the built program, crates/shardcache_main/out/shardcache_main. It runs a drawn trace of COMMANDS commands
(default 2,000) on 1, 2, 4 and 16 shards under a limit of processes, in which a thread counts as one, with room for no
further thread, for one, for three, and for all. The limit does not bind root: started by root, the script runs a copy
of the program as `nobody`. It looks how many threads the program has while it runs, and says the most that it saw.

Each run has to end within ten minutes, with status 0. Every report is judged by what no order of the shards can change:
a line for each command, with its number; each key belongs to one shard, so of one origin's commands on a key of its own
the answers are those of a cache; a journal for each shard, in which the parts of each origin stand once and in order;
and the lines of occupancy.
"""
import os
import pwd
import random
import shutil
import subprocess
import sys
import tempfile
import time

from cache_model import owner_of

SHARDS = (1, 2, 4, 16)
MINUTES = 10


def trace_of(commands, shards):
    """A drawn trace in which no key is used by two origins, as (word, key, value) by command."""
    drawn = random.Random(shards)
    trace = []
    for number in range(commands):
        key = f"k{number % shards}.{drawn.randrange(50)}"
        trace.append((drawn.choice(("put", "put", "get", "erase")), key, str(number)))
    return trace


def answers(trace):
    """What each command answers: the commands on a key are one origin's, so they are done in their order."""
    rows, said = {}, []
    for word, key, value in trace:
        if word == "put":
            said.append("replaced" if key in rows else "stored")
            rows[key] = value
        elif word == "get":
            said.append(f"value {rows[key]}" if key in rows else "missing")
        else:
            said.append("erased" if rows.pop(key, None) is not None else "missing")
    return said, rows


def judge(output, trace, shards):
    """What is wrong with a report, or None."""
    lines = output.decode().splitlines()
    said, rows = answers(trace)
    if lines[:len(trace)] != [f"{number} {answer}" for number, answer in enumerate(said, 1)]:
        return "an answer is not that of a cache"
    rest = lines[len(trace):]
    if len(rest) != 2 * shards:
        return f"{len(rest)} lines behind the answers"
    owners = [owner_of(key.encode(), shards) for _, key, _ in trace]
    for shard in range(shards):
        words = rest[shard].split()
        entries = [int(word) for word in words[2:]]
        if words[:2] != ["journal", str(shard)] or sorted(entries) != [number for number, at in enumerate(owners, 1) if at == shard]:
            return f"the journal of shard {shard} has not its parts"
        for origin in range(shards):
            own = [entry for entry in entries if (entry - 1) % shards == origin]
            if own != sorted(own):
                return f"the journal of shard {shard} has not the order of origin {origin}"
        kept = [(key, value) for key, value in rows.items() if owner_of(key.encode(), shards) == shard]
        live = sum((40 + len(key) + len(value) + 7) // 8 * 8 for key, value in kept)
        lent = sum((number % shards == shard) != (at == shard) for number, at in enumerate(owners))
        if rest[shards + shard] != f"shard {shard} rows {len(kept)} live {live} lent {lent} back {lent}":
            return f"the line of shard {shard} is {rest[shards + shard]}"
    return None


def processes_of(user):
    """How many threads a user has."""
    found = 0
    for process in filter(str.isdigit, os.listdir("/proc")):
        try:
            if os.stat(f"/proc/{process}").st_uid == user:
                found += len(os.listdir(f"/proc/{process}/task"))
        except FileNotFoundError:
            pass
    return found


def run(words, source, sink, became):
    """Status of a program, or None where it does not end in time; the most threads that were seen at once; seconds."""
    began, seen = time.monotonic(), 1
    with open(source, "rb") as given, open(sink, "wb") as taken:
        with subprocess.Popen(words, stdin=given, stdout=taken, **became) as program:
            while program.poll() is None:
                try:
                    seen = max(seen, len(os.listdir(f"/proc/{program.pid}/task")))
                except FileNotFoundError:
                    pass
                if time.monotonic() - began > 60 * MINUTES:
                    program.kill()
                    return None, seen, 60 * MINUTES
                time.sleep(0.001)
            return program.returncode, seen, time.monotonic() - began


def main():
    if len(sys.argv) not in (2, 3):
        sys.exit(__doc__)
    commands = int(sys.argv[2]) if len(sys.argv) == 3 else 2000
    root = os.getuid() == 0
    nobody = pwd.getpwnam("nobody")
    user = nobody.pw_uid if root else os.getuid()
    became = {"user": nobody.pw_uid, "group": nobody.pw_gid, "extra_groups": []} if root else {}
    with tempfile.TemporaryDirectory() as folder:
        os.chmod(folder, 0o755)
        program = shutil.copy(sys.argv[1], os.path.join(folder, "program"))
        os.chmod(program, 0o755)
        source, sink = (os.path.join(folder, name) for name in ("trace", "report"))
        for shards in SHARDS:
            trace = trace_of(commands, shards)
            with open(source, "w", encoding="ascii") as file:
                file.writelines(f"{word} {key} {value}\n" if word == "put" else f"{word} {key}\n" for word, key, value in trace)
            for threads in sorted({0, 1, min(3, shards - 1), shards - 1} & set(range(shards))):
                limit = processes_of(user) + 1 + threads
                words = ["prlimit", f"--nproc={limit}:{limit}", program, "run", "--shards", str(shards)]
                status, seen, seconds = run(words, source, sink, became)
                if status is None:
                    sys.exit(f"{shards} shards, room for {threads} threads more: no end within {MINUTES} minutes")
                with open(sink, "rb") as file:
                    wrong = f"status {status}" if status != 0 else judge(file.read(), trace, shards)
                if seen > 1 + threads:
                    wrong = f"{seen} threads were seen: the limit does not bind"
                if wrong:
                    sys.exit(f"{shards} shards, room for {threads} threads more: {wrong}")
                print(f"{shards} shards, room for {threads} threads more, at most {seen} at once seen: "
                      f"{commands} commands reported after {seconds:.2f} s", flush=True)


main()
