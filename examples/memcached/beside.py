#!/usr/bin/python3
"""Times the server beside Debian's memcached with as many threads, and prints a table: commands a second, the slowest hundredth, and the
processor time that the server takes for a command.

    ./beside.py [-r ROUNDS] [-s SECONDS] [--write]

The servers are asked in turn, ROUNDS times (default 3), for SECONDS each time (default 5): single commands of 32 connections, sixteen at
once of 32 connections, and memcaslap (libmemcached-tools), which has values of 1 KB. The round counts in which a server took the least
processor time. memcaslap tells in powers of two how long commands take. With --write the table is put into README.md, between the marks
that stand there: over the library itself, never over the fake, and with no other work on the machine.
"""
import argparse
import re
import shutil
import subprocess
import sys

from servers import HERE, OUT, SERVER, is_over_the_fake, memcached, ours, processor_seconds, put_table, table

PORT, BESIDE = 22303, 22304
LOAD = f"{HERE}/{OUT}/plain/load"
CONNECTIONS = "32"


def ran(*words):
    told = subprocess.run(words, capture_output=True, text=True, timeout=300)
    if told.returncode:
        sys.exit(f"{' '.join(words)}: {told.stderr}")
    return told.stdout


def asked(port, depth, seconds):
    told = ran(LOAD, str(port), CONNECTIONS, str(depth), str(seconds)).split()
    return int(told[1]), float(told[told.index("second") + 1]), f"{float(told[-1]):,.0f}"


def slowest(told):
    """Below how many microseconds all commands but a hundredth were answered, by memcaslap's table of powers of two, where it has one."""
    found = re.search(r"Total Statistics \((\d+) events\)(.*)", told, re.S)
    if not found:
        return ""
    events, rest = found.groups()
    counted = 0
    for first, counts in re.findall(r"^ +(\d+): +([\d ]+)$", rest, re.M):
        for at, count in enumerate(counts.split()):
            counted += int(count)
            if counted * 100 >= int(events) * 99:
                return f"{2 ** (int(first) + at + 1):,}"
    return ""


def memcaslap(port, seconds):
    told = ran("memcaslap", "-s", f"127.0.0.1:{port}", "-T", "2", "-c", "32", "-t", f"{seconds}s", "-S", f"{seconds}s")
    gets, sets = (int(re.search(rf"^{name}: (\d+)", told, re.M)[1]) for name in ("cmd_get", "cmd_set"))
    if gets == 0:
        sys.exit(told)
    rate = float(re.search(r"TPS: (\d+)", told)[1])
    return gets + sets, rate, slowest(told)


WORKS = {
    "single": lambda port, seconds: asked(port, 1, seconds),
    "sixteen at once": lambda port, seconds: asked(port, 16, seconds),
    "memcaslap": memcaslap,
}


def measured(server, port, work, threads, seconds):
    """Commands a second, the slowest hundredth, and the processor's microseconds a command."""
    with server(port, threads) as process:
        ran(LOAD, str(port))
        before = processor_seconds(process)
        commands, rate, slow = WORKS[work](port, seconds)
        return rate, slow, (processor_seconds(process) - before) * 1e6 / commands


def row(work, threads, rounds, seconds):
    runs = {ours: [], memcached: []}
    for _ in range(rounds):
        for server, port in ((ours, PORT), (memcached, BESIDE)):
            runs[server].append(measured(server, port, work, threads, seconds))
    mine, other = (min(runs[server], key=lambda run: run[2]) for server in (ours, memcached))
    rates, slow, times = zip(mine, other)
    return [f"{threads}, {work}", *[f"{it:,.0f}" for it in rates], *slow, *[f"{it:.2f}" for it in times], f"{times[0] / times[1]:.2f}"]


HEAD = ["Threads, commands", "a second: ours", "memcached", "slowest hundredth, us: ours", "memcached"]
HEAD += ["processor us a command: ours", "memcached", "ratio"]


def main():
    words = argparse.ArgumentParser(description=__doc__, formatter_class=argparse.RawDescriptionHelpFormatter)
    words.add_argument("-r", dest="rounds", type=int, default=3)
    words.add_argument("-s", dest="seconds", type=int, default=5)
    words.add_argument("--write", action="store_true")
    told = words.parse_args()
    if not shutil.which("memcached"):
        sys.exit("memcached is not installed")
    if told.write and is_over_the_fake(SERVER):
        sys.exit("the server is built over the fake of the library: no figure of it is written down")
    works = [work for work in WORKS if work != "memcaslap" or shutil.which("memcaslap")]
    lines = table(HEAD, [row(work, threads, told.rounds, told.seconds) for threads in (1, 2, 4) for work in works])
    print(lines)
    if told.write:
        put_table(f"{HERE}/README.md", "examples/memcached/beside.py", lines)


if __name__ == "__main__":
    main()
