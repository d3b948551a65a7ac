#!/usr/bin/python3
"""Tries the server with clients that others wrote, Debian's: memccapable and memcaslap (libmemcached-tools), python3-pymemcache and
python3-pylibmc. Prints a table of what passed; one that is not installed is told as such.

    ./clients.py [--write]

With --write the table is put into README.md, between the marks that stand there: over the library itself, never over the fake.
"""
import importlib.util
import re
import shutil
import subprocess
import sys

from servers import HERE, SERVER, expect, is_over_the_fake, ours, put_table, table

PORT = 22301
# The longest key and the longest value.
KEY, VALUE = "k" * 250, b"v" * 11_984


def memccapable():
    ran = subprocess.run(["memccapable", "-h", "127.0.0.1", "-p", str(PORT), "-a"], capture_output=True, text=True, timeout=300)
    told = ran.stdout + ran.stderr
    passed, failed = told.count("[pass]"), len(re.findall(r"\[(?:FAIL|fail)\]", told))
    expect(failed == 0 and passed > 0, told)
    return f"`memccapable -a`: {passed} of {passed + failed}"


def memcaslap():
    # It ends with 0 where nobody listens, too: what counts is that it tells of gets.
    words = ["memcaslap", "-s", f"127.0.0.1:{PORT}", "-T", "2", "-c", "16", "-x", "50000"]
    told = subprocess.run(words, capture_output=True, text=True, timeout=300).stdout
    gets, misses = (int(re.search(rf"^{name}: (\d+)", told, re.M)[1]) for name in ("cmd_get", "get_misses"))
    expect(gets > 0 and misses == 0, told)
    return f"`memcaslap -T 2 -c 16 -x 50000`: {gets:,} gets, none missed"


def pymemcache():
    from pymemcache.client.base import Client
    from pymemcache.exceptions import MemcacheServerError

    client = Client(("127.0.0.1", PORT), timeout=60)
    client.flush_all()
    expect(client.set("a", b"1") and client.get("a") == b"1", "set and get")
    expect(client.set(KEY, VALUE, noreply=False) and client.get(KEY) == VALUE, "the longest row")
    expect(client.add("a", b"2", noreply=False) is False and client.add("b", b"2", noreply=False), "add")
    expect(client.replace("b", b"3", noreply=False) and client.replace("c", b"3", noreply=False) is False, "replace")
    expect(client.append("b", b"4", noreply=False) and client.prepend("b", b"5", noreply=False) and client.get("b") == b"534", "append")
    value, number = client.gets("a")
    expect(client.cas("a", b"6", number) and client.cas("a", b"7", number) is False and client.get("a") == b"6", "cas")
    expect(client.incr("a", 4) == 10 and client.decr("a", 99) == 0 and client.incr("none", 1) is None, "incr and decr")
    expect(client.touch("a", 100, noreply=False) and client.touch("none", 1, noreply=False) is False, "touch")
    many = {f"key {i}".replace(" ", ":"): b"%d" % i for i in range(3000)}
    expect(client.set_many(many, noreply=False) == [] and client.get_many(list(many)) == many, "3,000 keys in one line")
    expect(client.delete("a", noreply=False) and client.get("a") is None and client.delete("a", noreply=False) is False, "delete")
    client.set("gone", b"x", expire=-1)
    expect(client.get("gone") is None, "a row that has expired")
    try:
        client.set("a", VALUE + b"v", noreply=False)
        expect(False, "a value that is too long is refused")
    except MemcacheServerError:
        pass
    expect(client.get("b") == b"534" and client.version().startswith(b"1."), "the connection goes on")
    expect(client.stats()[b"threads"] in (2, b"2"), "stats")
    client.flush_all(noreply=False)
    expect(client.get("b") is None, "flush_all")
    client.quit()
    return "python3-pymemcache: storing, getting (3,000 keys in one line), cas, counting, `touch`, `delete`, `flush_all`, `stats`"


def pylibmc():
    import pylibmc as module

    client = module.Client([f"127.0.0.1:{PORT}"], binary=False, behaviors={"cas": True})
    expect(client.flush_all(), "flush_all")
    expect(client.set("a", 1) and client.get("a") == 1 and client.incr("a", 5) == 6 and client.decr("a", 1) == 5, "numbers")
    expect(client.set(KEY, VALUE) and client.get(KEY) == VALUE, "the longest row")
    expect(client.add("a", 2) is False and client.replace("a", 3) and client.replace("none", 3) is False, "add and replace")
    expect(client.set("t", "x") and client.append("t", "y") and client.prepend("t", "z") and client.get("t") == "zxy", "append")
    value, number = client.gets("a")
    expect(client.cas("a", 7, number) and client.cas("a", 8, number) is False, "cas")
    many = {f"many:{i}": "x" * (i % 100) for i in range(3000)}
    expect(client.set_multi(many) == [] and client.get_multi(list(many)) == many, "3,000 keys at once")
    expect(client.delete("a") and client.get("a") is None and client.delete("a") is False, "delete")
    expect(client.touch("t", 100) and client.get_stats(), "touch and stats")
    try:
        client.set("t", VALUE + b"v")
        expect(False, "a value that is too long is refused")
    except module.Error:
        pass
    expect(client.get("t") is None, "the value before it went")
    return "python3-pylibmc: storing, getting (3,000 keys at once), cas, counting, `touch`, `delete`, `flush_all`, `stats`"


# What each is, and whether it is here.
CLIENTS = [
    (memccapable, lambda: shutil.which("memccapable")),
    (memcaslap, lambda: shutil.which("memcaslap")),
    (pymemcache, lambda: importlib.util.find_spec("pymemcache")),
    (pylibmc, lambda: importlib.util.find_spec("pylibmc")),
]


def main():
    if sys.argv[1:] not in ([], ["--write"]):
        sys.exit(__doc__)
    is_written = "--write" in sys.argv
    if is_written and is_over_the_fake(SERVER):
        sys.exit("the server is built over the fake of the library: no figure of it is written down")
    with ours(PORT):
        told = [client() if is_here() else f"{client.__name__}: not installed" for client, is_here in CLIENTS]
    lines = table(["What passes"], [[line] for line in told])
    print(lines)
    if is_written:
        put_table(f"{HERE}/README.md", "examples/memcached/clients.py", lines)


if __name__ == "__main__":
    main()
