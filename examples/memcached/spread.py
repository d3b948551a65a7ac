#!/usr/bin/python3
"""Three servers behind Debian's nutcracker (nutcracker.yml): keys are spread over them, and a client goes on while one of them is stopped
and started again.

    ./spread.py
"""
import contextlib
import shutil
import sys
import tempfile
import time

from servers import HERE, Client, expect, ours, started

PROXY, STATISTICS = 22121, 22222
PORTS = [22201, 22202, 22203]
KEYS = [f"key:{number}".encode() for number in range(1_200)]
# The proxy tries a server that was left out again after two seconds.
WAIT = 2.5


class Servers:
    """The three, each of which can be stopped and started by itself."""

    def __init__(self):
        self.stacks = {}

    def start(self, port):
        self.stacks[port] = contextlib.ExitStack()
        self.stacks[port].enter_context(ours(port, mebibytes=16))

    def stop(self, port):
        self.stacks.pop(port).close()

    def stop_all(self):
        for port in list(self.stacks):
            self.stop(port)


class Reader:
    """A client of the proxy that reads each key, and stores what it does not find."""

    def __init__(self):
        self.client = Client(PROXY)
        self.errors = self.late = 0

    def ask(self, text, end):
        """The answer, or None where it is an error."""
        self.client.send(text)
        answer = self.client.answer(end, b"SERVER_ERROR")
        if answer.startswith(b"SERVER_ERROR"):
            self.errors += 1
            self.late += b"timed out" in answer
            return None
        return answer

    def read(self, key):
        """Whether the key was there."""
        value = b"value of " + key
        answer = self.ask(b"get %s\r\n" % key, b"END\r\n")
        if answer and answer != b"END\r\n":
            expect(answer == b"VALUE %s 0 %d\r\n%s\r\nEND\r\n" % (key, len(value), value), "the value is that of the key")
            return True
        answer = self.ask(b"set %s 0 0 %d\r\n%s\r\n" % (key, len(value), value), b"\r\n")
        expect(answer in (None, b"STORED\r\n"), answer)
        return False

    def pass_over_all(self):
        """Of how many keys the value was there, and how many commands were errors."""
        errors = self.errors
        return sum(self.read(key) for key in KEYS), self.errors - errors

    def pass_until_all_are_found(self):
        """Until each key is found, but for those whose get was an error."""
        for _ in range(20):
            found, errors = self.pass_over_all()
            if found + errors >= len(KEYS):
                return
        raise SystemExit("not so: all keys are found again")


def rows(port):
    client = Client(port)
    told = client.ask(b"stats\r\n", b"END\r\n").split(b"\r\n")
    client.close()
    return int(next(line for line in told if line.startswith(b"STAT curr_items ")).split()[2])


def try_them(servers):
    reader = Reader()
    reader.pass_over_all()
    reader.pass_until_all_are_found()
    spread = [rows(port) for port in PORTS]
    print(f"rows of each server: {spread}", flush=True)
    expect(min(spread) > len(KEYS) // 6, "the keys are spread over all three")

    servers.stop(PORTS[1])
    found, errors = reader.pass_over_all()
    print(f"one is stopped: {found} keys are found, {errors} commands are errors, the other keys are stored again", flush=True)
    # Who does not answer in time is left out, too: that is so on a busy machine alone.
    expect(found + errors >= len(KEYS) - spread[1] or reader.late, "the keys of the others are found")
    reader.pass_until_all_are_found()

    servers.start(PORTS[1])
    time.sleep(WAIT)
    found, errors = reader.pass_over_all()
    print(f"it is started again, and empty: {found} keys are found, {errors} commands are errors", flush=True)
    reader.pass_until_all_are_found()
    expect(rows(PORTS[1]) == spread[1] or reader.late, "it has the keys that it had")
    print(f"{reader.errors} of the commands were errors, {reader.late} of them since a server did not answer in time")
    reader.client.close()


def main():
    if sys.argv[1:]:
        sys.exit(__doc__)
    if not shutil.which("nutcracker"):
        print("nutcracker: not installed")
        return
    with contextlib.ExitStack() as stack, tempfile.NamedTemporaryFile("w+") as log:
        servers = Servers()
        stack.callback(servers.stop_all)
        for port in PORTS:
            servers.start(port)
        words = ["-c", f"{HERE}/nutcracker.yml", "-a", "127.0.0.1", "-s", str(STATISTICS), "-o", log.name]
        with started(PROXY, "nutcracker", *words, ends_with=(0, 1, -15)):
            try_them(servers)
    print("the client went on")


if __name__ == "__main__":
    main()
