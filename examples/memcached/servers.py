"""The servers that the scripts here start, and stop again."""
import contextlib
import os
import socket
import subprocess
import sys
import time

HERE = os.path.dirname(os.path.realpath(__file__))
sys.path.insert(0, os.path.dirname(HERE))
from tables import is_over_the_fake, put_table, table  # noqa: E402, F401

# Where the programs are that the Makefile built, and which of the servers is tried: plain, asan or tsan.
OUT = os.environ.get("OUT", "out")
SERVER = f"{HERE}/{OUT}/{os.environ.get('HOW', 'plain')}/server"


def expect(fact, what):
    if not fact:
        raise SystemExit(f"not so: {what}")


def wait_until_it_listens(port, process):
    for _ in range(600):
        with contextlib.suppress(OSError), socket.create_connection(("127.0.0.1", port), 1):
            return
        if process.poll() is not None:
            raise SystemExit(f"a server on port {port} ended with {process.returncode}")
        time.sleep(0.1)
    raise SystemExit(f"nobody listens on port {port}")


@contextlib.contextmanager
def started(port, *command, ends_with=(0, -15)):
    """A process that listens on a port. It is told to stop at the end, and has to end with one of these."""
    process = subprocess.Popen([*command])
    try:
        wait_until_it_listens(port, process)
        yield process
        process.terminate()
        status = process.wait(60)
        if status not in ends_with:
            raise SystemExit(f"{command[0]} ended with {status}")
    finally:
        if process.poll() is None:
            process.kill()
            process.wait()


def ours(port, threads=2, mebibytes=64):
    return started(port, SERVER, "-p", str(port), "-t", str(threads), "-m", str(mebibytes), ends_with=(0,))


def memcached(port, threads=2, mebibytes=64):
    words = ["-u", "nobody"] if os.geteuid() == 0 else []
    return started(port, "memcached", "-l", "127.0.0.1", "-p", str(port), "-t", str(threads), "-m", str(mebibytes), *words)


def processor_seconds(process):
    """What a process took of the processors so far."""
    with open(f"/proc/{process.pid}/stat", encoding="utf-8") as file:
        told = file.read().rsplit(")", 1)[1].split()
    return (int(told[11]) + int(told[12])) / os.sysconf("SC_CLK_TCK")


def resident_mb(process):
    with open(f"/proc/{process.pid}/statm", encoding="utf-8") as file:
        return int(file.read().split()[1]) * os.sysconf("SC_PAGESIZE") / 1e6


class Client:
    """A connection over which bytes are sent as they are."""

    def __init__(self, port, timeout=20):
        self.socket = socket.create_connection(("127.0.0.1", port), timeout)

    def send(self, text):
        self.socket.sendall(text)

    def answer(self, end, error=None):
        """What comes until it ends so, or it is a line that begins with this, or the server hangs up."""
        text = b""
        while not text.endswith(end) and not (error and text.startswith(error) and text.endswith(b"\r\n")):
            piece = self.socket.recv(65536)
            if not piece:
                break
            text += piece
        return text

    def ask(self, text, end=b"\r\n"):
        self.send(text)
        return self.answer(end)

    def close(self):
        self.socket.close()
