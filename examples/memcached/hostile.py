#!/usr/bin/python3
"""Tries the server with clients that do harm: what is too long, half of something, a gigabyte, hang-ups, and bytes drawn at random.

    ./hostile.py [--bytes N]     the value that is announced and sent has so many bytes (default 2 to the power of 30)

After each the server still answers, and its memory is as it was.
"""
import argparse
import random
import socket
import struct
import threading

from servers import Client, expect, ours, resident_mb

PORT = 22302
VALUE = 11_984

# A dialog with all commands, which has one answer however it is cut.
DIALOG = (
    b"set a 7 0 3\r\nabc\r\nget a none\r\nadd a 0 0 1\r\nx\r\nadd b 0 0 1\r\n5\r\nreplace b 1 0 2\r\n10\r\nincr b 5\r\ndecr b 20\r\n"
    b"append a 0 0 2\r\nde\r\nprepend a 0 0 1\r\n-\r\ngat 100 a b\r\ntouch a 0\r\ntouch none 0\r\ndelete b\r\ndelete b\r\n"
    b"set c 0 0 2 noreply\r\nno\r\nget c\r\nset d 0 0 x\r\nset e 0 0 1\r\ntoo long\r\nbogus\r\nget\r\nverbosity 1\r\n"
    b"incr a 1\r\nincr a x\r\nversion\r\nquit\r\n"
)


def answered():
    client = Client(PORT)
    expect(client.ask(b"set alive 0 0 3\r\nyes\r\n") == b"STORED\r\n", "it stores")
    expect(client.ask(b"get alive\r\n", b"END\r\n") == b"VALUE alive 0 3\r\nyes\r\nEND\r\n", "it answers")
    client.close()


def whole_answer(pieces):
    client = Client(PORT)
    client.ask(b"flush_all\r\n")
    for piece in pieces:
        client.send(piece)
    answer = client.answer(b"never")
    client.close()
    return answer


def cut_anywhere():
    once = whole_answer([DIALOG])
    expect(once.count(b"\r\n") > 30, once)
    expect(whole_answer([bytes([byte]) for byte in DIALOG]) == once, "byte by byte")
    for at in range(1, len(DIALOG), 7):
        expect(whole_answer([DIALOG[:at], DIALOG[at:]]) == once, f"cut at {at}")


def too_long():
    client = Client(PORT)
    expect(client.ask(b"get " + b"k" * 251 + b"\r\n") == b"CLIENT_ERROR bad command line format\r\n", "a key to get")
    expect(client.ask(b"set " + b"k" * 251 + b" 0 0 1\r\n") == b"CLIENT_ERROR bad command line format\r\n", "a key to set")
    expect(client.ask(b"x\r\n") == b"ERROR\r\n", "and its value, which is taken for a command")
    expect(client.ask(b"set big 0 0 %d\r\n" % VALUE + b"v" * VALUE + b"\r\n") == b"STORED\r\n", "the longest value")
    refused = client.ask(b"set big 0 0 %d\r\n" % (VALUE + 1) + b"v" * (VALUE + 1) + b"\r\n")
    expect(refused.startswith(b"SERVER_ERROR object too large"), "one more")
    expect(client.ask(b"get big\r\n", b"END\r\n") == b"END\r\n", "the old value went")
    refused = client.ask(b"append alive 0 0 %d\r\n" % VALUE + b"v" * VALUE + b"\r\n")
    expect(refused.startswith(b"SERVER_ERROR object too large"), "appended")
    expect(client.ask(b"set big 0 0 -1\r\n") == b"CLIENT_ERROR bad command line format\r\n", "a length below 0")
    expect(client.ask(b"set big 0 0 2147483646\r\n") == b"CLIENT_ERROR bad data chunk\r\n", "a length of 2 GiB")
    expect(client.ask(b"y" * 100_000) == b"CLIENT_ERROR line too long\r\n", "a line without an end")
    expect(client.ask(b"y" * 100_000 + b"\r\nverbosity 1\r\n") == b"OK\r\n", "which ends at last")
    line = b"get " + b" ".join(b"key:%d" % i for i in range(20_000)) + b"\r\n"
    expect(client.ask(line, b"END\r\n") == b"END\r\n", "20,000 keys in a line")
    client.close()
    client = Client(PORT)
    expect(client.ask(b"\x80\x0a" + b"\0" * 22, b"never") == b"", "the binary protocol: it hangs up")
    client.close()


def gigabyte(count, server):
    before = resident_mb(server)
    client = Client(PORT, 600)
    client.send(b"set big 0 0 %d\r\n" % count)
    piece = b"v" * (1 << 20)
    for _ in range(count >> 20):
        client.send(piece)
    client.send(b"\r\n" + b"v" * (count & (1 << 20) - 1))
    expect(client.answer(b"\r\n").startswith(b"SERVER_ERROR object too large"), "it is refused")
    expect(client.ask(b"version\r\n").startswith(b"VERSION"), "and the connection goes on")
    client.close()
    expect(resident_mb(server) < before + 8, "its memory does not grow")


def hang_ups():
    for text in (b"se", b"set a 0 0 10\r\n", b"set a 0 0 10\r\nhalf", b"get a", b"get a b c", b"set a 0 0 3 noreply\r\nabc\r\nget a\r\n"):
        for resets in (False, True):
            client = Client(PORT)
            if resets:
                client.socket.setsockopt(socket.SOL_SOCKET, socket.SO_LINGER, struct.pack("ii", 1, 0))
            client.send(text * 50)
            client.close()
    # Who sends no more, and reads what is answered.
    client = Client(PORT)
    client.send(b"set a 0 0 3\r\nabc\r\n" + b"get a\r\n" * 1000)
    client.socket.shutdown(socket.SHUT_WR)
    answer = client.answer(b"never")
    expect(answer == b"STORED\r\n" + b"VALUE a 0 3\r\nabc\r\nEND\r\n" * 1000, "all that was asked is answered")
    client.close()


def slow_reader():
    client = Client(PORT, 120)
    client.ask(b"set big 0 0 10000\r\n" + b"v" * 10_000 + b"\r\n")
    asked = 5_000
    sender = threading.Thread(target=client.send, args=(b"get big\r\n" * asked,))
    sender.start()
    left = asked * len(b"VALUE big 0 10000\r\nEND\r\n\r\n" + b"v" * 10_000)
    while left:
        piece = client.socket.recv(65536)
        expect(piece, "it goes on")
        left -= len(piece)
    sender.join()
    client.close()


def many_connections():
    clients = [Client(PORT) for _ in range(2_000)]
    for client in clients:
        client.send(b"get alive\r\n")
    for client in clients:
        expect(client.answer(b"END\r\n").endswith(b"END\r\n"), "each is answered")
    for client in clients:
        client.close()


def drawn_at_random():
    draw = random.Random(57)
    words = DIALOG.split(b"\r\n") + [b"", b"\n", b"\r", b" ", b"get a\r\n", b"0", b"4294967296", b"-1", b"noreply", b"\0\xff"]
    for _ in range(300):
        text = b"".join(draw.choice(words) + draw.choice([b"\r\n", b"\r\n", b" ", b"\n", b""]) for _ in range(draw.randrange(1, 40)))
        if draw.random() < 0.3:
            text = bytes(draw.randrange(256) if draw.random() < 0.02 else byte for byte in text)
        client = Client(PORT)
        client.send(text + b"\r\nquit\r\n")
        client.socket.shutdown(socket.SHUT_WR)
        client.answer(b"never")
        client.close()


def main():
    words = argparse.ArgumentParser(description=__doc__, formatter_class=argparse.RawDescriptionHelpFormatter)
    words.add_argument("--bytes", type=int, default=1 << 30)
    told = words.parse_args()
    for threads in (1, 2):
        with ours(PORT, threads) as server:
            answered()
            for attack in (cut_anywhere, too_long, hang_ups, slow_reader, many_connections, drawn_at_random):
                attack()
                answered()
                print(f"{threads} {attack.__name__}", flush=True)
            gigabyte(told.bytes, server)
            answered()
    print("each was answered or refused, and the server went on")


if __name__ == "__main__":
    main()
