#!/usr/bin/env python3
"""Plays clients of `tsqld listen` that go away, wait, hurry or never read, and looks whether the others go on and whether a lock
stays behind. Prints a line for each part, and ends with 1 where one fails.

    tools/listen.py [--program P] [--port N]

P is the program of these sources where it isn't given; the port is 14341. The parts stand on their own, on one server with 8 workers."""
import argparse
import os
import socket
import struct
import subprocess
import sys
import threading
import time

import dist

TOP = os.path.dirname(os.path.dirname(os.path.abspath(__file__)))
HEADERS = bytes.fromhex("16000000120000000200000000000000000001000000")
NAME = "sa".encode("utf-16-le") + bytes([0xB1, 0xA5])
PATIENCE = 60


def packet(kind, payload):
    return struct.pack(">BBHHBB", kind, 1, len(payload) + 8, 0, 1, 0) + payload


def login7():
    fixed = struct.pack("<IIIIII", 94 + len(NAME), 0x74000004, 4096, 0, 0, 0) + bytes(12)
    fields = struct.pack("<HHHHHH", 94, 0, 94, 2, 98, 1) + struct.pack("<HH", 100, 0) * 6
    return (fixed + fields).ljust(94, b"\0") + NAME


def batch(text):
    return packet(0x01, HEADERS + text.encode("utf-16-le"))


class Client:
    """A connection that has logged in."""

    def __init__(self, port):
        self.socket = socket.create_connection(("127.0.0.1", port), timeout=PATIENCE)
        self.socket.sendall(packet(0x10, login7()))
        self.reply()

    def take(self, length):
        taken = b""
        while len(taken) < length:
            more = self.socket.recv(length - len(taken))
            if not more:
                raise ConnectionError("the server has gone")
            taken += more
        return taken

    def reply(self):
        payload, last = b"", 0
        while not last & 1:
            header = self.take(8)
            last = header[1]
            payload += self.take(struct.unpack(">H", header[2:4])[0] - 8)
        return payload

    def ask(self, text):
        self.socket.sendall(batch(text))
        return self.reply()

    def close(self):
        self.socket.close()


def errors(reply):
    """The numbers of the errors of this class that a reply holds: each token begins with AA and has its number behind a length."""
    known = (1205, 1222, 2627, 3902, 102)
    return [n for n in known if any(reply[i : i + 1] == b"\xAA" and reply[i + 3 : i + 7] == struct.pack("<i", n) for i in range(len(reply)))]


def number(reply):
    """The value of the last row of one BIGINT or INT."""
    at = reply.rindex(b"\xD1")
    length = reply[at + 1]
    return int.from_bytes(reply[at + 2 : at + 2 + length], "little", signed=True) if length else None


def transfers(port):
    """Four clients at once; who falls or is refused begins again. The sum stands."""
    first = Client(port)
    first.ask("CREATE TABLE a (k INT NOT NULL PRIMARY KEY, v INT NOT NULL)")
    first.ask("INSERT INTO a VALUES " + ", ".join(f"({k}, 100)" for k in range(1, 11)))
    fallen = []

    def work(w):
        client = Client(port)
        done = turn = 0
        while done < 10:
            x, y = 1 + (3 * turn + w) % 10, 1 + (7 * turn + 5 * w + 1) % 10
            turn += 1
            reply = client.ask(f"BEGIN TRAN; UPDATE a SET v = v - 1 WHERE k = {x}; UPDATE a SET v = v + 1 WHERE k = {y}; COMMIT")
            if 1205 in errors(reply):
                fallen.append(w)
            else:
                done += 1
        client.close()

    threads = [threading.Thread(target=work, args=(w,)) for w in range(4)]
    [t.start() for t in threads]
    [t.join(PATIENCE) for t in threads]
    total = number(first.ask("SELECT SUM(v) FROM a"))
    first.close()
    return total == 1000 and not any(t.is_alive() for t in threads), f"the sum is {total}; {len(fallen)} fell"


def deadlock(port):
    """Two connections that wait for one another: one of them gets 1205, and the other goes on."""
    one, two = Client(port), Client(port)
    one.ask("CREATE TABLE d (k INT NOT NULL PRIMARY KEY, v INT NOT NULL)")
    one.ask("CREATE TABLE e (k INT NOT NULL PRIMARY KEY, v INT NOT NULL)")
    one.ask("BEGIN TRAN; INSERT INTO d VALUES (1, 1)")
    two.ask("BEGIN TRAN; INSERT INTO e VALUES (1, 1)")
    one.socket.sendall(batch("INSERT INTO e VALUES (1, 2)"))
    time.sleep(0.5)
    second = errors(two.ask("INSERT INTO d VALUES (1, 2)"))
    first = errors(one.reply())
    [c.ask("IF @@TRANCOUNT > 0 ROLLBACK") for c in (one, two)]
    [c.close() for c in (one, two)]
    return (first + second).count(1205) == 1, f"the first gets {first}, the second {second}"


def refuses(port):
    """With LOCK_TIMEOUT 0 a lock in the way is error 1222."""
    one, two = Client(port), Client(port)
    one.ask("CREATE TABLE r (k INT NOT NULL PRIMARY KEY)")
    one.ask("BEGIN TRAN; INSERT INTO r VALUES (1)")
    given = errors(two.ask("SET LOCK_TIMEOUT 0; SELECT k FROM r"))
    one.ask("ROLLBACK")
    [c.close() for c in (one, two)]
    return given == [1222], f"{given}"


def killed(port):
    """Connections that end in the middle of a message, of a transaction, and while they wait: no lock stays behind."""
    keeper = Client(port)
    keeper.ask("CREATE TABLE k (k INT NOT NULL PRIMARY KEY, v INT NOT NULL)")
    keeper.ask("INSERT INTO k VALUES (1, 0)")
    half = Client(port)
    half.socket.sendall(batch("SELECT 1")[:20])
    half.close()
    inside = Client(port)
    inside.ask("BEGIN TRAN; UPDATE k SET v = 7 WHERE k = 1")
    inside.close()
    keeper.ask("BEGIN TRAN; UPDATE k SET v = v + 1 WHERE k = 1")
    waits = Client(port)
    waits.socket.sendall(batch("BEGIN TRAN; UPDATE k SET v = 9 WHERE k = 1"))
    time.sleep(0.5)
    waits.socket.setsockopt(socket.SOL_SOCKET, socket.SO_LINGER, struct.pack("ii", 1, 0))
    waits.close()
    keeper.ask("COMMIT")
    given = number(keeper.ask("SET LOCK_TIMEOUT -1; SELECT v FROM k"))
    keeper.close()
    return given == 1, f"v is {given}"


def slow(port):
    """A client that sends a byte at a time, and one that never reads: others go on meanwhile."""
    lazy = Client(port)
    deaf = Client(port)
    deaf.ask("CREATE TABLE s (k INT NOT NULL PRIMARY KEY, v NVARCHAR(2000) NOT NULL)")
    deaf.ask("INSERT INTO s VALUES " + ", ".join(f"({k}, N'{'x' * 500}')" for k in range(50)))

    def flood():
        try:
            for _ in range(200):
                deaf.socket.sendall(batch("SELECT k, v FROM s; SELECT k, v FROM s"))
        except OSError:
            pass

    threading.Thread(target=flood, daemon=True).start()
    bytes_left = batch("SELECT 1")
    other = Client(port)
    for at in range(len(bytes_left)):
        lazy.socket.sendall(bytes_left[at : at + 1])
        if number(other.ask("SELECT 2")) != 2:
            return False, "another was not answered"
    given = number(lazy.reply())
    deaf.socket.setsockopt(socket.SOL_SOCKET, socket.SO_LINGER, struct.pack("ii", 1, 0))
    [c.close() for c in (lazy, deaf, other)]
    return given == 1, "others were answered beside them"


def many(port, pid):
    """Connections one after another: no descriptor is lost."""
    count = lambda: len(os.listdir(f"/proc/{pid}/fd"))
    before = count()
    for _ in range(1000):
        Client(port).close()
    time.sleep(1)
    after = count()
    return after <= before + 16, f"{before} descriptors before, {after} after 1,000 connections"


def main():
    asked = argparse.ArgumentParser(description=__doc__.split("\n")[0])
    asked.add_argument("--program", default=dist.current() or dist.BUILT, nargs="+")
    asked.add_argument("--port", type=int, default=14341)
    given = asked.parse_args()
    program = given.program if isinstance(given.program, list) else [given.program]
    server = subprocess.Popen([*program, "listen", "--port", str(given.port), "--workers", "8"])
    failed = 0
    try:
        for _ in range(200):
            try:
                socket.create_connection(("127.0.0.1", given.port)).close()
                break
            except OSError:
                time.sleep(0.05)
        parts = [transfers, deadlock, refuses, killed, slow, lambda port: many(port, server.pid)]
        names = ["transfers", "deadlock", "LOCK_TIMEOUT 0", "killed", "slow and deaf", "one after another"]
        for name, part in zip(names, parts):
            try:
                right, said = part(given.port)
            except (OSError, ValueError) as fault:
                right, said = False, repr(fault)
            failed += not right
            print(f"{'right' if right else 'WRONG'}  {name}: {said}", flush=True)
    finally:
        server.kill()
    sys.exit(failed > 0)


if __name__ == "__main__":
    main()
