#!/usr/bin/env python3
"""Fails each allocation of a conversation in turn, under the built program, by a malloc that is loaded before it.

    tools/no_memory.py PROGRAM [--jobs N]

PROGRAM is the built tsqld. Each batch has one statement. What is told of one that got no memory, 701, must be all that
comes of it: each reply behind it must be, byte by byte, what a server with memory gives to the same conversation without
that statement (under XACT_ABORT: with ROLLBACK in its place), up to the last two, which show the tables. What a called
procedure has done stays where the call finds no memory at its end. A program that ends must end with status 6, behind a
front of the replies. It wants `cc`, prints how often each came, and ends with 1 at anything else.
"""
import argparse
import os
import subprocess
import sys
import tempfile
from collections import Counter
from concurrent.futures import ThreadPoolExecutor

from rows import batch

MALLOC = r"""
#define _GNU_SOURCE
#include <dlfcn.h>
#include <errno.h>
#include <stdio.h>
#include <stdlib.h>
#include <unistd.h>

static long calls, failing = -1;
static void *(*next_malloc)(size_t), *(*next_realloc)(void *, size_t), *(*next_aligned)(size_t, size_t);
static int (*next_memalign)(void **, size_t, size_t);

static int fails(void) {
    if (!next_malloc) {
        const char *number = getenv("FAIL_ALLOC");
        next_malloc = dlsym(RTLD_NEXT, "malloc");
        next_realloc = dlsym(RTLD_NEXT, "realloc");
        next_aligned = dlsym(RTLD_NEXT, "aligned_alloc");
        next_memalign = dlsym(RTLD_NEXT, "posix_memalign");
        failing = number ? atol(number) : -1;
    }
    if (++calls != failing) return 0;
    errno = ENOMEM;
    return 1;
}

void *malloc(size_t size) { return fails() ? 0 : next_malloc(size); }
void *realloc(void *old, size_t size) { return fails() ? 0 : next_realloc(old, size); }
void *aligned_alloc(size_t by, size_t size) { return fails() ? 0 : next_aligned(by, size); }
int posix_memalign(void **out, size_t by, size_t size) { return fails() ? ENOMEM : next_memalign(out, by, size); }

void _exit(int status) {
    if (getenv("COUNT_ALLOC")) dprintf(2, "%ld\n", calls);
    ((void (*)(int))dlsym(RTLD_NEXT, "_exit"))(status);
    __builtin_unreachable();
}
"""

# The statements, and what stands in the place of one that is refused for want of memory.
CONVERSATION = [
    ("USE main", None),
    ("CREATE TABLE orders (id INT NOT NULL PRIMARY KEY, customer NVARCHAR(20) NOT NULL)", None),
    (
        "CREATE TABLE items (order_id INT NOT NULL REFERENCES orders (id), line INT NOT NULL, "
        "qty INT NOT NULL CHECK (qty > 0), price INT NOT NULL, PRIMARY KEY (order_id, line))",
        None,
    ),
    ("INSERT INTO orders VALUES (1, N'Ann'), (2, N'Bob'), (3, N'Cy')", None),
    ("INSERT INTO items VALUES (1, 1, 2, 50), (1, 2, 1, 30), (2, 1, 4, 10)", None),
    (
        "SELECT o.customer, SUM(i.qty * i.price) AS total FROM orders o LEFT JOIN items i ON i.order_id = o.id "
        "GROUP BY o.customer ORDER BY o.customer",
        None,
    ),
    ("INSERT INTO items VALUES (9, 1, 1, 1)", None),
    ("INSERT INTO items VALUES (1, 3, 0, 5)", None),
    ("BEGIN TRAN", None),
    ("INSERT orders VALUES (4, N'Di')", None),
    ("SAVE TRAN a", None),
    ("UPDATE items SET qty = qty + 1", None),
    ("DELETE FROM orders WHERE id = 3", None),
    ("ROLLBACK TRAN a", None),
    ("INSERT orders VALUES (1, N'X')", None),
    ("DELETE FROM items WHERE order_id = 2", None),
    ("COMMIT", None),
    ("BEGIN TRAN", None),
    ("UPDATE orders SET customer = N'Z'", None),
    ("BEGIN TRAN", None),
    ("COMMIT", None),
    ("ROLLBACK", None),
    ("SET XACT_ABORT ON", None),
    ("BEGIN TRAN", None),
    ("UPDATE orders SET customer = N'Y'", "ROLLBACK"),
    ("SELECT 1 / 0", "ROLLBACK"),
    ("SET XACT_ABORT OFF", None),
    ("SELECT @@TRANCOUNT AS n, XACT_STATE() AS x", None),
    ("BEGIN TRY INSERT orders VALUES (1, N'X') END TRY BEGIN CATCH SELECT ERROR_NUMBER() AS e END CATCH", None),
    ("CREATE PROCEDURE put @id INT AS INSERT orders VALUES (@id, N'Put')", None),
    ("EXEC put 7", None),
    ("CREATE TRIGGER follows ON orders AFTER INSERT AS INSERT items SELECT id, 9, 1, 1 FROM inserted", None),
    ("INSERT orders VALUES (8, N'Eve'), (9, N'Flo')", None),
    ("DECLARE c CURSOR STATIC FOR SELECT id, customer FROM orders ORDER BY id DESC", None),
    ("OPEN c", None),
    ("DECLARE @i INT, @s NVARCHAR(20) IF @@ERROR = 0 FETCH NEXT FROM c INTO @i, @s", None),
    ("DECLARE @i INT, @s NVARCHAR(20); FETCH NEXT FROM c INTO @i, @s; SELECT @i, @s", None),
    ("CLOSE c", None),
    ("DROP TRIGGER follows", None),
    ("DROP PROCEDURE put", None),
    ("SELECT id, customer FROM orders ORDER BY id", None),
    ("SELECT order_id, line, qty, price FROM items", None),
]

STATEMENTS = [statement for statement, _ in CONVERSATION]

# The statement whose error is caught, so that it tells the number and not the message.
CATCHING = next(at for at, statement in enumerate(STATEMENTS) if "CATCH" in statement)

# The call, whose body's statement is committed before it ends, and stays where the end finds no memory.
CALLING = next(at for at, statement in enumerate(STATEMENTS) if statement.startswith("EXEC"))

REFUSED = "There is insufficient memory".encode("utf-16-le")

CAUGHT = (701).to_bytes(4, "little")

OUT_OF_MEMORY = 6


def replies(sent):
    """The replies among the bytes that were sent, each without the headers of its packets."""
    found, now, at = [], b"", 0
    while at + 8 <= len(sent):
        length = int.from_bytes(sent[at + 2 : at + 4], "big")
        now += sent[at + 8 : at + length]
        if sent[at + 1] & 1:
            found.append(now)
            now = b""
        at += length
    return found


class Server:
    """The program, with the malloc before it."""

    def __init__(self, program, malloc):
        self.program = program
        self.malloc = malloc

    def run(self, statements, **settings):
        done = subprocess.run(
            [self.program, "pipe", "--bare"],
            input=b"".join(map(batch, statements)),
            env=dict(os.environ, LD_PRELOAD=self.malloc, **settings),
            capture_output=True,
            timeout=60,
        )
        return done.returncode, replies(done.stdout), done.stderr

    def without(self, at):
        """The replies to all statements but one."""
        instead = CONVERSATION[at][1]
        given = STATEMENTS[:at] + ([instead] if instead else []) + STATEMENTS[at + 1 :]
        _, told, _ = self.run(given)
        return told[:at] + told[at + 1 :] if instead else told


def judge(status, told, full, others):
    """What came of a run in which one allocation failed."""
    refused = [at for at, reply in enumerate(told) if REFUSED in reply]
    if status == OUT_OF_MEMORY:
        front = told[:-1] if refused else told
        return "ended with 6" if front == full[: len(front)] else "wrong: ended behind other replies"
    if status != 0:
        return f"wrong: status {status}"
    if told == full:
        return "did without it"
    if len(told) != len(full):
        return f"wrong: {len(told)} replies"
    if not refused and CAUGHT in told[CATCHING] and leave(told, CATCHING) == leave(full, CATCHING):
        return "caught as 701"
    if len(refused) != 1:
        return f"wrong: {len(refused)} statements refused"
    at = refused[0]
    if at == CALLING and leave(told, at) == leave(full, at):
        return "done, and refused at its end"
    return "as if not sent" if leave(told, at) == others[at] else f"wrong: behind {STATEMENTS[at]}"


def leave(told, at):
    return told[:at] + told[at + 1 :]


def main():
    words = argparse.ArgumentParser(description=__doc__.split("\n")[0])
    words.add_argument("program")
    words.add_argument("--jobs", type=int, default=os.cpu_count())
    given = words.parse_args()
    with tempfile.TemporaryDirectory() as folder, ThreadPoolExecutor(given.jobs) as pool:
        malloc = os.path.join(folder, "malloc.so")
        subprocess.run(["cc", "-shared", "-fPIC", "-o", malloc, "-x", "c", "-", "-ldl"], input=MALLOC.encode(), check=True)
        server = Server(os.path.abspath(given.program), malloc)
        _, full, calls = server.run(STATEMENTS, COUNT_ALLOC="1")
        others = list(pool.map(server.without, range(len(STATEMENTS))))

        def fail(number):
            status, told, _ = server.run(STATEMENTS, FAIL_ALLOC=str(number))
            return judge(status, told, full, others)

        came = Counter(pool.map(fail, range(1, int(calls.split()[-1]) + 1)))
    for what, count in sorted(came.items()):
        print(f"{count:6} {what}")
    wrong = any(what.startswith("wrong") for what in came)
    sys.exit(wrong or len(full) != len(STATEMENTS))


if __name__ == "__main__":
    main()
