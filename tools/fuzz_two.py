#!/usr/bin/env python3
"""Holds random conversations of two sessions with a server, over tables with UNIQUE and FOREIGN KEY, and with a second reading of
its locks, and compares the replies.

    tools/fuzz_two.py [--bin PROGRAM] [--number N] [--seed S] [--waits]
    tools/fuzz_two.py --rows FILE..     compares the reading with files of rows, without the server

The reading (tools/locks, whose head says what it covers) was written from the pages, apart from the server. So a difference is a fault
of one of them, or the pages leave room. Each session is at READ COMMITTED or at SERIALIZABLE, and is refused where it would wait; with
--waits it waits. It ends with 1 at the first conversation that differs, and shows the batches that are needed for that, and both replies;
else it prints how often each token came.

Of the files of rows those conversations are passed over that the reading does not cover."""
import argparse
import os
import sys
from collections import Counter
from concurrent.futures import ThreadPoolExecutor
from random import Random

import dist
from fuzz import name_of, show_lines
from locks import Unread, World
from worked.book import WAITS, Book
from worked.server import Listening
from worked.talks import PAUSE, USER
from worked.tokens import Tokens
from worked.wire import batch

AT_ONCE = 4

TABLES = (
    "CREATE TABLE t (k INT NOT NULL PRIMARY KEY, u INT UNIQUE, v INT); "
    "CREATE TABLE p (k INT NOT NULL PRIMARY KEY, v INT); "
    "CREATE TABLE c (k INT NOT NULL PRIMARY KEY, p INT REFERENCES p, v INT UNIQUE); "
    "INSERT t VALUES (2, 20, 0), (4, 40, 0), (6, NULL, 0); INSERT p VALUES (2, 0), (4, 0), (6, 0); INSERT c VALUES (2, 2, 2), (4, 6, 4)"
)
COLUMNS = {"t": ("k", "u", "v"), "p": ("k", "v"), "c": ("k", "p", "v")}
LAST = [f"SELECT {', '.join(columns)} FROM {table}" for table, columns in COLUMNS.items()]


# ---- conversations


class Maker:
    """Makes a conversation as it is held by the reading, so that nobody who waits says anything: each step is a session, what it says,
    and who is answered then."""

    def __init__(self, rand, is_patient):
        self.rand, self.world, self.steps = rand, World(), []
        timeout = "-1" if is_patient else "0"
        for session, tables in ((1, f"; {TABLES}"), (2, "")):
            level = self.rand.choice(("READ COMMITTED", "SERIALIZABLE"))
            self.say(session, f"SET LOCK_TIMEOUT {timeout}; SET TRANSACTION ISOLATION LEVEL {level}{tables}")

    def say(self, session, text):
        self.steps.append((session, text, self.world.say(session, text)))

    def conversation(self):
        for _ in range(self.rand.randint(6, 16)):
            free = [session for session in (1, 2) if not self.world.waits(session)]
            session = self.rand.choice(free)
            self.say(session, "; ".join(self.statements(self.world.sessions[session].is_open)))
        for session in (1, 2, 1, 2):
            if not self.world.waits(session) and self.world.sessions[session].is_open:
                self.say(session, self.rand.choice(("COMMIT", "ROLLBACK")))
        self.say(1, "; ".join(LAST))
        return self.steps

    def statements(self, is_open):
        if is_open and self.rand.random() < 0.25:
            return [self.rand.choice(("COMMIT", "ROLLBACK"))]
        said = [self.statement() for _ in range(self.rand.choice((1, 1, 1, 2)))]
        if is_open and self.rand.random() < 0.15:
            name = f"s{len(self.steps)}"
            return [f"SAVE TRAN {name}", *said, f"ROLLBACK TRAN {name}"]
        return said if is_open or self.rand.random() < 0.4 else ["BEGIN TRAN", *said]

    def statement(self):
        table = self.rand.choice("tttpccc")
        form = self.rand.choice(("SELECT", "INSERT", "INSERT", "UPDATE", "UPDATE", "UPDATE", "DELETE"))
        if form == "SELECT":
            return f"SELECT {', '.join(COLUMNS[table])} FROM {table}{self.where(table)}"
        if form == "DELETE":
            return f"DELETE {table}{self.where(table)}"
        if form == "INSERT":
            return f"INSERT {table} VALUES {', '.join(self.row(table) for _ in range(self.rand.choice((1, 1, 2))))}"
        column = self.rand.choice(COLUMNS[table][self.rand.random() < 0.8 :])
        value = f"{column} + {self.rand.choice((1, 2, 10))}" if self.rand.random() < 0.3 else self.value(column)
        return f"UPDATE {table} SET {column} = {value}{self.where(table)}"

    def row(self, table):
        return f"({', '.join(self.value(column) for column in COLUMNS[table])})"

    def value(self, column):
        if column in "up" and self.rand.random() < 0.1:
            return "NULL"
        return str(10 * self.rand.randint(1, 6) if column == "u" else self.rand.randint(1, 8))

    def where(self, table):
        kind = self.rand.random()
        if kind < 0.1:
            return ""
        if kind < 0.2:
            column = COLUMNS[table][1]
            return f" WHERE {column} = {self.value(column).replace('NULL', '7')}"
        sign = "=" if kind < 0.75 else self.rand.choice(("<", "<=", ">", ">="))
        return f" WHERE k {sign} {self.rand.randint(1, 8)}"


def held(lines):
    """The steps of what two sessions say, by the reading."""
    world = World()
    return [(session, text, world.say(session, text)) for session, text in lines]


# ---- replies


def difference(program, steps):
    """The first reply of the server that is not the reading's: the step, who is answered, and both."""
    with Listening(program, USER, 2) as listening:
        members = listening.members()
        links = {1: members[51], 2: members[52]}
        for place, (session, text, answered) in enumerate(steps):
            links[session].send(batch(text))
            for who in sorted({session, *answered}):
                reply = links[who].reply() if who in answered else links[who].reply(PAUSE)
                given = [WAITS] if reply is None else Tokens(reply[1]).lines()
                if given != answered.get(who, [WAITS]):
                    return place, who, given, answered.get(who, [WAITS])
    return None


def fewest(program, steps):
    """The steps without those that are not needed for a difference."""
    for place in range(len(steps) - 1, 0, -1):
        lines = [(session, text) for session, text, _answered in steps]
        try:
            fewer = held(lines[:place] + lines[place + 1 :])
        except (Unread, KeyError):
            continue
        if difference(program, fewer):
            steps = fewer
    return steps


def show(program, steps):
    steps = fewest(program, steps)
    place, who, given, wanted = difference(program, steps)
    for session, text, _answered in steps[: place + 1]:
        print(f"{'2' * (session == 2)}> {text}")
    print(f"the reply to session {who}:")
    show_lines(given, wanted, "tsqld", "locks")


def compare_random(said):
    """Whether the replies to random conversations agree."""
    conversations = [Maker(Random(f"{said.seed}.{number}"), said.waits).conversation() for number in range(said.number)]
    with ThreadPoolExecutor(AT_ONCE) as pool:
        for steps, found in zip(conversations, pool.map(lambda steps: difference(said.bin, steps), conversations)):
            if found:
                pool.shutdown(cancel_futures=True)
                show(said.bin, steps)
                return False
    seen = Counter(name_of(line) for steps in conversations for _, _, answered in steps for lines in answered.values() for line in lines)
    seen[WAITS] = sum(session not in answered for steps in conversations for session, _text, answered in steps)
    counts = ", ".join(f"{name} {count}" for name, count in seen.most_common())
    print(f"{said.number} conversations agree: {counts}")
    return True


# ---- files of rows


def compare_files(paths):
    """Whether the reading answers what the files want, in all conversations that it covers."""
    worst = True
    for path in paths:
        outcomes = Counter(compare_conversation(path, of) for of in Book(path).conversations)
        counts = f"{outcomes['agrees']} conversations agree, {outcomes['differs']} differ"
        print(f"{path}: {counts}, {outcomes['passed']} passed over")
        worst = worst and not outcomes["differs"]
    return worst


def compare_conversation(path, conversation):
    if conversation.settings or not all(isinstance(line, str) for step in conversation.steps for line in step.wanted):
        return "passed"
    world, late = World(), {}
    for step in conversation.steps:
        session = 1 + step.is_second
        try:
            if step.is_late:
                given = late.pop(session, [WAITS])
            else:
                late.update(world.say(session, step.text))
                given = late.pop(session, [WAITS])
        except (Unread, KeyError, TypeError):
            return "passed"
        if given != step.wanted:
            print(f"{path}:{step.number}: {step.text}")
            show_lines(step.wanted, given, "wanted", "locks")
            return "differs"
    return "agrees"


def main():
    words = argparse.ArgumentParser(description=__doc__, formatter_class=argparse.RawDescriptionHelpFormatter)
    words.add_argument("--bin", default=dist.current() or dist.BUILT, help="the program, without it that of these sources")
    words.add_argument("--number", type=int, default=200, help="how many conversations")
    words.add_argument("--seed", type=int, default=1)
    words.add_argument("--waits", action="store_true", help="sessions wait for locks")
    words.add_argument("--rows", nargs="+", metavar="FILE", help="compares the reading with files of rows")
    said = words.parse_args()
    if said.rows:
        sys.exit(not compare_files(said.rows))
    if not os.path.exists(said.bin):
        sys.exit(f"{said.bin} is not there: ./tsqld builds it")
    sys.exit(not compare_random(said))


if __name__ == "__main__":
    main()
