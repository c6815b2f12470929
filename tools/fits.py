#!/usr/bin/env python3
"""Tries many sessions at random: makes scripts for `tsqld steps`, and tests every reply against what it
says of the log, on whole maps from keys to rows. It knows no entry, no lock and no mark of the engine: only
what docs/ENGINE.md says under "What the replies say of the log", and who of a circle falls.

    tools/fits.py PROGRAM [--attempts N] [--seed S] [--lines L]

PROGRAM is the built tsqld. It prints how often each reply came, and ends with 1 at the first reply that does
not fit, with the script up to there in the file `unfit.steps`.
"""
import argparse
import random
import subprocess
import sys
from collections import Counter

KEYS = range(1, 7)

# So many lines are about the same two tables: in a table that is new, keys have no entries yet.
LINES_OF_TABLES = 120


class Unfit(Exception):
    """A reply that does not fit the log."""


# ---- scripts


class Maker:
    """Makes one script. Begin, the ends and the marks mostly pass, so it is mostly known where sessions stand:
    but a session that fell is told so, and its operation is not done."""

    def __init__(self, rand, sessions):
        self.rand = rand
        self.marks = {session: None for session in range(1, sessions + 1)}
        self.made = dict.fromkeys(self.marks, 0)
        self.value = 0
        self.count = 0

    def table(self):
        number = self.count // LINES_OF_TABLES
        letters = [chr(ord("a") + number // 26**place % 26) for place in range(3)]
        return self.rand.choice("tu") + "".join(letters)

    def line(self):
        self.count += 1
        session = self.rand.choice(list(self.marks))
        return f"{session} {self.command(session)}"

    def command(self, session):
        rand = self.rand
        if rand.random() < 0.04:
            return rand.choice(("patience none", "patience forever", "patience forever", f"priority {rand.randint(-2, 2)}"))
        if self.marks[session] is None:
            self.marks[session], self.made[session] = [], 0
            return "begin"
        table, key = self.table(), rand.choice(KEYS)
        self.value += 1
        kind = rand.choices(
            ("fetch", "insert", "replace", "erase", "mark", "back", "relax", "commit", "rollback"),
            (30, 16, 10, 10, 6, 6, 8, 10, 4),
        )[0]
        if kind == "fetch":
            start = rand.choice(("first", f"at:{key}", f"past:{key}"))
            stop = rand.choice(("last", f"to:{rand.choice(KEYS)}"))
            return f"fetch {table} {start} {stop} {rand.choice(('row', 'range'))} {rand.choice('SU')}"
        if kind in ("insert", "replace"):
            return f"{kind} {table} {key} {self.value}"
        if kind == "erase":
            return f"erase {table} {key}"
        if kind == "mark":
            self.made[session] += 1
            self.marks[session].append(self.made[session])
        if kind == "back":
            if not self.marks[session]:
                return "relax"
            mark = rand.choice(self.marks[session])
            self.marks[session] = [live for live in self.marks[session] if live <= mark]
            return f"back {mark}"
        if kind in ("commit", "rollback"):
            self.marks[session] = None
        return kind


# ---- the log


class Log:
    """The commits, and the database after each number of them."""

    def __init__(self):
        self.states = [{}]

    def __len__(self):
        return len(self.states) - 1

    def add(self, changes):
        self.states.append(with_changes(self.states[-1], changes))

    def view(self, place, own):
        return with_changes(self.states[place], [(table, key, row) for table, key, row, _ in own])


def with_changes(state, changes):
    state = dict(state)
    for table, key, row in changes:
        if row is None:
            state.pop((table, key), None)
        else:
            state[table, key] = row
    return state


def net(own):
    """The last change at each key, without absences of what the transaction inserted first."""
    first, last = {}, {}
    for table, key, row, inserts in own:
        first.setdefault((table, key), inserts)
        last[table, key] = row
    return [
        (*place, row) for place, row in sorted(last.items()) if row is not None or not first[place]
    ]


# ---- what replies say


def bounds(start, stop):
    low = {"first": lambda key: True}.get(start)
    if start.startswith("at:"):
        low = lambda key, least=int(start[3:]): key >= least
    if start.startswith("past:"):
        low = lambda key, least=int(start[5:]): key > least
    high = (lambda key: True) if stop == "last" else (lambda key, most=int(stop[3:]): key <= most)
    return low, high


def answers_in(state, words, reply):
    """The reply to a fetch is what this database has."""
    _, table, start, stop, _, _ = words
    low, high = bounds(start, stop)
    keys = sorted(key for at, key in state if at == table)
    within = [key for key in keys if low(key) and high(key)]
    if reply[0] == "end":
        return not within
    key = int(reply[1])
    if not (low(key) and high(key)):
        return False
    if reply[0] == "row":
        return within[:1] == [key] and state[table, key] == int(reply[2])
    return (table, key) not in state and not any(low(other) and other < key for other in keys)


class Session:
    """The exchanges of one session, as far as something is still to be said of them."""

    def __init__(self, number):
        self.number = number
        self.patience, self.priority = "forever", 0
        self.least = 0
        self.asked_with, self.closed = 0, []
        self.end()

    def end(self):
        self.own, self.marks, self.later, self.sure, self.fetched = None, {}, [], {}, []

    def may_come(self, words):
        """Whether the operation may come where the session stands."""
        if words[0] in ("patience", "priority"):
            return True
        if words[0] == "back":
            return self.own is not None and int(words[1]) in self.marks
        return (words[0] == "begin") == (self.own is None)

    def rank(self):
        """Of a circle the session with the lowest falls."""
        cost = len({(table, key) for table, key, _, _ in self.own})
        return self.asked_with, cost, -self.number

    def number_rises(self, number, log):
        need(self.least <= number <= len(log), "a number falls, or is above the log's length")
        self.least = number

    def take(self, words, reply, log, waits):
        if words[0] not in ("patience", "priority"):
            waits.ends(self)
        if reply[0] in ("wait", "timeout"):
            need(int(reply[1]) != self.number, "a session stands in its own way")
            need((reply[0] == "timeout") == (self.patience == "none"), "refused though patient")
            if reply[0] == "wait":
                waits.begins(self)
            return
        if reply[0] == "victim":
            return waits.tells(self, words, reply[1:])
        getattr(self, "take_" + words[0])(words, reply, log)

    def take_patience(self, words, reply, log):
        self.patience = words[1]

    def take_priority(self, words, reply, log):
        self.priority = int(words[1])

    def take_begin(self, words, reply, log):
        need(reply == ["began"], "not begun")
        self.own = []

    def take_fetch(self, words, reply, log):
        at = int(reply[-1])
        self.number_rises(at, log)
        need(answers_in(log.view(at, self.own), words, reply), "not what the log has there")
        before = list(self.own)
        if words[4] == "range":
            self.later.append(
                lambda place: need(
                    answers_in(log.view(place, before), words, reply), "a held range has changed"
                )
            )
        if reply[0] == "row" and (words[4] == "range" or words[5] == "U"):
            place = words[1], int(reply[1])
            span = "transaction" if words[4] == "range" else "statement"
            self.sure.setdefault(place, set()).add(span)
            self.fetched.append((place, span, at))

    def take_insert(self, words, reply, log):
        table, key, row = words[1], int(words[2]), int(words[3])
        before = list(self.own)
        there = reply == ["exists"]
        need(there or reply == ["done"], "no reply to an insertion")
        self.later.append(
            lambda place: need(
                ((table, key) in log.view(place, before)) == there, "a row is there, or is not"
            )
        )
        if not there:
            self.own.append((table, key, row, True))

    def take_replace(self, words, reply, log):
        self.write(words[1], int(words[2]), int(words[3]), reply, log)

    def take_erase(self, words, reply, log):
        self.write(words[1], int(words[2]), None, reply, log)

    def write(self, table, key, row, reply, log):
        if reply == ["missing"]:
            need(not self.sure.get((table, key)), "a row that is sure is missing")
            return
        need(reply == ["done"], "no reply to a write")
        for place, _, at in self.fetched:
            if place == (table, key):
                self.later.append(
                    lambda end, at=at, place=place: need(
                        len({log.states[n].get(place) for n in range(at, end + 1)}) == 1,
                        "a row that was fetched to be written has changed",
                    )
                )
        if row is None:
            self.sure.pop((table, key), None)
        self.own.append((table, key, row, False))

    def take_mark(self, words, reply, log):
        need(reply[0] == "marked", "not marked")
        self.marks[int(reply[1])] = list(self.own)

    def take_back(self, words, reply, log):
        need(reply == ["done"], "not gone back")
        mark = int(words[1])
        self.own = list(self.marks[mark])
        self.marks = {live: own for live, own in self.marks.items() if live <= mark}
        self.sure = {}

    def take_relax(self, words, reply, log):
        need(reply == ["done"], "not relaxed")
        self.fetched = [fetch for fetch in self.fetched if fetch[1] == "transaction"]
        for spans in self.sure.values():
            spans.discard("statement")

    def take_commit(self, words, reply, log):
        changes = net(self.own)
        self.take_rollback(words, reply, log)
        if changes:
            need(int(reply[1]) == len(log), "a commit has not its place in the log")
            log.add(changes)

    def take_rollback(self, words, reply, log):
        need(reply[0] == "ended", "not ended")
        place = int(reply[1])
        self.number_rises(place, log)
        for says in self.later:
            says(place)
        self.end()


class Waits:
    """Who waits, and what there was to choose from when another's wait began: who fell then is told later."""

    def __init__(self):
        self.standing = {}

    def ranks(self):
        return {number: session.rank() for number, session in self.standing.items()}

    def ends(self, session):
        self.standing.pop(session.number, None)

    def closes(self, session):
        """A session is about to wait. Each that waits may fall now, of these ranks, also where the session itself
        falls in a further circle."""
        session.asked_with = session.priority
        ranks = self.ranks() | {session.number: session.rank()}
        for other in self.standing.values():
            other.closed.append((session.number, ranks))
        return ranks

    def begins(self, session):
        self.closes(session)
        session.closed = []
        self.standing[session.number] = session

    def tells(self, session, words, edges):
        """A session is told that it was the victim of a circle, which the first of its sessions closed."""
        circle = [tuple(map(int, edge.split(">"))) for edge in edges]
        waiters = [waiter for waiter, _ in circle]
        need(words[0] != "rollback", "who rolls back is told that it fell")
        need(len(set(waiters)) == len(circle) > 1, "no circle")
        need([holder for _, holder in circle] == waiters[1:] + waiters[:1], "no circle")
        need(session.number in waiters, "a victim outside its circle")
        if waiters[0] == session.number:
            need(session.patience == "forever", "who is not patient fell")
            closed = [self.closes(session)]
        else:
            closed = [ranks for closer, ranks in session.closed if closer == waiters[0]]
            session.closed = []
        need(any(falls(ranks, waiters, session.number) for ranks in closed), "another should have fallen")


def falls(ranks, waiters, number):
    """Of those that waited, the one with the lowest rank falls."""
    return all(waiter in ranks for waiter in waiters) and min(waiters, key=ranks.get) == number


def need(holds, what):
    if not holds:
        raise Unfit(what)


def try_script(lines, replies, seen):
    """Tests the replies to a script."""
    log, waits, sessions = Log(), Waits(), {}
    need(len(lines) == len(replies), f"{len(replies)} replies to {len(lines)} lines")
    for at, (line, reply) in enumerate(zip(lines, replies)):
        number, *words = line.split(" ")
        who, *said = reply.split(" ")
        try:
            need(who == number, "the reply is another session's")
            session = sessions.setdefault(number, Session(int(number)))
            need((said == ["not", "now"]) != session.may_come(words), "what may be asked now is another")
            seen[said[0]] += 1
            if said != ["not", "now"]:
                session.take(words, said, log, waits)
        except Unfit as fault:
            raise Unfit(f"line {at + 1}, `{line}` answered `{reply}`: {fault}") from None
    for session in sessions.values():
        for says in session.later:
            says(len(log))


def main():
    parser = argparse.ArgumentParser()
    parser.add_argument("program")
    parser.add_argument("--attempts", type=int, default=1_000_000)
    parser.add_argument("--seed", type=int, default=1)
    parser.add_argument("--lines", type=int, default=300)
    words = parser.parse_args()
    rand, seen, done = random.Random(words.seed), Counter(), 0
    while done < words.attempts:
        maker = Maker(rand, rand.choice((2, 2, 3, 3, 4, 6)))
        lines = [maker.line() for _ in range(words.lines)]
        text = "\n".join(lines) + "\n"
        run = subprocess.run([words.program, "steps"], input=text, capture_output=True, text=True)
        try:
            need(run.returncode == 0, f"status {run.returncode}")
            try_script(lines, run.stdout.splitlines(), seen)
        except Unfit as fault:
            with open("unfit.steps", "w") as file:
                file.write(text)
            print(f"after {done} attempts, in unfit.steps: {fault}")
            sys.exit(1)
        done += len(lines)
    print(f"{done} attempts fit: " + ", ".join(f"{count} {reply}" for reply, count in seen.most_common()))


main()
