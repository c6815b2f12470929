#!/usr/bin/env python3
"""Makes random conversations, has them answered by `tsqld pipe` and by a model of the language, and compares the
replies.

    tools/fuzz.py [--bin PROGRAM] [--number N] [--seed S] [--drivers] [--without procedures|triggers|cursors]..
    tools/fuzz.py --rows FILE..     compares the model with files of rows, without the server

The model (tools/model, whose head says what it covers) was written from the documents and the definitions, apart from
the server. So a difference is a fault of one of them, or the pages leave room: docs/language and
crates/batch_meaning/specs tell which. It ends with 1 at the first conversation that differs, and shows the batches
that are needed for that, and the first line; else it prints how often each token came.

A conversation has three tables, and up to 14 batches: procedures, triggers, and statements of every kind that write,
read, fail, are caught, call, begin and end transactions, set options and use cursors, one within another and three
deep. Most of them fail sometimes, since tables, keys, transactions, procedures and cursors are there or not as it
comes. With --drivers they are sent as drivers do: by calls with parameters, prepared and run again, between requests
of transactions.

Of the files of rows those conversations are passed over that the model does not read, from there on, or in which it
lacks a refusal; what two sessions say, and what is sent or answered as bytes, but for calls by RPC."""
import argparse
import os
import subprocess
import sys
from collections import Counter
from random import Random

import dist
import model
import rows
from worked.book import Step
from worked.calls import call
from worked.requests import request_of, transaction
from worked.wire import batch

# The refusals of a text or a statement that the model does not have, or not all of them.
LACKING = ("ERROR 102 ", "ERROR 116 ", "ERROR 8120 ", "ERROR 49007 ", "ERROR 49009 ")

# The type of a message that is a call.
RPC = b"\3"

TABLES = (
    "CREATE TABLE t (k INT NOT NULL PRIMARY KEY, v INT CHECK (v < 50)); "
    "CREATE TABLE u (k INT NOT NULL PRIMARY KEY, v INT); "
    "CREATE TABLE f (k INT NOT NULL PRIMARY KEY, v INT REFERENCES t)"
)
LAST = "SELECT @@TRANCOUNT AS c, XACT_STATE() AS x; SELECT k, v FROM t; SELECT k, v FROM u; SELECT k, v FROM f"
EVENTS = ("INSERT", "UPDATE", "DELETE")
DEEPEST = 3


# ---- conversations


class Place:
    """Where statements stand: in a batch, a procedure or a trigger; with which variables; how deep; and within which of
    a loop, a TRY and a CATCH."""

    def __init__(self, kind, variables, depth=0, within=frozenset()):
        self.kind, self.variables, self.depth, self.within = kind, variables, depth, within

    def inside(self, *forms):
        return Place(self.kind, self.variables, self.depth + 1, self.within | set(forms))


class Maker:
    """Makes the batches of one conversation. `procedures` are those that were created, each its name and its
    parameters."""

    def __init__(self, rand, without):
        self.rand, self.without = rand, without
        self.procedures, self.triggers = [], 0

    def may(self, chance):
        return self.rand.random() < chance

    def choose(self, *texts):
        return self.rand.choice(texts)

    def conversation(self):
        first = [self.definition() for _ in range(self.rand.randint(0, 4))]
        texts = [TABLES, *first, *(self.batch() for _ in range(self.rand.randint(4, 8))), LAST]
        return [f"> {text}" for text in texts]

    def definition(self):
        makes = {"procedures": self.procedure, "triggers": self.trigger}
        allowed = [make for kind, make in makes.items() if kind not in self.without]
        return self.rand.choice(allowed or [self.body])()

    def batch(self):
        return self.definition() if self.may(0.25) else self.body()

    def body(self):
        return f"DECLARE @a INT = {self.rand.randint(0, 5)}, @b TINYINT; {self.work()}"

    def work(self):
        """Statements with the variables @a and @b."""
        place = Place("batch", ("@a", "@b"))
        begun = self.choose("", "", "", "BEGIN TRAN; ", "SET IMPLICIT_TRANSACTIONS ON; ", "SET XACT_ABORT ON; ", "BEGIN TRAN; SAVE TRAN s; ")
        return f"{self.loops()}; {begun}{self.statements(place)}; {self.statements(place)}"

    def loops(self):
        """The variables that count the turns of loops, one for each depth."""
        return "DECLARE " + ", ".join(f"@i{depth} INT" for depth in range(DEEPEST))

    def procedure(self):
        name = f"p{len(self.procedures) + 1}"
        parameters = [(f"@p{place}", self.may(0.5)) for place in range(self.rand.randint(0, 2))]
        place = Place("procedure", (*(of for of, _ in parameters), "@l"), depth=1)
        kinds = (self.choose("INT", "INT", "TINYINT") + " OUTPUT" * is_output for _, is_output in parameters)
        said = ", ".join(f"{of} {kind}" for (of, _), kind in zip(parameters, kinds))
        body = self.block(place)
        self.procedures.append((name, parameters))
        return f"CREATE PROCEDURE {name} {said} AS {body}"

    def trigger(self):
        self.triggers += 1
        events = ", ".join(self.rand.sample(EVENTS, self.rand.randint(1, 3)))
        place = Place("trigger", ("@l",), depth=1)
        body = self.block(place)
        return f"CREATE TRIGGER g{self.triggers} ON {self.choose('t', 't', 'u', 'u', 'f')} AFTER {events} AS {body}"

    def block(self, place):
        return f"BEGIN DECLARE @l INT; {self.loops()}; {self.statements(place)} END"

    # Statements.

    def statements(self, place):
        found = [self.statement(place) for _ in range(self.rand.randint(1, 3))]
        if self.may(0.15):
            found.insert(0, "SELECT @@ROWCOUNT AS r, @@ERROR AS e, @@TRANCOUNT AS c, XACT_STATE() AS x")
        if "CATCH" in place.within and self.may(0.2):
            found.append("THROW")
        return "; ".join(found)

    def statement(self, place):
        forms, weights = zip(*self.forms(place))
        return self.rand.choices(forms, weights)[0](place)

    def forms(self, place):
        """What may stand at a place, and how often it does."""
        more = 3 if "TRY" in place.within else 1
        yield from ((self.insert, 20), (self.update, 9), (self.delete, 5), (self.select, 13), (self.failing, 4 * more))
        yield from ((self.transaction, 14), (self.option, 4), (self.message, 5), (self.assignment, 4), (self.error, 3))
        yield from ((self.drop, 1), (self.create, 1), (self.leave, 1 if place.kind == "batch" else 2))
        if "WHILE" in place.within:
            yield self.turn, 4
        if place.depth < DEEPEST:
            yield from ((self.tries, 9), (self.branch, 4), (self.loop, 2))
        if "cursors" not in self.without:
            yield self.cursor, 5
        if self.procedures:
            yield self.call, 7 * more

    def table(self):
        return self.choose("t", "t", "t", "u", "u", "u", "f") if self.may(0.97) else "nosuch"

    def source(self, place):
        """What is read."""
        return self.choose("inserted", "deleted") if place.kind == "trigger" and self.may(0.6) else self.table()

    def where(self):
        return f"WHERE k {self.choose('=', '<', '>')} {self.rand.randint(1, 9)}"

    def insert(self, place):
        if self.may(0.7):
            given = [f"({self.rand.randint(1, 9)}, {self.expr(place)})" for _ in range(self.choose(1, 1, 1, 2))]
            return f"INSERT {self.table()} VALUES {', '.join(given)}"
        target = "inserted" if place.kind == "trigger" and self.may(0.1) else self.table()
        return f"INSERT {target} SELECT k + {self.choose(0, 1, 10)}, v FROM {self.source(place)}"

    def update(self, _place):
        if self.may(0.2):
            return f"UPDATE {self.table()} SET k = k + {self.choose(1, 20)}"
        return f"UPDATE {self.table()} SET v = {self.choose('v + 1', '100', '1 / 0', 'k', 'NULL')} {self.where()}"

    def delete(self, _place):
        return f"DELETE {self.table()} {self.where()}"

    def select(self, place):
        if self.may(0.6):
            return f"SELECT {self.expr(place)} AS a"
        return f"SELECT k, v FROM {self.source(place)}"

    def failing(self, _place):
        call = "SELECT 1 / 0 AS z" if "procedures" in self.without else "EXEC none"
        return self.choose("SELECT 1 / 0 AS z", "SELECT CAST(N'x' AS INT) AS z", "SELECT x FROM t", call)

    def transaction(self, _place):
        return self.rand.choices(
            ("BEGIN TRAN", "BEGIN TRAN x", "COMMIT", "ROLLBACK", "ROLLBACK TRAN x", "ROLLBACK TRAN s", "SAVE TRAN s"),
            (8, 4, 12, 4, 2, 4, 9),
        )[0]

    def option(self, _place):
        if self.rand.random() < 0.2:
            known = self.choose("DATEFIRST 7", "ROWCOUNT 0", "DATEFORMAT ymd", "LANGUAGE English")
            return f"SET {self.choose(known, known, 'DATEFIRST 1', 'ROWCOUNT 1', 'DATEFORMAT iso', 'LANGUAGE dansk')}"
        if self.rand.random() < 0.1:
            return self.choose("USE main", "USE master", "USE other")
        return f"SET {self.choose('XACT_ABORT', 'XACT_ABORT', 'XACT_ABORT', 'NOCOUNT')} {self.choose('ON', 'OFF')}"

    def message(self, _place):
        return self.choose("RAISERROR(N'r', 16, 1)", "RAISERROR(N'i', 5, 2)", "PRINT N'p'", "THROW 50001, N't', 1")

    def assignment(self, place):
        name = self.rand.choice(place.variables)
        if self.may(0.5):
            return f"SET {name} = {self.expr(place)}"
        return f"SELECT {name} = {self.choose('k', 'v', 'v * 100')} FROM {self.source(place)}"

    def error(self, _place):
        return "SELECT ERROR_NUMBER() AS n, ERROR_PROCEDURE() AS p, ERROR_LINE() AS l"

    def drop(self, _place):
        return f"DROP {self.choose('TRIGGER', 'PROCEDURE', 'TABLE')} {self.choose('g1', 'g2', 'p1', 'inserted', 'w')}"

    def create(self, _place):
        return "CREATE TABLE w (k INT NOT NULL PRIMARY KEY)"

    def leave(self, place):
        return "RETURN" if place.kind == "batch" else f"RETURN{self.choose('', ' 3', ' NULL')}"

    def turn(self, _place):
        return self.choose("BREAK", "CONTINUE")

    def tries(self, place):
        body, handler = self.statements(place.inside("TRY")), self.statements(place.inside("CATCH"))
        return f"BEGIN TRY {body} END TRY BEGIN CATCH {handler} END CATCH"

    def branch(self, place):
        body = self.statements(place.inside())
        otherwise = f" ELSE {self.statement(place.inside())}" if self.may(0.3) else ""
        return f"IF {self.expr(place)} {self.choose('=', '<', '>')} {self.expr(place)} BEGIN {body} END{otherwise}"

    def loop(self, place):
        name = f"@i{place.depth}"
        body = self.statements(place.inside("WHILE"))
        return f"SET {name} = 0; WHILE {name} < 2 BEGIN SET {name} = {name} + 1; {body} END"

    def cursor(self, place):
        declare = f"DECLARE c CURSOR FOR SELECT k FROM {self.source(place)} ORDER BY k"
        fetch, status = f"FETCH FROM c INTO {self.rand.choice(place.variables)}", "SELECT @@FETCH_STATUS AS f"
        opened = f"{declare}; OPEN c; {fetch}"
        return self.choose(declare, opened, opened, "OPEN c", "OPEN c", fetch, fetch, "CLOSE c", "DEALLOCATE c", status)

    def call(self, place):
        name, parameters = self.rand.choice(self.procedures)
        arguments = [self.argument(place, is_output) for _, is_output in parameters]
        if self.may(0.3):
            arguments = [f"{parameter} = {argument}" for (parameter, _), argument in zip(parameters, arguments)]
            self.rand.shuffle(arguments)
        if self.may(0.06):
            arguments.append("9")
        status = f"{self.rand.choice(place.variables)} = " if self.may(0.3) else ""
        return f"EXEC {status}{name} {', '.join(arguments)}".rstrip()

    def argument(self, place, is_output):
        if not is_output and self.may(0.6):
            return str(self.rand.randint(0, 300))
        return f"{self.rand.choice(place.variables)}{' OUTPUT' if is_output and self.may(0.7) else ''}"

    # Expressions.

    def expr(self, place, depth=2):
        kinds = ("number", "system", "variable", "NULL", "computed", "count")
        kind = self.rand.choices(kinds, (45, 10, 15, 10, 15, 10))[0]
        if kind == "system":
            return self.choose("@@TRANCOUNT", "@@ROWCOUNT", "@@ERROR", "XACT_STATE()", "@@MAX_PRECISION")
        if kind == "variable":
            return self.rand.choice(place.variables)
        if kind == "NULL":
            return "NULL"
        if kind == "computed" and depth:
            return f"({self.expr(place, depth - 1)} {self.choose('+', '-', '*', '/')} {self.expr(place, depth - 1)})"
        if kind == "count":
            return f"(SELECT COUNT(*) FROM {self.choose('t', 'u')})"
        return str(self.rand.randint(0, 6))


class DriverMaker(Maker):
    """Makes a conversation as drivers hold it. `handles` were given, each with what its statement declares."""

    def __init__(self, rand, without):
        super().__init__(rand, without)
        self.handles = []

    def conversation(self):
        first = [self.defines() for _ in range(self.rand.randint(0, 3))]
        return [f"> {TABLES}", *first, *(self.message_of() for _ in range(self.rand.randint(8, 16))), f"> {LAST}"]

    def message_of(self):
        forms = (self.executes, self.prepares, self.again, self.again, self.drops, self.asks, self.defines, self.text)
        return self.rand.choices(forms, (10, 22, 22, 10, 4, 16, 4, 12))[0]()

    def text(self):
        return f"> {self.body()}"

    def asks(self):
        """A request of transactions, or a connection that begins anew."""
        if self.may(0.05):
            return "rpc sp_reset_connection"
        ends = ("commit", "rollback", "commit, begin", "rollback, begin", "rollback s", "rollback x")
        return "tm " + self.choose("begin", "begin", "begin 0 x", "save s", *ends)

    def defines(self):
        """A procedure or trigger, by each call that takes a text."""
        if self.may(0.5):
            return f"rpc sp_executesql {quoted(self.definition())}"
        self.handles.append([])
        return f"rpc #13 {self.sent()}, NTEXT, {quoted(self.definition())}"

    def executes(self):
        declared = self.declared()
        return ", ".join([f"rpc #10 {quoted(self.work())}", spelled(declared), *self.arguments(declared)])

    def prepares(self):
        declared = self.declared()
        self.handles.append(declared)
        texts = [spelled(declared), quoted(self.work())]
        if self.may(0.3):
            return ", ".join([f"rpc #11 {self.sent()}", *texts])
        return ", ".join([f"rpc #13 {self.sent()}", *texts, *self.arguments(declared)])

    def sent(self):
        """The first parameter of a call that tells a handle: NULL, or a handle, under which nothing is kept any longer then."""
        return f"{self.rand.randint(1, len(self.handles) + 1)} OUT" if self.may(0.15) else "INT OUT"

    def again(self):
        """What was prepared, or was not."""
        handle = self.rand.randint(1, len(self.handles) + (1 if self.may(0.1) or not self.handles else 0))
        declared = self.handles[handle - 1] if handle <= len(self.handles) else []
        return ", ".join([f"rpc sp_execute {handle}", *self.arguments(declared)])

    def drops(self):
        return f"rpc #15 {self.rand.randint(1, len(self.handles) + 1)}"

    def declared(self):
        """The parameters of a statement, each its name, its type, and whether it is OUTPUT."""
        kinds = self.choose("INT", "INT", "BIGINT", "SMALLINT"), self.choose("TINYINT", "INT")
        return [(name, kind, self.may(0.4)) for name, kind in zip(("@a", "@b"), kinds)]

    def arguments(self, declared):
        found = [self.value(name, is_output) for name, _kind, is_output in declared]
        if self.may(0.06):
            found.pop() if found and self.may(0.5) else found.append("9")
        if self.may(0.2):
            self.rand.shuffle(found)
        return found

    def value(self, name, is_output):
        """An argument, by its name or not."""
        texts = ("VARCHAR(9) = ' 4'", "NTEXT = N'5'", "CHAR(2) = 'x'", "NVARCHAR(MAX/1) = N''")
        value = self.choose("INT", "TINYINT = 6", "BIT = 1", "BIGINT = 70000", *texts) if self.may(0.4) else str(self.rand.randint(0, 9))
        return f"{name} " * self.may(0.3) + value + " OUT" * (is_output and self.may(0.7)) + " DEFAULT" * self.may(0.02)


def quoted(text):
    return "NTEXT = N'" + text.replace("'", "''") + "'"


def spelled(declared):
    return quoted(", ".join(f"{name} {kind}{' OUTPUT' * is_output}" for name, kind, is_output in declared))


# ---- replies


def step_of(line):
    """What a line of a conversation sends."""
    mark, _, text = line.partition(" ")
    return Step(0, text=text, spell={"rpc": call, "tm": transaction}.get(mark, batch))


def ours(program, lines, flags=()):
    """The lines of tsqld's reply to each message; behind those how it ended, where that is wrong."""
    sent = b"".join(step_of(line).sent() for line in lines)
    run = subprocess.run([program, "pipe", "--bare", *flags], input=sent, stdout=subprocess.PIPE, check=False)
    try:
        replies = [rows.Tokens(payload).lines() for _, payload in rows.replies_of(run.stdout)]
    except rows.Unread as error:
        return [[f"{error}, and status {run.returncode}"]]
    return replies if run.returncode == 0 else [*replies, [f"status {run.returncode}"]]


def theirs(lines, flags=()):
    """Those of the model."""
    session = model.Session()
    calls = model.Calls(session, bool(flags))
    return [answer(session, calls, step_of(line)) for line in lines]


def first_difference(given, wanted):
    """The first place at which two lists differ, or None."""
    for place in range(max(len(given), len(wanted))):
        if given[place : place + 1] != wanted[place : place + 1]:
            return place
    return None


def fewest(program, lines, flags):
    """The lines, without those that are not needed for a difference."""
    for line in reversed(lines):
        fewer = [other for other in lines if other is not line]
        if ours(program, fewer, flags) != theirs(fewer, flags):
            lines = fewer
    return lines


def show(program, lines, flags):
    lines = fewest(program, lines, flags)
    print("\n".join(lines))
    given, wanted = ours(program, lines, flags), theirs(lines, flags)
    place = first_difference(given, wanted)
    print(f"reply {place + 1}")
    show_lines([*given, []][place], [*wanted, []][place], "tsqld", "model")


def show_lines(given, wanted, who, other):
    place = first_difference(given, wanted)
    print(f"line {place + 1}")
    print(f"  {who}: {''.join(given[place : place + 1])}")
    print(f"  {other}: {''.join(wanted[place : place + 1])}")


def compare_random(said):
    """Whether the replies to random conversations agree."""
    seen, passed = Counter(), 0
    kind, flags = (DriverMaker, ["--drivers"]) if said.drivers else (Maker, [])
    for number in range(said.number):
        lines = kind(Random(f"{said.seed}.{number}"), said.without).conversation()
        try:
            wanted = theirs(lines, flags)
        except model.Unread:
            passed += 1
            continue
        if ours(said.bin, lines, flags) != wanted:
            print(f"after {number} conversations this one differs:")
            show(said.bin, lines, flags)
            return False
        seen.update(name_of(line) for reply in wanted for line in reply)
    counts = ", ".join(f"{name} {count}" for name, count in seen.most_common())
    print(f"{said.number - passed} conversations agree, {passed} were too long for the model: {counts}")
    return True


def name_of(line):
    """What is counted of a token: its name, of an error with its number."""
    words = line.split("(")[0].split()
    return " ".join(words[:2]) if words[0] in ("ERROR", "INFO", "ENVCHANGE") else words[0]


# ---- files of rows


def compare_files(paths):
    """Whether the model answers what the files want, in all conversations that it reads."""
    worst = True
    for path in paths:
        outcomes = Counter(compare_conversation(path, of) for of in rows.Book(path).conversations)
        counts = f"{outcomes['agrees']} conversations agree, {outcomes['differs']} differ"
        print(f"{path}: {counts}, {outcomes['passed']} passed over")
        worst = worst and not outcomes["differs"]
    return worst


def compare_conversation(path, conversation):
    is_other = conversation.is_of_two() or conversation.is_again() or conversation.session() != 1
    if is_other or "login" in conversation.settings:
        return "passed"
    session = model.Session()
    calls = model.Calls(session, "drivers" in conversation.settings)
    for step in conversation.steps:
        outcome = compare_step(session, calls, step)
        if outcome == "differs":
            print(f"{path}:{step.number}: {step.text}")
            show_lines(step.wanted, session.lines, "wanted", "model")
        if outcome != "agrees":
            return outcome
    return "agrees"


def compare_step(session, calls, step):
    try:
        given = session.lines = answer(session, calls, step)
    except model.Unread:
        is_refused = bool(step.wanted) and str(step.wanted[0]).startswith("ERROR 102 ")
        return "agrees" if is_refused else "passed"
    except model.Refused:
        return "differs" if step.wanted else "agrees"
    if given == step.wanted:
        return "agrees"
    place = first_difference(step.wanted, given)
    wanted = step.wanted[place] if place < len(step.wanted) else ""
    return "passed" if isinstance(wanted, bytes) or wanted.startswith(LACKING) else "differs"


def answer(session, calls, step):
    """The lines of the model's reply to a batch, a call or a request."""
    sent = step.sent()
    if sent[:1] == RPC:
        return calls.answer(payload_of(sent))
    if step.text is None:
        raise model.Unread("bytes")
    if step.spell is transaction:
        return model.requests.answer(session, request_of(step.text))
    lines = session.batch(step.text)
    return model.requests.ended_once(lines) if calls.has_drivers else lines


def payload_of(sent):
    """What the packets of a message carry."""
    payload, at = b"", 0
    while at < len(sent):
        length = int.from_bytes(sent[at + 2 : at + 4], "big")
        payload += sent[at + 8 : at + length]
        at += max(8, length)
    return payload


def main():
    words = argparse.ArgumentParser(description=__doc__, formatter_class=argparse.RawDescriptionHelpFormatter)
    words.add_argument("--bin", default=dist.current() or dist.BUILT, help="the program, without it that of these sources")
    words.add_argument("--number", type=int, default=500, help="how many conversations")
    words.add_argument("--seed", type=int, default=1)
    words.add_argument("--drivers", action="store_true", help="as drivers send it")
    words.add_argument("--without", action="append", default=[], choices=("procedures", "triggers", "cursors"))
    words.add_argument("--rows", nargs="+", metavar="FILE", help="compares the model with files of rows")
    said = words.parse_args()
    sys.setrecursionlimit(20000)
    if said.rows:
        sys.exit(not compare_files(said.rows))
    if not os.path.exists(said.bin):
        sys.exit(f"{said.bin} is not there: ./tsqld builds it")
    sys.exit(not compare_random(said))


if __name__ == "__main__":
    main()
