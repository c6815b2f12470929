#!/usr/bin/env python3
"""Makes random conditions over the key of a table, has statements with them answered by `tsqld pipe` and by SQLite, and compares.

    tools/keys.py [--bin PROGRAM] [--statements N] [--seed S]

A table has a key of one to four columns, in an order of its own, of whole numbers of all sizes and of texts padded with blanks, and
a column beside it. A condition is what WHERE has, or ON: comparisons of key columns with constants and with variables, NULL ones too,
either way round, BETWEEN, IN, IS NULL, joined by AND, and tests beside them that no key range says. A statement is a SELECT, one of two
references of the table, a DELETE or an UPDATE; behind the last two the whole table is compared.

It prints how many rows came, and ends with 1 at the first statement whose answer differs.

Texts are compared as if padded with blanks, there by a collation of our own. IN is written there as comparisons, and no index is made by
itself: SQLite 3.40 errs in both where a collation is not that of bytes. All units are letters, digits and blanks."""
import argparse
import os
import re
import sqlite3
import subprocess
import sys
from collections import Counter
from random import Random

import dist
import rows

STATEMENTS_OF_A_TABLE = 40
NUMBERS = {"TINYINT": (0, 255), "SMALLINT": (-(2**15), 2**15 - 1), "INT": (-(2**31), 2**31 - 1), "BIGINT": (1 - 2**63, 2**63 - 1)}
TEXTS = ("", " ", "a", "a ", "ab", "b", "b  ", "A", "a0")
COMPARED = ("=", "=", "=", "=", "<", "<=", ">", ">=", "<>")
VALUE = re.compile(r"NULL|-?\d+|'(?:[^']|'')*'")


class Column:
    """A column: its name, its type in words, and whether it holds texts."""

    def __init__(self, name, kind):
        self.name, self.kind, self.is_text = name, kind, kind.startswith("N")


class Table:
    """A table with a key, and the rows that it begins with."""

    def __init__(self, rand):
        kinds = (*NUMBERS, "INT", "NVARCHAR(3)", "NVARCHAR(3)")
        self.columns = [Column(f"k{at}", rand.choice(kinds)) for at in range(rand.randint(1, 4))]
        self.key = rand.sample(self.columns, len(self.columns))
        self.rows = {}
        for _ in range(rand.choice((0, 1, 5, 12, 25))):
            row = [rand.choice(TEXTS) if it.is_text else rand.choice((0, 1, 1, 2, 3, 200)) for it in self.columns]
            row = [value[:3] if isinstance(value, str) else value for value in row]
            self.rows.setdefault(tuple(value.rstrip(" ") if isinstance(value, str) else value for value in row), row)

    def setup(self, is_ours):
        """The statements that make it."""
        kinds = [(it.kind if is_ours else "TEXT COLLATE padded" if it.is_text else "INTEGER") for it in self.columns]
        columns = ", ".join(f"{it.name} {kind} NOT NULL" for it, kind in zip(self.columns, kinds))
        key = f", PRIMARY KEY ({', '.join(it.name for it in self.key)})" if is_ours else ""
        yield f"CREATE TABLE t ({columns}, v INT{'' if is_ours else 'EGER'}{key})"
        for at, row in enumerate(self.rows.values()):
            yield f"INSERT INTO t VALUES ({', '.join(written(value, is_ours) for value in row)}, {at % 5 if at % 7 else 'NULL'})"


def by_padded(one, other):
    """How two texts compare that have no unit below the blank."""
    one, other = one.rstrip(" "), other.rstrip(" ")
    return (one > other) - (one < other)


def written(value, is_ours):
    if value is None:
        return "NULL"
    if isinstance(value, str):
        return ("N" if is_ours else "") + f"'{value}'"
    return str(value)


class Maker:
    """Makes statements of a table: each a pair of texts, ours and SQLite's."""

    def __init__(self, rand, table):
        self.rand, self.table, self.declared = rand, table, []

    def operand(self, column):
        """A constant or a variable to compare a column with, as the two texts."""
        rand = self.rand
        if column.is_text:
            value = rand.choice(TEXTS) if rand.random() < 0.9 else None
        else:
            low, high = NUMBERS[rand.choice([*NUMBERS])] if rand.random() < 0.05 else (0, 3)
            value = rand.choice((0, 1, 1, 2, 3, 200, low, high)) if rand.random() < 0.9 else None
        if value is not None and rand.random() < 0.6:
            return written(value, True), written(value, False)
        if not column.is_text and value is not None:
            fitting = [kind for kind, (low, high) in NUMBERS.items() if low <= value <= high]
        kind = "NVARCHAR(9)" if column.is_text else rand.choice([*NUMBERS] if value is None else fitting)
        name = f"@p{len(self.declared)}"
        self.declared.append(f"DECLARE {name} {kind} = {written(value, True)};")
        return name, written(value, False)

    def test(self, prefix):
        """A test of one column, as the two texts."""
        rand, column = self.rand, self.rand.choice(self.table.columns)
        name = prefix + column.name
        form = rand.random()
        if form < 0.7:
            op, (ours, theirs) = rand.choice(COMPARED), self.operand(column)
            if rand.random() < 0.3:
                return f"{ours} {op} {name}", f"{theirs} {op} {name}"
            return f"{name} {op} {ours}", f"{name} {op} {theirs}"
        if form < 0.8:
            low, high = self.operand(column), self.operand(column)
            return tuple(f"{name} BETWEEN {low[side]} AND {high[side]}" for side in (0, 1))
        if form < 0.88:
            of = [self.operand(column) for _ in range(rand.randint(1, 4))]
            return f"{name} IN ({', '.join(it[0] for it in of)})", f"({' OR '.join(f'{name} = {it[1]}' for it in of)})"
        if form < 0.92:
            return (f"{name} IS NULL",) * 2 if rand.random() < 0.3 else (f"{name} IS NOT NULL",) * 2
        if form < 0.96:
            return (f"{prefix}v {rand.choice(COMPARED)} {rand.randint(0, 4)}",) * 2
        alike = [it for it in self.table.columns if it.is_text == column.is_text]
        return (f"{name} {rand.choice(COMPARED)} {prefix}{rand.choice(alike).name}",) * 2

    def condition(self, prefix=""):
        """Tests joined by AND, now and then with an OR or a NOT, as the two texts."""
        rand, parts = self.rand, []
        for _ in range(rand.choice((1, 1, 2, 2, 3, 4, 5))):
            one, form = self.test(prefix), rand.random()
            if form < 0.08:
                other = self.test(prefix)
                one = tuple(f"({one[side]} OR {other[side]})" for side in (0, 1))
            elif form < 0.12:
                one = tuple(f"NOT ({one[side]})" for side in (0, 1))
            elif form < 0.2:
                one = tuple(f"({one[side]})" for side in (0, 1))
            parts.append(one)
        return tuple(" AND ".join(part[side] for part in parts) for side in (0, 1))

    def statement(self):
        """A statement, whether it changes the table, and its two texts."""
        rand, self.declared = self.rand, []
        form = rand.choice(("SELECT", "SELECT", "SELECT", "JOIN", "UPDATE", "DELETE"))
        if form == "SELECT":
            texts = [f"SELECT * FROM t WHERE {part}" for part in self.condition()]
        elif form == "JOIN":
            column, kind = rand.choice(self.table.columns).name, rand.choice(("JOIN", "LEFT JOIN"))
            on, where = self.condition("b."), self.condition("a.")
            texts = [f"SELECT a.*, b.v FROM t AS a {kind} t AS b ON a.{column} = b.{column} AND {on[side]} WHERE {where[side]}" for side in (0, 1)]
        elif form == "UPDATE":
            texts = [f"UPDATE t SET v = v + 1 WHERE {part}" for part in self.condition()]
        else:
            texts = [f"DELETE FROM t WHERE {part}" for part in self.condition()]
        return form, form in ("UPDATE", "DELETE"), " ".join([*self.declared, texts[0]]), texts[1]


def read(word):
    if word == "NULL":
        return None
    return word[1:-1].replace("''", "'") if word.startswith("'") else int(word)


def ours(program, table, batches):
    """The rows of each batch, or what it answers beside rows, columns and ends."""
    sent = b"".join(rows.batch(text) for text in (*table.setup(True), *batches))
    run = subprocess.run([program, "pipe", "--bare"], input=sent, stdout=subprocess.PIPE, check=False)
    if run.returncode != 0:
        sys.exit(f"{program} ended with status {run.returncode}")
    for _, payload in rows.replies_of(run.stdout)[-len(batches) :]:
        lines = rows.Tokens(payload).lines()
        strange = [line for line in lines if not line.startswith(("COL(", "ROW(", "DONE("))]
        yield strange or [tuple(read(word) for word in VALUE.findall(line[4:-1])) for line in lines if line.startswith("ROW(")]


def ordered(given):
    return sorted(given, key=lambda row: [(value is not None, str(value)) for value in row])


def compare(said, rand, seen):
    """Statements of one table; how many, and how many rows came."""
    table = Table(rand)
    maker = Maker(rand, table)
    base = sqlite3.connect(":memory:")
    base.create_collation("padded", by_padded)
    base.execute("PRAGMA automatic_index = OFF")
    for text in table.setup(False):
        base.execute(text)
    asked, wanted = [], []
    for _ in range(STATEMENTS_OF_A_TABLE):
        form, changes, text, other = maker.statement()
        seen[form] += 1
        asked.append(f"{text}; SELECT * FROM t" if changes else text)
        found = base.execute(other).fetchall()
        wanted.append(base.execute("SELECT * FROM t").fetchall() if changes else found)
    for at, given in enumerate(ours(said.bin, table, asked)):
        if ordered(given) != ordered(wanted[at]):
            print("these differ:", *table.setup(True), *(it for it in asked[:at] if "SELECT * FROM t" in it[-16:]), sep="\n")
            print(f"{asked[at]}\ntsqld:  {ordered(given)}\nSQLite: {ordered(wanted[at])}")
            sys.exit(1)
    return len(asked), sum(map(len, wanted))


def main():
    words = argparse.ArgumentParser(description=__doc__, formatter_class=argparse.RawDescriptionHelpFormatter)
    words.add_argument("--bin", default=dist.current() or dist.BUILT, help="the program, without it that of these sources")
    words.add_argument("--statements", type=int, default=1000)
    words.add_argument("--seed", type=int, default=1)
    said = words.parse_args()
    if not os.path.exists(said.bin):
        sys.exit(f"{said.bin} is not there: ./tsqld builds it")
    rand, seen, done, found = Random(said.seed), Counter(), 0, 0
    while done < said.statements:
        count, given = compare(said, rand, seen)
        done, found = done + count, found + given
    print(f"{done} statements agree, with {found} rows: " + ", ".join(f"{form} {count}" for form, count in seen.most_common()))


if __name__ == "__main__":
    main()
