#!/usr/bin/env python3
"""Makes random queries, has them answered by `tsqld pipe` and by SQLite, and compares the rows.

    tools/queries.py [--bin PROGRAM] [--queries N] [--seed S]

It prints how often each form came, and ends with 1 at the first query whose rows differ, with the rows of its
tables, as few as still differ.

The dialects agree, and are compared, in: one to three references by comma, JOIN, LEFT JOIN and CROSS JOIN with
their ONs, also of a table with itself; WHERE; GROUP BY of columns and expressions, HAVING with it and without;
COUNT, SUM, MIN and MAX, DISTINCT ones too; DISTINCT; ORDER BY, in which NULL is the lowest; inner queries that
stand as values, in IN and in EXISTS; `*` and `a.*`; the three truth values of =, <>, <, <=, >, >=, BETWEEN, IN,
IS NULL, AND, OR and NOT; +, -, *, / and % of whole numbers, signs, CASE, COALESCE and NULLIF.

Written in two ways is ISNULL, which is IFNULL there; TOP, which is LIMIT there, and stands beside an order that
leaves no choice; AVG, which there is a real number, and is written as the sum divided by the count.

Left out is all in which they differ: errors, and so a divisor that may be zero, a number that an INT can't hold
and an inner query of several rows that stands as a value; all types but INT; names of another query's tables
within an inner query; a test as a value. The rows of a query without an order are compared as a bag, and so the
places of ties, of classes and of the first of equal rows are not compared. Columns are: each is of the type INT,
and has its alias or its column's name, or none."""
import argparse
import os
import re
import sqlite3
import subprocess
import sys
from collections import Counter
from random import Random

import dist
import rows

TABLES = ("t", "t", "t", "u", "u", "u", "w", "w", "w", "e")
QUERIES_OF_TABLES = 50

# No number that is met is greater: a sum has at most 512 rows.
MOST = 10**9
MOST_ADDED = 10**6

# A choice between the dialects, `{ours|theirs}`; what stands within it is chosen first.
CHOICE = re.compile(r"\{([^{}|]*)\|([^{}|]*)\}")


def chosen(text, side):
    """The text in tsqld's dialect, side 1, or in SQLite's, side 2."""
    while CHOICE.search(text):
        text = CHOICE.sub(lambda choice: choice[side], text)
    return text


# ---- queries


class Source:
    """What an expression is made of: columns, or keys of groups and aggregates. Each is a text, and the greatest
    number that it may be."""

    def __init__(self, atoms, added=None):
        self.atoms, self.added = atoms, added


class Query:
    """A query, the names of its columns, and whether it says an order that leaves no choice."""

    def __init__(self, text, names, is_ordered):
        self.text, self.names, self.is_ordered = text, names, is_ordered


class Maker:
    """Makes queries, and counts the forms that they have."""

    def __init__(self, rand, seen):
        self.rand, self.seen, self.deep = rand, seen, 0

    def may(self, chance):
        return self.rand.random() < chance

    def note(self, form):
        self.seen[form] += 1

    # Expressions. Each gives its text, and a number that is not exceeded in either direction.

    def expr(self, source, depth=2):
        text, most = self.product(source, depth)
        while self.may(0.2):
            sign = self.rand.choice("+-")
            more, by = self.product(source, depth)
            if most + by <= MOST:
                text, most = f"{text} {sign} {more}", most + by
        return text, most

    def product(self, source, depth):
        text, most = self.unary(source, depth)
        while self.may(0.2):
            sign = self.rand.choice("*/%")
            if sign == "*":
                more, by = self.unary(source, depth)
                if most * by <= MOST:
                    text, most = f"{text} * {more}", most * by
            else:
                more, by = self.divisor(source, depth)
                text, most = f"{text} {sign} {more}", most if sign == "/" else min(most, by)
        return text, most

    def divisor(self, source, depth):
        """What is not zero, but may be NULL."""
        if depth > 0 and self.may(0.3):
            text, most = self.expr(source, depth - 1)
            return f"NULLIF({text}, 0)", most
        number = self.rand.randint(1, 9)
        return str(number) if self.may(0.8) else f"- {number}", number

    def unary(self, source, depth):
        text, most = self.primary(source, depth)
        return (f"- {text}", most) if self.may(0.1) else (text, most)

    def primary(self, source, depth):
        if depth == 0 or self.may(0.7):
            return self.atom(source)
        kind = self.rand.choice(("parentheses", "CASE", "COALESCE", "NULLIF", "ISNULL", "inner"))
        if kind == "inner":
            return self.inner_value()
        self.note(kind)
        if kind == "CASE":
            return self.case(source, depth - 1)
        first, most = self.expr(source, depth - 1)
        if kind == "parentheses":
            return f"({first})", most
        second, by = self.expr(source, depth - 1)
        if kind == "NULLIF":
            return f"NULLIF({first}, {second})", most
        if kind == "ISNULL":
            return f"{{ISNULL|IFNULL}}({first}, {second})", max(most, by)
        third, last = self.expr(source, depth - 1)
        return f"COALESCE({first}, {second}, {third})", max(most, by, last)

    def case(self, source, depth):
        text, most = "CASE", 0
        for _ in range(self.rand.randint(1, 2)):
            given, by = self.expr(source, depth)
            text, most = f"{text} WHEN {self.test(source, depth)} THEN {given}", max(most, by)
        if self.may(0.6):
            given, by = self.expr(source, depth)
            text, most = f"{text} ELSE {given}", max(most, by)
        return f"{text} END", most

    def atom(self, source):
        if source.added is not None and self.may(0.5):
            return self.aggregate(source.added)
        if source.atoms and self.may(0.75):
            return self.rand.choice(source.atoms)
        if self.may(0.05):
            return "NULL", 0
        number = self.rand.choice((0, 1, 2, 3, 5, 10, 20))
        return str(number), number

    def aggregate(self, source):
        self.note("aggregate")
        kind = self.rand.choice(("COUNT(*)", "COUNT", "SUM", "AVG", "MIN", "MAX"))
        if kind == "COUNT(*)":
            return kind, 512
        text, most = self.expr(source, 1)
        if most > MOST_ADDED:
            text, most = self.rand.choice(source.atoms) if source.atoms else ("1", 1)
        every = self.rand.choice(("", "", "DISTINCT "))
        if kind == "AVG":
            return f"{{AVG({every}{text})|(SUM({every}{text}) / COUNT({every}{text}))}}", most
        return f"{kind}({every}{text})", {"COUNT": 512, "SUM": 512 * most}.get(kind, most)

    # Tests.

    def test(self, source, depth=2):
        text = " AND ".join(self.negated(source, depth) for _ in range(self.rand.choice((1, 1, 1, 1, 2, 2, 3))))
        return f"{text} OR {self.test(source, depth - 1)}" if depth and self.may(0.3) else text

    def negated(self, source, depth):
        if depth > 0 and self.may(0.15):
            return f"{self.rand.choice(('', 'NOT '))}({self.test(source, depth - 1)})"
        return self.rand.choice(("", "", "", "", "NOT ")) + self.basic(source, depth)

    def basic(self, source, depth):
        depth = max(depth - 1, 0)
        kind = self.rand.choice(("compare",) * 5 + ("key", "IS NULL", "BETWEEN", "list", "IN", "EXISTS"))
        if kind == "EXISTS":
            return f"EXISTS ({self.inner('EXISTS', 2)})" if depth else "1 = 1"
        if kind == "key":
            return self.key_test(source)
        text, _ = self.expr(source, depth)
        if kind == "IS NULL":
            return f"{text} IS {self.rand.choice(('', 'NOT '))}NULL"
        if kind == "compare" or not depth:
            return f"{text} {self.compare()} {self.expr(source, depth)[0]}"
        turned = self.rand.choice(("", "", "NOT "))
        if kind == "BETWEEN":
            return f"{text} {turned}BETWEEN {self.expr(source, 0)[0]} AND {self.expr(source, depth)[0]}"
        if kind == "IN":
            return f"{text} {turned}IN ({self.inner('IN', 1)})"
        return f"{text} {turned}IN ({', '.join(self.expr(source, 0)[0] for _ in range(self.rand.randint(1, 4)))})"

    def compare(self):
        return self.rand.choice(("=", "<>", "<>", "<", "<=", "<=", ">", ">=", ">="))

    def key_test(self, source):
        """A column beside a constant, as tests of keys are."""
        text, _ = self.rand.choice(source.atoms or [("1", 1)])
        number = self.rand.randint(0, 6)
        return f"{text} {self.compare()} {number}" if self.may(0.8) else f"{number} {self.compare()} {text}"

    # Inner queries.

    def inner(self, form, most_items):
        self.note(form)
        self.deep += 1
        query = self.query(most_items)
        self.deep -= 1
        return query.text

    def inner_value(self):
        """An inner query of one row at most."""
        if self.deep > 1:
            return "2", 2
        self.note("value")
        self.deep += 1
        text, most = self.one_row()
        self.deep -= 1
        return f"({text})", most

    def one_row(self):
        come, columns = self.references(self.rand.choice((1, 1, 2)))
        kind = self.rand.choice(("key", "first", "sum", "sum"))
        if kind == "key":
            table, number = self.rand.choice(TABLES), self.rand.randint(0, 6)
            return f"SELECT {self.rand.choice('kv')} FROM {table} WHERE k = {number}", 20
        where = self.clause("WHERE", Source(columns), 0.5)
        if kind == "first":
            item, most = self.expr(Source(columns), 1)
            return f"SELECT {{TOP 1 |}}{item}{come}{where} ORDER BY 1{self.rand.choice(('', ' DESC'))}{{| LIMIT 1}}", most
        item, most = self.aggregate(Source(columns))
        return f"SELECT {item}{come}{where}{self.clause('HAVING', Source([], Source(columns)), 0.2)}", most

    # Queries.

    def clause(self, word, source, chance):
        if not self.may(chance):
            return ""
        self.note(word)
        return f" {word} {self.test(source)}"

    def references(self, count):
        """FROM with so many references, and their columns."""
        text, columns = "", []
        for name in "abc"[:count]:
            table = self.rand.choice(TABLES)
            columns = columns + [(f"{name}.k", 10), (f"{name}.v", 20)]
            if not text:
                text = f" FROM {table} {name}"
                continue
            kind = self.rand.choice((",", " CROSS JOIN", " JOIN", " LEFT JOIN", " LEFT JOIN"))
            self.note("comma" if kind == "," else kind.strip())
            text = f"{text}{kind} {table} {name}"
            if kind in (" JOIN", " LEFT JOIN"):
                text += f" ON {self.on(columns)}"
        return text, columns

    def on(self, columns):
        if self.may(0.5):
            left, right = self.rand.choice(columns[:-2])[0], self.rand.choice(columns[-2:])[0]
            return f"{left} {self.compare()} {right}"
        return self.test(Source(columns), 1)

    def query(self, most_items=4):
        count = self.rand.choice((1, 1, 2, 2, 3) if self.deep == 0 else (1, 1, 2))
        come, columns = self.references(count) if self.may(0.97) else ("", [])
        where = self.clause("WHERE", Source(columns), 0.5)
        kind = self.rand.choice(("plain", "plain", "grouped", "star"))
        if kind == "grouped":
            return self.grouped(come, columns, where, most_items)
        if kind == "star" and columns and most_items > 1:
            return self.star(come, columns, where)
        source = Source(columns)
        items, names = self.items(source, most_items)
        return self.whole(items, names, f"{come}{where}", source)

    def grouped(self, come, columns, where, most_items):
        self.note("grouped")
        keys = [self.key(columns) for _ in range(self.rand.choice((0, 1, 1, 2)))] if columns else []
        atoms = [(text if re.fullmatch(r"\w\.\w", text) else f"({text})", most) for text, most in keys]
        source = Source(atoms, Source(columns))
        group = f" GROUP BY {', '.join(text for text, _ in keys)}" if keys else ""
        if keys:
            self.note("GROUP BY")
        items, names = self.items(source, most_items)
        if not keys:
            items[0], names[0] = self.aggregate(Source(columns))[0], ""
        having = self.clause("HAVING", source, 0.4)
        return self.whole(items, names, f"{come}{where}{group}{having}", source)

    def key(self, columns):
        column, most = self.rand.choice(columns)
        if self.may(0.6):
            return column, most
        other, by = self.rand.choice(columns)
        return self.rand.choice((
            (f"{column} % {self.rand.randint(2, 4)}", 4),
            (f"{column} + {other}", most + by),
            (f"NULLIF({column}, {other})", most),
            (f"CASE WHEN {column} > {other} THEN 1 ELSE {column} END", most),
        ))

    def star(self, come, columns, where):
        self.note("star")
        names = [text[:1] for text, _ in columns[::2]]
        if self.may(0.6):
            return self.whole(["*"], [text[2:] for text, _ in columns], f"{come}{where}", Source(columns))
        name = self.rand.choice(names)
        items, others = self.items(Source(columns), 2)
        return self.whole([f"{name}.*", *items], ["k", "v", *others], f"{come}{where}", Source(columns))

    def items(self, source, most_items):
        """Items, and the names of their columns."""
        items, names = [], []
        for at in range(self.rand.randint(1, most_items)):
            text, _ = self.expr(source)
            column = re.fullmatch(r"\(*[abc]\.([kv])\)*", text)
            name = column[1] if column else ""
            if self.may(0.3):
                name = f"x{at}"
                text = f"{text} AS {name}"
            items.append(text)
            names.append(name)
        return items, names

    def whole(self, items, names, rest, source):
        every = self.rand.choice(("", "", "DISTINCT "))
        first, last, order = "", "", ""
        is_ordered = self.deep == 0 and self.may(0.6)
        if every:
            self.note("DISTINCT")
        if is_ordered:
            self.note("ORDER BY")
            order = " ORDER BY " + ", ".join(self.orders(names, source, every))
            if self.may(0.4):
                self.note("TOP")
                number = self.rand.choice((0, 1, 1, 2, 2, 3, 5, 100))
                first, last = f"{{TOP {number} |}}", f"{{| LIMIT {number}}}"
        text = f"SELECT {every}{first}{', '.join(items)}{rest}{order}{last}"
        return Query(text, names, is_ordered)

    def orders(self, names, source, every):
        """Keys of an order in which rows that tie are equal: each item, and before them anything."""
        places = list(range(1, len(names) + 1))
        self.rand.shuffle(places)
        keys = [str(place) for place in places]
        if not every and source.atoms and self.may(0.5):
            keys.insert(0, f"{self.rand.choice(source.atoms)[0]} * {self.rand.randint(1, 3)} % 4")
        return [key + self.rand.choice(("", " ASC", " DESC")) for key in keys]


# ---- answers


def made_tables(rand):
    """Rows for each table; one has none."""
    return {
        name: {key: rand.choice((0, 1, 2, 2, 3, 10, 20)) for key in rand.sample(range(7), 0 if name == "e" else rand.randint(2, 6))}
        for name in dict.fromkeys(TABLES)
    }


def setup(tables):
    """The statements that make tables with these rows."""
    for name, content in tables.items():
        yield f"CREATE TABLE {name} (k INT NOT NULL PRIMARY KEY, v INT NOT NULL)"
        for key, value in content.items():
            yield f"INSERT INTO {name} VALUES ({key}, {value})"


def ours(program, tables, batches):
    """The tables that tsqld answers to each query of each batch: its columns, and its rows."""
    texts = [*setup(tables), *(" ".join(chosen(query.text, 1) + ";" for query in batch) for batch in batches)]
    sent = b"".join(rows.batch(text) for text in texts)
    run = subprocess.run([program, "pipe", "--bare"], input=sent, stdout=subprocess.PIPE, check=False)
    if run.returncode != 0:
        sys.exit(f"{program} ended with status {run.returncode}")
    replies = [rows.Tokens(payload).lines() for _, payload in rows.replies_of(run.stdout)]
    return [tables_of(lines) for lines in replies[-len(batches) :]]


def tables_of(lines):
    found = []
    for line in lines:
        if line.startswith("COL("):
            found.append((line[4:-1].split(", "), []))
        elif line.startswith("ROW("):
            found[-1][1].append(tuple(None if word == "NULL" else int(word) for word in line[4:-1].split(", ")))
        elif line.startswith("DONE(11,C1,") and line != f"DONE(11,C1,{len(found[-1][1])})":
            found.append(([line], []))
        elif not line.startswith("DONE("):
            found.append(([line], []))
    return found


def theirs(tables, query):
    base = sqlite3.connect(":memory:")
    for text in setup(tables):
        base.execute(text)
    return base.execute(chosen(query.text, 2)).fetchall()


def sorted_rows(given):
    return sorted(given, key=lambda row: [(value is not None, value or 0) for value in row])


def is_same(query, answer, wanted):
    columns, given = answer
    if columns != [f"{name} INT" for name in query.names]:
        return False
    return given == wanted if query.is_ordered else sorted_rows(given) == sorted_rows(wanted)


def fewest(program, tables, query):
    """The tables, without the rows that are not needed for a difference."""
    for name in tables:
        for key in list(tables[name]):
            fewer = {**tables, name: {other: value for other, value in tables[name].items() if other != key}}
            found = ours(program, fewer, [[query]])[0]
            if not found or not is_same(query, found[0], theirs(fewer, query)):
                tables = fewer
    return tables


def show(program, tables, query):
    tables = fewest(program, tables, query)
    for text in setup(tables):
        print(text)
    print(f"tsqld:  {chosen(query.text, 1)}\nSQLite: {chosen(query.text, 2)}")
    print(f"tsqld:  {ours(program, tables, [[query]])[0]}\nSQLite: {theirs(tables, query)}")


def main():
    words = argparse.ArgumentParser(description=__doc__, formatter_class=argparse.RawDescriptionHelpFormatter)
    words.add_argument("--bin", default=dist.current() or dist.BUILT, help="the program, without it that of these sources")
    words.add_argument("--queries", type=int, default=1000)
    words.add_argument("--seed", type=int, default=1)
    said = words.parse_args()
    if not os.path.exists(said.bin):
        sys.exit(f"{said.bin} is not there: ./tsqld builds it")
    rand, seen, done, found_rows = Random(said.seed), Counter(), 0, 0
    maker = Maker(rand, seen)
    while done < said.queries:
        tables = made_tables(rand)
        queries = [maker.query() for _ in range(QUERIES_OF_TABLES)]
        batches = [queries[at : at + 2] for at in range(0, len(queries), 2)]
        for batch, answers in zip(batches, ours(said.bin, tables, batches)):
            for at, query in enumerate(batch):
                wanted = theirs(tables, query)
                if at >= len(answers) or not is_same(query, answers[at], wanted):
                    print(f"after {done} queries these differ:")
                    show(said.bin, tables, query)
                    sys.exit(1)
                done, found_rows = done + 1, found_rows + len(wanted)
    print(f"{done} queries agree, with {found_rows} rows: " + ", ".join(f"{form} {count}" for form, count in seen.most_common()))


if __name__ == "__main__":
    main()
