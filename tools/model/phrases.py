"""Reads the parts of statements by descent: a method for each production of docs/LANGUAGE.md, "Grammar"."""
from typing import NamedTuple

from . import trees
from .lexemes import Lexeme, Unread, lexemes_of
from .values import RANKS, Kind

RESERVED = set(
    """AND AS ASC BEGIN BETWEEN BREAK BY CASE CHECK CLOSE COALESCE COMMIT CONSTRAINT CONTINUE CREATE CROSS CURSOR
    DEALLOCATE DECLARE DELETE DESC DISTINCT DROP ELSE END EXCEPT EXEC EXECUTE FETCH FOR FOREIGN FROM FULL GROUP HAVING
    IF IN INNER INSERT INTERSECT INTO IS JOIN KEY LEFT NOT NULL NULLIF ON OPEN OR ORDER OUTER PRIMARY PRINT PROC
    PROCEDURE RAISERROR REFERENCES RETURN RIGHT ROLLBACK SAVE SELECT SET TABLE THEN THROW TOP TRAN TRANSACTION TRIGGER
    UNION UNIQUE UPDATE USE VALUES WHEN WHERE WHILE""".split()
)
AGGREGATES = ("COUNT", "SUM", "MIN", "MAX")
ERRORS = ("NUMBER", "SEVERITY", "STATE", "LINE", "MESSAGE", "PROCEDURE")
SYSTEM = ("XACT_STATE", *(f"ERROR_{word}" for word in ERRORS), "SCHEMA_NAME", "DB_NAME", "USER_NAME")
SYSTEM_NAMES = (
    "@@TRANCOUNT", "@@ERROR", "@@ROWCOUNT", "@@FETCH_STATUS", "@@VERSION", "@@SERVERNAME", "@@MAX_PRECISION"
)
COMPARES = ("=", "<>", "!=", "<", "<=", ">", ">=")
END = Lexeme("end", "", 0)


class Flaw(NamedTuple):
    """What is wrong in a text that reads: the number of an error, the name in its text, and its line."""

    number: int
    name: str
    line: int


class Phrases:
    """Reads names, types, expressions, tests and queries of one text. `flaw` is the first that was found, `declared`
    the variables so far; `loops` and `handlers` are how many WHILEs and CATCHs are open."""

    def __init__(self, text):
        self.lexemes, self.at, self.first_line = lexemes_of(text), 0, 1
        self.flaw, self.declared = None, set()
        self.loops = self.handlers = 0

    # Lexemes.

    def peek(self, behind=0):
        place = self.at + behind
        return self.lexemes[place] if place < len(self.lexemes) else END

    def advance(self):
        lexeme = self.peek()
        self.at += 1
        return lexeme

    def is_over(self):
        return self.at >= len(self.lexemes)

    def fail(self):
        raise Unread(f"line {self.peek().line}: {self.peek().value!r}")

    def is_word(self, *words, behind=0):
        """Whether the next one is one of these words of the grammar."""
        lexeme = self.peek(behind)
        return lexeme.kind == "word" and lexeme.value.upper() in words

    def is_sign(self, *signs, behind=0):
        lexeme = self.peek(behind)
        return lexeme.kind == "sign" and lexeme.value in signs

    def take(self, *words):
        """Passes one of these words, where it stands here."""
        if self.is_word(*words):
            self.at += 1
            return True
        return False

    def take_sign(self, sign):
        if self.is_sign(sign):
            self.at += 1
            return True
        return False

    def want(self, *words):
        """Passes these words, one after another."""
        for word in words:
            if not self.take(word):
                self.fail()

    def want_sign(self, sign):
        if not self.take_sign(sign):
            self.fail()

    def is_name(self):
        return self.peek().kind == "name" or (self.peek().kind == "word" and not self.is_word(*RESERVED))

    def name(self):
        if not self.is_name():
            self.fail()
        return self.advance().value

    def object_name(self):
        """A name, with that of the schema before it or not."""
        name = self.name()
        if not self.take_sign("."):
            return name
        if name != "dbo":
            self.fail()
        return self.name()

    def table(self):
        return trees.TableName(self.object_name())

    def number(self):
        if self.peek().kind != "number":
            self.fail()
        return self.advance().value

    def kind(self):
        if self.peek().kind != "word":
            self.fail()
        name = self.name().upper()
        if name == "NVARCHAR":
            self.want_sign("(")
            size = self.number()
            self.want_sign(")")
            return Kind(name, size)
        name = "INT" if name == "INTEGER" else name
        if name not in RANKS:
            self.fail()
        return Kind(name)

    def list_of(self, read):
        found = [read()]
        while self.take_sign(","):
            found.append(read())
        return found

    def in_parentheses(self, read):
        self.want_sign("(")
        found = read()
        self.want_sign(")")
        return found

    # Variables.

    def is_variable(self, behind=0):
        lexeme = self.peek(behind)
        return lexeme.kind == "variable" and not lexeme.value.startswith("@@")

    def note(self, number, lexeme):
        if self.flaw is None:
            self.flaw = Flaw(number, lexeme.value, lexeme.line)

    def any_variable(self):
        if not self.is_variable():
            self.fail()
        return self.advance()

    def variable(self):
        """One that is used."""
        lexeme = self.any_variable()
        if lexeme.value not in self.declared:
            self.note(137, lexeme)
        return lexeme.value

    def new_variable(self):
        """One that is declared."""
        lexeme = self.any_variable()
        if lexeme.value in self.declared:
            self.note(49013, lexeme)
        self.declared.add(lexeme.value)
        return lexeme.value

    # Tests.

    def test(self):
        found = self.and_test()
        while self.take("OR"):
            found = trees.Or(found, self.and_test())
        return found

    def and_test(self):
        found = self.not_test()
        while self.take("AND"):
            found = trees.And(found, self.not_test())
        return found

    def not_test(self):
        return trees.Not(self.not_test()) if self.take("NOT") else self.basic()

    def basic(self):
        if self.is_word("EXISTS") and self.is_sign("(", behind=1):
            self.advance()
            return trees.Exists(self.in_parentheses(self.query))
        left = self.expr()
        if self.take("IS"):
            is_turned = self.take("NOT")
            self.want("NULL")
            return trees.Not(trees.IsNull(left)) if is_turned else trees.IsNull(left)
        if not self.is_sign(*COMPARES):
            self.fail()
        return trees.Compared(left, self.advance().value, self.expr())

    # Expressions.

    def expr(self):
        found = self.product()
        while self.is_sign("+", "-"):
            found = trees.Computed(found, self.advance().value, self.product())
        return found

    def product(self):
        found = self.unary()
        while self.is_sign("*", "/", "%"):
            found = trees.Computed(found, self.advance().value, self.unary())
        return found

    def unary(self):
        if self.take_sign("-"):
            return trees.Negative(self.unary())
        return self.unary() if self.take_sign("+") else self.primary()

    def primary(self):
        lexeme = self.peek()
        if lexeme.kind == "number":
            return trees.Number(self.advance().value)
        if lexeme.kind == "text":
            return trees.Text(self.advance().value)
        if lexeme.kind == "variable":
            return trees.Variable(self.variable()) if self.is_variable() else self.system_name()
        if self.is_sign("("):
            return self.in_parentheses(self.inner_or_expr)
        if self.take("NULL"):
            return trees.Null()
        if self.is_sign("(", behind=1):
            return self.function()
        name = self.name()
        return trees.ColumnName(name, self.name()) if self.take_sign(".") else trees.ColumnName(None, name)

    def inner_or_expr(self):
        return trees.Inner(self.query()) if self.is_word("SELECT") else self.expr()

    def system_name(self):
        name = self.advance().value.upper()
        if name not in SYSTEM_NAMES:
            self.fail()
        return trees.System(name)

    def function(self):
        if self.take("CAST"):
            return self.in_parentheses(self.cast)
        if self.take("LEN"):
            return trees.Length(self.in_parentheses(self.expr))
        if self.is_word(*AGGREGATES):
            function = self.advance().value.upper()
            return trees.Aggregate(function, self.in_parentheses(lambda: self.counted(function)))
        if not self.is_word(*SYSTEM):
            self.fail()
        name = self.advance().value.upper()
        self.want_sign("(")
        self.want_sign(")")
        return trees.System(name)

    def cast(self):
        found = self.expr()
        self.want("AS")
        return trees.Cast(found, self.kind())

    def counted(self, function):
        return None if function == "COUNT" and self.take_sign("*") else self.expr()

    # Queries.

    def query(self):
        self.want("SELECT")
        items = self.list_of(self.item)
        if len({isinstance(item, trees.Assignment) for item in items}) > 1:
            self.fail()
        references = self.references() if self.take("FROM") else []
        where = self.test() if self.take("WHERE") else None
        groups, orders = [], []
        if self.take("GROUP"):
            self.want("BY")
            groups = self.list_of(self.expr)
        if self.take("ORDER"):
            self.want("BY")
            orders = self.list_of(self.order)
        return trees.Query(items, references, where, groups, orders)

    def item(self):
        if self.take_sign("*"):
            return trees.Star()
        if self.is_variable() and self.is_sign("=", behind=1):
            return trees.Assignment(self.variable(), self.assigned())
        found = self.expr()
        name = found.name if isinstance(found, trees.ColumnName) else ""
        return trees.Item(found, self.alias(name))

    def alias(self, other):
        """The name behind AS or alone, if one stands there."""
        if self.take("AS") or self.is_name():
            return self.name()
        return other

    def assigned(self):
        self.want_sign("=")
        return self.expr()

    def references(self):
        found = [self.reference("CROSS")]
        while True:
            if self.take_sign(","):
                found.append(self.reference("CROSS"))
            elif self.is_word("CROSS"):
                self.want("CROSS", "JOIN")
                found.append(self.reference("CROSS"))
            elif self.is_word("LEFT", "INNER", "JOIN"):
                found.append(self.joined())
            else:
                return found

    def reference(self, kind):
        table = self.table()
        return trees.Reference(kind, table, self.alias(table))

    def joined(self):
        kind = "INNER"
        if self.take("LEFT"):
            self.take("OUTER")
            kind = "LEFT"
        else:
            self.take("INNER")
        self.want("JOIN")
        found = self.reference(kind)
        self.want("ON")
        found.on = self.test()
        return found

    def order(self):
        found = self.expr()
        is_descending = self.take("DESC")
        if not is_descending:
            self.take("ASC")
        return trees.Order(found, is_descending)
