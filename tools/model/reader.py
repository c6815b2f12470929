"""Reads statements and definitions by descent: a method for each production of docs/LANGUAGE.md, "Grammar"."""
from . import trees
from .phrases import Phrases

EVENTS = ("INSERT", "UPDATE", "DELETE")

# The options that are ON or OFF and change nothing, each with the settings that are known.
FIXED = {
    **dict.fromkeys(
        ("ANSI_NULLS", "ANSI_NULL_DFLT_ON", "ANSI_PADDING", "ANSI_WARNINGS", "ARITHABORT", "CONCAT_NULL_YIELDS_NULL", "QUOTED_IDENTIFIER"),
        ("ON",),
    ),
    **dict.fromkeys(("FMTONLY", "NUMERIC_ROUNDABORT"), ("OFF",)),
    "CURSOR_CLOSE_ON_COMMIT": ("ON", "OFF"),
}
LEVELS = {
    ("READ", "COMMITTED"): True,
    ("READ", "UNCOMMITTED"): False,
    ("REPEATABLE", "READ"): False,
    ("SERIALIZABLE",): True,
    ("SNAPSHOT",): False,
}
PRIORITIES = ("LOW", "NORMAL", "HIGH")

# Options that are set to a number, or to a name, and change nothing, each with what is known of it.
NUMBERS = {"DATEFIRST": 7, "ROWCOUNT": 0}
NAMES = {"DATEFORMAT": ("MDY", "DMY", "YMD", "YDM", "MYD", "DYM"), "LANGUAGE": ("US_ENGLISH", "ENGLISH")}


class Reader(Phrases):
    """Reads one text."""

    # Statements that read and write.

    def select(self):
        return trees.Select(self.query())

    def insert(self):
        self.want("INSERT")
        self.take("INTO")
        table = self.table()
        columns = self.in_parentheses(lambda: self.list_of(self.name)) if self.is_sign("(") else None
        if self.take("VALUES"):
            return trees.Insert(table, columns, self.list_of(self.row))
        return trees.Insert(table, columns, self.query())

    def row(self):
        return self.in_parentheses(lambda: self.list_of(self.expr))

    def update(self):
        self.want("UPDATE")
        table = self.table()
        self.want("SET")
        sets = self.list_of(lambda: (self.name(), self.assigned()))
        return trees.Update(table, sets, self.test() if self.take("WHERE") else None)

    def delete(self):
        self.want("DELETE")
        self.take("FROM")
        return trees.Delete(self.table(), self.test() if self.take("WHERE") else None)

    def create(self):
        self.want("CREATE", "TABLE")
        table = trees.Table(self.object_name(), [], [], [], [])
        self.in_parentheses(lambda: self.list_of(lambda: self.part_of_table(table)))
        return trees.CreateTable(table)

    def part_of_table(self, table):
        if self.take("PRIMARY"):
            self.want("KEY")
            table.key = self.in_parentheses(lambda: self.list_of(self.name))
            return
        column = trees.Column(self.name(), self.kind(), False)
        table.columns.append(column)
        while self.is_word("NOT", "NULL", "PRIMARY", "CHECK", "REFERENCES"):
            self.part_of_column(table, column)

    def part_of_column(self, table, column):
        if self.take("NOT"):
            self.want("NULL")
            column.is_required = True
        elif self.take("PRIMARY"):
            self.want("KEY")
            table.key = [column.name]
        elif self.take("CHECK"):
            table.checks.append(self.in_parentheses(self.test))
        elif self.take("REFERENCES"):
            table.foreigns.append(trees.Foreign(column.name, self.table()))
            if self.is_sign("("):
                self.in_parentheses(self.name)
        else:
            self.want("NULL")

    def drop(self):
        self.want("DROP")
        if self.take("TABLE"):
            return trees.Drop(trees.Table, self.object_name())
        if self.take("PROCEDURE", "PROC"):
            return trees.Drop(trees.Procedure, self.object_name())
        self.want("TRIGGER")
        return trees.Drop(trees.Trigger, self.object_name())

    # Statements that hold statements, and what leaves them.

    def if_(self):
        self.want("IF")
        test, body, behind = self.test(), self.statement(), self.at
        self.take_sign(";")
        if self.take("ELSE"):
            return trees.If(test, body, self.statement())
        self.at = behind
        return trees.If(test, body, None)

    def while_(self):
        self.want("WHILE")
        test = self.test()
        self.loops += 1
        body = self.statement()
        self.loops -= 1
        return trees.While(test, body)

    def break_(self):
        self.want("BREAK")
        return trees.Break() if self.loops else self.fail()

    def continue_(self):
        self.want("CONTINUE")
        return trees.Continue() if self.loops else self.fail()

    def begin(self):
        self.want("BEGIN")
        if self.take("TRAN", "TRANSACTION"):
            return trees.BeginTransaction(self.optional_name())
        if self.take("TRY"):
            return self.try_()
        body = self.body(lambda: self.take("END"))
        return trees.Block(body) if body else self.fail()

    def try_(self):
        body = self.body(lambda: self.take_end("TRY"))
        self.take_sign(";")
        self.want("BEGIN", "CATCH")
        self.handlers += 1
        handler = self.body(lambda: self.take_end("CATCH"))
        self.handlers -= 1
        return trees.Try(body, handler)

    def take_end(self, word):
        if not self.is_word("END"):
            return False
        self.want("END", word)
        return True

    def body(self, is_ended):
        found = []
        while True:
            if self.take_sign(";"):
                continue
            if is_ended():
                return found
            found.append(self.statement())

    def return_(self):
        self.want("RETURN")
        return trees.Return(self.expr() if self.is_value() or self.is_sign("(", "+") or self.is_word("CAST") else None)

    def is_value(self):
        """Whether what begins a constant or a variable stands here."""
        return self.peek().kind in ("number", "text", "variable") or self.is_sign("-") or self.is_word("NULL")

    # Statements on messages, variables, options, transactions and cursors.

    def print_(self):
        self.want("PRINT")
        return trees.Print(self.expr())

    def raiserror(self):
        self.want("RAISERROR")
        arguments = self.in_parentheses(lambda: self.list_of(self.expr))
        return trees.RaiseError(arguments) if len(arguments) == 3 else self.fail()

    def throw(self):
        self.want("THROW")
        if self.peek().kind not in ("number", "variable", "text"):
            return trees.Throw([]) if self.handlers else self.fail()
        arguments = self.list_of(self.expr)
        return trees.Throw(arguments) if len(arguments) == 3 else self.fail()

    def declare(self):
        self.want("DECLARE")
        if self.is_variable():
            return trees.Declare(self.list_of(self.declaration))
        name = self.name()
        self.want("CURSOR")
        self.take("LOCAL", "GLOBAL")
        self.take("STATIC")
        self.take("READ_ONLY")
        self.want("FOR")
        return trees.DeclareCursor(name, self.query())

    def declaration(self):
        name = self.new_variable()
        self.take("AS")
        kind = self.kind()
        return trees.Declaration(name, kind, self.assigned() if self.is_sign("=") else None)

    def set_(self):
        self.want("SET")
        if self.is_variable():
            return trees.SetVariable(self.variable(), self.assigned())
        if self.is_word("XACT_ABORT", "NOCOUNT", "IMPLICIT_TRANSACTIONS"):
            option = self.advance().value.upper()
            return trees.SetOption(option, self.on_or_off() == "ON")
        return trees.SetOther(self.is_known())

    def on_or_off(self):
        if not self.is_word("ON", "OFF"):
            self.fail()
        return self.advance().value.upper()

    def is_known(self):
        """Whether the setting of an option is known that changes nothing for a session by itself."""
        if self.is_word(*FIXED):
            settings = FIXED[self.advance().value.upper()]
            return self.on_or_off() in settings
        if self.take("TRANSACTION"):
            self.want("ISOLATION", "LEVEL")
            return self.level()
        if self.take("TEXTSIZE"):
            self.signed()
            return True
        if self.take("LOCK_TIMEOUT"):
            return self.signed() in (0, -1)
        if self.is_word(*NUMBERS):
            known = NUMBERS[self.advance().value.upper()]
            return self.signed() == known
        if self.is_word(*NAMES):
            known = NAMES[self.advance().value.upper()]
            return self.name_or_text().upper() in known
        self.want("DEADLOCK_PRIORITY")
        return self.take(*PRIORITIES) or -10 <= self.signed() <= 10

    def level(self):
        """Whether the level that stands here is served."""
        for words, is_served in LEVELS.items():
            if all(self.is_word(word, behind=place) for place, word in enumerate(words)):
                self.at += len(words)
                return is_served
        self.fail()

    def signed(self):
        sign = -1 if self.take_sign("-") else 1
        return sign * self.number()

    def name_or_text(self):
        return self.advance().value if self.peek().kind == "text" else self.name()

    def commit(self):
        self.want("COMMIT")
        if self.take("TRAN", "TRANSACTION"):
            self.optional_name()
        return trees.Commit()

    def rollback(self):
        self.want("ROLLBACK")
        return trees.Rollback(self.optional_name() if self.take("TRAN", "TRANSACTION") else None)

    def save(self):
        self.want("SAVE")
        if not self.take("TRAN", "TRANSACTION"):
            self.fail()
        return trees.Save(self.name())

    def optional_name(self):
        return self.name() if self.is_name() else None

    def open_(self):
        self.want("OPEN")
        return trees.OpenCursor(self.name())

    def fetch(self):
        self.want("FETCH")
        self.take("NEXT")
        self.want("FROM")
        name = self.name()
        self.want("INTO")
        return trees.Fetch(name, self.list_of(self.variable))

    def close(self):
        self.want("CLOSE")
        return trees.CloseCursor(self.name())

    def deallocate(self):
        self.want("DEALLOCATE")
        return trees.Deallocate(self.name())

    def use(self):
        self.want("USE")
        return trees.Use(self.name())

    # Calls.

    def execute(self):
        self.advance()
        status = None
        if self.is_variable():
            status = self.variable()
            self.want_sign("=")
        name = self.object_name()
        return trees.Execute(status, name, self.list_of(self.argument) if self.is_value() else [])

    def argument(self):
        parameter = None
        if self.is_variable() and self.is_sign("=", behind=1):
            parameter = self.any_variable().value
            self.want_sign("=")
        value = self.argument_value()
        return trees.Argument(parameter, value, self.take("OUTPUT", "OUT"))

    def argument_value(self):
        if self.is_variable():
            return trees.Variable(self.variable())
        if self.take("NULL"):
            return None
        if self.take_sign("-"):
            return -self.number()
        return self.advance().value if self.peek().kind == "text" else self.number()

    # Statements, definitions and batches.

    def statement(self):
        lexeme = self.peek()
        read = STATEMENTS.get(lexeme.value.upper()) if lexeme.kind == "word" else None
        if read is None:
            self.fail()
        found = read(self)
        found.line = lexeme.line - self.first_line + 1
        return found

    def batch(self):
        """The definition that the text is, or the list of its statements."""
        if self.is_word("CREATE") and self.is_word("PROCEDURE", "PROC", "TRIGGER", behind=1):
            return self.definition()
        return self.body(self.is_over)

    def definition(self):
        """Its lines are counted from that of CREATE, which is its own."""
        line = self.advance().line
        self.first_line = line
        found = self.trigger() if self.take("TRIGGER") else self.procedure()
        found.line = line
        return found

    def trigger(self):
        name = self.object_name()
        self.want("ON")
        table = self.object_name()
        if not self.take("AFTER", "FOR"):
            self.fail()
        events = self.list_of(self.event)
        self.want("AS")
        return trees.Trigger(name, table, events, self.body(self.is_over))

    def event(self):
        return self.advance().value.upper() if self.is_word(*EVENTS) else self.fail()

    def procedure(self):
        self.advance()
        name = self.object_name()
        parameters = self.list_of(self.parameter) if self.is_variable() else []
        self.want("AS")
        return trees.Procedure(name, parameters, self.body(self.is_over))

    def parameter(self):
        return trees.Parameter(self.new_variable(), self.kind(), self.take("OUTPUT", "OUT"))


STATEMENTS = {
    "SELECT": Reader.select,
    "INSERT": Reader.insert,
    "UPDATE": Reader.update,
    "DELETE": Reader.delete,
    "CREATE": Reader.create,
    "DROP": Reader.drop,
    "IF": Reader.if_,
    "WHILE": Reader.while_,
    "BREAK": Reader.break_,
    "CONTINUE": Reader.continue_,
    "BEGIN": Reader.begin,
    "RETURN": Reader.return_,
    "PRINT": Reader.print_,
    "RAISERROR": Reader.raiserror,
    "THROW": Reader.throw,
    "DECLARE": Reader.declare,
    "SET": Reader.set_,
    "COMMIT": Reader.commit,
    "ROLLBACK": Reader.rollback,
    "SAVE": Reader.save,
    "OPEN": Reader.open_,
    "FETCH": Reader.fetch,
    "CLOSE": Reader.close,
    "DEALLOCATE": Reader.deallocate,
    "USE": Reader.use,
    "EXEC": Reader.execute,
    "EXECUTE": Reader.execute,
}
