"""What a session keeps from batch to batch, in which transaction a statement works, how it ends, and where an error
goes."""
from contextlib import contextmanager
from dataclasses import dataclass, replace
from enum import Enum, auto
from typing import Any, NamedTuple, Optional

from . import trees
from .answers import Scope
from .database import Database, Transaction
from .errors import L, N, S, T, Raised, raised_by
from .lexemes import Unread
from .reader import Reader
from .values import Failure, Kind, converted

# Behind so many statements of a batch, and pairs that its joins try, the model gives up: the limits are far above.
MOST_STEPS = 20_000
WRITES = (trees.Insert, trees.Update, trees.Delete)
TRIGGER_TABLES = ("inserted", "deleted")

# What begins a transaction unseen where IMPLICIT_TRANSACTIONS is ON and none is open, beside a SELECT with FROM.
UNSEEN = WRITES + (trees.CreateTable, trees.Drop, trees.OpenCursor, trees.Fetch, trees.BeginTransaction)
SERVER_VALUES = {
    "@@VERSION": "Microsoft SQL Server protocol, tsqld - 15.0.0.0",
    "@@SERVERNAME": "tsqld",
    "@@MAX_PRECISION": 38,
    "SCHEMA_NAME": "dbo",
    "DB_NAME": "main",
    "USER_NAME": "dbo",
}
CATALOG = "objects"


@dataclass
class Variable:
    kind: Kind
    value: Any = None


@dataclass(frozen=True)
class Options:
    xact_abort: bool = False
    no_count: bool = False
    implicit: bool = False


@dataclass(frozen=True)
class Fired:
    """What a trigger sees: its table, and the rows that its write took away and put there."""

    table: trees.Table
    deleted: list
    inserted: list


@dataclass(frozen=True)
class Around:
    """What stands around a statement: a TRY of its own batch, procedure or trigger; one around what called or fired
    that; the error of the innermost CATCH; the procedure or trigger, which has no name in a batch; how deep it is;
    and what a trigger sees."""

    in_try: bool = False
    in_outer_try: bool = False
    caught: Optional[Raised] = None
    procedure: str = ""
    depth: int = 0
    fired: Optional[Fired] = None

    def within_try(self):
        return replace(self, in_try=True)

    def within_catch(self, raised):
        return replace(self, caught=raised)

    def within_body(self, name, fired):
        return Around(False, self.in_try or self.in_outer_try, self.caught, name, self.depth + 1, fired)

    def catches(self, raised):
        """Whether a TRY around catches this error."""
        return {N: False, L: self.in_outer_try}.get(raised.caught_by(), self.in_try or self.in_outer_try)

    def knows(self, statement, name):
        """Whether a name is not looked up, and what it stands for then. In a trigger `inserted` and `deleted` are its
        rows where they are read, and else nothing."""
        if self.fired is None or name not in TRIGGER_TABLES:
            return False, None
        is_written = isinstance(statement, WRITES) and statement.table == name
        if is_written or isinstance(statement, (trees.CreateTable, trees.Drop, trees.Execute)):
            return True, None
        return True, replace(self.fired.table, name=name, checks=[], foreigns=[])


class Way(Enum):
    """How a statement is left: the next one comes; a loop is left or turned again; the batch, procedure or trigger
    returns, with a status; it ends by an error that is told; or an error is on its way to a CATCH, that of an outer
    one where it is RAISE_UP."""

    ON = auto()
    LEAVE = auto()
    AGAIN = auto()
    RETURN = auto()
    END = auto()
    RAISE = auto()
    RAISE_UP = auto()


class Exit(NamedTuple):
    way: Way
    of: Any = None

    def has_failed(self):
        return self.way in (Way.END, Way.RAISE, Way.RAISE_UP)


ON, LEAVE, AGAIN, END = Exit(Way.ON), Exit(Way.LEAVE), Exit(Way.AGAIN), Exit(Way.END)

# What each statement means: a function of the session, of what stands around it, and of it. It gives how it is left.
MEANINGS = {}

COMMANDS = {trees.Select: "C1", trees.Insert: "C3", trees.Delete: "C4", trees.Update: "C5"}
CONTROL = (trees.If, trees.While, trees.Break, trees.Continue, trees.Block, trees.Try)
LEAVES_ROW_COUNT = CONTROL + (trees.Declare, trees.DeclareCursor)
REFUSED_DOOMED = WRITES + (trees.CreateTable, trees.Drop, trees.BeginTransaction, trees.Commit, trees.Save)


def meaning_of(*forms):
    """Says that a function is what statements of these forms mean."""

    def register(function):
        MEANINGS.update({form: function for form in forms})
        return function

    return register


def command_of(statement):
    """The command of its DONE."""
    return COMMANDS.get(type(statement), "0")


class Session:
    """`lines` are those of the reply to the batch that runs, `steps` what it has spent of MOST_STEPS."""

    def __init__(self):
        self.database, self.transaction, self.last_number = Database(), None, 0
        self.variables, self.cursors, self.options = {}, {}, Options()
        self.row_count = self.error = self.fetch_status = 0
        self.lines, self.steps = [], 0

    # Batches.

    def batch(self, text):
        """The lines of the reply to a batch."""
        reader = Reader(text)
        read, self.lines, self.steps, around = reader.batch(), [], 0, Around()
        if reader.flaw:
            failure = Failure(reader.flaw.number, reader.flaw.name)
            self.tell("ERROR", raised_by(failure, "", reader.flaw.line))
            exit = END
        elif isinstance(read, list):
            self.variables = variables_of(read)
            exit = self.run_all(around, read)
        else:
            exit = self.define(around, read)
        self.end_batch(exit.has_failed())
        return self.lines

    def end_batch(self, has_failed):
        if self.is_doomed():
            self.tell("ERROR", raised_by(Failure(3998), "", 1))
            self.roll_back_told()
            has_failed = True
        self.lines.append(f"DONE({'02' if has_failed else '00'},0,0)")

    def define(self, around, definition):
        """A batch that is the definition of a procedure or trigger."""
        if self.wants_begin():
            self.begin_told(None)
        return MEANINGS[type(definition)](self, around, definition)

    def run_all(self, around, statements):
        for statement in statements:
            exit = self.run(around, statement)
            if exit != ON:
                return exit
        return ON

    def run(self, around, statement):
        self.spend(1)
        try:
            if self.begins_unseen(statement):
                self.begin_told(None)
            if self.is_doomed() and isinstance(statement, REFUSED_DOOMED):
                raise Failure(3930)
            return MEANINGS[type(statement)](self, around, statement)
        except Failure as failure:
            return self.fails(around, statement, failure)

    def wants_begin(self):
        return self.options.implicit and not self.transaction

    def begins_unseen(self, statement):
        if not self.wants_begin():
            return False
        if isinstance(statement, trees.Select):
            return bool(statement.query.references)
        return isinstance(statement, UNSEEN)

    def spend(self, steps):
        """A statement begins, a WHILE again too, or pairs are tried."""
        self.steps += steps
        if self.steps > MOST_STEPS:
            raise Unread(f"more than {MOST_STEPS} steps")

    # How a statement ends.

    def succeeds(self, statement, rows=0):
        self.count_rows(statement, rows)
        self.error = 0
        return ON

    def count_rows(self, statement, rows):
        if not isinstance(statement, LEAVES_ROW_COUNT):
            self.row_count = rows

    def fails(self, around, statement, failure):
        return self.raises(around, statement, raised_by(failure, around.procedure, statement.line))

    def raises(self, around, statement, raised):
        self.count_rows(statement, 0)
        return self.strike(around, command_of(statement), raised)

    def strike(self, around, command, raised):
        """An error arises: one that is caught goes to CATCH and tells nothing, another is told with what it ends."""
        self.error = raised.number
        if around.catches(raised):
            return self.caught(raised)
        self.tell("ERROR", raised)
        if raised.ends(self.options.xact_abort) == S:
            self.done(around, "03", command, 0)
        return self.ended_by(raised)

    def caught(self, raised):
        """It dooms the transaction that it would end. One that an outer TRY catches leaves its procedure or trigger
        first."""
        if raised.ends(self.options.xact_abort) == T and self.transaction and self.transaction.count:
            self.transaction.is_doomed = True
        return Exit(Way.RAISE_UP if raised.caught_by() == L else Way.RAISE, raised)

    def ended_by(self, raised):
        """What an error ends that is not caught."""
        ends = raised.ends(self.options.xact_abort)
        if ends == T:
            self.roll_back_told()
        return ON if ends == S else END

    def tell(self, name, raised):
        self.lines.append(raised.token(name))

    def done(self, around, status, command, rows):
        self.lines.append(f"{'INPROC' if around.depth else 'DONE'}({status},{command},{rows})")

    def counted(self, around, statement, rows, no_count):
        """The DONE of what tells its rows."""
        status, rows = ("01", 0) if no_count else ("11", rows)
        self.done(around, status, command_of(statement), rows)

    # Transactions.

    def count(self):
        """@@TRANCOUNT."""
        return self.transaction.count if self.transaction else 0

    def is_doomed(self):
        return self.transaction is not None and self.transaction.is_doomed

    def is_even(self, count):
        """As many are open as before a call, or the one that a statement of its procedure has begun unseen."""
        return self.count() == count or (self.options.implicit and count == 0 and self.count() == 1)

    def begin(self, is_own):
        self.transaction = Transaction(self.database.copy(), is_own)

    def begin_told(self, name):
        """The outermost BEGIN TRANSACTION."""
        self.begin(is_own=False)
        self.last_number += 1
        self.transaction.number, self.transaction.count, self.transaction.name = self.last_number, 1, name
        self.lines.append(f"ENVCHANGE 8 with {self.last_number}")

    def commit(self):
        self.transaction = None

    def roll_back(self):
        self.database, self.transaction = self.transaction.base, None

    def roll_back_told(self):
        """An open transaction is rolled back, which is told, unless it is a statement's own."""
        ended = self.transaction
        if ended:
            self.roll_back()
            self.tell_end(10, ended)

    def tell_end(self, kind, transaction):
        if not transaction.is_own:
            self.lines.append(f"ENVCHANGE {kind} with {transaction.number}")

    @contextmanager
    def own(self, asks):
        """Within the open transaction or, where something is asked in none, in one of its own."""
        is_begun = asks and self.transaction is None
        if is_begun:
            self.begin(is_own=True)
        try:
            yield
        except Failure:
            if is_begun:
                self.roll_back()
            raise
        if is_begun:
            self.commit()

    # Names.

    def found(self, around, statement, name):
        """What a statement means by a name: a definition, or None."""
        is_known, definition = around.knows(statement, name)
        return definition if is_known else self.database.objects.get(name)

    def asks(self, around, statement, names):
        """Whether the look-ups of these names ask anything: up to the first that stands for nothing, one that is
        looked up."""
        for name in names:
            is_known, definition = around.knows(statement, name)
            if not is_known:
                return name != CATALOG
            if definition is None:
                return False
        return False

    def scope(self, around, statement):
        """Where its expressions stand, by the tables that it names."""
        tables = {}
        for name in trees.tables_in(statement):
            tables[name] = self.found(around, statement, name)
            if not isinstance(tables[name], trees.Table):
                raise Failure(208, name)
        return Scope(self, around, tables)

    @contextmanager
    def working(self, around, statement):
        """The same within a transaction, where it asks anything."""
        with self.own(self.asks(around, statement, trees.tables_in(statement))):
            yield self.scope(around, statement)

    def values(self, around, statement, exprs):
        """What these expressions of a statement come to."""
        with self.working(around, statement) as scope:
            for expr in exprs:
                scope.kind(expr)
            scope = scope.answering(*exprs)
            return [scope.value(expr) for expr in exprs]

    # What expressions see of it.

    def rows_read(self, around, name):
        """The rows of a table that is read, in the order of their keys."""
        if around.fired and name in TRIGGER_TABLES:
            return around.fired.inserted if name == "inserted" else around.fired.deleted
        return self.database.rows_of(name)

    def variable(self, name):
        if name not in self.variables:
            raise Failure(137, name)
        return self.variables[name]

    def assign(self, sets):
        """Pairs of a variable's name and a value: all are assigned, or none where one can't be converted."""
        made = [(self.variable(name), converted(value, self.variable(name).kind)) for name, value in sets]
        for variable, value in made:
            variable.value = value

    def system_value(self, name, around):
        own = {
            "@@TRANCOUNT": self.count(),
            "@@ERROR": self.error,
            "@@ROWCOUNT": self.row_count,
            "@@FETCH_STATUS": self.fetch_status,
            "XACT_STATE": self.state(),
        }
        if name in SERVER_VALUES:
            return SERVER_VALUES[name]
        return own[name] if name in own else error_value(name, around.caught)

    def state(self):
        """XACT_STATE()."""
        if not self.count():
            return 0
        return -1 if self.is_doomed() else 1


def error_value(name, caught):
    """What a function of an error gives of the one that was caught."""
    if caught is None:
        return None
    return {
        "ERROR_NUMBER": caught.number,
        "ERROR_SEVERITY": caught.severity,
        "ERROR_STATE": caught.state,
        "ERROR_LINE": caught.line,
        "ERROR_MESSAGE": caught.text[:4000],
        "ERROR_PROCEDURE": caught.procedure or None,
    }[name]


def variables_of(statements):
    """Those that statements declare, without values."""
    return {name: Variable(kind) for name, kind in trees.declarations_in(statements)}
