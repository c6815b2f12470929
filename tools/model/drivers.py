"""What calls by RPC mean, and what a driver's calls keep: prepared statements, by their handles (docs/PROTOCOL.md, "What a
call is answered" and "What drivers send"; crates/batch_meaning/specs, Rpc.antt and Drivers.antt)."""
import re
import struct
from typing import Any, NamedTuple

from . import trees
from .calls import matched, run_body
from .errors import S, T, raised_by
from .lexemes import LEXEME, Unread
from .payloads import BIT, WHOLE, DriverReader, Reader as PlainReader, Unserved
from .reader import Reader
from .session import END, MEANINGS, ON, Around, Variable, Way
from .values import BIGINT, INT, SMALLINT, TINYINT, Failure, converted, escaped, printed, text_kind
from .values import BIT as BITS

MOST_PARAMETERS, MOST_KEPT, MOST_UNITS, LONGEST = 10_000, 1_000, 1_048_576, 4_000
LAST_HANDLE = 2_147_483_647
WHOLES = {1: TINYINT, 2: SMALLINT, 4: INT, 8: BIGINT}
RESET = (
    "IF @@TRANCOUNT > 0 ROLLBACK; SET XACT_ABORT OFF; SET NOCOUNT OFF; SET IMPLICIT_TRANSACTIONS OFF; "
    "SET TRANSACTION ISOLATION LEVEL READ COMMITTED; SET LOCK_TIMEOUT -1; SET DEADLOCK_PRIORITY NORMAL"
)
DEFINITION = re.compile(r"CREATE (PROC|PROCEDURE|TRIGGER)(?![A-Za-z0-9_@$#])", re.IGNORECASE)
COMMENT = re.compile(r"/\*((?!/\*).)*?\*/", re.DOTALL)
BLANKS = re.compile(r"([\t\n\r ]+|--[^\n]*|/\*.*?\*/)+", re.DOTALL)


class Parameter(NamedTuple):
    """`value` is as it was sent, of a text of any length."""

    name: str
    is_output: bool
    is_missing: bool
    kind: Any
    value: Any

    def text(self):
        """The text that it gives, or None."""
        return self.value if isinstance(self.value, str) and not self.is_missing else None

    def text_or_nothing(self):
        """The same, where NULL and what is not given are an empty text."""
        return "" if self.is_missing or self.value is None else self.text()

    def handle(self):
        """The whole number that it gives, or None."""
        return self.value if isinstance(self.value, int) and self.kind != BITS and not self.is_missing else None


class Errand(NamedTuple):
    """How a call is run: `way` is a method of `Calls`, `of` what it takes; so many parameters in front are not those of what
    is run, all where it is None."""

    way: str
    of: Any = None
    front: Any = None


def parameter_of(read):
    tag, data = read.kind[0], read.value[1:]
    if tag in (WHOLE, BIT):
        kind = BITS if tag == BIT else WHOLES[read.kind[1]]
        value = int.from_bytes(data, "little", signed=kind not in (BITS, TINYINT)) if data else None
    else:
        kind = text_kind(struct.unpack("<H", read.kind[1:3])[0] // 2)
        value = None if read.units is None else letters(read.units)
    return Parameter(letters(read.name), bool(read.status & 1), bool(read.status & 2), kind, value)


def letters(units):
    return units.decode("utf-16-le", "surrogatepass")


def declared_as(text):
    """What declarations are read as: texts of bytes are texts of units, and behind `(` MAX and a size above 4,000 are 4,000.
    What stands behind a place where no lexeme begins stays."""
    out, at, is_open = "", 0, False
    while at < len(text):
        match = COMMENT.match(text, at) or LEXEME.match(text, at)
        if match is None:
            return out + text[at:]
        spelled, at = match[0], match.end()
        if match.re is COMMENT or match.lastgroup is None:
            out += spelled
            continue
        out += (size_for if is_open else word_for)(match.lastgroup, spelled)
        is_open = spelled == "("
    return out


def size_for(kind, spelled):
    is_longest = kind == "word" and spelled.upper() == "MAX" or kind == "number" and 4001 <= int(spelled) <= 8000
    return "4000" if is_longest else spelled


def word_for(kind, spelled):
    word = spelled.upper() if kind == "word" else ""
    return "NVARCHAR" if word in ("VARCHAR", "CHAR", "NCHAR") else "NVARCHAR(4000)" if word in ("TEXT", "NTEXT") else spelled


def is_defining(statement):
    return DEFINITION.match(" ".join(BLANKS.sub(" ", statement).split())) is not None


class Calls:
    """The calls of one connection. `kept` are statements with their declarations by their handles, that which was used last
    at the end."""

    def __init__(self, session, has_drivers):
        self.session, self.has_drivers = session, has_drivers
        self.given, self.kept = 0, {}

    def answer(self, payload):
        """The lines of the reply to a call; None where it ends the connection. Raises Refused for what is no call."""
        session = self.session
        try:
            name, read = (DriverReader if self.has_drivers else PlainReader)(payload).call()
        except Unserved as it:
            why, at = it.args
            failure = Failure(49006) if why == "Long" else Failure(8016, str(at))
            return [raised_by(failure, "", 1).token("ERROR"), "PROC(02,0,0)"]
        parameters = [parameter_of(one) for one in read]
        name = name if isinstance(name, str) else letters(name)
        errand = self.taken(name, parameters)
        session.lines, session.steps = [], 0
        self.parameters = [self.as_kept(name, place, one) for place, one in enumerate(parameters)]
        session.variables = {place: Variable(one.kind, one.value) for place, one in enumerate(self.parameters)}
        try:
            exit = self.run(errand)
        except Failure as failure:
            exit = self.fails(failure)
        self.end(exit.has_failed())
        return session.lines

    def as_kept(self, name, place, parameter):
        """A parameter as its variable has it: the handle that is told is its value, and no variable has a longer text."""
        if place == 0 and name in ("sp_prepare", "sp_prepexec") and self.tells:
            return parameter._replace(kind=INT, value=self.given)
        is_long = isinstance(parameter.value, str) and len(parameter.value) > LONGEST
        return parameter._replace(value=None) if is_long else parameter

    # What a call is run as.

    def taken(self, name, parameters):
        self.tells = False
        if len(parameters) > MOST_PARAMETERS:
            return Errand("unmatched")
        if name == "sp_executesql":
            return self.execute_sql(parameters)
        if self.has_drivers and name in ("sp_prepare", "sp_prepexec"):
            return self.prepare(name == "sp_prepexec", parameters)
        if self.has_drivers and name in ("sp_execute", "sp_unprepare"):
            return self.of_handle(name == "sp_execute", parameters)
        if self.has_drivers and name == "sp_reset_connection":
            self.kept = {}
            return Errand("batch", RESET)
        return Errand("named", name, 0)

    def execute_sql(self, parameters):
        texts = [one.text() for one in parameters[:2]] or [None]
        if None in texts:
            return Errand("unmatched", front=None if self.has_drivers else 2)
        statement, declarations = [*texts, ""][:2]
        return self.source(declarations, statement, 2)

    def source(self, declarations, statement, front):
        """A statement as it is run."""
        if self.has_drivers and not declarations and is_defining(statement):
            return Errand("batch", statement)
        return Errand("body", (declarations, statement), front)

    def prepare(self, is_run, parameters):
        if len(parameters) < 3:
            return Errand("unmatched")
        declarations, statement = parameters[1].text_or_nothing(), parameters[2].text()
        if declarations is None or statement is None or self.given == LAST_HANDLE:
            return Errand("unmatched")
        self.kept.pop(parameters[0].handle(), None)
        self.given, self.tells = self.given + 1, True
        self.kept[self.given] = declarations, statement
        self.shed()
        errand = self.source(declarations, statement, 3)
        return errand if is_run else Errand("read", errand)

    def shed(self):
        """What was not used for longest goes, where more is kept than may be."""
        while len(self.kept) > 1 and (len(self.kept) > MOST_KEPT or self.units() > MOST_UNITS):
            del self.kept[next(iter(self.kept))]

    def units(self):
        return sum(len(text) for texts in self.kept.values() for text in texts)

    def of_handle(self, is_run, parameters):
        handle = parameters[0].handle() if parameters else None
        if handle is None:
            return Errand("unmatched")
        if handle not in self.kept:
            return Errand("unknown", handle)
        texts = self.kept.pop(handle)
        if not is_run:
            return Errand("well")
        self.kept[handle] = texts
        return self.source(*texts, 1)

    # How it is run.

    def run(self, errand):
        if len(self.parameters) > MOST_PARAMETERS:
            raise Failure(49007)
        self.passed = [] if errand.front is None else list(enumerate(self.parameters))[errand.front :]
        if self.skips():
            raise Failure(49012)
        return getattr(self, errand.way)(errand.of)

    def skips(self):
        """Whether one without a name stands behind one that takes its default."""
        behind = False
        for _place, parameter in self.passed:
            if behind and not parameter.is_missing and not parameter.name:
                return True
            behind = behind or parameter.is_missing
        return False

    def unmatched(self, _of):
        raise Failure(49012)

    def unknown(self, handle):
        raise Failure(8179, str(handle))

    def well(self, _of):
        return self.returned(0, self.session.count())

    def read(self, errand):
        """The text reads, and nothing is run."""
        reader, _tree = self.tree_of(errand.of if errand.way == "batch" else body_text(*errand.of))
        return self.flawed(reader.flaw) if reader.flaw else self.well(None)

    def batch(self, text):
        reader, tree = self.tree_of(text)
        if reader.flaw:
            return self.flawed(reader.flaw)
        session, around = self.session, Around()
        exit = session.run_all(around, tree) if isinstance(tree, list) else session.define(around, tree)
        return self.well(None) if exit == ON else exit

    def body(self, texts):
        reader, procedure = self.tree_of(body_text(*texts) if self.has_drivers else plain_text(*texts))
        return self.flawed(reader.flaw) if reader.flaw else self.execute(procedure)

    def named(self, name):
        try:
            _reader, tree = self.tree_of(f"CREATE PROCEDURE {name}\nAS")
        except Unread:
            if "/*" in name:
                raise
            raise Failure(2812, name) from None
        if not isinstance(tree, trees.Procedure) or tree.parameters or tree.body:
            raise Failure(2812, name)
        found = self.session.database.objects.get(tree.name)
        if not isinstance(found, trees.Procedure):
            raise Failure(2812, tree.name)
        return self.execute(found)

    @staticmethod
    def tree_of(text):
        reader = Reader(text)
        return reader, reader.batch()

    def execute(self, procedure):
        """As EXEC does, with the variables of the call as its arguments."""
        session = self.session
        given = [
            trees.Argument(one.name or None, trees.Variable(place), one.is_output)
            for place, one in self.passed
            if not one.is_missing
        ]
        arguments = matched(procedure.parameters, given)
        variables = {
            parameter.name: Variable(parameter.kind, converted(session.variable(argument.value.name).value, parameter.kind))
            for parameter, argument in zip(procedure.parameters, arguments)
        }
        count, inside = session.count(), Around().within_body(procedure.name, None)
        exit, inner = run_body(session, inside, procedure.body, variables, session.options)
        if exit.has_failed():
            session.row_count = 0
            return END
        session.assign(
            [
                (argument.value.name, inner[parameter.name].value)
                for parameter, argument in zip(procedure.parameters, arguments)
                if argument.is_output
            ]
        )
        return self.returned(exit.of if exit.way == Way.RETURN else 0, count)

    # How it ends.

    def returned(self, status, count):
        """The status and what OUTPUT parameters are, behind 266 where the count of transactions is another."""
        session = self.session
        lines = [f"RETURNSTATUS {status}"] + [
            f"RETURNVALUE({place}, {escaped(one.name)}, {one.kind}, {printed(session.variables[place].value)})"
            for place, one in enumerate(self.parameters)
            if one.is_output
        ]
        session.row_count = session.error = 0
        if session.is_even(count):
            session.lines += lines
            return ON
        raised = raised_by(Failure(266), "", 1)
        session.error = raised.number
        session.tell("ERROR", raised)
        if raised.ends(session.options.xact_abort) == S:
            session.lines += lines
        return session.ended_by(raised)

    def fails(self, failure):
        """An error of the call itself ends it, and the transaction where it ends that."""
        session, raised = self.session, raised_by(failure, "", 1)
        session.row_count, session.error = 0, raised.number
        session.tell("ERROR", raised)
        if raised.ends(session.options.xact_abort) == T:
            session.roll_back_told()
        return END

    def flawed(self, flaw):
        self.session.tell("ERROR", raised_by(Failure(flaw.number, flaw.name), "", flaw.line))
        return END

    def end(self, has_failed):
        if self.session.is_doomed():
            self.session.tell("ERROR", raised_by(Failure(3998), "", 1))
            self.session.roll_back_told()
            has_failed = True
        self.session.lines.append(f"PROC({'02' if has_failed else '00'},0,0)")


def plain_text(declarations, statement):
    return f"CREATE PROCEDURE [sp_executesql] {declarations} AS {statement}"


def body_text(declarations, statement):
    return plain_text(declared_as(declarations), statement)
