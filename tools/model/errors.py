"""The table of errors (docs/LANGUAGE.md, "What a statement sends"), and an error that is raised."""
from dataclasses import dataclass
from typing import NamedTuple

from .values import escaped

# What an error ends outside TRY while XACT_ABORT is OFF: its statement, its batch, or that and the transaction.
S, B, T = "statement", "batch", "transaction"

# Which TRY catches it: each, only one of an outer batch, procedure or trigger, or none.
Y, L, N = "each", "outer", "none"


class Line(NamedTuple):
    severity: int
    ends: str
    caught_by: str
    text: str


TABLE = {
    137: Line(15, B, L, 'Must declare the scalar variable "{name}".'),
    207: Line(16, B, L, "Invalid column name '{name}'."),
    208: Line(16, B, L, "Invalid object name '{name}'."),
    209: Line(16, B, L, "Ambiguous column name '{name}'."),
    213: Line(16, B, L, "Column name or number of supplied values does not match table definition."),
    217: Line(16, T, Y, "Maximum nesting level exceeded (limit 32)."),
    220: Line(16, S, Y, "Arithmetic overflow error for a small integer type."),
    244: Line(16, T, Y, "The number in the text is outside a small integer type."),
    245: Line(16, T, Y, "Conversion failed when converting text to a number."),
    248: Line(16, T, Y, "The number in the text is outside the type INT."),
    266: Line(16, S, Y, "Transaction count after EXECUTE differs from the count before."),
    512: Line(16, S, Y, "Subquery returned more than 1 value."),
    515: Line(16, S, Y, "Cannot insert the value NULL into column '{name}'."),
    547: Line(16, S, Y, "The statement conflicted with the constraint '{name}'."),
    911: Line(16, B, Y, "Database '{name}' does not exist."),
    2627: Line(14, S, Y, "Violation of constraint '{name}'. Duplicate key."),
    2714: Line(16, B, Y, "There is already an object named '{name}'."),
    2812: Line(16, S, Y, "Could not find stored procedure '{name}'."),
    3609: Line(16, B, Y, "The transaction ended in the trigger. The batch has been aborted."),
    3616: Line(16, T, Y, "An error was raised during trigger execution."),
    3701: Line(11, S, Y, "Cannot drop '{name}', because it does not exist."),
    3726: Line(16, S, Y, "Cannot drop '{name}', because a foreign key refers to it."),
    3902: Line(16, S, Y, "COMMIT has no corresponding BEGIN TRANSACTION."),
    3903: Line(16, S, Y, "ROLLBACK has no corresponding BEGIN TRANSACTION."),
    3930: Line(16, T, Y, "The transaction cannot be committed and allows no write."),
    3931: Line(16, T, Y, "The transaction cannot be rolled back to a savepoint."),
    3998: Line(16, T, N, "Uncommittable transaction is detected at the end of the batch."),
    6401: Line(16, S, Y, "No transaction or savepoint named '{name}' was found."),
    8016: Line(16, B, N, "The remote procedure call is not served at byte {name}."),
    8114: Line(16, T, Y, "Conversion failed when converting text to BIGINT."),
    8115: Line(16, S, Y, "Arithmetic overflow error."),
    8134: Line(16, S, Y, "Divide by zero error encountered."),
    8179: Line(16, S, Y, "Could not find prepared statement with handle {name}."),
    16905: Line(16, S, Y, "The cursor is already open."),
    16915: Line(16, S, Y, "A cursor with the name '{name}' already exists."),
    16916: Line(16, S, Y, "A cursor with the name '{name}' does not exist."),
    16917: Line(16, S, Y, "Cursor is not open."),
    49004: Line(16, S, Y, "Option or argument is outside the profile."),
    49005: Line(16, S, Y, "SAVE TRANSACTION needs an open transaction."),
    49006: Line(16, S, Y, "Text is too long."),
    49007: Line(16, B, L, "Definition or statement is outside the limits."),
    49008: Line(16, B, L, "Operand type is not allowed here."),
    49012: Line(16, S, Y, "Arguments do not match the procedure."),
    49013: Line(15, B, L, "Variable '{name}' is declared twice."),
    49014: Line(16, B, N, "The transaction request is not served at byte {name}."),
}

# Who has raised an error.
SERVER, RAISERROR, THROW = "server", "RAISERROR", "THROW"


@dataclass(frozen=True)
class Raised:
    """`procedure` is the procedure or trigger in which it arose, empty for a batch."""

    number: int
    severity: int
    state: int
    text: str
    procedure: str
    line: int
    by: str

    def token(self, name):
        """As ERROR or INFO tells it."""
        where = f" in {self.procedure}" if self.procedure else ""
        kind = f"{name} {self.number} class {self.severity} state {self.state}"
        return f"{kind} line {self.line}{where}: {escaped(self.text[:2000])}"

    def caught_by(self):
        return TABLE[self.number].caught_by if self.by == SERVER else Y

    def ends(self, xact_abort):
        """What it ends outside TRY; in a TRY it dooms the transaction that it would end."""
        if xact_abort and self.by != RAISERROR:
            return T
        if self.by == SERVER:
            return TABLE[self.number].ends
        return S if self.by == RAISERROR else B


def raised_by(failure, procedure, line):
    row = TABLE[failure.number]
    text = row.text.format(name=failure.name)
    return Raised(failure.number, row.severity, 1, text, procedure, line, SERVER)
