"""What drivers send (docs/PROTOCOL.md, "What drivers send"): the text of the batch that a transaction manager request
stands for, or the offset of its level where that is none; and one DONE at a batch's end."""
from .errors import raised_by
from .values import Failure

# ALL_HEADERS, as drivers send them, and behind them the number of the request.
FRONT = 22 + 2

LEVELS = ("", "READ UNCOMMITTED", "READ COMMITTED", "REPEATABLE READ", "SERIALIZABLE", "SNAPSHOT")


def called(name):
    """A name in brackets, where there is one."""
    text = name.decode("utf-16-le", "surrogatepass")
    return " [" + text.replace("]", "]]") + "]" if text else ""


def new_text(new, guard=""):
    """What begins; `guard` stands in front of its BEGIN."""
    begins = guard + "BEGIN TRANSACTION" + called(new.name)
    return f"SET TRANSACTION ISOLATION LEVEL {LEVELS[new.level]}; IF @@ERROR = 0 {begins}" if new.level else begins


def text_of(request):
    if request.what == "begin":
        return new_text(request.new)
    first = f"{request.what.upper()} TRANSACTION{called(request.name)}"
    if not request.new:
        return first
    guard = "IF @@TRANCOUNT > 0 " if request.what == "rollback" else ""
    return f"{guard}{first}; {new_text(request.new, 'IF @@TRANCOUNT = 0 ')}"


def refused_at(request):
    """Where the level of what is to begin stands, if it is none; else None."""
    if request.new is None or request.new.level < len(LEVELS):
        return None
    return FRONT if request.what == "begin" else FRONT + 1 + len(request.name) + 1


def answer(session, request):
    """The lines of the reply to a request."""
    at = refused_at(request)
    if at is None:
        return ended_once(session.batch(text_of(request)))
    return [raised_by(Failure(49014, str(at)), "", 1).token("ERROR"), "DONE(02,0,0)"]


def ended_once(lines):
    """The lines of a reply, where the DONE of its last statement stands in the place of the batch's own."""
    if len(lines) < 2 or lines[-1] != "DONE(00,0,0)" or not lines[-2].startswith("DONE("):
        return lines
    status, rest = int(lines[-2][5:7], 16), lines[-2][7:]
    return [*lines[:-2], f"DONE({status - 1:02X}{rest}"] if status % 2 else lines
