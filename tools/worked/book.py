"""The conversations of a file of rows. docs/ROWS.md has its form."""
import copy
import re
import sys

from worked.calls import call
from worked.requests import transaction
from worked.wire import WORD, Unread, batch, bytes_of, unescape

SETTINGS = {"login", "session", "packets", "pieces", "cuts", "again", "drivers"}
TOKENS = (
    "COL(", "ROW(", "DONE(", "PROC(", "INPROC(", "ERROR ", "INFO ", "ENVCHANGE ", "RETURNSTATUS ", "RETURNVALUE(", "LOGINACK ",
)  # fmt: skip

# What is wanted of a batch that is not answered yet.
WAITS = "WAITS"
# A token that comes so many times, one behind another; and a step that is taken so many times, each with its number.
MANY = re.compile(r"([1-9]\d*) \* (.*)")
TAKEN = re.compile(r"([1-9]\d*) \* (2?(?:>|rpc|tm) .*)")
EACH = "{n}"


class Step:
    """What a client sends, and what is wanted for it, with the lines that say so; where it is late, the reply to the batch
    that waits. One that is taken several times is a step, and a row, once."""

    def __init__(self, number, text=None, data=b"", is_second=False, is_late=False, spell=batch):
        self.number, self.text, self.data, self.wanted, self.lines = number, text, data, [], []
        self.is_second, self.is_late, self.spell, self.times, self.is_more = is_second, is_late, spell, 1, False

    def want(self, number, wanted):
        self.wanted.append(wanted)
        self.lines.append(number)

    def sent(self):
        if self.text is None:
            return self.data
        return self.spell(self.text)

    def has_reply(self):
        return self.text is not None or bool(self.wanted)

    def each(self):
        """The step as it is taken each time."""
        if self.times == 1:
            return [self]
        return [self.taken(number) for number in range(1, self.times + 1)]

    def taken(self, number):
        step = copy.copy(self)
        step.text, step.is_more = self.text.replace(EACH, str(number)), number > 1
        step.wanted = [line.replace(EACH, str(number)) for line in self.wanted]
        return step


class Conversation:
    def __init__(self, number, title, settings):
        self.number, self.title, self.settings, self.steps, self.status = number, title, dict(settings), [], 0

    def is_of_two(self):
        return any(step.is_second for step in self.steps)

    def is_again(self):
        return "again" in self.settings

    def size(self):
        """The size of the packets of replies."""
        return int(self.settings.get("packets", 4096))

    def session(self):
        return int(self.settings.get("session", 1))

    def flags(self):
        """The words with which the program is started beside those of the login."""
        return ["--drivers"] if "drivers" in self.settings else []

    def login(self):
        """The user and the password that a login must have, or None."""
        if "login" not in self.settings:
            return None
        words = [text for text, _word in WORD.findall(self.settings["login"])]
        return tuple(unescape(word).decode("utf-16-le", "surrogatepass") for word in words)

    def rows(self):
        """How many rows it has: each that is sent is one, and so is a conversation in which nothing is."""
        return max(1, sum(not step.is_late and not step.is_more for step in self.steps))


class Book:
    """The conversations of a file."""

    def __init__(self, path):
        self.path, self.names, self.outcomes, self.conversations = path, {}, {}, []
        self.settings, self.title, self.named, self.outcome, self.is_table, self.whole = {}, "", None, None, False, {}
        with open(path, encoding="utf-8") as file:
            for number, line in enumerate(file, 1):
                try:
                    self.read_line(number, line.rstrip("\n"))
                except (Unread, ValueError, IndexError) as error:
                    sys.exit(f"{path}:{number}: {error}")
        for conversation in self.conversations:
            conversation.steps = [step for several in conversation.steps for step in several.each()]

    def read_line(self, number, line):
        mark, _, rest = line.partition(" ")
        if not line or line.startswith("--"):
            return
        if mark == "|":
            self.go_on(rest)
            return
        self.named = None
        taken = TAKEN.fullmatch(line)
        if taken:
            self.read_line(number, taken[2])
            self.conversations[-1].steps[-1].times = int(taken[1])
        elif mark == "let":
            self.named, _, items = rest.partition(" = ")
            self.names[self.named] = bytes_of(self.names, items)
            self.outcome = None
        elif mark == "outcome":
            self.outcome = self.outcomes.setdefault(rest, [])
        elif mark in ("#", "##"):
            self.begin(number, rest, mark == "##")
        elif mark == "=":
            self.set(rest)
        elif mark in (">", "2>", "<", "2<"):
            self.send(Step(number, text=rest, is_second=mark[0] == "2", is_late=mark[-1] == "<"))
        elif mark in ("rpc", "2rpc"):
            self.send(Step(number, text=rest, is_second=mark[0] == "2", spell=call))
        elif mark in ("tm", "2tm"):
            self.send(Step(number, text=rest, is_second=mark[0] == "2", spell=transaction))
        elif mark == ">>":
            self.send(Step(number, data=bytes_of(self.names, rest)))
        elif mark == "?":
            self.hold_row(number, rest)
        elif mark == "=>":
            self.want_all(number, rest)
        elif self.outcome is not None:
            self.outcome.append(line)
        else:
            self.want(number, line)

    def begin(self, number, title, is_table):
        self.settings, self.title, self.is_table, self.outcome = dict(self.whole), title, is_table, None
        if not is_table:
            self.conversations.append(Conversation(number, title, self.whole))

    def set(self, rest):
        word, _, value = rest.partition(" ")
        if word not in SETTINGS:
            raise Unread(f"there is no setting {word}")
        if not self.title:
            self.whole[word] = value
            return
        self.settings[word] = value
        if not self.is_table:
            self.conversations[-1].settings[word] = value

    def send(self, step):
        self.outcome = None
        self.conversations[-1].steps.append(step)

    def hold_row(self, number, rest):
        """A conversation of one line: `? ITEMS => NAME`."""
        items, _, name = rest.rpartition(" => ")
        self.conversations.append(Conversation(number, self.title, self.settings))
        self.send(Step(number, data=bytes_of(self.names, items)))
        self.want_all(number, name)

    def go_on(self, rest):
        if self.named is not None:
            self.names[self.named] += bytes_of(self.names, rest)
            return
        step = self.conversations[-1].steps[-1]
        if step.text is None:
            step.data += bytes_of(self.names, rest)
        else:
            step.text += "\n" + rest

    def want_all(self, number, name):
        if name not in self.outcomes:
            raise Unread(f"no outcome is named {name}")
        for line in self.outcomes[name]:
            self.want(number, line)

    def want(self, number, line):
        if line.startswith("END "):
            self.conversations[-1].status = int(line[4:])
        elif line.startswith("<< "):
            self.conversations[-1].steps[-1].want(number, bytes_of(self.names, line[3:]))
        elif line == WAITS or line.startswith(TOKENS):
            self.conversations[-1].steps[-1].want(number, line)
        elif MANY.fullmatch(line):
            count, token = MANY.fullmatch(line).groups()
            for _ in range(int(count)):
                self.want(number, token)
        else:
            raise Unread("a line of a reply, or one of the marks, was wanted")
