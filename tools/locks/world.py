"""Two sessions beside one another."""
from locks.engine import Engine
from locks.session import Session
from locks.texts import Unread

__all__ = ["Unread", "World"]


class World:
    def __init__(self):
        self.engine, self.tables, self.running = Engine(), {}, {}
        self.sessions = {number: Session(number, self) for number in (1, 2)}

    def say(self, number, text):
        """A session that is answered sends a batch. Who is answered then, each with its lines; who sent it is not among them where
        it waits."""
        self.running[number] = self.sessions[number].batch(text)
        answered = {}
        while True:
            ended = [session for session in sorted(self.running) if self.has_ended(session)]
            for session in ended:
                del self.running[session]
                answered[session] = self.sessions[session].lines
            if not ended and not self.engine.fallen:
                return answered

    def has_ended(self, number):
        """It goes on until it ends, or waits."""
        return next(self.running[number], self) is self

    def is_quiet(self):
        """No transaction is open, and nobody waits."""
        return len(self.running) < 2 and not any(session.is_open for session in self.sessions.values())

    def waits(self, number):
        return number in self.running
