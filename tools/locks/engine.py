"""Entries, locks and waits, as docs/ENGINE.md has them. What may wait is a generator, which yields where it does."""
from bisect import bisect_left, bisect_right

# From weaker to stronger; of the range part S and I together are X.
RANGES, KEYS = ("N", "S", "I", "X"), ("N", "S", "U", "X")
NOTHING = ("N", "N")


class Fell(Exception):
    """The session is the victim of a circle."""


class TimedOut(Exception):
    """Another's lock is in the way of a session that does not wait."""


def agree(one, other):
    """Whether two transactions may have these modes at one place at once."""
    ranges, keys = {one[0], other[0]}, {one[1], other[1]}
    return ("N" in ranges or ranges in ({"S"}, {"I"})) and ("N" in keys or keys in ({"S"}, {"S", "U"}))


def join(one, other):
    """What is held by who has taken both."""
    together = "X" if {one[0], other[0]} == {"S", "I"} else max(one[0], other[0], key=RANGES.index)
    return together, max(one[1], other[1], key=KEYS.index)


class Entry:
    """The committed row of a key, or None, and what one session has given it, the last of all that behind the others."""

    def __init__(self):
        self.committed, self.session, self.given = None, None, []

    def seen_by(self, session):
        return self.given[-1] if self.session == session else self.committed


class Engine:
    def __init__(self):
        self.parts, self.kept, self.brief = {}, {}, {}
        self.waits, self.fallen = {}, set()

    # ---- places

    def entries(self, part):
        return self.parts.setdefault(part, {})

    def first(self, part, start):
        """The first entry from a start on, a key and whether the range begins past all that begin with it; None is the end."""
        keys = sorted(self.entries(part))
        if start is None:
            return keys[0] if keys else None
        key, is_past = start
        fronts = [one[: len(key)] for one in keys]
        place = bisect_right(fronts, key) if is_past else bisect_left(keys, key)
        return keys[place] if place < len(keys) else None

    def place_of(self, part, key):
        """That of a key, whether an entry stands there or not."""
        return part, self.first(part, (key, False))

    # ---- locks

    def mode(self, session, place):
        held = (locks.get(place, {}).get(session, NOTHING) for locks in (self.kept, self.brief))
        return join(*held)

    def in_the_way(self, session, place, mode):
        holders = {*self.kept.get(place, {}), *self.brief.get(place, {})} - {session}
        return [other for other in sorted(holders) if not agree(self.mode(other, place), mode)]

    def may(self, session, place, mode, is_patient):
        """Whether nothing is in the way; else the session waits."""
        if session in self.fallen:
            self.fallen.remove(session)
            self.waits.pop(session, None)
            raise Fell
        self.waits.pop(session, None)
        if not self.in_the_way(session, place, mode):
            return True
        if not is_patient:
            raise TimedOut
        self.waits[session] = place, mode
        self.break_circles(session)
        if session in self.fallen:
            return self.may(session, place, mode, is_patient)
        return False

    def take(self, session, place, mode, locks):
        there = locks.setdefault(place, {})
        there[session] = join(there.get(session, NOTHING), mode)

    def drop(self, session, locks):
        for place in [place for place, there in locks.items() if session in there]:
            del locks[place][session]
            if not locks[place]:
                del locks[place]

    def break_circles(self, session):
        """Until no circle goes through it, of one the session falls that has changed the fewest entries, of several the last."""
        while circle := self.circle(session, [session]):
            self.fallen.add(min(circle, key=lambda one: (self.changed(one), -one)))

    def circle(self, session, trail):
        if trail[-1] not in self.waits or trail[-1] in self.fallen:
            return None
        for other in self.in_the_way(trail[-1], *self.waits[trail[-1]]):
            if other == session:
                return trail
            found = None if other in trail else self.circle(session, [*trail, other])
            if found:
                return found
        return None

    def changed(self, session):
        return sum(entry.session == session for part in self.parts.values() for entry in part.values())

    # ---- what is asked

    def fetch(self, session, part, start, stop, mode, is_patient):
        """The first entry of a range, its key and the row that is seen there; None at its end. The mode has a range part where
        the range is held."""
        while True:
            key = self.first(part, start)
            is_end = key is None or stop is not None and key[: len(stop)] > stop
            asked = ("S", "S") if is_end else mode
            if is_end and mode[0] == "N":
                self.waits.pop(session, None)
                return None
            if self.may(session, (part, key), asked, is_patient):
                break
            yield
        locks = {("S", "S"): self.kept, ("S", "U"): self.kept, ("N", "U"): self.brief}
        if asked in locks:
            self.take(session, (part, key), asked, locks[asked])
        return None if is_end else (key, self.entries(part)[key].seen_by(session))

    def insert(self, session, part, key, row, is_patient):
        """Whether there was none."""
        entries = self.entries(part)
        while key not in entries:
            above = self.place_of(part, key)
            if self.may(session, above, ("I", "N"), is_patient):
                entries[key] = Entry()
                self.take(session, (part, key), ("S" if self.mode(session, above)[0] in "SX" else "N", "X"), self.kept)
                break
            yield
        yield from self.locked(session, (part, key), is_patient)
        if key not in entries:
            return (yield from self.insert(session, part, key, row, is_patient))
        if entries[key].seen_by(session) is not None:
            return False
        self.give(session, entries[key], row)
        return True

    def change(self, session, part, key, row, is_patient):
        """A row that is seen is replaced, or erased."""
        yield from self.locked(session, (part, key), is_patient)
        self.give(session, self.entries(part)[key], row)

    def locked(self, session, place, is_patient):
        while not self.may(session, place, ("N", "X"), is_patient):
            yield
        if place[1] in self.entries(place[0]):
            self.take(session, place, ("N", "X"), self.kept)

    def give(self, session, entry, row):
        entry.session = session
        entry.given.append(row)

    def marked(self, session):
        """What the session has given each entry, to go back to."""
        return {id(entry): len(entry.given) for entry in self.of(session)}

    def back_to(self, session, mark):
        for entry in self.of(session):
            del entry.given[mark.get(id(entry), 0) :]
            if not entry.given:
                entry.session = None

    def of(self, session):
        return [entry for part in self.parts.values() for entry in part.values() if entry.session == session]

    def relax(self, session):
        self.drop(session, self.brief)

    def end(self, session, is_commit):
        for entry in self.of(session):
            if is_commit:
                entry.committed = entry.given[-1]
            entry.session, entry.given = None, []
        self.drop(session, self.brief)
        self.drop(session, self.kept)
        for part, entries in self.parts.items():
            for key in [key for key, entry in entries.items() if self.is_left(part, key, entry)]:
                del entries[key]

    def is_left(self, part, key, entry):
        """No row stands there, and nobody holds it."""
        return entry.committed is None and entry.session is None and (part, key) not in {**self.kept, **self.brief}
