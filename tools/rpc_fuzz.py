#!/usr/bin/env python3
"""Makes random, cut and changed payloads of calls by RPC, reads each, and compares what `tsqld pipe` makes of them.

    tools/rpc_fuzz.py [--bin PROGRAM] [--number N] [--seed S] [--drivers]

The reader (tools/model/payloads.py) was written from [MS-TDS] 2.2.6.6 and docs/PROTOCOL.md, apart from the server. A payload that it
reads must be answered, and where the answer shows what was read, that is compared byte by byte. One that it refuses must end the
connection with status 5 and without a reply. The program does not say at which field: so what stands in front of that field is sent
too, with an end that makes a call of it, and must be answered; and where the field is whole, it is sent with what would follow if it
were right, and must be refused.

With --drivers they are calls as drivers spell them, and the program is started so. There a field that is refused, but for one that is
cut and for the headers, is answered by an error that tells its offset, and the connection goes on.

Many are sent on one connection, until one is refused. Most call `sp_executesql` with a statement of nothing; its other parameters take
their default, so that OUTPUT ones come back as they were sent. It prints how often each kind came, and ends with 1 at one that differs."""
import argparse
import re
import struct
import sys
from collections import Counter
from concurrent.futures import ThreadPoolExecutor
from random import Random

import dist
from model.payloads import (
    BIT, CHAR, COLLATION, FLAGS, FRONT, MAX, MOST_NAME, MOST_UNITS, NARROW, NCHAR, NTEXT, NULL, SQL, TEN, TEXT, UNTOLD, WHOLE, WIDE,
    DriverReader, Reader, Refused, Unserved, letter_of,
)  # fmt: skip
from worked.server import run_pipe
from worked.tokens import replies_of
from worked.wire import ALL_HEADERS, message

AT_ONCE, MOST_PARAMETERS, MOST_PAYLOAD, ANY = 4, 10000, 2**20, b""
BYTES = (0, 1, 2, 3, 4, 7, 8, 9, 10, 11, WHOLE, 0x2F, 0x3F, 0x40, BIT, 0x7F, 0x80, 0x81, NARROW, WIDE, 0xFE, 0xFF)


def reply_to(name, parameters):
    """The payload of the reply to a call, where it is known."""
    name = SQL if name == "sp_executesql" else name
    if not isinstance(name, bytes):
        return ANY
    if len(parameters) > MOST_PARAMETERS:
        return error(49007, "Definition or statement is outside the limits.")
    missing = [place for place, (_, status, *_) in enumerate(parameters) if status & 2]
    unmatched = error(49012, "Arguments do not match the procedure.")
    if name != SQL:
        if any(not named and not status & 2 for named, status, *_ in parameters[(*missing, MOST_PARAMETERS)[0] :]):
            return unmatched
        found = re.fullmatch(rb"(?:[\w@$#]\0){0,128}", name)
        return error(2812, f"Could not find stored procedure '{found[0].decode('utf-16-le')}'.") if found else ANY
    texts = [None if status & 2 else text for _, status, _, _, text in parameters[:2]] or [None]
    statement, declared = ((text or b"").decode("utf-16-le", "replace") for text in (*texts, b"")[:2])
    if None not in texts and (statement.strip(" ;") or declared.strip(" ")):
        return ANY
    if None in texts or not all(status & 2 for _, status, *_ in parameters[2:]):
        return unmatched
    returned = b"\x79" + bytes(4)
    for place, (name, status, kind, value, _) in enumerate(parameters):
        if status & 1:
            returned += struct.pack("<BHB", 0xAC, place, len(name) // 2) + name + b"\x01\0\0\0\0\x01\0" + kind + value
    return returned + b"\xfe" + bytes(12)


def error(number, text):
    """The payload of a reply that ends a call by an error."""
    text = text.encode("utf-16-le")[:MOST_UNITS]
    body = struct.pack("<iBBH", number, 1, 16, len(text) // 2) + text + b"\x05t\0s\0q\0l\0d\0\0" + struct.pack("<i", 1)
    return b"\xaa" + struct.pack("<H", len(body)) + body + b"\xfe\x02" + bytes(11)


class Maker(Random):
    """Makes payloads, field by field, of which it changes some."""

    drivers = False

    def units(self, most):
        count = min(most, self.choice((0, 1, 2, 3, self.randint(0, most), most if self.random() < 0.1 else 2)))
        return "".join(self.choice("ab@_0 'é\ud800") for _ in range(count)).encode("utf-16-le", "surrogatepass")

    def payload(self):
        fields = self.fields()
        for _ in range(self.choice((0, 0, 0, 1, 1, 2, 3))):
            self.change(fields)
        data = b"".join(fields)
        cut, second = data[: self.randint(0, len(data))], bytes([self.choice((0x80, 0xFE, 0xFF))]) + b"".join(self.fields()[1:])
        total = struct.pack("<I", self.choice((0, 3, 4, 23, len(data), len(data) + 1, 2**31, 2**32 - 22, 2**32 - 1)))
        return self.choices((data, cut, data + second, total + data[4:]), (16, 3, 1, 1))[0]

    def change(self, fields):
        """Changes, adds or takes away a byte of a field, or takes the field away or doubles it."""
        place = self.randrange(len(fields))
        field, byte = fields[place], bytes([self.choice((*BYTES, self.randrange(256)))])
        at = self.randrange(len(field) or 1)
        other, more, fewer = (field[:at] + new + field[end:] for new, end in ((byte, at + 1), (byte, at), (b"", at + 1)))
        fields[place : place + 1] = self.choice(([other], [other], [other], [more], [fewer], [], [field, field]))

    def driver_text(self, text):
        """The fields of a text of a driver, of one type of all that may have it."""
        data, pieces = text.encode("utf-16-le", "surrogatepass"), []
        tag = self.choice((WIDE, NCHAR, NTEXT, MAX, MAX))
        if self.random() < 0.4 and all(letter_of(byte) != NULL for byte in data):
            data, tag = self.randbytes(len(text)), self.choice((NARROW, CHAR, TEXT, -MAX, -MAX))
        if tag in (NTEXT, TEXT):
            size = struct.pack("<BI", tag, self.choice((0, 1, len(data), 2**31 - 1))) + COLLATION
            return [size, b"\xff" * 4] if self.random() < 0.1 else [size, struct.pack("<I", len(data)), data]
        if abs(tag) == MAX:
            head = struct.pack("<BH", WIDE if tag > 0 else NARROW, MAX) + COLLATION
            if self.random() < 0.1:
                return [head, b"\xff" * 8]
            by = self.choice((1, 2, 3, 7, 4000, len(data) or 1))
            for at in range(0, len(data), by):
                piece = data[at : at + by]
                pieces += [struct.pack("<I", len(piece)), piece]
            wrong = len(data) + self.choice((1, -1, 2**32, 2**63))
            told = wrong if self.random() < 0.02 else self.choice((UNTOLD, len(data)))
            return [head, struct.pack("<Q", told % 2**64), *pieces, bytes(4)]
        room = max(2, len(data)) if self.random() < 0.95 else self.choice((0, 1, 3, 8000, 8001, 8002, MAX))
        head = struct.pack("<BH", tag, room % 65536) + self.choice((COLLATION, bytes(5)))
        return [head, NULL] if self.random() < 0.1 else [head, struct.pack("<H", len(data) % 65536), data]

    def driver_fields(self):
        headers = self.choice((ALL_HEADERS, ALL_HEADERS, b"\4\0\0\0", b"\x2c\0\0\0" + self.randbytes(40)))
        number = struct.pack("<H", self.choice((10,) * 20 + (1, 11, 12, 13, 14, 15, 266)))
        words = self.choice((SQL, SQL, self.choice(tuple(FRONT)).encode("utf-16-le"), self.units(140)))
        fields = [headers, *self.choice(([NULL, number], [struct.pack("<H", len(words) // 2), words])), self.choice((FLAGS, FLAGS, NULL))]
        blank = " " * self.choice((0, 0, 1, 4000, 4001, 9000))
        for text in self.choice(((), ("",), ("", ""), (blank, ""), ("", blank), (";", " "), ("SELECT @a", "@a INT"), ("x",))):
            fields += [b"\0", b"", b"\1" if self.random() < 0.3 else b"\0", *self.driver_text(text)]
        for _ in range(self.choice((0, 1, 1, 2, 3, 8))):
            name, status = self.units(MOST_NAME), self.choice((2, 3, 3, 3, 3, 0xFF, 0xFE, 0, 1))
            text = self.units(self.choice((1, 2, 20, 2001, MOST_UNITS, MOST_UNITS + 1))).decode("utf-16-le", "surrogatepass")
            typed = self.typed() if self.random() < 0.2 else self.driver_text(text)
            fields += [bytes([len(name) // 2]), name, bytes([status]), *typed]
        return fields

    def fields(self):
        return self.driver_fields() if self.drivers else self.plain_fields()

    def plain_fields(self):
        headers = self.choice((ALL_HEADERS, ALL_HEADERS, b"\4\0\0\0", b"\x2c\0\0\0" + self.randbytes(40)))
        named = [[struct.pack("<H", len(name) // 2), name] for name in (SQL, self.units(65534 if self.random() < 0.02 else 140))]
        fields = [headers, *self.choice(([NULL, TEN[:2]], [NULL, TEN[:2]], *named)), self.choice((FLAGS, FLAGS, NULL))]
        for text in self.choice(((), ("",), ("", ""), ("", ""), (";", " "), ("SELECT @a", "@a INT"), ("x",))):
            data = text.encode("utf-16-le")
            fields += [b"\0", b"", b"\1" if self.random() < 0.3 else b"\0", b"\xe7\x40\x1f" + COLLATION, struct.pack("<H", len(data)), data]
        if self.random() < 0.002:
            return fields + [b"\0\2\x26\1\0"] * self.choice((9998, 9999, 10000, 10001))
        for _ in range(self.choice((0, 1, 1, 2, 3, 8))):
            name, status = self.units(MOST_NAME), self.choice((2, 3, 3, 3, 3, 0xFF, 0xFE, 0, 1))
            fields += [bytes([len(name) // 2]), name, bytes([status]), *self.typed()]
        return fields

    def typed(self):
        """The fields of a type and a value."""
        tag = self.choice((WHOLE, WHOLE, BIT, WIDE, WIDE, NARROW))
        if tag in (WHOLE, BIT):
            size = 1 if tag == BIT else self.choice((1, 2, 4, 8))
            data = self.choice((b"", bytes(size), self.randbytes(size)))
            return [bytes([tag, size]), bytes([len(data)]), data]
        most = self.choice((1, 2, 20, 2001, MOST_UNITS) if self.random() < 0.95 else (0, MOST_UNITS + 1))
        data = self.units(most)
        if tag == NARROW:
            data = bytes(byte if self.random() < 0.01 else byte % 128 for byte in data[::2])
        kind = struct.pack("<BH", tag, 2 * most) + self.choice((COLLATION, bytes(5)))
        return [kind, NULL, b""] if self.random() < 0.1 else [kind, struct.pack("<H", len(data)), data]


def cases_of(payload, seen, reader=Reader):
    """The payload and those that it leads to, each with its reply, or None where it is refused."""
    try:
        reply = reply_to(*reader(payload).call())
    except Unserved as it:
        why, at = it.args
        seen[why] += 1
        unserved = error(8016, f"The remote procedure call is not served at byte {at}.")
        return [(payload, error(49006, "Text is too long.") if why == "Long" else unserved)]
    except Refused as it:
        why, read, *refused = it.args
        seen[why] += 1
        return [*front_of(read, reader), (payload, None), *((other, None) for other in refused)]
    seen["compared" if reply else "answered"] += 1
    return [(payload, reply)]


def front_of(read, reader):
    """What stands in front of a field, with an end that makes a call of it; nothing where none does, as in a chunk."""
    try:
        return [(read, reply_to(*reader(read).call()))] if len(read) <= MOST_PAYLOAD else []
    except (Refused, Unserved):
        return []


def fault_of(program, run, flags=()):
    """What is wrong on a connection, at the first payload of which something is, or nothing."""
    written, status = run_pipe(program, None, b"".join(message(3, payload) for payload, _wanted in run), 0, flags)
    given = [reply for _whole, reply in replies_of(written)]
    for at, (payload, wanted) in enumerate(run):
        reply = given[at] if at < len(given) else None
        is_right = reply == wanted or wanted == ANY and reply is not None and reply[-13:-11] in (b"\xfe\0", b"\xfe\2")
        if not is_right or (at == len(run) - 1 and status != (5 if wanted is None else 0)):
            wanted, reply = ("none" if it is None else it.hex(" ") or "any" for it in (wanted, reply))
            return f"{payload.hex(' ')}\nreply wanted: {wanted}\ngiven: {reply}, and status {status}"
    return None


def runs_of(said, seen):
    """The cases of each connection: it ends behind one that is refused."""
    maker, run, reader = Maker(said.seed), [], DriverReader if said.drivers else Reader
    maker.drivers = said.drivers
    for _ in range(said.number):
        for case in cases_of(maker.payload(), seen, reader):
            run.append(case)
            if case[1] is None:
                yield run
                run = []
    yield run


def main():
    words = argparse.ArgumentParser(description=__doc__, formatter_class=argparse.RawDescriptionHelpFormatter)
    words.add_argument("--bin", default=dist.current() or dist.BUILT, help="the program, without it that of these sources")
    words.add_argument("--number", type=int, default=20000, help="how many payloads")
    words.add_argument("--seed", type=int, default=1)
    words.add_argument("--drivers", action="store_true", help="calls as drivers spell them")
    said, seen = words.parse_args(), Counter()
    with ThreadPoolExecutor(AT_ONCE) as pool:
        for fault in pool.map(lambda run: fault_of(said.bin, run, ["--drivers"] if said.drivers else ()), runs_of(said, seen)):
            if fault:
                pool.shutdown(cancel_futures=True)
                sys.exit(fault)
    print(f"{sum(seen.values())} payloads agree: " + ", ".join(f"{name} {count}" for name, count in seen.most_common()))


if __name__ == "__main__":
    main()
