"""What the bytes of a server are: messages, and a line for each token of one."""
import struct

from worked.wire import Unread

INTEGERS = {1: ("TINYINT", "<B"), 2: ("SMALLINT", "<h"), 4: ("INT", "<i"), 8: ("BIGINT", "<q")}


def packet_at(data, at, size):
    """The packet at a place: whether it is the last of its message, its SPID, its number, and where it ends."""
    if len(data) < at + 8:
        raise Unread(f"a packet's header is cut at {at}")
    kind, status, length, spid, number, window = struct.unpack(">BBHHBB", data[at : at + 8])
    if kind != 4 or status > 1 or window != 0 or length < 8 or len(data) < at + length:
        raise Unread(f"no packet of a server at {at}")
    if status == 0 and length != size:
        raise Unread(f"a packet of {length} bytes at {at} that is not the last of its message")
    return status == 1, spid, number, at + length


def replies_of(data, size=4096):
    """The messages of a server, each with its bytes and its payload. All packets of one but the last have this size, one SPID,
    and numbers from 1 on."""
    replies, begun, payload, at, packets, first = [], 0, b"", 0, 0, None
    while at < len(data):
        is_last, spid, number, end = packet_at(data, at, size)
        packets, first = packets + 1, spid if first is None else first
        if number != packets % 256 or spid != first:
            raise Unread(f"a packet of number {number} and SPID {spid} at {at}")
        payload, at = payload + data[at + 8 : end], end
        if is_last:
            replies.append((data[begun:at], payload))
            begun, payload, packets, first = at, b"", 0, None
    if begun != at:
        raise Unread("the last message is not ended")
    return replies


def spid_of(message):
    return struct.unpack(">H", message[4:6])[0]


def text_line(units):
    return "".join(chr(it) if 0x20 <= it <= 0x7E and it != 0x5C else f"\\u{it:04X}" for it in units)


def units_line(text, most=None):
    """The line of a text, or of as many of its units."""
    data = text.encode("utf-16-le", "surrogatepass")
    return text_line(struct.unpack(f"<{len(data) // 2}H", data)[:most])


def quoted(units):
    return "'" + text_line(units).replace("'", "''") + "'"


class Tokens:
    """Reads the tokens of a payload, a line each."""

    def __init__(self, data):
        self.data, self.at, self.columns = data, 0, []

    def lines(self):
        lines = []
        while self.at < len(self.data):
            lines.append(self.line())
        return lines

    def take(self, count):
        if self.at + count > len(self.data):
            raise Unread(f"{count} bytes are wanting at {self.at}")
        self.at += count
        return self.data[self.at - count : self.at]

    def number(self, form):
        return struct.unpack(form, self.take(struct.calcsize(form)))[0]

    def units(self, form="<B"):
        count = self.number(form)
        return struct.unpack(f"<{count}H", self.take(2 * count))

    def kind(self):
        code = self.number("<B")
        if code == 0x26:
            return INTEGERS[self.number("<B")][0]
        if code == 0x68:
            self.want(b"\x01")
            return "BIT"
        if code == 0xE7:
            size = self.number("<H")
            self.want(bytes.fromhex("0904000200"))
            return f"NVARCHAR({size // 2})"
        raise Unread(f"type {code:#x} at {self.at - 1}")

    def want(self, fixed):
        """Takes bytes that are always the same."""
        if self.take(len(fixed)) != fixed:
            raise Unread(f"other bytes than {fixed.hex(' ')} at {self.at - len(fixed)}")

    def value(self, kind):
        if kind.startswith("NVARCHAR"):
            length = self.number("<H")
            return "NULL" if length == 0xFFFF else quoted(struct.unpack(f"<{length // 2}H", self.take(length)))
        length = self.number("<B")
        if length == 0:
            return "NULL"
        return str(self.number("<B" if kind == "BIT" else INTEGERS[length][1]))

    def line(self):
        tag = self.number("<B")
        if tag in (0xFD, 0xFE, 0xFF):
            status, command, rows = self.number("<H"), self.number("<H"), self.number("<Q")
            name = {0xFD: "DONE", 0xFE: "PROC", 0xFF: "INPROC"}[tag]
            return f"{name}({status:02X},{command:X},{rows})"
        if tag in (0xAA, 0xAB):
            return self.within(lambda: self.notice("ERROR" if tag == 0xAA else "INFO"))
        if tag == 0xE3:
            return self.within(self.change)
        if tag == 0x81:
            return self.heads()
        if tag == 0xD1:
            return "ROW(" + ", ".join(self.value(kind) for _, kind in self.columns) + ")"
        if tag == 0x79:
            return f"RETURNSTATUS {self.number('<i')}"
        if tag == 0xAC:
            return self.returned()
        if tag == 0xAD:
            return self.within(self.greeting)
        raise Unread(f"no token {tag:#x} at {self.at - 1}")

    def returned(self):
        ordinal, name = self.number("<H"), text_line(self.units())
        self.want(bytes.fromhex("01000000000100"))
        kind = self.kind()
        return f"RETURNVALUE({ordinal}, {name}, {kind}, {self.value(kind)})"

    def within(self, read):
        """A token that begins with its length."""
        length = self.number("<H")
        end = self.at + length
        line = read()
        if self.at != end:
            raise Unread(f"a token that ends at {self.at}, and by its length at {end}")
        return line

    def heads(self):
        self.columns = []
        for _ in range(self.number("<H")):
            self.want(bytes.fromhex("000000000100"))
            kind = self.kind()
            self.columns.append((text_line(self.units()), kind))
        return "COL(" + ", ".join(f"{name} {kind}" for name, kind in self.columns) + ")"

    def greeting(self):
        self.want(b"\x01")
        version, program, release = self.take(4), text_line(self.units()), self.take(4)
        return f"LOGINACK {version.hex()} {program} {release.hex()}"

    def notice(self, name):
        number, state, class_ = self.number("<i"), self.number("<B"), self.number("<B")
        text, server, procedure = self.units("<H"), self.units(), self.units()
        if text_line(server) != "tsqld":
            raise Unread(f"a server named {text_line(server)}")
        where = f" in {text_line(procedure)}" if procedure else ""
        return f"{name} {number} class {class_} state {state} line {self.number('<i')}{where}: {text_line(text)}"

    def change(self):
        kind = self.number("<B")
        if kind in (1, 4):
            return f"ENVCHANGE {kind} new {quoted(self.units())} old {quoted(self.units())}"
        new, old = self.take(self.number("<B")), self.take(self.number("<B"))
        if kind in (8, 9, 10):
            return self.descriptor(kind, new, old)
        return f"ENVCHANGE {kind} new {new.hex()} old {old.hex()}".rstrip()

    def descriptor(self, kind, new, old):
        """A transaction begins, kind 8, or ends: the descriptor has eight bytes, and the other value none."""
        told, other = (new, old) if kind == 8 else (old, new)
        if len(told) != 8 or other:
            raise Unread(f"ENVCHANGE {kind} new {new.hex()} old {old.hex()}")
        return f"ENVCHANGE {kind} with {int.from_bytes(told, 'little')}"
