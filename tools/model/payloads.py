"""Reads the payload of a call by RPC from left to right, from [MS-TDS] 2.2.6.6, 2.2.5.4 and 2.2.5.2.3 and docs/PROTOCOL.md, as it
is without drivers and as a driver spells it. `instead` are bytes that a call may have in the place of a field, up to its end."""
import struct
from typing import NamedTuple, Optional

from worked.wire import ALL_HEADERS

MOST_UNITS, MOST_NAME = 4000, 128
WHOLE, BIT, WIDE, NARROW, NCHAR, CHAR, NTEXT, TEXT = 0x26, 0x68, 0xE7, 0xA7, 0xEF, 0xAF, 0x63, 0x23
MAX, UNTOLD = 0xFFFF, 2**64 - 2
COLLATION, SQL = bytes.fromhex("0904000200"), "sp_executesql".encode("utf-16-le")
# How a call may go on: flags; the number of sp_executesql and flags; a type with NULL; a status with these. And a text that is NULL.
FLAGS, TEN, TINY, PLAIN, NULL = b"\0\0", b"\x0a\0\0\0", b"\x26\x01\0", b"\0\x26\x01\0", b"\xff\xff"
# The server's procedures by their numbers, and how many parameters in front each takes itself.
NUMBERS = {10: "sp_executesql", 11: "sp_prepare", 12: "sp_execute", 13: "sp_prepexec", 15: "sp_unprepare"}
FRONT = {"sp_executesql": 2, "sp_prepare": 3, "sp_execute": 1, "sp_prepexec": 3, "sp_unprepare": 1, "sp_reset_connection": 0}


class Refused(Exception):
    """Why the first field is refused, a payload with a good one there and, unless it is cut, one that goes on as if it were right."""


class Unserved(Exception):
    """Why the first field of a driver's call is refused, and its offset."""


class Parameter(NamedTuple):
    """`kind` and `value` are as RETURNVALUE has them, `units` those of a text as they were sent."""

    name: bytes
    status: int
    kind: bytes
    value: bytes
    units: Optional[bytes]


class Reader:
    """Reads a call as it is without drivers."""

    def __init__(self, data):
        self.data, self.at = data, 0

    def take(self, count, instead):
        """The next field."""
        if len(self.data) - self.at < count:
            raise Refused("Cut", self.data[: self.at] + instead)
        self.at += count
        return self.data[self.at - count : self.at]

    def number(self, count, instead):
        return int.from_bytes(self.take(count, instead), "little")

    def refuse(self, count, why, instead, behind):
        """Refuses the field of so many bytes that was taken last; `behind` would end the call if it were right."""
        raise Refused(why, self.data[: self.at - count] + instead, self.data[: self.at] + behind)

    def call(self):
        """The name of the procedure, that of sp_executesql also where its number stands, and the parameters."""
        self.headers()
        count = self.number(2, NULL + TEN)
        name = self.take(2 * count, bytes(2 * count) + FLAGS) if count < MAX else self.numbered()
        self.take(2, FLAGS)
        parameters = []
        while self.at < len(self.data):
            parameters.append(self.parameter())
        return name, parameters

    def headers(self):
        self.at = int.from_bytes(self.data[:4], "little")
        if len(self.data) < 4 or not 4 <= self.at <= len(self.data):
            raise Refused("Headers", ALL_HEADERS + NULL + TEN)

    def numbered(self):
        if self.number(2, TEN) != 10:
            self.refuse(2, "Procedure", TEN, FLAGS)
        return SQL

    def parameter(self):
        count = self.number(1, b"")
        if count > MOST_NAME:
            self.refuse(1, "Trailing", b"", bytes(2 * count) + PLAIN)
        name, status, tag = self.take(2 * count, bytes(2 * count) + PLAIN), self.number(1, PLAIN), self.number(1, TINY)
        read = self.filled if tag in (WHOLE, BIT) else self.text if tag in self.texts() else None
        if read is None:
            self.refuse(1, "Kind", TINY, b"\x01\0")
        self.at -= 1
        return Parameter(name, status, *read(tag))

    def texts(self):
        """The first bytes of the types of texts."""
        return WIDE, NARROW

    def filled(self, tag):
        size = self.take(2, TINY)[1]
        if size not in ((1,) if tag == BIT else (1, 2, 4, 8)):
            self.refuse(2, "Kind", TINY, b"\0")
        count = self.number(1, b"\0")
        if count not in (0, size):
            self.refuse(1, "Value", b"\0", bytes(count))
        data = self.take(count, bytes(count))
        return bytes([tag, size]), bytes([count]) + (bytes([data != b"\0"]) if tag == BIT and count else data), None

    def text(self, tag):
        size = struct.unpack("<H", self.take(8, TINY)[1:3])[0]
        if not 1 <= size <= 2 * MOST_UNITS or tag == WIDE and size % 2:
            self.refuse(8, "Kind", TINY, NULL)
        most = size if tag == WIDE else min(size, MOST_UNITS)
        kind = text_kind(most if tag == WIDE else 2 * most)
        count = self.number(2, NULL)
        if count == MAX:
            return kind, NULL, None
        if count > most or tag == WIDE and count % 2:
            self.refuse(2, "Value", NULL, bytes(count))
        data = self.take(count, bytes(count))
        if tag == NARROW and not data.isascii():
            self.refuse(count, "Value", bytes(count), b"")
        data = data if tag == WIDE else data.decode("ascii").encode("utf-16-le")
        return kind, struct.pack("<H", len(data)) + data, data


class DriverReader(Reader):
    """Reads a call as a driver spells it."""

    def __init__(self, data):
        super().__init__(data)
        self.front = 0

    def refuse(self, count, why, instead, behind):
        raise Unserved(why, self.at - count)

    def call(self):
        """The procedure by a word where it is one of the server's, else by the bytes of its name; and the parameters."""
        self.headers()
        count = self.number(2, NULL + TEN)
        name = self.named(count) if count < MAX else self.numbered()
        self.take(2, FLAGS)
        self.front, parameters = FRONT.get(name, 0), []
        while self.at < len(self.data):
            parameters.append(self.parameter())
            self.front -= 1
        return name, parameters

    def named(self, count):
        name = self.take(2 * count, bytes(2 * count) + FLAGS)
        word = name.decode("utf-16-le", "surrogatepass")
        return word if word in FRONT else name

    def numbered(self):
        number = self.number(2, TEN)
        if number not in NUMBERS:
            self.refuse(2, "Procedure", b"", b"")
        return NUMBERS[number]

    def texts(self):
        return WIDE, NARROW, NCHAR, CHAR, NTEXT, TEXT

    def text(self, tag):
        wide, is_long = tag in (WIDE, NCHAR, NTEXT), tag in (NTEXT, TEXT)
        size, most = struct.unpack("<H", self.take(10 if is_long else 8, TINY)[1:3])[0], MOST_UNITS
        start = self.at
        if is_long:
            data = self.counted(4, 2**32, wide, start)
        elif size == MAX and tag in (WIDE, NARROW):
            data = self.joined(wide, start)
        elif not 1 <= size <= 2 * MOST_UNITS or wide and size % 2:
            return self.refuse(8, "Kind", b"", b"")
        else:
            most = size // 2 if wide else min(size, MOST_UNITS)
            data = self.counted(2, size, wide, start)
        if data is None:
            return text_kind(2 * most), NULL, None
        units = data if wide else b"".join(letter_of(byte) for byte in data)
        if self.front <= 0 and len(units) > 2 * MOST_UNITS:
            self.refuse(self.at - start, "Long", b"", b"")
        is_told = len(units) <= 2 * MOST_UNITS
        return text_kind(2 * most), struct.pack("<H", len(units)) + units if is_told else NULL, units

    def counted(self, width, most, wide, start):
        """The bytes behind their count, at most so many."""
        count = self.number(width, b"\xff" * width)
        if count == 256**width - 1:
            return None
        if wide and count % 2 or count > most:
            self.refuse(self.at - start, "Value", b"", b"")
        return self.take(count, bytes(min(count, 2**21)))

    def joined(self, wide, start):
        """The bytes of all chunks."""
        told = self.number(8, b"\xff" * 8)
        if told == 2**64 - 1:
            return None
        chunks = [b""]
        while count := self.number(4, bytes(4)):
            chunks.append(self.take(count, b""))
        data = b"".join(chunks)
        if told not in (UNTOLD, len(data)) or wide and len(data) % 2:
            self.refuse(self.at - start, "Value", b"", b"")
        return data


def text_kind(size):
    """The type of texts of so many bytes."""
    return struct.pack("<BH", WIDE, size) + COLLATION


def letter_of(byte):
    """The unit of a byte of Windows-1252; what is no letter there stands for itself."""
    try:
        return bytes([byte]).decode("cp1252").encode("utf-16-le")
    except UnicodeDecodeError:
        return bytes([byte, 0])
