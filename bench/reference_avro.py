"""Avro files and binary rows, by docs/FORMATS.md: read and written by a program that knows no line of the crates.

A type is the name of a plain one, or a tuple: ("record", [(name, type)]), ("array", type), ("map", type) or
("union", [type]). A record's datum is a dict, and a union's is that of its branch.
"""

import datetime
import struct

from reference_table import BITS, print_json, read_json, unsupported

PLAIN = ("null", "boolean", "int", "long", "bytes", "string")
MAGIC = b"Obj\x01"
BLOCK = 1024
DEEPEST = 32
WIDTHS = {kind: bits // 8 for kind, bits in BITS.items()} | {"DATE": 4}
FIRST_DAY = datetime.date(1, 1, 1).toordinal() - datetime.date(1970, 1, 1).toordinal()
LAST_DAY = datetime.date(9999, 12, 31).toordinal() - datetime.date(1970, 1, 1).toordinal()


class Bad(Exception):
    """Bytes that aren't what they have to be."""


# Types.


def read_type(text):
    """The type that a JSON text declares."""
    try:
        value = read_json(text)
    except ValueError as error:
        raise Bad from error
    return type_of(value, 0)


def type_of(value, above):
    """The type that a JSON value declares, with so many types around it."""
    if isinstance(value, list):
        return "union", [type_of(branch, above + 1) for branch in value]
    name = value.get("type") if isinstance(value, dict) else value
    if not isinstance(name, str):
        raise Bad
    if name in PLAIN:
        return name
    holds = {"record": "fields", "array": "items", "map": "values"}.get(name)
    if holds is None or not isinstance(value, dict):
        raise unsupported("type", name)
    if name != "record" and above > DEEPEST:
        raise unsupported("type", "nesting")
    if holds not in value or name == "record" and not isinstance(value["fields"], list):
        raise Bad
    if name == "record":
        return "record", fields_of(value["fields"], above)
    inner = type_of(value[holds], above + 1)
    if name == "array" and takes_no_byte(inner):
        raise unsupported("type", "empty item")
    return name, inner


def fields_of(values, above):
    """The fields of a record."""
    fields = {}
    for value in values:
        name = value.get("name") if isinstance(value, dict) else None
        if not isinstance(name, str) or name in fields or "type" not in value:
            raise Bad
        fields[name] = type_of(value["type"], above + 1)
    return list(fields.items())


def takes_no_byte(kind):
    return kind == "null" or kind[0] == "record" and all(takes_no_byte(field) for _, field in kind[1])


def declared(kind, names):
    """The JSON value that declares a type; `names` gives the records theirs."""
    if isinstance(kind, str):
        return kind
    if kind[0] == "union":
        return [declared(branch, names) for branch in kind[1]]
    if kind[0] == "record":
        name = next(names)
        fields = [{"name": field, "type": declared(inner, names)} for field, inner in kind[1]]
        return {"type": "record", "name": name, "fields": fields}
    return {"type": kind[0], {"array": "items", "map": "values"}[kind[0]]: declared(kind[1], names)}


# Data.


class Reader:
    """Bytes that are read from the front."""

    def __init__(self, data, at=0):
        self.data = data
        self.at = at

    def left(self):
        return len(self.data) - self.at

    def take(self, count):
        if not 0 <= count <= self.left():
            raise Bad
        self.at += count
        return self.data[self.at - count : self.at]

    def number(self, most=10, last=1):
        """A number in groups of seven bits: at most so many, of which the last is at most that."""
        found = 0
        for group in range(most):
            byte = self.take(1)[0]
            found |= (byte & 127) << (7 * group)
            if byte < 128:
                if group == most - 1 and byte > last:
                    raise Bad
                return found >> 1 ^ -(found & 1)
        raise Bad

    def text(self):
        try:
            return self.take(self.number()).decode()
        except UnicodeDecodeError as error:
            raise Bad from error

    def items(self, read):
        """The items of an array or a map."""
        found = []
        while count := self.number():
            size = self.number() if count < 0 else None
            if abs(count) > self.left():
                raise Bad
            begun = self.at
            found += [read() for _ in range(abs(count))]
            if size not in (None, self.at - begun):
                raise Bad
        return found

    def datum(self, kind):
        """A datum of a type."""
        if isinstance(kind, str):
            return self.plain(kind)
        name, inner = kind
        if name == "record":
            return {field: self.datum(of_field) for field, of_field in inner}
        if name == "array":
            return self.items(lambda: self.datum(inner))
        if name == "map":
            return self.items(lambda: (self.text(), self.datum(inner)))
        branch = self.number(5, 15)
        if not 0 <= branch < len(inner):
            raise Bad
        return self.datum(inner[branch])

    def plain(self, kind):
        if kind == "boolean":
            byte = self.take(1)[0]
            if byte > 1:
                raise Bad
            return byte == 1
        if kind == "int":
            return self.number(5, 15)
        reads = {"null": lambda: None, "long": self.number, "string": self.text}
        return reads.get(kind, lambda: self.take(self.number()))()


def number(value):
    """A number as Avro has it."""
    left, out = (value << 1 ^ value >> 63) % 2**64, bytearray()
    while left >= 128:
        out.append(left % 128 + 128)
        left >>= 7
    return bytes([*out, left])


def sized(data):
    return number(len(data)) + data


def encoded(kind, datum):
    """A datum of a type that is written: unions with null first, and no array."""
    if kind == "null":
        return b""
    if kind == "boolean":
        return bytes([datum])
    if kind in ("int", "long"):
        return number(datum)
    if isinstance(kind, str):
        return sized(datum.encode() if kind == "string" else datum)
    if kind[0] == "union":
        return number(0) if datum is None else number(1) + encoded(kind[1][1], datum)
    return b"".join(encoded(inner, datum[name]) for name, inner in kind[1])


# Files.


class Blocks:
    """An Avro file: its type, and its blocks, each with its offset, as they are read."""

    def __init__(self, data):
        self.reader = Reader(data)
        if self.reader.take(4) != MAGIC:
            raise Bad
        header = dict(self.reader.items(lambda: (self.reader.text(), self.reader.take(self.reader.number()))))
        self.marker = self.reader.take(16)
        try:
            codec = header.get("avro.codec", b"null").decode()
        except UnicodeDecodeError as error:
            raise Bad from error
        if codec != "null":
            raise unsupported("codec", codec)
        if "avro.schema" not in header:
            raise Bad
        self.kind = read_type(header["avro.schema"])

    def __iter__(self):
        return self

    def __next__(self):
        if not self.reader.left():
            raise StopIteration
        return self.reader.at, self.block

    def block(self):
        """The data of the next block; it is read only once."""
        reader = self.reader
        count, size = reader.number(), reader.number()
        if not 0 <= count <= size:
            raise Bad
        inner = Reader(reader.take(size))
        found = [inner.datum(self.kind) for _ in range(count)]
        if inner.left() or reader.take(16) != self.marker:
            raise Bad
        return found


def written(kind, data, marker):
    """A file of these data."""
    names = (f"r{at}" for at in range(1000))
    header = [b"avro.codec", b"null", b"avro.schema", print_json(declared(kind, names)).encode()]
    out = MAGIC + number(2) + b"".join(sized(text) for text in header) + number(0) + marker
    for at in range(0, len(data), BLOCK):
        block = [encoded(kind, datum) for datum in data[at : at + BLOCK]]
        out += number(len(block)) + sized(b"".join(block)) + marker
    return out


# Binary rows.


def binary(kinds, values):
    """The binary row of stored values."""
    nulls = (len(kinds) + 71) // 64 * 8
    body, tails = bytearray(nulls + 8 * len(kinds)), b""
    for at, (kind, value) in enumerate(zip(kinds, values)):
        if value is None:
            body[(8 + at) // 8] |= 1 << (8 + at) % 8
            continue
        slot = slot_of(kind, value, len(body) + len(tails))
        if len(slot) < 8 or kind not in ("STRING", "BYTES") or slot[7] >= 128:
            slot = slot.ljust(8, b"\0")
        else:
            data = value.encode() if kind == "STRING" else value
            tails += data + b"\0" * (-len(data) % 8)
        body[nulls + 8 * at : nulls + 8 * at + 8] = slot
    return struct.pack(">i", len(kinds)) + bytes(body) + tails


def hash_of(body):
    """The hash of a row's body, a number with a sign: Murmur3 of 32 bits over its words of four bytes, from 42 on."""
    found = 42
    for (word,) in struct.iter_unpack("<I", body):
        word = turned(word * 0xCC9E2D51, 15) * 0x1B873593 % 2**32
        found = (turned(found ^ word, 13) * 5 + 0xE6546B64) % 2**32
    found ^= len(body)
    for shift, factor in ((16, 0x85EBCA6B), (13, 0xC2B2AE35), (16, 1)):
        found = (found ^ found >> shift) * factor % 2**32
    return found - 2**32 if found >= 2**31 else found


def turned(word, bits):
    """A word whose bits go to the left in a circle."""
    word %= 2**32
    return (word << bits | word >> 32 - bits) % 2**32


def bucket_of(kinds, values, buckets):
    """The bucket of a key among so many."""
    return abs(hash_of(binary(kinds, values)[4:])) % buckets


def slot_of(kind, value, tail):
    """The slot of a value, whose tail, where it has one, begins there."""
    if kind in WIDTHS:
        return value.to_bytes(WIDTHS[kind], "little", signed=True)
    if kind == "BOOLEAN":
        return bytes([value])
    data = value.encode() if kind == "STRING" else value
    if len(data) > 7:
        return struct.pack("<ii", len(data), tail)
    return data.ljust(7, b"\0") + bytes([128 + len(data)])


def read_binary(kinds, data):
    """The values of a binary row without a null. No row has two spellings, so it has to be written as the same."""
    nulls = (len(kinds) + 71) // 64 * 8
    try:
        values = [slot_value(kind, data[4:], nulls + 8 * at) for at, kind in enumerate(kinds)]
        if binary(kinds, values) == data:
            return values
    except (struct.error, UnicodeDecodeError, IndexError, OverflowError) as error:
        raise Bad from error
    raise Bad


def slot_value(kind, body, at):
    """The value of a slot."""
    slot = body[at : at + 8]
    if kind in WIDTHS:
        found = int.from_bytes(slot[: WIDTHS[kind]], "little", signed=True)
        if kind == "DATE" and not FIRST_DAY <= found <= LAST_DAY:
            raise Bad
        return found
    if kind == "BOOLEAN":
        return slot[0] == 1
    if slot[7] >= 128:
        data = slot[: slot[7] - 128]
    else:
        length, offset = struct.unpack("<ii", slot)
        data = body[offset : offset + length]
    return data.decode() if kind == "STRING" else data
