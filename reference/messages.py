"""What a message is, as docs/messages.md tells it: reading, writing and showing.

Written from that page alone; it shares nothing with the crates. Signatures are
read into trees of types by texts.py, and values are read along these trees,
item by item. For each item all its causes are gathered, and the lowest tells.

The writer lays what it is given and judges nothing, so that it can also lay
what is no message. It keeps a list of the items, with their places.
"""

from __future__ import annotations

from collections.abc import Callable
from dataclasses import dataclass, replace
from enum import Enum, IntEnum

import texts
from texts import Array, Entry, Single, Struct, Type, complete_types

SENT = 1000  # the most bytes of a message that a program sends
WRITTEN = 1024  # and of one that the bus has written
AROUND = 64  # the most arrays, structs, dict entries and variants around a value
FIRST_FIELD = 16


class Order(Enum):
    """The byte orders, with their marks."""

    LITTLE = ord("l")
    BIG = ord("B")

    def read(self, content: bytes) -> int:
        return int.from_bytes(content, "little" if self is Order.LITTLE else "big")

    def written(self, number: int, width: int) -> bytes:
        """The last so many bytes of a number, which may be negative."""
        return (number % 256**width).to_bytes(width, "little" if self is Order.LITTLE else "big")


# Values ----------------------------------------------------------------------

WIDTHS = {"y": 1, "b": 4, "n": 2, "q": 2, "i": 4, "u": 4, "x": 8, "t": 8, "d": 8}
LENGTH_WIDTHS = {"s": 4, "o": 4, "g": 1}  # of the length before a text
SIGNED = "nix"


@dataclass(frozen=True)
class Variant:
    type: Type
    value: Value


# A double is its 64 bits as a number, a text its bytes, an array a list, a struct or dict entry a tuple.
Value = int | bytes | Variant | list["Value"] | tuple["Value", ...]


def alignment(each: Type) -> int:
    match each:
        case Array():
            return 4
        case Struct() | Entry():
            return 8
    code = chr(each.code)
    return 1 if code == "v" else WIDTHS.get(code) or LENGTH_WIDTHS[code]


def aligned(at: int, to: int) -> int:
    """The first multiple at or behind this byte."""
    return -(-at // to) * to


# Fields ----------------------------------------------------------------------


class Code(IntEnum):
    PATH = 1
    INTERFACE = 2
    MEMBER = 3
    ERROR_NAME = 4
    REPLY_SERIAL = 5
    DESTINATION = 6
    SENDER = 7
    SIGNATURE = 8


NOWHERE = (0, 9)
FIELD_TYPES = {code: "s" for code in Code} | {Code.PATH: "o", Code.REPLY_SERIAL: "u", Code.SIGNATURE: "g"}

# What a known field asks of its value, beyond what its type does.
FIELD_RULES: dict[int, Callable[[Value], bool]] = {
    Code.INTERFACE: texts.is_interface,
    Code.MEMBER: texts.is_member,
    Code.ERROR_NAME: texts.is_error_name,
    Code.REPLY_SERIAL: lambda serial: serial != 0,
    Code.DESTINATION: lambda name: texts.bus_name(name) is not None,
    Code.SENDER: lambda name: texts.bus_name(name) is not None,
}

CALL, RETURN, ERROR, SIGNAL = 1, 2, 3, 4
NEEDED: dict[int, set[Code]] = {
    CALL: {Code.PATH, Code.MEMBER},
    RETURN: {Code.REPLY_SERIAL},
    ERROR: {Code.ERROR_NAME, Code.REPLY_SERIAL},
    SIGNAL: {Code.PATH, Code.INTERFACE, Code.MEMBER},
}


@dataclass(frozen=True)
class Field:
    code: int
    type: Type
    value: Value


@dataclass(frozen=True)
class Message:
    """What a message holds. The fields are listed as they stand."""

    order: Order
    kind: int
    flags: int
    serial: int
    fields: list[Field]
    body: list[Value]

    def known(self, code: Code) -> Value | None:
        return next((each.value for each in self.fields if each.code == code), None)

    def unknown(self) -> list[Field]:
        return [each for each in self.fields if each.code not in list(Code)]

    def signature(self) -> bytes:
        return self.known(Code.SIGNATURE) or b""


# Faults ----------------------------------------------------------------------


class Part(IntEnum):
    FRAME = 1
    FIELDS = 2
    BODY = 3


class Cause(IntEnum):
    SHORT = 1
    NO_ORDER = 2
    TYPE_0 = 3
    VERSION = 4
    LENGTH = 5
    SERIAL_0 = 6
    PADDING = 7
    PAST_END = 8
    TEXT = 9
    BOOLEAN = 10
    NAME = 11
    SIGNATURE = 12
    DEEP = 13
    FIELD = 14
    MISSING = 15
    LEFT_OVER = 16


@dataclass(frozen=True)
class Fault:
    part: Part
    cause: Cause
    byte: int


class Bad(Exception):
    """Raised at the first bad item."""

    def __init__(self, fault: Fault) -> None:
        super().__init__(fault)
        self.fault = fault


# Reading ---------------------------------------------------------------------


class Reader:
    """Reads the items of a part, one after the other."""

    def __init__(self, message: bytes, order: Order, part: Part, at: int) -> None:
        self.message = message
        self.order = order
        self.part = part
        self.at = at

    def judge(self, causes: list[Cause]) -> None:
        """The item here has these causes."""
        if causes:
            raise Bad(Fault(self.part, min(causes), self.at))

    def number(self, width: int) -> int:
        return self.order.read(self.message[self.at : self.at + width])

    def padding(self, to: int, end: int) -> None:
        behind = aligned(self.at, to)
        if behind > end:
            self.judge([Cause.PAST_END])  # zero or not
        if any(self.message[self.at : behind]):
            self.judge([Cause.PADDING])
        self.at = behind

    def value(self, each: Type, around: int, end: int) -> Value:
        """The value here, with its padding; the innermost array or part ends at `end`."""
        self.padding(alignment(each), end)
        match each:
            case Array(element):
                return self.array(element, around, end)
            case Struct() | Entry():
                self.judge(too_deep(around))
                return tuple(self.value(part, around + 1, end) for part in each.parts())
        if each == Single(ord("v")):
            one = self.one_type(end, lambda _: too_deep(around))
            return Variant(one, self.value(one, around + 1, end))
        return self.basic(chr(each.code), end, lambda _: too_deep(around))

    def array(self, element: Type, around: int, end: int) -> Value:
        if self.at + 4 > end:
            self.judge([Cause.PAST_END])
        last = aligned(self.at + 4, alignment(element)) + self.number(4)
        self.judge([Cause.PAST_END] * (last > end) + too_deep(around))
        self.at += 4
        self.padding(alignment(element), last)
        values = []
        while self.at < last:
            values.append(self.value(element, around + 1, last))
        return values

    def basic(self, code: str, end: int, causes: Callable[[Value], list[Cause]]) -> Value:
        """The basic value here, if it has no cause by its type and none of these."""
        width = LENGTH_WIDTHS.get(code) or WIDTHS[code]
        if self.at + width > end:
            self.judge([Cause.PAST_END])
        value, behind = self.number(width), self.at + width
        found = []
        if code in LENGTH_WIDTHS:
            first, last = behind, behind + value
            if last + 1 > end:
                self.judge([Cause.PAST_END])
            value, behind = self.message[first:last], last + 1
            found += [Cause.TEXT] * (self.message[last] != 0)
        elif code in SIGNED and value >= 256**width // 2:
            value -= 256**width
        self.judge(found + causes_by_type(code, value) + causes(value))
        self.at = behind
        return value

    def one_type(self, end: int, causes: Callable[[Type], list[Cause]]) -> Type:
        """The type of a field or a variant, if it has none of these causes."""

        def of_spelling(spelled: Value) -> list[Cause]:
            types = complete_types(spelled)
            return causes(types[0]) if types and len(types) == 1 else [Cause.SIGNATURE]

        return complete_types(self.basic("g", end, of_spelling))[0]

    def field(self, end: int, before: list[int]) -> Field:
        """A field. Its code and its type are an item each."""
        self.padding(8, end)
        stood = [code for code in before if code in list(Code)]
        code = self.basic("y", end, lambda code: [Cause.FIELD] * (code in NOWHERE or code in stood))
        if code not in list(Code):
            one = self.one_type(end, lambda _: [])
            return Field(code, one, self.value(one, 0, end))
        own, rule = Single(ord(FIELD_TYPES[code])), FIELD_RULES.get(code, lambda _: True)
        one = self.one_type(end, lambda one: [Cause.FIELD] * (one != own))
        self.padding(alignment(one), end)
        return Field(code, one, self.basic(chr(one.code), end, lambda value: [Cause.NAME] * (not rule(value))))


def too_deep(around: int) -> list[Cause]:
    return [Cause.DEEP] * (around > AROUND)


def causes_by_type(code: str, value: Value) -> list[Cause]:
    match code:
        case "b":
            return [Cause.BOOLEAN] * (value not in (0, 1))
        case "s":
            return [Cause.TEXT] * (not texts.is_text(value))
        case "o":
            return [Cause.NAME] * (not texts.is_path(value))
        case "g":
            return [Cause.SIGNATURE] * (not texts.is_signature(value))
    return []


def frame_fault(message: bytes, limit: int) -> Fault | None:
    if len(message) < 16:
        return Fault(Part.FRAME, Cause.SHORT, 0)
    if message[0] not in [order.value for order in Order]:
        return Fault(Part.FRAME, Cause.NO_ORDER, 0)
    order = Order(message[0])
    body, serial, fields = (order.read(message[at : at + 4]) for at in (4, 8, 12))
    if message[1] == 0:
        return Fault(Part.FRAME, Cause.TYPE_0, 1)
    if message[3] != 1:
        return Fault(Part.FRAME, Cause.VERSION, 3)
    if len(message) > limit or len(message) != aligned(FIRST_FIELD + fields, 8) + body:
        return Fault(Part.FRAME, Cause.LENGTH, 4)
    return Fault(Part.FRAME, Cause.SERIAL_0, 8) if serial == 0 else None


def read_parts(message: bytes) -> Message:
    """What is held by a message whose frame is good; Bad if it is none."""
    order = Order(message[0])
    serial, length = order.read(message[8:12]), order.read(message[12:16])
    reader = Reader(message, order, Part.FIELDS, FIRST_FIELD)
    fields: list[Field] = []
    while reader.at < FIRST_FIELD + length:
        fields.append(reader.field(FIRST_FIELD + length, [each.code for each in fields]))
    reader.padding(8, len(message))
    held = Message(order, message[1], message[2], serial, fields, [])
    reader = Reader(message, order, Part.BODY, reader.at)
    for each in complete_types(held.signature()):
        held.body.append(reader.value(each, 0, len(message)))
    if not NEEDED.get(held.kind, set()) <= {each.code for each in fields}:
        raise Bad(Fault(Part.FIELDS, Cause.MISSING, FIRST_FIELD))
    reader.judge([Cause.LEFT_OVER] * (reader.at < len(message)))
    return held


def read(message: bytes, limit: int) -> Message | Fault:
    fault = frame_fault(message, limit)
    if fault is not None:
        return fault
    try:
        return read_parts(message)
    except Bad as bad:
        return bad.fault


# Writing ---------------------------------------------------------------------


@dataclass(frozen=True)
class Item:
    """An item that was laid, with its length; that of an array counts its padding and elements, too.

    A basic value has its code for a name. A struct or dict entry begins where its first member does, and has no bytes.
    The field is the code of the one that the item stands in, or 0 in the body.
    """

    name: str
    part: Part
    at: int
    size: int
    around: int
    field: int

    @property
    def behind(self) -> int:
        return self.at + self.size


class Writer:
    """Lays values one after the other, from a byte on. Padding is filled with the same byte everywhere."""

    def __init__(self, order: Order, part: Part, at: int, fill: int = 0) -> None:
        self.order = order
        self.part = part
        self.start = at
        self.fill = fill
        self.within = 0
        self.content = b""
        self.items: list[Item] = []

    @property
    def at(self) -> int:
        return self.start + len(self.content)

    def lay(self, name: str, content: bytes, around: int = 0) -> None:
        self.items.append(Item(name, self.part, self.at, len(content), around, self.within))
        self.content += content

    def padding(self, to: int) -> None:
        if self.at % to:
            self.lay("padding", bytes([self.fill]) * (aligned(self.at, to) - self.at))

    def text(self, name: str, width: int, content: bytes, around: int = 0) -> None:
        self.lay(name, self.order.written(len(content), width) + content + b"\0", around)

    def value(self, each: Type, value: Value, around: int = 0) -> None:
        self.padding(alignment(each))
        match each:
            case Array(element):
                self.array(element, value, around)
            case Struct() | Entry():
                self.lay("struct" if isinstance(each, Struct) else "dict entry", b"", around)
                for part, inner in zip(each.parts(), value, strict=True):
                    self.value(part, inner, around + 1)
            case Single():
                self.single(chr(each.code), value, around)

    def array(self, element: Type, values: Value, around: int) -> None:
        head, number = len(self.content), len(self.items)
        self.lay("array", bytes(4), around)
        self.padding(alignment(element))
        first = len(self.content)
        for value in values:
            self.value(element, value, around + 1)
        length = self.order.written(len(self.content) - first, 4)
        self.content = self.content[:head] + length + self.content[head + 4 :]
        self.items[number] = replace(self.items[number], size=len(self.content) - head)

    def single(self, code: str, value: Value, around: int) -> None:
        if code == "v":
            self.text("variant", 1, value.type.spelled(), around)
            self.value(value.type, value.value, around + 1)
        elif code in LENGTH_WIDTHS:
            self.text(code, LENGTH_WIDTHS[code], value, around)
        else:
            self.lay(code, self.order.written(value, WIDTHS[code]), around)

    def field(self, each: Field) -> None:
        self.padding(8)
        self.within = each.code
        self.lay("code", bytes([each.code]))
        self.text("type", 1, each.type.spelled())
        self.value(each.type, each.value)


def frame(order: Order, kind: int, flags: int, serial: int, fields: int, body: int) -> bytes:
    """The first 16 bytes, with these lengths of the fields and the body."""
    numbers = b"".join(order.written(number, 4) for number in (body, serial, fields))
    return bytes([order.value, kind, flags, 1]) + numbers


def write(message: Message, fill: int = 0) -> tuple[bytes, list[Item]]:
    """The bytes of a message, with all padding filled so, and its items."""
    fields = Writer(message.order, Part.FIELDS, FIRST_FIELD, fill)
    for each in message.fields:
        fields.field(each)
    length = len(fields.content)
    fields.padding(8)
    body = Writer(message.order, Part.BODY, fields.at, fill)
    for each, value in zip(complete_types(message.signature()), message.body, strict=True):
        body.value(each, value)
    first = frame(message.order, message.kind, message.flags, message.serial, length, len(body.content))
    return first + fields.content + body.content, fields.items + body.items


# Showing ---------------------------------------------------------------------

KIND_WORDS = {CALL: "call", RETURN: "return", ERROR: "error", SIGNAL: "signal"}
ORDER_WORDS = {Order.LITTLE: "little endian", Order.BIG: "big endian"}
PART_WORDS = {Part.FRAME: "the frame", Part.FIELDS: "the fields", Part.BODY: "the body"}
CAUSE_WORDS = {
    Cause.SHORT: "under 16 bytes",
    Cause.NO_ORDER: "no byte order",
    Cause.TYPE_0: "type 0",
    Cause.VERSION: "wrong version",
    Cause.LENGTH: "wrong length",
    Cause.SERIAL_0: "serial 0",
    Cause.PADDING: "padding not zero",
    Cause.PAST_END: "past the end",
    Cause.TEXT: "bad text",
    Cause.BOOLEAN: "bad boolean",
    Cause.NAME: "bad path, name or reply serial",
    Cause.SIGNATURE: "bad signature",
    Cause.DEEP: "nested too deep",
    Cause.FIELD: "bad field",
    Cause.MISSING: "needed field missing",
    Cause.LEFT_OVER: "bytes left over",
}


def shown_text(text: bytes) -> str:
    plain = set(range(32, 127)) - set(b'"\\')
    return '"' + "".join(chr(byte) if byte in plain else f"\\x{byte:02x}" for byte in text) + '"'


def shown(each: Type, value: Value) -> str:
    match each:
        case Array(Entry(key, inner)):
            return "{" + ", ".join(f"{shown(key, a)}: {shown(inner, b)}" for a, b in value) + "}"
        case Array(element):
            return "[" + ", ".join(shown(element, inner) for inner in value) + "]"
        case Struct(members):
            return "(" + ", ".join(map(shown, members, value)) + ")"
    match chr(each.code):
        case "v":
            return f"<{value.type.spelled().decode('ascii')} {shown(value.type, value.value)}>"
        case "b":
            return "true" if value else "false"
        case "d":
            return f"0x{value:016x}"
        case "s" | "o" | "g":
            return shown_text(value)
    return str(value)


def shown_message(message: Message, length: int) -> list[str]:
    """The lines of a message, the first without its number."""
    kind = KIND_WORDS.get(message.kind, f"type {message.kind}")
    counts = f"serial {message.serial}, flags {message.flags}, {length} bytes"
    lines = [f"{kind}, {ORDER_WORDS[message.order]}, {counts}"]
    for code in Code:
        value = message.known(code)
        if value is not None:
            plain = value if isinstance(value, int) else value.decode("ascii")
            lines.append(f"  {code.name.lower().replace('_', ' ')} {plain}")
    for each in message.unknown():
        lines.append(f"  field {each.code} {shown(Single(ord('v')), Variant(each.type, each.value))}")
    types = complete_types(message.signature())
    if types:
        lines.append("  body " + ", ".join(map(shown, types, message.body)))
    return lines


def shown_fault(fault: Fault) -> str:
    """The line of a fault, without its number."""
    where = f"fault in {PART_WORDS[fault.part]} at byte {fault.byte}"
    return f"{where}: {CAUSE_WORDS[fault.cause]} (part {fault.part.value}, cause {fault.cause.value})"


def inspect(text: str) -> str:
    """What the program inspect prints for these lines; ValueError where a line stops it."""
    lines, valid, faulty = [], 0, 0
    for number, line in enumerate(text.removesuffix("\n").split("\n"), 1):
        if not line or line.startswith("#"):
            continue
        if len(line) % 2 or set(line) - set("0123456789abcdef"):
            raise ValueError(f"line {number}: not hex")
        message = bytes.fromhex(line)
        held = read(message, SENT)
        if isinstance(held, Fault):
            faulty += 1
            lines.append(f"line {number}: {shown_fault(held)}")
        else:
            valid += 1
            first, *rest = shown_message(held, len(message))
            lines += [f"line {number}: {first}", *rest]
    count = valid + faulty
    lines.append(f"{count} message{'' if count == 1 else 's'}: {valid} valid, {faulty} faulty")
    return "\n".join(lines) + "\n"
