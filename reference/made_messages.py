"""Builds messages, by hand and by chance, and spoils them in ways whose fault is known.

What the recorder for inspect and the comparison with libdbus share. Written
from docs/messages.md alone; it shares nothing with the crates. The writer of
messages.py lays the bytes and lists the items; where a fault tells that is put
into an item, or that a cut makes, follows from that list.
"""

from __future__ import annotations

from collections.abc import Iterator

from messages import (
    AROUND,
    CALL,
    ERROR,
    FIELD_TYPES,
    FIRST_FIELD,
    LENGTH_WIDTHS,
    NEEDED,
    RETURN,
    SENT,
    SIGNAL,
    SIGNED,
    WIDTHS,
    Cause,
    Code,
    Fault,
    Field,
    Item,
    Message,
    Order,
    Part,
    Value,
    Variant,
    Writer,
    aligned,
    frame,
    read,
    write,
)
from record_lint import one_of, some_of, some_text, some_type
from recording import Dice
from texts import BASIC, Array, Entry, Struct, Type, complete_types, spell

ORDERS = list(Order)
TYPES = [CALL, RETURN, ERROR, SIGNAL, 5, 6, 128, 255]


def judge(message: bytes) -> Message | Fault:
    """The model's verdict. What a message holds has to make the same bytes again."""
    held = read(message, SENT)
    if isinstance(held, Message):
        assert write(held)[0] == message, message.hex()
    return held


# Building --------------------------------------------------------------------


def one(spelled: str) -> Type:
    """The one complete type that is spelled so."""
    (only,) = complete_types(spelled.encode("ascii"))
    return only


def known(code: Code, value: Value) -> Field:
    return Field(code, one(FIELD_TYPES[code]), value)


def unknown(code: int, spelled: str, value: Value) -> Field:
    return Field(code, one(spelled), value)


def variant(spelled: str, value: Value) -> Variant:
    return Variant(one(spelled), value)


def signed(spelled: str) -> Field:
    return known(Code.SIGNATURE, spelled.encode("ascii"))


PATH = known(Code.PATH, b"/a")
INTERFACE = known(Code.INTERFACE, b"a.b")
MEMBER = known(Code.MEMBER, b"M")
ERROR_NAME = known(Code.ERROR_NAME, b"e.r")
REPLY = known(Code.REPLY_SERIAL, 1)
NEEDS = {
    CALL: [PATH, MEMBER],
    RETURN: [REPLY],
    ERROR: [ERROR_NAME, REPLY],
    SIGNAL: [PATH, INTERFACE, MEMBER],
}


def a_return(order: Order, spelled: str, *values: Value) -> Message:
    """A return with this body."""
    return Message(order, RETURN, 0, 1, [REPLY, signed(spelled)], list(values))


def with_field(order: Order, *fields: Field) -> Message:
    """A return with these fields behind its own, and no body."""
    return Message(order, RETURN, 0, 1, [REPLY, *fields], [])


def laid(order: Order, *fields: Field) -> bytes:
    writer = Writer(order, Part.FIELDS, FIRST_FIELD)
    for each in fields:
        writer.field(each)
    return writer.content


def assembled(order: Order, fields: bytes, body: bytes = b"", kind: int = RETURN) -> bytes:
    """A message of these bytes, with the lengths that they have, and zero bytes behind the fields."""
    return frame(order, kind, 0, 1, len(fields), len(body)) + fields + bytes(-len(fields) % 8) + body


def raw_body(order: Order, spelled: str, body: bytes) -> tuple[bytes, int]:
    """A return with a body of these bytes, and where it begins."""
    fields = laid(order, REPLY, signed(spelled))
    return assembled(order, fields, body), aligned(FIRST_FIELD + len(fields), 8)


def raw_field(order: Order, field: bytes) -> tuple[bytes, int]:
    """A return with a second field of these bytes, and where that begins."""
    fields = laid(order, REPLY)
    return assembled(order, fields + field), FIRST_FIELD + len(fields)


def typed(code: int, spelled: bytes, value: bytes = b"") -> bytes:
    """A field whose type is spelled so, with the bytes of its value."""
    return bytes([code, len(spelled)]) + spelled + b"\0" + value


def patched(message: bytes, at: int, content: bytes) -> bytes:
    assert at + len(content) <= len(message)
    return message[:at] + content + message[at + len(content) :]


def fields_end(message: bytes) -> int:
    return FIRST_FIELD + Order(message[0]).read(message[12:16])


def body_start(message: bytes) -> int:
    return aligned(fields_end(message), 8)


# Values by chance ------------------------------------------------------------

EXTREMES: dict[str, list[int]] = {
    "y": [0, 1, 127, 128, 255],
    "b": [0, 1],
    "n": [0, -1, -(2**15), 2**15 - 1, 0x0102],
    "q": [0, 1, 2**16 - 1, 0x8001],
    "i": [0, -1, -(2**31), 2**31 - 1, 0x01020304],
    "u": [0, 1, 2**32 - 1, 0x80000001],
    "x": [0, -1, -(2**63), 2**63 - 1, 0x0102030405060708],
    "t": [0, 1, 2**64 - 1, 0x8000000000000001],
    "d": [0, 1, 2**63, 0x3FF8000000000000, 0x7FF0000000000000, 0xFFF8000000000001, 2**64 - 1],
}
TEXTS = [b"", b"a", b"melt", b"two words", b'a "quote"', b"back\\slash", b"\x01\x1f \x7e\x7f", b"\t\r\n"]
TEXTS += ["é".encode(), "雪と氷".encode(), "😀".encode(), b"\xef\xbf\xbf", b"\\x41", b"'<>{}[](),:"]
PATHS = [b"/", b"/a", b"/org/melt", b"/0/_/Z9", b"/org/freedesktop/DBus/Local"]
SIGNATURES = [b"", b"y", b"a{sv}", b"(yu)as", b"aaaay", b"v", b"a{o(ga{tb})}"]


def some_value(dice: Dice, each: Type, levels: int = 2) -> Value:
    """A value of the type; a variant in it brings a type of so many levels."""
    match each:
        case Array(element):
            return [some_value(dice, element, levels) for _ in range(dice.weigh({0: 2, 1: 4, 2: 3, 3: 1}))]
        case Struct() | Entry():
            return tuple(some_value(dice, part, levels) for part in each.parts())
    match chr(each.code):
        case "v":
            (inner,) = complete_types(some_type(dice, levels))
            return Variant(inner, some_value(dice, inner, max(levels - 1, 0)))
        case "s":
            return dice.pick(TEXTS) if dice.below(3) else some_text(dice)
        case "o":
            return dice.pick(PATHS) if dice.below(3) else some_of(dice, "path")
        case "g":
            return dice.pick(SIGNATURES) if dice.below(3) else some_of(dice, "signature")
        case "b":
            return dice.below(2)
        case code:
            number = int.from_bytes(dice.text(WIDTHS[code]), "big", signed=code in SIGNED)
            return number if dice.below(2) else dice.pick(EXTREMES[code])


NAME_KINDS = {
    Code.PATH: "path",
    Code.INTERFACE: "interface",
    Code.MEMBER: "member",
    Code.ERROR_NAME: "error",
    Code.DESTINATION: "busname",
    Code.SENDER: "busname",
}


def some_field(dice: Dice, code: Code) -> Field:
    if code == Code.REPLY_SERIAL:
        return known(code, dice.pick([1, 2**32 - 1, 1 + dice.below(2**31)]))
    return known(code, some_of(dice, NAME_KINDS[code]))


def some_message(dice: Dice, order: Order, kind: int, levels: int = 2) -> Message:
    """A valid message, of at most 1,000 bytes."""
    needed = NEEDED.get(kind, set())
    codes = [code for code in Code if code in needed or code != Code.SIGNATURE and dice.below(4) == 0]
    fields = [some_field(dice, code) for code in codes]
    for _ in range(dice.weigh({0: 4, 1: 2, 2: 1})):
        (each,) = complete_types(some_type(dice, levels))
        fields.append(Field(10 + dice.below(246), each, some_value(dice, each, levels)))
    types = [complete_types(some_type(dice, levels))[0] for _ in range(dice.weigh({0: 1, 1: 3, 2: 3, 3: 2}))]
    if types or dice.below(3) == 0:
        fields.append(known(Code.SIGNATURE, spell(types)))
    body = [some_value(dice, each, levels) for each in types]
    serial = dice.pick([1, 2**32 - 1, 0x01020304, 1 + dice.below(2**31)])
    made = Message(order, kind, dice.pick([0, 1, 2, 4, 7, dice.below(256)]), serial, dice.mix(fields), body)
    return made if len(write(made)[0]) <= SENT else some_message(dice, order, kind, levels)


# Depths ----------------------------------------------------------------------

WRAPS = {"array": 1, "struct": 1, "dict": 2, "variant": 1}  # with what each adds around a value


def wrapped(wraps: list[str], spelled: str, value: Value) -> tuple[Type, Value]:
    """The value in these wraps, the first outermost."""
    each = one(spelled)
    for wrap in reversed(wraps):
        match wrap:
            case "array":
                each, value = Array(each), [value]
            case "struct":
                each, value = Struct([each]), (value,)
            case "dict":
                each, value = Array(Entry(one("y"), each)), [(1, value)]
            case "variant":
                each, value = one("v"), Variant(each, value)
    return each, value


def wraps_around(dice: Dice, wanted: list[str], count: int) -> list[str]:
    """Wraps by chance that are so many around a value, with a variant wherever a signature would grow too deep."""
    wraps: list[str] = []
    left, arrays, structs = count, 0, 0
    while left:
        wrap = dice.pick([wrap for wrap in wanted if WRAPS[wrap] <= left] or ["variant"])
        arrays += wrap in ("array", "dict")
        structs += wrap in ("struct", "dict")
        # The innermost type, which may be an array or a struct, stands in the same signature.
        if arrays > 31 or structs > 31:
            wrap = "variant"
        if wrap == "variant":
            arrays = structs = 0
        wraps.append(wrap)
        left -= WRAPS[wrap]
    return wraps


def deepest(message: Message) -> Message | Fault:
    """What has to be said of a message whose only fault can be its depth."""
    deep = [item for item in write(message)[1] if item.around > AROUND and item.name != "padding"]
    return Fault(deep[0].part, Cause.DEEP, deep[0].at) if deep else message


# Spoiling items --------------------------------------------------------------


def end_around(item: Item, items: list[Item], message: bytes) -> int:
    """The end of the innermost array or part that the item stands in."""
    arrays = [each for each in items if each.name == "array" and each.at < item.at and item.behind <= each.behind]
    if arrays:
        return min(each.behind for each in arrays)
    return len(message) if item.part == Part.BODY else fields_end(message)


def spoilt_lengths(item: Item, message: bytes, end: int) -> list[bytes]:
    """Lengths that make a text or an array go past the end: by one, by a lot, and so that a sum wraps around."""
    order, width = Order(message[0]), 4 if item.name == "array" else LENGTH_WIDTHS.get(item.name, 1)
    # What the item takes besides the bytes that its length counts.
    besides = item.size - order.read(message[item.at : item.at + width])
    fits = end - item.at - besides
    numbers = [fits + 1, fits + 200, 2 ** (8 * width - 1), 256**width - 1, 256**width - 4, 256**width - 16]
    return [order.written(number, width) for number in numbers if fits < number < 256**width]


Spoilt = tuple[Cause, int, bytes]


def spoil(item: Item, message: bytes, end: int, dice: Dice) -> Iterator[Spoilt]:
    """Ways to spoil an item in its place: the cause, how many of its bytes decide, and the message."""
    order, at = Order(message[0]), item.at
    if item.name == "padding":
        for k in sorted({0, item.size - 1, dice.below(item.size)}):
            yield Cause.PADDING, item.size, patched(message, at + k, bytes([1 + dice.below(255)]))
    elif item.name == "code":
        yield Cause.FIELD, 1, patched(message, at, b"\0")
        yield Cause.FIELD, 1, patched(message, at, b"\x09")
    elif item.name == "b":
        for wrong in (2, 255, 256, 2**31, 2**32 - 1, 2**24 + 1):
            yield Cause.BOOLEAN, 4, patched(message, at, order.written(wrong, 4))
    elif item.name == "u" and item.field == Code.REPLY_SERIAL:
        yield Cause.NAME, 4, patched(message, at, bytes(4))
    elif item.name == "array":
        for length in spoilt_lengths(item, message, end):
            yield Cause.PAST_END, 4, patched(message, at, length)
    elif item.name in ("type", "variant", "s", "o", "g"):
        yield from spoil_text(item, message, end, dice)


def spoil_text(item: Item, message: bytes, end: int, dice: Dice) -> Iterator[Spoilt]:
    width, last = LENGTH_WIDTHS.get(item.name, 1), item.behind - 1
    for length in spoilt_lengths(item, message, end):
        yield Cause.PAST_END, width, patched(message, item.at, length)
    for byte in (1, 255, 1 + dice.below(255)):
        yield Cause.TEXT, item.size, patched(message, last, bytes([byte]))
    size = last - item.at - width
    if not size:
        return
    at = item.at + width + dice.below(size)
    cause = {"s": Cause.TEXT, "o": Cause.NAME}.get(item.name, Cause.SIGNATURE)
    for byte in (b"\0", b"\xc0", b"\xff"):
        yield cause, item.size, patched(message, at, byte)
    if cause == Cause.SIGNATURE:
        yield cause, item.size, patched(message, at, one_of(dice, b"hrez*"))
    if cause == Cause.NAME or item.name == "s" and item.field in list(Code):
        yield Cause.NAME, item.size, patched(message, at, one_of(dice, b"! ,@[`{~"))
    if item.name == "type" and item.field in list(Code):
        others = [code for code in BASIC + b"v" if code != message[at]]
        yield Cause.FIELD, item.size, patched(message, at, bytes([dice.pick(others)]))


# Cutting ---------------------------------------------------------------------


def cut_body(message: bytes, length: int) -> bytes:
    """The message with only so many bytes of its body."""
    start = body_start(message)
    return patched(message, 4, Order(message[0]).written(length, 4))[: start + length]


def cut_fields(message: bytes, length: int) -> bytes:
    """The message with only so many bytes of its fields."""
    fields = message[FIRST_FIELD : FIRST_FIELD + length]
    return assembled(Order(message[0]), fields, message[body_start(message) :], message[1])


def first_cut(items: list[Item], part: Part, end: int) -> Item:
    """The first item of the part that does not lie before the end."""
    return next(item for item in items if item.part == part and item.behind > end)


def field_ends(items: list[Item]) -> set[int]:
    """The end of each field, and the beginning of the first. What is cut there has no item cut."""
    ends, behind = set(), FIRST_FIELD
    for item in items:
        if item.name == "code":
            ends.add(behind)
        # Padding in an array lies before the array's end; other padding at the end is no part of the field.
        if item.part == Part.FIELDS and item.name != "padding":
            behind = max(behind, item.behind)
    return ends


def cuts(message: bytes, items: list[Item]) -> Iterator[tuple[Item, bytes]]:
    """The message with its body and its fields cut off at each byte, and the first item that is cut."""
    start, ends = body_start(message), field_ends(items)
    for end in range(start, len(message)):
        yield first_cut(items, Part.BODY, end), cut_body(message, end - start)
    for end in range(FIRST_FIELD, fields_end(message)):
        if end not in ends:
            yield first_cut(items, Part.FIELDS, end), cut_fields(message, end - FIRST_FIELD)
