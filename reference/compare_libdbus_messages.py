"""Compares the model's verdicts on messages, and what it reads, with libdbus.

The model is written from docs/ alone. It shares nothing with the crates.

    python3 reference/compare_libdbus_messages.py

needs the library libdbus-1.so.3 (Debian: the package libdbus-1-3) and installs
nothing. It calls the library in this process; no bus is started.

Every message of the recording for inspect is given to dbus_message_demarshal,
and then some ten thousand more, valid and damaged. Only whether a message is
valid is compared, as the library has faults of its own. Where both find it
valid, the library's reading of it is compared with the model's, too. In the
end the library builds messages, and the model has to read what was put in.

Where the two differ, the script must know why: a second reading of the page,
in which each class of difference can be switched on, says beforehand what the
library answers. With all classes off it has to agree with the model, with all
of them on with the library; if it does not, the script fails, with exit status
1. So it does where a class is met by no message of the recording.
"""

from __future__ import annotations

import ctypes
import re
import sys
from collections import Counter
from collections.abc import Iterable, Iterator
from itertools import combinations

import texts
from compare_libdbus_texts import LIBRARY, longest_row, print_row
from made_messages import (
    NAME_KINDS,
    ORDERS,
    TYPES,
    a_return,
    assembled,
    body_start,
    end_around,
    fields_end,
    known,
    laid,
    one,
    patched,
    signed,
    some_message,
    some_value,
    spoil,
    unknown,
    with_field,
    wrapped,
    wraps_around,
)
from messages import (
    NEEDED,
    SENT,
    WIDTHS,
    Code,
    Fault,
    Field,
    Message,
    Order,
    Value,
    Variant,
    read,
    shown_fault,
    shown_message,
    write,
)
from record_inspect import record, small_messages
from record_lint import deep_type, one_of, some_of, some_type
from recording import Dice
from texts import BASIC, DEEPEST, LONGEST, Array, Entry, Single, Struct, Type, complete_types, depth


# Known differences -----------------------------------------------------------

CLASSES: dict[str, str] = {
    "file descriptors": (
        "House rule (H) of docs/messages.md: h is no type, and field 9 stands nowhere. "
        "The library takes h for a number of 32 bits, and field 9 for the number of descriptors, "
        "which has to be 0 where none came with the message."
    ),
    "arrays in a row": (
        "docs/messages.md: arrays in a signature count along the way of nesting, at most 32. "
        "The library counts only those that follow each other, and begins anew after any other code."
    ),
    "dict entries apart": (
        "House rule (H) of docs/messages.md: dict entries count as structs, at most 32 together. "
        "The library takes 32 structs and 32 dict entries more."
    ),
    "unique names": (
        "docs/messages.md: after the colon come two or more elements. The library takes one element or none, "
        "and an empty first one if others follow."
    ),
    "reserved names": (
        "docs/messages.md does not treat /org/freedesktop/DBus/Local and org.freedesktop.DBus.Local specially. "
        "The library refuses a message with a path or an interface that begins so."
    ),
    "field 10": (
        "docs/messages.md: codes from 10 on are unknown. The library knows 10, for a container's path: "
        "it stands once at most, and is an o."
    ),
    "depth in fields": (
        "docs/messages.md: what is around a value is counted within the field's value. The library counts the array "
        "of fields, the field and its variant, too, so that a field's value has three around it."
    ),
    "numbers in deep arrays": (
        "docs/messages.md: an element of an array stands one deeper than the array. The library does not look at the "
        "depth of elements of a fixed size, so that an array with 64 around may hold numbers."
    ),
    "longer messages": (
        "House rule (H) of docs/messages.md: 1,000 bytes. The library takes up to 128 MiB."
    ),
    "bytes behind": (
        "docs/messages.md: the lengths tell the length of the whole. The library reads the first message off a "
        "stream, and leaves what is behind it, if that is not wrong by itself."
    ),
}


FIXED = WIDTHS | {"h": 4}
RESERVED = {Code.PATH: b"/org/freedesktop/DBus/Local", Code.INTERFACE: b"org.freedesktop.DBus.Local"}
LOOSE_UNIQUE = re.compile(rb":[A-Za-z0-9_-]*(\.[A-Za-z0-9_-]+)*")
MOST = 2**27  # bytes of a message for the library


class Refused(Exception):
    """It is no message."""


def need(holds: bool) -> None:
    if not holds:
        raise Refused


class SecondReading:
    """Judges a message by the page, with these classes of difference switched on."""

    def __init__(self, message: bytes, classes: frozenset[str]) -> None:
        need(len(message) >= 16 and message[0] in b"lB")
        self.message = message
        self.classes = classes
        self.order = Order(message[0])
        self.at = 0

    # The message

    def number(self, at: int, width: int = 4) -> int:
        return self.order.read(self.message[at : at + width])

    def whole(self) -> None:
        total = self.lengths()
        need(total <= len(self.message))
        need(self.message[1] != 0 and self.message[3] == 1 and self.number(8) != 0)
        need(len(self.message) <= SENT or "longer messages" in self.classes)
        if "bytes behind" in self.classes:
            behind(self.message[total:], self.classes)
            self.message = self.message[:total]
        need(total == len(self.message))
        found = self.fields(16 + self.number(12))
        for type_ in self.types(found.get(8, b"")):
            self.value(type_, 0, total)
        need(NEEDED.get(self.message[1], set()) <= set(found) and self.at == total)

    def lengths(self) -> int:
        fields = 16 + self.number(12)
        return fields + -fields % 8 + self.number(4)

    def fields(self, end: int) -> dict[int, Value]:
        """The values of the known fields by their codes."""
        found: dict[int, Value] = {}
        self.at = 16
        while self.at < end:
            self.padding(8, end)
            need(self.at < end)
            code = self.message[self.at]
            self.at += 1
            type_ = self.single_type(end)
            value = self.value(type_, 3 if "depth in fields" in self.classes else 0, end)
            if self.is_known(code):
                need(code not in found and type_.spelled() == self.own_type(code) and self.is_good(code, value))
                found[code] = value
        self.padding(8, len(self.message))
        return found

    # Fields

    def is_known(self, code: int) -> bool:
        need(code != 0 and (code != 9 or "file descriptors" in self.classes))
        return code <= 9 or code == 10 and "field 10" in self.classes

    def own_type(self, code: int) -> bytes:
        return {1: b"o", 5: b"u", 8: b"g", 9: b"u", 10: b"o"}.get(code, b"s")

    def is_good(self, code: int, value: Value) -> bool:
        """Is it a value for this field, being one of its type?"""
        if "reserved names" in self.classes and code in RESERVED and value.startswith(RESERVED[code]):
            return False
        match code:
            case 2 | 4:
                return texts.is_interface(value)
            case 3:
                return texts.is_member(value)
            case 6 | 7:
                loose = LOOSE_UNIQUE.fullmatch(value) is not None and len(value) <= LONGEST
                return texts.bus_name(value) is not None or loose and "unique names" in self.classes
            case 5:
                return value != 0
            case 9:
                return value == 0
        return True

    # Values

    def padding(self, to: int, end: int) -> None:
        while self.at % to:
            need(self.at < end and self.message[self.at] == 0)
            self.at += 1

    def take(self, count: int, end: int) -> bytes:
        need(self.at + count <= end)
        self.at += count
        return self.message[self.at - count : self.at]

    def text(self, width: int, end: int) -> bytes:
        """The bytes of a text, behind their length; a zero byte has to follow."""
        length = self.order.read(self.take(width, end))
        content = self.take(length, end)
        need(self.take(1, end) == b"\0")
        return content

    def value(self, type_: Type, around: int, end: int, checked: bool = True) -> Value:
        """The value here. Its depth is looked at, if it is to be checked."""
        need(not checked or around <= 64)
        match type_:
            case Array(element):
                return self.array(element, around, end)
            case Struct() | Entry():
                self.padding(8, end)
                return [self.value(part, around + 1, end) for part in type_.parts()]
        match chr(type_.code):
            case "v":
                return self.value(self.single_type(end), around + 1, end)
            case "g":
                content = self.text(1, end)
                self.types(content)
                return content
            case "s" | "o" as code:
                self.padding(4, end)
                content = self.text(4, end)
                need(texts.is_text(content) if code == "s" else texts.is_path(content))
                return content
            case code:
                width = FIXED[code]
                self.padding(width, end)
                number = self.order.read(self.take(width, end))
                need(code != "b" or number < 2)
                return number

    def array(self, element: Type, around: int, end: int) -> Value:
        self.padding(4, end)
        length = self.order.read(self.take(4, end))
        fixed = isinstance(element, Single) and chr(element.code) in FIXED
        eight = isinstance(element, Struct | Entry) or fixed and FIXED[chr(element.code)] == 8
        self.padding(8 if eight else 1, end)
        need(self.at + length <= end)
        last, values = self.at + length, []
        while self.at < last:
            checked = not (fixed and "numbers in deep arrays" in self.classes)
            values.append(self.value(element, around + 1, last, checked))
        return values

    def single_type(self, end: int) -> Type:
        types = self.types(self.text(1, end))
        need(len(types) == 1)
        return types[0]

    def types(self, spelled: bytes) -> list[Type]:
        types = complete_types(spelled, BASIC + b"h" * ("file descriptors" in self.classes))
        need(types is not None and len(spelled) <= LONGEST)
        in_a_row = "arrays in a row" in self.classes
        need((max(map(longest_row, types), default=0) if in_a_row else depth(types, (Array,))) <= DEEPEST)
        if "dict entries apart" in self.classes:
            need(depth(types, (Struct,)) <= DEEPEST and depth(types, (Entry,)) <= DEEPEST)
        else:
            need(depth(types, (Struct, Entry)) <= DEEPEST)
        return types


def behind(rest: bytes, classes: frozenset[str]) -> None:
    """What the library makes of bytes behind a message: the beginning of another one, which may not be wrong."""
    if len(rest) >= 16:
        reading = SecondReading(rest, classes)
        need(max(reading.number(12), reading.number(4), reading.lengths()) <= MOST)
        if reading.lengths() <= len(rest):
            reading.whole()


def accepts(message: bytes, classes: frozenset[str]) -> bool:
    try:
        SecondReading(message, classes).whole()
    except Refused:
        return False
    return True


ALL = frozenset(CLASSES)


def classes_of(message: bytes, verdict: bool) -> list[str]:
    """The fewest classes that, switched on, lead to this verdict."""
    for count in range(1, len(CLASSES) + 1):
        for some in combinations(CLASSES, count):
            if accepts(message, frozenset(some)) == verdict:
                return list(some)
    raise AssertionError(message.hex())


# The library's side ----------------------------------------------------------


class Error(ctypes.Structure):
    """DBusError."""

    _fields_ = [
        ("name", ctypes.c_char_p),
        ("message", ctypes.c_char_p),
        ("bits", ctypes.c_uint),
        ("padding", ctypes.c_void_p),
    ]


Pointer, Text, Number, Yes = ctypes.c_void_p, ctypes.c_char_p, ctypes.c_uint32, ctypes.c_uint32

# The functions of the library that are called: what they answer, and what they are given.
FUNCTIONS = {
    "demarshal": (Pointer, [Text, ctypes.c_int, Pointer]),
    "marshal": (Yes, [Pointer, Pointer, Pointer]),
    "unref": (None, [Pointer]),
    "new": (Pointer, [ctypes.c_int]),
    "get_type": (ctypes.c_int, [Pointer]),
    "get_serial": (Number, [Pointer]),
    "get_reply_serial": (Number, [Pointer]),
    "get_no_reply": (Yes, [Pointer]),
    "get_auto_start": (Yes, [Pointer]),
    "get_allow_interactive_authorization": (Yes, [Pointer]),
    "set_serial": (None, [Pointer, Number]),
    "set_reply_serial": (Yes, [Pointer, Number]),
    "set_no_reply": (None, [Pointer, Yes]),
    "set_auto_start": (None, [Pointer, Yes]),
    "set_allow_interactive_authorization": (None, [Pointer, Yes]),
    "iter_init": (Yes, [Pointer, Pointer]),
    "iter_init_append": (None, [Pointer, Pointer]),
    "iter_get_arg_type": (ctypes.c_int, [Pointer]),
    "iter_get_signature": (Pointer, [Pointer]),
    "iter_get_basic": (None, [Pointer, Pointer]),
    "iter_recurse": (None, [Pointer, Pointer]),
    "iter_next": (Yes, [Pointer]),
    "iter_append_basic": (Yes, [Pointer, ctypes.c_int, Pointer]),
    "iter_open_container": (Yes, [Pointer, ctypes.c_int, Text, Pointer]),
    "iter_close_container": (Yes, [Pointer, Pointer]),
    "get_signature": (Text, [Pointer]),
}
NAMES = {
    Code.PATH: "path",
    Code.INTERFACE: "interface",
    Code.MEMBER: "member",
    Code.ERROR_NAME: "error_name",
    Code.DESTINATION: "destination",
    Code.SENDER: "sender",
}
FLAGS = {1: "no_reply", 2: "auto_start", 4: "allow_interactive_authorization"}
C_TYPES = {"y": ctypes.c_uint8, "b": ctypes.c_uint32, "n": ctypes.c_int16, "q": ctypes.c_uint16}
C_TYPES |= {"i": ctypes.c_int32, "u": ctypes.c_uint32, "x": ctypes.c_int64, "t": ctypes.c_uint64}
C_TYPES |= {"d": ctypes.c_uint64, "s": ctypes.c_char_p, "o": ctypes.c_char_p, "g": ctypes.c_char_p}


class Library:
    """The messages of libdbus."""

    def __init__(self) -> None:
        self.library = ctypes.CDLL(LIBRARY)
        parts = [ctypes.c_int() for _ in range(3)]
        self.library.dbus_get_version(*map(ctypes.byref, parts))
        self.version = ".".join(str(part.value) for part in parts)
        self.library.dbus_free.argtypes = [Pointer]
        named = {f"get_{name}": (Text, [Pointer]) for name in NAMES.values()}
        named |= {f"set_{name}": (Yes, [Pointer, Text]) for name in NAMES.values()}
        for name, (answer, given) in (FUNCTIONS | named).items():
            function = getattr(self.library, f"dbus_message_{name}")
            function.restype, function.argtypes = answer, given
            setattr(self, name, function)

    def read(self, message: bytes) -> int | None:
        """The library's message, which has to be let go, or None if it refuses."""
        error = Error()
        self.library.dbus_error_init(ctypes.byref(error))
        made = self.demarshal(message, len(message), ctypes.byref(error))
        assert (made is None) == (error.name is not None)
        self.library.dbus_error_free(ctypes.byref(error))
        return made

    def take_text(self, pointer: int) -> bytes:
        text = ctypes.string_at(pointer)
        self.library.dbus_free(pointer)
        return text

    # What a message holds

    def held(self, made: int) -> tuple[object, ...]:
        """The type, the flags that the library knows, the serial, the known fields, and the body."""
        flags = sum(flag for flag, name in FLAGS.items() if getattr(self, f"get_{name}")(made) != (flag == 2))
        fields = {code: getattr(self, f"get_{name}")(made) for code, name in NAMES.items()}
        fields[Code.REPLY_SERIAL] = self.get_reply_serial(made) or None
        place = new_place()
        body = self.values(place) if self.iter_init(made, place) else []
        return self.get_type(made), flags, self.get_serial(made), fields, self.get_signature(made), body

    def values(self, place: ctypes.Array[ctypes.c_char]) -> list[Value]:
        """The values from this place on, up to the end of what it stands in."""
        values = []
        while code := self.iter_get_arg_type(place):
            values.append(self.value(chr(code), place))
            self.iter_next(place)
        return values

    def value(self, code: str, place: ctypes.Array[ctypes.c_char]) -> Value:
        if code in C_TYPES:
            number = C_TYPES[code]()
            self.iter_get_basic(place, ctypes.byref(number))
            return number.value
        inner = new_place()
        self.iter_recurse(place, inner)
        if code == "v":
            (type_,) = complete_types(self.take_text(self.iter_get_signature(inner)))
            return Variant(type_, self.values(inner)[0])
        return self.values(inner) if code == "a" else tuple(self.values(inner))

    # Building

    def build(self, message: Message) -> bytes:
        """The bytes of the message as the library makes them, from the known fields and the body."""
        made = self.new(message.kind)
        for each in message.fields:
            if each.code in NAMES:
                assert getattr(self, f"set_{NAMES[each.code]}")(made, each.value)
        if message.known(Code.REPLY_SERIAL):
            self.set_reply_serial(made, message.known(Code.REPLY_SERIAL))
        for flag, name in FLAGS.items():
            getattr(self, f"set_{name}")(made, bool(message.flags & flag) != (flag == 2))
        self.set_serial(made, message.serial)
        place = new_place()
        self.iter_init_append(made, place)
        for type_, value in zip(complete_types(message.signature()), message.body, strict=True):
            self.append(place, type_, value)
        content, length = ctypes.c_void_p(), ctypes.c_int()
        assert self.marshal(made, ctypes.byref(content), ctypes.byref(length))
        built = ctypes.string_at(content, length.value)
        self.library.dbus_free(content)
        self.unref(made)
        return built

    def append(self, place: ctypes.Array[ctypes.c_char], type_: Type, value: Value) -> None:
        if isinstance(type_, Single) and chr(type_.code) in C_TYPES:
            assert self.iter_append_basic(place, type_.code, ctypes.byref(C_TYPES[chr(type_.code)](value)))
            return
        inner = new_place()
        match type_:
            case Array(element):
                code, contained, parts = "a", element.spelled(), [(element, each) for each in value]
            case Struct():
                code, contained, parts = "r", None, list(zip(type_.members, value, strict=True))
            case Entry():
                code, contained, parts = "e", None, list(zip(type_.parts(), value, strict=True))
            case _:
                code, contained, parts = "v", value.type.spelled(), [(value.type, value.value)]
        assert self.iter_open_container(place, ord(code), contained, inner)
        for part, each in parts:
            self.append(inner, part, each)
        assert self.iter_close_container(place, inner)


def new_place() -> ctypes.Array[ctypes.c_char]:
    """Room for a DBusMessageIter."""
    return ctypes.create_string_buffer(256)


def known_to_library(message: Message) -> tuple[object, ...]:
    """What the library can tell of a message, as the model has it."""
    fields = {code: message.known(code) for code in [*NAMES, Code.REPLY_SERIAL]}
    return message.kind, message.flags & 7, message.serial, fields, message.signature(), message.body


# Messages beyond the recording -----------------------------------------------


def some_kind(dice: Dice) -> int:
    return dice.weigh({kind: 4 if kind < 5 else 1 for kind in TYPES})


def by_chance(dice: Dice, count: int) -> Iterator[Message]:
    for number in range(count):
        yield some_message(dice, ORDERS[number % 2], some_kind(dice), 1 + dice.below(3))


def valid(count: int) -> Iterator[bytes]:
    for made in by_chance(Dice(1), count):
        yield write(made)[0]


def spoilt(count: int) -> Iterator[bytes]:
    """One item spoilt, in a way that the recorder knows."""
    dice = Dice(2)
    for made in by_chance(dice, count):
        message, items = write(made)
        item = dice.pick([item for item in items if item.size] or [None])
        ways = list(spoil(item, message, end_around(item, items, message), dice)) if item else []
        yield dice.pick(ways)[2] if ways else message


def changed(count: int) -> Iterator[bytes]:
    """One to three bytes changed, often to something that is likely there."""
    dice = Dice(3)
    for made in by_chance(dice, count):
        message = write(made)[0]
        for _ in range(dice.weigh({1: 4, 2: 1, 3: 1})):
            at = dice.below(len(message))
            was = message[at]
            byte = dice.pick([was ^ 1 << dice.below(8), was + 1, was - 1, 0, 1, dice.below(256)])
            message = patched(message, at, bytes([byte % 256]))
        yield message


def resized(count: int) -> Iterator[bytes]:
    """A part cut off, or some bytes dropped, added or doubled in it, with lengths that fit."""
    dice = Dice(4)
    for made in by_chance(dice, count):
        message = write(made)[0]
        fields, body = message[16 : fields_end(message)], message[body_start(message) :]
        part = fields if dice.below(2) else body
        at, some = dice.below(len(part) + 1), 1 + dice.below(8)
        match dice.below(4):
            case 0:
                other = part[:at]
            case 1:
                other = part[:at] + part[at + some :]
            case 2:
                other = part[:at] + bytes(some) + part[at:]
            case _:
                other = part[:at] + part[max(at - 8, 0) :]
        parts = (other, body) if part is fields else (fields, other)
        yield assembled(made.order, *parts, made.kind)


def with_descriptors(count: int) -> Iterator[bytes]:
    """Numbers that are called descriptors, in any signature, and field 9."""
    dice = Dice(5)
    for made in by_chance(dice, count):
        if dice.below(2):
            number = unknown(9, dice.pick(["u", "u", "u", "i", "y", "as"]), 0)
            value = dice.pick([0, 0, 0, 1, 2**32 - 1]) if number.type == one("u") else some_value(dice, number.type, 0)
            fields = dice.mix(made.fields + [Field(9, number.type, value)] * (1 if dice.below(4) else 2))
            made = Message(made.order, made.kind, 0, made.serial, fields, made.body)
        message, items = write(made)
        for item in items:
            spelled = message[item.at + 1 : item.behind - 1]
            if item.name in ("type", "variant") or item.name == "g" and item.field == Code.SIGNATURE:
                if b"u" in spelled and dice.below(2):
                    message = patched(message, item.at + 1, spelled.replace(b"u", b"h"))
        yield message


def deep(count: int) -> Iterator[bytes]:
    """Values with 58 to 68 around them."""
    dice = Dice(6)
    kinds = ["array", "struct", "dict", "variant"]
    for number in range(count):
        order, wanted = ORDERS[number % 2], [kind for kind in kinds if dice.below(2)] or kinds
        (inner,) = complete_types(some_type(dice, 1))
        wraps = wraps_around(dice, wanted, 58 + dice.below(11))
        type_, value = wrapped(wraps, inner.spelled().decode("ascii"), some_value(dice, inner, 1))
        if dice.below(2):
            made = with_field(order, Field(11 + dice.below(245), type_, value))
        else:
            made = Message(order, 5, 0, 1, [known(Code.SIGNATURE, type_.spelled())], [value])
        if len(type_.spelled()) <= LONGEST and len(write(made)[0]) <= SENT:
            yield write(made)[0]


def deep_signatures(count: int) -> Iterator[bytes]:
    """Signatures that go 26 to 36 deep, of empty arrays, in each place where one can stand."""
    dice = Dice(7)
    for number in range(count):
        order, arrays, structs = ORDERS[number % 2], 26 + dice.below(11), 26 + dice.below(11)
        dicts = dice.below(min(arrays, structs) + 1)
        wraps = ["array"] * (arrays - dicts) + ["struct"] * (structs - dicts) + ["dict"] * dicts
        spelled = b"a" + deep_type(dice, dice.mix(wraps))
        (type_,) = complete_types(spelled)
        if len(spelled) > LONGEST:
            continue
        match dice.below(4):
            case 0:
                made = Message(order, 5, 0, 1, [known(Code.SIGNATURE, spelled)], [[]])
            case 1:
                made = Message(order, 5, 0, 1, [Field(11 + dice.below(245), type_, [])], [])
            case 2:
                made = Message(order, 5, 0, 1, [signed("v")], [Variant(type_, [])])
            case _:
                made = Message(order, 5, 0, 1, [signed("g")], [spelled])
        yield write(made)[0]


def names(count: int) -> Iterator[bytes]:
    """Names in fields, damaged, of few bytes, and reserved ones."""
    dice = Dice(8)
    for number in range(count):
        code = dice.pick(list(NAME_KINDS))
        name = some_of(dice, NAME_KINDS[code])
        match dice.below(4):
            case 0:
                at = dice.below(len(name))
                name = name[:at] + dice.pick([b"", one_of(dice, b"aZ0_-.:/"), dice.text(1)]) + name[at + 1 :]
            case 1:
                front = {Code.PATH: b"/", Code.DESTINATION: b":", Code.SENDER: b":"}.get(code, b"")
                name = front + b"".join(one_of(dice, b"a0-./") for _ in range(dice.below(5)))
            case 2:
                reserved = dice.pick(list(RESERVED.values()))
                name = dice.pick([reserved, reserved + b"/a", reserved + b".a", reserved + b"e", reserved[:-1]])
        yield write(Message(ORDERS[number % 2], 5, 0, 1, [known(code, name)], []))[0]


def fields(count: int) -> Iterator[bytes]:
    """Fields of codes from 0 to 12 and of any type, known ones among them with their own, and too few or repeated."""
    dice = Dice(9)
    for made in by_chance(dice, count):
        more = [each for each in made.fields if dice.below(8)]
        if dice.below(3):
            (type_,) = complete_types(some_type(dice, 1)) if dice.below(2) else (one(dice.pick(["o", "s", "u", "g"])),)
            each = Field(dice.below(13), type_, some_value(dice, type_, 1))
            more += [each] * (1 + (dice.below(4) == 0))
        message = write(made)[0]
        yield assembled(made.order, laid(made.order, *dice.mix(more)), message[body_start(message) :], made.kind)


def long(count: int) -> Iterator[bytes]:
    """Messages of 900 to 3,000 bytes, some of them with a byte changed."""
    dice = Dice(10)
    for number in range(count):
        order, some = ORDERS[number % 2], dice.below(2100)
        message = write(a_return(order, "ays", list(dice.text(900 + some)), b"end"))[0]
        if dice.below(4) == 0:
            at = dice.below(64)
            message = patched(message, at, bytes([message[at] ^ 1 << dice.below(8)]))
        yield message


def every_value(count: int) -> Iterator[bytes]:
    """Each byte of some short messages of the recording, changed to every other value."""
    some = [write(made)[0] for made in small_messages()]
    for message in some[:count] + some[-count:]:
        for at in range(len(message)):
            yield from (patched(message, at, bytes([value])) for value in range(256) if value != message[at])


def followed(count: int) -> Iterator[bytes]:
    """Messages with bytes behind them: any, another message, and one that is damaged or cut off."""
    dice = Dice(11)
    for made in by_chance(dice, count):
        message = write(made)[0]
        other = write(some_message(dice, made.order, some_kind(dice), 1))[0]
        at = dice.below(len(other))
        rests = [dice.text(1 + dice.below(15)), dice.text(16 + dice.below(20)), bytes(16), other, other[:at]]
        rests += [patched(other, at, dice.text(1)), other + other[:at], other + dice.text(3)]
        yield message + dice.pick(rests)


BEYOND = {
    "valid, by chance": (valid, 6000),
    "one item spoilt": (spoilt, 8000),
    "one to three bytes changed": (changed, 10000),
    "bytes dropped, added, doubled or cut off": (resized, 8000),
    "descriptors": (with_descriptors, 3000),
    "58 to 68 around a value": (deep, 4000),
    "signatures 26 to 36 deep": (deep_signatures, 4000),
    "names": (names, 6000),
    "fields of codes 0 to 12": (fields, 6000),
    "900 to 3,000 bytes": (long, 300),
    "bytes behind": (followed, 3000),
    "each byte of 4 messages, every other value": (every_value, 2),
}


# Comparing -------------------------------------------------------------------

PLACES = ["both valid", "both not", "differ", "not foretold", "read alike"]


class Comparison:
    """Asks both, and counts."""

    def __init__(self, library: Library) -> None:
        self.library = library
        self.counts: Counter[str] = Counter()
        self.classes: Counter[str] = Counter()

    def compare(self, name: str, messages: Iterable[bytes], lines: dict[bytes, int] | None = None) -> None:
        """Ask about all of these, and print the counts, below a line for each that was not foretold.

        If they stand in a file, with their lines, each that differs has a line, too.
        """
        counts: Counter[str] = Counter()
        for message in messages:
            held = read(message, SENT)
            ours, made = isinstance(held, Message), self.library.read(message)
            real = made is not None
            if accepts(message, frozenset()) != ours or accepts(message, ALL) != real:
                counts["not foretold"] += 1
                self.show(message.hex(), message, held, real, "NOT FORETOLD")
            elif real == ours:
                counts["both valid" if ours else "both not"] += 1
            else:
                counts["differ"] += 1
                whys = classes_of(message, real)
                self.classes.update(whys)
                if lines:
                    self.show(f"line {lines[message]}", message, held, real, f"differs: {', '.join(whys)}")
            if ours and real:
                self.compare_reading(message, held, made, counts)
            if real:
                self.library.unref(made)
        self.counts += counts
        print_row(name, [counts[place] for place in PLACES])

    def compare_reading(self, message: bytes, held: Message, made: int, counts: Counter[str]) -> None:
        if self.library.held(made) == known_to_library(held):
            counts["read alike"] += 1
        else:
            counts["not foretold"] += 1
            self.show(message.hex(), message, held, True, "NOT READ ALIKE")

    def show(self, name: str, message: bytes, held: Message | Fault, real: bool, verdict: str) -> None:
        ours = shown_fault(held) if isinstance(held, Fault) else shown_message(held, len(message))[0]
        print(f"    {name}: the model: {ours}; libdbus: {'valid' if real else 'no message'}; {verdict}")


def compare_built(library: Library, count: int) -> int:
    """Have the library build messages, and the model read them; how many it reads in another way."""
    other = alike = 0
    for made in by_chance(Dice(12), count):
        fields = [each for each in made.fields if each.code in list(Code)]
        wanted = Message(Order.LITTLE, made.kind, made.flags & 7, made.serial, fields, made.body)
        built = library.build(wanted)
        held = read(built, MOST)
        if isinstance(held, Message) and known_to_library(held) == known_to_library(wanted):
            alike += 1
        else:
            other += 1
            print(f"    {built.hex()}: the model: {held}, wanted: {wanted}; NOT READ ALIKE")
    print(f"built by the library: {alike + other}, read alike by the model: {alike}")
    print("\n".join(["the last of them, as the model shows it:", *shown_message(held, len(built))]))
    return other


def main() -> int:
    try:
        library = Library()
    except OSError:
        print(f"{LIBRARY} is not installed (Debian: the package libdbus-1-3)", file=sys.stderr)
        return 2
    print(f"libdbus {library.version}")
    print()
    print_row("", PLACES)
    recorded, beyond = Comparison(library), Comparison(library)
    recording = record()
    lines = {bytes.fromhex(row): number for number, row in enumerate(recording.rows, 1) if row and row[0] != "#"}
    recorded.compare("the recording (crates/inspect/stdin)", recording.messages, lines)
    print()
    for name, (make, count) in BEYOND.items():
        beyond.compare(name, make(count))
    print_row("beyond the recording", [beyond.counts[place] for place in PLACES])
    print()
    other = compare_built(library, 3000)
    print()
    print("Classes of difference; a message may be in more than one:")
    for name, reason in CLASSES.items():
        print(f"\n{name}: {recorded.classes[name]} of the recording, {beyond.classes[name]} beyond it\n    {reason}")
    never = [name for name in CLASSES if not recorded.classes[name]]
    return 1 if never or other or recorded.counts["not foretold"] or beyond.counts["not foretold"] else 0


if __name__ == "__main__":
    sys.exit(main())
