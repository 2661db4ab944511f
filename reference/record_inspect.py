"""Makes messages for the program inspect, has the model judge them, and records both.

Written from docs/messages.md alone. It shares nothing with the crates.

    python3 reference/record_inspect.py [MESSAGES OUTPUT]
    python3 reference/record_inspect.py --check MESSAGES OUTPUT

The first form writes the messages to the file MESSAGES, and what inspect shall
print for them to the file OUTPUT; without files it only makes them. The second
makes them again and fails, with exit status 1, if a stored file differs. Both
print to standard error how often each case was met.

Most messages are built so that what they hold, or their fault, is known, and
the model of messages.py must say so. What is not known beforehand, a byte
changed by chance, is held between bounds. Where the model finds a message
valid, what it holds must make the same bytes again.

Nothing here depends on the day, the machine or the version of Python, so the
same files come out each time.
"""

from __future__ import annotations

import sys
from collections import Counter
from itertools import product

from made_messages import (
    ERROR_NAME,
    EXTREMES,
    INTERFACE,
    MEMBER,
    NEEDS,
    ORDERS,
    PATH,
    PATHS,
    REPLY,
    SIGNATURES,
    TEXTS,
    TYPES,
    a_return,
    assembled,
    body_start,
    cut_body,
    cuts,
    deepest,
    end_around,
    fields_end,
    judge,
    known,
    laid,
    one,
    patched,
    raw_body,
    raw_field,
    signed,
    some_message,
    some_value,
    spoil,
    typed,
    unknown,
    variant,
    with_field,
    wrapped,
    wraps_around,
)
from messages import (
    AROUND,
    CALL,
    CAUSE_WORDS,
    ERROR,
    FIELD_TYPES,
    FIRST_FIELD,
    KIND_WORDS,
    ORDER_WORDS,
    PART_WORDS,
    RETURN,
    SENT,
    SIGNAL,
    WRITTEN,
    Cause,
    Code,
    Fault,
    Field,
    Item,
    Message,
    Order,
    Part,
    Value,
    Variant,
    aligned,
    alignment,
    frame,
    inspect,
    read,
    shown,
    shown_message,
    write,
)
from record_lint import check_files, one_of
from recording import Dice
from texts import BASIC

# Recording -------------------------------------------------------------------

OFTEN = 4  # each case
OFTEN_FAULT = 20  # each cause in each part

# The causes that a part can have.
CAUSES = {
    Part.FRAME: [1, 2, 3, 4, 5, 6],
    Part.FIELDS: [7, 8, 9, 10, 11, 12, 13, 14, 15],
    Part.BODY: [7, 8, 9, 10, 11, 12, 13, 16],
}


def kind_word(kind: int) -> str:
    return KIND_WORDS.get(kind, "another type")


def valid_case(kind: int, order: Order) -> str:
    return f"valid: {kind_word(kind)}, {ORDER_WORDS[order]}"


def fault_case(part: Part, cause: Cause) -> str:
    return f"fault in {PART_WORDS[part]}: {cause.value}, {CAUSE_WORDS[cause]}"


FAULT_CASES = [fault_case(part, Cause(cause)) for part, causes in CAUSES.items() for cause in causes]

# Where a text, or the type of a variant, can stand.
PLACES = {"s": ["known field", "field", "body"], "o": ["known field", "field", "body"]}
PLACES |= {"g": ["known field", "field", "body"], "type of a variant": ["field", "body"]}
TEXT_ITEMS = [f"{name}, {place}" for name, places in PLACES.items() for place in places] + ["type of a field"]
SPOILT_ITEMS: dict[Cause, list[str]] = {
    Cause.PADDING: ["padding, field", "padding, body"],
    Cause.PAST_END: TEXT_ITEMS + ["array, field", "array, body"],
    Cause.TEXT: TEXT_ITEMS,
    Cause.BOOLEAN: ["b, field", "b, body"],
    Cause.NAME: ["s, known field", "o, known field", "o, field", "o, body", "u, known field"],
    Cause.SIGNATURE: [name for name in TEXT_ITEMS if name[0] in "gt"],
    Cause.FIELD: ["code of a field", "type of a field"],
}
CUT_ITEMS = TEXT_ITEMS + ["code of a field", "u, known field"]
CUT_ITEMS += [f"{name}, {place}" for name in ("padding", "array", "y", "b", "t") for place in ("field", "body")]
NAMED = [Code.PATH, Code.INTERFACE, Code.MEMBER, Code.ERROR_NAME, Code.DESTINATION, Code.SENDER]

# Wraps of which so many are arrays, or structs and dict entries.
IN_SIGNATURES = {
    "arrays in a row": lambda count: ["array"] * count,
    "arrays with structs between": lambda count: ["array", "array"] + ["array", "struct"] * (count - 2),
    "structs": lambda count: ["struct"] * count,
    "dict entries": lambda count: ["dict"] * count,
    "structs and dict entries": lambda count: ["struct"] * (count - 16) + ["dict"] * 16,
}

CASES = [
    *(valid_case(kind, order) for kind in (CALL, RETURN, ERROR, SIGNAL, 5) for order in ORDERS),
    *FAULT_CASES,
    "the page's message",
    "the page's values",
    "needed fields only",
    "empty signature",
    "all known fields, in any order",
    "no fields at all",
    "reserved path and interface",
    *(f"basic values: {code}" for code in BASIC.decode("ascii")),
    "values in values, in the body",
    "values in values, in a field",
    "each unknown code",
    "unknown fields repeated",
    "unknown fields between known ones",
    "empty array, padded",
    "empty array that needs no padding",
    "empty array, in a field",
    "empty array, its padding missing",
    "empty array, its padding not zero",
    *(f"{count} around, {place}" for count in (63, 64, 65, 66) for place in ("in the body", "in a field")),
    "64 around in one signature",
    "deep things side by side",
    *(f"{count} {name} in a signature" for name in IN_SIGNATURES for count in (31, 32, 33)),
    "under 16 bytes",
    "one fault in the frame",
    "several faults in the frame",
    "the frame before the fields",
    "lengths that do not sum up",
    "bytes behind the message",
    "padding behind the fields counted",
    "999 or 1000 bytes",
    "over 1000 bytes",
    "a message whose items are spoilt",
    *(f"{CAUSE_WORDS[cause]}: {name}" for cause, names in SPOILT_ITEMS.items() for name in names),
    "an item spoilt, and all behind it changed",
    *(f"cut off: {name}" for name in CUT_ITEMS),
    "padding past the end",
    "padding right up to the end",
    "padding right up to the end, not zero",
    "past the end, between elements",
    "padding not zero, between elements",
    "element past the end of its array",
    "past the end of the fields",
    "padding counted, the array is empty",
    "padding counted, nothing stands behind",
    "padding counted, more stands behind",
    "empty arrays in an array",
    *(f"{word} {code.name}" for code in NAMED for word in ("good", "bad")),
    "name that is no text",
    "reply serial 0",
    "bad SIGNATURE",
    "known field of another type",
    "type of a field that is not one",
    "field 0",
    "field 9",
    *(f"repeated field {code.value}" for code in Code),
    *(f"missing field: {kind_word(kind)}" for kind in NEEDS),
    "body without a signature",
    "signature without a body",
    "bytes left over",
    "left over and missing",
    "left over, with no field needed",
    "two faults in one item",
    "too deep and bad besides",
    "padding before a value too deep",
    "a struct right at the end",
    "faults in two items of the body",
    "faults in two items of the fields",
    "a bad item and a missing field",
    "padding behind the fields not zero",
    "all padding not zero",
    "a message whose bytes are changed",
    "a byte changed",
    "a message by chance",
    "a message by chance, damaged",
]


class Recorder:
    """Asks about each message once, and counts the cases."""

    def __init__(self) -> None:
        self.rows: list[str] = []
        self.messages: list[bytes] = []
        self.valid = 0
        self.cases: Counter[str] = Counter()
        self.asked: set[bytes] = set()

    def say(self, text: str = "") -> None:
        self.rows.append(f"# {text}" if text else "")

    def met(self, case: str) -> None:
        assert case in CASES, case
        self.cases[case] += 1

    def ask(self, message: bytes, case: str, expected: Message | Fault | None = None) -> Message | Fault:
        """Ask, if it was not yet; an expected verdict has to come."""
        held = judge(message)
        assert expected in (None, held), f"{case}: {message.hex()} has {held}, not {expected}"
        if message not in self.asked:
            self.asked.add(message)
            self.rows.append(message.hex())
            self.messages.append(message)
            self.met(case)
            is_valid = isinstance(held, Message)
            self.valid += is_valid
            self.met(valid_case(held.kind, held.order) if is_valid else fault_case(held.part, held.cause))
        return held

    def ask_valid(self, message: Message, case: str) -> None:
        self.ask(write(message)[0], case, message)

    def ask_fault(self, message: bytes, case: str, part: Part, cause: Cause, byte: int) -> None:
        self.ask(message, case, Fault(part, cause, byte))

    # The files

    def script(self) -> str:
        return "\n".join(self.rows) + "\n"

    def output(self) -> str:
        printed = inspect(self.script())
        assert printed.endswith("\n" + self.last_line())
        return printed

    def last_line(self) -> str:
        count = len(self.messages)
        return f"{count} messages: {self.valid} valid, {count - self.valid} faulty\n"


# What is valid ---------------------------------------------------------------

PAGE = """
    6c010001 08000000 01000000 40000000
    01016f00050000002f6d656c7400 0000
    0301730005000000537461727400 0000
    06017300080000006f72672e6d656c7400 00000000000000
    0801670002797500
    07 000000 e8030000
"""
PAGE_FIELDS = [known(Code.PATH, b"/melt"), known(Code.MEMBER, b"Start"), known(Code.DESTINATION, b"org.melt")]
PAGE_FIELDS += [signed("yu")]


def ask_page(r: Recorder, dice: Dice) -> None:
    r.say("The message of the page; the same with a body of 4 bytes; both in big endian.")
    for order in ORDERS:
        held = Message(order, CALL, 0, 1, PAGE_FIELDS, [7, 1000])
        message = write(held)[0]
        assert order is Order.BIG or message == bytes.fromhex(PAGE)
        r.ask(message, "the page's message", held)
        r.ask_fault(cut_body(message, 4), "the page's message", Part.BODY, Cause.PAST_END, 84)
    r.say("A u behind a y, and an empty at.")
    for order in ORDERS:
        r.ask_valid(a_return(order, "yu", 1, 2), "the page's values")
        r.ask_valid(a_return(order, "at", []), "the page's values")


def ask_kinds(r: Recorder, dice: Dice) -> None:
    r.say("Each type, with the fields that it needs, and with all known ones.")
    every = [PATH, INTERFACE, MEMBER, ERROR_NAME, known(Code.REPLY_SERIAL, 2**32 - 1)]
    every += [known(Code.DESTINATION, b":1.2"), known(Code.SENDER, b"org.melt-0"), signed("")]
    flags = [0, 1, 2, 3, 4, 7, 8, 128, 255]
    for number, (kind, order) in enumerate(product(TYPES, ORDERS)):
        serial = [1, 2**32 - 1, 0x01020304, 2**31][number % 4]
        needs = NEEDS.get(kind, [])
        r.ask_valid(Message(order, kind, flags[number % 9], serial, needs, []), "needed fields only")
        r.ask_valid(Message(order, kind, flags[-number % 9], serial, needs[::-1] + [signed("")], []), "empty signature")
        r.ask_valid(Message(order, kind, 0, serial, dice.mix(every), []), "all known fields, in any order")
    local = [known(Code.PATH, b"/org/freedesktop/DBus/Local"), known(Code.INTERFACE, b"org.freedesktop.DBus.Local")]
    for order in ORDERS:
        r.ask_valid(Message(order, 5, 0, 1, [], []), "no fields at all")
        r.ask_valid(Message(order, 255, 255, 2**32 - 1, [], []), "no fields at all")
        for kind in (CALL, SIGNAL):
            r.ask_valid(Message(order, kind, 0, 1, [*local, MEMBER], []), "reserved path and interface")


def ask_basic(r: Recorder, dice: Dice) -> None:
    r.say("Each basic type, in the body and in an unknown field.")
    values = EXTREMES | {"s": TEXTS, "o": PATHS, "g": SIGNATURES + [b"y" * 255]}
    for order, code in product(ORDERS, BASIC.decode("ascii")):
        every, case = values[code], f"basic values: {code}"
        r.ask_valid(a_return(order, code * len(every), *every), case)
        r.ask_valid(a_return(order, "ya" + code, 1, every), case)
        r.ask_valid(with_field(order, unknown(20, code, every[-1])), case)
        r.ask_valid(with_field(order, unknown(255, "a" + code, every[:3])), case)
        r.ask_valid(a_return(order, "yv", 1, variant(code, every[1])), case)


NESTED: list[tuple[str, list[Value]]] = [
    ("a(ys)", [[(1, b"one"), (2, b"two"), (3, b"")]]),
    ("a(y)", [[(1,), (2,), (3,)]]),
    ("a(yat)", [[(1, []), (2, [3]), (4, [5, 6])]]),
    ("a{sv}", [[(b"a", variant("y", 1)), (b"b", variant("s", b"x")), (b"c", variant("a{sv}", []))]]),
    ("a{ya{yv}}", [[(1, [(2, variant("y", 3))]), (4, [])]]),
    ("a{tx}a{ob}a{gd}", [[(1, -1)], [(b"/", 1), (b"/a", 0)], [(b"as", 0)]]),
    ("v", [variant("v", variant("v", variant("v", variant("t", 7))))]),
    ("vyv", [variant("(yv)", (1, variant("ai", [2, -3]))), 4, variant("a{sv}", [(b"k", variant("b", 1))])]),
    ("av", [[variant("y", 1), variant("t", 2), variant("s", b"3"), variant("(n)", (4,)), variant("av", [])]]),
    ("aas", [[[b"a", b"b"], [], [b"c"]]]),
    ("aaat", [[[[1], []], [], [[2, 3]]]]),
    ("((((y))))", [((((1,),),),)]),
    ("(y(q(u(t))))", [(1, (2, (3, (4,))))]),
    ("(ybnqiuxtdsog)", [(1, 1, -2, 3, -4, 5, -6, 7, 8, b"9", b"/", b"y")]),
    ("a(a(a(y)))", [[([([(1,), (2,)],)],), ([],)]]),
    ("ssgogs", [b"", b"a", b"y", b"/", b"", b"end"]),
    ("ya(oa{sv})as", [1, [(b"/a", [(b"p", variant("b", 1))]), (b"/b", [])], [b"x"]]),
]


def ask_nested(r: Recorder, dice: Dice) -> None:
    r.say("Values in values.")
    for order, (spelled, values) in product(ORDERS, NESTED):
        r.ask_valid(a_return(order, spelled, *values), "values in values, in the body")
        r.ask_valid(a_return(order, "y" + spelled, 1, *values), "values in values, in the body")
        if len(values) == 1:
            r.ask_valid(with_field(order, unknown(100, spelled, values[0])), "values in values, in a field")


def ask_unknown_fields(r: Recorder, dice: Dice) -> None:
    r.say("Unknown fields, repeated and between known ones.")
    case = "unknown fields between known ones"
    repeated = [unknown(10, "y", 1), unknown(10, "y", 1), unknown(10, "at", [])]
    apart = [unknown(77, "s", b"x"), unknown(76, "v", variant("y", 1)), unknown(77, "g", b"")]
    between = [unknown(200, "a{sv}", []), PATH, unknown(10, "(yt)", (1, 2)), MEMBER, unknown(200, "as", [])]
    for order in ORDERS:
        r.ask_valid(with_field(order, *repeated), "unknown fields repeated")
        r.ask_valid(with_field(order, *apart), "unknown fields repeated")
        r.ask_valid(Message(order, CALL, 0, 1, [*between, signed("y")], [1]), case)
        r.ask_valid(Message(order, CALL, 0, 1, between[::-1], []), case)
        for code in (10, 11, 99, 127, 128, 254, 255):
            r.ask_valid(with_field(order, unknown(code, "u", code)), "each unknown code")


PADDED_ARRAYS = ["at", "ax", "ad", "a(y)", "a(t)", "a{sv}", "a{yy}"]


def ask_empty_arrays(r: Recorder, dice: Dice) -> None:
    r.say("Empty arrays, with the padding that they have all the same, and without.")
    for order, spelled in product(ORDERS, PADDED_ARRAYS):
        r.ask_valid(a_return(order, spelled, []), "empty array, padded")
        r.ask_valid(a_return(order, spelled + "y", [], 9), "empty array, padded")
        r.ask_valid(a_return(order, "u" + spelled, 7, []), "empty array that needs no padding")
        r.ask_valid(with_field(order, unknown(20, spelled, [])), "empty array, in a field")
        for length in (4, 5 + dice.below(3)):
            message, start = raw_body(order, spelled, bytes(length))
            r.ask_fault(message, "empty array, its padding missing", Part.BODY, Cause.PAST_END, start)
        message, start = raw_body(order, spelled, patched(bytes(8), 4 + dice.below(4), b"\1"))
        r.ask_fault(message, "empty array, its padding not zero", Part.BODY, Cause.PADDING, start + 4)
    for order, spelled in product(ORDERS, ["ay", "as", "aay", "av", "ab"]):
        r.ask_valid(a_return(order, spelled, []), "empty array that needs no padding")


# Depths ----------------------------------------------------------------------

FAMILIES = [["array"], ["struct"], ["dict"], ["variant"], ["array", "struct"], ["array", "struct", "dict", "variant"]]
INNERMOST: list[tuple[str, Value]] = [
    ("y", 1),
    ("s", b"deep"),
    ("at", []),
    ("v", variant("y", 1)),
    ("(y)", (1,)),
    ("a{yy}", [(1, 2)]),
    ("b", 1),
    ("ay", [1, 2]),
    ("t", 1),
]


def ask_depths(r: Recorder, dice: Dice) -> None:
    r.say("63 to 66 arrays, structs, dict entries and variants around a value.")
    number = 0
    for wanted, count, in_field in product(FAMILIES, (63, 64, 65, 66), (False, True)):
        number += 1
        order, (spelled, value) = ORDERS[(number + number // 8) % 2], INNERMOST[number % 9]
        each, value = wrapped(wraps_around(dice, wanted, count), spelled, value)
        made = a_return(order, each.spelled().decode("ascii"), value)
        if in_field:
            made = with_field(order, Field(10 + number, each, value))
        r.ask(write(made)[0], f"{count} around, in {'a field' if in_field else 'the body'}", deepest(made))
    r.say("In one signature: 32 arrays and 32 structs, and what stands deeper by one or two.")
    for order, wraps in product(ORDERS, (["array"] * 32 + ["struct"] * 32, ["struct", "array"] * 32, ["dict"] * 32)):
        for spelled, value in (("y", 1), ("v", variant("v", variant("y", 1)))):
            each, inner = wrapped(wraps, spelled, value)
            made = a_return(order, each.spelled().decode("ascii"), inner)
            r.ask(write(made)[0], "64 around in one signature", deepest(made))
    r.say("Side by side, things do not count together.")
    each, value = wrapped(["variant"] * 60, "y", 1)
    row = [variant("at", [])] * 40
    for order in ORDERS:
        r.ask_valid(a_return(order, "(vv)v", (value, value), value), "deep things side by side")
        r.ask_valid(with_field(order, Field(10, each, value), Field(11, each, value)), "deep things side by side")
        r.ask_valid(a_return(order, "avav", row, row), "deep things side by side")


def ask_signature_depths(r: Recorder, dice: Dice) -> None:
    r.say("31 to 33 arrays and structs in a signature: of the body, of a field, of a variant, and as a value.")
    for (name, wraps), count, order in product(IN_SIGNATURES.items(), (31, 32, 33), ORDERS):
        each, value = wrapped(wraps(count), "y", 1)
        spelled = each.spelled()
        for made, part, at in (
            (a_return(order, spelled.decode("ascii"), value), Part.FIELDS, 28),
            (with_field(order, Field(30, each, value)), Part.FIELDS, 25),
            (a_return(order, "v", Variant(each, value)), Part.BODY, 32),
            (a_return(order, "yg", 1, spelled), Part.BODY, 33),
        ):
            if len(spelled) < 70 or made.body[-1:] == [spelled] or order is Order.LITTLE:
                expected = deepest(made) if count <= 32 else Fault(part, Cause.SIGNATURE, at)
                r.ask(write(made)[0], f"{count} {name} in a signature", expected)


# The frame -------------------------------------------------------------------

FRAME_BYTES = {Cause.NO_ORDER: 0, Cause.TYPE_0: 1, Cause.VERSION: 3, Cause.LENGTH: 4, Cause.SERIAL_0: 8}


def wrong_length(message: bytes, dice: Dice) -> bytes:
    order = Order(message[0])
    body, fields = order.read(message[4:8]), order.read(message[12:16])
    return dice.pick([
        message + b"\0",
        message[:-1],
        patched(message, 4, order.written(body + 1 + dice.below(9), 4)),
        patched(message, 4, order.written(2**32 - 1 - dice.below(9), 4)),
        patched(message, 12, order.written(fields + 8 + dice.below(9), 4)),
    ])


def broken(message: bytes, causes: set[Cause], dice: Dice) -> bytes:
    """The message with these causes in its frame."""
    if Cause.LENGTH in causes:
        message = wrong_length(message, dice)
    if Cause.TYPE_0 in causes:
        message = patched(message, 1, b"\0")
    if Cause.VERSION in causes:
        message = patched(message, 3, bytes([dice.pick([0, 2, 3, 101, 255])]))
    if Cause.SERIAL_0 in causes:
        message = patched(message, 8, bytes(4))
    if Cause.NO_ORDER in causes:
        message = patched(message, 0, one_of(dice, b"\0Lbkmac\xff"))
    return message


def ask_frames(r: Recorder, dice: Dice) -> None:
    r.say("Under 16 bytes.")
    for order, length in product(ORDERS, range(1, 16)):
        message = write(Message(order, 5, 0, 1, [], []))[0][:length]
        r.ask_fault(message, "under 16 bytes", Part.FRAME, Cause.SHORT, 0)
        r.ask_fault(dice.text(length), "under 16 bytes", Part.FRAME, Cause.SHORT, 0)
    r.say("Every set of faults in the frame.")
    for order, chosen in product(ORDERS, range(1, 32)):
        causes = {cause for bit, cause in enumerate(FRAME_BYTES) if chosen >> bit & 1}
        message = broken(write(a_return(order, "yy", 1, 2))[0], causes, dice)
        case = "one fault in the frame" if len(causes) == 1 else "several faults in the frame"
        r.ask_fault(message, case, Part.FRAME, min(causes), FRAME_BYTES[min(causes)])
    r.say("One fault in the frame, of other messages.")
    for cause, sample in product(FRAME_BYTES, small_messages() + samples()):
        if cause == Cause.SERIAL_0 or dice.below(4) == 0:
            message = broken(write(sample)[0], {cause}, dice)
            r.ask_fault(message, "one fault in the frame", Part.FRAME, cause, FRAME_BYTES[cause])
    r.say("The frame is judged before the fields.")
    for order, cause in product(ORDERS, FRAME_BYTES):
        fields = laid(order, known(Code.MEMBER, b"bad.name"), REPLY, REPLY)
        message = broken(assembled(order, fields, b"\1"), {cause}, dice)
        r.ask_fault(message, "the frame before the fields", Part.FRAME, cause, FRAME_BYTES[cause])


def ask_lengths(r: Recorder, dice: Dice) -> None:
    r.say("Lengths of the parts that sum up only if numbers wrap around, and that differ in other ways.")
    for order in ORDERS:
        message = write(a_return(order, "yy", 1, 2))[0]
        size = len(message)
        wrapping = [(2**32 - 16, size), (2**32 - 8, size - 8), (2**32 - 1, size - 16), (2**32 - 23, size)]
        others = [(0, size - 15), (2**31, size), (0, 2**32 - 1), (size - 16, 2), (size, 0)]
        wrong = [frame(order, RETURN, 0, 1, fields, body) + message[16:] for fields, body in wrapping + others]
        other = next(each for each in ORDERS if each is not order)
        wrong.append(patched(message, 0, bytes([other.value])))
        for each in wrong:
            r.ask_fault(each, "lengths that do not sum up", Part.FRAME, Cause.LENGTH, 4)
    r.say("Bytes behind the message: zeros, and another message.")
    for order in ORDERS:
        message = write(a_return(order, "yy", 1, 2))[0]
        for more in (b"\0", bytes(-len(message) % 8), bytes(16), message):
            r.ask_fault(message + more, "bytes behind the message", Part.FRAME, Cause.LENGTH, 4)
    r.say("The padding behind the fields, counted in their length.")
    for order, name in product(ORDERS, (b"b", b"bc", b"bcd", b"bcdefgh")):
        message = write(with_field(order, known(Code.MEMBER, name)))[0]
        end, gap = fields_end(message), -fields_end(message) % 8
        for more in range(1, gap + 1):
            wrong = patched(message, 12, order.written(end - FIRST_FIELD + more, 4))
            at = end if more < gap else end + gap
            r.ask_fault(wrong, "padding behind the fields counted", Part.FIELDS, Cause.PAST_END, at)


def long_messages(order: Order, length: int) -> list[Message]:
    """Messages of just so many bytes; the one with a long path only for multiples of 8."""
    empty = len(write(a_return(order, "s", b""))[0])
    made = [a_return(order, "s", b"x" * (length - empty))]
    made.append(Message(order, 5, 0, 1, [signed("ay")], [[0] * (length - 16 - 8 - 4)]))
    path = known(Code.PATH, b"/" + b"p" * (length - 45))
    return made + [Message(order, CALL, 0, 1, [MEMBER, path], [])] * (length % 8 == 0)


def ask_limits(r: Recorder, dice: Dice) -> None:
    r.say("The longest messages, and longer ones.")
    for order, length in product(ORDERS, (999, 1000, 1001, 1024, 1025)):
        for number, made in enumerate(long_messages(order, length)):
            message, too_long = write(made)[0], Fault(Part.FRAME, Cause.LENGTH, 4)
            assert len(message) == length
            assert read(message, WRITTEN) == (made if length <= WRITTEN else too_long)
            if length in (1000, 1001) or (number + length) % 2 == ORDERS.index(order):
                case = "999 or 1000 bytes" if length <= SENT else "over 1000 bytes"
                r.ask(message, case, made if length <= SENT else too_long)


# Items -----------------------------------------------------------------------


def samples() -> list[Message]:
    """Messages in which every kind of item stands, in both parts."""
    made = []
    for order in ORDERS:
        fields = [PATH, unknown(50, "(yybv)", (1, 0, 1, variant("t", 5))), MEMBER, signed("y(ybv)")]
        made.append(Message(order, CALL, 0, 1, fields, [1, (2, 0, variant("x", -5))]))
        fields = [ERROR_NAME, unknown(51, "a{sv}", [(b"key", variant("b", 1))]), signed("a{ov}"), REPLY]
        made.append(Message(order, ERROR, 0, 1, fields, [[(b"/a", variant("s", b"text"))]]))
        fields = [unknown(52, "a(yu)", [(1, 2), (3, 4)]), known(Code.REPLY_SERIAL, 7), signed("yat(yu)s")]
        made.append(Message(order, RETURN, 0, 1, fields, [1, [2, 3], (4, 5), b""]))
        fields = [known(Code.SENDER, b":1.22"), unknown(53, "(sog)", (b"text", b"/path", b"as")), signed("sogv")]
        made.append(Message(order, 5, 0, 1, fields, [b"more", b"/", b"", variant("ag", [b"y", b""])]))
        fields = [unknown(54, "ab", [0, 1]), known(Code.PATH, b"/"), INTERFACE, MEMBER, signed("baba{yb}")]
        made.append(Message(order, SIGNAL, 0, 1, fields, [1, [0, 1], [(1, 1), (2, 0)]]))
        fields = [unknown(55, "av", [variant("o", b"/"), variant("g", b"y")]), known(Code.DESTINATION, b"a.c")]
        body: list[Value] = [[variant("aay", [[1], []]), variant("o", b"/b")], 9, b"y"]
        made.append(Message(order, 200, 0, 1, [*fields, signed("avtg")], body))
    return made


def item_name(item: Item) -> str:
    """The item with where it stands, as the cases call it."""
    if item.name in ("code", "type"):
        return f"{item.name} of a field"
    place = "body" if item.part == Part.BODY else "field"
    if item.part == Part.FIELDS and item.field in list(Code) and item.name != "padding":
        place = "known field"
    return f"{'type of a variant' if item.name == 'variant' else item.name}, {place}"


Found = dict[str, list[tuple[bytes, Fault]]]


def ask_some(r: Recorder, dice: Dice, found: Found, count: int) -> None:
    """Ask about some of those found of each case, as many in either order."""
    for case, messages in found.items():
        for order in ORDERS:
            for message, expected in dice.mix([each for each in messages if each[0][0] == order.value])[:count]:
                r.ask(message, case, expected)


def ask_items(r: Recorder, dice: Dice) -> None:
    found: Found = {}
    changed: list[tuple[bytes, Fault]] = []
    for sample in samples():
        message, items = write(sample)
        for item in items:
            for cause, decide, spoilt in spoil(item, message, end_around(item, items, message), dice):
                expected, behind = Fault(item.part, cause, item.at), item.at + decide
                more = spoilt[:behind] + dice.text(len(spoilt) - behind)
                assert judge(spoilt) == expected, f"{spoilt.hex()} has {judge(spoilt)}, not {expected}"
                assert judge(more) == expected, f"{more.hex()} has {judge(more)}, not {expected}"
                found.setdefault(f"{CAUSE_WORDS[cause]}: {item_name(item)}", []).append((spoilt, expected))
                changed.append((more, expected))
    r.say("Messages, and each of their items spoilt in each way.")
    for sample in samples():
        r.ask_valid(sample, "a message whose items are spoilt")
    ask_some(r, dice, found, 2)
    r.say("An item spoilt, and all that stands behind it changed by chance.")
    ask_some(r, dice, {"an item spoilt, and all behind it changed": changed}, 15)


def ask_cuts(r: Recorder, dice: Dice) -> None:
    found: Found = {}
    for sample in samples():
        for item, cut in cuts(*write(sample)):
            expected = Fault(item.part, Cause.PAST_END, item.at)
            assert judge(cut) == expected, f"{cut.hex()} has {judge(cut)}, not {expected}"
            found.setdefault(f"cut off: {item_name(item)}", []).append((cut, expected))
    r.say("Bodies and fields that are cut off.")
    ask_some(r, dice, {case: messages for case, messages in found.items() if case in CASES}, 2)


# Ends ------------------------------------------------------------------------

PADDED = [("yq", 2), ("yu", 4), ("ys", 4), ("yay", 4), ("yt", 8), ("y(y)", 8), ("yx", 8)]

# The length of an array of (y), what lies behind its first element 7, the cause, and where it tells.
BETWEEN = [
    (2, b"\0", Cause.PAST_END, 9),
    (3, b"\1\1", Cause.PAST_END, 9),
    (7, bytes(6), Cause.PAST_END, 9),
    (8, bytes(7), Cause.PAST_END, 16),
    (8, bytes(6) + b"\1", Cause.PADDING, 9),
    (15, bytes(7) + b"\1" + bytes(6), Cause.PAST_END, 17),
    (16, bytes(7) + b"\1" + bytes(7), Cause.PAST_END, 24),
    (16, bytes(7) + b"\1" + b"\1" * 7, Cause.PADDING, 17),
]


def elements_past(order: Order) -> list[tuple[str, int, bytes, int]]:
    """Types, the length of the array, the bytes behind it, and where an element goes past its end."""
    return [
        ("auy", 5, bytes(8), 8),
        ("auy", 3, bytes(4), 4),
        ("aty", 12, bytes(20), 16),
        ("aty", 7, bytes(12), 8),
        ("aqy", 1, bytes(2), 4),
        ("asy", 4, bytes(8), 4),
        ("asy", 6, order.written(2, 4) + b"ab\0\0", 4),
        ("aoy", 5, order.written(1, 4) + b"/\0", 4),
        ("agy", 2, b"\1y\0", 4),
        ("agy", 4, b"\1y\0\1y\0", 7),
        ("avy", 1, b"\1y\0\1", 4),
        ("avy", 3, b"\1y\0\1", 7),
        ("aayy", 4, order.written(1, 4) + b"\1", 4),
        ("aaty", 8, bytes(8), 8),
        ("a(yy)y", 1, bytes(4) + b"\1\2\3", 9),
        ("a(yu)y", 4, bytes(4) + b"\1" + bytes(9), 12),
        ("a{yy}y", 1, bytes(4) + b"\1\2\3", 9),
        ("a{yu}y", 3, bytes(4) + b"\1" + bytes(9), 9),
    ]


# A second field that is cut short or too long, and where it goes past the end, counted from its code.
FIELDS_PAST = [
    (typed(10, b"y", b"\1") + bytes(3), 8),
    (typed(10, b"y", b"\1") + bytes(2), 5),
    (typed(10, b"y", b"\1") + b"\1\1", 5),
    (typed(10, b"t", bytes(4)), 8),
    (typed(10, b"t", bytes(3)), 4),
    (typed(10, b"t", b"\1\1\1"), 4),
    (typed(10, b"v", b"\1y\0"), 7),
    (typed(10, b"y"), 4),
    (b"\x0a\1y", 1),
    (b"\x0a\1", 1),
    (b"\x0a", 1),
]


def ask_ends(r: Recorder, dice: Dice) -> None:
    r.say("Padding past the end, zero or not, and padding right up to the end.")
    past, zero = Cause.PAST_END, Cause.PADDING
    for order, (spelled, to) in product(ORDERS, PADDED):
        for length in sorted({1, 2, to - 1} - {to}):
            body = b"\7" + (bytes(7) if dice.below(2) else b"\1" * 7)
            message, start = raw_body(order, spelled, body[:length])
            r.ask_fault(message, "padding past the end", Part.BODY, past, start + 1)
        message, start = raw_body(order, spelled, b"\7" + bytes(to - 1))
        r.ask_fault(message, "padding right up to the end", Part.BODY, past, start + to)
        message, start = raw_body(order, spelled, patched(b"\7" + bytes(to - 1), 1 + dice.below(to - 1), b"\2"))
        r.ask_fault(message, "padding right up to the end, not zero", Part.BODY, zero, start + 1)
    r.say("The same between the elements of an array, with more behind it.")
    for order, (length, behind, cause, at) in product(ORDERS, BETWEEN):
        body = order.written(length, 4) + bytes(4) + b"\7" + behind
        message, start = raw_body(order, "a(y)t", body + bytes(-len(body) % 8 + 8))
        r.ask_fault(message, f"{CAUSE_WORDS[cause]}, between elements", Part.BODY, cause, start + at)
    r.say("Elements that go past the end of their array, though not of the body.")
    for order in ORDERS:
        for spelled, length, elements, at in elements_past(order):
            message, start = raw_body(order, spelled, order.written(length, 4) + elements + b"\1")
            r.ask_fault(message, "element past the end of its array", Part.BODY, past, start + at)
    r.say("Fields that go past their end, and padding behind the last one that their length counts.")
    for order, (field, at) in product(ORDERS, FIELDS_PAST):
        message, start = raw_field(order, field)
        r.ask_fault(message, "past the end of the fields", Part.FIELDS, past, start + at)


def longer_array(message: bytes, at: int) -> bytes:
    """The message with 4 added to the length of the array there."""
    order = Order(message[0])
    return patched(message, at, order.written(order.read(message[at : at + 4]) + 4, 4))


def ask_array_padding(r: Recorder, dice: Dice) -> None:
    r.say("The padding before the elements, wrongly counted in an array's length.")
    past = Cause.PAST_END
    for order, spelled in product(ORDERS, PADDED_ARRAYS):
        message, start = raw_body(order, spelled, order.written(4, 4) + bytes(4))
        r.ask_fault(message, "padding counted, the array is empty", Part.BODY, past, start)
        message = write(a_return(order, spelled, [some_value(dice, one(spelled).element, 0)]))[0]
        start = body_start(message)
        r.ask_fault(longer_array(message, start), "padding counted, nothing stands behind", Part.BODY, past, start)
    for order in ORDERS:
        for spelled, element, at in (("at", 1, 16), ("ad", 1, 16), ("a(t)", (1,), 16), ("a{ty}", (1, 2), 17)):
            message = write(a_return(order, spelled + "u", [element], 9))[0]
            wrong, start = longer_array(message, body_start(message)), body_start(message)
            r.ask_fault(wrong, "padding counted, more stands behind", Part.BODY, past, start + at)
        message, items = write(with_field(order, unknown(10, "at", [1])))
        at = next(item.at for item in items if item.name == "array")
        r.ask_fault(longer_array(message, at), "padding counted, nothing stands behind", Part.FIELDS, past, at)
    r.say("Empty arrays in an array, which counts their padding.")
    for order in ORDERS:
        for length, count in ((4, 1), (12, 2)):
            message, start = raw_body(order, "aat", order.written(length, 4) + bytes(length))
            r.ask(message, "empty arrays in an array", a_return(order, "aat", [[]] * count))
            # Another one would need padding behind its length, for which there is no room.
            message, start = raw_body(order, "aat", order.written(length + 4, 4) + bytes(length + 4))
            r.ask_fault(message, "empty arrays in an array", Part.BODY, past, start + length + 4)


# Fields ----------------------------------------------------------------------

GOOD_NAMES: dict[Code, list[bytes]] = {
    Code.PATH: [b"/", b"/0", b"/" + b"p" * 300],
    Code.INTERFACE: [b"_._", b"a.b1", b"a." + b"b" * 253],
    Code.MEMBER: [b"_", b"m0", b"m" * 255],
    Code.ERROR_NAME: [b"_._", b"a.b1", b"a." + b"b" * 253],
    Code.DESTINATION: [b"-.-", b":1.2", b":-.0", b":" + b"1." * 126 + b"11"],
    Code.SENDER: [b"-._", b":0.0", b"a-b.c-d", b"a." + b"b" * 253],
}
BAD_NAMES: dict[Code, list[bytes]] = {
    Code.PATH: [b"", b"a", b"//", b"/a/", b"/a-b", b"/a.b", b"/\xc3\xa9", b"/\xff", b"/a\0b"],
    Code.INTERFACE: [b"", b"a", b".a", b"a.", b"a..b", b"a.0", b"a.b-c", b":1.2", b"a." + b"b" * 254, "a.é".encode()],
    Code.MEMBER: [b"", b"a.b", b"0a", b"a-b", b"/a", b"m" * 256, "é".encode()],
    Code.ERROR_NAME: [b"", b"a", b".a", b"a.", b"a.0", b"a-b.c", b"a." + b"b" * 254],
    Code.DESTINATION: [b"", b"a", b":1", b"a.0", b"a..b", b":.1", b"1.a", b"a.b:c", b":" + b"1." * 127 + b"1"],
    Code.SENDER: [b"", b"a", b":1", b":", b"a.", b"a.0", b"1.2", b":1..2", b"a." + b"b" * 254],
}
NO_TEXTS = [b"\xff", b"a.b\x80", b"a.\xc3", b"\xed\xa0\x80", b"a\0b", b"\0", b"a.b\0", b"\xf4\x90\x80\x80"]
NO_SIGNATURES = [b"h", b"a", b"()", b"(y", b"{sv}", b"y\0y", b"\xff", b"a{vs}"]
NOT_ONE_TYPE = [b"", b"yy", b"ss", b"h", b"a", b"()", b"(y", b"{sv}", b"a{vs}", b"y)", b"ah", b"sa{sv}"]
NOT_ONE_TYPE += [b"a" * 33 + b"y"]
OTHER_TYPES = ["s", "o", "g", "u", "v", "y", "i", "as", "(s)", "a{sv}", "t"]


def ask_names(r: Recorder, dice: Dice) -> None:
    r.say("Names and paths in fields.")
    at = FIRST_FIELD + 8 + 4
    for code in NAMED:
        for order, name in product(ORDERS, GOOD_NAMES[code]):
            r.ask_valid(with_field(order, known(code, name)), f"good {code.name}")
        for number, name in enumerate(BAD_NAMES[code]):
            message = write(with_field(ORDERS[number % 2], known(code, name)))[0]
            r.ask_fault(message, f"bad {code.name}", Part.FIELDS, Cause.NAME, at)
        for number, name in enumerate(NO_TEXTS[code % 2 :: 2] if code != Code.PATH else []):
            message = write(with_field(ORDERS[number % 2], known(code, name)))[0]
            r.ask_fault(message, "name that is no text", Part.FIELDS, Cause.TEXT, at)
    r.say("Reply serials and signatures.")
    for order in ORDERS:
        for kind in (CALL, RETURN, ERROR, 5):
            fields = laid(order, known(Code.REPLY_SERIAL, 0), PATH, MEMBER, ERROR_NAME)
            message = assembled(order, fields, kind=kind)
            r.ask_fault(message, "reply serial 0", Part.FIELDS, Cause.NAME, FIRST_FIELD + 4)
        for spelled in NO_SIGNATURES:
            message, _ = raw_field(order, laid(order, known(Code.SIGNATURE, spelled)))
            r.ask_fault(message, "bad SIGNATURE", Part.FIELDS, Cause.SIGNATURE, at)


def ask_fields(r: Recorder, dice: Dice) -> None:
    r.say("Known fields of another type.")
    for order, (code, own) in product(ORDERS, FIELD_TYPES.items()):
        for other in dice.mix([each for each in OTHER_TYPES if each != own])[:4]:
            field = laid(order, unknown(code, other, some_value(dice, one(other), 0)))
            message = assembled(order, field, kind=5)
            r.ask_fault(message, "known field of another type", Part.FIELDS, Cause.FIELD, FIRST_FIELD + 1)
    r.say("Types of fields that are not exactly one complete type.")
    for order, spelled in product(ORDERS, NOT_ONE_TYPE):
        for code in (dice.pick(list(Code)), 10 + dice.below(246)):
            message = assembled(order, typed(code, spelled, bytes(8)), kind=5)
            r.ask_fault(message, "type of a field that is not one", Part.FIELDS, Cause.SIGNATURE, FIRST_FIELD + 1)
    r.say("Codes 0 and 9.")
    for order, code in product(ORDERS, (0, 9)):
        for spelled, value in (("u", 0), ("u", 1), ("y", 1), ("s", b"x"), ("a{sv}", [])):
            message = write(with_field(order, unknown(code, spelled, value)))[0]
            r.ask_fault(message, f"field {code}", Part.FIELDS, Cause.FIELD, FIRST_FIELD + 8)
        message, start = raw_field(order, bytes([code]))
        r.ask_fault(message, f"field {code}", Part.FIELDS, Cause.FIELD, start)
    r.say("Known fields that stand twice.")
    every = [PATH, INTERFACE, MEMBER, ERROR_NAME, REPLY, known(Code.DESTINATION, b"a.b"), known(Code.SENDER, b"a.b")]
    for order, field in product(ORDERS, every + [signed("")]):
        for fields in ([field, field], [field, unknown(10, "y", 1), field], [*every[:4], REPLY, signed(""), field]):
            if len(fields) < 4 or field in fields[:-1]:
                message, items = write(Message(order, 5, 0, 1, fields, []))
                at = [item.at for item in items if item.name == "code"][-1]
                r.ask_fault(message, f"repeated field {field.code.value}", Part.FIELDS, Cause.FIELD, at)


def ask_missing(r: Recorder, dice: Dice) -> None:
    r.say("Needed fields that are missing.")
    for order, (kind, needs) in product(ORDERS, NEEDS.items()):
        others = [each for each in (PATH, INTERFACE, MEMBER, REPLY) if each not in needs] + [unknown(33, "s", b"x")]
        for chosen in range(1, 2 ** len(needs)):
            fields = [each for bit, each in enumerate(needs) if not chosen >> bit & 1]
            for more, body in (([], []), (dice.mix(others), []), ([signed("yu")], [1, 2])):
                message = write(Message(order, kind, 0, 1, fields + more, body))[0]
                r.ask_fault(message, f"missing field: {kind_word(kind)}", Part.FIELDS, Cause.MISSING, FIRST_FIELD)


def ask_bodies(r: Recorder, dice: Dice) -> None:
    r.say("A body without a signature, and a signature without a body.")
    for order in ORDERS:
        for body in (b"\0", bytes(8), b"\7\0\0\0", dice.text(5)):
            message = assembled(order, laid(order, REPLY), body)
            r.ask_fault(message, "body without a signature", Part.BODY, Cause.LEFT_OVER, FIRST_FIELD + 8)
            message, start = raw_body(order, "", body)
            r.ask_fault(message, "body without a signature", Part.BODY, Cause.LEFT_OVER, start)
        for spelled in ("y", "t", "s", "g", "v", "ay", "at", "(y)", "((t))", "a{sv}", "b", "sss"):
            message, start = raw_body(order, spelled, b"")
            r.ask_fault(message, "signature without a body", Part.BODY, Cause.PAST_END, start)
    r.say("Bytes left over behind the body's values.")
    bodies = [("y", [1]), ("yu", [1, 2]), ("as", [[b"x"]]), ("v", [variant("t", 1)])]
    for order, (spelled, values) in product(ORDERS, bodies):
        message = write(a_return(order, spelled, *values))[0]
        body = message[body_start(message) :]
        for more in (b"\0", b"\1", bytes(7), body):
            longer = raw_body(order, spelled, body + more)[0]
            r.ask_fault(longer, "bytes left over", Part.BODY, Cause.LEFT_OVER, len(message))
    r.say("Bytes left over where a needed field is missing, and where none is needed.")
    left = [([], b"\0"), ([signed("y")], b"\1\2"), ([unknown(10, "y", 1)], bytes(8)), ([signed("")], b"\1")]
    for order, (fields, body) in product(ORDERS, left):
        for kind in NEEDS:
            message = assembled(order, laid(order, *fields), body, kind)
            r.ask_fault(message, "left over and missing", Part.FIELDS, Cause.MISSING, FIRST_FIELD)
        message = assembled(order, laid(order, *fields), body, 5)
        at = body_start(message) + (1 if fields == [signed("y")] else 0)
        r.ask_fault(message, "left over, with no field needed", Part.BODY, Cause.LEFT_OVER, at)


# Several faults --------------------------------------------------------------


def unended(text: bytes, width: int, order: Order) -> bytes:
    """A text whose last byte is not zero."""
    return order.written(len(text), width) + text + b"\1"


# Values in fields, and types of fields, that are bad and do not end with zero.
BAD_FIELD_TEXTS = [(code, b"s", text, 4) for code in NAMED if code != Code.PATH for text in (b"", b"\xff")]
BAD_FIELD_TEXTS += [(Code.PATH, b"o", b"a", 4), (Code.PATH, b"o", b"\xff", 4), (Code.SIGNATURE, b"g", b"h", 1)]
BAD_FIELD_TEXTS += [(90, b"o", b"a", 4), (90, b"g", b"a", 1), (90, b"s", b"\xff", 4)]
BAD_FIELD_TYPES = [(Code.PATH, b"u"), (Code.PATH, b"h"), (Code.REPLY_SERIAL, b""), (90, b"yy"), (Code.MEMBER, b"ss")]
BAD_TEXTS = [("o", b"a", 4), ("o", b"\xff", 4), ("g", b"a", 1), ("g", b"\0", 1), ("s", b"\0", 4), ("v", b"h", 1)]


def ask_in_one_item(r: Recorder, dice: Dice) -> None:
    r.say("Two faults in one item: the lowest cause tells.")
    case, at = "two faults in one item", FIRST_FIELD + 1
    for order in ORDERS:
        for code, spelled, text, width in BAD_FIELD_TEXTS:
            message, start = raw_field(order, typed(code, spelled, unended(text, width, order)))
            r.ask_fault(message, case, Part.FIELDS, Cause.TEXT, start + 4)
        for code, spelled in BAD_FIELD_TYPES:
            message = assembled(order, bytes([code]) + unended(spelled, 1, order), kind=5)
            r.ask_fault(message, case, Part.FIELDS, Cause.TEXT, at)
        for code, length in product((Code.PATH, Code.MEMBER, Code.SIGNATURE, 90), (1, 2, 200, 255)):
            message = assembled(order, bytes([code, length]) + b"h", kind=5)
            r.ask_fault(message, case, Part.FIELDS, Cause.PAST_END, at)
        for spelled, text, width in BAD_TEXTS:
            message, start = raw_body(order, spelled, unended(text, width, order))
            r.ask_fault(message, case, Part.BODY, Cause.TEXT, start)


# A type, the bytes of a value that has 65 around it and may be bad besides, and the cause that tells.
DEEP_AND_BAD: list[tuple[str, bytes, Cause]] = [
    ("y", b"", Cause.PAST_END),
    ("y", b"\1", Cause.DEEP),
    ("v", b"\1", Cause.PAST_END),
    ("v", b"\1y\1", Cause.TEXT),
    ("v", b"\1h\0", Cause.SIGNATURE),
    ("v", b"\0\0", Cause.SIGNATURE),
    ("v", b"\2yy\0", Cause.SIGNATURE),
    ("v", b"\1y\0", Cause.DEEP),
    ("g", b"\1", Cause.PAST_END),
    ("g", b"\1y\1", Cause.TEXT),
    ("g", b"\1h\0", Cause.SIGNATURE),
    ("g", b"\1y\0", Cause.DEEP),
    ("(y)", b"\1", Cause.DEEP),
    ("(g)", b"\1h\0", Cause.DEEP),
    ("(v)", b"\1h\0", Cause.DEEP),
]


def deep_and_bad(order: Order) -> list[tuple[str, bytes, Cause]]:
    """The same for what begins with a number."""

    def u(number: int) -> bytes:
        return order.written(number, 4)

    return [
        ("b", u(2), Cause.BOOLEAN),
        ("b", u(1), Cause.DEEP),
        ("u", u(2)[:3], Cause.PAST_END),
        ("s", u(1) + b"a", Cause.PAST_END),
        ("s", u(1) + b"a\1", Cause.TEXT),
        ("s", u(1) + b"\xff\0", Cause.TEXT),
        ("s", u(1) + b"a\0", Cause.DEEP),
        ("o", u(1) + b"a\1", Cause.TEXT),
        ("o", u(1) + b"a\0", Cause.NAME),
        ("o", u(1) + b"/\0", Cause.DEEP),
        ("ay", u(1), Cause.PAST_END),
        ("ay", u(0)[:3], Cause.PAST_END),
        ("ay", u(0), Cause.DEEP),
        ("ay", u(1) + b"\1", Cause.DEEP),
        # These three have padding behind their length, which is not looked at.
        ("a(t)", u(0), Cause.PAST_END),
        ("a(t)", u(0) + b"\1\1\1\1", Cause.DEEP),
        ("a{yy}", u(0) + b"\0\0\0\1", Cause.DEEP),
        ("ab", u(4) + u(2), Cause.DEEP),
        ("ab", u(8) + u(2), Cause.PAST_END),
    ]


def in_variants(count: int, spelled: str) -> bytes:
    """The types of so many variants, one in the other, the innermost with this type."""
    return b"\1v\0" * (count - 1) + bytes([len(spelled)]) + spelled.encode("ascii") + b"\0"


def ask_deep_and_bad(r: Recorder, dice: Dice) -> None:
    r.say("A value that stands too deep and is bad besides.")
    case = "too deep and bad besides"
    for order in ORDERS:
        for number, (spelled, content, cause) in enumerate(DEEP_AND_BAD + deep_and_bad(order)):
            types, to = in_variants(AROUND + 1, spelled), alignment(one(spelled))
            if "a" not in spelled and (number + ORDERS.index(order)) % 2:
                field = typed(91, b"v", types)
                message, start = raw_field(order, field + bytes(-len(field) % to) + content)
                r.ask_fault(message, case, Part.FIELDS, cause, start + aligned(len(field), to))
            else:
                message, start = raw_body(order, "v", types + bytes(-len(types) % to) + content)
                r.ask_fault(message, case, Part.BODY, cause, start + aligned(len(types), to))
    r.say("Padding before a value that stands too deep.")
    for order, spelled in product(ORDERS, ("t", "(y)", "u", "aat")):
        types = in_variants(AROUND + 1, spelled)
        gap = -len(types) % alignment(one(spelled))
        for k in sorted({0, gap - 1}):
            message, start = raw_body(order, "v", types + bytes(k) + b"\1" + bytes(20))
            r.ask_fault(message, "padding before a value too deep", Part.BODY, Cause.PADDING, start + len(types))
        message, start = raw_body(order, "v", types + bytes(gap - 1))
        r.ask_fault(message, "padding before a value too deep", Part.BODY, Cause.PAST_END, start + len(types))


def ask_struct_at_the_end(r: Recorder, dice: Dice) -> None:
    r.say("A struct that stands right at the end, too deep or not: its beginning takes no bytes.")
    for order, spelled in product(ORDERS, ("(y)", "(t)", "((y))", "(ay)")):
        for count, cause in ((AROUND, Cause.PAST_END), (AROUND + 1, Cause.DEEP)):
            types = in_variants(count, spelled)
            message, start = raw_body(order, "v", types + bytes(-len(types) % 8))
            inner_deep = spelled == "((y))" and count == AROUND
            tells = Cause.DEEP if inner_deep else cause
            r.ask_fault(message, "a struct right at the end", Part.BODY, tells, start + aligned(len(types), 8))


def bad_bodies(order: Order) -> list[tuple[str, bytes, Cause, int]]:
    """Types, a body with faults in two items, and the cause and the place of the first."""

    def u(number: int) -> bytes:
        return order.written(number, 4)

    text, path, eight = u(1) + b"\xff\0", u(1) + b"a\0", order.written(1, 8)
    return [
        ("bs", u(2) + text, Cause.BOOLEAN, 0),
        ("sb", text + b"\0\0" + u(2), Cause.TEXT, 0),
        ("os", path + b"\0\0" + text, Cause.NAME, 0),
        ("so", text + b"\0\0" + path, Cause.TEXT, 0),
        ("gb", b"\1h\0\1" + u(2), Cause.SIGNATURE, 0),
        ("yb", b"\1\1\0\0" + u(2), Cause.PADDING, 1),
        ("by", u(2), Cause.BOOLEAN, 0),
        ("bu", u(3) + b"\0", Cause.BOOLEAN, 0),
        ("yo", b"\1\0\0\0" + path + b"\0", Cause.NAME, 4),
        ("oy", path, Cause.NAME, 0),
        ("vb", b"\2yy\0" + u(2), Cause.SIGNATURE, 0),
        ("vb", b"\1b\0\1" + u(2) + u(2), Cause.PADDING, 3),
        ("atb", u(16) + b"\1\0\0\0" + eight, Cause.PAST_END, 0),
        ("atb", u(8) + b"\1\0\0\0" + eight + u(2), Cause.PADDING, 4),
        ("ab", u(6) + u(2) + bytes(2), Cause.BOOLEAN, 4),
        ("ab", u(6) + u(1) + bytes(2), Cause.PAST_END, 8),
        ("(bo)", u(2) + path, Cause.BOOLEAN, 0),
        ("a{bo}", u(10) + bytes(4) + u(1) + path, Cause.NAME, 12),
    ]


def bad_fields(order: Order) -> list[tuple[bytes, bytes, Cause, int]]:
    """Fields with faults in two items, and a body, and the cause and the place of the first."""
    good, bad = laid(order, REPLY), typed(Code.MEMBER, b"s", order.written(1, 4) + b"-\0")
    return [
        (b"\0\1h\0", b"", Cause.FIELD, 16),
        (b"\x09\xff", b"", Cause.FIELD, 16),
        (b"\x09\2yy\0", b"", Cause.FIELD, 16),
        (good + b"\5\1h\0", b"", Cause.FIELD, 24),
        (good + b"\5\1s\0", b"", Cause.FIELD, 24),
        (good + b"\5\xff", b"", Cause.FIELD, 24),
        (good + bad + bytes(6) + b"\0", b"", Cause.NAME, 28),
        (laid(order, REPLY, MEMBER) + bytes(5) + b"\1\0", b"", Cause.PADDING, 34),
        (good + typed(9, b"u") + bad, b"", Cause.FIELD, 24),
        (good + bad, b"\1", Cause.NAME, 28),
        (good + typed(60, b"b", order.written(2, 4)) + b"\0", b"", Cause.BOOLEAN, 28),
        (good + typed(Code.SIGNATURE, b"g", b"\1h\0"), b"\1", Cause.SIGNATURE, 28),
        (good + typed(60, b"t", b"\0\0\1\0" + bytes(8)) + b"\0", b"", Cause.PADDING, 28),
        (good + typed(60, b"ss", b"\xff"), b"", Cause.SIGNATURE, 25),
        (good + typed(Code.PATH, b"s", order.written(9, 4)), b"", Cause.FIELD, 25),
    ]


def ask_in_two_items(r: Recorder, dice: Dice) -> None:
    r.say("Faults in two items of the body: the first tells, whatever its cause, and before a missing field.")
    for order in ORDERS:
        for spelled, body, cause, at in bad_bodies(order):
            message, start = raw_body(order, spelled, body)
            r.ask_fault(message, "faults in two items of the body", Part.BODY, cause, start + at)
            message = assembled(order, laid(order, signed(spelled)), body, CALL)
            r.ask_fault(message, "a bad item and a missing field", Part.BODY, cause, body_start(message) + at)
    r.say("Faults in two items of the fields, or in the fields and the body.")
    for order in ORDERS:
        for fields, body, cause, at in bad_fields(order):
            message = assembled(order, fields, body)
            r.ask_fault(message, "faults in two items of the fields", Part.FIELDS, cause, at)
            message = assembled(order, fields, body, ERROR)
            r.ask_fault(message, "a bad item and a missing field", Part.FIELDS, cause, at)
    r.say("Padding behind the fields that is not zero, before a bad body or none; and all padding.")
    for order, length in product(ORDERS, range(1, 9)):
        fields = laid(order, REPLY, signed("b"), unknown(40, "s", b"x" * length))
        message = assembled(order, fields, order.written(2, 4) if length % 2 else b"")
        end = fields_end(message)
        if end % 8:
            spoilt = patched(message, end + dice.below(-end % 8), b"\1")
            r.ask_fault(spoilt, "padding behind the fields not zero", Part.FIELDS, Cause.PADDING, end)
    for sample in samples():
        message, items = write(sample, fill=1 + dice.below(255))
        first = next(item.at for item in items if item.name == "padding")
        r.ask_fault(message, "all padding not zero", Part.FIELDS, Cause.PADDING, first)


# By chance -------------------------------------------------------------------


def small_messages() -> list[Message]:
    """Short messages, of which every byte is changed."""
    made = []
    for order in ORDERS:
        made.append(Message(order, CALL, 0, 2, PAGE_FIELDS, [7, 1000]))
        made.append(Message(order, RETURN, 1, 2, [REPLY, signed("a{sv}")], [[(b"k", variant("b", 1))]]))
        fields = [known(Code.ERROR_NAME, b"a.E"), known(Code.REPLY_SERIAL, 258), known(Code.SENDER, b":1.7")]
        made.append(Message(order, ERROR, 2, 772, [*fields, signed("s")], ["é!".encode()]))
        fields = [PATH, INTERFACE, MEMBER, unknown(64, "(yq)", (1, 2)), signed("a(yo)g")]
        made.append(Message(order, SIGNAL, 4, 3, fields, [[(1, b"/a"), (2, b"/")], b"as"]))
        fields = [unknown(65, "v", variant("ab", [1, 0])), signed("vat")]
        made.append(Message(order, 5, 0, 1, fields, [variant("v", variant("n", -2)), []]))
        made.append(Message(order, 255, 255, 2**32 - 1, [signed("aayd(bx)")], [[[1, 2], [], [3]], 2**63, (1, -9)]))
    return made


def bounded(items: list[Item], at: int, held: Message | Fault) -> bool:
    """Can this be the verdict on a good message of these items in which the byte was changed?"""
    if at < FIRST_FIELD:
        return frame_bounded(at, held)
    item = [item for item in items if item.at <= at < item.behind][-1]
    if item.name == "padding":
        return held == Fault(item.part, Cause.PADDING, item.at)
    if isinstance(held, Message) or held.cause in (Cause.MISSING, Cause.LEFT_OVER):
        return True
    return held.part > item.part or held.part == item.part and held.byte >= item.at


def frame_bounded(at: int, held: Message | Fault) -> bool:
    if at == 2:
        return isinstance(held, Message)
    if at == 3:
        return held == Fault(Part.FRAME, Cause.VERSION, 3)
    if 4 <= at < 8:
        return held == Fault(Part.FRAME, Cause.LENGTH, 4)
    if 8 <= at < 12:
        return isinstance(held, Message) or held == Fault(Part.FRAME, Cause.SERIAL_0, 8)
    possible = {0: (Cause.NO_ORDER, Cause.LENGTH), 1: (Cause.TYPE_0, Cause.MISSING)}
    return isinstance(held, Message) or held.cause in possible.get(at, (Cause.LENGTH, Cause.PAST_END))


def ask_bytes(r: Recorder, dice: Dice) -> None:
    for sample in small_messages():
        message, items = write(sample)
        r.say(f"Each byte changed, one at a time: {kind_word(sample.kind)}, {ORDER_WORDS[sample.order]}.")
        r.ask(message, "a message whose bytes are changed", sample)
        for at, was in enumerate(message):
            likely = [was ^ 1 << dice.below(8), was + 1, was - 1, 0, 1, 9, dice.below(256)]
            byte = dice.pick([value % 256 for value in likely if value % 256 != was])
            changed = patched(message, at, bytes([byte]))
            held = r.ask(changed, "a byte changed")
            assert bounded(items, at, held), f"byte {at}: {changed.hex()} has {held}"


def ask_by_chance(r: Recorder, dice: Dice) -> None:
    r.say("Messages by chance, each also with some damage.")
    for number in range(24):
        made = some_message(dice, ORDERS[number % 2], TYPES[number // 2 % len(TYPES)])
        message = write(made)[0]
        if len(message) <= 250:
            r.ask(message, "a message by chance", made)
            for _ in range(2):
                at = dice.below(len(message))
                r.ask(patched(message, at, dice.text(1)), "a message by chance, damaged")


# The model against the page, and against the writer --------------------------


def check_inspect() -> None:
    """The page's example of what is printed."""
    whole = bytes.fromhex(PAGE)
    asked = f"# one\n\n{whole.hex()}\n{cut_body(whole, 4).hex()}\n"
    printed = """line 3: call, little endian, serial 1, flags 0, 88 bytes
  path /melt
  member Start
  destination org.melt
  signature yu
  body 7, 1000
line 4: fault in the body at byte 84: past the end (part 3, cause 8)
2 messages: 1 valid, 1 faulty
"""
    assert inspect(asked) == printed
    assert inspect("6c") == f"line 1: {SHORT}\n1 message: 0 valid, 1 faulty\n"
    for wrong in ("6C\n", "6\n", " 6c\n", "6c \n", "x\n", "6c\n-\n"):
        try:
            inspect(wrong)
        except ValueError:
            continue
        raise AssertionError(wrong)


SHORT = "fault in the frame at byte 0: under 16 bytes (part 1, cause 1)"

# Values as the page's table has them shown.
SHOWN: list[tuple[str, Value, str]] = [
    ("y", 200, "200"),
    ("n", -2, "-2"),
    ("q", 65535, "65535"),
    ("i", -(2**31), "-2147483648"),
    ("u", 2**32 - 1, "4294967295"),
    ("x", -1, "-1"),
    ("t", 2**64 - 1, "18446744073709551615"),
    ("b", 1, "true"),
    ("b", 0, "false"),
    ("d", 0x3FF8000000000000, "0x3ff8000000000000"),
    ("d", 1, "0x0000000000000001"),
    ("s", b' !"#[\\]~\x7f\x1f\n', r'" !\x22#[\x5c]~\x7f\x1f\x0a"'),
    ("s", "é".encode(), r'"\xc3\xa9"'),
    ("o", b"/a/b", '"/a/b"'),
    ("g", b"a{sv}", '"a{sv}"'),
    ("ay", [], "[]"),
    ("ay", [1, 2], "[1, 2]"),
    ("a{ys}", [], "{}"),
    ("a{ys}", [(1, b"a"), (2, b"b")], '{1: "a", 2: "b"}'),
    ("(ys)", (1, b"a"), '(1, "a")'),
    ("v", variant("(y)", (1,)), "<(y) (1)>"),
    ("v", variant("v", variant("a{sv}", [(b"k", variant("b", 0))])), '<v <a{sv} {"k": <b false>}>>'),
    ("a(yav)", [(1, []), (2, [variant("s", b"")])], '[(1, []), (2, [<s "">])]'),
]


def check_shown() -> None:
    for spelled, value, expected in SHOWN:
        assert shown(one(spelled), value) == expected, expected
    fields = [unknown(255, "as", [b"x"]), signed(""), unknown(11, "y", 1), known(Code.SENDER, b":1.2")]
    lines = ["type 9, big endian, serial 7, flags 255, 20 bytes", "  sender :1.2", "  signature "]
    lines += ['  field 255 <as ["x"]>', "  field 11 <y 1>"]
    assert shown_message(Message(Order.BIG, 9, 255, 7, fields, []), 20) == lines


def check_by_chance(count: int) -> None:
    """Messages by chance: read as written, and each item spoilt and each byte cut off as foreseen."""
    dice = Dice(99)
    for number in range(count):
        made = some_message(dice, ORDERS[number % 2], dice.pick(TYPES))
        message, items = write(made)
        assert judge(message) == made, message.hex()
        for item in items:
            for cause, _, spoilt in spoil(item, message, end_around(item, items, message), dice):
                assert judge(spoilt) == Fault(item.part, cause, item.at), spoilt.hex()
        for item, cut in cuts(message, items):
            assert judge(cut) == Fault(item.part, Cause.PAST_END, item.at), cut.hex()
        for at, was in enumerate(message):
            changed = patched(message, at, bytes([(was + 1 + dice.below(255)) % 256]))
            assert bounded(items, at, judge(changed)), f"byte {at}: {changed.hex()}"


# The whole -------------------------------------------------------------------


def record() -> Recorder:
    r = Recorder()
    r.say("Messages for inspect (docs/messages.md).")
    r.say("Made by reference/record_inspect.py; what is printed for them is the model's.")
    parts = [ask_page, ask_kinds, ask_basic, ask_nested, ask_unknown_fields, ask_empty_arrays, ask_depths]
    parts += [ask_signature_depths, ask_frames, ask_lengths, ask_limits, ask_items, ask_cuts, ask_ends]
    parts += [ask_array_padding, ask_names, ask_fields, ask_missing, ask_bodies, ask_in_one_item, ask_deep_and_bad]
    parts += [ask_struct_at_the_end, ask_in_two_items, ask_bytes, ask_by_chance]
    for start, part in enumerate(parts):
        r.say()
        part(r, Dice(start))
    return r


def print_cases(r: Recorder) -> None:
    for case in CASES:
        print(f"{r.cases[case]:>5}  {case}", file=sys.stderr)
    faults, all_cases = min(r.cases[case] for case in FAULT_CASES), min(r.cases[case] for case in CASES)
    print(f"{len(FAULT_CASES)} faults, by part and cause, each met {faults} times or more", file=sys.stderr)
    print(f"{len(CASES)} cases, each met {all_cases} times or more", file=sys.stderr)
    print(r.last_line(), end="", file=sys.stderr)


def main(arguments: list[str]) -> int:
    checking = arguments[:1] == ["--check"]
    files = arguments[1:] if checking else arguments
    if len(files) not in ((2,) if checking else (0, 2)) or any(name.startswith("-") for name in files):
        print(__doc__, file=sys.stderr)
        return 2
    check_inspect()
    check_shown()
    check_by_chance(60)
    r = record()
    print_cases(r)
    rare = [case for case in CASES if r.cases[case] < (OFTEN_FAULT if case in FAULT_CASES else OFTEN)]
    assert not rare, f"met too seldom: {rare}"
    recorded = [text.encode("ascii") for text in (r.script(), r.output())]
    if checking:
        return check_files(dict(zip(files, recorded)))
    for name, data in zip(files, recorded):
        with open(name, "wb") as file:
            file.write(data)
    return 0


if __name__ == "__main__":
    sys.exit(main(sys.argv[1:]))
