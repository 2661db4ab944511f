"""Makes questions for the program lint, has the model judge them, and records both.

Written from docs/messages.md alone. It shares nothing with the crates.

    python3 reference/record_lint.py [QUESTIONS OUTPUT]
    python3 reference/record_lint.py --check QUESTIONS OUTPUT

The first form writes the questions to the file QUESTIONS, and what lint shall
print for them to the file OUTPUT; without files it only makes them. The second
makes them again and fails, with exit status 1, if a stored file differs. Both
print to standard error how often each case was met.

Most questions are built so that their answer is known, and the model of
texts.py must give it. Before that the model is held against a second reading
of the page, over all short texts of a few bytes, and on UTF-8 by its ranges.

Nothing here depends on the day, the machine or the version of Python, so the
same files come out each time.
"""

from __future__ import annotations

import sys
from collections import Counter
from collections.abc import Iterator
from dataclasses import dataclass
from itertools import product

import texts
from recording import Dice
from texts import BASIC, DEEPEST, LONGEST, BusName

# Judging ---------------------------------------------------------------------

KINDS = ["signature", "path", "member", "interface", "error", "busname", "text"]


@dataclass(frozen=True)
class Question:
    """Are these bytes one of this kind?"""

    kind: str
    content: bytes


@dataclass(frozen=True)
class Verdict:
    yes: bool
    note: str = ""


def judge(question: Question) -> Verdict:
    """The model's answer."""
    content = question.content
    match question.kind:
        case "signature":
            return Verdict(texts.is_signature(content))
        case "path":
            return Verdict(texts.is_path(content))
        case "member":
            return Verdict(texts.is_member(content))
        case "interface":
            return Verdict(texts.is_interface(content))
        case "error":
            return Verdict(texts.is_error_name(content))
        case "busname":
            name = texts.bus_name(content)
            return Verdict(name is not None, f" ({name.value})" if name else "")
        case "text":
            return Verdict(texts.is_text(content))
    raise ValueError(f"{question.kind} is no kind")


# What lint prints ------------------------------------------------------------


def answer_line(verdict: Verdict, line: str) -> str:
    return f"{'yes' if verdict.yes else 'no':<3} {line}{verdict.note}"


def last_line(verdicts: list[Verdict]) -> str:
    count, yes = len(verdicts), sum(verdict.yes for verdict in verdicts)
    return f"{count} question{'' if count == 1 else 's'}: {yes} yes, {count - yes} no"


def read_question(line: str) -> Question:
    """What a line asks, read as the page says."""
    word, _, rest = line.partition(" ")
    if word in KINDS:
        return Question(word, rest.encode("utf-8"))
    kind, _, digits = rest.partition(" ")
    if word != "hex" or kind not in KINDS:
        raise ValueError("it asks nothing")
    if digits == "-":
        return Question(kind, b"")
    if not digits or len(digits) % 2 or set(digits) - set("0123456789abcdef"):
        raise ValueError("not bytes in hex digits")
    return Question(kind, bytes.fromhex(digits))


def lint(text: str) -> str:
    """What lint prints for these lines, read from their text alone."""
    lines, verdicts = [], []
    for number, line in enumerate(text.removesuffix("\n").split("\n"), 1):
        if line and not line.startswith("#"):
            try:
                verdicts.append(judge(read_question(line)))
            except ValueError as error:
                raise ValueError(f"line {number}: {error}") from error
            lines.append(answer_line(verdicts[-1], line))
    return "\n".join(lines + [last_line(verdicts)]) + "\n"


# Recording -------------------------------------------------------------------

OFTEN = 8
LENGTHS = [254, 255, 256, 257]
DEPTHS = [0, 31, 32, 33, 34]  # 0 stands for any below 31
HOW = ["dropped", "added", "changed", "swapped"]

# The bytes at the ends of the ranges that may stand in names, and their neighbours.
EDGES = bytes(sorted(set(b" #,-./0189:;@ABYZ[^_`abyz{\x00\x7f\x80\xff")))

# How an element begins, and how it goes on.
LETTERS = b"ABCDEFGHIJKLMNOPQRSTUVWXYZabcdefghijklmnopqrstuvwxyz_"
DIGITS = b"0123456789"


@dataclass(frozen=True)
class Spelling:
    """How a dotted name is spelled."""

    name: str
    kind: str
    first: bytes
    later: bytes
    front: bytes = b""


DOTTED = [
    Spelling("interface", "interface", LETTERS, LETTERS + DIGITS),
    Spelling("error", "error", LETTERS, LETTERS + DIGITS),
    Spelling("well-known name", "busname", LETTERS + b"-", LETTERS + DIGITS + b"-"),
    Spelling("unique name", "busname", LETTERS + DIGITS + b"-", LETTERS + DIGITS + b"-", b":"),
]

# Parts that spoil a signature wherever they stand in it.
BROKEN_TYPES: dict[str, list[bytes]] = {
    "array of nothing": [b"(a)", b"a{sa}", b"(ya)", b"(aa)", b"a{ya(sa)}"],
    "struct of nothing": [b"()", b"a()", b"(())", b"(s())", b"a{s()}"],
    "dict entry outside an array": [b"({sv})", b"y{sv}", b"(s{sv})", b"ay{sv}", b"a(y{yy})"],
    "dict entry as a key or value": [b"a{s{sv}}", b"a{{sv}s}"],
    "key that is a variant": [b"a{vs}", b"a{vv}", b"a{va{sv}}"],
    "key that is no single type": [b"a{(s)v}", b"a{ays}", b"a{a{sv}s}", b"a{(yy)(yy)}"],
    "dict entry of nothing": [b"a{}", b"aa{}"],
    "dict entry of one type": [b"a{s}", b"a{y}", b"a{a{s}}", b"a{s(a{s})}"],
    "dict entry of three types": [b"a{ssv}", b"a{sva}", b"a{yyy}", b"a{ss(s)}"],
    "bracket that is not closed": [b"(", b"(y", b"a{", b"a{sv", b"a{s", b"a("],
    "bracket that was not opened": [b")", b"y)", b"}", b"sv}", b"(y))", b"a{sv}}"],
    "brackets that cross": [b"(a{sv)}", b"(y}", b"a{sv)", b"a{s(v})"],
    "file descriptor": [b"h", b"ah", b"(h)", b"a{hs}", b"a{sh}", b"a{sah}"],
    "code that is no type": [b"r", b"e", b"m", b"*", b"?", b"@", b"&", b"^", b"S", b"[y]", b"\0", b"\xff"],
}

# Points at the ends of the ranges of UTF-8, and some that have no character.
POINTS = [0x1, 0x7F, 0x80, 0x7FF, 0x800, 0xFFF, 0x1000, 0xCFFF, 0xD000, 0xD7FF, 0xE000, 0xFDCF, 0xFDD0, 0xFDEF]
POINTS += [0xFEFF, 0xFFFD, 0xFFFE, 0xFFFF, 0x10000, 0x1FFFE, 0x1FFFF, 0x3FFFF, 0x40000, 0xFFFFF, 0x100000]
POINTS += [0x10FFFE, 0x10FFFF]
SURROGATES = [0xD800, 0xD801, 0xDABC, 0xDB7F, 0xDBFF, 0xDC00, 0xDC01, 0xDDEF, 0xDFFE, 0xDFFF]
ABOVE = [0x110000, 0x110001, 0x13FFFF, 0x140000, 0x1FFFFF, 0x200000, 0x3FFFFFF, 0x4000000, 0x7FFFFFFF]

CASES = [
    *(f"{kind}, {answer}" for kind in KINDS for answer in ("yes", "no")),
    "busname, unique",
    "busname, well-known",
    "an example of the page",
    "asked in a line",
    "asked in a line that is not all ASCII",
    "asked by hex",
    "asked both ways",
    "nothing",
    "spaces in the text",
    "# in the text",
    "asked as every kind",
    *(f"{kind} of one byte" for kind in ("signature", "path", "member", "text")),
    "signature of up to 2 codes",
    *(f"signature of {n} codes, {answer}" for n in (3, 4) for answer in ("yes", "no")),
    *(
        f"signature, {arrays or 'fewer'} arrays and {structs or 'fewer'} structs deep"
        for arrays in DEPTHS
        for structs in DEPTHS
        if arrays or structs
    ),
    "signature, deep parts side by side",
    "signature, an array of nothing at the end",
    *(f"signature, {name}" for name in BROKEN_TYPES),
    *(f"{name} of {n} bytes" for name in ("signature", "member", *(s.name for s in DOTTED)) for n in LENGTHS),
    "path of more than 255 bytes",
    "text of more than 255 bytes",
    *(f"{s.name}, {place} byte {answer}" for s in DOTTED for place in ("first", "later") for answer in ("yes", "no")),
    *(
        f"{s.name}, {what}"
        for s in DOTTED
        for what in ("one element", "no first element", "no middle element", "no last element", "digit first", "hyphen")
    ),
    "busname, colon in another place",
    *(f"member, {what}" for what in ("digit first", "digit later", "dot", "hyphen", "slash", "colon")),
    *(f"path, {what}" for what in ("no slash in front", "slash at the end", "two slashes", "digit first")),
    *(f"path, {what}" for what in ("dot", "hyphen", "colon", "space")),
    "text, edge of a range",
    "text, surrogate",
    "text, pair of surrogates",
    "text, above 10ffff",
    "text, longer form than needed",
    "text, cut short",
    "text, continuation alone",
    "text, first and second byte, yes",
    "text, first and second byte, no",
    "text, zero byte",
    *(f"{kind} by chance" for kind in KINDS),
    *(f"{kind}, a byte {how}, {answer}" for kind in KINDS for how in HOW for answer in ("yes", "no")),
]


class Recorder:
    """Asks each question once, and writes it and what is printed for it."""

    def __init__(self) -> None:
        self.rows: list[str] = []
        self.lines: list[str] = []
        self.questions: list[Question] = []
        self.verdicts: list[Verdict] = []
        self.cases: Counter[str] = Counter()
        self.asked: dict[str, Verdict] = {}

    def say(self, text: str = "") -> None:
        self.rows.append(f"# {text}" if text else "")

    def met(self, case: str) -> None:
        assert case in CASES, case
        self.cases[case] += 1

    def ask(self, kind: str, content: bytes, case: str, expected: bool | None = None) -> Verdict:
        """Ask, in a line where the bytes are all visible, else by hex."""
        if all(0x20 <= byte <= 0x7E for byte in content):
            return self.ask_line(f"{kind} {content.decode('ascii')}", case, expected)
        return self.ask_hex(kind, content, case, expected)

    def ask_hex(self, kind: str, content: bytes, case: str, expected: bool | None = None) -> Verdict:
        return self.ask_line(f"hex {kind} {content.hex() or '-'}", case, expected)

    def ask_line(self, line: str, case: str, expected: bool | None = None) -> Verdict:
        """Ask by this line, if it was not yet; an expected answer has to come."""
        question = read_question(line)
        verdict = judge(question)
        assert expected in (None, verdict.yes), f"{case}: {line}"
        if line in self.asked:
            return verdict
        self.rows.append(line)
        self.lines.append(answer_line(verdict, line))
        self.questions.append(question)
        self.verdicts.append(verdict)
        self.asked[line] = verdict
        self.met(case.replace("*", "yes" if verdict.yes else "no"))
        self.met(f"{question.kind}, {'yes' if verdict.yes else 'no'}")
        if verdict.note:
            self.met(f"busname, {verdict.note[2:-1]}")
        self.met("asked by hex" if line.startswith("hex ") else "asked in a line")
        return verdict

    # The files

    def script(self) -> str:
        return "\n".join(self.rows) + "\n"

    def output(self) -> str:
        return "\n".join(self.lines + [last_line(self.verdicts)]) + "\n"


# Things by chance ------------------------------------------------------------


def one_of(dice: Dice, codes: bytes) -> bytes:
    return bytes([dice.pick(list(codes))])


def some_type(dice: Dice, levels: int = 3) -> bytes:
    """A complete type, spelled."""
    inner = {"array": 4, "dict": 3, "struct": 4} if levels else {}
    match dice.weigh({"basic": 8, "variant": 2} | inner):
        case "basic":
            return one_of(dice, BASIC)
        case "variant":
            return b"v"
        case "array":
            return b"a" + some_type(dice, levels - 1)
        case "dict":
            return b"a{" + one_of(dice, BASIC) + some_type(dice, levels - 1) + b"}"
        case _:
            return b"(" + b"".join(some_type(dice, levels - 1) for _ in range(1 + dice.below(3))) + b")"


def some_types(dice: Dice, most: int = 3) -> bytes:
    return b"".join(some_type(dice) for _ in range(dice.below(most + 1)))


def types_of_length(dice: Dice, length: int) -> bytes:
    """Complete types of just so many bytes together."""
    types = b""
    while len(types) < length:
        more = some_type(dice)
        types += more if len(types + more) <= length else b"s"
    return types


def element(dice: Dice, first: bytes, later: bytes, length: int | None = None) -> bytes:
    length = length or 1 + dice.below(7)
    return one_of(dice, first) + b"".join(one_of(dice, later) for _ in range(length - 1))


def elements(dice: Dice, s: Spelling) -> list[bytes]:
    return [element(dice, s.first, s.later) for _ in range(2 + dice.below(3))]


def dotted(s: Spelling, parts: list[bytes]) -> bytes:
    return s.front + b".".join(parts)


def of_length(dice: Dice, s: Spelling, length: int) -> bytes:
    """A dotted name of just so many bytes."""
    left = length - len(s.front)
    parts = []
    while left > 40 and dice.below(8):
        parts.append(element(dice, s.first, s.later, 1 + dice.below(38)))
        left -= len(parts[-1]) + 1
    first = max(1, left // 2)
    parts += [element(dice, s.first, s.later, first), element(dice, s.first, s.later, left - first - 1)]
    name = dotted(s, dice.mix(parts))
    assert len(name) == length
    return name


def utf8(point: int, length: int | None = None) -> bytes:
    """A point in the form of so many bytes, or in the least that hold it, by UTF-8's first plan of 1 to 6."""
    if length is None:
        length = next(n for n in range(1, 7) if point < (0x80 if n == 1 else 1 << (5 * n + 1)))
    if length == 1:
        return bytes([point])
    tail = [0x80 | point >> 6 * k & 0x3F for k in reversed(range(length - 1))]
    return bytes([0xFF << 8 - length & 0xFF | point >> 6 * (length - 1), *tail])


def some_text(dice: Dice) -> bytes:
    points = []
    for _ in range(1 + dice.below(5)):
        low, high = dice.pick([(1, 0x7F), (0x80, 0x7FF), (0x800, 0xD7FF), (0xE000, 0xFFFF), (0x10000, 0x10FFFF)])
        points.append(low + dice.below(high - low + 1))
    return b"".join(utf8(point) for point in points)


def some_of(dice: Dice, kind: str) -> bytes:
    """Something by chance that is one of the kind."""
    match kind:
        case "signature":
            return some_types(dice) or some_type(dice)
        case "path":
            parts = [element(dice, LETTERS + DIGITS, LETTERS + DIGITS) for _ in range(1 + dice.below(4))]
            return b"".join(b"/" + part for part in parts)
        case "member":
            return element(dice, LETTERS, LETTERS + DIGITS)
        case "text":
            return some_text(dice)
        case _:
            s = dice.pick([s for s in DOTTED if s.kind == kind])
            return dotted(s, elements(dice, s))


def damaged(dice: Dice, kind: str, content: bytes, how: str) -> bytes:
    """The content with one byte dropped, added or changed, or two neighbours swapped."""
    likely = {"signature": b"ysvga(){}h", "path": b"aZ0_-./", "text": b"a\x00\x80\xbf\xc2\xe0\xed\xf0\xf4\xff"}
    byte = one_of(dice, likely.get(kind, b"aZ0_-.:")) if dice.below(4) else dice.text(1)
    at = dice.below(len(content))
    match how:
        case "dropped":
            return content[:at] + content[at + 1 :]
        case "added":
            return content[:at] + byte + content[at:] if dice.below(4) else content + byte
        case "changed":
            return content[:at] + byte + content[at + 1 :]
        case _:
            return content[:at] + content[at : at + 2][::-1] + content[at + 2 :]


# The parts of the questions --------------------------------------------------

PAGE = [
    ("signature", "a{sv}", True),
    ("signature", "a{vs}", False),
    ("signature", "()", False),
    ("signature", "a", False),
    ("signature", "{sv}", False),
    ("signature", "a" * 32 + "y", True),
    ("signature", "a" * 33 + "y", False),
    ("busname", "org.melt", True),
    ("busname", ":1.2", True),
    ("busname", "melt", False),
    ("busname", ":1", False),
    ("busname", "org.2melt", False),
    ("path", "/", True),
    ("path", "/org/melt", True),
    ("path", "/0", True),
    ("path", "//", False),
    ("path", "/org/", False),
    ("path", "org", False),
    ("path", "/org/freedesktop/DBus/Local", True),
    ("interface", "org.freedesktop.DBus.Local", True),
]


def ask_page(r: Recorder, dice: Dice) -> None:
    r.say("The examples of the page.")
    for kind, text, expected in PAGE:
        r.ask(kind, text.encode("ascii"), "an example of the page", expected)


def ask_forms(r: Recorder, dice: Dice) -> None:
    r.say("The empty text, asked in three ways.")
    for kind in KINDS:
        for line in (kind, f"{kind} ", f"hex {kind} -"):
            r.ask_line(line, "nothing", kind in ("signature", "text"))
    r.say("Everything after the first space belongs to the text.")
    names = {"signature": "y", "path": "/a", "member": "a", "interface": "a.b", "error": "a.b", "busname": ":1.2"}
    for kind, text in names.items():
        for spaced in (f" {text}", f"{text} ", f"{text} {text}"):
            r.ask_line(f"{kind} {spaced}", "spaces in the text", False)
    for text in (" ", "  ", " a", "a ", "a  b", "hex text 61"):
        r.ask_line(f"text {text}", "spaces in the text", True)
    for kind in KINDS:
        r.ask_line(f"{kind} #", "# in the text", kind == "text")
        r.ask_line(f"{kind} a.b # no comment", "# in the text", kind == "text")
    r.rows += ["", "#", "#signature y", "# signature y", ""]
    r.say("Lines that are not all ASCII.")
    case = "asked in a line that is not all ASCII"
    for text in ("Grüße", "smørrebrød", "Ελλάδα", "снег", "雪と氷", "❄", "😀", "a\u00a0b", "ﬁn", "日"):
        r.ask_line(f"text {text}", case, True)
    for line in ("signature é", "path /é", "path /雪", "member é", "member aé", "interface a.é", "error é.a"):
        r.ask_line(line, case, False)
    for line in ("busname a.é", "busname :1.é", "busname é.b"):
        r.ask_line(line, case, False)


def ask_as_all(r: Recorder, dice: Dice) -> None:
    r.say("The same text, asked as every kind.")
    same = ["s", "ay", "yes", "0", "_", "-", "/s", "/1", "org.melt", "a.b.c", "org.mel-t", ":1.0", ":s.y", "a:b", "1.2"]
    for text in same + ["as.ss", "(ss)", ".", "..", ":", "_._", "-.-", "_0._0"]:
        for kind in KINDS:
            r.ask(kind, text.encode("ascii"), "asked as every kind")


def ask_bytes(r: Recorder, dice: Dice) -> None:
    r.say("Every byte alone.")
    for byte in range(256):
        one = bytes([byte])
        r.ask("signature", one, "signature of one byte", byte in BASIC + b"v")
        r.ask("path", b"/" + one, "path of one byte", byte in LETTERS + DIGITS)
        r.ask("member", one, "member of one byte", byte in LETTERS)
        r.ask("text", one, "text of one byte", 0 < byte < 0x80)


def ask_codes(r: Recorder, dice: Dice) -> None:
    r.say("Short signatures: all of up to two codes, some of three and four.")
    for n in (1, 2):
        for codes in product(b"ysva(){}h", repeat=n):
            r.ask("signature", bytes(codes), "signature of up to 2 codes")
    for n, share in ((3, 6), (4, 45)):
        for codes in product(b"ysva(){}h", repeat=n):
            content = bytes(codes)
            # Most are none, and those with a bracket are the rarer among the others.
            bracket = content.strip(b"ysva") != b""
            if dice.below((1 if n == 3 or bracket else 3) if texts.is_signature(content) else share) == 0:
                r.ask("signature", content, f"signature of {n} codes, *")


def deep_type(dice: Dice, wraps: list[str]) -> bytes:
    """A type in these wraps, the first outermost. Beside it stand only single codes, at most one in a wrap."""
    spelled = one_of(dice, BASIC + b"v")
    for wrap in reversed(wraps):
        beside = [one_of(dice, BASIC + b"v")] if dice.below(4) == 0 else []
        match wrap:
            case "array":
                spelled = b"a" + spelled
            case "struct":
                spelled = b"(" + b"".join(dice.mix([spelled] + beside)) + b")"
            case "dict":
                spelled = b"a{" + one_of(dice, BASIC) + spelled + b"}"
    return spelled


def ask_depths(r: Recorder, dice: Dice) -> None:
    r.say("Arrays and structs, and dict entries among them, 31 to 34 deep.")
    for arrays, structs in product(DEPTHS, DEPTHS):
        if not arrays and not structs:
            continue
        case = f"signature, {arrays or 'fewer'} arrays and {structs or 'fewer'} structs deep"
        for k in range(OFTEN):
            a = arrays or (0 if k < 2 else dice.below(31))
            s = structs or (0 if k < 2 else dice.below(31))
            # A dict entry is in both counts: none, as many as can be, or some.
            dicts = [0, 0, min(a, s)][k] if k < 3 else dice.below(min(a, s) + 1)
            wraps = ["array"] * (a - dicts) + ["struct"] * (s - dicts) + ["dict"] * dicts
            wraps = wraps if k == 0 else wraps[::-1] if k == 1 else dice.mix(wraps)
            r.ask("signature", deep_type(dice, wraps), case, a <= DEEPEST and s <= DEEPEST)
    r.say("Parts side by side do not count together.")
    case = "signature, deep parts side by side"
    for text in (b"ay" * 40, b"(y)" * 40, b"a{yy}" * 40, b"(" + b"ay" * 40 + b")", b"a(" + b"(y)" * 40 + b")"):
        r.ask("signature", text, case, True)
    for dicts in (0, 10, 17):
        wraps = ["array"] * (31 - dicts) + ["struct"] * (31 - dicts) + ["dict"] * dicts
        r.ask("signature", b"(" + deep_type(dice, wraps) + deep_type(dice, wraps) + b")", case, True)
    for wrap in ("array", "struct", "dict"):
        part, more = deep_type(dice, [wrap] * 32), deep_type(dice, [wrap] * 33)
        r.ask("signature", part + b"ay(y)", case, True)
        r.ask("signature", b"ay(y)" + part, case, True)
        r.ask("signature", b"y" + more + b"ay(y)", case, False)


def in_context(dice: Dice, part: bytes) -> bytes:
    """The part, with complete types around it."""
    for _ in range(dice.below(3)):
        match dice.weigh({"struct": 3, "dict": 2, "beside": 2}):
            case "struct":
                part = b"(" + some_types(dice, 1) + part + some_types(dice, 1) + b")"
            case "dict":
                part = b"a{" + one_of(dice, BASIC) + part + b"}"
            case "beside":
                part = some_types(dice, 2) + part
    return some_types(dice, 1) + part + some_types(dice, 1)


def ask_broken_types(r: Recorder, dice: Dice) -> None:
    r.say("Each way to spoil a signature, alone and among other types.")
    for name, parts in BROKEN_TYPES.items():
        for part in parts:
            r.ask("signature", part, f"signature, {name}", False)
        while r.cases[f"signature, {name}"] < OFTEN + 2:
            r.ask("signature", in_context(dice, dice.pick(parts)), f"signature, {name}", False)
    for _ in range(OFTEN + 4):
        part = some_types(dice, 2) + b"a" * (1 + dice.below(3))
        r.ask("signature", part, "signature, an array of nothing at the end", False)


def ask_lengths(r: Recorder, dice: Dice) -> None:
    r.say("Lengths about 255 bytes.")
    for n in LENGTHS:
        r.ask("signature", b"y" * n, f"signature of {n} bytes", n <= LONGEST)
        r.ask("signature", b"ay" * 100 + b"v" * (n - 200), f"signature of {n} bytes", n <= LONGEST)
        r.ask("member", b"m" * n, f"member of {n} bytes", n <= LONGEST)
        for _ in range(OFTEN - 2):
            r.ask("signature", types_of_length(dice, n), f"signature of {n} bytes", n <= LONGEST)
        for _ in range(OFTEN - 1):
            r.ask("member", element(dice, LETTERS, LETTERS + DIGITS, n), f"member of {n} bytes", n <= LONGEST)
        for s in DOTTED:
            first = s.front + b"a."
            r.ask(s.kind, first + b"b" * (n - len(first)), f"{s.name} of {n} bytes", n <= LONGEST)
            many = (s.front + b"b." * n)[: n - 1] + b"c"
            r.ask(s.kind, many, f"{s.name} of {n} bytes", n <= LONGEST)
            for _ in range(OFTEN - 2):
                r.ask(s.kind, of_length(dice, s, n), f"{s.name} of {n} bytes", n <= LONGEST)
    for n in LENGTHS + [300, 1000, 5000]:
        r.ask("path", b"/" + b"p" * (n - 1), "path of more than 255 bytes" if n > LONGEST else "path by chance", True)
        r.ask("text", b"t" * n, "text of more than 255 bytes" if n > LONGEST else "text by chance", True)
    for n in (256, 257, 300, 1000):
        r.ask("path", (b"/a" * n)[:n] + b"z", "path of more than 255 bytes", True)
        r.ask("path", b"/" + b"p" * n + b"/", "path of more than 255 bytes", False)
        r.ask("text", b"t" * n + b"\xc3\xa9", "text of more than 255 bytes", True)
        r.ask("text", b"t" * n + b"\xc3", "text of more than 255 bytes", False)


def ask_names(r: Recorder, dice: Dice) -> None:
    for s in DOTTED:
        r.say(f"{s.name.capitalize()}: bytes at the ends of ranges, and each way to spoil it.")
        for byte in EDGES:
            one = bytes([byte])
            r.ask(s.kind, s.front + b"a." + one, f"{s.name}, first byte *", byte in s.first)
            r.ask(s.kind, s.front + b"a." + one + b"b", f"{s.name}, first byte *", byte in s.first)
            r.ask(s.kind, s.front + b"a" + one + b"b.c", f"{s.name}, later byte *", byte in s.later + b".")
        for _ in range(OFTEN + 2):
            parts = elements(dice, s)
            at = dice.below(len(parts))
            r.ask(s.kind, dotted(s, parts[:1]), f"{s.name}, one element", False)
            r.ask(s.kind, dotted(s, [b""] + parts), f"{s.name}, no first element", False)
            r.ask(s.kind, dotted(s, parts[:1] + [b""] + parts[1:]), f"{s.name}, no middle element", False)
            r.ask(s.kind, dotted(s, parts + [b""]), f"{s.name}, no last element", False)
            digit = parts[:at] + [one_of(dice, DIGITS) + parts[at]] + parts[at + 1 :]
            r.ask(s.kind, dotted(s, digit), f"{s.name}, digit first", s.front == b":")
            hyphen = dice.pick([b"-" + parts[at], parts[at] + b"-", parts[at] + b"-" + parts[at]])
            hyphens = parts[:at] + [hyphen] + parts[at + 1 :]
            r.ask(s.kind, dotted(s, hyphens), f"{s.name}, hyphen", s.kind == "busname")
    for content in (b"::1.2", b"1:2.3", b":1:2.3", b":1.:2", b":1.2:", b"a:b.c", b"a.b:", b"a.:b", b"1.2:", b":."):
        r.ask("busname", content, "busname, colon in another place", False)
    r.say("Each way to spoil a member or a path.")
    for _ in range(OFTEN + 2):
        name, more = some_of(dice, "member"), some_of(dice, "member")
        r.ask("member", one_of(dice, DIGITS) + name, "member, digit first", False)
        r.ask("member", name + one_of(dice, DIGITS) + more, "member, digit later", True)
        for what, byte in (("dot", b"."), ("hyphen", b"-"), ("slash", b"/"), ("colon", b":")):
            at = dice.below(len(name) + 1)
            r.ask("member", name[:at] + byte + name[at:], f"member, {what}", False)
        path = some_of(dice, "path")
        r.ask("path", path[1:], "path, no slash in front", False)
        r.ask("path", path + b"/", "path, slash at the end", False)
        at = dice.pick([at for at, byte in enumerate(path) if byte == ord("/")])
        r.ask("path", path[:at] + b"/" + path[at:], "path, two slashes", False)
        r.ask("path", path[: at + 1] + one_of(dice, DIGITS) + path[at + 1 :], "path, digit first", True)
        for what, byte in (("dot", b"."), ("hyphen", b"-"), ("colon", b":"), ("space", b" ")):
            at = dice.below(len(path) + 1)
            r.ask("path", path[:at] + byte + path[at:], f"path, {what}", False)


def among(dice: Dice, part: bytes) -> bytes:
    """The part with text before it, behind it, or both."""
    before = some_text(dice) if dice.below(2) else b"a"
    return dice.pick([before + part, part + b"z", before + part + some_text(dice)])


def ask_texts(r: Recorder, dice: Dice) -> None:
    def ask(part: bytes, case: str, expected: bool) -> None:
        r.ask("text", part, f"text, {case}", expected)
        r.ask("text", among(dice, part), f"text, {case}", expected)

    r.say("UTF-8: the ends of its ranges.")
    for point in POINTS:
        ask(utf8(point), "edge of a range", True)
    for point in SURROGATES:
        ask(utf8(point), "surrogate", False)
    for high, low in product((0xD800, 0xDBFF), (0xDC00, 0xDFFF)):
        ask(utf8(high) + utf8(low), "pair of surrogates", False)
    for point in ABOVE:
        ask(utf8(point), "above 10ffff", False)
    r.say("A point in more bytes than it needs.")
    for point in [0] + POINTS:
        for length in range(len(utf8(point)) + 1, 7):
            if length == len(utf8(point)) + 1 or dice.below(3) == 0:
                ask(utf8(point, length), "longer form than needed", False)
    r.say("Characters cut short, and continuation bytes alone.")
    for point in POINTS:
        whole = utf8(point)
        for cut in range(1, len(whole)):
            r.ask("text", whole[:cut], "text, cut short", False)
            r.ask("text", b"a" + whole[:cut] + dice.pick([b"z", whole, b"\xc3\xa9", b"\x7f"]), "text, cut short", False)
    for byte in (0x80, 0x81, 0x9F, 0xA0, 0xBF):
        ask(bytes([byte]), "continuation alone", False)
        r.ask("text", b"\xc3\xa9" + bytes([byte]), "text, continuation alone", False)
        r.ask("text", b"\xe2\x82\xac" + bytes([byte]) + b"a", "text, continuation alone", False)
    r.say("First and second bytes, the rest being right.")
    firsts = b"\xc0\xc1\xc2\xdf\xe0\xe1\xec\xed\xee\xef\xf0\xf1\xf3\xf4\xf5\xf7\xf8\xfc\xfe\xff"
    for first, second in product(firsts, b"\x41\x7f\x80\x8f\x90\x9f\xa0\xbf\xc0"):
        rest = 0 if first < 0xE0 else 1 if first < 0xF0 else 2
        r.ask("text", bytes([first, second]) + b"\x80" * rest, "text, first and second byte, *")
    r.say("A zero byte.")
    for part in (b"\0", b"\0\0", b"\0a", b"a\0", b"a\0b", b"\xc3\xa9\0"):
        ask(part, "zero byte", False)


def ask_by_chance(r: Recorder, dice: Dice) -> None:
    for kind in KINDS:
        r.say(f"{kind.capitalize()}: by chance, and with one byte damaged.")
        for _ in range(40):
            content = some_of(dice, kind)
            r.ask(kind, content, f"{kind} by chance", len(content) <= LONGEST or kind in ("path", "text"))
        for k in range(3000):
            how, content = HOW[k % len(HOW)], some_of(dice, kind)
            spoilt = damaged(dice, kind, content, how)
            case = f"{kind}, a byte {how}, {'yes' if judge(Question(kind, spoilt)).yes else 'no'}"
            if spoilt != content and r.cases[case] < OFTEN + 4:
                r.ask(kind, spoilt, case)


def ask_again(r: Recorder, dice: Dice) -> None:
    r.say("Asked again, by hex.")
    for line in dice.mix([line for line in r.asked if not line.startswith("hex ") and " " in line])[:60]:
        question = read_question(line)
        if question.content:
            r.ask_hex(question.kind, question.content, "asked both ways", r.asked[line].yes)


# The model against a second reading ------------------------------------------


def made_types(most: int) -> dict[int, set[str]]:
    """All complete types over a few codes, by their length, made by the page's list."""
    types: dict[int, set[str]] = {}
    for n in range(1, most + 1):
        types[n] = {"y", "s", "v"} if n == 1 else {"a" + element for element in types[n - 1]}
        types[n] |= {"a{" + key + value + "}" for key in "ys" for value in types.get(n - 4, set())}
        types[n] |= {"(" + members + ")" for members in made_rows(types, n - 2) if members}
    return types


def made_rows(types: dict[int, set[str]], length: int) -> Iterator[str]:
    """All rows of such types, of this length together."""
    if length == 0:
        yield ""
    for n in range(1, length + 1):
        for first in types[n]:
            yield from (first + rest for rest in made_rows(types, length - n))


def check_signatures() -> None:
    """Of the texts of up to six codes those are signatures that the page's list makes."""
    types = made_types(6)
    for n in range(7):
        made = {row.encode("ascii") for row in made_rows(types, n)}
        for content in map(bytes, product(b"ysva(){}h", repeat=n)):
            assert texts.is_signature(content) == (content in made), content


def check_names() -> None:
    """The texts of up to five bytes, cut into their elements."""

    def is_element(part: bytes, first: bytes, later: bytes) -> bool:
        return part != b"" and part[0] in first and not part.strip(later)

    def is_dotted(s: Spelling, content: bytes) -> bool:
        parts = content.removeprefix(s.front).split(b".")
        valid = all(is_element(part, s.first, s.later) for part in parts)
        return content.startswith(s.front) and len(parts) > 1 and valid

    both = LETTERS + DIGITS
    for n in range(6):
        for content in map(bytes, product(b"aZ0_-.:/", repeat=n)):
            interface, error, well_known, unique = (is_dotted(s, content) for s in DOTTED)
            name = BusName.UNIQUE if unique else BusName.WELL_KNOWN if well_known else None
            front, *parts = content.split(b"/")
            valid = all(is_element(part, both, both) for part in parts)
            path = content == b"/" or front == b"" and parts != [] and valid
            assert texts.is_member(content) == is_element(content, LETTERS, both), content
            assert texts.is_interface(content) == interface, content
            assert texts.is_error_name(content) == error, content
            assert texts.bus_name(content) == name, content
            assert texts.is_path(content) == path, content


def check_texts() -> None:
    """Pairs of bytes, and the first bytes of longer characters with any second one."""
    points = [point for point in range(1, 0x110000) if not 0xD800 <= point <= 0xDFFF]
    forms = {utf8(point) for point in points}
    some = b"\x7f\x80\xbf\xc0"
    longer = [bytes(parts) for parts in product(range(0xE0, 0xF0), range(256), some)]
    longer += [bytes(parts) for parts in product(range(0xF0, 0x100), range(256), some, some)]
    for content in longer:
        assert texts.is_text(content) == (content in forms), content
    for content in map(bytes, product(range(256), repeat=2)):
        whole = content in forms or all(0 < byte < 0x80 for byte in content)
        assert texts.is_text(content) == whole, content


def check_lint() -> None:
    """The page's example of what is printed."""
    asked = "signature a{sv}\nsignature a{vs}\nbusname :1.2\n"
    printed = "yes signature a{sv}\nno  signature a{vs}\nyes busname :1.2 (unique)\n3 questions: 2 yes, 1 no\n"
    assert lint(asked) == printed
    assert lint("# one\n\nmember") == "no  member\n1 question: 0 yes, 1 no\n"
    assert lint("hex text -\n") == "yes hex text -\n1 question: 1 yes, 0 no\n"


# The whole -------------------------------------------------------------------


def record() -> Recorder:
    check_signatures()
    check_names()
    check_texts()
    check_lint()
    r = Recorder()
    r.say("Questions for lint (docs/messages.md).")
    r.say("Made by reference/record_lint.py; what is printed for them is the model's.")
    parts = [ask_page, ask_forms, ask_as_all, ask_bytes, ask_codes, ask_depths, ask_broken_types]
    parts += [ask_lengths, ask_names, ask_texts, ask_by_chance, ask_again]
    for start, part in enumerate(parts):
        r.say()
        part(r, Dice(start))
    rare = [case for case in CASES if r.cases[case] < OFTEN]
    if rare:
        print_cases(r)
    assert not rare, f"met too seldom: {rare}"
    assert lint(r.script()) == r.output(), "the questions, read again, are answered the same"
    return r


def print_cases(r: Recorder) -> None:
    for case in CASES:
        print(f"{r.cases[case]:>5}  {case}", file=sys.stderr)
    print(f"{len(CASES)} cases, each met {min(r.cases[case] for case in CASES)} times or more", file=sys.stderr)
    print(last_line(r.verdicts), file=sys.stderr)


def check_files(recorded: dict[str, bytes]) -> int:
    """Say of each file whether it holds what was recorded; 1 if one does not."""
    status = 0
    for name, expected in recorded.items():
        try:
            with open(name, "rb") as file:
                same = file.read() == expected
        except FileNotFoundError:
            same = False
        print(f"{name}: {'as recorded' if same else 'differs from what the model records'}")
        status = status if same else 1
    return status


def main(arguments: list[str]) -> int:
    checking = arguments[:1] == ["--check"]
    files = arguments[1:] if checking else arguments
    if len(files) not in ((2,) if checking else (0, 2)) or any(name.startswith("-") for name in files):
        print(__doc__, file=sys.stderr)
        return 2
    r = record()
    print_cases(r)
    recorded = [text.encode("utf-8") for text in (r.script(), r.output())]
    if checking:
        return check_files(dict(zip(files, recorded)))
    for name, data in zip(files, recorded):
        with open(name, "wb") as file:
            file.write(data)
    return 0


if __name__ == "__main__":
    sys.exit(main(sys.argv[1:]))
