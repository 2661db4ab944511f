"""Compares the model's verdicts on signatures, texts, paths and names with libdbus.

The model is written from docs/ alone. It shares nothing with the crates.

    python3 reference/compare_libdbus_texts.py

needs the library libdbus-1.so.3 (Debian: the package libdbus-1-3) and installs
nothing. It calls the library's own checks, such as dbus_signature_validate, in
this process; no bus is started.

Every question of the recording for lint is asked of both, and then all short
texts over a few bytes, deep signatures by chance, and every code point. The
library takes C strings, so a question with a zero byte cannot be asked of it;
these are counted apart.

Where the two differ, the script must know why: `foretell` says beforehand what
the library answers, and by which classes of difference. An answer that was not
foretold fails the script, with exit status 1. So does a class that no question
of the recording meets.
"""

from __future__ import annotations

import ctypes
import re
import sys
from collections import Counter
from collections.abc import Iterable, Iterator
from itertools import product

from record_lint import KINDS, Question, deep_type, judge, record, utf8
from recording import Dice
from texts import BASIC, DEEPEST, LONGEST, Array, Entry, Struct, Type, complete_types, depth

LIBRARY = "libdbus-1.so.3"
FUNCTIONS = {
    "signature": "dbus_signature_validate",
    "path": "dbus_validate_path",
    "member": "dbus_validate_member",
    "interface": "dbus_validate_interface",
    "error": "dbus_validate_error_name",
    "busname": "dbus_validate_bus_name",
    "text": "dbus_validate_utf8",
}


# Known differences -----------------------------------------------------------

CLASSES: dict[str, str] = {
    "file descriptors": (
        "House rule (H) of docs/messages.md: h is no type. The library takes it for a basic one."
    ),
    "arrays in a row": (
        "docs/messages.md: arrays count along the way of nesting, at most 32. "
        "The library counts only those that follow each other, and begins anew after any other code."
    ),
    "dict entries apart": (
        "House rule (H) of docs/messages.md: dict entries count as structs, at most 32 together. "
        "The library takes 32 structs and 32 dict entries more."
    ),
    "unique names": (
        "docs/messages.md: after the colon come two or more elements. The library takes one element or none, "
        "and an empty first one if others follow; no other element may be empty."
    ),
}


def longest_row(each: Type, before: int = 0) -> int:
    """The most arrays that follow each other, if so many stand before this type."""
    if isinstance(each, Array):
        return longest_row(each.element, before + 1)
    return max([before] + [longest_row(part) for part in each.parts()])


def foretell_signature(content: bytes) -> tuple[bool, list[str]]:
    types = complete_types(content, BASIC + b"h")
    if len(content) > LONGEST or types is None:
        return False, []
    arrays = max(map(longest_row, types), default=0)
    expected = max(arrays, depth(types, (Struct,)), depth(types, (Entry,))) <= DEEPEST
    whys = {
        "file descriptors": b"h" in content,
        "arrays in a row": depth(types, (Array,)) > DEEPEST,
        "dict entries apart": depth(types, (Struct, Entry)) > DEEPEST,
    }
    return expected, [why for why, holds in whys.items() if holds]


def foretell(question: Question) -> tuple[bool, list[str]]:
    """The library's answer, and the classes that count if it is not the model's."""
    content = question.content
    if question.kind == "signature":
        return foretell_signature(content)
    if question.kind == "busname" and content[:1] == b":":
        loose = re.fullmatch(rb":[A-Za-z0-9_-]*(\.[A-Za-z0-9_-]+)*", content)
        return loose is not None and len(content) <= LONGEST, ["unique names"]
    return judge(question).yes, []


# The library's side ----------------------------------------------------------


class Library:
    """The checks of libdbus."""

    def __init__(self) -> None:
        library = ctypes.CDLL(LIBRARY)
        parts = [ctypes.c_int() for _ in range(3)]
        library.dbus_get_version(*map(ctypes.byref, parts))
        self.version = ".".join(str(part.value) for part in parts)
        self.checks = {}
        for kind, name in FUNCTIONS.items():
            check = getattr(library, name)
            check.argtypes = [ctypes.c_char_p, ctypes.c_void_p]
            check.restype = ctypes.c_uint32
            self.checks[kind] = check

    def judge(self, question: Question) -> bool:
        assert b"\0" not in question.content
        return bool(self.checks[question.kind](question.content, None))


# Questions beyond the recording ----------------------------------------------


def short(kinds: list[str], alphabet: bytes, most: int) -> Iterator[Question]:
    for n in range(most + 1):
        for content in map(bytes, product(alphabet, repeat=n)):
            yield from (Question(kind, content) for kind in kinds)


def characters() -> Iterator[Question]:
    """Every point and surrogate, and the first bytes of longer characters with any second one."""
    for point in range(1, 0x110400):
        yield Question("text", utf8(point))
    some = b"\x7f\x80\xbf\xc0"
    for parts in product(range(0xE0, 0xF0), range(1, 256), some):
        yield Question("text", bytes(parts))
    for parts in product(range(0xF0, 0x100), range(1, 256), some, some):
        yield Question("text", bytes(parts))


def deep(count: int) -> Iterator[Question]:
    """Signatures by chance, 24 to 39 arrays and structs deep."""
    dice = Dice(0)
    for _ in range(count):
        arrays, structs = 24 + dice.below(16), 24 + dice.below(16)
        dicts = dice.below(min(arrays, structs) + 1)
        wraps = ["array"] * (arrays - dicts) + ["struct"] * (structs - dicts) + ["dict"] * dicts
        content = deep_type(dice, dice.mix(wraps))
        if dice.below(8) == 0:
            at = dice.below(len(content))
            content = content[:at] + dice.pick([b"", b"h", b"a", b"(", b")"]) + content[at + 1 :]
        yield Question("signature", content)


# Comparing -------------------------------------------------------------------


PLACES = ["both yes", "both no", "differ", "not foretold", "not asked"]


class Comparison:
    """Asks both, and counts."""

    def __init__(self, library: Library) -> None:
        self.library = library
        self.counts: Counter[str] = Counter()
        self.classes: Counter[str] = Counter()

    def compare(self, name: str, questions: Iterable[Question], show: bool) -> None:
        """Ask all of these, and print the counts, below a line for each that was not foretold or, to show, differs."""
        counts: Counter[str] = Counter()
        for question in questions:
            if b"\0" in question.content:
                counts["not asked"] += 1
                continue
            ours, real = judge(question).yes, self.library.judge(question)
            expected, whys = foretell(question)
            foretold = real == expected and (real == ours or whys != [])
            if not foretold:
                counts["not foretold"] += 1
                self.show(question, ours, real, "NOT FORETOLD")
            elif real == ours:
                counts["both yes" if ours else "both no"] += 1
            else:
                counts["differ"] += 1
                self.classes.update(whys)
                if show:
                    self.show(question, ours, real, f"differs: {', '.join(whys)}")
        self.counts += counts
        print_row(name, [counts[place] for place in PLACES])

    def show(self, question: Question, ours: bool, real: bool, verdict: str) -> None:
        content = repr(question.content)[1:]
        print(f"    {question.kind} {content}: the model {word(ours)}, libdbus {word(real)}; {verdict}")


def word(yes: bool) -> str:
    return "yes" if yes else "no"


def print_row(name: str, cells: list[object]) -> None:
    print(f"{name:<50}" + "".join(f"{cell:>14}" for cell in cells))


def main() -> int:
    try:
        library = Library()
    except OSError:
        print(f"{LIBRARY} is not installed (Debian: the package libdbus-1-3)", file=sys.stderr)
        return 2
    print(f"libdbus {library.version}")
    print()
    print_row("", PLACES)
    recorded, beyond = Comparison(library), Comparison(library)
    asked = record().questions
    for kind in KINDS:
        recorded.compare(f"the recording, {kind}", [one for one in asked if one.kind == kind], show=True)
    print_row("the recording", [recorded.counts[place] for place in PLACES])
    print()
    names = [kind for kind in KINDS if kind not in ("signature", "text")]
    beyond.compare("signatures of up to 6 codes of ysva(){}h", short(["signature"], b"ysva(){}h", 6), show=False)
    beyond.compare("signatures 24 to 39 deep, by chance", deep(50000), show=False)
    beyond.compare("names of up to 5 bytes of aZ0_-.:/", short(names, b"aZ0_-.:/", 5), show=False)
    beyond.compare("every kind, of up to 2 bytes", short(KINDS, bytes(range(1, 256)), 2), show=False)
    beyond.compare("every code point, and first bytes in UTF-8", characters(), show=False)
    print_row("beyond the recording", [beyond.counts[place] for place in PLACES])
    print()
    print("Classes of difference; a question may be in more than one:")
    for name, reason in CLASSES.items():
        print(f"\n{name}: {recorded.classes[name]} of the recording, {beyond.classes[name]} beyond it\n    {reason}")
    never = [name for name in CLASSES if not recorded.classes[name]]
    return 1 if never or recorded.counts["not foretold"] or beyond.counts["not foretold"] else 0


if __name__ == "__main__":
    sys.exit(main())
