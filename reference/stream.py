"""The rows of a recorded stream: writing them, and checking a whole file.

Written from docs/runner.md alone. It shares nothing with the crates.

    python3 reference/stream.py FILE

says whether FILE is well-formed, and if not, at which line and why. It judges
the form alone, for every row of the page; it makes no call.
"""

from __future__ import annotations

import re
import sys
from dataclasses import dataclass, field

# Writing ---------------------------------------------------------------------


def hex_word(data: bytes) -> str:
    return data.hex() if data else "-"


def bus_row(limit: int, server_id: bytes) -> str:
    return f"bus {limit} {server_id.hex()}"


def open_row(c: int, uid: int) -> str:
    return f"open {c} {uid}"


def line_row(c: int, text: bytes, size: int) -> str:
    return f"line {c} {hex_word(text)} {size}"


def close_row(c: int) -> str:
    return f"close {c}"


def accepted_row() -> str:
    """The answer of an accepted open or close."""
    return "= 0"


def written_row(written: bytes) -> str:
    """The answer of an accepted line."""
    return f"= {len(written)} {hex_word(written)}"


def refused_row(number: int) -> str:
    return f"! {number}"


def comment_row(text: str) -> str:
    return f"# {text}".rstrip(" ")


def with_comment(row: str, text: str) -> str:
    return f"{row}  # {text}" if text else row


# Reading ---------------------------------------------------------------------

# Row -> the words after its name.
CALLS: dict[str, tuple[str, ...]] = {
    "open": ("C", "UID"),
    "line": ("C", "HEX", "SIZE"),
    "message": ("C", "HEX"),
    "tick": ("NOW",),
    "take": ("C", "SIZE"),
    "close": ("C",),
}

# Call -> the words after `=`.
ANSWERS: dict[str, tuple[str, ...]] = {
    "open": ("ZERO",),
    "tick": ("ZERO",),
    "close": ("ZERO",),
    "line": ("N", "HEX"),
    "take": ("N", "HEX"),
    "message": ("PLACED", "MISSED"),
}

# Word -> its least and greatest number.
NUMBERS: dict[str, tuple[int, int]] = {
    "C": (0, 255),
    "L": (0, 16),
    "UID": (0, 2**32 - 1),
    "SIZE": (0, 65535),
    "N": (0, 65535),
    "NOW": (0, 2**64 - 1),
    "PLACED": (0, 255),
    "MISSED": (0, 255),
    "PART": (0, 255),
    "CAUSE": (0, 255),
    "BYTE": (0, 65535),
    "ZERO": (0, 0),
    "REFUSAL": (1, 14),
}

# Word -> its form, for the words that are no numbers.
FORMS: dict[str, str] = {
    "ID": r"[0-9a-f]{32}",
    "HEX": r"-|([0-9a-f]{2})+",
}


class Malformed(Exception):
    """The first malformed row: its line, counted from 1, and what is wrong."""

    def __init__(self, line: int, why: str) -> None:
        super().__init__(f"line {line}: {why}")
        self.line = line
        self.why = why


@dataclass
class Counts:
    """What a well-formed stream holds."""

    buses: int = 0
    made: dict[str, int] = field(default_factory=lambda: dict.fromkeys(CALLS, 0))
    refused: dict[str, int] = field(default_factory=lambda: dict.fromkeys(CALLS, 0))

    @property
    def calls(self) -> int:
        return sum(self.made.values())


def word_is(word: str, kind: str) -> bool:
    if kind in FORMS:
        return re.fullmatch(FORMS[kind], word) is not None
    least, greatest = NUMBERS[kind]
    if re.fullmatch(r"0|[1-9][0-9]{0,19}", word) is None:
        return False
    return least <= int(word) <= greatest


def check_words(number: int, words: list[str], kinds: tuple[str, ...]) -> None:
    if len(words) != len(kinds):
        raise Malformed(number, f"{len(kinds)} words expected, {len(words)} found")
    for word, kind in zip(words, kinds):
        if not word_is(word, kind):
            raise Malformed(number, f"{word!r} is no {kind}")


def check(data: bytes) -> Counts:
    """Count the rows of a stream; raise Malformed at the first bad one."""
    counts = Counts()
    waits: str | None = None  # the call that waits for its answer
    try:
        lines = data.decode("utf-8").split("\n")
    except UnicodeDecodeError as error:
        raise Malformed(data[: error.start].count(b"\n") + 1, "not UTF-8") from None
    for number, line in enumerate(lines, start=1):
        row = line.removesuffix("\r").partition("#")[0].rstrip(" ")
        if not row:
            continue
        name, *words = row.split(" ")
        if name in ("=", "!"):
            if waits is None:
                raise Malformed(number, "an answer where no call waits for one")
            if name == "=":
                check_words(number, words, ANSWERS[waits])
                if ANSWERS[waits] == ("N", "HEX"):
                    length = 0 if words[1] == "-" else len(words[1]) // 2
                    if length != int(words[0]):
                        raise Malformed(number, f"HEX has {length} bytes, N is {words[0]}")
            else:
                seven = words[:1] == ["7"]
                check_words(number, words, ("REFUSAL", "PART", "CAUSE", "BYTE") if seven else ("REFUSAL",))
                counts.refused[waits] += 1
            waits = None
            continue
        if name != "bus" and name not in CALLS:
            raise Malformed(number, f"{name!r} begins no row")
        if waits is not None:
            raise Malformed(number, f"the {waits} above still waits for its answer")
        if name == "bus":
            check_words(number, words, ("L", "ID"))
            counts.buses += 1
        else:
            if counts.buses == 0:
                raise Malformed(number, "a call before the first bus")
            check_words(number, words, CALLS[name])
            counts.made[name] += 1
            waits = name
    if waits is not None:
        raise Malformed(len(lines), f"the stream ends where a {waits} waits for its answer")
    if counts.buses == 0:
        raise Malformed(len(lines), "the stream has no bus")
    return counts


def main(arguments: list[str]) -> int:
    if len(arguments) != 1:
        print("usage: stream.py FILE", file=sys.stderr)
        return 2
    with open(arguments[0], "rb") as file:
        data = file.read()
    try:
        counts = check(data)
    except Malformed as fault:
        print(f"malformed, {fault}", file=sys.stderr)
        return 1
    print(f"well-formed: {counts.buses} bus rows, {counts.calls} calls, {sum(counts.refused.values())} refused")
    return 0


if __name__ == "__main__":
    sys.exit(main(sys.argv[1:]))
