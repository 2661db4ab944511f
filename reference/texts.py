"""What a signature, a text, a path and a name are, as docs/messages.md tells it.

Written from that page alone; it shares nothing with the crates. Signatures are
read into a tree of types, and judged by the tree. The names are patterns, and
UTF-8 is Python's own.
"""

from __future__ import annotations

import re
from dataclasses import dataclass
from enum import Enum

LONGEST = 255  # bytes of a signature or a name
DEEPEST = 32  # arrays, and structs

BASIC = b"ybnqiuxtdsog"


# Types -----------------------------------------------------------------------


@dataclass(frozen=True)
class Single:
    """A basic type or a variant: one code."""

    code: int

    def parts(self) -> list[Type]:
        return []

    def spelled(self) -> bytes:
        return bytes([self.code])


@dataclass(frozen=True)
class Array:
    element: Type

    def parts(self) -> list[Type]:
        return [self.element]

    def spelled(self) -> bytes:
        return b"a" + self.element.spelled()


@dataclass(frozen=True)
class Struct:
    members: list[Type]

    def parts(self) -> list[Type]:
        return self.members

    def spelled(self) -> bytes:
        return b"(" + spell(self.members) + b")"


@dataclass(frozen=True)
class Entry:
    """A dict entry. It is no complete type, and stands only in an array."""

    key: Type
    value: Type

    def parts(self) -> list[Type]:
        return [self.key, self.value]

    def spelled(self) -> bytes:
        return b"{" + spell(self.parts()) + b"}"


Type = Single | Array | Struct | Entry


def spell(types: list[Type]) -> bytes:
    return b"".join(each.spelled() for each in types)


def depth(types: list[Type], kinds: tuple[type, ...]) -> int:
    """How many of these kinds stand around the innermost part, at most."""
    return max((isinstance(each, kinds) + depth(each.parts(), kinds) for each in types), default=0)


# Signatures ------------------------------------------------------------------


class NoTypes(Exception):
    """The bytes spell no complete types."""


class Reader:
    """Reads types off the front of a text."""

    def __init__(self, text: bytes, basic: bytes) -> None:
        self.rest = text
        self.basic = basic

    def sees(self, code: bytes) -> bool:
        return self.rest.startswith(code)

    def take(self, codes: bytes) -> int:
        """The next code, which has to be one of these."""
        if not self.rest or self.rest[0] not in codes:
            raise NoTypes
        code, self.rest = self.rest[0], self.rest[1:]
        return code

    def complete_type(self) -> Type:
        if self.sees(b"a"):
            self.take(b"a")
            return Array(self.dict_entry() if self.sees(b"{") else self.complete_type())
        if self.sees(b"("):
            self.take(b"(")
            members = [self.complete_type()]
            while not self.sees(b")"):
                members.append(self.complete_type())
            self.take(b")")
            return Struct(members)
        return Single(self.take(self.basic + b"v"))

    def dict_entry(self) -> Type:
        self.take(b"{")
        entry = Entry(Single(self.take(self.basic)), self.complete_type())
        self.take(b"}")
        return entry


def complete_types(text: bytes, basic: bytes = BASIC) -> list[Type] | None:
    """The complete types that the text spells, however deep; None where it spells none."""
    reader = Reader(text, basic)
    types = []
    try:
        while reader.rest:
            types.append(reader.complete_type())
    except NoTypes:
        return None
    assert spell(types) == text
    return types


def is_signature(text: bytes) -> bool:
    if len(text) > LONGEST:
        return False
    types = complete_types(text)
    return types is not None and depth(types, (Array,)) <= DEEPEST and depth(types, (Struct, Entry)) <= DEEPEST


# Text, paths and names -------------------------------------------------------


def is_text(text: bytes) -> bool:
    """UTF-8, which Python reads strictly, without a zero byte."""
    try:
        text.decode("utf-8", "strict")
    except UnicodeDecodeError:
        return False
    return b"\0" not in text


PATH = re.compile(rb"/|(?:/[A-Za-z0-9_]+)+")
MEMBER = re.compile(rb"[A-Za-z_][A-Za-z0-9_]*")
INTERFACE = re.compile(rb"[A-Za-z_][A-Za-z0-9_]*(?:\.[A-Za-z_][A-Za-z0-9_]*)+")
WELL_KNOWN = re.compile(rb"[A-Za-z_-][A-Za-z0-9_-]*(?:\.[A-Za-z_-][A-Za-z0-9_-]*)+")
UNIQUE = re.compile(rb":[A-Za-z0-9_-]+(?:\.[A-Za-z0-9_-]+)+")


class BusName(Enum):
    """The two kinds of bus names, as lint shows them."""

    UNIQUE = "unique"
    WELL_KNOWN = "well-known"


def _is_name(text: bytes, pattern: re.Pattern[bytes]) -> bool:
    return len(text) <= LONGEST and pattern.fullmatch(text) is not None


def is_path(text: bytes) -> bool:
    return PATH.fullmatch(text) is not None


def is_member(text: bytes) -> bool:
    return _is_name(text, MEMBER)


def is_interface(text: bytes) -> bool:
    return _is_name(text, INTERFACE)


def is_error_name(text: bytes) -> bool:
    return is_interface(text)


def bus_name(text: bytes) -> BusName | None:
    if _is_name(text, UNIQUE):
        return BusName.UNIQUE
    return BusName.WELL_KNOWN if _is_name(text, WELL_KNOWN) else None
