"""Three models of a mailbox set, as docs/mailboxes.md tells it.

Written from that page alone. They share nothing with the crates, and nothing
with each other but the names of the refusals.

`Lists` is what a set means: sixteen lists. `Shelf` and `Roll` are the two
kinds, byte for byte, each over an area of its own.
"""

from __future__ import annotations

from enum import Enum
from typing import Protocol


class Refusal(Enum):
    """The refusals by the names of the page."""

    NO_MAILBOX = "no mailbox"
    BAD_LENGTH = "bad length"
    FULL = "full"
    SHORT_BUFFER = "short buffer"


class Refused(Exception):
    """A call that was refused. It has changed nothing."""

    def __init__(self, refusal: Refusal) -> None:
        super().__init__(refusal.value)
        self.refusal = refusal


class MailboxSet(Protocol):
    """The five functions that every mailbox set has."""

    def limit(self) -> int:
        """How many messages may wait for one connection."""

    def count(self, c: int) -> int:
        """How many messages wait for c."""

    def put(self, c: int, message: bytes) -> None:
        """Add the message last to the list of c, or be refused."""

    def take(self, c: int, buffer: bytearray) -> int:
        """Move the oldest message of c to the buffer's front; its length, or 0."""

    def clear(self, c: int) -> None:
        """Empty the list of c."""


class Lists:
    """The plain meaning: sixteen lists, the oldest message first."""

    def __init__(self, limit: int) -> None:
        self._limit = limit
        self.lists: list[list[bytes]] = [[] for _ in range(16)]

    def limit(self) -> int:
        return self._limit

    def count(self, c: int) -> int:
        return len(self.lists[c]) if c <= 15 else 0

    def put(self, c: int, message: bytes) -> None:
        if c > 15:
            raise Refused(Refusal.NO_MAILBOX)
        if not 1 <= len(message) <= 1024:
            raise Refused(Refusal.BAD_LENGTH)
        if len(self.lists[c]) == self._limit:
            raise Refused(Refusal.FULL)
        self.lists[c].append(bytes(message))

    def take(self, c: int, buffer: bytearray) -> int:
        if c > 15 or not self.lists[c]:
            return 0
        oldest = self.lists[c][0]
        if len(buffer) < len(oldest):
            raise Refused(Refusal.SHORT_BUFFER)
        buffer[: len(oldest)] = self.lists[c].pop(0)
        return len(oldest)

    def clear(self, c: int) -> None:
        if c <= 15:
            self.lists[c] = []


class Shelf:
    """A slot of 1,024 bytes for each message that may wait; a ring for each connection."""

    def __init__(self, area: bytearray) -> None:
        self.area = area
        self.places = min(len(area) // 16384, 16)
        self.heads = [0] * 16
        self.counts = [0] * 16
        self.lengths = [0] * (16 * self.places)

    def _slot(self, c: int, k: int) -> int:
        """The slot of the k-th oldest message of c; the oldest has k = 0."""
        place = self.heads[c] + k
        if place >= self.places:
            place -= self.places
        return 16 * place + c

    def limit(self) -> int:
        return self.places

    def count(self, c: int) -> int:
        return 0 if c >= 16 else self.counts[c]

    def put(self, c: int, message: bytes) -> None:
        if c >= 16:
            raise Refused(Refusal.NO_MAILBOX)
        length = len(message)
        if length == 0 or length > 1024:
            raise Refused(Refusal.BAD_LENGTH)
        if self.counts[c] >= self.places:
            raise Refused(Refusal.FULL)
        slot = self._slot(c, self.counts[c])
        self.area[1024 * slot : 1024 * slot + length] = message
        self.lengths[slot] = length
        self.counts[c] += 1

    def take(self, c: int, buffer: bytearray) -> int:
        if self.count(c) == 0:
            return 0
        slot = self._slot(c, 0)
        length = self.lengths[slot]
        if length > len(buffer):
            raise Refused(Refusal.SHORT_BUFFER)
        buffer[:length] = self.area[1024 * slot : 1024 * slot + length]
        self.heads[c] = (self.heads[c] + 1) % self.places
        self.counts[c] -= 1
        return length

    def clear(self, c: int) -> None:
        if c < 16:
            self.counts[c] = 0


class Roll:
    """All records closed up in one row at the front of the area."""

    def __init__(self, area: bytearray) -> None:
        self.area = area
        self.most = min(len(area) // 16432, 16)
        self.used = 0
        self.records = 0
        self.counts = [0] * 16

    def _first(self, c: int) -> tuple[int, int]:
        """Where the first record of c begins, and the length of its message."""
        at = 0
        while True:
            assert at < self.used, "c has a record"
            length = self.area[at + 1] + 256 * self.area[at + 2]
            if self.area[at] == c:
                return at, length
            at += 3 + length

    def _close_up(self, c: int, at: int, length: int) -> None:
        """Move all that lies behind this record of c forward over it."""
        size = 3 + length
        self.area[at : self.used - size] = self.area[at + size : self.used]
        self.used -= size
        self.records -= 1
        self.counts[c] -= 1

    def limit(self) -> int:
        return self.most

    def count(self, c: int) -> int:
        return self.counts[c] if c < 16 else 0

    def put(self, c: int, message: bytes) -> None:
        if c not in range(16):
            raise Refused(Refusal.NO_MAILBOX)
        if len(message) not in range(1, 1025):
            raise Refused(Refusal.BAD_LENGTH)
        if self.counts[c] == self.most:
            raise Refused(Refusal.FULL)
        record = bytes([c, len(message) % 256, len(message) // 256]) + message
        assert self.used + len(record) <= len(self.area), "what the limit allows finds room"
        self.area[self.used : self.used + len(record)] = record
        self.used += len(record)
        self.records += 1
        self.counts[c] += 1

    def take(self, c: int, buffer: bytearray) -> int:
        if c not in range(16) or self.counts[c] == 0:
            return 0
        at, length = self._first(c)
        if len(buffer) < length:
            raise Refused(Refusal.SHORT_BUFFER)
        buffer[:length] = self.area[at + 3 : at + 3 + length]
        self._close_up(c, at, length)
        return length

    def clear(self, c: int) -> None:
        if c in range(16):
            while self.counts[c] > 0:
                self._close_up(c, *self._first(c))
