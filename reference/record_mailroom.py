"""Plays a script for the program mailroom on the models, and records it.

Written from docs/mailboxes.md alone. It shares nothing with the crates.

    python3 reference/record_mailroom.py [SCRIPT OUTPUT]
    python3 reference/record_mailroom.py --check SCRIPT OUTPUT

The first form writes the script to the file SCRIPT, and what mailroom shall
print for it to the file OUTPUT; without files it only plays. The second plays
again and fails, with exit status 1, if a stored file differs. Both print to
standard error how often each case was met.

Each step is made on all three models of mailboxes.py. They must answer the
same, and the bytes of the shelf and of the roll must lie as the page says.

Nothing here depends on the day, the machine or the version of Python, so the
same files come out each time.
"""

from __future__ import annotations

import sys
from collections import Counter
from collections.abc import Callable
from dataclasses import dataclass

from mailboxes import Lists, MailboxSet, Refusal, Refused, Roll, Shelf
from recording import Dice, check_files


def pattern(length: int) -> bytes:
    """What areas and buffers hold before: no byte is like the next ones."""
    run = bytes((91 * i + 165) % 251 for i in range(251))
    return (run * (length // 251 + 1))[:length]


# Reading the bytes again -----------------------------------------------------


def read_row(row: bytes) -> list[tuple[int, bytes]]:
    """The records of a row, each as its connection and its message."""
    records = []
    while row:
        c, length = row[0], int.from_bytes(row[1:3], "little")
        assert c <= 15 and 1 <= length <= 1024 and len(row) >= 3 + length, "a whole record"
        records.append((c, row[3 : 3 + length]))
        row = row[3 + length :]
    return records


def write_row(records: list[tuple[int, bytes]]) -> bytes:
    """The row of these records."""
    return b"".join(bytes([c]) + len(text).to_bytes(2, "little") + text for c, text in records)


def read_shelf(shelf: Shelf) -> list[list[bytes]]:
    """The sixteen lists, out of the slots of a shelf."""
    lists = []
    for c in range(16):
        slots = [16 * ((shelf.heads[c] + k) % shelf.limit()) + c for k in range(shelf.counts[c])]
        lists.append([bytes(shelf.area[1024 * slot :][: shelf.lengths[slot]]) for slot in slots])
    return lists


# A room: one set of each kind ------------------------------------------------


@dataclass(frozen=True)
class Answer:
    """What a call answered: a number, a refusal, and the bytes that were written."""

    number: int = 0
    refusal: Refusal | None = None
    written: bytes = b""


class Room:
    """A set of each kind, all of one limit. Each call is made on all of them.

    Beside them stands the row of all messages that wait, in the order in which
    they were put, and how many were taken from each connection. What the sets
    must hold is worked out from these.
    """

    def __init__(self, limit: int) -> None:
        # The greatest area of an odd limit, the least of an even one.
        more = limit % 2
        self.plain = Lists(limit)
        self.shelf = Shelf(bytearray(pattern(16384 * limit + 16383 * more)))
        self.roll = Roll(bytearray(pattern(16432 * limit + 16431 * more)))
        self.row: list[tuple[int, bytes]] = []
        self.taken = [0] * 16
        self.check()

    def lists(self) -> list[list[bytes]]:
        return [[text for d, text in self.row if d == c] for c in range(16)]

    def check(self) -> None:
        """All three hold what they must, and their bytes lie as the page says."""
        lists = self.lists()
        assert self.plain.lists == lists
        assert max(map(len, lists)) <= self.plain.limit()
        assert read_shelf(self.shelf) == lists
        if self.shelf.limit():
            assert self.shelf.heads == [taken % self.shelf.limit() for taken in self.taken]
        assert read_row(bytes(self.roll.area[: self.roll.used])) == self.row
        assert self.roll.area.startswith(write_row(self.row))
        assert self.roll.records == len(self.row)
        assert self.roll.counts == self.shelf.counts == [len(texts) for texts in lists]

    def _ask(self, call: Callable[[MailboxSet], Answer]) -> Answer:
        """The answer of all three, which is the same."""
        answers = []
        for one in (self.plain, self.shelf, self.roll):
            try:
                answers.append(call(one))
            except Refused as refused:
                answers.append(Answer(refusal=refused.refusal))
        assert answers[0] == answers[1] == answers[2], answers
        return answers[0]

    def limit(self) -> Answer:
        before = self._bytes()
        answer = self._ask(lambda one: Answer(one.limit()))
        self._unchanged(before)
        return answer

    def count(self, c: int) -> Answer:
        before = self._bytes()
        answer = self._ask(lambda one: Answer(one.count(c)))
        self._unchanged(before)
        return answer

    def put(self, c: int, message: bytes) -> Answer:
        def call(one: MailboxSet) -> Answer:
            one.put(c, message)
            return Answer()

        before, lists = self._bytes(), self.lists()
        answer = self._ask(call)
        if answer.refusal:
            self._unchanged(before)
            return answer
        self.row.append((c, message))
        self._others(c, lists)
        # The shelf writes to its slot's front alone, the roll behind its row.
        slot = 16 * ((self.taken[c] + len(lists[c])) % self.shelf.limit()) + c
        at, (shelf, roll) = 1024 * slot, before
        assert self.shelf.area == shelf[:at] + message + shelf[at + len(message) :]
        assert self.shelf.lengths[slot] == len(message)
        assert self.roll.area[self.roll.used :] == roll[self.roll.used :]
        return answer

    def take(self, c: int, size: int) -> Answer:
        def call(one: MailboxSet) -> Answer:
            buffer = bytearray(pattern(size))
            try:
                written = one.take(c, buffer)
            except Refused:
                assert buffer == pattern(size), "a refusal writes nothing"
                raise
            assert len(buffer) == size and buffer[written:] == pattern(size)[written:], "the rest is as it was"
            return Answer(written, written=bytes(buffer[:written]))

        (shelf, roll), used, lists = self._bytes(), self.roll.used, self.lists()
        answer = self._ask(call)
        if answer.refusal or answer.number == 0:
            self._unchanged((shelf, roll))
            return answer
        assert answer.written == lists[c][0] and answer.number == len(lists[c][0])
        self.row.remove((c, lists[c][0]))
        self.taken[c] += 1
        self._others(c, lists)
        assert self.shelf.area == shelf and self.roll.area[used:] == roll[used:]
        return answer

    def clear(self, c: int) -> Answer:
        def call(one: MailboxSet) -> Answer:
            one.clear(c)
            return Answer()

        (shelf, roll), used, lists = self._bytes(), self.roll.used, self.lists()
        answer = self._ask(call)
        self.row = [record for record in self.row if record[0] != c]
        self._others(c, lists)
        assert self.shelf.area == shelf and self.roll.area[used:] == roll[used:]
        return answer

    def _bytes(self) -> tuple[bytes, bytes]:
        return bytes(self.shelf.area), bytes(self.roll.area)

    def _unchanged(self, before: tuple[bytes, bytes]) -> None:
        assert self._bytes() == before
        self.check()

    def _others(self, c: int, lists: list[list[bytes]]) -> None:
        """No list has changed but that of c."""
        self.check()
        assert all(self.plain.lists[d] == lists[d] for d in range(16) if d != c)


# What mailroom prints --------------------------------------------------------


def hex_of(text: bytes) -> str:
    return text.hex() or "-"


def limit_line(answer: Answer) -> str:
    return f"limit {answer.number}"


def put_line(c: int, answer: Answer) -> str:
    return f"put {c}: {answer.refusal.value if answer.refusal else 'ok'}"


def take_line(c: int, answer: Answer) -> str:
    return f"take {c}: {answer.refusal.value if answer.refusal else f'{answer.number} {hex_of(answer.written)}'}"


def count_line(c: int, answer: Answer) -> str:
    return f"count {c}: {answer.number}"


def last_lines(room: Room | None, steps: int) -> list[str]:
    counts = [(c, room.count(c).number) for c in range(16)] if room else []
    lines = [f"waiting for {c}: {count}" for c, count in counts if count]
    return lines + [f"{steps} steps, the shelf and the roll gave the same answers at every step"]


def mailroom(script: str) -> str:
    """Carry out a script as the page says, read from its text alone."""
    room: Room | None = None
    lines: list[str] = []
    for number, line in enumerate(script.split("\n"), 1):
        words = line.partition("#")[0].split(" ")
        words = [word for word in words if word]
        try:
            match words:
                case []:
                    pass
                case ["limit", limit]:
                    room = Room(read_number(limit, 16))
                    lines.append(limit_line(room.limit()))
                case ["put", c, text] if room:
                    lines.append(put_line(int(c), room.put(read_number(c, 255), read_hex(text))))
                case ["take", c, size] if room:
                    lines.append(take_line(int(c), room.take(read_number(c, 255), read_number(size, 65535))))
                case ["clear", c] if room:
                    room.clear(read_number(c, 255))
                    lines.append(f"clear {int(c)}")
                case ["count", c] if room:
                    lines.append(count_line(int(c), room.count(read_number(c, 255))))
                case _:
                    raise ValueError("not one of the five steps")
        except ValueError as error:
            raise ValueError(f"line {number} is no step: {error}") from error
    return "\n".join(lines + last_lines(room, len(lines))) + "\n"


def read_number(word: str, greatest: int) -> int:
    if not word or set(word) - set("0123456789") or int(word) > greatest:
        raise ValueError(f"{word} is no number up to {greatest}")
    return int(word)


def read_hex(word: str) -> bytes:
    if word == "-":
        return b""
    if len(word) % 2 or set(word) - set("0123456789abcdef"):
        raise ValueError("not a message in hex digits")
    return bytes.fromhex(word)


# Recording -------------------------------------------------------------------

LENGTHS = [0, 1, 2, 255, 256, 257, 1023, 1024, 1025]
PUTTABLE = LENGTHS[1:-1]
ABOVE = [16, 17, 255]

# Every case that the script tries, each as often as OFTEN says or more.
OFTEN = 20
CASES = [
    "limit",
    "limit, while messages wait in the sets before",
    *(f"put to {c}" for c in ABOVE),
    "put to another above 15",
    *(f"put of {n} bytes" for n in LENGTHS),
    *(f"put of {n} bytes, ok" for n in PUTTABLE),
    "put, no mailbox",
    "put, no mailbox, where the length is bad as well",
    "put, bad length, 0 bytes",
    "put, bad length, 1025 bytes",
    "put, bad length, where the mailbox is full as well",
    "put, full, limit 0",
    "put, full, limit 1",
    "put, full, limit 2 to 15",
    "put, full, limit 16",
    "put that makes the mailbox full",
    "put to a place in front of the head",
    "put over a longer message",
    "put over a shorter message",
    "put after a clear, the head not at place 0",
    "put of a message that looks like a record",
    "take above 15, buffer of 0 bytes",
    "take above 15, longer buffer",
    "take where nothing waits, buffer of 0 bytes",
    "take where nothing waits, longer buffer",
    "take, short buffer of 0 bytes",
    "take, buffer one byte too short",
    "take, buffer shorter by more",
    *(f"take, buffer one byte too short for {n} bytes" for n in PUTTABLE),
    *(f"take of {n} bytes" for n in PUTTABLE),
    "take, buffer fits exactly",
    "take, buffer one byte longer",
    "take, buffer longer by more",
    "take, buffer of 65535 bytes",
    "take while newer ones wait",
    "take of a message that had to wait its turn",
    "take that moves the head round to place 0",
    "take of the only record",
    "take of the first record",
    "take of a record in the middle",
    "take of the last record",
    "clear above 15",
    "clear of an empty mailbox",
    "clear of one message",
    "clear of more messages",
    "clear of a full mailbox",
    "clear of a mailbox between two others where messages wait",
    "clear of records with those of others before, between and behind them",
    "count above 15",
    "count of an empty mailbox",
    "count of a mailbox that is neither empty nor full",
    "count of a full mailbox",
    "count or take right after a clear",
]


class Recorder:
    """Makes each step on the models, and writes it and what is printed for it."""

    def __init__(self) -> None:
        self.rows: list[str] = []
        self.lines: list[str] = []
        self.cases: Counter[str] = Counter()
        self.limits: Counter[int] = Counter()
        self.most_records = 0
        self.most_bytes = 0
        # Where nothing was put since a clear that removed something.
        self.cleared: set[int] = set()
        # For each message that waits, whether another waited when it was put.
        self.arrivals: list[list[bool]] = []

    # The script's text

    def say(self, text: str = "") -> None:
        self.rows.append(f"# {text}" if text else "")

    def _step(self, row: str, line: str, note: str) -> None:
        self.rows.append(f"{row} # {note}" if note else row)
        self.lines.append(line)
        self.most_records = max(self.most_records, self.room.roll.records)
        self.most_bytes = max(self.most_bytes, self.room.roll.used)

    def _met(self, case: str, when: bool = True) -> None:
        if when:
            assert case in CASES, case
            self.cases[case] += 1

    def waiting(self, c: int) -> list[bytes]:
        return self.room.plain.lists[c] if c <= 15 else []

    def any_waiting(self) -> list[int]:
        return [c for c in range(16) if self.waiting(c)]

    # The five steps

    def limit(self, limit: int, note: str = "") -> None:
        self._met("limit")
        self._met("limit, while messages wait in the sets before", bool(self.lines) and bool(self.room.row))
        self.limits[limit] += 1
        self.room = Room(limit)
        self.cleared = set()
        self.arrivals = [[] for _ in range(16)]
        self._step(f"limit {limit}", limit_line(self.room.limit()), note)

    def put(self, c: int, message: bytes, note: str = "") -> None:
        limit, count, n = self.room.plain.limit(), len(self.waiting(c)), len(message)
        head = self.room.shelf.heads[c] if c <= 15 else 0
        bad = not 1 <= n <= 1024
        old = 0
        if c <= 15 and count < limit:
            old = self.room.shelf.lengths[16 * ((head + count) % limit) + c]
        answer = self.room.put(c, message)
        if c > 15:
            self._met(f"put to {c}" if c in ABOVE else "put to another above 15")
        self._met(f"put of {n} bytes", n in LENGTHS)
        match answer.refusal:
            case Refusal.NO_MAILBOX:
                self._met("put, no mailbox")
                self._met("put, no mailbox, where the length is bad as well", bad)
            case Refusal.BAD_LENGTH:
                self._met(f"put, bad length, {n} bytes")
                self._met("put, bad length, where the mailbox is full as well", count == limit)
            case Refusal.FULL:
                self._met(f"put, full, limit {limit if limit in (0, 1, 16) else '2 to 15'}")
            case _:
                self._met(f"put of {n} bytes, ok", n in LENGTHS)
                self._met("put that makes the mailbox full", count + 1 == limit)
                self._met("put to a place in front of the head", head + count >= limit)
                self._met("put over a longer message", old > n)
                self._met("put over a shorter message", 0 < old < n)
                self._met("put after a clear, the head not at place 0", c in self.cleared and head > 0)
                self._met("put of a message that looks like a record", looks_like_a_record(message))
                self.cleared.discard(c)
                self.arrivals[c].append(count > 0)
        self._step(f"put {c} {hex_of(message)}", put_line(c, answer), note)

    def take(self, c: int, size: int, note: str = "") -> None:
        texts, row = list(self.waiting(c)), list(self.room.row)
        answer = self.room.take(c, size)
        if c > 15:
            self._met(f"take above 15, {'longer buffer' if size else 'buffer of 0 bytes'}")
        elif not texts:
            self._met(f"take where nothing waits, {'longer buffer' if size else 'buffer of 0 bytes'}")
            self._met("count or take right after a clear", c in self.cleared)
        elif answer.refusal:
            n = len(texts[0])
            self._met("take, short buffer of 0 bytes", size == 0)
            self._met("take, buffer one byte too short", size == n - 1)
            self._met("take, buffer shorter by more", size < n - 1)
            self._met(f"take, buffer one byte too short for {n} bytes", size == n - 1 and n in PUTTABLE)
        else:
            n = len(texts[0])
            self._met(f"take of {n} bytes", n in PUTTABLE)
            self._met("take, buffer fits exactly", size == n)
            self._met("take, buffer one byte longer", size == n + 1)
            self._met("take, buffer longer by more", size > n + 1)
            self._met("take, buffer of 65535 bytes", size == 65535)
            self._met("take while newer ones wait", len(texts) > 1)
            self._met("take of a message that had to wait its turn", self.arrivals[c].pop(0))
            limit = self.room.plain.limit()
            self._met("take that moves the head round to place 0", limit > 1 and self.room.shelf.heads[c] == 0)
            at = [d for d, _ in row].index(c)
            if len(row) == 1:
                self._met("take of the only record")
            elif at == 0:
                self._met("take of the first record")
            elif at == len(row) - 1:
                self._met("take of the last record")
            else:
                self._met("take of a record in the middle")
        self._step(f"take {c} {size}", take_line(c, answer), note)

    def clear(self, c: int, note: str = "") -> None:
        count, row = len(self.waiting(c)), [d for d, _ in self.room.row]
        if c > 15:
            self._met("clear above 15")
        elif count == 0:
            self._met("clear of an empty mailbox")
        else:
            self._met("clear of one message" if count == 1 else "clear of more messages")
            self._met("clear of a full mailbox", count == self.room.plain.limit())
            between = 1 <= c <= 14 and bool(self.waiting(c - 1)) and bool(self.waiting(c + 1))
            self._met("clear of a mailbox between two others where messages wait", between)
            first, last = row.index(c), len(row) - 1 - row[::-1].index(c)
            around = first > 0 and last < len(row) - 1 and last - first + 1 > count
            self._met("clear of records with those of others before, between and behind them", around)
            self.cleared.add(c)
            self.arrivals[c] = []
        self.room.clear(c)
        self._step(f"clear {c}", f"clear {c}", note)

    def count(self, c: int, note: str = "") -> None:
        answer = self.room.count(c)
        if c > 15:
            self._met("count above 15")
        elif answer.number == 0:
            self._met("count of an empty mailbox")
            self._met("count or take right after a clear", c in self.cleared)
        elif answer.number == self.room.plain.limit():
            self._met("count of a full mailbox")
        else:
            self._met("count of a mailbox that is neither empty nor full")
        self._step(f"count {c}", count_line(c, answer), note)

    # The files

    def script(self) -> str:
        return "\n".join(self.rows) + "\n"

    def output(self) -> str:
        return "\n".join(self.lines + last_lines(self.room, len(self.lines))) + "\n"


def looks_like_a_record(message: bytes) -> bool:
    """Whether the message could be taken for a whole record."""
    return len(message) > 3 and message[0] <= 15 and write_row([(message[0], message[3:])]) == message


# The parts of the script -----------------------------------------------------


def play_page(r: Recorder) -> None:
    r.say("The example of the page: two messages for 3, and one for 0 between them.")
    r.limit(2)
    r.put(3, b"hi", "hi")
    r.put(0, b"!", "!")
    r.put(3, b"ok", "ok")
    assert r.room.roll.area.startswith(bytes.fromhex("03020068690001002103" + "02006f6b"))
    for c in (3, 0, 1):
        r.count(c)
    r.take(3, 1024, "hi")
    assert r.room.roll.area[: r.room.roll.used] == bytes.fromhex("0001002103" + "02006f6b")
    r.count(3)
    r.say("What is left is in its order; then nothing waits.")
    r.take(3, 2, "ok")
    r.take(3, 2)
    r.take(0, 1, "!")
    r.take(0, 1)
    r.say("The refusals of a put, by the first that applies.")
    r.put(16, b"hi")
    r.put(16, b"")
    r.put(3, b"")
    for text in (b"one", b"two", b"three"):
        r.put(3, text)
    r.put(3, b"", "the mailbox is full as well")
    r.say("A take is refused in one way only; it changes nothing.")
    for size in (2, 0, 1):
        r.take(3, size)
    r.count(3)
    r.take(3, 3)
    r.say("Above 15: 0 for count and take, nothing for clear.")
    for c in ABOVE:
        r.count(c)
        r.take(c, 0)
        r.take(c, 1024)
        r.clear(c)
    r.say("A clear, and one where nothing waits.")
    r.put(4, b"four")
    r.clear(3)
    r.count(3)
    r.take(3, 5)
    r.clear(3)
    r.take(4, 4)


def play_none(r: Recorder, dice: Dice) -> None:
    r.say("Limit 0: every mailbox is full while it is empty.")
    r.limit(0)
    for c in range(16):
        r.put(c, dice.text(1 + dice.below(3)))
        if c % 4 == 0:
            r.put(c, b"")
            r.take(c, dice.pick([0, 1, 1024]))
            r.count(c)
        if c % 2 == 0:
            r.clear(c)
    for c in ABOVE:
        r.put(c, b"x")
        r.put(c, b"")
        r.count(c)
    r.say("A limit may be set anew, to the same or another.")
    r.limit(0)
    r.put(0, b"x")
    r.limit(1)
    r.put(0, b"x")
    r.limit(1, "what waited is gone")
    r.count(0)
    r.take(0, 1)
    r.put(0, b"y")
    r.limit(0)
    r.count(0)
    r.take(0, 1)


def play_one(r: Recorder, dice: Dice) -> None:
    r.say("Limit 1, all sixteen full. No call for a number above 15 touches any of them.")
    r.limit(1)
    for c in dice.mix(list(range(16))):
        r.put(c, bytes([c]))
    for c in range(16):
        r.put(c, dice.text(1))
    for c in dice.mix(ABOVE * 3 + [18, 31, 32, 128, 254]):
        r.put(c, dice.text(1))
        r.take(c, 0)
        r.take(c, dice.pick([1, 1024, 65535]))
        r.clear(c)
        r.count(c)
    r.say("Full, taken or cleared, and full again.")
    for c in dice.mix(list(range(16))):
        if dice.below(3):
            r.clear(c)
            r.put(c, dice.text(2))
        else:
            r.take(c, dice.below(2))
            r.take(c, 1)
            r.put(c, dice.text(2))
            r.put(c, dice.text(1))
    for c in range(16):
        r.take(c, 2)


def play_rings(r: Recorder, dice: Dice) -> None:
    number = 0

    def next_text() -> bytes:
        nonlocal number
        number += 1
        return number.to_bytes(2, "big") + dice.text(dice.below(3))

    r.say("Rings that go round: with one waiting, two, and so on, up to the limit.")
    r.say("The first two bytes of a message are its number, over all connections.")
    for limit in (1, 2, 3, 5):
        r.limit(limit)
        for level in range(1, limit + 1):
            c = dice.below(16)
            r.say(f"Connection {c}, with {level} of {limit} waiting.")
            while len(r.waiting(c)) < level:
                r.put(c, next_text())
            if level == limit:
                r.put(c, next_text())
                r.count(c)
            for _ in range(2 * limit + 1):
                size = len(r.waiting(c)[0])
                if dice.below(4) == 0:
                    r.take(c, size - 1)
                r.take(c, size + dice.below(2))
                r.put(c, next_text())
            if dice.below(2):
                r.clear(c)
                r.take(c, 1024)
            else:
                while r.waiting(c):
                    r.take(c, 1024)
                r.take(c, 0)


def play_bad_lengths(r: Recorder, dice: Dice) -> None:
    r.say("0 and 1025 bytes: to empty mailboxes, half full, full, and to none.")
    r.limit(2)
    for c in (1, 2, 3):
        r.put(c, dice.text(2))
    for c in (2, 3):
        r.put(c, dice.text(1))
    kinds = [(c, 1025) for c in [0, 1, 2, 3, 15] * 4 + [14, 2] + ABOVE]
    kinds += [(c, 0) for c in [0, 1, 2, 3, 2, 3, 2, 3] * 2 + ABOVE * 4 + [19, 31, 32, 63, 64, 100, 127, 128, 200, 254]]
    for c, n in dice.mix(kinds):
        r.put(c, dice.text(n))
    for c in (0, 1, 2, 3):
        r.count(c)
        r.take(c, 2)


def play_lengths(r: Recorder, dice: Dice) -> None:
    r.say("Lengths at their bounds, each taken first with a buffer one byte too short.")
    r.limit(3)
    lengths = dice.mix([n for n in PUTTABLE if n != 1024 for _ in range(21)] + [1024] * 2)
    used = [0, 1, 6, 7, 8, 15]

    def take_one() -> None:
        c = dice.pick(r.any_waiting())
        n = len(r.waiting(c)[0])
        r.take(c, n - 1)
        r.take(c, dice.pick([n, n, n + 1, 1024, 65535]))

    while lengths:
        c = dice.pick(used)
        if len(r.waiting(c)) < 3:
            r.put(c, dice.text(lengths.pop()))
        if len(r.room.row) > 4 + dice.below(8):
            take_one()
    while r.any_waiting():
        take_one()


def play_longest(r: Recorder, dice: Dice) -> None:
    r.say("Sixteen full mailboxes of 4 messages of 1024 bytes: the roll's area is full")
    r.say("to its last byte, with 65728 bytes.")
    r.limit(4)
    for c in dice.mix(list(range(16)) * 4):
        r.put(c, dice.text(1024))
    assert r.room.roll.used == len(r.room.roll.area) == 65728
    for c in range(16):
        r.count(c)
    for c in (0, 7, 15):
        r.put(c, b"x", "no room for any more")
    r.say("One for one: a take makes room for one, at the end of the row.")
    for c in dice.mix(list(range(16))):
        r.take(c, dice.pick([0, 1, 256, 1023]))
        r.take(c, 1023)
        r.take(c, dice.pick([1024, 1024, 1025, 65535]))
        r.put(c, dice.text(1 + dice.below(3)))
        if c % 3 == 0:
            r.put(c, b"x")
    for c in (3, 12, 4, 13):
        r.clear(c)
        r.count(c)
    for c in (2, 5, 14, 2, 15, 0):
        r.take(c, 1023)
        r.take(c, 1024)


def play_many(r: Recorder, dice: Dice) -> None:
    r.say("Limit 16, all full: 256 records. The messages tell their connection and place.")
    r.limit(16)
    places = [0] * 16
    for c in dice.mix(list(range(16)) * 16):
        r.put(c, bytes([16 * c + places[c]]))
        places[c] += 1
    assert r.room.roll.records == 256
    for c in range(16):
        r.count(c)
        r.put(c, dice.text(2))
    r.say("Takes and puts all over; some go round.")
    for _ in range(90):
        c = dice.below(16)
        if dice.below(3) and r.waiting(c):
            n = len(r.waiting(c)[0])
            r.take(c, dice.pick([n - 1, n, n, n + 1, 65535]))
        else:
            r.put(c, dice.text(1 + dice.below(2)))
    r.say("Every other mailbox is cleared, and the ones between keep their order.")
    for c in range(1, 16, 2):
        r.clear(c)
        r.count(c)
    for c in range(0, 16, 2):
        r.take(c, 2)
        r.take(c, 2)
        r.put(c + 1, dice.text(2))


def play_clears(r: Recorder, dice: Dice) -> None:
    r.say("Clears of a mailbox between others, its records between theirs.")
    r.limit(3)
    for _ in range(21):
        c = 1 + dice.below(14)
        order = [c - 1, c, c + 1, c, c + 1, c - 1]
        if dice.below(2):
            order = order[::-1]
        for d in order:
            if len(r.waiting(d)) < 3:
                r.put(d, dice.text(1 + dice.below(4)))
        r.clear(c)
        if dice.below(2):
            r.count(c)
        else:
            r.take(c, dice.pick([0, 1024]))
        r.put(c, dice.text(2))
        for d in (c - 1, c, c + 1):
            r.take(d, 1024)
        if dice.below(3) == 0:
            for d in r.any_waiting():
                r.clear(d)


def play_by_chance(r: Recorder, dice: Dice) -> None:
    r.say("Steps by chance, for every limit. Mailboxes fill and empty by turns.")
    for limit in dice.mix(list(range(17))):
        r.limit(limit)
        # Few connections have most of the traffic, so that mailboxes fill.
        first = dice.below(14)
        busy = [first, first + 1, first + 2] if limit < 8 else [first]
        steps = 34 + limit
        for step in range(steps):
            filling = step % (steps // 2) < steps // 4
            c = dice.pick(busy) if dice.below(4) else dice.below(16)
            if dice.below(9) == 0:
                c = dice.pick(ABOVE + [18 + dice.below(237)])
            chance_step(r, dice, c, filling)


def chance_step(r: Recorder, dice: Dice, c: int, filling: bool) -> None:
    what = {"put": 18, "take": 5, "count": 2, "clear": 1}
    if not filling:
        what = {"put": 5, "take": 14, "count": 2, "clear": 2}
    match dice.weigh(what):
        case "put":
            length = dice.weigh({0: 4, 1: 14, 2: 14, 3: 8, 5: 8, 9: 6, 20: 3, 255: 1, 256: 1, 257: 1})
            text = dice.text(length)
            if length > 3 and dice.below(3) == 0:
                text = write_row([(c % 16, dice.text(length - 3))])
            r.put(c, text)
        case "take":
            n = len(r.waiting(c)[0]) if r.waiting(c) else dice.below(3)
            r.take(c, dice.weigh({0: 3, max(n - 1, 0): 4, n: 6, n + 1: 3, n + 7: 3, 1024: 1, 65535: 1}))
        case "count":
            r.count(c)
        case "clear":
            r.clear(c)


def play_end(r: Recorder) -> None:
    r.say("The end: what waits in the last sets is counted, as at 3 of the page.")
    r.limit(5)
    for c, count in ((15, 5), (3, 3), (0, 1), (9, 2), (10, 4), (14, 1)):
        for k in range(count):
            r.put(c, bytes([c, k]))
    r.take(3, 2)
    r.clear(9)
    r.take(14, 2)
    r.put(15, b"\xff")
    r.put(10, b"")
    r.put(16, b"\x10")
    r.take(10, 1)


# The whole -------------------------------------------------------------------


def check_models() -> None:
    """The page's examples in bytes, and how an area's length gives the limit."""
    roll = Roll(bytearray(pattern(16432 * 2)))
    roll.put(3, b"hi")
    roll.put(0, b"!")
    roll.put(3, b"ok")
    assert roll.area[: roll.used].hex(" ") == "03 02 00 68 69 00 01 00 21 03 02 00 6f 6b"
    assert (roll.used, roll.records, roll.counts) == (14, 3, [1, 0, 0, 2] + [0] * 12)
    buffer = bytearray(b"....")
    assert roll.take(3, buffer) == 2 and buffer == b"hi.."
    assert roll.area[: roll.used].hex(" ") == "00 01 00 21 03 02 00 6f 6b"
    roll.clear(3)
    assert roll.area[: roll.used].hex(" ") == "00 01 00 21"
    roll.put(15, b"x" * 1024)
    assert roll.area[4:8].hex(" ") == "0f 00 04 78" and roll.used == 4 + 1027
    roll.put(15, b"y" * 255)
    assert roll.area[1031:1035].hex(" ") == "0f ff 00 79"

    before = pattern(16384 * 2)
    shelf = Shelf(bytearray(before))
    shelf.put(3, b"hi")
    shelf.put(0, b"!")
    shelf.put(3, b"ok")
    # The places of 3 are the slots 3 and 19, the first of 0 is the slot 0.
    expected = bytearray(before)
    expected[3 * 1024 : 3 * 1024 + 2] = b"hi"
    expected[0:1] = b"!"
    expected[19 * 1024 : 19 * 1024 + 2] = b"ok"
    assert shelf.area == expected
    assert shelf.take(3, bytearray(2)) == 2 and shelf.heads[3] == 1
    shelf.put(3, b"yes")
    expected[3 * 1024 : 3 * 1024 + 3] = b"yes"
    assert shelf.area == expected and shelf.heads[3] == 1 and shelf.counts[3] == 2
    assert (shelf.lengths[3], shelf.lengths[19], shelf.lengths[0]) == (3, 2, 1)
    shelf.clear(3)
    assert shelf.area == expected and shelf.heads[3] == 1 and shelf.counts[3] == 0

    for length, on_shelf, in_roll in (
        (0, 0, 0),
        (16383, 0, 0),
        (16384, 1, 0),
        (16431, 1, 0),
        (16432, 1, 1),
        (32767, 1, 1),
        (32768, 2, 1),
        (32864, 2, 2),
        (262143, 15, 15),
        (262144, 16, 15),
        (262911, 16, 15),
        (262912, 16, 16),
        (500000, 16, 16),
    ):
        assert Shelf(bytearray(length)).limit() == on_shelf
        assert Roll(bytearray(length)).limit() == in_roll


def record() -> Recorder:
    check_models()
    r = Recorder()
    r.say("A script for mailroom (docs/mailboxes.md).")
    r.say("Made by reference/record_mailroom.py; what is printed for it is the models'.")
    r.say()
    play_page(r)
    parts = [play_none, play_one, play_rings, play_bad_lengths, play_lengths]
    parts += [play_longest, play_many, play_clears, play_by_chance]
    for start, part in enumerate(parts):
        r.say()
        part(r, Dice(start))
    r.say()
    play_end(r)
    rare = [case for case in CASES if r.cases[case] < OFTEN]
    if rare:
        print_cases(r)
    assert not rare, f"met too seldom: {rare}"
    assert set(r.limits) == set(range(17)), "every limit is met"
    assert mailroom(r.script()) == r.output(), "the script, read again, prints the same"
    return r


def print_cases(r: Recorder) -> None:
    for case in CASES:
        print(f"{r.cases[case]:>5}  {case}", file=sys.stderr)
    limits = ", ".join(f"{limit}: {r.limits[limit]}" for limit in sorted(r.limits))
    print(f"limits met: {limits}", file=sys.stderr)
    print(f"{r.most_records} records and {r.most_bytes} bytes in the roll at most", file=sys.stderr)
    print(f"{len(r.lines)} steps, {len(CASES)} cases, each met {min(r.cases.values())} times or more", file=sys.stderr)


def main(arguments: list[str]) -> int:
    checking = arguments[:1] == ["--check"]
    files = arguments[1:] if checking else arguments
    if len(files) not in ((2,) if checking else (0, 2)) or any(name.startswith("-") for name in files):
        print(__doc__, file=sys.stderr)
        return 2
    r = record()
    print_cases(r)
    if checking:
        return check_files({files[0]: r.script(), files[1]: r.output()})
    for name, text in zip(files, (r.script(), r.output())):
        with open(name, "wb") as file:
            file.write(text.encode("ascii"))
    return 0


if __name__ == "__main__":
    sys.exit(main(sys.argv[1:]))
