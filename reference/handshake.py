"""A model of the handshake and of the table of sixteen.

Written from docs/handshake.md alone. It shares nothing with the crates: no
code, no tables, no constants. Where the two disagree, one of them has misread
the page.

The model is slow and plain on purpose. Each rule stands once, in the words of
the page, so that a reader can hold the two side by side.
"""

from __future__ import annotations

from dataclasses import dataclass
from enum import Enum

CONNECTIONS = 16
LONGEST_LINE = 256
SHORTEST_BUFFER = 37


class Refused(Exception):
    """A call was refused; `number` is the number of the refusal."""

    def __init__(self, number: int) -> None:
        super().__init__(f"refused, {number}")
        self.number = number


# States and lines ------------------------------------------------------------


class State(Enum):
    WAITING_FOR_AUTH = "waiting for AUTH"
    WAITING_FOR_BEGIN = "waiting for BEGIN"
    BEGUN = "begun"


class Line(Enum):
    """The rows of the table "What a line is answered"."""

    TEXT_PASSES = "AUTH EXTERNAL, the text passes"
    TEXT_FAILS = "AUTH EXTERNAL, the text fails"
    OTHER_AUTH = "another AUTH"
    ERROR = "ERROR"
    BEGIN = "BEGIN"
    CANCEL = "CANCEL"
    UNKNOWN = "unknown"


def passing_text(uid: int) -> bytes:
    """The one text that passes: each decimal digit d of the uid as `3d`."""
    return "".join("3" + digit for digit in str(uid)).encode("ascii")


def read_line(line: bytes, uid: int) -> Line:
    """Which row of the table the line is, for a life of this uid."""
    if len(line) > LONGEST_LINE or any(not 32 <= byte <= 126 for byte in line):
        return Line.UNKNOWN
    word, space, text = line.partition(b" ")
    has_text = space == b" "
    if word == b"AUTH":
        mechanism, second_space, response = text.partition(b" ")
        if mechanism == b"EXTERNAL" and second_space == b" ":
            passes = response == passing_text(uid)
            return Line.TEXT_PASSES if passes else Line.TEXT_FAILS
        return Line.OTHER_AUTH
    if word == b"ERROR":
        return Line.ERROR
    if word == b"BEGIN" and not has_text:
        return Line.BEGIN
    if word == b"CANCEL" and not has_text:
        return Line.CANCEL
    return Line.UNKNOWN


# What a line is answered -----------------------------------------------------


class Answer(Enum):
    OK = "OK"
    REJECTED = "REJECTED EXTERNAL"
    ERROR = "ERROR"
    NOTHING = ""


def answer_bytes(answer: Answer, server_id: bytes) -> bytes:
    if answer is Answer.NOTHING:
        return b""
    if answer is Answer.OK:
        return b"OK " + server_id.hex().encode("ascii") + b"\r\n"
    return answer.value.encode("ascii") + b"\r\n"


# The two columns that answer; "begun" is refusal 4 throughout. BEGIN is missing
# in the first, because there it is refusal 5.
ANSWERS: dict[State, dict[Line, tuple[Answer, State]]] = {
    State.WAITING_FOR_AUTH: {
        Line.TEXT_PASSES: (Answer.OK, State.WAITING_FOR_BEGIN),
        Line.TEXT_FAILS: (Answer.REJECTED, State.WAITING_FOR_AUTH),
        Line.OTHER_AUTH: (Answer.REJECTED, State.WAITING_FOR_AUTH),
        Line.ERROR: (Answer.REJECTED, State.WAITING_FOR_AUTH),
        Line.CANCEL: (Answer.ERROR, State.WAITING_FOR_AUTH),
        Line.UNKNOWN: (Answer.ERROR, State.WAITING_FOR_AUTH),
    },
    State.WAITING_FOR_BEGIN: {
        Line.TEXT_PASSES: (Answer.ERROR, State.WAITING_FOR_BEGIN),
        Line.TEXT_FAILS: (Answer.ERROR, State.WAITING_FOR_BEGIN),
        Line.OTHER_AUTH: (Answer.ERROR, State.WAITING_FOR_BEGIN),
        Line.ERROR: (Answer.REJECTED, State.WAITING_FOR_AUTH),
        Line.BEGIN: (Answer.NOTHING, State.BEGUN),
        Line.CANCEL: (Answer.REJECTED, State.WAITING_FOR_AUTH),
        Line.UNKNOWN: (Answer.ERROR, State.WAITING_FOR_BEGIN),
    },
}


@dataclass
class Life:
    """What stands at a connection number from an accepted open to its end."""

    uid: int
    state: State = State.WAITING_FOR_AUTH


# The table of sixteen --------------------------------------------------------


class Bus:
    """The calls of a bus. Each returns its answer or raises Refused.

    The limit belongs to the rows of a stream; no rule of the handshake uses it.
    """

    def __init__(self, limit: int, server_id: bytes) -> None:
        assert 0 <= limit <= 16 and len(server_id) == 16
        self.limit = limit
        self.server_id = server_id
        self.lives: list[Life | None] = [None] * CONNECTIONS

    def life_at(self, c: int) -> Life | None:
        return self.lives[c] if c < CONNECTIONS else None

    def _standing(self, c: int) -> Life:
        """The life at c, or refusal 1."""
        life = self.life_at(c)
        if life is None:
            raise Refused(1)
        return life

    def open(self, c: int, uid: int) -> None:
        if c >= CONNECTIONS:
            raise Refused(1)
        if self.lives[c] is not None:
            raise Refused(2)
        self.lives[c] = Life(uid)

    def line(self, c: int, text: bytes, buffer: bytearray) -> int:
        """Write the answer to the buffer's front; return how many bytes."""
        life = self._standing(c)
        if len(buffer) < SHORTEST_BUFFER:
            raise Refused(3)
        if life.state is State.BEGUN:
            raise Refused(4)
        read = read_line(text, life.uid)
        if read is Line.BEGIN and life.state is State.WAITING_FOR_AUTH:
            self.lives[c] = None
            raise Refused(5)
        answer, life.state = ANSWERS[life.state][read]
        written = answer_bytes(answer, self.server_id)
        buffer[: len(written)] = written
        return len(written)

    def close(self, c: int) -> None:
        self._standing(c)
        self.lives[c] = None


# The law ---------------------------------------------------------------------


def has_begun_by_law(uid: int, heard: list[tuple[bytes, bytes | None]]) -> bool:
    """Whether the life has begun, judged from its lines and answers alone.

    `heard` has each line of one life beside its answer, None for a refusal.
    This is the sentence of the page, and knows no states.
    """
    shown = False  # an accepted AUTH with the uid's text, no rejection since
    for line, answer in heard:
        if answer is None:
            continue
        if answer == b"REJECTED EXTERNAL\r\n":
            shown = False
        elif line == b"AUTH EXTERNAL " + passing_text(uid):
            shown = True
        elif line == b"BEGIN" and shown:
            return True
    return False
