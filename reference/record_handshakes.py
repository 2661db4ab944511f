"""Plays handshakes on the model and records them as a stream.

Written from docs/ alone. It shares nothing with the crates.

    python3 reference/record_handshakes.py [STREAM [SUMMARY]]
    python3 reference/record_handshakes.py --check STREAM SUMMARY
    python3 reference/record_handshakes.py --cells

The first form records the stream to the file STREAM (or to standard output),
and what the runner shall print for it to the file SUMMARY; the summary goes to
standard error as well. The second records again and fails, with exit status 1,
if a stored file differs. The third prints how often each cell of the table of
docs/handshake.md and each refusal is met.

Nothing here depends on the day, the machine or the version of Python, so the
same files come out each time.
"""

from __future__ import annotations

import sys
from collections import Counter
from dataclasses import dataclass, field

import stream
from handshake import Bus, Life, Line, Refused, State, has_begun_by_law, passing_text, read_line
from recording import Dice, check_files

# Recording -------------------------------------------------------------------


def readable(text: bytes) -> str:
    """A line as a reader sees it: other bytes as \\xNN, the long ones cut."""
    shown = "".join(chr(byte) if 32 <= byte <= 126 else f"\\x{byte:02x}" for byte in text[:48])
    if len(text) > 48:
        return f"'{shown}'.. ({len(text)} bytes)"
    return f"'{shown}'"


class Recorder:
    """Makes each call on the model and writes it with its answer."""

    def __init__(self) -> None:
        self.rows: list[str] = []
        self.counts = stream.Counts()
        self.refusals: Counter[tuple[str, int]] = Counter()
        self.cells: Counter[tuple[Line, State]] = Counter()
        self.finished = 0
        # For the law: the lines of each life now open, beside their answers.
        self.heard: dict[int, list[tuple[bytes, bytes | None]]] = {}

    def say(self, text: str = "") -> None:
        self.rows.append(stream.comment_row(text) if text else "")

    def bus(self, limit: int, server_id: bytes) -> None:
        self.model = Bus(limit, server_id)
        self.heard = {}
        self.counts.buses += 1
        self.rows.append(stream.bus_row(limit, server_id))

    def _made(self, name: str, row: str, who: str) -> None:
        self.counts.made[name] += 1
        self.rows.append(stream.with_comment(row, who))

    def _refused(self, name: str, refusal: Refused) -> None:
        self.counts.refused[name] += 1
        self.refusals[name, refusal.number] += 1
        self.rows.append(stream.refused_row(refusal.number))

    def open(self, c: int, uid: int, who: str = "") -> None:
        self._made("open", stream.open_row(c, uid), who)
        try:
            self.model.open(c, uid)
        except Refused as refusal:
            self._refused("open", refusal)
            return
        self.heard[c] = []
        self.rows.append(stream.accepted_row())

    def close(self, c: int, who: str = "") -> None:
        self._made("close", stream.close_row(c), who)
        try:
            self.model.close(c)
        except Refused as refusal:
            self._refused("close", refusal)
            return
        self.rows.append(stream.accepted_row())

    def line(self, c: int, text: bytes, size: int = 64, who: str = "") -> None:
        said = f"{who}: {readable(text)}" if who else readable(text)
        self._made("line", stream.line_row(c, text, size), said)
        life = self.model.life_at(c)
        before = life.state if life else None
        buffer = bytearray(b"\xaa" * size)
        answer: bytes | None = None
        try:
            written = self.model.line(c, text, buffer)
            answer = bytes(buffer[:written])
            assert len(buffer) == size and set(buffer[written:]) <= {0xAA}
            self.rows.append(stream.written_row(answer))
            if life and life.state is State.BEGUN:
                self.finished += 1
        except Refused as refusal:
            assert buffer == b"\xaa" * size
            self._refused("line", refusal)
        if life and before:
            if size >= 37:
                self.cells[read_line(text, life.uid), before] += 1
            self.heard[c].append((text, answer))
            assert has_begun_by_law(life.uid, self.heard[c]) == (life.state is State.BEGUN)

    def stream(self) -> str:
        return "\n".join(self.rows) + "\n"

    def summary(self) -> str:
        """What the runner shall print for this stream."""
        made, refused = self.counts.made, self.counts.refused
        buses, calls, n = self.counts.buses, self.counts.calls, self.finished
        rows = [f"recorded stream: {buses} bus{'es' if buses != 1 else ''}, {calls} call{'s' if calls != 1 else ''}"]
        rows += [f"  {name:<6}{made[name]:>6} made, {refused[name]} refused" for name in ("open", "line", "close")]
        rows += [f"{n} handshake{'s' if n != 1 else ''} finished", f"{calls} of {calls} answers agree"]
        return "\n".join(rows) + "\n"


# What programs say -----------------------------------------------------------


def auth(text: bytes) -> bytes:
    return b"AUTH EXTERNAL " + text


def auth_as(uid: int) -> bytes:
    return auth(passing_text(uid))


def hex_of(text: str) -> bytes:
    return text.encode("ascii").hex().encode("ascii")


def failing_texts(uid: int) -> list[bytes]:
    """Texts near the one that passes, each of which fails."""
    right = passing_text(uid)
    texts = [
        b"",
        b"30" + right,  # a leading zero
        right[:-2],  # a decimal digit too few
        right + b"30",  # a decimal digit too many
        right[:-1],  # a hex digit too few, an odd number
        right + b"3",  # a hex digit too many, an odd number
        right[1:] + right[:1],  # the hex digits turned by one
        b" " + right,
        right + b" ",
        right + b" " + right,
        str(uid).encode("ascii"),  # the decimal digits as they are
        b"0x" + right,
        b"3A" + right[2:],  # the byte after the digit 9, both ways
        b"3a" + right[2:],
        b"2F" + right[2:],  # the byte before the digit 0
        right[:-2] + b"b" + right[-1:],  # the digit with its top bit set
        b"2" + right[1:],
        passing_text((uid + 1) % 2**32),
        passing_text((uid - 1) % 2**32),
        passing_text(uid + 2**32),  # the same in 32 bits
        passing_text(uid + 2**64),  # the same in 64 bits
        hex_of(f"-{2**32 - uid}"),
        hex_of(f"+{uid}"),
        hex_of(f"{uid}\n"),
        hex_of(f"{uid}\0"),
        hex_of("root"),
    ]
    assert right not in texts
    return texts


OTHER_AUTHS = [
    b"AUTH",
    b"AUTH ",
    b"AUTH  ",
    b"AUTH EXTERNAL",
    b"AUTH  EXTERNAL 30",
    b"AUTH EXTERNALX 30",
    b"AUTH EXTERNA 30",
    b"AUTH external 30",
    b"AUTH External 30",
    b"AUTH KERBEROS x",
    b"AUTH KERBEROS_V4 31303030",
    b"AUTH ANONYMOUS",
    b"AUTH DBUS_COOKIE_SHA1 726f6f74",
    b"AUTH 30",
    b"AUTH " + b"x" * 251,  # 256 bytes
]

ERRORS = [
    b"ERROR",
    b"ERROR ",
    b"ERROR  ",
    b'ERROR "no such thing"',
    b"ERROR BEGIN",
    b"ERROR ~",
    b"ERROR " + b"e" * 250,  # 256 bytes
]

UNKNOWN = [
    b"",
    b" ",
    b"NEGOTIATE_UNIX_FD",
    b"DATA",
    b"DATA 30",
    b"begin",
    b"Begin",
    b"BEGIN ",
    b"BEGIN now",
    b" BEGIN",
    b"BEGI",
    b"BEGINX",
    b"BEGIN\x00",
    b"BEGIN\r",
    b"BEGIN\n",
    b"BEGIN\t",
    b"cancel",
    b"CANCEL ",
    b"CANCEL x",
    b"CANCELS",
    b" CANCEL",
    b"error",
    b"ERRORS",
    b" ERROR",
    b"ERROR \x1f",
    b"ERROR \x7f",
    b"ERROR \x80",
    b"ERROR \xff",
    b"ERROR\t",
    b"ERROR " + b"e" * 251,  # 257 bytes
    b"AUTHX",
    b"AUTH\t",
    b"auth EXTERNAL 30",
    b" AUTH EXTERNAL 30",
    b"AUTH\xff",
    b"AUTH EXTERNAL 30\x00",
    b"AUTH EXTERNAL \x80",
    b"AUTH " + b"x" * 252,  # 257 bytes
    b"OK",
    b"REJECTED EXTERNAL",
    b"x" * 256,
    b"x" * 257,
    b"x" * 600,
]


# The scenario: an ice-core laboratory starts its analysis line ----------------

# A step of a program: ("open", uid), ("line", text, size), ("close",) or
# ("say", text).
Step = tuple


@dataclass
class Program:
    name: str
    c: int
    steps: list[Step] = field(default_factory=list)

    def say(self, text: str) -> None:
        self.steps.append(("say", text))

    def open(self, uid: int) -> None:
        self.steps.append(("open", uid))

    def line(self, text: bytes, size: int = 64) -> None:
        self.steps.append(("line", text, size))

    def lines(self, texts: list[bytes], size: int = 64) -> None:
        for text in texts:
            self.line(text, size)

    def close(self) -> None:
        self.steps.append(("close",))

    def play(self, recorder: Recorder) -> None:
        """Take the next step, and the comments before it."""
        while self.steps:
            name, *words = self.steps.pop(0)
            if name == "say":
                recorder.say(f"{self.name}: {words[0]}")
                continue
            getattr(recorder, name)(self.c, *words, who=self.name)
            return


def laboratory() -> list[Program]:
    """The fourteen programs, each from its first AUTH to BEGIN."""
    depth = Program("depth encoder", 0)
    depth.say("the straight way, with the shortest buffer that will do")
    depth.open(0)
    depth.line(auth_as(0), 37)
    depth.line(b"BEGIN", 37)

    melt = Program("melt head", 1)
    melt.open(7)
    melt.say("says it is the user 8, then the user 0, then itself")
    melt.lines([auth_as(8), auth_as(0), auth_as(7)])
    melt.say("it may not show who it is a second time; the state stays")
    melt.lines([auth_as(7), auth_as(8), b"AUTH", b"BEGIN"])

    dust = Program("dust counter", 2)
    dust.say("the example at the end of docs/handshake.md")
    dust.open(1000)
    dust.lines([b"AUTH", auth_as(1001), auth_as(1000), b"NEGOTIATE_UNIX_FD", b"CANCEL", auth_as(1000), b"BEGIN"])

    cell = Program("conductivity cell", 3)
    cell.open(1001)
    cell.say("the text missing, empty, with a leading zero")
    cell.lines([b"AUTH EXTERNAL", auth(b""), auth(b"3031303031")])
    cell.say("a digit too few, a digit too many")
    cell.lines([auth(b"313030"), auth(b"3130303130")])
    cell.say("an odd number of hex digits")
    cell.lines([auth(b"3130303"), auth(b"313030313"), auth(b"3")])
    cell.say("no hex form at all, spaces, signs, more than 32 bits")
    cell.lines([auth(b"1001"), auth(b" 31303031"), auth(b"31303031 "), auth(b"0x31303031")])
    cell.lines([auth(hex_of("+1001")), auth(passing_text(1001 + 2**32)), auth(passing_text(1001 + 2**64))])
    cell.lines([auth_as(1001), b"BEGIN"])

    spectrometer = Program("spectrometer", 4)
    spectrometer.say("the greatest uid; not -1, not 2^32 - 1 + 2^32, no digit more or less")
    spectrometer.open(4294967295)
    spectrometer.lines([auth(hex_of("-1")), auth(passing_text(2**33 - 1)), auth_as(429496729)])
    spectrometer.lines([auth(passing_text(42949672950)), auth(passing_text(2**32)), auth_as(0), auth_as(4294967294)])
    spectrometer.lines([auth(b"34323934393637323935"), b"BEGIN"])

    fraction = Program("fraction collector", 5)
    fraction.open(10)
    fraction.say("CANCEL with nothing to cancel, ERROR with nothing to mind")
    fraction.lines([b"CANCEL", b"ERROR", b"ERROR ", b'ERROR "the rack is empty"'])
    fraction.say("shows who it is, takes it back with CANCEL, tries again")
    fraction.lines([auth_as(10), b"CANCEL", b"CANCEL", auth_as(10)])
    fraction.say("shows who it is, takes it back with ERROR, tries again")
    fraction.lines([b"ERROR", auth_as(10), b"ERROR the rack is full", auth_as(1), auth_as(10), b"BEGIN"])

    pump = Program("pump control", 6)
    pump.open(99)
    pump.say("BEGIN too early: refused, and the life is closed")
    pump.lines([b"BEGIN", auth_as(99), b"BEGIN"])
    pump.close()
    pump.say("connects again, and is too early again, after a rejected try")
    pump.open(99)
    pump.lines([auth_as(98), b"BEGIN", b"BEGIN"])
    pump.say("connects again, takes its word back, and is too early once more")
    pump.open(99)
    pump.lines([auth_as(99), b"CANCEL", b"BEGIN"])
    pump.say("connects again and does it well")
    pump.open(99)
    pump.lines([auth_as(99), b"BEGIN"])

    camera = Program("camera", 7)
    camera.say("words that are unknown, in both states")
    words = [b"NEGOTIATE_UNIX_FD", b"DATA", b"DATA 313030", b"begin", b"BEGIN ", b" BEGIN", b"AUTHX", b"", b" "]
    words += [b"CANCEL ", b"CANCEL x", b"cancel", b"ERRORS", b"error", b"BEGIN x", b"BEGINS", b"auth EXTERNAL 313030"]
    camera.open(100)
    camera.lines(words)
    camera.line(auth_as(100))
    camera.lines(words)
    camera.line(b"BEGIN")

    archive = Program("archive", 8)
    archive.open(65534)
    archive.say("lines of 255, 256 and 257 bytes: the last is unknown, whatever it says")
    for length in (255, 256, 257):
        archive.lines([(b"AUTH EXTERNAL " + b"36" * 130)[:length], b"AUTH " + b"x" * (length - 5)])
        archive.lines([b"ERROR " + b"x" * (length - 6), b"x" * length])
    archive.lines([b"ERROR " + b"x" * 594, b"AUTH EXTERNAL " + b"36" * 293])
    archive.line(auth_as(65534))
    archive.say("the same while it waits for BEGIN: ERROR with 257 bytes takes nothing back")
    archive.lines([b"ERROR " + b"x" * 251, b"ERROR" + b" " * 252, b"AUTH " + b"x" * 252, b"BEGIN" + b" " * 252])
    archive.lines([b"ERROR " + b"x" * 250, auth_as(65534), b"ERROR" + b" " * 251, auth_as(65534), b"BEGIN"])

    bench = Program("logging bench", 9)
    bench.open(2147483647)
    bench.say("bytes at the bounds: 32 and 126 may stand in a line; 31, 127, 128 and 255 may not")
    for byte in (31, 32, 126, 127, 128, 255):
        bench.lines([b"ERROR " + bytes([byte]), b"AUTH " + bytes([byte])])
    bench.lines([auth_as(2147483647) + bytes([byte]) for byte in (0, 31, 32, 126, 127, 128, 255)])
    bench.line(auth_as(2147483647))
    bench.say("such a byte in front of, in or behind BEGIN")
    bench.lines([b"BEGIN" + bytes([byte]) for byte in (0, 10, 13, 31, 127, 128, 255)])
    bench.lines([b"\x1fBEGIN", b"\x7fBEGIN", b"BE\xffGIN", b"CANCEL\x80", b"ERROR\xff", b"ERROR \x1f", b"BEGIN"])

    thermostat = Program("thermostat", 10)
    thermostat.open(2147483648)
    thermostat.say("buffers of 0, 36, 37, 38 and 64 bytes; every line needs 37")
    for size in (0, 36, 37, 38, 64):
        thermostat.line(b"AUTH", size)
        thermostat.line(b"", size)
    thermostat.say("a short buffer lets nothing happen: not OK, not the close by an early BEGIN")
    thermostat.lines([auth_as(2147483648), b"BEGIN"], 36)
    thermostat.lines([auth_as(2147483648), b"BEGIN"], 0)
    thermostat.line(b"CANCEL", 38)
    thermostat.line(auth_as(2147483648), 37)
    thermostat.say("BEGIN with 36 is refused by 3 and the life stays; so with CANCEL and ERROR")
    thermostat.lines([b"BEGIN", b"CANCEL", b"ERROR"], 36)
    thermostat.lines([b"BEGIN", b"CANCEL", b"ERROR"], 0)
    thermostat.line(b"BEGIN", 37)

    valve = Program("valve block", 11)
    valve.open(4294967294)
    valve.lines([auth_as(4294967294), b"BEGIN"], 65535)
    valve.say("lines after BEGIN are refused by 4, with a short buffer by 3 first")
    valve.lines([auth_as(4294967294), auth_as(0), b"AUTH", b"ERROR", b"BEGIN", b"CANCEL", b"", b"DATA", b"x" * 257])
    valve.lines([b"BEGIN", b"CANCEL"], 36)
    valve.line(b"ERROR", 0)
    valve.lines([b"BEGIN", b"ERROR"], 37)

    sampler = Program("autosampler", 12)
    sampler.say("opens twice: the second is refused, and the first user stays")
    sampler.open(1)
    sampler.open(2)
    sampler.lines([auth_as(2), auth_as(1)])
    sampler.say("closes while it waits for BEGIN, and opens for another user")
    sampler.close()
    sampler.open(2)
    sampler.say("the new life waits for AUTH and knows nothing of the old")
    sampler.lines([b"CANCEL", auth_as(1), auth_as(2), b"BEGIN"])
    sampler.say("the same from a life that has begun")
    sampler.open(3)
    sampler.close()
    sampler.close()
    sampler.open(3)
    sampler.lines([b"CANCEL", auth_as(2), auth_as(3)])
    sampler.open(3)
    sampler.line(b"BEGIN")

    desk = Program("operator desk", 13)
    desk.open(1000000000)
    desk.say("other mechanisms, and the right one in other letters")
    desk.lines([b"AUTH KERBEROS x", b"AUTH ANONYMOUS", b"AUTH DBUS_COOKIE_SHA1 31303030303030303030"])
    text = passing_text(1000000000)
    desk.lines([b"AUTH external " + text, b"AUTH External " + text, b"auth EXTERNAL " + text, b"Auth EXTERNAL " + text])
    desk.lines([b"AUTH  EXTERNAL " + text, b"AUTH EXTERNALS " + text, b" AUTH EXTERNAL " + text, b"AUTH "])
    desk.say("hex letters in both cases: the byte after the digit 9 is no digit")
    desk.lines([auth(b"3A" + text[2:]), auth(b"3a" + text[2:]), auth(b"B1" + text[2:]), auth(b"b1" + text[2:])])
    desk.lines([auth(text), b"BEGIN"])

    return [depth, melt, dust, cell, spectrometer, fraction, pump, camera, archive, bench, thermostat, valve, sampler, desk]


def play_laboratory(recorder: Recorder) -> None:
    programs = laboratory()
    recorder.say("An ice-core laboratory starts its analysis line: fourteen programs,")
    recorder.say("each from its first AUTH to BEGIN.")
    for program in programs:
        recorder.say(f"  {program.c:>2}  {program.name}")
    recorder.say()
    recorder.bus(16, bytes.fromhex("00112233445566778899aabbccddeeff"))
    recorder.say()
    recorder.say("Before anyone comes: no life to speak to or to close.")
    for c in (0, 15):
        recorder.line(c, b"AUTH EXTERNAL 30")
        recorder.line(c, b"BEGIN", 0)
        recorder.close(c)
    recorder.say("Numbers above 15 are refused, always by 1.")
    for c in (16, 17, 255):
        recorder.open(c, 0)
        recorder.line(c, b"AUTH EXTERNAL 30")
        recorder.line(c, b"BEGIN", 36)
        recorder.close(c)
    recorder.say()
    recorder.say("The programs come, all at once.")
    dice = Dice(14)
    waiting = list(programs)
    while waiting:
        program = dice.pick(waiting)
        program.play(recorder)
        if not program.steps:
            waiting.remove(program)
    recorder.say()
    recorder.say("All fourteen have begun: their next words are messages, no lines.")
    for program in programs:
        recorder.line(program.c, b"BEGIN", who=program.name)
    recorder.say("The sockets 14 and 15 were never used.")
    for c in (14, 15):
        recorder.line(c, b"BEGIN")
        recorder.close(c)
    recorder.say(f"{recorder.finished} handshakes were finished.")
    recorder.say()
    recorder.say("The day ends: each program closes. A second close finds no life.")
    for program in programs:
        recorder.close(program.c, program.name)
        if program.c % 5 == 0:
            recorder.close(program.c, program.name)


# The random part -------------------------------------------------------------

UIDS = [0, 1, 7, 9, 10, 99, 100, 1000, 1001, 65535, 65536, 2147483647, 2147483648, 4294967294, 4294967295]

# What is done where a life stands in this state (None: no life).
WEIGHTS: dict[State | None, dict[str, int]] = {
    None: {"open": 16, "line": 2, "close": 1},
    State.WAITING_FOR_AUTH: {"line": 36, "short": 2, "open": 1, "close": 1},
    State.WAITING_FOR_BEGIN: {"line": 36, "short": 2, "open": 1, "close": 1},
    State.BEGUN: {"line": 16, "short": 2, "open": 2, "close": 8},
}

# Which line is said in this state.
LINES: dict[State | None, dict[Line, int]] = {
    None: dict.fromkeys(Line, 1),
    State.WAITING_FOR_AUTH: {
        Line.TEXT_PASSES: 24,
        Line.TEXT_FAILS: 6,
        Line.OTHER_AUTH: 3,
        Line.ERROR: 2,
        Line.BEGIN: 2,
        Line.CANCEL: 2,
        Line.UNKNOWN: 4,
    },
    State.WAITING_FOR_BEGIN: {
        Line.TEXT_PASSES: 3,
        Line.TEXT_FAILS: 3,
        Line.OTHER_AUTH: 3,
        Line.ERROR: 3,
        Line.BEGIN: 12,
        Line.CANCEL: 3,
        Line.UNKNOWN: 4,
    },
    State.BEGUN: dict.fromkeys(Line, 1),
}


def random_line(dice: Dice, life: Life | None) -> bytes:
    uid = life.uid if life else dice.pick(UIDS)
    texts: dict[Line, list[bytes]] = {
        Line.TEXT_PASSES: [auth_as(uid)],
        Line.TEXT_FAILS: [auth(text) for text in failing_texts(uid)],
        Line.OTHER_AUTH: OTHER_AUTHS,
        Line.ERROR: ERRORS,
        Line.BEGIN: [b"BEGIN"],
        Line.CANCEL: [b"CANCEL"],
        Line.UNKNOWN: UNKNOWN,
    }
    row = dice.weigh(LINES[life.state if life else None])
    text = dice.pick(texts[row])
    assert read_line(text, uid) is row
    return text


def play_random(recorder: Recorder) -> None:
    dice = Dice(23)
    for limit in (0, 1, 7, 15, 16, 3, 8):
        server_id = bytes(dice.below(256) for _ in range(16))
        if limit == 1:
            server_id = bytes(16)
        elif limit == 16:
            server_id = b"\xff" * 16
        finished = recorder.finished
        # Half of the calls go to three connections, so that lives grow old.
        busy = [dice.below(16) for _ in range(3)]
        recorder.say()
        recorder.say("A new bus; nobody is connected. Calls by chance, over all connections.")
        recorder.bus(limit, server_id)
        for _ in range(100):
            c = dice.pick(busy) if dice.below(2) else dice.below(16)
            if dice.below(40) == 0:
                c = dice.pick([16, 17, 31, 32, 128, 254, 255])
            life = recorder.model.life_at(c)
            what = dice.weigh(WEIGHTS[life.state if life else None])
            if what == "open":
                recorder.open(c, dice.pick(UIDS))
            elif what == "close":
                recorder.close(c)
            elif what == "short":
                recorder.line(c, random_line(dice, life), dice.pick([0, 1, 7, 19, 35, 36]))
            else:
                recorder.line(c, random_line(dice, life), dice.pick([37, 38, 64, 255, 256, 65535]))
        recorder.say(f"{recorder.finished - finished} handshakes were finished on this bus.")


# The whole -------------------------------------------------------------------


def record() -> Recorder:
    recorder = Recorder()
    recorder.say("A recorded stream for the runner (docs/runner.md), about docs/handshake.md.")
    recorder.say("Made by reference/record_handshakes.py; the answers are the model's.")
    recorder.say()
    play_laboratory(recorder)
    play_random(recorder)
    read = stream.check(recorder.stream().encode("ascii"))
    assert read == recorder.counts, "the reader counts what the recorder made"
    assert all(recorder.cells[row, state] >= 10 for row in Line for state in State), "every cell is met often"
    assert all(count >= 10 for count in recorder.refusals.values()), "every refusal is met often"
    return recorder


def print_cells(recorder: Recorder) -> None:
    print(f"{'the line':<32}" + "".join(f"{state.value:>19}" for state in State))
    for row in Line:
        print(f"{row.value:<32}" + "".join(f"{recorder.cells[row, state]:>19}" for state in State))
    print()
    for (name, number), count in sorted(recorder.refusals.items()):
        print(f"{name:<6} refused by {number}: {count:>4}")


def main(arguments: list[str]) -> int:
    recorder = record()
    if arguments[:1] == ["--check"] and len(arguments) == 3:
        return check_files({arguments[1]: recorder.stream(), arguments[2]: recorder.summary()})
    if arguments == ["--cells"]:
        print_cells(recorder)
        return 0
    if len(arguments) > 2 or any(argument.startswith("-") for argument in arguments):
        print(__doc__, file=sys.stderr)
        return 2
    if arguments:
        with open(arguments[0], "wb") as file:
            file.write(recorder.stream().encode("ascii"))
    else:
        sys.stdout.write(recorder.stream())
    if len(arguments) == 2:
        with open(arguments[1], "wb") as file:
            file.write(recorder.summary().encode("ascii"))
    sys.stderr.write(recorder.summary())
    return 0


if __name__ == "__main__":
    sys.exit(main(sys.argv[1:]))
