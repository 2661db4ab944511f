"""Compares the model's handshake with the real dbus-daemon, line by line.

The model is written from docs/ alone. It shares nothing with the crates.

    python3 reference/compare_dbus_daemon.py

needs the program dbus-daemon (Debian: the package dbus-daemon) and installs
nothing. It starts a daemon of its own, with its configuration and its socket
in a temporary folder and the mechanism EXTERNAL alone, and ends it again. It
talks over that unix socket only.

Every conversation is a new connection: the byte NUL, then the lines, each with
CR LF. The model hears the same lines. The user is the one who runs the script;
root connects as a few other users too.

How answers are compared: OK by its shape (32 lower-case hex digits, as the id
is the daemon's own), REJECTED by all its words, ERROR by its first word, since
the daemon adds an explanation, which the protocol leaves free. BEGIN is
answered by nothing; that it was heard shows a Hello message, sent right after.

Where the two differ, the script must know why: `foretell` says beforehand what
the daemon answers instead, and by which class of difference. An answer that is
neither the model's nor foretold fails the script, with exit status 1. So does
a foretold difference that does not come. After a difference that leaves the two
in different states the rest of the conversation is not compared.

Not compared, because a socket shows nothing of it: the table of sixteen,
buffers that are too short, and lines after BEGIN (for the daemon they are
messages).
"""

from __future__ import annotations

import os
import pwd
import re
import shutil
import socket
import struct
import subprocess
import sys
import tempfile
import time
from collections import Counter
from typing import Iterator

from handshake import Bus, Refused, State, passing_text
from record_handshakes import ERRORS, OTHER_AUTHS, UNKNOWN, auth, auth_as, failing_texts, hex_of, readable

TIMEOUT = 1.0  # seconds, for each step on the socket
OTHER_UIDS = [7, 1000, 65534, 4294967294]  # root connects as these too

CONFIGURATION = """\
<!DOCTYPE busconfig PUBLIC "-//freedesktop//DTD D-Bus Bus Configuration 1.0//EN"
 "http://www.freedesktop.org/standards/dbus/1.0/busconfig.dtd">
<busconfig>
  <type>session</type>
  <listen>unix:path={socket}</listen>
  <auth>EXTERNAL</auth>
  <policy context="default">
    <allow user="*"/>
    <allow send_destination="*" eavesdrop="true"/>
    <allow eavesdrop="true"/>
    <allow own="*"/>
  </policy>
</busconfig>
"""

# Answers, as they are compared and shown.
OK = "OK <server id>"
REJECTED = "REJECTED EXTERNAL"
ERROR = "ERROR"
BEGUN = "(nothing, begun)"
CLOSED = "(closed)"
SILENT = "(nothing)"


# Known differences -----------------------------------------------------------

CLASSES: dict[str, str] = {
    "no text": (
        "House rule (H) of docs/handshake.md: AUTH EXTERNAL without a text is another AUTH, and REJECTED. "
        "The daemon asks for the text with DATA; the model has no DATA."
    ),
    "empty text": (
        "docs/handshake.md, 'The text that passes': the empty text fails. "
        "The daemon takes an empty text for a missing one and asks for it with DATA."
    ),
    "no hex form": (
        "docs/handshake.md: every AUTH EXTERNAL whose text fails is REJECTED. "
        "The daemon answers ERROR where the text is no hex form; both go on waiting for AUTH."
    ),
    "another writing of the number": (
        "docs/handshake.md, 'The text that passes': one text passes for each uid, and no other. "
        "The daemon reads the number as C does: leading zeros (then octal), 0x, a sign, spaces in front, "
        "and it fills up an odd number of hex digits with 0."
    ),
    "more than one space": (
        "docs/handshake.md, 'How a line is read': one space parts the words, a second one belongs to the text. "
        "The daemon passes over any number of them."
    ),
    "text after BEGIN or CANCEL": (
        "docs/handshake.md, 'How a line is read': BEGIN and CANCEL have no text, not even an empty one; "
        "with a text they are unknown. The daemon passes over the text."
    ),
    "byte outside 32 to 126": (
        "docs/handshake.md, 'How a line is read': such a line is unknown. "
        "The daemon takes the bytes 1 to 127, and a tab for a space."
    ),
    "more than 256 bytes": (
        "docs/handshake.md, 'How a line is read': such a line is unknown. The daemon reads lines up to 16 KiB."
    ),
    "passing of file descriptors": (
        "docs/handshake.md: NEGOTIATE_UNIX_FD is unknown, and answered ERROR, as the protocol has it for a server "
        "that passes no file descriptors. The daemon passes them and answers AGREE_UNIX_FD."
    ),
    "six rejections": (
        "docs/handshake.md sets no limit to the tries. The daemon closes a connection after its sixth REJECTED."
    ),
    "user without a name": (
        "A limit of the comparison: after BEGIN, when the handshake is over, the daemon looks the user up in the "
        "system's list and closes the connection of one who is not in it. The handshake itself is the same."
    ),
}


def c_number(text: bytes) -> int | None:
    """The number that C's strtoul with base 0 reads from the whole text."""
    found = re.fullmatch(rb"[ \t\n\v\f\r]*([+-]?)(0[xX][0-9a-fA-F]+|0[0-7]*|[1-9][0-9]*)", text)
    if found is None:
        return None
    digits = found[2]
    base = 16 if digits[:2] in (b"0x", b"0X") else 8 if digits[:1] == b"0" else 10
    number = int(digits, base)
    if number >= 2**64:
        return None
    return -number % 2**64 if found[1] == b"-" else number


def has_name(uid: int) -> bool:
    try:
        pwd.getpwuid(uid)
    except KeyError:
        return False
    return True


def foretell(line: bytes, state: State, uid: int, rejections: int) -> tuple[str, str] | None:
    """The daemon's answer and its class, where the daemon reads a line loosely.

    The line is mended step by step into one that the model reads as the daemon
    reads the given one; the first step that changes it gives the class. The
    answer may still be the model's.
    """
    if rejections >= 6:
        return CLOSED, "six rejections"
    if line == b"BEGIN" and state is State.WAITING_FOR_BEGIN and not has_name(uid):
        return CLOSED, "user without a name"
    if line == b"NEGOTIATE_UNIX_FD" and state is State.WAITING_FOR_BEGIN:
        return "AGREE_UNIX_FD", "passing of file descriptors"
    if any(byte == 0 or byte > 127 for byte in line):
        return None

    steps: list[str] = []

    def mend(line: bytes, mended: bytes, name: str) -> bytes:
        if line != mended:
            steps.append(name)
        return mended

    if len(line) > 256:
        steps.append("more than 256 bytes")
    line = mend(line, line.replace(b"\t", b" "), "byte outside 32 to 126")
    line = mend(line, re.sub(rb"[\x01-\x1f\x7f]", b"?", line), "byte outside 32 to 126")
    line = mend(line, re.sub(rb"^(BEGIN|CANCEL) .*", rb"\1", line), "text after BEGIN or CANCEL")
    line = mend(line, re.sub(rb"^AUTH +", b"AUTH ", line), "more than one space")
    line = mend(line, re.sub(rb"^AUTH EXTERNAL +", b"AUTH EXTERNAL ", line), "more than one space")

    if state is State.WAITING_FOR_AUTH and re.match(rb"AUTH EXTERNAL( |$)", line):
        text = line[len(b"AUTH EXTERNAL ") :]
        if not text:
            steps.append("empty text" if line.endswith(b" ") else "no text")
            return "DATA", steps[0]
        if re.search(rb"[^0-9a-fA-F]", text):
            steps.append("no hex form")
            return ERROR, steps[0]
        if c_number(bytes.fromhex((text + b"0" * (len(text) % 2)).decode("ascii"))) == uid:
            line = mend(line, auth_as(uid), "another writing of the number")

    answer, _ = ask_model(line[:256], state, uid)
    return (answer, steps[0]) if steps else None


# The model's side ------------------------------------------------------------


def ask_model(line: bytes, state: State, uid: int) -> tuple[str, State | None]:
    """The answer to one line in a state, and the state after (None: closed)."""
    bus = Bus(16, bytes(16))
    bus.open(0, uid)
    life = bus.life_at(0)
    assert life is not None
    life.state = state
    buffer = bytearray(64)
    try:
        count = bus.line(0, line, buffer)
    except Refused as refusal:
        assert refusal.number == 5
        return CLOSED, None
    written = bytes(buffer[:count])
    return (shown(written) if written else BEGUN), life.state


def shown(answer: bytes) -> str:
    """An answer as it is compared."""
    text = answer.removesuffix(b"\r\n").decode("latin-1")
    if re.fullmatch(r"OK [0-9a-f]{32}", text):
        return OK
    return ERROR if text.split(" ")[0] == "ERROR" else text


# The daemon's side -----------------------------------------------------------


def hello() -> bytes:
    """The message that every program sends first after BEGIN."""

    def header_field(code: int, kind: bytes, value: bytes) -> bytes:
        data = bytes([code, 1]) + kind + b"\0" + struct.pack("<I", len(value)) + value + b"\0"
        return data + bytes(-len(data) % 8)

    fields = header_field(1, b"o", b"/org/freedesktop/DBus")
    fields += header_field(2, b"s", b"org.freedesktop.DBus")
    fields += header_field(6, b"s", b"org.freedesktop.DBus")
    last = bytes([3, 1]) + b"s\0" + struct.pack("<I", 5) + b"Hello\0"
    head = b"l\x01\x00\x01" + struct.pack("<III", 0, 1, len(fields + last))
    message = head + fields + last
    return message + bytes(-len(message) % 8)


class Connection:
    """One connection to the daemon, as the given user."""

    def __init__(self, path: str, uid: int) -> None:
        self.socket = socket.socket(socket.AF_UNIX, socket.SOCK_STREAM)
        self.socket.settimeout(TIMEOUT)
        own = os.geteuid()
        if uid != own:
            os.seteuid(uid)  # the daemon sees who connects
        try:
            self.socket.connect(path)
        finally:
            if uid != own:
                os.seteuid(own)
        self.socket.sendall(b"\0")

    def say(self, line: bytes, begins: bool) -> str:
        """Send a line, and Hello with it if it should begin; the answer."""
        try:
            self.socket.sendall(line + b"\r\n" + (hello() if begins else b""))
            answer = self._receive()
            if answer == SILENT:  # has it begun, or is it only silent?
                self.socket.sendall(hello())
                answer = self._receive()
            return answer
        except (BrokenPipeError, ConnectionResetError):
            return CLOSED

    def _receive(self) -> str:
        data = b""
        while not data.endswith(b"\r\n"):
            try:
                part = self.socket.recv(4096)
            except TimeoutError:
                return SILENT if not data else f"(cut short) {shown(data)}"
            if not part:
                return CLOSED
            data += part
            if data[:1] == b"l" and len(data) >= 2:  # a message; no answer begins so
                return BEGUN if data[1] == 2 else f"(a message of type {data[1]})"
        return shown(data)

    def close(self) -> None:
        self.socket.close()


def state_after(answer: str, before: State) -> State | None:
    """The daemon's state, as its answer shows it; None: another than ours."""
    if answer == OK:
        return State.WAITING_FOR_BEGIN
    if answer == REJECTED:
        return State.WAITING_FOR_AUTH
    if answer == BEGUN:
        return State.BEGUN
    return before if answer in (ERROR, "AGREE_UNIX_FD") else None


class Daemon:
    """A dbus-daemon of our own in a temporary folder."""

    def __enter__(self) -> Daemon:
        self.folder = tempfile.mkdtemp(prefix="handshake-")
        os.chmod(self.folder, 0o711)
        self.path = os.path.join(self.folder, "socket")
        configuration = os.path.join(self.folder, "bus.conf")
        with open(configuration, "w", encoding="ascii") as file:
            file.write(CONFIGURATION.format(socket=self.path))
        self.process = subprocess.Popen(
            ["dbus-daemon", "--nofork", "--nopidfile", "--nosyslog", f"--config-file={configuration}"],
            stdin=subprocess.DEVNULL,
            stdout=subprocess.DEVNULL,
            stderr=subprocess.DEVNULL,
        )
        for _ in range(100):
            if os.path.exists(self.path):
                return self
            time.sleep(0.05)
        self.__exit__()
        raise RuntimeError("dbus-daemon did not start within 5 seconds")

    def __exit__(self, *_: object) -> None:
        self.process.kill()
        self.process.wait(timeout=5)
        shutil.rmtree(self.folder, ignore_errors=True)


# Conversations ---------------------------------------------------------------


def conversations(uid: int, every: bool) -> Iterator[tuple[str, list[bytes]]]:
    """Names and lines. Those about the text alone, or every one."""
    right = auth_as(uid)
    yield "straight", [right, b"BEGIN"]
    other = auth_as((uid + 1) % 2**32)
    yield "example of the page", [b"AUTH", other, right, b"NEGOTIATE_UNIX_FD", b"CANCEL", right, b"BEGIN"]
    yield "too early", [b"BEGIN"]
    yield "too early, second try", [other, b"BEGIN"]
    yield "too early, taken back", [right, b"CANCEL", b"BEGIN"]

    texts = failing_texts(uid) + [hex_of(f"0{uid:o}"), hex_of(f"0x{uid:x}"), hex_of(f"0X{uid:X}")]
    texts += [hex_of(f"-{-uid % 2**64}"), hex_of(f"\n{uid}"), hex_of(f" +{uid}"), b"zz", passing_text(uid) + b"\t"]
    for text in dict.fromkeys(texts):
        yield "text", [auth(text), right] + [b"BEGIN"] * every
    if not every:
        return

    yield "back and forth", [right, b"CANCEL", right, b"ERROR", right, b"ERROR x", right, b"BEGIN"]
    yield "nothing to cancel", [b"CANCEL", b"CANCEL", b"ERROR", b"CANCEL", right, b"CANCEL", b"CANCEL"]
    yield "shown twice", [right, right, other, b"AUTH", b"AUTH EXTERNAL", b"AUTH ANONYMOUS", b"BEGIN"]
    yield "five rejections", [b"AUTH"] * 5 + [right, b"BEGIN"]
    yield "seven rejections", [b"AUTH"] * 7
    lines = OTHER_AUTHS + ERRORS + UNKNOWN + [b"CANCEL"]
    lines += [b"AUTH EXTERNAL  " + passing_text(uid), b"AUTH\tEXTERNAL\t" + passing_text(uid), b"AUTH EXTERNAL  "]
    lines += [b"AUTH  EXTERNAL " + passing_text(uid), b"AUTH external " + passing_text(uid)]
    for byte in (1, 9, 31, 32, 126, 127, 128, 255):
        lines += [b"ERROR " + bytes([byte]), right + bytes([byte]), b"BEGIN" + bytes([byte])]
    lines += [b"ERROR" + b" " * 251, b"ERROR" + b" " * 252, b"BEGIN" + b" " * 251, b"BEGIN" + b" " * 252]
    for line in dict.fromkeys(lines):
        yield "first", [line, right, b"BEGIN"]
    for line in dict.fromkeys([auth(text) for text in failing_texts(uid)] + lines):
        yield "second", [right, line, b"BEGIN"]


def main() -> int:
    if shutil.which("dbus-daemon") is None:
        print("dbus-daemon is not installed (Debian: the package dbus-daemon)", file=sys.stderr)
        return 2
    version = subprocess.run(["dbus-daemon", "--version"], capture_output=True, text=True, check=True)
    own = os.getuid()
    uids = [own] + [uid for uid in OTHER_UIDS if own == 0]
    print(version.stdout.splitlines()[0])
    print(f"users: {', '.join(map(str, uids))}")
    print()
    print(f"{'user':<10} {'conversation':<21} {'line':<64} {'the model':<17} {'dbus-daemon':<17} same or differs")

    talks = compared = agreeing = skipped = unknown = 0
    classes: Counter[str] = Counter()
    with Daemon() as daemon:
        for uid in uids:
            for name, lines in conversations(uid, every=uid == own):
                talks += 1
                connection = Connection(daemon.path, uid)
                state: State | None = State.WAITING_FOR_AUTH
                rejections = 0
                for place, line in enumerate(lines):
                    before = state
                    assert before is not None and before is not State.BEGUN
                    mine, state = ask_model(line, before, uid)
                    real = connection.say(line, begins=mine == BEGUN)
                    compared += 1
                    expected, why = foretell(line, before, uid, rejections) or (mine, "")
                    if real != expected:
                        verdict = f"NOT FORETOLD: {expected} was expected"
                        unknown += 1
                    elif real == mine:
                        verdict = "same"
                        agreeing += 1
                    else:
                        verdict = f"differs: {why}"
                        classes[why] += 1
                    print(f"{uid:<10} {name:<21} {readable(line):<64} {mine:<17} {real:<17} {verdict}")
                    rejections += real == REJECTED
                    if state is None or state_after(real, before) is not state:
                        skipped += len(lines) - place - 1
                        break
                connection.close()

    print()
    print("Classes of difference:")
    for name, reason in CLASSES.items():
        print(f"\n{name}: {classes[name]}\n    {reason}")
    print()
    print(f"{talks} conversations, {compared} lines compared, {agreeing} agree")
    print(f"{sum(classes.values())} differ by a known class, {unknown} by none")
    print(f"{skipped} lines were not compared, as the two stood in different states by then")
    return 1 if unknown else 0


if __name__ == "__main__":
    sys.exit(main())
