#!/usr/bin/env python3
"""Lists the places of crates/*/src that the eight points of docs/DESIGN-PASS.md are about, and counts them.

Usage: tools/places.py [--count] [FOLDER]    FOLDER is a checkout, this one if none is named; --count prints numbers only

It finds candidates, by the text of the code alone, tests left out; which of them are as they should be is for a reader to say.
"""
import collections
import pathlib
import re
import sys

FUNCTION = re.compile(r"^\s*(?:pub(?:\([a-z]+\))? )?(?:const )?fn (\w+)")
CLAUSE = re.compile(r"^\s*(?:requires|ensures)(?: \w+)? \{ (.*) \};?$")
WORD = re.compile(r"[A-Za-z_]\w*|\d+|\"[^\"]*\"|b'[^']*'|'[^']*'|\S")


def sources(top: pathlib.Path):
    """(name, lines without tests) of each source file."""
    for path in sorted(top.glob("crates/*/src/**/*.rt")):
        if path.name == "tests.rt" or path.parts[-3] == "examples":
            continue
        text = path.read_text().split("#[cfg(test)]")[0]
        yield str(path.relative_to(top / "crates")), text.split("\n")


def matching(files, pattern: str):
    found = re.compile(pattern)
    for name, lines in files:
        for number, line in enumerate(lines, 1):
            code = line.split("//")[0]
            if found.search(code):
                yield f"{name}:{number}: {line.strip()}"


def heads(files):
    """(where, name, the whole head, the body) of each function."""
    for name, lines in files:
        for number, line in enumerate(lines):
            start = FUNCTION.match(line)
            if not start:
                continue
            indent = line[: len(line) - len(line.lstrip())]
            end = number
            opened = lines[end].endswith("{")
            while not (lines[end] == indent + "}" or lines[end].endswith(";") and not opened):
                end += 1
                opened = opened or lines[end].endswith("{")
            whole = lines[number : end + 1]
            cut = next((k for k, x in enumerate(whole) if x == indent + "{" or x.endswith("{")), len(whole) - 1)
            yield f"{name}:{number + 1}", start.group(1), whole[: cut + 1], whole[cut + 1 :]


def twin_functions(files):
    """Functions of three lines or more whose bodies differ in names and constants alone."""
    shapes = collections.defaultdict(list)
    for where, name, _, body in heads(files):
        text = [x.split("//")[0].strip() for x in body if x.strip()]
        if len(text) < 3:
            continue
        shape = tuple("x" if re.match(r"[A-Za-z_\d\"']|b'", w) else w for w in WORD.findall(" ".join(text)))
        shapes[shape].append(f"{where} {name}")
    for group in shapes.values():
        if len(group) > 1:
            yield " = ".join(group)


def twin_constants(files):
    values = collections.defaultdict(list)
    for line in matching(files, r"^\s*(pub(\(\w+\))? )?const [A-Z_]+: "):
        values[line.rstrip(";").split(" = ")[1] if " = " in line else line].append(line)
    for group in values.values():
        if len(group) > 1:
            yield " = ".join(x.split(": ")[0] for x in group)


def repeated_clauses(files):
    """Clauses that stand in three functions or more of one crate."""
    said = collections.defaultdict(set)
    for name, lines in files:
        for number, line in enumerate(lines, 1):
            clause = CLAUSE.match(line)
            if clause:
                said[name.split("/")[0], clause.group(1)].add(f"{name}:{number}")
    for (crate, clause), places in said.items():
        if len(places) > 2:
            yield f"{crate}: {len(places)} times: {clause}"


def travelling(files):
    """Pairs of parameters that three functions or more of one crate take."""
    pairs = collections.defaultdict(set)
    for where, name, head, _ in heads(files):
        text = " ".join(x.strip() for x in head)
        inner = re.search(r"fn \w+(?:<[^(]*>)?\((.*?)\)(?: ->|\s|$)", text)
        if not inner:
            continue
        names = re.findall(r"(\w+): (&?(?:mut )?[\w<>\[\]&' ]+)", inner.group(1))
        for i, a in enumerate(names):
            for b in names[i + 1 :]:
                pairs[where.split("/")[0], a, b].add(name)
    for (crate, a, b), users in sorted(pairs.items()):
        if len(users) > 2:
            yield f"{crate}: {a[0]}: {a[1].strip()}, {b[0]}: {b[1].strip()} in {', '.join(sorted(users))}"


POINTS = [
    ("1", "own enums", lambda f: matching(f, r"\benum \w")),
    ("1", "an Option or Result taken apart into its own like, or into true and false", lambda f: matching(f, r"^\s*(None|Err\(_\)) => ")),
    ("1", "functions that answer a bare number", lambda f: matching(f, r"\bfn \w+.*-> (u8|u16|usize)\b")),
    ("1", "numbers in the fields of enums and structs that are kinds or refusals", lambda f: matching(f, r"\b(Refused|Malformed)\b.*u8")),
    ("1", "flags in structs", lambda f: matching(f, r"^\s+(pub(\(\w+\))? )?\w+: bool,")),
    ("2", "functions alike but for names and constants", twin_functions),
    ("2", "constants of one value", twin_constants),
    ("2", "casts between numbers", lambda f: matching(f, r" as u(8|16|32|64)\b")),
    ("3", "loops over a range or with an index", lambda f: matching(f, r"\bfor .* in .*(\.\.|enumerate\(\))")),
    ("3", "while and loop", lambda f: matching(f, r"^\s*(while|loop)\b")),
    ("3", "counts by hand", lambda f: matching(f, r"(\+= 1;|-= 1;|saturating_add\(1\))")),
    ("4", "a byte, text or bytes turned into an enum", lambda f: matching(f, r"\bfn \w+\(\w+: (u8|&str|&\[u8\])\) -> Option<[A-Z]")),
    ("4", "an enum turned into a number", lambda f: matching(f, r"\bfn (number|code|index|bytes)\(self\) -> (u8|usize)")),
    ("4", "an enum turned into a text", lambda f: matching(f, r"\bfn \w+\(.*\) -> (&'static str|Result<String, AllocError>)")),
    ("4", "two values of a type compared by a function", lambda f: matching(f, r"\bfn \w+\(\w+: (&?\w+), \w+: \1\) -> bool")),
    ("4", "values of zeros written out", lambda f: matching(f, r"^\s+\w+: 0,$")),
    ("5", "clauses that stand three times or more", repeated_clauses),
    ("5", "parameters that travel together", travelling),
    ("6", "arrays and buffers in structs", lambda f: matching(f, r"^\s+(pub(\(\w+\))? )?\w+: (\[.*; .*\]|Vec<.*>|&'a \[u8\]),")),
    ("6", "lengths and indices in structs", lambda f: matching(f, r"^\s+(pub(\(\w+\))? )?\w+: (usize|u16),")),
    ("7", "a match whose arms call a function each", lambda f: matching(f, r"^\s*\w+::\w+(\(.*\)| \{.*\})? => (\w+|self\.\w+|\w+\.\w+)(::<\w>)?\(.*\),$")),
    ("7", "functions as values", lambda f: matching(f, r"(\bfn\(|\bdyn |impl Fn|: Fn)")),
]


def proofs(top: pathlib.Path):
    lines = answers = 0
    for path in top.glob("crates/*/proofs/**/*.antt"):
        text = path.read_text()
        lines += len(text.splitlines())
        if path.name == "Answers.antt":
            answers += len(re.findall(r"^pub \S+ : goal\.", text, re.M))
    return lines, answers


def main() -> int:
    words = [x for x in sys.argv[1:] if x != "--count"]
    if any(x.startswith("-") for x in words) or len(words) > 1:
        print(__doc__)
        return 0 if "--help" in words else 2
    top = pathlib.Path(words[0] if words else pathlib.Path(__file__).resolve().parent.parent)
    files = list(sources(top))
    for point, what, find in POINTS:
        places = list(find(files))
        print(f"{point}  {what}: {len(places)}")
        if "--count" not in sys.argv:
            for place in places:
                print(f"     {place}")
    lines, answers = proofs(top)
    print(f"8  lines of proofs: {lines}, answers: {answers}")
    return 0


if __name__ == "__main__":
    sys.exit(main())
