#!/usr/bin/env python3
"""Our own rules for the crates, which the prover does not know.

- A public function has no `requires`, and says by an `ensures` what it answers.
- A function has fewer than 40 lines.
- Every crate with public functions has a must-fail edit for each of them that names it in its first line.
- What a must-fail edit replaces stands exactly once in its file, so that a change of layout is told at once.
"""
import pathlib
import re
import sys

LONGEST = 40
HEAD = re.compile(r"^(\s*)((?:pub(?:\([a-z]+\))? )?)(?:const )?fn (\w+)")


def functions(text: str):
    """(name, is it public, first line, the lines from the head to the closing brace) of each function with a body."""
    lines = text.split("\n")
    for number, line in enumerate(lines):
        head = HEAD.match(line)
        if not head:
            continue
        indent = head.group(1)
        body = []
        opened = False
        for later in lines[number:]:
            body.append(later)
            opened = opened or later.endswith("{")
            if later == indent + "}" or later.endswith(";") and not opened:
                break
        yield head.group(3), head.group(2) == "pub ", number + 1, body


def contract(body: list) -> str:
    """The lines between a function's head and its body."""
    clauses = []
    for line in body:
        if line.strip() == "{":
            break
        clauses.append(line)
    return "\n".join(clauses)


def main() -> int:
    wrong = []
    root = pathlib.Path(__file__).resolve().parent.parent / "crates"
    for source in sorted(root.glob("*/src/**/*.rt")):
        text = source.read_text().split("#[cfg(test)]")[0]
        where = source.relative_to(root.parent)
        program = (source.parent / "main.rt").exists()
        for name, public, line, body in functions(text):
            said = contract(body)
            if public and re.search(r"^\s*requires", said, re.M):
                wrong.append(f"{where}:{line}: `{name}` is public and has a `requires`")
            if public and not program and not re.search(r"^\s*ensures", said, re.M):
                wrong.append(f"{where}:{line}: `{name}` is public and has no `ensures`")
            if len(body) >= LONGEST:
                wrong.append(f"{where}:{line}: `{name}` has {len(body)} lines")
            if public and not program and not must_fail(source, name):
                wrong.append(f"{where}:{line}: `{name}` is public and has no must-fail edit `{name}*.edit`")
    wrong += stale_edits(root)
    for line in wrong:
        print(line)
    print(f"own checks: {len(wrong)} complaints")
    return 1 if wrong else 0


def stale_edits(root: pathlib.Path) -> list:
    wrong = []
    for edit in sorted(root.glob("*/must-fail/*.edit")):
        source = None
        for line in edit.read_text().splitlines():
            word, text = line.split(": ", 1)
            if word == "file":
                source = edit.parent.parent / text
            elif word == "old":
                found = source.read_text().count(text) if source and source.exists() else 0
                if found != 1:
                    wrong.append(f"{edit.relative_to(root.parent)}: '{text}' stands {found} times in its file")
    return wrong


def must_fail(source: pathlib.Path, name: str) -> bool:
    crate = next(p for p in source.parents if p.name == "src").parent
    return any((crate / "must-fail").glob(f"{name}*.edit"))


if __name__ == "__main__":
    sys.exit(main())
