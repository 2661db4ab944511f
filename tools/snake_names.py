#!/usr/bin/env python3
"""Spells our own definitions and lemmas in snake case, and our own types in camel case.

usage: python3 tools/snake_names.py      at the top of the repository, once

A name is ours if a file of a crate's specs/ or proofs/ declares it, and it is no goal that the checker names, or if it is one of the few in MORE.
`pairs-append` becomes `pairs_append`, and `Bus-name`, a type, becomes `BusName`.
Files below crates/ are changed in place. The script stops, with nothing written, where two names would fall together.
"""
import collections
import pathlib
import re
import sys

NAME = r"[^\s(){}\[\];,.:λ→∀⌜⌝\"«»]+"
DECLARED = re.compile(r"^\s*(?:\|\s*)?(?:pattern |unfoldable |abbrev |private )*(?:pub )?(?:(?:data|record) (?=.* :)|(?=\S+ :))(" + NAME + r")(.*)")
GOAL = re.compile(r"^ : (?:goal|given|rule|choice)s?\.")
TOKEN = re.compile(NAME)
# In camel case these would be the names of an enum, a variant and a trait.
CHOSEN = {"Bus-name": "IsBusName", "Well-known": "IsWellKnown", "Byte-order": "IsByteOrder"}
# A second name in an import, and a record's parameter.
MORE = ["flaw-of", "codes-span"]
LIBRARY = re.compile(r"use (?:Rattle\.std|mathlib|native|Prim|lib|borrow|denote)[\w.·]*\.\{([^}]*)\}")


def spelled(name: str) -> str:
    if name in CHOSEN:
        return CHOSEN[name]
    parts = name.split("-")
    if name[0].isupper():
        return "".join(part[0].upper() + part[1:] for part in parts)
    return "_".join(parts)


def sources(root: pathlib.Path):
    for pattern in ("*/specs/**/*.antt", "*/proofs/**/*.antt", "*/src/**/*.rt", "*/must-fail/*.edit"):
        yield from sorted(root.glob(pattern))


def own_names(root: pathlib.Path) -> dict:
    """Each name that a file of ours declares, and the files that do."""
    names = collections.defaultdict(set)
    for path in sources(root):
        if path.suffix != ".antt":
            continue
        for line in path.read_text().split("\n"):
            found = DECLARED.match(line)
            if found and not GOAL.match(found.group(2)):
                names[found.group(1)].add(path)
    return names


def main() -> int:
    root = pathlib.Path(__file__).resolve().parent.parent / "crates"
    names = own_names(root)
    renamed = {name: spelled(name) for name in [*names, *MORE] if re.fullmatch(r"[A-Za-z][\w']*(-[\w']+)+", name)}
    library = set()
    for path in sources(root):
        for words in LIBRARY.findall(path.read_text()):
            library |= {word.split(" as ")[0].strip() for word in words.split(",")}
    wrong = [f"{old} and {new} fall together" for old, new in sorted(renamed.items()) if new in names or new in library]
    wrong += [f"{old} is the library's too" for old in sorted(renamed) if old in library]
    counts = collections.Counter(renamed.values())
    wrong += [f"two names become {new}" for new, times in counts.items() if times > 1]
    for line in wrong:
        print(line)
    if wrong:
        return 1
    places = 0
    for path in sources(root):
        text = path.read_text()
        turned = TOKEN.sub(lambda word: renamed.get(word.group(0), word.group(0)), text)
        if turned != text:
            places += 1
            path.write_text(turned)
    print(f"{len(renamed)} names spelled anew, in {places} files")
    return 0


if __name__ == "__main__":
    sys.exit(main())
