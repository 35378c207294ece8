#!/usr/bin/env python3
"""Counts the definitions that the clauses of `run` reach, and how deep.

usage: reach.py [--list] [CHECKOUT]

A definition is an `abbrev`, a `record`, a `data` or an `unfoldable` word of a crate's specs/. What a clause names is 1 deep, what those
definitions name is 2 deep, and so on. A name is looked up among the `use` lines of its file, or else in the file itself; a constructor counts as
its type, and a field isn't followed. --list prints each definition with its depth.
"""

import argparse
import re
from collections.abc import Iterator
from dataclasses import dataclass
from pathlib import Path

TOP = Path(__file__).resolve().parent.parent
CALL = "crates/tao_top/src/top.rt", "run"
HEAD = re.compile(r"(?:pub )?(abbrev|record|data|unfoldable)(?: pub)? (\S+)")
ENDS = re.compile(r"--|use |(?:pub )?mod ")
USE = re.compile(r"^(?:ghost |pub )*use Rattle\.(\w+)\.specs\.(\w+)((?:\.\w+)*)\.\{([^}]*)\}", re.M)
CLAUSE = re.compile(r"\b(?:requires|ensures)(?: \*)?(?: \w+)? \{")
WORD = re.compile(r"[^\s(){}\[\],.;@⟦⟧\"]+")
FIELD = re.compile(r"\.[A-Za-z_][\w-]*")

Place = tuple[str, str]
Key = tuple[str, str, str]


@dataclass
class File:
    """A file of specs/: the lines of each definition, the type of each constructor, and where each name that it uses stands."""

    definitions: dict[str, list[str]]
    constructors: dict[str, str]
    used: dict[str, tuple[Place, str, str]]


def uses_in(text: str) -> dict[str, tuple[Place, str, str]]:
    """Of each name that a text uses the file that it stands in, its name there, and the type that it is a constructor of, if any."""
    used = {}
    for crate, file, path, names in USE.findall(text):
        if file == "declared":
            continue
        for name in filter(None, map(str.strip, names.split(","))):
            own, _, here = name.partition(" as ")
            used[here or own] = (crate, file), own, path.strip(".").removesuffix(".TheVariants")
    return used


def read_file(text: str) -> File:
    definitions: dict[str, list[str]] = {}
    constructors = {}
    current: list[str] = []
    for line in text.split("\n"):
        if head := HEAD.match(line):
            kind, name = head.groups()
            current = definitions[name] = [line]
        elif ENDS.match(line):
            current = []
        elif current and line.strip():
            current.append(line)
            made = re.match(r"\s+(\S+)\s*:", line)
            if kind == "data" and made:
                constructors[made.group(1)] = name
    return File(definitions, constructors, uses_in(text))


def clauses_of(text: str, call: str) -> Iterator[str]:
    """The clauses of a function."""
    start = text.index(f"\npub fn {call}<")
    head = re.sub(r"//[^\n]*", "", text[start : text.index("\n{", start)])
    for clause in CLAUSE.finditer(head):
        depth, end = 1, clause.end()
        while depth:
            depth += {"{": 1, "}": -1}.get(head[end], 0)
            end += 1
        yield head[clause.end() : end - 1]


class Specs:
    def __init__(self, top: Path) -> None:
        self.files = {
            (path.parent.parent.name, path.stem): read_file(path.read_text(encoding="utf-8")) for path in sorted(top.glob("crates/*/specs/*.antt"))
        }

    def found(self, place: Place, name: str, kind: str) -> Key | None:
        """The definition that a name of a file stands for."""
        file = self.files.get(place)
        if file is None:
            return None
        for one in (kind, name, file.constructors.get(name, "")):
            if one in file.definitions:
                return *place, one
        return None

    def named(self, text: str, used: dict[str, tuple[Place, str, str]], place: Place | None) -> set[Key]:
        """The definitions that a text names."""
        keys = set()
        for word in set(WORD.findall(FIELD.sub("", re.sub(r"--[^\n]*", "", text)))):
            if word in used:
                keys.add(self.found(*used[word]))
            elif place:
                keys.add(self.found(place, word, ""))
        return {key for key in keys if key}

    def reach(self, keys: set[Key]) -> dict[Key, int]:
        """Each definition that these reach, themselves among them, with its depth."""
        depths = {}
        depth = 0
        while keys:
            depth += 1
            depths.update(dict.fromkeys(keys, depth))
            keys = {found for crate, file, name in keys for found in self.below(crate, file, name)} - depths.keys()
        return depths

    def below(self, crate: str, file: str, name: str) -> set[Key]:
        whole = self.files[crate, file]
        return self.named("\n".join(whole.definitions[name]), whole.used, (crate, file))


def main() -> None:
    words = argparse.ArgumentParser(description="Counts the definitions that the clauses of `run` reach, and how deep.")
    words.add_argument("checkout", nargs="?", type=Path, default=TOP)
    words.add_argument("--list", action="store_true", help="prints each definition with its depth")
    given = words.parse_args()
    specs = Specs(given.checkout)
    text = (given.checkout / CALL[0]).read_text(encoding="utf-8")
    depths = specs.reach(specs.named("\n".join(clauses_of(text, CALL[1])), uses_in(text), None))
    lines = sum(len(specs.files[crate, file].definitions[name]) for crate, file, name in depths)
    if given.list:
        for key, depth in sorted(depths.items(), key=lambda one: (one[1], one[0])):
            print(depth, *key)
    files, crates = {key[:2] for key in depths}, {key[0] for key in depths}
    print(f"{len(depths)} definitions, {lines} lines, {max(depths.values())} deep, in {len(files)} files of {len(crates)} crates")


if __name__ == "__main__":
    main()
