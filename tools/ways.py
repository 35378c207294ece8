#!/usr/bin/env python3
"""Prints which names of crates.txt a crate's text doesn't name, and of each crate by how many ways down one comes to a crate below it.

usage: ways.py [--drop] [COUNT]        the COUNT crates with the most ways (20); --drop takes names that aren't needed out of crates.txt

Up to kit 13b rt summed up each library's text and that of all below it, once for each way down. Kit 13f reads each once, and a short line is still the
easier one to read.
"""
import functools
import os
import re
import sys

ROOT = os.path.dirname(os.path.dirname(os.path.abspath(__file__)))
LIST = f"{ROOT}/crates.txt"


def lines():
    with open(LIST, encoding="utf-8") as it:
        return it.read().split("\n")


def is_crate(line):
    return ":" in line and not line.startswith("#")


def name_of(line):
    return re.split(r"[ :]", line)[0]


def text_of(crate):
    """Returns all that is written of a crate: code, definitions and proofs."""
    found = []
    for at, folders, files in os.walk(f"{ROOT}/crates/{crate}"):
        folders[:] = [it for it in folders if it != "out"]
        for name in files:
            if name.endswith((".rt", ".antt")):
                with open(f"{at}/{name}", encoding="utf-8") as it:
                    found.append(it.read())
    return "\n".join(found)


def is_named(crate, text):
    return re.search(rf"\b{crate}::|\buse {crate}\b|Rattle\.{crate}\b", text)


def main(words):
    drops = "--drop" in words
    numbers = [int(it) for it in words if it.isdigit()]
    told = lines()
    ours = {name_of(it) for it in told if is_crate(it)}
    below, kept = {}, []
    for line in told:
        if not is_crate(line):
            kept.append(line)
            continue
        head, names = line.split(":", 1)
        crate, text = name_of(line), text_of(name_of(line))
        needed = [it for it in names.split() if it not in ours or is_named(it, text)]
        spare = [it for it in names.split() if it not in needed]
        if spare:
            print(f"{crate} doesn't name: {' '.join(spare)}")
        below[crate] = [it for it in (needed if drops else names.split()) if it in ours]
        kept.append(head + ":" + "".join(f" {it}" for it in needed))
    if drops:
        with open(LIST, "w", encoding="utf-8") as it:
            it.write("\n".join(kept))

    @functools.cache
    def ways(crate):
        return 1 + sum(ways(it) for it in below[crate])

    for crate in sorted(below, key=ways)[-(numbers or [20])[0] :]:
        print(f"{ways(crate):>10,} {crate}")
    print(f"{sum(ways(it) for it in below):>10,} in all")


if __name__ == "__main__":
    main(sys.argv[1:])
