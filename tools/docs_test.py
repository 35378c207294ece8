#!/usr/bin/env python3
"""Tests of the documents: their examples are those that scripts play, their links lead somewhere, and their names stand in the sources.

usage: docs_test.py
"""

import json
import re
import subprocess
import sys
import unittest
from collections.abc import Iterator
from pathlib import Path

sys.dont_write_bytecode = True
TOP = Path(__file__).resolve().parent.parent
sys.path.insert(0, str(TOP / "tools"))

from drawing.lines import REPLY, lines_of
from drawing.words import Line

WIDTH = 160
DOCUMENTS = [TOP / "README.md", *sorted((TOP / "docs").glob("*.md"))]
SOURCES = re.compile(r".*\.(rt|antt|py|rs|jsonl|txt|edit)|tao|HANDLES|tools/draw")
NAME = re.compile(r"[A-Za-z_]\w*")


def lines_in(document: Path) -> Iterator[tuple[int, str]]:
    return enumerate(document.read_text(encoding="utf-8").splitlines(), 1)


def sections_of(document: Path) -> list[str]:
    """The parts of a document: what stands before its first heading of the second level, and what begins with each of these."""
    return re.split(r"^(?=## )", document.read_text(encoding="utf-8"), flags=re.MULTILINE)


def shown_lines(text: str) -> list[str]:
    return [line[4:] for line in text.splitlines() if line.startswith("    ")]


def shown_json(text: str) -> list[tuple[bool, Line]]:
    """The lines of JSON that a text shows, also those that it breaks, and whether each is a reply."""
    shown = "\n".join(shown_lines(text))
    decoder, place = json.JSONDecoder(), 0
    found: list[tuple[bool, Line]] = []
    while (start := shown.find("{", place)) >= 0:
        line, place = decoder.raw_decode(shown, start)
        found.append((shown[:start].endswith(REPLY), line))
    return found


def names_in_sources() -> set[str]:
    files = subprocess.run(["git", "ls-files"], cwd=TOP, capture_output=True, text=True, check=True).stdout.split("\n")
    texts = [(TOP / file).read_text(encoding="utf-8", errors="replace") for file in files if SOURCES.fullmatch(file) and (TOP / file).exists()]
    return set(NAME.findall("\n".join(texts + files)))


class Documents(unittest.TestCase):
    def test_the_tour_is_its_script(self) -> None:
        script = lines_of(TOP / "crates/scripts/data/tour.script")
        shown = shown_json(sections_of(TOP / "docs/TOUR.md")[0])
        self.assertEqual([line for is_reply, line in shown if not is_reply], script.asked)
        self.assertEqual([line for is_reply, line in shown if is_reply], script.answered)

    def test_what_the_tour_shows_later_begins_the_script_that_it_names(self) -> None:
        for section in sections_of(TOP / "docs/TOUR.md")[1:]:
            if shown := shown_lines(section):
                script = re.findall(r"`(crates/scripts/data/\w+\.script)`", section)[0]
                stored = (TOP / script).read_text(encoding="utf-8").splitlines()
                first = stored.index("$ tao run") + 1
                self.assertEqual(shown, stored[first : first + len(shown)], script)

    def test_each_example_is_a_script(self) -> None:
        for example in (TOP / "examples").glob("*.jsonl"):
            script = lines_of(TOP / f"crates/scripts/data/{example.stem}.script")
            self.assertEqual(lines_of(example).asked, script.asked, example.name)

    def test_links_lead_somewhere(self) -> None:
        for document in DOCUMENTS:
            for number, line in lines_in(document):
                for link in re.findall(r"\]\(([^)#]+)\)", line):
                    self.assertTrue((document.parent / link).exists() or "://" in link, f"{document.name}:{number} {link}")

    def test_lines_fit_a_screen(self) -> None:
        wide = [f"{document.name}:{number}" for document in DOCUMENTS for number, line in lines_in(document) if len(line) > WIDTH]
        self.assertEqual(wide, [])

    def test_names_stand_in_the_sources(self) -> None:
        known = names_in_sources()
        for document in DOCUMENTS:
            for number, line in lines_in(document):
                for text in re.findall(r"`([A-Za-z_]\w{2,}(?:::[A-Za-z_]\w*)*)`", line):
                    self.assertIn(text.split("::")[-1], known, f"{document.name}:{number}")


if __name__ == "__main__":
    unittest.main()
