"""The lines of a run, of plain files or of a script as docs/SCRIPTS.md has it."""

import json
from dataclasses import dataclass, field
from pathlib import Path

from .words import Line

REPLY = "> "
OTHER_SIGNS = ("#", "!", "=", "_", "*", ">", "<", "@")


@dataclass
class Lines:
    """What a run was asked and what it answered. `is_whole` where nothing else stands there, as a planned fault or a repeated line."""

    asked: list[Line] = field(default_factory=list)
    answered: list[Line] = field(default_factory=list)
    is_whole: bool = True


def read(text: str) -> Line:
    """A line, and nothing where it is no JSON object."""
    try:
        line = json.loads(text)
    except ValueError:
        return {}
    return line if isinstance(line, dict) else {}


def runs_of(script: str) -> list[Lines]:
    """The runs of a script. One over what an earlier run left, or over a keeper without tables, isn't whole."""
    runs = [Lines()]
    for text in script.splitlines():
        if text.startswith("$"):
            runs.append(Lines(is_whole=runs[0].is_whole and len(runs) == 1))
        elif text.startswith(REPLY):
            runs[-1].answered.append(read(text[len(REPLY) :]))
        elif text.startswith(OTHER_SIGNS):
            runs[-1].is_whole &= text.startswith("#")
        elif text:
            runs[-1].asked.append(read(text))
    return runs[1:]


def lines_of(path: Path) -> Lines:
    """The lines of a file: each is a request and a reply, unless it is a script."""
    text = path.read_text(encoding="utf-8")
    if path.suffix == ".script":
        return runs_of(text)[0]
    lines = [read(line) for line in text.splitlines() if line]
    return Lines(lines, lines)
