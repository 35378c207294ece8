"""The steps of a line: the ways that it took between columns, and what happened in them."""

from dataclasses import dataclass, field
from typing import NamedTuple


class Way(NamedTuple):
    """From one column to another: a client's call, a hop, a call of a store, or a link that is cut or mended."""

    start: str
    end: str
    kind: str
    failed: bool = False


class Mark(NamedTuple):
    """What happened in one column."""

    node: str
    kind: str
    text: str = ""


@dataclass
class Row:
    """A line of the run, as it is drawn."""

    number: int
    request: str
    reply: str
    steps: list[Way | Mark] = field(default_factory=list)
    versions: tuple[int, int] | None = None
    is_refused: bool = False

    @property
    def hops(self) -> int:
        return sum(isinstance(step, Way) and step.kind == "hop" for step in self.steps)


class Walk:
    """The steps of one line. A hop over a link that is cut fails."""

    def __init__(self, cuts: set[tuple[str, str]]) -> None:
        self.steps: list[Way | Mark] = []
        self._cuts = cuts

    def hop(self, start: str, end: str) -> bool:
        """Whether it came there. Between a node and itself nothing is carried."""
        if start == end:
            return True
        failed = (start, end) in self._cuts
        self.steps.append(Way(start, end, "hop", failed))
        return not failed

    def along(self, nodes: list[str]) -> bool:
        return all(self.hop(start, end) for start, end in zip(nodes, nodes[1:]))

    def way(self, start: str, end: str, kind: str) -> None:
        self.steps.append(Way(start, end, kind))

    def mark(self, node: str, kind: str, text: str = "") -> None:
        self.steps.append(Mark(node, kind, text))

    def has_called(self) -> bool:
        """Whether a store was reached."""
        return any(isinstance(step, Way) and step.kind == "call" for step in self.steps)
