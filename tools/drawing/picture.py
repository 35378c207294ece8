"""A run as a picture: a column for each session and node, a row for each line, and in it what the line did."""

import textwrap
from collections.abc import Iterator
from typing import NamedTuple

from .run import Run, session_column
from .sheet import BAD, FAINT, GOOD, HELD, INK, Sheet, width_of
from .steps import Mark, Row, Way

REQUEST, REPLY = 33, 27  # characters in a line of text
STEP, LINE, PAD = 15, 16, 12
REQUEST_AT, LANES_AT = 34, 34 + width_of("x" * REQUEST) + 14
VERSIONS, HEAD = 78, 46
MARKED = ("sent", "lost", "delivered", "dropped", "settled", "reset")
WAYS = {
    "client": ("a client's call", "#93a1b0"),
    "hop": ("a hop", INK),
    "call": ("a call of a store", "#3b6fb6"),
    "cut": ("a link is cut", BAD),
    "mend": ("a link is mended", GOOD),
}
MARKS = {
    "answer": "answered here",
    "held": "held, next stage",
    "sent": "message sent, of this position",
    "delivered": "message delivered",
    "dropped": "message dropped",
    "lost": "message lost",
    "settled": "has all of its logs, no message",
    "down": "goes down, and loses what it held",
    "up": "comes up, empty",
    "trimmed": "log is cut here, old up to this position",
    "reset": "lies behind the cut, and begins anew",
    "seen": "takes place here",
}


class Group(NamedTuple):
    """Columns under one heading, with what stands over each."""

    title: str
    columns: dict[str, str]


def groups(run: Run) -> Iterator[Group]:
    opened = {session_column(number): str(number) for number in run.sessions}
    yield Group("session", opened)
    topology = run.topology
    for region in topology.regions:
        of = "" if len(topology.regions) == 1 else f" {region}"
        yield Group(f"follower{of}", {node: node.split("/", 1)[1] for node in topology.followers(region)})
        yield Group(f"leader{of}", {node: node.rsplit("/", 1)[1] for node in topology.leaders(region)})
        yield Group(f"store{of}", {node: f"shard {node.rsplit('/', 1)[1]}" for node in topology.stores(region)})


class Lanes:
    """Where the columns stand."""

    def __init__(self, run: Run) -> None:
        self.places: dict[str, float] = {}
        self.groups = [group for group in groups(run) if group.columns]
        at = LANES_AT
        for group in self.groups:
            wide = max(64.0, *(width_of(name) + 14 for name in group.columns.values()), (width_of(group.title) + 14) / len(group.columns))
            for node in group.columns:
                self.places[node] = at + wide / 2
                at += wide
        self.end = at


def fits(steps: list[Way | Mark], step: Way | Mark, places: dict[str, float]) -> bool:
    """Whether a step can stand in the line of those before it: it goes on from the last one, and covers none."""
    if isinstance(step, Mark):
        if step.kind == "answer":
            return not isinstance(steps[-1], Mark)
        return step.kind in MARKED and all(isinstance(one, Mark) and one.kind in MARKED and one.node != step.node for one in steps)
    ways = [one for one in steps if isinstance(one, Way)]
    if not ways or any(isinstance(one, Mark) and one.text for one in steps):
        return False
    if step.start not in (ways[-1].start, ways[-1].end) or ways[-1].failed:
        return False
    low, high = sorted((places[step.start], places[step.end]))
    return all(high <= min(places[way.start], places[way.end]) or low >= max(places[way.start], places[way.end]) for way in ways)


def in_lines(steps: list[Way | Mark], places: dict[str, float]) -> list[list[Way | Mark]]:
    """The steps of a row, in as few lines as are easy to read."""
    lines: list[list[Way | Mark]] = []
    for step in steps:
        if lines and fits(lines[-1], step, places):
            lines[-1].append(step)
        else:
            lines.append([step])
    return lines


def draw_way(sheet: Sheet, way: Way, places: dict[str, float], y: float) -> None:
    start, end = places[way.start], places[way.end]
    to_right = start < end
    color = BAD if way.failed else WAYS[way.kind][1]
    dashes = {"stroke_dasharray": "5 4"} if way.failed or way.kind == "cut" else {}
    sheet.line(start, y, end, y, color, stroke_width=1.6, **dashes)
    sheet.head(end, y, to_right, color)
    if way.kind == "call":
        sheet.head(start, y, not to_right, color)
    if way.failed or way.kind == "cut":
        sheet.cross((start + end) / 2, y)


def draw_message(sheet: Sheet, kind: str, x: float, y: float) -> None:
    """A letter: empty when it is sent, full when it is delivered, crossed out when it is lost or dropped."""
    sheet.box(x - 6, y - 4, 12, 8, GOOD if kind == "delivered" else "#ffffff", stroke=INK)
    sheet.element("polyline", points=f"{x - 6:.1f},{y - 4:.1f} {x:.1f},{y + 1:.1f} {x + 6:.1f},{y - 4:.1f}", fill="none", stroke=INK)
    if kind in ("lost", "dropped"):
        sheet.cross(x, y, BAD if kind == "lost" else INK, 6)


def draw_mark(sheet: Sheet, mark: Mark, x: float, y: float) -> None:
    if mark.kind == "answer":
        sheet.element("circle", cx=x, cy=y, r=4.5, fill=GOOD)
    elif mark.kind == "held":
        corners = f"{x - 5:.1f},{y:.1f} {x:.1f},{y - 5:.1f} {x + 5:.1f},{y:.1f} {x:.1f},{y + 5:.1f}"
        sheet.element("polygon", points=corners, fill="#ffffff", stroke=HELD, stroke_width=1.6)
    elif mark.kind in ("down", "up", "reset"):
        sheet.box(x - 5, y - 5, 10, 10, BAD if mark.kind == "down" else "#ffffff", stroke=HELD if mark.kind == "reset" else INK)
    elif mark.kind == "trimmed":
        sheet.line(x, y - 7, x, y + 7, HELD, stroke_width=3)
    elif mark.kind in ("settled", "seen"):
        sheet.element("circle", cx=x, cy=y, r=3.5, fill=GOOD if mark.kind == "settled" else "#ffffff", stroke=INK)
    else:
        draw_message(sheet, mark.kind, x, y)
    if mark.text:
        sheet.text(x + 9, y + 4, mark.text, HELD if mark.kind == "held" else INK)


def draw_steps(sheet: Sheet, row: Row, lanes: Lanes, top: float) -> None:
    for place, line in enumerate(in_lines(row.steps, lanes.places)):
        y = top + STEP * (place + 0.5)
        for step in sorted(line, key=lambda one: isinstance(one, Mark)):
            if isinstance(step, Way):
                draw_way(sheet, step, lanes.places, y)
            else:
                draw_mark(sheet, step, lanes.places[step.node], y)


def draw_versions(sheet: Sheet, versions: tuple[int, int], x: float, y: float) -> None:
    """The version that was read, of that of the log."""
    text = f"{versions[0]} of {versions[1]}"
    color = GOOD if versions[0] == versions[1] else HELD
    sheet.box(x - width_of(text) / 2 - 6, y - 12, width_of(text) + 12, 17, "#ffffff", stroke=color, rx=8)
    sheet.text(x, y, text, color, "middle")


def wrapped(text: str, width: int) -> list[str]:
    return textwrap.wrap(text, width, max_lines=3, placeholder=" ..") or [""]


def height_of(row: Row, lanes: Lanes) -> float:
    texts = max(len(wrapped(row.request, REQUEST)), len(wrapped(row.reply, REPLY)))
    return max(texts * LINE, len(in_lines(row.steps, lanes.places)) * STEP) + PAD


def draw_row(sheet: Sheet, row: Row, lanes: Lanes, top: float) -> None:
    first = top + PAD / 2 + 12
    sheet.text(REQUEST_AT - 8, first, str(row.number), "#6b7785", "end")
    for place, text in enumerate(wrapped(row.request, REQUEST)):
        sheet.text(REQUEST_AT, first + place * LINE, text)
    for place, text in enumerate(wrapped(row.reply, REPLY)):
        sheet.text(lanes.end + VERSIONS + 8, first + place * LINE, text, BAD if row.is_refused else INK)
    if row.versions:
        draw_versions(sheet, row.versions, lanes.end + VERSIONS / 2, first)
    draw_steps(sheet, row, lanes, top + PAD / 2)


def draw_heads(sheet: Sheet, lanes: Lanes, bottom: float) -> None:
    sheet.text(REQUEST_AT, 34, "request")
    sheet.text(lanes.end + VERSIONS / 2, 18, "version", anchor="middle")
    sheet.text(lanes.end + VERSIONS / 2, 34, "of log's", anchor="middle")
    sheet.text(lanes.end + VERSIONS + 8, 34, "reply")
    for group in lanes.groups:
        middle = sum(lanes.places[node] for node in group.columns) / len(group.columns)
        sheet.text(middle, 18, group.title + ("s" if len(group.columns) > 1 else ""), anchor="middle")
        for node, name in group.columns.items():
            sheet.text(lanes.places[node], 34, name, anchor="middle")
            sheet.line(lanes.places[node], HEAD, lanes.places[node], bottom, FAINT)


def legend(run: Run) -> list[Way | Mark]:
    """One of each thing that the picture has."""
    steps = [step for row in run.rows for step in row.steps]
    ways = [Way("", "", kind, failed) for kind in WAYS for failed in (False, True)]
    marks = [Mark("", kind) for kind in MARKS]
    there = {(step.kind, isinstance(step, Way) and step.failed) for step in steps}
    return [one for one in [*ways, *marks] if (one.kind, isinstance(one, Way) and one.failed) in there]


def legend_text(step: Way | Mark) -> str:
    if isinstance(step, Mark):
        return MARKS[step.kind]
    return "a hop that failed" if step.failed else WAYS[step.kind][0]


def draw_legend(sheet: Sheet, run: Run, top: float, width: float) -> float:
    """Says what each sign is, and where that ends."""
    x, y = float(REQUEST_AT), top + LINE
    for step in legend(run):
        text = legend_text(step)
        room = 44 + width_of(text) + 24
        if x + room > width:
            x, y = float(REQUEST_AT), y + LINE + 4
        if isinstance(step, Way):
            draw_way(sheet, step._replace(start="a", end="b"), {"a": x, "b": x + 36}, y - 4)
        else:
            draw_mark(sheet, step, x + 18, y - 4)
        sheet.text(x + 44, y, text)
        x += room
    sheet.text(REQUEST_AT, y + LINE + 4, "An id is written as its shard and its number there: 0:1 is the first of shard 0.")
    return y + 2 * LINE + 4


def draw(run: Run, title: str) -> tuple[str, Sheet]:
    """The picture, and the sheet that it was drawn on."""
    sheet, lanes = Sheet(), Lanes(run)
    width = lanes.end + VERSIONS + 8 + width_of("x" * REPLY) + 12
    tops = [float(HEAD)]
    for row in run.rows:
        tops.append(tops[-1] + height_of(row, lanes))
    for place, (top, end) in enumerate(zip(tops, tops[1:])):
        if place % 2 == 0:
            sheet.box(0, top, width, end - top, "#f5f7f9")
    draw_heads(sheet, lanes, tops[-1])
    for row, top in zip(run.rows, tops):
        draw_row(sheet, row, lanes, top)
    height = draw_legend(sheet, run, tops[-1] + 6, width)
    return sheet.svg(width, height, title), sheet
