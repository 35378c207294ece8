"""Draws what `bench.py --save` kept: how the cost of a call grows with its log, and ratios to the yardstick and to sqlite."""

import math
import sys
from collections.abc import Callable
from pathlib import Path
from typing import Any

sys.dont_write_bytecode = True
sys.path.insert(0, str(Path(__file__).resolve().parent.parent / "tools"))

from drawing.sheet import BAD, FAINT, GOOD, INK, Sheet

WIDTH, LEFT, RIGHT = 760, 290, 680
PLOT, BAR, GAP = 200, 20, 34
SERIES = {
    "add": ("an add, on the way there", "#3b6fb6"),
    "range": ("a range of ten edges, from its store", "#b7791f"),
    "held": ("a range that its follower holds", GOOD),
}
Results = dict[str, Any]


def said(value: float) -> str:
    return f"{value:.2g}" if value < 10 else f"{value:,.0f}"


def upper(value: float) -> float:
    """The least of 1, 2, 5, 10, .. that is no less."""
    unit = 10.0 ** math.floor(math.log10(value))
    return next(unit * step for step in (1, 2, 5, 10) if unit * step >= value)


def draw_axes(sheet: Sheet, top: float, most: float, entries: list[int], across: Callable[[int], float]) -> None:
    for step in range(5):
        y = top + PLOT - PLOT * step / 4
        sheet.line(LEFT, y, RIGHT, y, FAINT)
        sheet.text(LEFT - 8, y + 4, said(most * step / 4) if step else "0", anchor="end")
    for count in entries:
        sheet.line(across(count), top + PLOT, across(count), top + PLOT + 5)
        sheet.text(across(count), top + PLOT + 20, f"{count:,}", anchor="middle")
    sheet.text((LEFT + RIGHT) / 2, top + PLOT + 38, "entries in the log", anchor="middle")


def draw_growth(sheet: Sheet, growth: list[Results], top: float) -> float:
    """Microseconds of a call, by the length of the log."""
    sheet.text(16, top + 12, "Microseconds of a call as its log grows")
    top += 30
    entries = [row["entries"] for row in growth]
    names = [name for name in SERIES if all(name in row for row in growth)]
    most = upper(max(row[name] for row in growth for name in names))
    low, high = math.log(min(entries)), math.log(max(entries))

    def across(count: int) -> float:
        return LEFT + 20 + (RIGHT - LEFT - 40) * (math.log(count) - low) / (high - low)

    draw_axes(sheet, top, most, entries, across)
    for place, name in enumerate(names):
        label, color = SERIES[name]
        points = [(across(row["entries"]), top + PLOT - PLOT * row[name] / most) for row in growth]
        sheet.element("polyline", points=" ".join(f"{x:.1f},{y:.1f}" for x, y in points), fill="none", stroke=color, stroke_width=2)
        for x, y in points:
            sheet.element("circle", cx=x, cy=y, r=3.5, fill=color)
        y = top + PLOT + 60 + 20 * place
        sheet.line(LEFT, y - 4, LEFT + 30, y - 4, color, stroke_width=2)
        sheet.text(LEFT + 38, y, label)
    return top + PLOT + 60 + 20 * len(names)


def draw_bar(sheet: Sheet, label: str, ratio: float, share: float, y: float) -> None:
    """A bar for a ratio, over a share of the width."""
    color = "#3b6fb6" if ratio <= 1 else BAD
    sheet.text(LEFT - 8, y + 14, label, anchor="end")
    end = LEFT + (RIGHT - LEFT) * share
    sheet.box(LEFT, y + 2, end - LEFT, BAR - 4, color)
    if share > 0.5:
        sheet.text(end - 6, y + 14, said(ratio), "#ffffff", "end")
    else:
        sheet.text(end + 6, y + 14, said(ratio))


def draw_ratios(sheet: Sheet, title: str, bars: list[tuple[str, float]], whole: str, top: float) -> float:
    """Bars of the ratio to another program's time, of which the whole is that time."""
    sheet.text(16, top + 12, title)
    most = max(1.0, *(ratio for _, ratio in bars))
    first = top + 40
    for place, (label, ratio) in enumerate(bars):
        draw_bar(sheet, label, ratio, ratio / most, first + BAR * place)
    end, at = first + BAR * len(bars), LEFT + (RIGHT - LEFT) / most
    sheet.line(at, first - 6, at, end + 4, INK, stroke_dasharray="4 3")
    sheet.text(at, first - 12, whole, anchor="middle")
    return end


def draw_results(results: Results) -> str:
    """All plots on one sheet."""
    return sheet_of(results)[0]


def sheet_of(results: Results) -> tuple[str, Sheet]:
    sheet = Sheet()
    end = draw_growth(sheet, results["growth"], 16)
    of_sqlite = [
        (f"{SERIES[name][0].split(',')[0]}, {row['entries']:,} entries", row[f"{name}_of_sqlite"])
        for name in ("add", "range")
        for row in results["growth"]
    ]
    end = draw_ratios(sheet, "Time beside sqlite3's in memory, on the same work", of_sqlite, "sqlite3", end + GAP)
    if results["held"]:
        held = [(row["name"], row["of_yardstick"]) for row in results["held"]]
        end = draw_ratios(sheet, "Time of reads that the follower holds, beside the yardstick's", held, "the yardstick", end + GAP)
    return sheet.svg(WIDTH, end + 24, "What calls cost"), sheet
