#!/usr/bin/env python3
"""Tests of `draw`: its pictures are the stored ones, and what it takes for known agrees with the replies of all scripts.

usage: draw_test.py
"""

import subprocess
import sys
import unittest
import unittest.mock
from collections.abc import Iterator
from pathlib import Path

sys.dont_write_bytecode = True
TOOLS = Path(__file__).resolve().parent
TOP = TOOLS.parent
sys.path.insert(0, str(TOOLS))

from drawing import run as runs
from drawing.lines import Lines, runs_of
from drawing.logs import shard_of_call
from drawing.picture import draw
from drawing.run import Run
from drawing.steps import Mark

STORED = {
    "docs/tour.svg": ["tools/draw", "examples/tour.jsonl", "crates/scripts/data/tour.script"],
    "docs/late_fill.svg": ["tools/draw", "crates/scripts/data/late_fill.script"],
    "docs/performance.svg": ["bench/bench.py", "--plot", "bench/results.json"],
}


def whole_runs() -> Iterator[tuple[str, Lines]]:
    """The runs of the scripts, where nothing but their lines decides what comes, and their configuration is taken."""
    for path in sorted((TOP / "crates/scripts/data").glob("*.script")):
        for lines in runs_of(path.read_text(encoding="utf-8")):
            if lines.is_whole and len(lines.asked) == len(lines.answered) and lines.answered[0].get("ok"):
                yield path.stem, lines


class Stored(unittest.TestCase):
    def test_pictures_are_the_stored_ones(self) -> None:
        for picture, words in STORED.items():
            with self.subTest(picture=picture):
                drawn = subprocess.run([TOP / words[0], *words[1:]], cwd=TOP, capture_output=True, text=True, check=True).stdout
                stored = (TOP / picture).read_text(encoding="utf-8")
                self.assertEqual(drawn, stored, f"draw it anew: {' '.join(words)} > {picture}")

    def test_a_run_without_a_configuration_is_refused(self) -> None:
        script = TOP / "crates/scripts/data/first_line.script"
        done = subprocess.run([TOOLS / "draw", script], capture_output=True, text=True, check=False)
        self.assertEqual((done.returncode, done.stdout), (1, ""))

    def test_wrong_words_are_told_the_usage(self) -> None:
        self.assertEqual(subprocess.run([TOOLS / "draw"], capture_output=True, check=False).returncode, 2)


class Scripts(unittest.TestCase):
    def test_hops_are_those_of_the_replies(self) -> None:
        for name, lines in whole_runs():
            for row, request, reply in zip(Run(lines.asked, lines.answered).rows, lines.asked, lines.answered):
                if "hops" in reply and request["do"] not in ("hold", "advance", "refill"):
                    self.assertEqual(row.hops, reply["hops"], f"{name}, line {row.number}")

    def test_logs_are_as_long_as_a_settle_says(self) -> None:
        for name, lines in whole_runs():
            if lines.answered[-1].get("ok") == "settle":
                logs = Run(lines.asked, lines.answered).logs
                self.assertEqual([logs.lengths[shard] for shard in range(lines.asked[0]["shards"])], lines.answered[-1]["logs"], name)

    def test_critical_reads_have_the_version_of_the_log(self) -> None:
        for name, lines in whole_runs():
            for row, request in zip(Run(lines.asked, lines.answered).rows, lines.asked):
                if request.get("critical") and row.versions:
                    self.assertEqual(*row.versions, f"{name}, line {row.number}")

    def test_inboxes_are_those_that_are_shown(self) -> None:
        for name, lines in whole_runs():
            for place, (request, reply) in enumerate(zip(lines.asked, lines.answered)):
                if reply.get("ok") == "inbox":
                    known = Run(lines.asked[: place + 1], lines.answered).inboxes[request["node"]]
                    shown = [(message["shard"], message["position"]) for message in reply["messages"]]
                    self.assertEqual(known, shown, f"{name}, line {place + 1}")

    def test_marks_are_those_that_are_told(self) -> None:
        for name, lines in whole_runs():
            for place, (request, reply) in enumerate(zip(lines.asked, lines.answered)):
                if "mark" in reply:
                    run = Run(lines.asked[: place + 1], lines.answered)
                    shard = reply["shard"] if "shard" in reply else shard_of_call(request)
                    known = 0 if request["node"] in run.topology.down else run.marks.low[request["node"], shard]
                    self.assertEqual(known, reply["mark"], f"{name}, line {place + 1}")

    def test_as_many_nodes_are_reset_as_a_trim_says(self) -> None:
        for name, lines in whole_runs():
            for row, reply in zip(Run(lines.asked, lines.answered).rows, lines.answered):
                if reply.get("ok") == "trim":
                    reset = [step for step in row.steps if isinstance(step, Mark) and step.kind == "reset"]
                    self.assertEqual(len(reset), reply["reset"], f"{name}, line {row.number}")

    def test_a_trim_cuts_a_log_and_resets_who_lies_behind(self) -> None:
        lines = dict(whole_runs())["trims_of_regions"]
        trims = [row.steps for row in Run(lines.asked, lines.answered).rows if row.request.startswith("trim")]
        self.assertEqual(trims[0], [Mark("east/store/0", "seen")])
        self.assertEqual(trims[1], [Mark("east/store/0", "trimmed", "1"), Mark("east/t1/0", "reset")])
        self.assertEqual(trims[2], [Mark("west/store/0", "trimmed", "2"), Mark("west/t1/0", "reset")])

    def test_a_message_for_which_there_is_no_room_is_lost(self) -> None:
        with unittest.mock.patch.object(runs, "INBOX", 1):
            lines = dict(whole_runs())["messages"]
            steps = [step for row in Run(lines.asked, lines.answered).rows for step in row.steps]
        self.assertIn(Mark("east/t1/0", "sent", "1"), steps)
        self.assertIn(Mark("east/t1/0", "lost", "2"), steps)

    def test_no_text_stands_on_another(self) -> None:
        for name, lines in whole_runs():
            _, sheet = draw(Run(lines.asked, lines.answered), name)
            self.assertEqual(sheet.overlaps(), [], name)


if __name__ == "__main__":
    unittest.main()
