#!/usr/bin/env python3
"""Kills the program in the middle of its writes over a file, fifty times, at moments that are drawn, and looks for each write that it answered.

usage: kill_test.py TAO [TIMES]

TAO is the built program, crates/tao/out/tao once ./tao was run. A run adds edges until it is killed; the next begins over the same file, is
given all of them again, and has to open it and to find every one that was answered, at its position.
"""

import json
import os
import random
import subprocess
import sys
import tempfile
import threading
import time
from pathlib import Path

LAST_MOMENT = 2.0
MOST = 20_000
FIRST = [
    {"assocs": [{"name": "likes"}], "objects": ["user"], "regions": [{"name": "east", "tiers": [{"name": "t1"}]}], "shards": 1},
    {"do": "open", "session": 1, "region": "east", "tier": "t1"},
]
ADDS = [{"do": "assoc_add", "session": 1, "seq": i, "id1": 1, "atype": "likes", "id2": i + 1, "time": i, "data": {}} for i in range(1, MOST + 1)]


def line(request: object) -> bytes:
    return json.dumps(request, separators=(",", ":")).encode() + b"\n"


def asked(program: subprocess.Popen[bytes], request: object) -> bytes:
    """What the program answers. Whole lines at hand are answered together, so that each is given once the one before it was answered."""
    try:
        os.write(program.stdin.fileno(), line(request))
    except OSError:
        return b""
    return program.stdout.readline()


def killed(path: str, file: Path, known: int, moment: float) -> tuple[list[dict], int]:
    """The replies of a run that is killed a moment after it has answered what is known, and its status."""
    words = [path, "run", "--sql", str(file)]
    replies = []
    with subprocess.Popen(words, stdin=subprocess.PIPE, stdout=subprocess.PIPE) as program:
        killer = threading.Timer(moment, program.kill)
        for request in FIRST + ADDS:
            if len(replies) == len(FIRST) + known:
                killer.start()
            reply = asked(program, request)
            if not reply.endswith(b"\n"):
                break
            replies.append(json.loads(reply))
        killer.join()
    return replies, program.returncode


def main(path: str, times: int) -> None:
    draw = random.Random(1)
    known, unanswered = 0, 0
    with tempfile.TemporaryDirectory() as folder:
        for turn in range(1, times + 1):
            moment = draw.uniform(0, LAST_MOMENT)
            replies, status = killed(path, Path(folder, "tables"), known, moment)
            adds = [(reply.get("position"), reply.get("retry")) for reply in replies[len(FIRST) :]]
            stood = sum(retry is True for _, retry in adds)
            wanted = [(i + 1, i < stood) for i in range(len(adds))]
            if status != -9 or adds != wanted or stood < known:
                sys.exit(f"turn {turn}: status {status}, {known} were answered before, {stood} stood, {len(adds)} are answered now")
            unanswered += stood - known
            known = len(adds)
    print(f"killed {times} times: all {known} writes that were answered stand, and {unanswered} that were not yet")


if __name__ == "__main__":
    if len(sys.argv) not in (2, 3):
        sys.exit(__doc__)
    main(os.path.abspath(sys.argv[1]), int(sys.argv[2]) if sys.argv[2:] else 50)
