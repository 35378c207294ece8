#!/usr/bin/env python3
"""Refuses each request for memory of a run, one run after another, and says how many places were tried.

usage: memory_sweep.py TAO [--places N] [--draw SEED] [--beside N]

TAO is the built program, crates/tao/out/tao once ./tao was run. Over a file, where a run asks for memory some thousands of times since SQL asks
for much, N places are drawn from all of them, by a seed that may be given, and all are tried where no number is. As many runs as there are
processors go side by side, or so many. It needs a C compiler, `cc`, for a library of a few lines that counts the program's requests and refuses
one of them.

The runs are three: one in which messages are delivered late and an item is filled again, over tables in memory, and a write of an edge of
two ends from a slave region, over tables in memory and over a file. With each request refused in its turn, a run ends with status 7, and
has then written the lines of the whole run up to there or up to one that tells of memory; or it goes on, and all that was written is there
once the streams have settled. It may go on without a line that tells of memory, since a cache that has none for an item, or for a message, does without.
Over the file a second run follows, to which nothing is refused. It has to find the write, or to make it: it stands once, at position 1, and so
does its inverse.
"""

import argparse
import collections
import concurrent.futures
import json
import os
import random
import subprocess
import sys
import tempfile
from collections.abc import Callable, Iterable
from pathlib import Path

SOURCE = """
#define _GNU_SOURCE
#include <dlfcn.h>
#include <stdio.h>
#include <stdlib.h>
#include <unistd.h>

static unsigned long seen, refused;

__attribute__((constructor)) static void begin(void) {
    const char *told = getenv("REFUSED");
    refused = told ? strtoul(told, 0, 10) : 0;
}

/* Where none is refused, how many there were goes to the descriptor 2. */
__attribute__((destructor)) static void end(void) {
    if (!refused) dprintf(2, "%lu", seen);
}

/* Counts a request. Where it is the one that is refused, a byte goes to the descriptor 2. */
static int is_refused(void) {
    return ++seen == refused && write(2, "!", 1) == 1;
}

void *malloc(size_t size) {
    static void *(*real)(size_t);
    if (!real) real = dlsym(RTLD_NEXT, "malloc");
    return is_refused() ? 0 : real(size);
}

void *realloc(void *old, size_t size) {
    static void *(*real)(void *, size_t);
    if (!real) real = dlsym(RTLD_NEXT, "realloc");
    return is_refused() ? 0 : real(old, size);
}
"""
EAST = {"leaders": 2, "name": "east", "tiers": [{"name": "t1"}, {"name": "t2"}]}
WEST = {"name": "west", "tiers": [{"name": "t1"}]}
CONFIGURATION = {"assocs": [{"name": "likes"}, {"inverse": "friend", "name": "friend"}], "objects": ["user"], "regions": [EAST, WEST], "shards": 2}
OPENED = ((1, "east", "t1"), (2, "east", "t2"), (3, "west", "t1"))
SESSIONS = [{"do": "open", "session": session, "region": region, "tier": tier} for session, region, tier in OPENED]
OTHER = 281_474_976_710_657
LIKES = {"id1": 1, "atype": "likes"}
RANGE = {"do": "assoc_range", "session": 1, **LIKES, "pos": 0, "limit": 10}
SETTLE = {"do": "settle"}
LATE = [
    {"do": "assoc_add", "session": 2, "seq": 1, **LIKES, "id2": 2, "time": 5, "data": {}},
    RANGE,
    {"do": "assoc_add", "session": 2, "seq": 2, **LIKES, "id2": 3, "time": 6, "data": {}},
    {"do": "deliver", "node": "east/t1/0", "message": 0},
    {"do": "deliver", "node": "east/t1/0", "message": 0},
    {"do": "refill", "node": "east/t1/0"},
    RANGE,
    SETTLE,
    RANGE,
    {"do": "audit", "request": RANGE},
]
WRITE = [{"do": "assoc_add", "session": 3, "seq": 1, "id1": 1, "atype": "friend", "id2": OTHER, "time": 5, "data": {}}, SETTLE]
COUNTS = [{"do": "audit", "request": {"do": "assoc_count", "session": 3, "id1": one, "atype": "friend"}} for one in (1, OTHER)]

Ran = collections.namedtuple("Ran", "status lines told")


def script(requests: list[object]) -> bytes:
    return b"".join(json.dumps(request, separators=(",", ":")).encode() + b"\n" for request in (CONFIGURATION, *SESSIONS, *requests))


class Program:
    """The built program, with the library that refuses requests."""

    def __init__(self, path: str, library: Path) -> None:
        self.path, self.library = path, library

    def run(self, requests: list[object], refused: int = 0, words: tuple[str, ...] = ()) -> Ran:
        """A run to which the request for memory of this number is refused, and none where it is 0: then it tells how many it made."""
        more = {"LD_PRELOAD": str(self.library), "REFUSED": str(refused)}
        done = subprocess.run([self.path, "run", *words], input=script(requests), capture_output=True, timeout=600, env={**os.environ, **more})
        return Ran(done.returncode, done.stdout.splitlines(keepends=True), done.stderr)


def end_of(lines: list[bytes]) -> list[list[object]]:
    """What the last three replies say of the graph."""
    return [[json.loads(line).get(name) for name in ("logs", "edges", "count", "position")] for line in lines[-3:]]


def check(ran: Ran, whole: list[bytes], place: int) -> str:
    """How a run ended to which one request was refused."""
    same = next((i for i, (line, other) in enumerate(zip(ran.lines, whole)) if line != other), len(ran.lines))
    told = same < len(ran.lines) and b'"memory"' in ran.lines[same]
    if ran.status == 7 and (told or same == len(ran.lines)):
        return "ended with 7"
    if ran.status == 0 and ran.lines == whole:
        return "wrote the same as ever"
    if ran.status == 0 and len(ran.lines) == len(whole) and told:
        return "went on after a line that tells of memory"
    if ran.status == 0 and len(ran.lines) == len(whole) and end_of(ran.lines) == end_of(whole):
        return "did without an item or a message, and settled"
    sys.exit(f"request {place}: status {ran.status}, line {same + 1} of {len(whole)}: {ran.lines[same : same + 1]}")


def check_again(ran: Ran, place: int) -> None:
    """The second run over a file has to find the write once, or to make it."""
    added, settled, *counts = [json.loads(line) for line in ran.lines[1 + len(SESSIONS) :]]
    found = (ran.status, added["position"], settled["logs"], [(count["count"], count["position"]) for count in counts])
    if found != (0, 1, [1, 1], [(1, 1), (1, 1)]):
        sys.exit(f"request {place}, the second run: {found}")


def in_memory(program: Program, requests: list[object], place: int) -> Ran:
    """Over tables in memory."""
    return program.run(requests, place)


def in_file(program: Program, requests: list[object], place: int) -> Ran:
    """Over tables in a file, and then a second run over it."""
    with tempfile.TemporaryDirectory() as folder:
        words = ("--sql", str(Path(folder, "tables")))
        ran = program.run(requests, place, words)
        check_again(program.run(requests + COUNTS, 0, words), place)
    return ran


def drawn(total: int, places: int | None, seed: int) -> Iterable[int]:
    """All places up to the last, or so many of them."""
    every = range(1, total + 1)
    return every if places is None or places >= total else sorted(random.Random(seed).sample(every, places))


class Sweep:
    """How many runs go side by side."""

    def __init__(self, beside: int) -> None:
        self.beside = beside

    def say(self, what: str, play: Callable[[int], Ran], places: int | None = None, seed: int = 0) -> None:
        """Plays the run once with each of the places refused, and says how they ended."""
        whole = play(0)
        total = int(whole.told)

        def end(place: int) -> str:
            ran = play(place)
            how = check(ran, whole.lines, place)
            return how if ran.told else f"made fewer requests, and {how}"

        with concurrent.futures.ThreadPoolExecutor(self.beside) as pool:
            try:
                ends = collections.Counter(pool.map(end, drawn(total, places, seed)))
            except SystemExit:
                pool.shutdown(wait=False, cancel_futures=True)
                raise
        print(f"{what}: {sum(ends.values())} of {total} requests were refused, one in each run", flush=True)
        for how, count in ends.most_common():
            print(f"    {count} {how}", flush=True)


def main(tao: str, places: int | None, seed: int, beside: int) -> None:
    with tempfile.TemporaryDirectory() as folder:
        library = Path(folder, "refuse.so")
        subprocess.run(["cc", "-O1", "-shared", "-fPIC", "-x", "c", "-", "-o", library], input=SOURCE.encode(), check=True)
        program = Program(tao, library)
        sweep = Sweep(beside)
        sweep.say("late messages and a refill, in memory", lambda place: in_memory(program, LATE, place))
        sweep.say("a write of two ends, in memory", lambda place: in_memory(program, WRITE + COUNTS, place))
        sweep.say("a write of two ends, over a file", lambda place: in_file(program, WRITE, place), places, seed)


if __name__ == "__main__":
    words = argparse.ArgumentParser(description=__doc__, formatter_class=argparse.RawDescriptionHelpFormatter)
    words.add_argument("tao")
    words.add_argument("--places", type=int)
    words.add_argument("--draw", type=int, default=0)
    words.add_argument("--beside", type=int, default=os.cpu_count() or 1)
    given = words.parse_args()
    main(os.path.abspath(given.tao), given.places, given.draw, given.beside)
