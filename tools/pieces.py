#!/usr/bin/env python3
"""The gate in pieces: proves libraries, tests and programs and tries edits by rt's own functions, and keeps what passed from run to run.

usage: pieces.py [--lanes N] [--libraries] [--tests] [--edits] [--programs] [CRATE ..]      in any folder of the checkout

Without a kind it takes all four. With crates it takes these and the libraries below them. What passed is kept by a sum of the text that it rests
on, in .git/pieces.json, so that a run after a change proves only what stands on it. Each piece's output is in .git/pieces/. `rt ci` keeps its own
account of what passed, and decides.
"""
import argparse
import copy
import fcntl
import functools
import hashlib
import importlib.machinery
import importlib.util
import json
import os
import subprocess
import sys
import threading
import time

KINDS = ("libraries", "tests", "edits", "programs")


def load(name, path):
    loader = importlib.machinery.SourceFileLoader(name, path)
    made = importlib.util.module_from_spec(importlib.util.spec_from_loader(name, loader))
    sys.modules[name] = made
    loader.exec_module(made)
    return made


def said_by(*words):
    return subprocess.run(words, capture_output=True, text=True, check=True).stdout.strip()


sys.dont_write_bytecode = True
ROOT = said_by("git", "rev-parse", "--show-toplevel")
os.chdir(ROOT)
RT = load("rt_of_kit", f"{os.path.dirname(said_by('rt', 'doc'))}/bin/rt")
LIB = RT.rtlib


@functools.cache
def below(crate):
    """Returns the libraries below a crate, each once: rt itself goes down each way anew."""
    found = []
    for library in crate.deps:
        found += [it for it in [*below(library), library] if it not in found]
    return found


@functools.cache
def stamp(crate):
    """Returns a sum of all that a crate is made from."""
    sum = hashlib.sha256(repr((sorted(crate.said.items()), sorted(crate.of_kit))).encode())
    for file in sorted(LIB.files_of(crate.folder)):
        with open(file, "rb") as it:
            sum.update(repr((file.removeprefix(crate.folder), it.read())).encode())
    sum.update(repr([stamp(it) for it in crate.deps]).encode())
    return sum.hexdigest()


def stamp_of(crate, kind):
    if kind != "edits":
        return stamp(crate)
    sum = hashlib.sha256(stamp(crate).encode())
    for edit in RT.edits_of(crate)[0]:
        with open(edit, "rb") as it:
            sum.update(it.read())
    return sum.hexdigest()


class Kept:
    """What passed, by piece, with the sum of the text that it rests on."""

    def __init__(self):
        self.file, self.lock = f"{ROOT}/.git/pieces.json", threading.Lock()
        self.passed = {}
        self.read()

    def has(self, crate, kind):
        is_there = kind != "libraries" or os.path.isdir(crate.rlib)
        return is_there and self.passed.get(f"{crate.name} {kind}") == stamp_of(crate, kind)

    def read(self):
        if os.path.isfile(self.file):
            with open(self.file, encoding="utf-8") as it:
                self.passed = json.load(it)

    def add(self, crate, kind):
        # (another run may have added something since)
        with self.lock, open(f"{self.file}.lock", "w") as lock:
            fcntl.flock(lock, fcntl.LOCK_EX)
            self.read()
            self.passed[f"{crate.name} {kind}"] = stamp_of(crate, kind)
            with open(f"{self.file}.new", "w", encoding="utf-8") as it:
                json.dump(self.passed, it)
            os.replace(f"{self.file}.new", self.file)


def tried(crate):
    good, bad = RT.edits_of(crate)
    results = RT.must_fail_all(crate, good, ["--jobs", "1"])
    for _, text in results:
        print(text, file=crate.out)
    return not bad and all(refused for refused, _ in results)


def ran(crate, tests):
    made = f"{crate.folder}/out/{crate.name}{'_tests' if tests else ''}"
    return all(RT.run(crate, tests, end) for end in RT.BACKENDS.values() if os.path.isfile(made + end))


def passes(crate, kind):
    """Does one piece, and returns whether it passed."""
    crate, began = copy.copy(crate), time.time()
    os.makedirs(f"{crate.folder}/out", exist_ok=True)
    with open(f"{ROOT}/.git/pieces/{crate.name}.{kind}", "w", encoding="utf-8", errors="replace") as crate.out:
        try:
            if kind == "edits":
                is_well = tried(crate)
            else:
                is_well = not crate.ci(["--jobs", "1"], kind == "tests")
                is_well = is_well and (kind == "libraries" or ran(crate, kind == "tests"))
        except SystemExit:
            is_well = False
    print(f"{time.strftime('%H:%M:%S')} {'passed' if is_well else 'FAILED'} {crate.name} {kind} {time.time() - began:.0f} s", flush=True)
    return is_well


def pieces_of(crates, kinds):
    for crate in crates:
        has = {"libraries": not crate.is_program, "tests": crate.has_tests(), "edits": RT.edits_of(crate)[0], "programs": crate.is_program}
        yield from ((crate, kind) for kind in KINDS if kind in kinds and has[kind])


def lines_behind(crates):
    """Returns for each crate how many lines its longest chain of crates above has, its own too."""
    behind = {it: 0 for it in crates}
    for crate in reversed(crates):
        behind[crate] += crate.count(rb"\n")
        for library in crate.deps:
            behind[library] = max(behind[library], behind[crate])
    return behind


def run(crates, kinds, lanes):
    kept, failed, running = Kept(), [], set()
    behind = lines_behind(crates)
    left = [it for it in pieces_of(crates, kinds) if not kept.has(*it)]
    left.sort(key=lambda it: (it[1] != "libraries", -behind[it[0]]))
    print(f"{len(left)} pieces", flush=True)

    def work(piece):
        if passes(*piece):
            kept.add(*piece)
        else:
            failed.append(piece)
        running.discard(piece)

    while left or running:
        broken = {crate.name for crate, kind in failed if kind == "libraries"}
        for piece in [*left]:
            libraries = below(piece[0])
            if broken & {it.name for it in libraries}:
                left.remove(piece)
                failed.append(piece)
            elif len(running) < lanes and all(kept.has(it, "libraries") for it in libraries):
                left.remove(piece)
                running.add(piece)
                threading.Thread(target=work, args=(piece,)).start()
        time.sleep(0.5)
    for crate, kind in failed:
        print(f"failed, or stands on what failed: {crate.name} {kind}")
    return 1 if failed else 0


def main():
    words = argparse.ArgumentParser(usage=__doc__)
    words.add_argument("--lanes", type=int, default=os.cpu_count())
    words.add_argument("crates", nargs="*")
    for kind in KINDS:
        words.add_argument(f"--{kind}", action="store_true")
    given = words.parse_args()
    kinds = [it for it in KINDS if getattr(given, it)] or KINDS
    LIB.stop = RT.stop
    LIB.guarded()
    LIB.Crate = RT.Crate
    RT.Crate.cuts_libraries = True
    RT.Crate.allowed = RT.handles_of(ROOT)
    RT.Crate.below = below
    RT.Crate.stamp = stamp
    os.makedirs(f"{ROOT}/.git/pieces", exist_ok=True)
    crates = sorted(LIB.crates_below(ROOT), key=lambda it: len(below(it)))
    wanted = {it.name for crate in crates if crate.name in given.crates for it in [crate, *below(crate)]}
    return run([it for it in crates if not wanted or it.name in wanted], kinds, given.lanes)


if __name__ == "__main__":
    sys.exit(main())
