#!/usr/bin/env python3
"""Measures how the calls of a load go on more threads. Times on a shared machine mean little: compare ratios, and look at how many processors were free.

usage: threads.py TAO [--calls N] [--runs N]

TAO is the built program. Over eight shards and two tiers, with the generated mix, it prints the calls a second of `tao load` on 1, 2 and 4 threads, as
ratios to one thread, and that of one thread as a ratio to `tao gen` of the same calls. Each is the least time of some runs (3), in turn, with the start of
the process; a run takes 20,000 calls unless told otherwise. Beside each stands its least processor time, by which more threads are dearer where they wait
for one another's memory, and which a busy machine changes less.
"""
import argparse
import json
import os
import resource
import subprocess
import time

THREADS = (1, 2, 4)
TYPES = [{"inverse": "friend", "name": "friend"}, {"inverse": "liked_by", "name": "likes"}, {"inverse": "likes", "name": "liked_by"}, {"name": "comments"}]
REGION = {"name": "east", "leaders": 2, "tiers": [{"followers": 2, "name": "t1"}, {"followers": 2, "name": "t2"}]}
CONFIGURATION = {"assocs": TYPES, "objects": ["user", "post", "comment"], "regions": [REGION], "shards": 8}


def processor_time():
    """Seconds that all children took of processors so far."""
    used = resource.getrusage(resource.RUSAGE_CHILDREN)
    return used.ru_utime + used.ru_stime


def took(words):
    """Seconds of one run, by the clock and of processors. The run must end with 0."""
    line = json.dumps(CONFIGURATION, separators=(",", ":")).encode() + b"\n"
    start, used = time.perf_counter(), processor_time()
    subprocess.run(words, input=line, stdout=subprocess.DEVNULL, check=True)
    return time.perf_counter() - start, processor_time() - used


def main():
    words = argparse.ArgumentParser(description="Measures how the calls of a load go on more threads.")
    words.add_argument("tao", help="the built program")
    words.add_argument("--calls", type=int, default=20_000)
    words.add_argument("--runs", type=int, default=3)
    given = words.parse_args()
    workload = ["--seed", "7", "--calls", str(given.calls)]
    ways = {"gen": [given.tao, "gen", *workload]}
    ways |= {threads: [given.tao, "load", *workload, "--threads", str(threads)] for threads in THREADS}
    print(f"{given.calls:,} calls, {os.cpu_count()} processors; load before: {os.getloadavg()[0]:.1f}")
    runs = {way: [] for way in ways}
    for _ in range(given.runs):
        for way, asked in ways.items():
            runs[way].append(took(asked))
    clock = {way: min(seconds for seconds, _ in found) for way, found in runs.items()}
    used = {way: min(seconds for _, seconds in found) for way, found in runs.items()}
    print(f"gen: {given.calls / clock['gen']:,.0f} calls a second; {1e6 * used['gen'] / given.calls:.1f} microseconds of a processor each")
    for threads in THREADS:
        other, name = ("gen", "gen") if threads == 1 else (1, "one thread")
        rate = f"{given.calls / clock[threads]:,.0f} calls a second, {clock[other] / clock[threads]:.2f} times those of {name}"
        print(f"load on {threads}: {rate}; {used[threads] / used[other]:.2f} of its processor time")


if __name__ == "__main__":
    main()
