#!/usr/bin/env python3
"""Measures the program. Times on a shared machine mean little: compare ratios and growth.

usage: bench.py TAO [YARDSTICK] [--save FILE]
       bench.py --plot FILE > docs/performance.svg

TAO is the built program (crates/tao/out/tao once ./tao was run), YARDSTICK that of bench/yardstick. --save
keeps what was measured in a file; --plot draws such a file, and measures nothing.

Prints the lines that a second takes of 20,000 mixed calls, what a call costs as the log of its shard
grows, beside what the same tables take in sqlite3 in memory, what an edge costs that a range goes past,
what adds and ranges take over a file beside sqlite3's own, what the same calls take from a slave region
beside the master's, what a generated run takes as its calls grow, what trims cost, what opening and
auditing a file costs with its log old, and, with a yardstick, what reads take that the follower answers
of what it holds, as ratios to the yardstick's time on the same script (below 1 TAO is faster), and where it goes.

Those ratios are of processor time, which other work on the machine changes least: the least of some runs,
ours and the yardstick's in turn.
"""
import argparse
import json
import os
import resource
import sqlite3
import subprocess
import sys
import tempfile
import time

SHARDS = 8
BOUND = 6_000
REGION = {"name": "east", "tiers": [{"name": "t1"}]}
MASTER, SLAVE = "east", "west"
EMPTY = {}


def line(**fields):
    return json.dumps(fields, separators=(",", ":"))


def front(shards, **more):
    yield line(assocs=[{"name": "likes"}, {"name": "follows"}], objects=["user"], regions=[REGION], shards=shards, **more)
    yield line(do="open", session=1, region="east", tier="t1")


def front_of_two(region):
    """Of two regions, of which the first is the master; the session is in this one."""
    types, regions = [{"name": "likes"}], [REGION, dict(REGION, name=SLAVE)]
    yield line(assocs=types, objects=["user"], regions=regions, shards=1)
    yield line(do="open", session=1, region=region, tier="t1")


class Draws:
    """Numbers below a bound, the same in each run."""

    def __init__(self, seed):
        self.state = seed

    def below(self, bound):
        self.state = (self.state * 6364136223846793005 + 1442695040888963407) % 2**64
        return (self.state >> 33) % bound


def write(draws, seq):
    call = dict(session=1, seq=seq)
    edge = dict(id1=identity(draws), atype="likes", id2=identity(draws))
    kind = draws.below(6)
    if kind == 0:
        return line(do="obj_add", shard=draws.below(SHARDS), otype="user", data={"name": "Ann"}, **call)
    if kind == 1:
        return line(do="obj_update", id=identity(draws), data=EMPTY, **call)
    if kind == 2:
        return line(do="assoc_delete", **edge, **call)
    if kind == 3:
        return line(do="assoc_change_type", newtype="follows", **edge, **call)
    return line(do="assoc_add", time=draws.below(1000), data=EMPTY, **edge, **call)


def read(draws):
    asked = dict(session=1, id1=identity(draws), atype="likes")
    kind = draws.below(5)
    if kind == 0:
        return line(do="obj_get", session=1, id=identity(draws))
    if kind == 1:
        return line(do="assoc_get", ids=[identity(draws) for _ in range(5)], **asked)
    if kind == 2:
        return line(do="assoc_count", **asked)
    if kind == 3:
        return line(do="assoc_time_range", high=900, low=100, limit=10, **asked)
    return line(do="assoc_range", pos=0, limit=10, **asked)


def identity(draws):
    return (draws.below(SHARDS) << 48) + 1 + draws.below(50)


def mixed(calls):
    """Three writes in ten calls."""
    draws = Draws(1)
    yield from front(SHARDS)
    for call in range(calls):
        yield write(draws, call + 1) if draws.below(10) < 3 else read(draws)


def adds(count):
    for i in range(count):
        yield line(do="assoc_add", session=1, seq=i + 1, id1=1, atype="likes", id2=i + 2, time=i, data=EMPTY)


def ranges(count, place=0):
    yield from [line(do="assoc_range", session=1, id1=1, atype="likes", pos=place, limit=10)] * count


def evicts(count):
    """Lines that leave nothing of the list in the caches; from the second pair on there is nothing to be dropped."""
    pair = [line(do="evict", node=node, id1=1, atype="likes") for node in ("east/t1/0", "east/leader/0")]
    yield from pair * count


def missed_ranges(count, place=0):
    """Ranges that neither the follower nor its leader answers, since both dropped the list before each."""
    pair = list(evicts(1))
    yield from (pair + list(ranges(1, place))) * count


ASKED = dict(session=1, id1=1, atype="likes")
RANGE = dict(do="assoc_range", **ASKED, pos=0, limit=10)

# Reads that the follower answers of what it holds, once the first of them, or a range, was kept there.
HELD = {
    "ranges of ten edges": RANGE,
    "ranges of one edge": dict(RANGE, limit=1),
    "time ranges of ten edges": dict(do="assoc_time_range", **ASKED, high=100, low=0, limit=10),
    "gets of five ids": dict(do="assoc_get", **ASKED, ids=[2, 4, 6, 8, 10]),
    "counts": dict(do="assoc_count", **ASKED),
    "objects": dict(do="obj_get", session=1, id=1),
}

# A range's line that is refused ever later, or answers with no edge: what each takes more than the one before it
# is a step's. Each has a short reply but the last.
STEPS = {
    "the line, read as JSON, and its word": dict(RANGE, session="1"),
    "its fields": dict(RANGE, session=2),
    "its session and names": dict(RANGE, atype="lakes"),
    "the node and its item, and the reply's ends": dict(RANGE, pos=10),
    "ten edges, copied and spelled": RANGE,
}


def repeated(call, count):
    """The script of one line many times, after an object, ten edges and a range that the follower keeps."""
    added = line(do="obj_add", session=1, seq=11, shard=0, otype="user", data={"name": "Ann"})
    return script(front(1), adds(10), [added], ranges(1), [line(**call)] * count)


def script(*parts):
    return "".join(one + "\n" for part in parts for one in part).encode()


def best(command, data):
    times = []
    for _ in range(3):
        start = time.perf_counter()
        subprocess.run(command, input=data, stdout=subprocess.DEVNULL, check=True)
        times.append(time.perf_counter() - start)
    return min(times)


def processor_time(command, file):
    """Seconds that a run took of a processor, by itself and in calls of the system."""
    file.seek(0)
    before = resource.getrusage(resource.RUSAGE_CHILDREN)
    subprocess.run(command, stdin=file, stdout=subprocess.DEVNULL, check=True)
    after = resource.getrusage(resource.RUSAGE_CHILDREN)
    return after.ru_utime - before.ru_utime, after.ru_stime - before.ru_stime


def in_turn(commands, data, rounds=5):
    """The least times of the commands' own work on the same input, and of their calls of the system's."""
    with tempfile.TemporaryFile() as file:
        file.write(data)
        file.flush()
        times = [[processor_time(command, file) for command in commands] for _ in range(rounds)]
    return [tuple(min(one) for one in zip(*run)) for run in zip(*times)]


TABLES = """
create table log (position integer primary key, session integer, seq integer, key blob, entry blob, unique (session, seq));
create table versions (key blob primary key, version integer, edges integer) without rowid;
create table edges (key blob, id2 integer, time integer, stamp integer, data blob, primary key (key, id2)) without rowid;
create unique index newest on edges (key, time desc, id2 desc);
"""
RAISE = "insert into versions values (?, 1, 1) on conflict (key) do update set version = version + 1, edges = edges + 1"
KEY = b"\x00" * 7 + b"\x01\x00\x00"


def rows_added(tables, count):
    """Edges of one list, each a transaction: its origin and record are asked for, then its entry, version and edge written."""
    ask = tables.execute
    for i in range(count):
        ask("begin")
        ask("select position from log where session = 1 and seq = ?", (i + 1,)).fetchone()
        ask("select time, stamp, data from edges where key = ? and id2 = ?", (KEY, i + 2)).fetchone()
        ask("select version from versions where key = ?", (KEY,)).fetchone()
        ask("insert into log values (?, 1, ?, ?, ?)", (i + 1, i + 1, KEY, b""))
        ask(RAISE, (KEY,))
        ask("insert or replace into edges values (?, ?, ?, 1, ?)", (KEY, i + 2, i, b""))
        ask("commit")


def rows_ranged(tables, count):
    """What a range asks for: the list's version, the log's length, the list's length and its first ten edges."""
    ask = tables.execute
    for _ in range(count):
        ask("select version, edges from versions where key = ?", (KEY,)).fetchone()
        ask("select max(position) from log").fetchone()
        ask("select id2, time, stamp, data from edges where key = ? order by time desc, id2 desc limit 10", (KEY,)).fetchall()


def rows_far_down(tables, count, place):
    """Seconds that ranges of ten edges take from that place on."""
    start = time.perf_counter()
    for _ in range(count):
        tables.execute(
            "select id2, time, stamp, data from edges where key = ? order by time desc, id2 desc limit 10 offset ?", (KEY, place)
        ).fetchall()
    return time.perf_counter() - start


def in_sqlite(length, asked, path=":memory:"):
    """Seconds that an add and a range take, with a list of that length. A file has a log that is written ahead, as ours."""
    tables = sqlite3.connect(path, isolation_level=None)
    tables.execute("pragma journal_mode = wal")
    tables.executescript(TABLES)
    start = time.perf_counter()
    rows_added(tables, length)
    added = time.perf_counter()
    rows_ranged(tables, asked)
    return (added - start) / length, (time.perf_counter() - added) / asked


def far_down(tao, length, asked):
    """Prints what a range costs for each edge that it goes past, beside sqlite's own: past the bound all else stays the same."""
    near, far = BOUND, length - 10
    took = [best(tao, script(front(1), adds(length), missed_ranges(asked, place))) for place in (near, far)]
    tables = sqlite3.connect(":memory:", isolation_level=None)
    tables.executescript(TABLES)
    rows_added(tables, length)
    rows = [rows_far_down(tables, asked, place) for place in (near, far)]
    past = asked * (far - near)
    print(
        f"an edge that a range goes past: {(took[1] - took[0]) / past * 1e9:,.1f} nanoseconds,"
        f" in sqlite {(rows[1] - rows[0]) / past * 1e9:,.1f}"
    )


def over_file(tao, length, asked):
    """Prints what adds and ranges take over tables in a file, beside sqlite's own."""
    with tempfile.TemporaryDirectory() as folder:
        over = tao + ["--sql", os.path.join(folder, "tables")]
        start = time.perf_counter()
        subprocess.run(over, input=script(front(1), adds(length)), stdout=subprocess.DEVNULL, check=True)
        add = (time.perf_counter() - start) / length
        evicted = best(over, script(front(1), evicts(asked)))
        found = (best(over, script(front(1), missed_ranges(asked))) - evicted) / asked
        row_added, row_found = in_sqlite(length, asked, os.path.join(folder, "rows"))
    print(
        f"over a file: {1 / add:,.0f} adds a second, {add / row_added:.2f} of sqlite's time;"
        f" {1 / found:,.0f} ranges of ten edges a second, {found / row_found:.2f} of sqlite's"
    )


def over_yardstick(tao, yardstick, lines):
    """What held reads take beside the yardstick, in ratios and microseconds, which are printed; then the steps of a range."""
    held = []
    for name, call in HELD.items():
        (own, system), (their_own, their_system) = in_turn([tao, yardstick], repeated(call, lines))
        ratio, whole = own / their_own, (own + system) / (their_own + their_system)
        held.append({"name": name, "of_yardstick": ratio, "microseconds": own / lines * 1e6})
        print(
            f"{lines:,} {name} that the follower holds: {ratio:.2f} of the yardstick's own time,"
            f" {whole:.2f} with the system's; {own / lines * 1e6:.2f} microseconds"
        )
    before = 0
    for name, call in STEPS.items():
        ((own, _),) = in_turn([tao], repeated(call, lines))
        print(f"of a range, {name}: {(own - before) / lines * 1e6:.2f} microseconds")
        before = own
    return held


def at_region(tao, region, length, asks):
    """What a session of a region takes for an add, for a range that its follower holds and for one that the master's store answers, in seconds.
    The last is critical, so that it goes the same way from both regions."""
    begun = list(front_of_two(region)), list(adds(length))
    critical = [line(**RANGE, critical=True)] * asks
    scripts = [script(begun[0]), script(*begun), script(*begun, ranges(asks)), script(*begun, critical)]
    nothing, added, held, asked = [in_turn([tao], one)[0][0] for one in scripts]
    return {"add": (added - nothing) / length, "held range": (held - added) / asks, "critical range": (asked - added) / asks}


def from_regions(tao, length, asks):
    """Prints what calls take from a slave region beside the master's, whose adds pass one leader less."""
    own, slave = at_region(tao, MASTER, length, asks), at_region(tao, SLAVE, length, asks)
    for call, took in slave.items():
        print(f"from a slave region, {call}: {took / own[call]:.2f} of the master's region, {took * 1e6:.2f} microseconds")


def at_length(tao, length, asks):
    """What an add and a range take as the log of their shard grows to a length, in microseconds and beside sqlite's, which is printed."""
    grown = best(tao, script(front(1), adds(length)))
    asked = best(tao, script(front(1), adds(length), ranges(asks)))
    evicted = best(tao, script(front(1), adds(length), evicts(asks)))
    missed = best(tao, script(front(1), adds(length), missed_ranges(asks)))
    add, found, read = grown / length, (asked - grown) / asks, (missed - evicted) / asks
    row_added, row_found = in_sqlite(length, asks)
    print(
        f"a log of {length:,} entries: an add {add * 1e6:,.1f} microseconds on the way there, {add / row_added:.2f} of"
        f" sqlite's; a range of ten edges {read * 1e6:,.1f} at its end, {read / row_found:.2f} of sqlite's,"
        f" and {found * 1e6:,.1f} where its follower holds it"
    )
    return {
        "entries": length,
        "add": add * 1e6,
        "add_of_sqlite": add / row_added,
        "range": read * 1e6,
        "range_of_sqlite": read / row_found,
        "held": found * 1e6,
    }


def realistic():
    """Eight shards, two regions with two tiers each, three object types and four association types."""
    types = [{"inverse": "friend", "name": "friend"}, {"inverse": "liked_by", "name": "likes"}, {"inverse": "likes", "name": "liked_by"}, {"name": "comments"}]
    tiers = [{"name": "t1"}, {"name": "t2"}]
    east = {"leaders": 2, "name": MASTER, "tiers": [dict(tier, followers=2) for tier in tiers]}
    yield line(assocs=types, objects=["user", "post", "comment"], regions=[east, {"name": SLAVE, "tiers": tiers}], shards=SHARDS)


def generated(program):
    """Prints how many calls of a generated run a second takes, as they grow."""
    before = None
    for calls in (1_000, 10_000, 100_000):
        took = best([program, "gen", "--seed", "7", "--calls", str(calls)], script(realistic())) / calls
        grew = f", a call's time grew {took / before:.2f} times" if before else ""
        print(f"a generated run of {calls:,} calls: {1 / took:,.0f} a second{grew}")
        before = took


def trim(position):
    return line(do="trim", region=MASTER, shard=0, position=position)


def trimmed_adds(count, every):
    """Adds, and after so many of them a trim of all that was written; none where that is 0."""
    for number, asked in enumerate(adds(count), start=1):
        yield asked
        if every and number % every == 0:
            yield trim(number)


def in_two_parts(tao, count, every, entries):
    """Prints what trims cost a run in memory, and what opening and auditing a file costs with its log live and with it old."""
    for steps in (0, every):
        child = subprocess.Popen(tao, stdin=subprocess.PIPE, stdout=subprocess.DEVNULL)
        child.stdin.write(script(front(1, log_max=count), trimmed_adds(count, steps)))
        child.stdin.close()
        _, _, used = os.wait4(child.pid, 0)
        trims = f"a trim after each {steps:,}" if steps else "no trim"
        print(f"{count:,} adds, {trims}: {used.ru_utime:.2f} s of a processor, {used.ru_maxrss // 1024:,} MiB")
    audited = line(do="audit", request=json.loads(next(ranges(1))))
    with tempfile.TemporaryDirectory() as folder:
        path = os.path.join(folder, "graph.db")
        over = [*tao, "--sql", path]
        begun = [*front(1, log_max=entries)]
        subprocess.run(over, input=script(begun, adds(entries)), stdout=subprocess.DEVNULL, check=True)
        for said in ("live", "old"):
            opened = best(over, script(begun))
            read = best(over, script(begun, [audited])) - opened
            print(f"a file with {entries:,} entries, all {said}: opened in {opened:.3f} s, and audited in {read:.3f} s")
            start = time.perf_counter()
            subprocess.run(over, input=script(begun, [trim(entries)]), stdout=subprocess.DEVNULL, check=True)
            if said == "live":
                print(f"and cut in {time.perf_counter() - start - opened:.3f} s")


def measure(program, yardstick):
    """Measures and prints everything. What is drawn is answered."""
    tao = [program, "run"]
    calls = 20_000
    took = best(tao, script(mixed(calls)))
    print(f"{calls:,} mixed calls on {SHARDS} shards: {calls / took:,.0f} lines a second")
    growth = [at_length(tao, length, 60_000) for length in (1_000, 8_000, 65_536)]
    far_down(tao, 65_536, 500)
    over_file(tao, 4_000, 20_000)
    from_regions(tao, 16_000, 60_000)
    generated(program)
    in_two_parts(tao, 60_000, 1_000, 20_000)
    held = over_yardstick(tao, [yardstick], 200_000) if yardstick else []
    return {"growth": growth, "held": held}


def main():
    words = argparse.ArgumentParser(description="Measures the program, or draws what was measured.")
    words.add_argument("tao", nargs="?", help="the built program")
    words.add_argument("yardstick", nargs="?", help="that of bench/yardstick")
    words.add_argument("--save", metavar="FILE", help="keeps what was measured")
    words.add_argument("--plot", metavar="FILE", help="draws what was kept, as SVG on standard output")
    given = words.parse_args()
    if given.plot:
        from plots import draw_results

        with open(given.plot, encoding="utf-8") as file:
            sys.stdout.write(draw_results(json.load(file)))
        return
    if not given.tao:
        words.error("the built program is missing")
    results = measure(given.tao, given.yardstick)
    if given.save:
        with open(given.save, "w", encoding="utf-8") as file:
            json.dump(results, file, indent=1)
            file.write("\n")


if __name__ == "__main__":
    main()
