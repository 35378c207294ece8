#!/usr/bin/env python3
"""Measures the server with real clients, and then has bad ones at it.

usage: clients.py TAO [--seconds N] [--connections N..]

TAO is the built program, crates/tao/out/tao once ./tao was run. It ends by itself, with 1 where a bad client did harm.

First: calls a second, and what half of them and 99 of 100 take at most, at 1, 16 and 128 connections, each of which waits for its reply before its next
call. Nine calls of ten read the ten newest edges of one of 1,000 lists, the tenth adds an edge. Beside that the same mix at redis-server, where this machine
has one: ZREVRANGE and ZADD over 1,000 sorted sets. Clients and server share the machine's processors.

Then: a client that sends half a line and goes, one that never reads, one that sends 100 MB without a line's end, and 2,000 that connect at once. Meanwhile a
client writes and reads, one call after another. Each of its calls has to be answered within ten seconds, all that it was told of has to be in its list at
the end, and the server's memory has to stay below 1 GiB.
"""
import argparse
import collections
import contextlib
import json
import multiprocessing
import os
import resource
import select
import shutil
import socket
import subprocess
import sys
import tempfile
import threading
import time

LISTS = 1_000
NEWEST = 10
READS_IN_TEN = 9
PATIENCE = 10
MOST_MEMORY = 1 << 30
DESCRIPTORS = 8_192
PROCESSES = 4
CONFIG = {
    "assocs": [{"name": "likes"}], "objects": ["user"], "regions": [{"name": "east", "tiers": [{"name": "t1"}]}],
    "shards": 8, "log_max": 65_536, "cache_items": 65_536,
}  # fmt: skip


def line(**fields):
    return json.dumps(fields, separators=(",", ":")).encode() + b"\n"


def free_port():
    with socket.socket() as one:
        one.bind(("127.0.0.1", 0))
        return one.getsockname()[1]


def more_descriptors():
    _, most = resource.getrlimit(resource.RLIMIT_NOFILE)
    resource.setrlimit(resource.RLIMIT_NOFILE, (min(DESCRIPTORS, most), most))


@contextlib.contextmanager
def tao_server(program):
    """The server's port and process, once it can be reached."""
    port = free_port()
    server = subprocess.Popen(
        [program, "serve", "--port", str(port)], stdin=subprocess.PIPE, stdout=subprocess.PIPE, preexec_fn=more_descriptors
    )
    try:
        server.stdin.write(line(**CONFIG))
        server.stdin.close()
        said = server.stdout.readline()
        if json.loads(said) != {"ok": "serving"}:
            sys.exit(f"the server said {said!r}")
        yield port, server
    finally:
        server.kill()
        server.wait()


@contextlib.contextmanager
def redis_server(program):
    port = free_port()
    with tempfile.TemporaryDirectory() as folder:
        words = [program, "--port", str(port), "--save", "", "--appendonly", "no", "--dir", folder, "--maxclients", "4096"]
        server = subprocess.Popen(words, stdout=subprocess.DEVNULL)
        try:
            for _ in range(100):
                with contextlib.suppress(OSError), socket.create_connection(("127.0.0.1", port)):
                    break
                time.sleep(0.05)
            yield port, server
        finally:
            server.kill()
            server.wait()


# ---- what the two are asked


class Draws:
    """Numbers below a bound, the same in each run."""

    def __init__(self, seed):
        self.state = seed

    def below(self, bound):
        self.state = (self.state * 6364136223846793005 + 1442695040888963407) % 2**64
        return (self.state >> 33) % bound


class TaoCalls:
    def __init__(self, number):
        self.session, self.seq, self.draws = number + 1, 0, Draws(number)

    def first(self):
        return line(do="open", session=self.session, region="east", tier="t1")

    def next(self):
        draws = self.draws
        serial = draws.below(LISTS)
        id1 = ((serial % 8) << 48) + serial // 8 + 1
        if draws.below(10) < READS_IN_TEN:
            return line(do="assoc_range", session=self.session, id1=id1, atype="likes", pos=0, limit=NEWEST)
        self.seq += 1
        id2, at = draws.below(1 << 30) + 1, draws.below(1 << 31)
        return line(do="assoc_add", session=self.session, seq=self.seq, id1=id1, atype="likes", id2=id2, time=at, data={})

    @staticmethod
    def ends(held):
        """The length of the first reply, or 0 where it isn't whole."""
        return held.find(b"\n") + 1


def redis_words(*words):
    return b"*%d\r\n" % len(words) + b"".join(b"$%d\r\n%s\r\n" % (len(word), word) for word in words)


class RedisCalls:
    def __init__(self, number):
        self.draws = Draws(number)

    def first(self):
        return redis_words(b"PING")

    def next(self):
        draws = self.draws
        key = b"%d:likes" % draws.below(LISTS)
        if draws.below(10) < READS_IN_TEN:
            return redis_words(b"ZREVRANGE", key, b"0", b"%d" % (NEWEST - 1), b"WITHSCORES")
        id2, at = draws.below(1 << 30) + 1, draws.below(1 << 31)
        return redis_words(b"ZADD", key, b"%d" % at, b"%d" % id2)

    @staticmethod
    def ends(held):
        at, left = 0, 1
        while left:
            end = held.find(b"\r\n", at)
            if end < 0:
                return 0
            kind, number = held[at : at + 1], held[at + 1 : end]
            at, left = end + 2, left - 1
            if kind == b"*":
                left += int(number)
            elif kind == b"$" and int(number) >= 0:
                at += int(number) + 2
                if at > len(held):
                    return 0
        return at


# ---- how many calls a second


class Talker:
    """A connection that waits for its reply before its next call."""

    def __init__(self, port, calls):
        self.calls, self.held, self.took = calls, b"", []
        self.socket = socket.create_connection(("127.0.0.1", port))
        self.socket.setsockopt(socket.IPPROTO_TCP, socket.TCP_NODELAY, 1)
        self.socket.sendall(calls.first())
        while not calls.ends(self.held):
            self.held += self.socket.recv(65_536)
        self.held = b""

    def ask(self):
        self.began = time.perf_counter()
        self.socket.sendall(self.calls.next())

    def hear(self):
        """Takes what came. Says whether the reply is whole."""
        came = self.socket.recv(65_536)
        if not came:
            sys.exit("the server hung up")
        self.held += came
        end = self.calls.ends(self.held)
        if end:
            self.took.append(time.perf_counter() - self.began)
            self.held = self.held[end:]
        return end > 0


def talk(port, kind, numbers, seconds, told):
    talkers = {}
    poll = select.epoll()
    for number in numbers:
        talker = Talker(port, kind(number))
        talkers[talker.socket.fileno()] = talker
        poll.register(talker.socket, select.EPOLLIN)
    for talker in talkers.values():
        talker.ask()
    end = time.perf_counter() + seconds
    while time.perf_counter() < end:
        for place, _ in poll.poll(0.1):
            if talkers[place].hear():
                talkers[place].ask()
    told.put([took for talker in talkers.values() for took in talker.took])


def measure(port, kind, connections, seconds):
    """The times that calls took, of so many connections."""
    told = multiprocessing.Queue()
    count = min(PROCESSES, connections)
    workers = [
        multiprocessing.Process(target=talk, args=(port, kind, range(place, connections, count), seconds, told))
        for place in range(count)
    ]  # fmt: skip
    for worker in workers:
        worker.start()
    took = sorted(one for _ in workers for one in told.get())
    for worker in workers:
        worker.join()
    return took


def show(name, connections, took, seconds):
    half, most = took[len(took) // 2], took[len(took) * 99 // 100]
    print(f"{name:6} {connections:5} connections: {len(took) / seconds:9,.0f} calls a second, 50th {half * 1e6:7,.0f} us, 99th {most * 1e6:7,.0f} us", flush=True)


def compare(program, connections, seconds):
    redis = shutil.which("redis-server")
    if not redis:
        print("redis-server isn't installed: TAO alone")
    for count in connections:
        with tao_server(program) as (port, _):
            show("tao", count, measure(port, TaoCalls, count, seconds), seconds)
        if redis:
            with redis_server(redis) as (port, _):
                show("redis", count, measure(port, RedisCalls, count, seconds), seconds)


# ---- bad clients


def memory_of(server):
    """What it holds now, and the most that it held, in bytes."""
    with open(f"/proc/{server.pid}/status") as status:
        fields = dict(row.split(":", 1) for row in status)
    return tuple(int(fields[name].split()[0]) << 10 for name in ("VmRSS", "VmHWM"))


class Witness(threading.Thread):
    """A client that writes and reads until it is told to stop, and then reads all."""

    def __init__(self, port):
        super().__init__(daemon=True)
        self.stopped, self.failed, self.slowest, self.calls = threading.Event(), None, 0.0, 0
        self.socket = socket.create_connection(("127.0.0.1", port), timeout=PATIENCE)
        self.replies = self.socket.makefile("rb")
        self.told = collections.deque()
        self.call(do="open", session=9_999, region="east", tier="t1")

    def call(self, **fields):
        began = time.perf_counter()
        self.socket.sendall(line(**fields))
        reply = json.loads(self.replies.readline())
        self.slowest = max(self.slowest, time.perf_counter() - began)
        self.calls += 1
        if "ok" not in reply:
            raise RuntimeError(f"{fields} was answered by {reply}")
        return reply

    def read(self, pos, limit):
        return self.call(do="assoc_range", session=9_999, id1=LISTS * 8, atype="likes", pos=pos, limit=limit)["edges"]

    def run(self):
        try:
            number = 0
            while not self.stopped.is_set() and number < 5_000:
                number += 1
                self.call(do="assoc_add", session=9_999, seq=number, id1=LISTS * 8, atype="likes", id2=number, time=number, data={})
                self.told.append(number)
                if self.read(0, 1)[0]["id2"] != number:
                    raise RuntimeError(f"edge {number} isn't the newest")
                time.sleep(0.002)
            found = {edge["id2"] for edge in self.read(0, 6_000)}
            lost = [number for number in self.told if number not in found]
            if lost:
                raise RuntimeError(f"{len(lost)} acknowledged edges are lost, {lost[0]} first")
        except (OSError, RuntimeError, ValueError) as error:
            self.failed = error


def half_a_line(port):
    for _ in range(50):
        with socket.create_connection(("127.0.0.1", port)) as one:
            one.sendall(b'{"do":"open","session":1,"reg')


def never_reads(port):
    """Asks until the server takes no more, and holds the connection for a while."""
    with socket.create_connection(("127.0.0.1", port)) as one:
        one.sendall(line(do="open", session=1, region="east", tier="t1"))
        one.settimeout(2)
        with contextlib.suppress(OSError):
            for _ in range(100_000):
                one.sendall(line(do="assoc_count", session=1, id1=1, atype="likes") * 100)
        time.sleep(1)


def no_end_of_line(port):
    """100 MB of one line: it is refused at its end, and the connection goes on."""
    with socket.create_connection(("127.0.0.1", port), timeout=60) as one:
        for _ in range(100):
            one.sendall(b"x" * 1_000_000)
        one.sendall(b"\n" + line(do="open", session=1, region="east", tier="t1"))
        replies = one.makefile("rb")
        said = [json.loads(replies.readline()) for _ in range(2)]
        if said != [{"field": "", "no": "bad_line"}, {"ok": "open", "session": 1}]:
            raise RuntimeError(f"a line of 100 MB was answered by {said}")


def many_at_once(port):
    """2,000 connections, each with half a line; then they all go."""
    crowd = []
    try:
        for _ in range(2_000):
            one = socket.socket()
            one.setblocking(False)
            one.connect_ex(("127.0.0.1", port))
            crowd.append(one)
        time.sleep(2)
        for one in crowd:
            with contextlib.suppress(OSError):
                one.send(b'{"do":')
        time.sleep(2)
    finally:
        for one in crowd:
            one.close()
    with socket.create_connection(("127.0.0.1", port), timeout=PATIENCE) as one:
        one.sendall(line(do="open", session=1, region="east", tier="t1"))
        if json.loads(one.makefile("rb").readline()) != {"ok": "open", "session": 1}:
            raise RuntimeError("a client that came after 2,000 others wasn't served")


def bear(program):
    """Bad clients. Says whether nothing was lost."""
    more_descriptors()
    good = True
    with tao_server(program) as (port, server):
        witness = Witness(port)
        witness.start()
        for bad in (half_a_line, never_reads, no_end_of_line, many_at_once):
            error = None
            try:
                bad(port)
            except (OSError, RuntimeError, ValueError) as found:
                error = found
            held, most = memory_of(server)
            fine = error is None and witness.failed is None and most < MOST_MEMORY and server.poll() is None
            good = good and fine
            print(f"{bad.__name__:15} {'borne' if fine else f'HARM: {error or witness.failed}'}, memory {held >> 20} MiB, at most {most >> 20} MiB", flush=True)
        witness.stopped.set()
        witness.join(60)
        good = good and witness.failed is None and not witness.is_alive()
        print(f"the witness made {witness.calls:,} calls, the slowest in {witness.slowest * 1e3:,.1f} ms; lost: {witness.failed or 'nothing'}")
    return good


def main():
    parser = argparse.ArgumentParser(description=__doc__, formatter_class=argparse.RawDescriptionHelpFormatter)
    parser.add_argument("tao")
    parser.add_argument("--seconds", type=float, default=5)
    parser.add_argument("--connections", type=int, nargs="+", default=[1, 16, 128])
    asked = parser.parse_args()
    compare(os.path.abspath(asked.tao), asked.connections, asked.seconds)
    return 0 if bear(os.path.abspath(asked.tao)) else 1


if __name__ == "__main__":
    sys.exit(main())
