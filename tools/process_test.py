#!/usr/bin/env python3
"""Tests of the built program as a process: its statuses, what it writes before each, and tables in a file.

usage: [TAO=PROGRAM] process_test.py

PROGRAM is the built program, crates/tao/out/tao where TAO says no other. `./tao run` makes that one.
"""

import contextlib
import functools
import itertools
import json
import os
import pty
import resource
import signal
import socket
import sqlite3
import subprocess
import sys
import tempfile
import threading
import unittest
from collections.abc import Callable, Iterable, Iterator
from pathlib import Path

TOP = Path(__file__).resolve().parent.parent
PROGRAM = Path(os.environ.get("TAO", TOP / "crates/tao/out/tao")).resolve()
SCRIPT = (TOP / "examples/tour.jsonl").read_bytes()
USAGE = b"usage: tao run|gen|load|serve\n"
NO_MEMORY = b'{"no":"memory"'
PAGES = 64 * 1024
GIBIBYTE = 1024 * 1024 * 1024
CONFIGURATION = {"assocs": [{"name": "likes"}], "objects": ["user"], "regions": [{"name": "east", "tiers": [{"name": "t1"}]}], "shards": 1}
OPENING = {"do": "open", "session": 1, "region": "east", "tier": "t1"}

Done = subprocess.CompletedProcess[bytes]


def tao(*words: str | bytes | Path, **how: object) -> Done:
    """Runs the program with these words, over the tour's script where nothing else is said."""
    given = {"input": SCRIPT} if "stdin" not in how else {}
    return subprocess.run([PROGRAM, *words], **{"stdout": subprocess.PIPE, "stderr": subprocess.PIPE, "timeout": 60, **given, **how})


def whole_run(script: bytes) -> list[bytes]:
    """The lines that a run writes which nothing stops."""
    done = tao("run", input=script)
    assert done.returncode == 0, done
    return done.stdout.splitlines(keepends=True)


def script_of(*requests: object) -> bytes:
    return b"".join(json.dumps(request, separators=(",", ":")).encode() + b"\n" for request in requests)


def adds(count: int) -> bytes:
    """A script that adds edges to one list."""
    edges = ({"do": "assoc_add", "session": 1, "seq": i, "id1": 1, "atype": "likes", "id2": i, "time": i, "data": {}} for i in range(1, count + 1))
    return script_of(CONFIGURATION, OPENING, *edges)


def with_room(size: int) -> Callable[[], None]:
    """Limits what a process may have of addresses, before it begins."""
    return lambda: resource.setrlimit(resource.RLIMIT_AS, (size, size))


# The stack grows into the room as it is needed. Where nothing is left for that the system ends the process, before it could tell.
NO_STACK = -signal.SIGSEGV


@functools.cache
def least_room() -> int:
    """The addresses that the program needs to begin at all, to some pages."""
    room = 1024 * 1024
    while tao("--version", preexec_fn=with_room(room)).returncode:
        room += PAGES
        assert room < GIBIBYTE
    return room


def rooms() -> Iterator[int]:
    """Ever more room, a few pages at a time and then in steps that grow, up to some 16 times what the program begins with."""
    room, step = least_room() + 12 * PAGES, PAGES
    yield from range(least_room(), room, PAGES)
    while room < 16 * least_room():
        yield room
        room, step = room + step, 2 * step


class Words(unittest.TestCase):
    def test_help_and_version_are_0(self) -> None:
        for words in (["--help"], ["-h"], ["run", "--help"], ["run", "-h"], ["gen", "--help"], ["gen", "-h"], ["load", "--help"], ["load", "-h"]):
            done = tao(*words)
            self.assertEqual((done.returncode, done.stderr), (0, b""), words)
            self.assertIn(b"Usage: ", done.stdout, words)
        for word in ("--version", "-V"):
            done = tao(word)
            self.assertEqual((done.returncode, done.stdout.split()[0], done.stderr), (0, b"tao", b""), word)

    def test_other_words_are_2_and_the_usage(self) -> None:
        wrong: list[list[str | bytes]] = [
            [],
            ["gen"],
            ["gen", "--seed", "7"],
            ["gen", "--calls", "1"],
            ["gen", "--seed", "7", "--calls", "0"],
            ["gen", "--seed", "7", "--calls", "100001"],
            ["gen", "--seed", "18446744073709551616", "--calls", "1"],
            ["gen", "--seed", "07", "--calls", "1"],
            ["gen", "--seed", "+7", "--calls", "1"],
            ["gen", "--seed", "7", "--calls", "1", "--sql", "tables"],
            ["load"],
            ["load", "--seed", "7", "--calls", "1"],
            ["load", "--seed", "7", "--threads", "1"],
            ["load", "--calls", "1", "--threads", "1"],
            ["load", "--seed", "7", "--calls", "1", "--threads", "0"],
            ["load", "--seed", "7", "--calls", "1", "--threads", "17"],
            ["load", "--seed", "7", "--calls", "1", "--threads", "01"],
            ["load", "--seed", "7", "--calls", "100001", "--threads", "1"],
            ["gen", "--seed", "7", "--calls", "1", "--threads", "1"],
            ["serve"],
            ["ran"],
            ["--sql", "tables"],
            ["run", "tables"],
            ["run", "--sql"],
            ["run", "--sql=a", "--sql=b"],
            ["run", b"\xff"],
            ["run", b"--sql=\xff"],
        ]
        for words in wrong:
            done = tao(*words)
            self.assertEqual((done.returncode, done.stdout, done.stderr), (2, b"", USAGE), words)

    def test_where_the_usage_cannot_be_written_the_status_tells(self) -> None:
        with open("/dev/full", "wb") as full:
            self.assertEqual(tao("ran", stderr=full).returncode, 2)
        self.assertEqual(tao("ran", stderr=None, preexec_fn=lambda: os.close(2)).returncode, 2)


class Generated(unittest.TestCase):
    WORDS = ("gen", "--seed", "7", "--calls", "2000")
    LINES = b'{"calls":2000,"ok":"gen","refused":296}\n{"logs":[1007],"ok":"settle"}\n'

    def test_it_writes_two_lines_and_tells_nothing_in_a_pipe(self) -> None:
        done = tao(*self.WORDS, input=script_of(CONFIGURATION))
        self.assertEqual((done.returncode, done.stdout, done.stderr), (0, self.LINES, b""))

    def test_it_ends_with_its_first_line_though_the_input_goes_on(self) -> None:
        reading, writing = os.pipe()
        os.write(writing, script_of(CONFIGURATION, OPENING))
        try:
            done = tao(*self.WORDS, stdin=reading)
        finally:
            os.close(reading)
            os.close(writing)
        self.assertEqual((done.returncode, done.stdout), (0, self.LINES))

    def test_a_terminal_is_told_how_many_calls_are_done(self) -> None:
        watcher, terminal = pty.openpty()
        try:
            done = tao(*self.WORDS, input=script_of(CONFIGURATION), stderr=terminal)
            told = os.read(watcher, 4096)
        finally:
            os.close(watcher)
            os.close(terminal)
        self.assertEqual((done.returncode, done.stdout), (0, self.LINES))
        self.assertIn(b"1000 of 2000 calls", told)
        self.assertTrue(told.endswith(b"2000 of 2000 calls\r\n"), told)


class Loaded(unittest.TestCase):
    def load(self, calls: int, threads: int, **how: object) -> Done:
        return tao("load", "--seed", "7", "--calls", str(calls), "--threads", str(threads), **how)

    def test_a_call_that_reads_writes_an_empty_summary(self) -> None:
        done = tao("load", "--seed", "0", "--calls", "1", "--threads", "2", input=script_of(CONFIGURATION))
        self.assertEqual((done.returncode, done.stdout, done.stderr), (0, b'{"edges":0,"logs":[0],"ok":"load","refused":0}\n', b""))

    def test_one_thread_writes_what_a_generated_run_does(self) -> None:
        done = self.load(2_000, 1, input=script_of(CONFIGURATION))
        self.assertEqual((done.returncode, done.stderr), (0, b""))
        self.assertEqual(json.loads(done.stdout)["logs"], json.loads(Generated.LINES.splitlines()[1])["logs"])

    def test_each_number_of_threads_has_its_summary(self) -> None:
        for threads in (2, 3, 16):
            done = self.load(1_000, threads, input=script_of(dict(CONFIGURATION, shards=2)))
            self.assertEqual((done.returncode, done.stderr), (0, b""), threads)
            said = json.loads(done.stdout)
            self.assertEqual((list(said), said["ok"], said["refused"], len(said["logs"])), (["edges", "logs", "ok", "refused"], "load", 0, 2), threads)

    def test_a_full_log_is_10(self) -> None:
        friend = [{"inverse": "friend", "name": "friend"}]
        done = self.load(2_000, 2, input=script_of(dict(CONFIGURATION, assocs=friend, shards=2, log_max=16)))
        self.assertEqual((done.returncode, done.stdout, done.stderr), (10, b'{"bad":"load"}\n', b""))

    def test_an_input_without_a_configuration_is_3(self) -> None:
        for first in (b"", b"{}\n"):
            done = self.load(1, 1, input=first)
            self.assertEqual((done.returncode, done.stdout), (3, tao("run", input=first).stdout), first)

    def test_streams_that_fail_are_4_and_5(self) -> None:
        self.assertEqual(self.load(1, 1, stdin=None, preexec_fn=lambda: os.close(0)).returncode, 4)
        with open("/dev/full", "wb") as full:
            self.assertEqual(self.load(1, 1, input=script_of(CONFIGURATION), stdout=full).returncode, 5)

    def test_want_of_memory_is_7(self) -> None:
        script = script_of(dict(CONFIGURATION, shards=64))
        self.assertIn(7, {self.load(100, 2, input=script, preexec_fn=with_room(room)).returncode for room in rooms()})

    def test_a_terminal_is_told_how_far_it_is(self) -> None:
        watcher, terminal = pty.openpty()
        try:
            done = self.load(2_000, 2, input=script_of(CONFIGURATION), stderr=terminal)
            told = os.read(watcher, 4096)
        finally:
            os.close(watcher)
            os.close(terminal)
        self.assertEqual(done.returncode, 0)
        self.assertTrue(told.endswith(b"2000 of 2000 calls\r\n"), told)


class Configuration(unittest.TestCase):
    def test_what_is_none_is_3(self) -> None:
        for first, field in ((b"", b""), (b"tables\n", b""), (b"{}\n", b"shards"), (b'{"shards":0}\n', b"shards")):
            done = tao("run", input=first)
            self.assertEqual((done.returncode, done.stdout, done.stderr), (3, b'{"bad":"configuration","field":"%s"}\n' % field, b""), first)


class Streams(unittest.TestCase):
    def test_an_input_that_cannot_be_read_is_4(self) -> None:
        folder = os.open(TOP, os.O_RDONLY)
        try:
            done = tao("run", stdin=folder)
        finally:
            os.close(folder)
        self.assertEqual((done.returncode, done.stdout, done.stderr), (4, b"", b""))
        done = tao("run", stdin=None, preexec_fn=lambda: os.close(0))
        self.assertEqual((done.returncode, done.stdout, done.stderr), (4, b"", b""))

    def test_an_output_that_takes_nothing_is_5(self) -> None:
        for words in (["run"], ["--help"], ["--version"]):
            with open("/dev/full", "wb") as full:
                done = tao(*words, stdout=full)
                self.assertEqual((done.returncode, done.stderr), (5, b""), words)
            done = tao(*words, stdout=None, preexec_fn=lambda: os.close(1))
            self.assertEqual((done.returncode, done.stderr), (5, b""), words)

    def test_a_reader_that_goes_is_5(self) -> None:
        reader, writer = os.pipe()
        os.close(reader)
        try:
            done = tao("run", stdout=writer)
        finally:
            os.close(writer)
        self.assertEqual((done.returncode, done.stderr), (5, b""))

    def test_an_output_that_is_full_in_a_line_has_a_beginning_of_the_replies(self) -> None:
        whole = b"".join(whole_run(SCRIPT))
        size = len(whole) // 2

        def with_size() -> None:
            signal.signal(signal.SIGXFSZ, signal.SIG_IGN)
            resource.setrlimit(resource.RLIMIT_FSIZE, (size, size))

        with tempfile.TemporaryFile() as file:
            done = tao("run", stdout=file, preexec_fn=with_size)
            file.seek(0)
            written = file.read()
        self.assertEqual((done.returncode, written, done.stderr), (5, whole[:size], b""))


class Gathered(unittest.TestCase):
    """The replies of lines that are at hand are written together, and none waits for a line that isn't."""

    def setUp(self) -> None:
        self.lines = SCRIPT.splitlines(keepends=True)
        self.replies = whole_run(SCRIPT)

    @contextlib.contextmanager
    def patiently(self, **how: object) -> Iterator[subprocess.Popen[bytes]]:
        """A run that is killed where it takes too long, so that a reply which never comes ends the test."""
        with subprocess.Popen([PROGRAM, "run"], **how) as running:
            patience = threading.Timer(60, running.kill)
            patience.start()
            yield running
            patience.cancel()
        self.assertEqual(running.returncode, 0)

    def assert_answered(self, pieces: Iterable[bytes]) -> None:
        """Each piece of the script is given once the reply to the piece before it was read."""
        with self.patiently(stdin=subprocess.PIPE, stdout=subprocess.PIPE) as running:
            for piece, reply in zip(pieces, self.replies, strict=True):
                running.stdin.write(piece)
                running.stdin.flush()
                self.assertEqual(running.stdout.readline(), reply)
            running.stdin.close()
            self.assertEqual(running.stdout.read(), b"")

    def test_each_line_is_answered_before_the_next_is_given(self) -> None:
        self.assert_answered(self.lines)

    def test_no_reply_waits_behind_empty_lines_and_the_beginning_of_one(self) -> None:
        beginnings = [line[:5] for line in self.lines] + [b""]
        self.assert_answered(line[5 * (i > 0) :] + b"\n\n" + beginnings[i + 1] for i, line in enumerate(self.lines))

    def test_replies_of_lines_at_hand_are_written_together(self) -> None:
        script = adds(2_000)
        with tempfile.TemporaryFile() as file:
            file.write(script)
            file.seek(0)
            reader, writer = socket.socketpair(socket.AF_UNIX, socket.SOCK_SEQPACKET)
            with reader, self.patiently(stdin=file, stdout=writer):
                writer.close()
                written = list(iter(functools.partial(reader.recv, 4 * PAGES), b""))
        self.assertEqual(b"".join(written), b"".join(whole_run(script)))
        self.assertLessEqual(max(map(len, written)), PAGES)
        self.assertLess(len(written), 12)


class Memory(unittest.TestCase):
    """With a limit on its addresses the program ends with 7, or tells of it in replies. It writes each line whole."""

    def run_in_each_room(self, script: bytes) -> list[tuple[int, list[bytes]]]:
        """The status and lines of a run in each room. Up to the first that tells of memory, the lines are those of a whole run."""
        whole, runs = whole_run(script), []
        for room in rooms():
            done = tao("run", input=script, preexec_fn=with_room(room))
            if done.returncode == NO_STACK:
                continue
            lines = done.stdout.splitlines(keepends=True)
            same = list(itertools.takewhile(lambda line: not line.startswith(NO_MEMORY), lines))
            self.assertEqual(same, whole[: len(same)], room)
            self.assertTrue(not lines or lines[-1].endswith(b"\n"), room)
            self.assertIn((done.returncode, len(lines)), [(0, len(whole)), *((7, count) for count in range(len(whole)))], room)
            self.assertEqual(done.stderr, b"", room)
            runs.append((done.returncode, lines))
        self.assertEqual({status for status, _ in runs}, {0, 7})
        return runs

    def test_a_line_that_does_not_fit_is_7(self) -> None:
        runs = self.run_in_each_room(script_of(CONFIGURATION, OPENING, {"do": "x" * 1_000_000}))
        self.assertIn((7, 2), [(status, len(lines)) for status, lines in runs])

    def test_stores_that_do_not_fit_are_7(self) -> None:
        runs = self.run_in_each_room(script_of(dict(CONFIGURATION, shards=64), OPENING))
        self.assertIn((7, 0), [(status, len(lines)) for status, lines in runs])

    def test_writes_that_do_not_fit_are_told_of(self) -> None:
        runs = self.run_in_each_room(adds(1_000))
        self.assertTrue(any(line.startswith(NO_MEMORY) for status, lines in runs if status == 0 for line in lines))

    def test_tables_have_all_that_was_told_before_7(self) -> None:
        script, ended = adds(40), set()
        for room in rooms():
            with tempfile.TemporaryDirectory() as folder:
                first = tao("run", "--sql", Path(folder, "tables"), input=script, preexec_fn=with_room(room))
                again = tao("run", "--sql", Path(folder, "tables"), input=script)
            if first.returncode == NO_STACK:
                continue
            told = [json.loads(line).get("ok") == "assoc_add" for line in first.stdout.splitlines()]
            known = [json.loads(line).get("retry") for line in again.stdout.splitlines()]
            self.assertIn(first.returncode, (0, 7), room)
            self.assertEqual((again.returncode, len(known)), (0, 42), room)
            self.assertTrue(all(retry for was_told, retry in zip(told, known) if was_told), room)
            ended.add((first.returncode, any(told)))
        self.assertIn((7, False), ended)
        self.assertIn((0, True), ended)


class Files(unittest.TestCase):
    def setUp(self) -> None:
        folder = tempfile.TemporaryDirectory()
        self.addCleanup(folder.cleanup)
        self.folder = Path(folder.name)

    def assert_refused(self, file: str | Path) -> None:
        done = tao("run", "--sql", file)
        self.assertEqual((done.returncode, done.stdout, done.stderr), (6, b"", b""), file)

    def test_a_file_in_a_folder_that_is_not_there_is_6(self) -> None:
        self.assert_refused(self.folder / "none" / "tables")
        self.assertEqual(list(self.folder.iterdir()), [])

    def test_what_is_no_file_is_6(self) -> None:
        for file in (self.folder, "/dev/null", ""):
            self.assert_refused(file)

    def test_a_file_that_is_no_database_is_6_and_stays(self) -> None:
        for text in (b"notes", b"notes\n" * 1_000):
            file = self.folder / "notes"
            file.write_bytes(text)
            self.assert_refused(file)
            self.assertEqual(file.read_bytes(), text)

    def test_a_file_that_another_has_open_is_6(self) -> None:
        with subprocess.Popen([PROGRAM, "run", "--sql", self.folder / "tables"], stdin=subprocess.PIPE, stdout=subprocess.PIPE) as other:
            other.stdin.write(SCRIPT.splitlines(keepends=True)[0])
            other.stdin.flush()
            self.assertEqual(other.stdout.readline(), b'{"ok":"configured"}\n')
            self.assert_refused(self.folder / "tables")
        self.assertEqual(other.returncode, 0)
        self.assertEqual(tao("run", "--sql", self.folder / "tables").returncode, 0)

    def test_another_first_line_is_3_and_names_the_file(self) -> None:
        file = self.folder / "tables"
        self.assertEqual(tao("run", "--sql", file).returncode, 0)
        done = tao("run", f"--sql={file}", input=script_of(CONFIGURATION))
        self.assertEqual((done.returncode, done.stdout), (3, b'{"bad":"configuration","field":"file"}\n'))

    def test_a_slave_with_another_entry_is_8(self) -> None:
        file = self.folder / "tables"
        west = {"name": "west", "tiers": [{"name": "t1"}]}
        first = dict(CONFIGURATION, regions=[*CONFIGURATION["regions"], west])
        add = {"do": "assoc_add", "session": 1, "seq": 1, "id1": 1, "atype": "likes", "id2": 2, "time": 5, "data": {}}
        script = script_of(first, OPENING, add, {"do": "stream", "region": "west", "shard": 0})
        self.assertEqual(tao("run", "--sql", file, input=script).stdout.splitlines()[-1], b'{"hops":1,"next":2,"ok":"stream","verdict":"applied"}')
        with contextlib.closing(sqlite3.connect(file, isolation_level=None)) as tables:
            ((entry,),) = tables.execute("select entry from log where region = 1").fetchall()
            other = entry[:13] + (2).to_bytes(8, "big") + entry[21:]
            tables.execute("update log set b = 2, entry = ? where region = 1", (other,))
        done = tao("run", "--sql", file, input=script)
        self.assertEqual((done.returncode, done.stdout, done.stderr), (8, b'{"bad":"stores","position":1,"store":"west/store/0"}\n', b""))

    def test_what_was_told_outlives_a_kill(self) -> None:
        script = adds(50)
        lines = script.splitlines(keepends=True)
        for count in (1, 3, 40):
            file = self.folder / f"tables{count}"
            with subprocess.Popen([PROGRAM, "run", "--sql", file], stdin=subprocess.PIPE, stdout=subprocess.PIPE) as first:
                told = []
                for line in lines[:count]:
                    first.stdin.write(line)
                    first.stdin.flush()
                    told.append(first.stdout.readline())
                first.stdin.write(b"".join(lines[count:]))
                first.stdin.flush()
                first.kill()
            again = tao("run", "--sql", file, input=script).stdout.splitlines()
            self.assertEqual(len(again), 52)
            for line, reply in zip(told[2:], again[2:]):
                self.assertEqual((json.loads(line)["retry"], json.loads(reply)["retry"]), (False, True), count)


if __name__ == "__main__":
    if not os.access(PROGRAM, os.X_OK):
        sys.exit(f"process_test.py: {PROGRAM} isn't there: ./tao run makes it")
    unittest.main()
