"""The logs of a run, as far as its lines tell them by the rules of docs/MODEL.md.

Kept are each log's length, the version of each key, the record of each edge and the open jobs: what a picture compares a read with.
"""

from collections import Counter, defaultdict
from dataclasses import dataclass
from typing import Any, NamedTuple

Request = dict[str, Any]
Key = int | tuple[int, str]  # an object, or the list of one id's edges of one type
SERIAL_BITS = 48


class Edge(NamedTuple):
    """An edge from one id to another."""

    id1: int
    atype: str
    id2: int


class Record(NamedTuple):
    """How an edge stands: its stamp, a number and then a shard, and whether it is live."""

    stamp: tuple[int, int]
    live: bool


@dataclass
class Job:
    """What the entry at a position of a shard owes to another shard."""

    shard: int
    position: int
    records: dict[Edge, Record]

    @property
    def far(self) -> int:
        return shard_of(next(iter(self.records)).id1)


class Committed(NamedTuple):
    """The entry of a write: whether this call wrote it, and its job where that is open."""

    position: int
    is_new: bool
    job: Job | None


def shard_of(identity: int) -> int:
    return identity >> SERIAL_BITS


def key_of(call: Request) -> Key:
    """The key that a read or a write is of."""
    return call["id"] if "id" in call else (call["id1"], call["atype"])


def shard_of_call(call: Request) -> int:
    return call["shard"] if "shard" in call else shard_of(call.get("id", call.get("id1", 0)))


class Logs:
    """All logs, as the lines so far leave them."""

    def __init__(self, inverses: dict[str, str | None]) -> None:
        self.inverses = inverses
        self.lengths: Counter[int] = Counter()
        self.versions: Counter[Key] = Counter()
        self.jobs: defaultdict[int, list[Job]] = defaultdict(list)
        self._records: dict[Edge, Record] = {}
        self._objects: set[int] = set()
        self._serials: Counter[int] = Counter()
        self._origins: dict[tuple[int, int, int], int] = {}

    def commit(self, call: Request) -> Committed | None:
        """Commits the entry of a write, or finds the one that it made before; none where there is nothing to change."""
        shard = shard_of_call(call)
        origin = (shard, call["session"], call["seq"])
        if origin in self._origins:
            position = self._origins[origin]
            return Committed(position, False, self._job_at(shard, position))
        owed = self._write_object(call) if call["do"].startswith("obj") else self._write_edges(call)
        if owed is None:
            return None
        position = self._origins[origin] = self.lengths[shard]
        job = Job(shard, position, owed) if owed else None
        if job:
            self.jobs[shard].append(job)
        return Committed(position, True, job)

    def merge(self, job: Job) -> int | None:
        """Merges a job at the other shard: the position of the entry, where something was news there."""
        news = {edge: record for edge, record in job.records.items() if record.stamp > self._stamp(edge)}
        if not news:
            return None
        self._enter(job.far, {(edge.id1, edge.atype) for edge in news})
        self._records |= news
        return self.lengths[job.far]

    def end(self, job: Job) -> None:
        """Ends a job, where it is still open."""
        if job in self.jobs[job.shard]:
            self.jobs[job.shard].remove(job)

    def learn(self, key: Key, version: int) -> int:
        """The version of a key in its log, which is no less than one that was answered."""
        self.versions[key] = max(self.versions[key], version)
        return self.versions[key]

    def _enter(self, shard: int, keys: set[Key]) -> None:
        self.lengths[shard] += 1
        self.versions.update(keys)

    def _stamp(self, edge: Edge) -> tuple[int, int]:
        return self._records[edge].stamp if edge in self._records else (0, 0)

    def _is_live(self, edge: Edge) -> bool:
        return edge in self._records and self._records[edge].live

    def _job_at(self, shard: int, position: int) -> Job | None:
        return next((job for job in self.jobs[shard] if job.position == position), None)

    def _write_object(self, call: Request) -> dict[Edge, Record] | None:
        shard = shard_of_call(call)
        if call["do"] == "obj_add":
            self._serials[shard] += 1
            identity = (shard << SERIAL_BITS) + self._serials[shard]
        else:
            identity = call["id"]
            if identity not in self._objects:
                return None
        (self._objects.discard if call["do"] == "obj_delete" else self._objects.add)(identity)
        self._enter(shard, {identity})
        return {}

    def _changes(self, call: Request) -> dict[Edge, bool]:
        """The edges that a write changes, and whether each is live then."""
        edge = Edge(call["id1"], call["atype"], call["id2"])
        if call["do"] == "assoc_add":
            return {edge: True}
        if not self._is_live(edge):
            return {}
        moved = {edge._replace(atype=call["newtype"]): True} if "newtype" in call else {}
        return {edge: False} | moved

    def _other_end(self, edge: Edge) -> Edge | None:
        inverse = self.inverses.get(edge.atype)
        return Edge(edge.id2, inverse, edge.id1) if inverse else None

    def _write_edges(self, call: Request) -> dict[Edge, Record] | None:
        shard = shard_of_call(call)
        near = {edge: Record((self._stamp(edge)[0] + 1, shard), live) for edge, live in self._changes(call).items()}
        if not near:
            return None
        others = {self._other_end(edge): record for edge, record in near.items()}
        owed = {edge: record for edge, record in others.items() if edge and shard_of(edge.id1) != shard}
        near |= {edge: record for edge, record in others.items() if edge and edge not in owed}
        self._enter(shard, {(edge.id1, edge.atype) for edge in near})
        self._records |= near
        return owed
