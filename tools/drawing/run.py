"""What each line of a run did: the ways that it took between nodes, and what happened at them.

Replies say how many hops a call took and whether a store was called; who serves a shard, which links are cut and what the logs have follows
from the lines before, by the rules of docs/ARCHITECTURE.md and docs/PROTOCOL.md. What no line tells isn't drawn.
"""

from collections import Counter
from collections.abc import Callable
from dataclasses import dataclass

from .logs import Committed, Job, Logs, key_of, shard_of_call
from .marks import Marks
from .steps import Row, Walk
from .topology import Topology
from .words import READS, WRITES, Line, words_of_reply, words_of_request

INBOX = 4096
REFUSED_BY_ENTRY = ("seq_reused", "too_old")  # a refusal that tells the position of an entry that stands
REFUSED_AT_STORE = REFUSED_BY_ENTRY + ("shard_full", "stamp_full", "log_full", "keeper_fault", "link_fault", "memory", "node_down")


@dataclass
class Course:
    """A call on its way: its follower is chosen when it begins, and its leaders when it is committed."""

    call: Line
    follower: str
    passed: str | None = None
    leader: str = ""

    @property
    def shard(self) -> int:
        return shard_of_call(self.call)

    def route(self) -> list[str]:
        """The way of a write: its follower, the leader of a slave region, the one that commits it."""
        return [self.follower] + ([self.passed] if self.passed else []) + [self.leader]


@dataclass
class Plan:
    """A held call: the stage that comes next, and how its last reply will tell what came of it."""

    course: Course
    stage: str
    ending: Line
    job: Job | None = None


class Run:
    """A run, line by line. `rows` has what each did."""

    def __init__(self, requests: list[Line], replies: list[Line]) -> None:
        self.topology = Topology(requests[0])
        self.logs = Logs({kind["name"]: kind.get("inverse") for kind in requests[0]["assocs"]})
        self.sessions: dict[int, tuple[str, str]] = {}
        self._cuts: set[tuple[str, str]] = set()
        self._plans: dict[int, Plan] = {}
        self.inboxes: dict[str, list[tuple[int, int]]] = {node: [] for node in self.topology.caches()}
        self.marks = Marks()
        self._taken: Counter[tuple[str, int]] = Counter()  # how many entries the store of a slave region has
        self._old: Counter[tuple[str, int]] = Counter()  # up to where a store's log is cut
        self._replies = replies
        self.rows = [self._row(number, *lines) for number, lines in enumerate(zip(requests, replies))]

    def _row(self, number: int, request: Line, reply: Line) -> Row:
        walk = Walk(self._cuts)
        if number > 0:
            self._take(number, request, reply, walk)
        is_refused = "no" in reply or "bad" in reply
        read = self._versions(request, reply)
        return Row(number + 1, words_of_request(request), words_of_reply(reply), walk.steps, read, is_refused)

    def _take(self, number: int, request: Line, reply: Line, walk: Walk) -> None:
        word = request.get("do")
        if "no" in reply and reply["no"] not in REFUSED_AT_STORE + ("unsettled",):
            return
        if word in WRITES:
            self._write(request, reply, walk)
        elif word in READS:
            self._read(request, reply, walk)
        elif word == "hold":
            self._hold(number, request, reply, walk)
        elif word in self._OTHERS:
            self._OTHERS[word](self, request, reply, walk)

    def _versions(self, request: Line, reply: Line) -> tuple[int, int] | None:
        """The version that a read answered, and that of the log."""
        if reply.get("ok") not in READS:
            return None
        call = self._plans.pop(request["plan"]).course.call if request["do"] == "advance" else request.get("request", request)
        return reply["version"], self.logs.learn(key_of(call), reply["version"])

    # who serves

    def _tier(self, call: Line) -> tuple[str, str]:
        return self.sessions[call["session"]]

    def _master_store(self, shard: int) -> str:
        return self.topology.store(self.topology.master(shard), shard)

    def _told(self, shard: int, by: str) -> list[str]:
        """Who gets a message of an entry that a leader or store wrote at the shard's master: the preferred leader, where that is another and up."""
        preferred = self.topology.preferred(self.topology.master(shard), shard)
        told = self.topology.told(self.topology.master(shard), shard)
        return told if preferred in (by, *self.topology.down) else [*told, preferred]

    def _begin(self, call: Line, walk: Walk) -> Course:
        course = Course(call, self.topology.follower(*self._tier(call), shard_of_call(call)) or "")
        walk.way(session_column(call["session"]), course.follower, "client")
        return course

    def _choose(self, course: Course) -> None:
        """The leaders of a write."""
        tier, master = self._tier(course.call), self.topology.master(course.shard)
        course.leader = self.topology.leader(tier, master, course.shard) or ""
        course.passed = self.topology.leader(tier, tier[0], course.shard) if tier[0] != master else None

    # reads

    def _read(self, call: Line, reply: Line, walk: Walk) -> None:
        course = self._begin(call, walk)
        if reply.get("hops") == 0:
            walk.mark(course.follower, "answer")
            return
        self._open_ask(course, reply)
        asked = not call.get("critical") and self._ask(course, reply, walk)
        if call.get("critical") or (asked and reply.get("hops", 2) > 2):
            self._ask_master(course, reply, walk)

    def _open_ask(self, course: Course, reply: Line) -> None:
        if reply.get("why") != "asks":
            self.marks.forget(course.follower, course.shard)

    def _ask(self, course: Course, reply: Line, walk: Walk) -> bool:
        return self._ask_region(course.follower, self._tier(course.call), course.shard, reply, walk)

    def _ask_region(self, follower: str, tier: tuple[str, str], shard: int, reply: Line, walk: Walk) -> bool:
        """The preferred leader of the region answers, of what it holds or from its store; or the store itself, where that leader may not be asked."""
        leader, store = self.topology.preferred(tier[0], shard), self.topology.store(tier[0], shard)
        asked = leader if self.topology.may_lead(tier, leader) else store
        is_last = reply.get("hops", 2) == 2
        if not walk.hop(follower, asked):
            return False
        calls = reply.get("store") or reply.get("no") == "keeper_fault"
        if calls and is_last and asked == leader:
            walk.way(leader, store, "call")
        if "no" not in reply and is_last:
            walk.mark(store if calls else leader, "answer")
        return reply.get("no") != "keeper_fault" and walk.hop(asked, follower)

    def _ask_master(self, course: Course, reply: Line, walk: Walk) -> None:
        store = self._master_store(course.shard)
        if walk.hop(course.follower, store) and reply.get("no") != "keeper_fault":
            if "no" not in reply:
                walk.mark(store, "answer")
            walk.hop(store, course.follower)

    def _refill(self, request: Line, reply: Line, walk: Walk) -> None:
        region, tier = request["node"].split("/")[:2]
        if len(self.topology.leaders(region)) == len(self.topology.stores(region)) == 1:
            self._ask_region(request["node"], (region, tier), 0, reply, walk)
        else:
            walk.mark(request["node"], "seen")

    # writes

    def _write(self, call: Line, reply: Line, walk: Walk) -> None:
        course = self._begin(call, walk)
        done = self._commit(course, reply, walk)
        if done and done.job and self._merge(course, done.job, reply, walk):
            self._end(course, done.job, reply, walk)
        if "no" not in reply or reply["no"] == "link_fault" and walk.has_called():
            walk.along(course.route()[::-1])

    def _commit(self, course: Course, reply: Line, walk: Walk) -> Committed | None:
        """The stage `commit`, in which a new entry's messages are sent."""
        self._choose(course)
        if not walk.along(course.route()):
            return None
        walk.way(course.leader, self._master_store(course.shard), "call")
        if "no" in reply and (reply["no"] in REFUSED_BY_ENTRY or not reply.get("position")):
            return None
        done = self.logs.commit(course.call)
        if done:
            self._take_written(course.leader, course.shard, done.position)
        if done and done.is_new:
            self._tell(self._told(course.shard, course.leader), course.shard, done.position, walk)
        return done

    def _merge(self, course: Course, job: Job, reply: Line, walk: Walk) -> bool:
        """The stage `inverse`: whether the job was merged and the answer came back."""
        if job.far >= self.topology.shards:
            return False
        other = self.topology.leader(self._tier(course.call), self.topology.master(job.far), job.far)
        if other is None or not walk.hop(course.leader, other):
            return False
        walk.way(other, self._master_store(job.far), "call")
        is_merged = reply.get("why") in (None, "link_fault")
        if is_merged:
            position = self._merge_at(job, walk, self._told(job.far, other))
            if position:
                self._take_written(other, job.far, position)
        return walk.hop(other, course.leader) and is_merged

    def _merge_at(self, job: Job, walk: Walk, told: list[str]) -> int | None:
        position = self.logs.merge(job)
        if position:
            self._tell(told, job.far, position, walk)
        return position

    def _take_written(self, leader: str, shard: int, position: int) -> None:
        """The preferred leader marks what it wrote; one that stands in doesn't."""
        if leader == self.topology.preferred(self.topology.master(shard), shard):
            self.marks.mark(leader, shard, position)

    def _end(self, course: Course, job: Job, reply: Line, walk: Walk) -> None:
        """The stage `end`, at the job's own shard."""
        walk.way(course.leader, self._master_store(job.shard), "call")
        if "why" not in reply:
            self.logs.end(job)

    # jobs

    def _repair(self, request: Line, reply: Line, walk: Walk) -> None:
        jobs = self.logs.jobs[request["shard"]]
        if jobs:
            self._run_job(jobs[0], reply, walk)

    def _run_job(self, job: Job, reply: Line, walk: Walk) -> bool:
        """A job is carried from store to store, merged and ended: whether it was. Then the followers there are told, and the leader."""
        start, end = self._master_store(job.shard), self._master_store(job.far)
        if job.far >= self.topology.shards or not walk.hop(start, end):
            return False
        is_merged = not is_refused_by_store(job, reply)
        if is_merged:
            is_told = reply.get("ok") == "repair"
            self._merge_at(job, walk, self._told(job.far, end) if is_told else [])
        if not walk.hop(end, start) or not is_merged:
            return False
        self.logs.end(job)
        return True

    def _settle(self, _: Line, reply: Line, walk: Walk) -> None:
        for shard in range(self.topology.shards):
            for job in list(self.logs.jobs[shard]):
                if not self._run_job(job, reply, walk):
                    return
        if not self._run_streams(walk) or not self._catch_up() or "no" in reply:
            return
        self.inboxes = {node: [] for node in self.inboxes}
        for node in self.topology.caches():
            if node not in self.topology.down:
                walk.mark(node, "settled")

    def _catch_up(self) -> bool:
        """Each node that is up processes what its region's stores have, the leaders first: whether all do. Each log that it lacks a part of is a carry."""
        for region in self.topology.regions:
            for node in self.topology.leaders(region) + self.topology.followers(region):
                for shard in self._served(node) if node not in self.topology.down else []:
                    if self.marks.low[node, shard] < self._length(region, shard) and (self.topology.store(region, shard), node) in self._cuts:
                        return False
                    self.marks.begin(node, shard, self._length(region, shard))
        return True

    # streams

    def _stream(self, request: Line, reply: Line, walk: Walk) -> None:
        region, shard = request["region"], request["shard"]
        if reply.get("hops") == 0:
            walk.mark(self.topology.store(region, shard), "seen")
        elif reply.get("no", "link_fault") == "link_fault":
            self._step_of_stream(region, shard, walk, reply.get("verdict") == "applied")

    def _step_of_stream(self, region: str, shard: int, walk: Walk, is_applied: bool = True) -> bool:
        """An entry is carried to a slave's store: whether it came there. One that is applied is processed by the leader, and the followers are told."""
        if not walk.hop(self._master_store(shard), self.topology.store(region, shard)):
            return False
        if is_applied:
            self._taken[region, shard] += 1
            position = self._taken[region, shard]
            leader = self.topology.preferred(region, shard)
            if leader not in self.topology.down:
                self.marks.mark(leader, shard, position)
                walk.mark(leader, "delivered", str(position))
            self._tell(self.topology.told(region, shard), shard, position, walk)
        return True

    def _run_streams(self, walk: Walk) -> bool:
        """Every stream is moved to its end: whether all were."""
        slaves = [(region, shard) for region in self.topology.regions for shard in range(self.topology.shards) if region != self.topology.master(shard)]
        return all(
            self._step_of_stream(region, shard, walk)
            for region, shard in slaves
            for _ in range(self._taken[region, shard], self.logs.lengths[shard])
        )

    # trims

    def _trim(self, request: Line, reply: Line, walk: Walk) -> None:
        """A log is cut, and who lies behind begins anew. One that is down does so too, which nobody sees."""
        if "no" in reply:
            return
        region, shard, cut = request["region"], request["shard"], reply["cut"]
        if cut == self._old[region, shard]:
            walk.mark(self.topology.store(region, shard), "seen")
            return
        self._old[region, shard] = cut
        walk.mark(self.topology.store(region, shard), "trimmed", str(cut))
        for node in self.topology.serving(region, shard):
            if node not in self.topology.down and self.marks.low[node, shard] < cut:
                self._begin_at_stores(node)
                self.inboxes[node] = []
                walk.mark(node, "reset")

    def _begin_at_stores(self, node: str) -> None:
        """The node has processed what its region's stores have of the shards that it serves."""
        for shard in self._served(node):
            self.marks.begin(node, shard, self._length(node.split("/")[0], shard))

    def _served(self, node: str) -> list[int]:
        return [shard for shard in range(self.topology.shards) if node in self.topology.serving(node.split("/")[0], shard)]

    def _length(self, region: str, shard: int) -> int:
        """How many entries the region's store has."""
        return self.logs.lengths[shard] if region == self.topology.master(shard) else self._taken[region, shard]

    # messages

    def _tell(self, nodes: list[str], shard: int, position: int, walk: Walk) -> None:
        for node in nodes:
            inbox = self.inboxes[node]
            if len(inbox) < INBOX:
                inbox.append((shard, position))
                walk.mark(node, "sent", str(position))
            else:
                walk.mark(node, "lost", str(position))

    def _message(self, request: Line, reply: Line, walk: Walk) -> None:
        """A message is delivered, delivered and kept, or dropped."""
        if "position" not in reply or "no" in reply:
            return
        inbox = self.inboxes[request["node"]]
        if request["do"] != "again" and request["message"] < len(inbox):
            del inbox[request["message"]]
        if request["do"] != "drop":
            self.marks.mark(request["node"], reply["shard"], reply["position"])
        walk.mark(request["node"], "dropped" if request["do"] == "drop" else "delivered", str(reply["position"]))

    # held calls

    def _hold(self, number: int, request: Line, reply: Line, walk: Walk) -> None:
        call = request["request"]
        plan = Plan(self._begin(call, walk), reply.get("next", ""), self._ending(number, request["plan"]))
        if plan.stage in ("ask", "master"):
            self._open_ask(plan.course, plan.ending)
        if call["do"] in WRITES:
            done = self._commit(plan.course, reply, walk)
            plan.job = done.job if done else None
        if plan.stage:
            self._plans[request["plan"]] = plan
            self._wait(plan, walk)
        elif reply.get("ok") in READS:
            walk.mark(plan.course.follower, "answer")

    def _ending(self, number: int, plan: int) -> Line:
        """The last reply of a plan, where the run has one: it tells what its stages did."""
        endings = (reply for reply in self._replies[number:] if reply.get("plan") == plan and "next" not in reply)
        return next(endings, {})

    def _advance(self, request: Line, reply: Line, walk: Walk) -> None:
        plan = self._plans[request["plan"]]
        if reply.get("no") != "node_down":
            self._step(plan, reply, walk)
        if "next" in reply:
            plan.stage = reply["next"]
            self._wait(plan, walk)
        elif reply.get("ok") not in READS:
            del self._plans[request["plan"]]

    def _step(self, plan: Plan, reply: Line, walk: Walk) -> None:
        known = reply if "no" in reply else plan.ending
        if plan.stage == "ask":
            self._ask(plan.course, known, walk)
        elif plan.stage == "master":
            self._ask_master(plan.course, known, walk)
        elif plan.stage == "keep":
            walk.mark(plan.course.follower, "seen")
        elif plan.stage == "inverse" and plan.job:
            self._merge(plan.course, plan.job, {} if reply.get("next") == "end" else known, walk)
        elif plan.stage == "end" and plan.job:
            self._end(plan.course, plan.job, known, walk)
        elif plan.stage == "relay":
            walk.along(plan.course.route()[:0:-1])
        elif plan.stage == "apply":
            walk.along(plan.course.route()[1::-1])

    def _wait(self, plan: Plan, walk: Walk) -> None:
        """Marks where a held call waits."""
        is_read = plan.course.call["do"] in READS
        walk.mark(plan.course.follower if is_read else plan.course.leader, "held", plan.stage)

    # the health of nodes

    def _go_down(self, request: Line, reply: Line, walk: Walk) -> None:
        if reply.get("changed"):
            self.topology.down.add(request["node"])
            self.inboxes[request["node"]] = []
            walk.mark(request["node"], "down")

    def _come_up(self, request: Line, reply: Line, walk: Walk) -> None:
        if reply.get("changed"):
            self.topology.down.discard(request["node"])
            self._begin_at_stores(request["node"])
            walk.mark(request["node"], "up")

    def _suspect(self, request: Line, reply: Line, walk: Walk) -> None:
        if reply.get("changed"):
            change = self.topology.suspected.add if request["do"] == "suspect" else self.topology.suspected.discard
            change((request["region"], request["tier"], request["node"]))
            walk.mark(request["node"], "seen")

    # the rest

    def _open(self, request: Line, reply: Line, walk: Walk) -> None:
        if "no" not in reply:
            self.sessions[request["session"]] = (request["region"], request["tier"])
            walk.mark(session_column(request["session"]), "seen")

    def _switch(self, request: Line, reply: Line, walk: Walk) -> None:
        if "no" in reply:
            return
        pair = (request["from"], request["to"])
        (self._cuts.add if request["do"] == "cut" else self._cuts.discard)(pair)
        walk.way(*pair, request["do"])

    def _see(self, request: Line, reply: Line, walk: Walk) -> None:
        if "no" not in reply:
            walk.mark(request["node"], "seen")

    def _audit(self, request: Line, reply: Line, walk: Walk) -> None:
        if "no" not in reply:
            walk.mark(self._master_store(shard_of_call(request["request"])), "answer")

    _OTHERS: dict[str, Callable[["Run", Line, Line, Walk], None]] = {
        "advance": _advance,
        "again": _message,
        "audit": _audit,
        "cut": _switch,
        "deliver": _message,
        "down": _go_down,
        "drop": _message,
        "evict": _see,
        "inbox": _see,
        "mend": _switch,
        "open": _open,
        "refill": _refill,
        "repair": _repair,
        "settle": _settle,
        "show": _see,
        "stream": _stream,
        "suspect": _suspect,
        "trim": _trim,
        "trust": _suspect,
        "up": _come_up,
    }


def is_refused_by_store(job: Job, reply: Line) -> bool:
    """Whether a store refused to merge the job, by the reply to a repair, or to a settle that ended at the job's shard."""
    return bool({reply.get("no"), reply.get("why")} & {"log_full", "keeper_fault"}) and reply.get("shard", job.shard) == job.shard


def session_column(number: int) -> str:
    return f"session {number}"
