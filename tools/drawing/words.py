"""Requests and replies in few words."""

from typing import Any

from .logs import SERIAL_BITS, shard_of

Line = dict[str, Any]
WRITES = ("obj_add", "obj_update", "obj_delete", "assoc_add", "assoc_delete", "assoc_change_type")
READS = ("obj_get", "assoc_get", "assoc_count", "assoc_range", "assoc_time_range")
DONE = {"cut": "cut", "mend": "mended", "drop": "dropped"}
IDENTITIES = ("id", "id1", "id2")
UNSAID = ("do", "request", "data", "limit", "seq", "time", "high", "low", "critical")


def named(identity: int) -> str:
    """An id as its shard and its number there."""
    return f"{shard_of(identity)}:{identity & (1 << SERIAL_BITS) - 1}"


def said(field: str, value: Any) -> str:
    if field in IDENTITIES:
        return named(value)
    if field == "ids":
        return ",".join(named(identity) for identity in value)
    if field == "shard":
        return f"on shard {value}"
    return str(value)


def words_of_request(request: Line) -> str:
    """What a line asks for. Who asks is seen in the picture."""
    word = request.get("do")
    if not isinstance(word, str):
        return f"configuration: {counted(request['shards'], 'shard')}" if "regions" in request else "no request"
    if word == "open":
        return f"open at {request['region']}/{request['tier']}"
    unsaid = UNSAID + (("session", "pos") if word in WRITES + READS else ())
    told = sorted((field for field in request if field not in unsaid), key=lambda field: field == "shard")
    words = [word] + [said(field, request[field]) for field in told]
    if request.get("pos"):
        words.append(f"from place {request['pos']}")
    if request.get("critical"):
        words.append("critical")
    if isinstance(request.get("request"), dict):
        words.append(words_of_request(request["request"]))
    return " ".join(words)


def words_of_write(reply: Line) -> str:
    if not reply["changed"]:
        return "nothing to change"
    inverse = reply["inverse"]
    parts = [f"position {reply['position']}", "a retry" if reply["retry"] else "", "" if inverse == "none" else f"inverse {inverse}"]
    why = f": {reply['why']}" if "why" in reply else ""
    return ", ".join(part for part in parts if part) + why


def counted(count: int, thing: str) -> str:
    return f"{count} {thing}" + ("" if count == 1 else "s")


def words_of_content(reply: Line) -> str:
    """What a read answers."""
    if "edges" in reply:
        return counted(len(reply["edges"]), "edge")
    if "count" in reply:
        return f"count {reply['count']}"
    found = reply.get("object")
    return " ".join([found["otype"], *found["data"].values()]) if found else "no object"


def words_of_refusal(reply: Line) -> str:
    position = [f"position {reply['position']}"] if reply.get("position") else []
    rest = [str(value) for name, value in reply.items() if name not in ("no", "when", "count", "position")]
    return " ".join(["refused:", reply["no"], *rest, *position])


def words_of_reply(reply: Line) -> str:
    """What a line is answered. Versions, hops and calls of stores are seen in the picture."""
    word = reply.get("ok")
    if "no" in reply:
        return words_of_refusal(reply)
    if word is None:
        return "refused: " + " ".join(str(value) for value in reply.values())
    if "next" in reply and word in ("hold", "advance"):
        return f"held, next {reply['next']}"
    if word in WRITES:
        return words_of_write(reply)
    if word in READS + ("audit",):
        return words_of_content(reply) + ("" if reply.get("kept", True) else f", not kept: {reply['why']}")
    if word == "show":
        return words_of_content(reply) if reply["held"] else "not held"
    if word == "inbox":
        return counted(len(reply["messages"]), "message")
    if word == "refill":
        return "kept" if reply["kept"] else f"not kept: {reply['why']}"
    if word == "settle":
        return "log lengths " + ", ".join(str(length) for length in reply["logs"])
    if word == "stream":
        return f"{reply['verdict']}, next is {reply['next']}"
    if word == "evict":
        return "evicted" if reply["evicted"] else "was not held"
    rest = [f"{name} {value}" for name, value in reply.items() if name not in ("ok", "hops", "shard", "position")]
    return ", ".join(rest) or DONE.get(word, word)
