#!/usr/bin/env python3
"""A client of the server: a session, writes, reads, and a batch of reads.

usage: client.py [PORT]

Start the server first: tao serve --port 7171 < examples/realistic.jsonl
It takes the first line of its input, the configuration, and each client then writes one JSON request a line and reads one JSON reply a line.
"""
import json
import socket
import sys


class Client:
    """A connection, which has one session."""

    def __init__(self, port, session, region, tier):
        self.socket = socket.create_connection(("127.0.0.1", port))
        self.replies = self.socket.makefile("rb")
        self.session, self.seq = session, 0
        self.call("open", region=region, tier=tier)

    def ask(self, do, **fields):
        return dict({"do": do, "session": self.session}, **fields)

    def call(self, do, **fields):
        """The reply to a request. A refusal is an error."""
        self.socket.sendall(json.dumps(self.ask(do, **fields)).encode() + b"\n")
        reply = json.loads(self.replies.readline())
        if "ok" not in reply:
            raise RuntimeError(reply)
        return reply

    def write(self, do, **fields):
        """A session numbers its writes, so that one which is sent again isn't done twice."""
        self.seq += 1
        return self.call(do, seq=self.seq, **fields)

    def add(self, id1, atype, id2, time):
        return self.write("assoc_add", id1=id1, atype=atype, id2=id2, time=time, data={})


def main():
    port = int(sys.argv[1]) if len(sys.argv) > 1 else 7171
    client = Client(port, session=1, region="east", tier="t1")
    ann = client.write("obj_add", shard=0, otype="user", data={"name": "Ann"})["id"]
    post = client.write("obj_add", shard=1, otype="post", data={"text": "Hello"})["id"]
    client.add(ann, "likes", post, time=5)
    print("who likes it:", [edge["id2"] for edge in client.call("assoc_range", id1=post, atype="liked_by", pos=0, limit=10)["edges"]])
    batch = client.call("batch", requests=[
        client.ask("obj_get", id=post),
        client.ask("assoc_count", id1=post, atype="liked_by"),
        client.ask("assoc_count", id1=ann, atype="likes"),
    ])
    for reply in batch["replies"]:
        print(json.dumps(reply))


if __name__ == "__main__":
    main()
