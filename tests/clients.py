"""Clients that ask a server at once, and the rules by which each answer is judged.

Each client writes files of its own, whose contents it knows, and files that all share. A file that is shared is judged as a
register: what is read was written by a call that had begun, and no later write of it was over before the read began. A text
that grows is judged by what was added: each piece once, those of one client in their order.
"""
import bisect, itertools, random, threading, time
from typing import NamedTuple

from serving import CLIENTS, RAN, STORED, STRANGER, TOLD_HASH, Peer, read, request, said, whole

SHARED = [f"/all/s{number}" for number in range(3)]
GROWING = "/all/growing"


class Write(NamedTuple):
    begun: float
    ended: float
    body: bytes


class Read(NamedTuple):
    begun: float
    ended: float
    body: bytes  # None where there was no file


class Client(threading.Thread):
    def __init__(self, port, who, until):
        super().__init__()
        self.port, self.who, self.until = port, who, until
        self.draw = random.Random(who)
        self.files, self.written = {}, 0
        self.shared = {path: [] for path in SHARED}
        self.grown, self.read_grown = [], []
        self.count, self.fault = 0, None

    def run(self):
        try:
            while time.monotonic() < self.until:
                with Peer(self.port) as self.peer:
                    for _ in range(self.draw.randrange(1, 40)):
                        self.draw.choice(self.ACTS)(self)
        except (AssertionError, OSError) as fault:
            self.fault = f"client {self.who}: {type(fault).__name__} {fault}"

    def ask(self, *asked):
        """The response, and when it was asked for and came."""
        begun = time.monotonic()
        found = self.peer.ask(*asked)
        self.count += 1
        return begun, time.monotonic(), found

    def expect(self, parts, *asked):
        begun, ended, found = self.ask(*asked)
        wanted = whole(asked[0], parts)
        assert found == wanted, f"{asked}: found {found[:300]}, wanted {wanted[:300]}"
        return begun, ended

    def fresh(self):
        """A body that nobody else writes."""
        self.written += 1
        return b"%d of %d " % (self.written, self.who) * self.draw.randrange(1, 200)

    def own(self):
        path = f"/own/{self.who}/{self.draw.randrange(4)}"
        kind, held = self.draw.randrange(3), self.files.get(path)
        if kind == 0:
            self.expect(said(404, f"no such file {path}") if held is None else read(held), "GET", "/files" + path, self.who)
        elif kind == 1:
            self.files[path] = self.fresh()
            self.expect(STORED, "PUT", "/files" + path, self.who, self.files[path])
        else:
            more = self.fresh()
            self.files[path] = (held or b"") + more if len(held or b"") < 50_000 else more
            self.expect(STORED, "POST" if len(held or b"") < 50_000 else "PUT", "/files" + path, self.who, more)

    def refused(self):
        other = self.who % len(CLIENTS) + 1
        path = f"/own/{other}/0"
        parts, *asked = self.draw.choice([
            (said(403, f"denied {path} fd_read"), "GET", "/files" + path, self.who),
            (said(403, f"denied {path} fd_write"), "PUT", "/files" + path, self.who, b"x"),
            (said(403, f"denied {path} fd_seek"), "POST", "/files" + path, self.who, b"x"),
            (said(403, "denied /drop fd_read"), "GET", "/files/drop", self.who),
            (said(403, "unkeyed"), "GET", "/files" + path),
            (said(403, "unkeyed"), "PUT", "/files" + path, STRANGER, b"x"),
            (said(400, "bad path 1"), "GET", "/files/a//b", self.who),
            (said(404, "no route"), "GET", "/files/", self.who),
            (said(404, "no such pipeline 1"), "POST", "/pipelines/1", self.who),
            (TOLD_HASH, "GET", "/policy/hash", self.who),
        ])
        self.expect(parts, *asked)

    def share(self):
        path = self.draw.choice(SHARED)
        if self.draw.random() < 0.5:
            body = self.fresh()
            self.shared[path].append(Write(*self.expect(STORED, "PUT", "/files" + path, self.who, body), body))
        else:
            begun, ended, found = self.ask("GET", "/files" + path, self.who)
            body = None if found == whole("GET", said(404, f"no such file {path}")) else found.partition(b"\r\n\r\n")[2]
            assert body is None or found == whole("GET", read(body)), found[:300]
            self.shared[path].append(Read(begun, ended, body))

    def grow(self):
        if self.draw.random() < 0.7:
            piece = b"%d:%d;" % (self.who, len(self.grown))
            self.grown.append(piece)
            self.expect(STORED, "POST", "/files" + GROWING, self.who, piece)
        else:
            found = self.ask("GET", "/files" + GROWING, self.who)[2]
            body = found.partition(b"\r\n\r\n")[2]
            if found != whole("GET", said(404, f"no such file {GROWING}")):
                assert found == whole("GET", read(body)), found[:300]
                self.read_grown.append(body)
                mine = [piece for piece in body.split(b";") if piece.startswith(b"%d:" % self.who)]
                assert b"".join(piece + b";" for piece in mine) == b"".join(self.grown), f"{self.who}: {body[-300:]}"

    ACTS = [own, own, own, refused, share, share, grow]


def judge_register(path, calls):
    """What each read found is what a write had begun to write, and no write between the two replaced it."""
    writes = sorted((call for call in calls if isinstance(call, Write)), key=lambda write: write.ended)
    by_body = {write.body: write for write in writes}
    ends = [write.ended for write in writes]
    # of the writes that were over at a moment, when the last of them began
    last_begun = [0, *itertools.accumulate((write.begun for write in writes), max)]
    for call in calls:
        if isinstance(call, Write):
            continue
        over = last_begun[bisect.bisect_left(ends, call.begun)]
        if call.body is None:
            assert not over, f"{path}: lost"
            continue
        write = by_body.get(call.body)
        assert write, f"{path}: read {call.body[:50]}, which nobody wrote"
        assert write.begun < call.ended, f"{path}: read before it was written"
        assert over <= write.ended, f"{path}: read what was replaced"


def judge_growth(clients, last):
    """What was read of the growing text is a beginning of what it came to, which has each piece once."""
    assert sorted(last.split(b";")[:-1]) == sorted(piece[:-1] for client in clients for piece in client.grown), "a piece is lost or twice"
    for client in clients:
        for body in client.read_grown[-50:]:
            assert last.startswith(body), "the text changed behind its end"


def clients_agree(port, seconds):
    """So many seconds of requests. The answer is how many were answered; a wrong one is an AssertionError."""
    until = time.monotonic() + seconds
    clients = [Client(port, who, until) for who in CLIENTS]
    for client in clients:
        client.start()
    for client in clients:
        client.join()
    faults = [client.fault for client in clients if client.fault]
    assert not faults, "\n".join(faults)
    for path in SHARED:
        judge_register(path, [call for client in clients for call in client.shared[path]])
    with Peer(port) as peer:
        found = peer.ask("GET", "/files" + GROWING, 1)
        judge_growth(clients, found.partition(b"\r\n\r\n")[2])
        for client in clients:
            for path, body in client.files.items():
                assert peer.ask("GET", "/files" + path, client.who) == whole("GET", read(body)), path
    return sum(client.count for client in clients)
