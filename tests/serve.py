#!/usr/bin/env python3
"""The built program's `serve` over real sockets: what its answers, its texts and its statuses have to be.

    serve.py PROGRAM [SECONDS [NAME..]]     sixteen clients ask for so many seconds (10); only the tests with these names
"""
import os, pathlib, random, resource, signal, socket, subprocess, sys, threading, time

sys.dont_write_bytecode = True
PROGRAM = os.path.abspath(sys.argv[1])
SECONDS = float(sys.argv[2]) if len(sys.argv) > 2 else 10
# What follows on the text of status 1.
USAGE = (pathlib.Path(__file__).resolve().parent / "usage.txt").read_bytes()
try:
    import sqlite3
except ImportError:
    sqlite3 = None
import serving
from clients import clients_agree
from serving import CLIENTS, HASH, NOTHING, OWNER, RAN, STORED, STRANGER, TOLD_HASH, Peer, Server, read, request, said, summary, whole

# Requests, what each is answered, and the files that they leave.
NOT_ALLOWED = (405, "Method Not Allowed", "text/plain", b"bad method\n", ["Allow: GET, PUT, POST"])
ROWS = [
    (("GET", "/policy/hash", 1), TOLD_HASH),
    (("GET", "/files/all/a", 1), said(404, "no such file /all/a")),
    (("PUT", "/files/all/a", 1, b"abc"), STORED),
    (("POST", "/files/all/a", 2, b"de"), STORED),
    (("GET", "/files/all/a", 3), read(b"abcde")),
    (("GET", "/files/./all/a", 3), read(b"abcde")),
    (("GET", "/files/all/../a", 3), said(400, "bad path 3")),
    (("GET", "/files/all/%61", 3), said(400, "bad path 2 at 4")),
    (("PUT", "/files/drop", 1, b"x"), STORED),
    (("GET", "/files/drop", 1), said(403, "denied /drop fd_read")),
    (("POST", "/files/drop", 1, b"x"), said(403, "denied /drop fd_seek")),
    (("PUT", "/files/own/2/a", 1, b"x"), said(403, "denied /own/2/a fd_write")),
    (("GET", "/files/all/a"), said(403, "unkeyed")),
    (("GET", "/files/all/a", STRANGER), said(403, "unkeyed")),
    (("POST", "/pipelines/7", 1), said(404, "no such file /p/nothing")),
    (("PUT", "/files/p/nothing", OWNER, NOTHING), STORED),
    (("POST", "/pipelines/7", 1), RAN),
    (("POST", "/pipelines/8", 1), said(404, "no such pipeline 8")),
    (("POST", "/pipelines/7", OWNER), said(403, "denied /p/nothing execute")),
    (("GET", "/nowhere", 1), said(404, "no route")),
    (("DELETE", "/files/all/a", 1), NOT_ALLOWED),
    (("HEAD", "/files/all/a", 1), NOT_ALLOWED),
]
FILES = {"/all/a": b"abcde", "/drop": b"x", "/p/nothing": NOTHING}
# Those that have no entry: they never come to the book.
UNASKED = (400, 405)
ENTRIES = sum(parts[0] not in UNASKED and parts[3] not in (b"unkeyed\n", b"no route\n") for _, parts in ROWS)
STREAM = b"".join(request(*asked) for asked, _ in ROWS)
ANSWERS = b"".join(whole(asked[0], parts) for asked, parts in ROWS)


def same(found, wanted):
    if found != wanted:
        raise AssertionError(f"found {found!r:.600}\nwanted {wanted!r:.600}")


def serves(server):
    """The server answers a new connection."""
    with server.peer() as peer:
        same(peer.ask("GET", "/policy/hash", 1), whole("GET", TOLD_HASH))


def one_by_one(place):
    """One connection is kept while every kind of request is asked, and at the end the server writes its summary."""
    with Server(PROGRAM, place, "--sessions", "1") as server:
        with server.peer() as peer:
            for asked, parts in ROWS:
                same(peer.ask(*asked), whole(asked[0], parts))
        same(server.end(), (0, summary(ENTRIES, FILES), b""))


def pipelined(place):
    """All requests come before any answer is read."""
    with Server(PROGRAM, place, "--sessions=1", "--workers", "1") as server:
        with server.peer() as peer:
            peer.send(STREAM)
            same(peer.take(len(ANSWERS)), ANSWERS)
        same(server.end(), (0, summary(ENTRIES, FILES), b""))


def single_bytes(place):
    """Each byte comes by itself."""
    with Server(PROGRAM, place) as server, server.peer() as peer:
        for byte in STREAM:
            peer.send(bytes([byte]))
        same(peer.take(len(ANSWERS)), ANSWERS)


def half_open(place):
    """A peer that ends its own side still gets its answers, and then the end."""
    with Server(PROGRAM, place) as server, server.peer() as peer:
        peer.send(STREAM)
        peer.socket.shutdown(socket.SHUT_WR)
        same(peer.take(len(ANSWERS) + 1), ANSWERS)


def closing(place):
    """Where a connection is to end, its end comes at once, also while other workers wait for connections."""
    bad = serving.text(400, "Bad Request", "bad request 1")
    large = serving.text(413, "Payload Too Large", "bad request 4")
    with Server(PROGRAM, place) as server:
        for sent, wanted in [
            (request("GET", "/policy/hash", 1, None, "Connection: close"), TOLD_HASH),
            (request("GET", "/policy/hash", 1, version="1.0"), TOLD_HASH),
            (b"G@T / HTTP/1.1\r\n\r\n", bad),
            (request("PUT", "/files/all/a", 1, None, "Content-Length: 16777217"), large),
        ] * 3:
            with server.peer(patience=5) as peer:
                peer.send(sent)
                same(peer.take(1 << 20), whole("GET", wanted, close=True))


def refused_while_sending(place):
    """A peer that goes on to send a whole body after its head was refused still gets the answer, and no reset."""
    head = request("PUT", "/files/all/a", 1, None, "Content-Length: 16777217")
    wanted = whole("PUT", serving.text(413, "Payload Too Large", "bad request 4"), close=True)
    with Server(PROGRAM, place, "--workers", "2") as server:
        for _ in range(4):
            with server.peer() as peer:
                peer.send(head, bytes(16_777_217))
                same(peer.take(1 << 20), wanted)
        serves(server)


def hang_ups(place):
    """Peers hang up in every state, in two ways, and more of them than there are workers. What was asked half isn't done."""
    put = request("PUT", "/files/all/cut", 1, b"y" * 1000)
    states = {
        "at once": b"",
        "in a head": put[:20],
        "after a head": put[:-1000],
        "in a body": put[:-1],
        "after a blank line": b"\r\n",
        "before it reads": request("GET", "/files/all/large", 1) * 3,
    }
    with Server(PROGRAM, place) as server:
        with server.peer() as peer:
            same(peer.ask("PUT", "/files/all/large", 1, bytes(4_000_000)), whole("PUT", STORED))
        for _ in range(6):
            for sent in states.values():
                for leave in (lambda peer: peer.socket.close(), Peer.reset):
                    peer = server.peer()
                    peer.send(sent)
                    leave(peer)
        serves(server)
        with server.peer() as peer:
            same(peer.ask("GET", "/files/all/cut", 1), whole("GET", said(404, "no such file /all/cut")))
        same(server.process.poll(), None)


def large_bodies(place):
    """Bodies of the most bytes that a file may have go both ways, and one byte more is refused."""
    body = random.Random(1).randbytes(16_777_216)
    with Server(PROGRAM, place) as server, server.peer() as peer:
        same(peer.ask("PUT", "/files/all/large", 1, body), whole("PUT", STORED))
        same(peer.ask("POST", "/files/all/large", 1, b"x"), whole("POST", said(413, "too large 16777217")))
        same(peer.ask("GET", "/files/all/large", 2), whole("GET", read(body)))
        for size in (65_000, 65_536, 65_537):
            same(peer.ask("PUT", "/files/all/b", 1, body[:size]), whole("PUT", STORED))
            same(peer.ask("GET", "/files/all/b", 1), whole("GET", read(body[:size])))


def most_requests(place):
    """A connection ends after its 65,536th request."""
    asked, parts = request("GET", "/nowhere"), said(404, "no route")
    with Server(PROGRAM, place, "--sessions", "1") as server:
        with server.peer() as peer:
            sender = threading.Thread(target=peer.send, args=[asked * 65_536])
            sender.start()
            answers = whole("GET", parts) * 65_535 + whole("GET", parts, close=True)
            found = peer.take(len(answers) + 1)
            sender.join()
        assert found == answers, "not 65,536 answers of which the last one closes"
        same(server.end(), (0, summary(0, {}), b""))


def silent_beside_busy(place):
    """One worker serves while all others wait for peers that send nothing."""
    with Server(PROGRAM, place, "--workers", "4") as server:
        silent = [server.peer() for _ in range(3)]
        silent[1].send(b"GET /policy")
        time.sleep(0.2)
        for _ in range(20):
            serves(server)
        for peer in silent:
            peer.socket.close()


def more_peers_than_workers(place):
    """Connections that no worker is free for wait until one is."""
    with Server(PROGRAM, place, "--workers", "2", "--sessions", "7") as server:
        peers = [server.peer() for _ in range(7)]
        for peer in peers:
            same(peer.ask("GET", "/policy/hash", 1), whole("GET", TOLD_HASH))
            peer.socket.close()
        same(server.end(), (0, summary(7, {}), b""))


def stopped_and_continued(place):
    """A stop of the process while its workers wait in the system is no fault."""
    with Server(PROGRAM, place, "--workers", "2") as server:
        with server.peer() as peer:
            same(peer.ask("GET", "/policy/hash", 1), whole("GET", TOLD_HASH))
            for _ in range(3):
                server.process.send_signal(signal.SIGSTOP)
                time.sleep(0.1)
                server.process.send_signal(signal.SIGCONT)
                time.sleep(0.1)
            same(peer.ask("GET", "/policy/hash", 1), whole("GET", TOLD_HASH))
        serves(server)


def few_files(place):
    """Where the program may open no more files, a connection waits until another one has ended, on whichever side."""
    few = lambda: resource.setrlimit(resource.RLIMIT_NOFILE, (8, 8))
    for fields in ([], ["Connection: close"]):
        with Server(PROGRAM, place, "--workers", "16", "--sessions", "12", preexec_fn=few) as server:
            peers = [server.peer() for _ in range(12)]
            for peer in peers:
                asked = request("GET", "/policy/hash", 1, None, *fields)
                peer.send(asked)
                same(peer.answer(), whole("GET", TOLD_HASH, close=bool(fields)))
                if not fields:
                    peer.socket.close()
            same(server.end(), (0, summary(12, {}), b""))


def sixteen_clients(place):
    """Sixteen clients ask four workers at once, and every answer is right by the policy's rules."""
    with Server(PROGRAM, place) as server:
        count = clients_agree(server.port, SECONDS)
        serves(server)
    return f"{count} answers"


def killed(place):
    """What was answered before the process is killed is there when its store is opened again."""
    kept = {}
    for number in range(5):
        with Server(PROGRAM, place, "--store", "store") as server:
            with server.peer() as peer:
                for path, body in kept.items():
                    same(peer.ask("GET", "/files" + path, OWNER), whole("GET", read(body)))
                for path in (f"/all/{number}", "/all/same"):
                    kept[path] = kept.get(path, b"") + b"%d" % number * 3000
                    same(peer.ask("PUT", "/files" + path, OWNER, kept[path]), whole("PUT", STORED))
            server.kill()


def killed_while_busy(place):
    """Four clients write when the process is killed: each answered write is there, or the one that came after it."""
    answered, begun, wrong = [0] * 4, [0] * 4, []

    def write(server, who):
        try:
            with server.peer() as peer:
                while True:
                    begun[who] += 1
                    answer = peer.ask("PUT", f"/files/all/{who}", OWNER, b"%d" % begun[who])
                    if answer != whole("PUT", STORED):
                        wrong.extend([answer] if answer else [])
                        return
                    answered[who] = begun[who]
        except OSError:
            pass

    def found(peer, who):
        """The number that is kept, and 0 where there is none."""
        answer = peer.ask("GET", f"/files/all/{who}", OWNER)
        if answer == whole("GET", said(404, f"no such file /all/{who}")):
            return 0
        number = int(answer.partition(b"\r\n\r\n")[2])
        same(answer, whole("GET", read(b"%d" % number)))
        return number

    for _ in range(4):
        with Server(PROGRAM, place, "--store", "store") as server:
            with server.peer() as peer:
                for who in range(4):
                    kept = found(peer, who)
                    assert kept in (answered[who], begun[who]), (who, kept, answered, begun)
                    answered[who] = begun[who] = kept
            writers = [threading.Thread(target=write, args=[server, who]) for who in range(4)]
            for writer in writers:
                writer.start()
            more, until = sum(answered) + 50, time.monotonic() + 30
            while sum(answered) < more and time.monotonic() < until:
                time.sleep(0.01)
            server.kill()
            for writer in writers:
                writer.join()
    same(wrong, [])
    assert sum(answered) > 50, answered
    return f"{sum(answered)} writes"


def store_after_end(place):
    """The store is the files that the summary names, and the next server begins with them."""
    for first in (True, False):
        with Server(PROGRAM, place, "--store=store", "--sessions", "1") as server:
            with server.peer() as peer:
                for asked, parts in ROWS if first else [(("GET", "/files/all/a", 1), read(b"abcde"))]:
                    same(peer.ask(*asked), whole(asked[0], parts))
            same(server.end(), (0, summary(ENTRIES if first else 1, FILES), b""))
    rows = sqlite3.connect(os.path.join(place, "store")).execute("SELECT path, body FROM files ORDER BY path").fetchall()
    same(dict(rows), FILES)


def options(place):
    """The fuel, the port and the store of the words are those that count: two servers at once, over one policy."""
    with Server(PROGRAM, place, "--fuel", "0", "--store", "one") as one, Server(PROGRAM, place, "--fuel=9", "--store=other") as other:
        for server, ran in ((one, serving.text(422, "Unprocessable Entity", "out of fuel /p/nothing")), (other, RAN)):
            with server.peer() as peer:
                same(peer.ask("PUT", "/files/p/nothing", OWNER, NOTHING), whole("PUT", STORED))
                same(peer.ask("POST", "/pipelines/7", 1), whole("POST", ran))
                same(peer.ask("PUT", "/files/all/a", 1, ran[3]), whole("PUT", STORED))
    stored = lambda name: dict(sqlite3.connect(os.path.join(place, name)).execute("SELECT path, body FROM files"))
    for name, body in (("one", b"out of fuel /p/nothing\n"), ("other", b"")):
        same(stored(name), {"/all/a": body, "/p/nothing": NOTHING})


def statuses(place):
    """The statuses of a server that doesn't come to serve: nothing is on standard output."""
    write = lambda name, content: open(os.path.join(place, name), "wb").write(content)
    write("no-keys", b"# nobody\n0 00\n")
    write("no-policy", b"{}")
    os.mkdir(os.path.join(place, "directory"))
    rows = [("/in", b"abc"), ("in", b"")]
    bad = sqlite3.connect(os.path.join(place, "bad-row"))
    bad.execute("CREATE TABLE files(path TEXT PRIMARY KEY NOT NULL, body BLOB NOT NULL) STRICT")
    bad.executemany("INSERT INTO files VALUES(?, ?)", rows)
    bad.commit()
    bad.close()
    write("no-store", b"not a database, but as long as one has to be " * 30)
    with socket.socket() as taken:
        taken.bind(("127.0.0.1", 0))
        taken.listen()
        port = str(taken.getsockname()[1])
        free = str(serving.free_port())
        for words, status, error in [
            (["--workers", "17", "policy", "keys"], 1, "usage: word 2"),
            (["--port", "65536", "policy", "keys"], 1, "usage: word 2"),
            (["policy"], 1, "usage: word 2"),
            (["no-policy", "keys"], 2, "policy refused: stage 1 rule 3 at 0"),
            (["absent", "keys"], 4, "absent: absent"),
            (["policy", "gone"], 4, "absent: gone"),
            (["policy", "directory"], 5, "read fault"),
            (["--port", port, "policy", "keys"], 8, "listen fault"),
            (["--port", port, "--store", "directory", "policy", "keys"], 8, "listen fault"),
            (["--port", port, "policy", "no-keys"], 10, "keys refused: line 2"),
            (["--port", free, "--store", "directory", "policy", "keys"], 9, "keeper fault"),
            (["--port", free, "--store", "no-store", "policy", "keys"], 9, "keeper fault"),
            (["--port", free, "--store", "bad-row", "policy", "keys"], 11, "store refused: row 1"),
        ]:
            done = subprocess.run([PROGRAM, "serve", *words], cwd=place, capture_output=True, timeout=60)
            found = (done.returncode, done.stderr, done.stdout)
            usage = USAGE if status == 1 else b""
            assert found == (status, error.encode() + b"\n" + usage, b""), (words, found)
    with open("/dev/full", "wb") as full:
        words = [PROGRAM, "serve", "--port", free, "policy", "keys"]
        done = subprocess.run(words, cwd=place, stdout=full, stderr=subprocess.PIPE, timeout=60)
        same((done.returncode, done.stderr), (6, b"write fault\n"))


TESTS = [
    one_by_one,
    pipelined,
    single_bytes,
    half_open,
    closing,
    refused_while_sending,
    hang_ups,
    large_bodies,
    most_requests,
    silent_beside_busy,
    more_peers_than_workers,
    stopped_and_continued,
    few_files,
    sixteen_clients,
    killed,
    killed_while_busy,
    store_after_end,
    options,
    statuses,
]

# Those that look into a store, whose tables older versions of SQLite don't know.
LOOK_INTO_STORES = [store_after_end, options, statuses]


def main():
    named = sys.argv[3:]
    chosen = [test for test in TESTS if not named or test.__name__ in named]
    if sqlite3 is None or sqlite3.sqlite_version_info < (3, 37):
        print("serve: Python has no SQLite of version 3.37, so that what looks into stores is skipped")
        chosen = [test for test in chosen if test not in LOOK_INTO_STORES]
    failed = 0
    for test in chosen:
        begun = time.monotonic()
        with serving.folder() as place:
            try:
                note = test(place)
            except (AssertionError, OSError, subprocess.TimeoutExpired) as fault:
                failed += 1
                print(f"{test.__name__}: {type(fault).__name__} {fault}", file=sys.stderr)
            else:
                print(f"{test.__name__}: {note or 'as it should be'} ({time.monotonic() - begun:.1f} s)", flush=True)
    print(f"serve: {len(chosen) - failed} of {len(chosen)} as they should be")
    sys.exit(1 if failed else 0)


main()
