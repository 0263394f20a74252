#!/usr/bin/env python3
"""Writes crates/vr_server_cases/{stdin,stdout}: servers over connections in memory, by several workers, and what comes of each.

What is wanted doesn't depend on which worker comes first. The responses are those of `face_cases.py`, which works them out
from the rules of messages; the rest is written down here beside the requests.

    tests/server_cases.py          writes the two files
    tests/server_cases.py --check  ends with status 1 where they are not what would be written
"""
import json, sys

sys.dont_write_bytecode = True
from face_cases import FAULTS, response, text
from http_cases import KEY1, KEY2, crlf, put
from texts import policy, sha256

FOLDER = "crates/vr_server_cases/"
# Identity 1 may write a file that identity 2 may read.
POLICY = policy({1: {"in": "w"}, 2: {"./in": "r"}})
HASH = sha256(POLICY.encode())
KEYS = {1: "Party-Key: " + KEY1, 2: "Party-Key: " + KEY2}
LISTEN_FAULT = 8
# The turns of yielding for which a call is held up at most, where the others are to come.
MOST_TURNS = 10_000_000


class Link:
    """A connection: its input, what is written on it, and how many calls are made over it."""

    def __init__(self, requests, calls=None, last=b"", fault=None):
        self.input = b"".join(stream for stream, _ in requests) + last
        self.written = b"".join(response(number, b"GET", parts, False) for number, (_, parts) in enumerate(requests, 1))
        self.calls = len(requests) if calls is None else calls
        if fault:
            self.written += response(0, b"", text(*FAULTS[fault], f"bad request {fault}"), True)


def found(body, kind="application/octet-stream"):
    return 200, "OK", kind, body, []


def reads(target, parts, *fields):
    return crlf(f"GET {target} HTTP/1.1", "Host: x", KEYS[2], *fields, ""), parts


def writes(body):
    return put(body, KEYS[1], f"Content-Length: {len(body)}"), (204, "No Content", None, b"", [])


def hashes(*fields):
    """Asks for the hash of the policy. The fields tell one such request from another."""
    return reads("/policy/hash", found(HASH.encode(), "text/plain"), *fields)


ABSENT = reads("/files/in", text(404, "Not Found", "no such file /in"))


def words(workers, sessions):
    return f"serve --workers {workers} --sessions {sessions} --port 0 policy keys"


def lines_of(entries):
    return f"policy {HASH}\nlistening 0\nentries {entries}\n"


def quoted(content):
    return "  " + json.dumps(content if isinstance(content, str) else content.decode())


def case(kind, name, links, asked, held, failing, status, back, lines):
    """The line of a case, and what it is told. The first calls are held up until so many are there, or in vain."""
    calls, turns, met = held
    inputs = " ".join(link.input.hex() or "-" for link in links)
    line = f"{kind} {name} | {calls} {turns} | {failing} | {asked} | {inputs}"
    return line, [f"{kind} {name}", f"  status {status}, {'in time' if met else 'in vain'}, {back} connections", *lines]


FREE = 0, 0, True


def together(calls):
    return calls, MOST_TURNS, True


def served(name, links, asked, held=FREE, failing="-", status=0, back=None, written=None):
    """Connections of which the first ones come back, all of them unless it is said how many."""
    back = links if back is None else links[:back]
    shown = lines_of(sum(link.calls for link in back)) if written is None else written
    ends = [quoted(link.written) for link in back] + ["  not back"] * (len(links) - len(back))
    return case("texts", name, links, asked, held, failing, status, len(back), [quoted(shown), *ends])


def lettered(name, count, asked, held, seats):
    """A letter of its own over each connection, which is read then, or a later one. All but the letter that is read is
    the same whoever comes first."""
    letters = [bytes([ord("a") + place]) for place in range(count)]
    links = [Link([writes(letter), reads("/files/in", found(letter))]) for letter in letters]
    ends = [quoted(link.written[:-1]) for link in links]
    return case("letters", name, links, asked, held, "-", 0, count, [quoted(lines_of(2 * count)), f"  {2 * count} entries from {seats} seats", *ends])


def cases():
    two = [Link([hashes()]), Link([ABSENT])]
    yield served("each of two workers has a session", two, words(2, 2), together(2))
    yield served("one worker has no two sessions at once", two, words(1, 2), (2, 1000, False))
    many = [Link([hashes(f"Number: {number}")]) for number in range(16)]
    yield served("each of sixteen workers has a session", many, words(16, 16), together(16))
    yield served("three workers serve sixteen sessions", many, words(3, 16), together(3))
    for workers in 1, 3:
        yield served(f"no more sessions than were asked for, workers {workers}", many, words(workers, 5), back=5)
    for workers in 1, 4:
        yield lettered(f"of twelve sessions by {workers}", 12, words(workers, 12), together(workers), workers)
    # a connection that can't be accepted: none is served after it
    three = many[:3]
    yield served("the port is taken", three, words(2, 3), failing=0, status=LISTEN_FAULT, back=0, written="")
    for accepted in range(len(three)):
        yield served(f"accept {accepted} fails, one worker", three, words(1, 3), failing=1 + accepted, status=LISTEN_FAULT, back=accepted)
    yield served("no accept fails", three, words(1, 3), failing=4)
    yield served("accept 0 fails, four workers", three, words(4, 3), failing=1, status=LISTEN_FAULT, back=0)
    for workers in 1, 2, 16:
        yield served(f"there are fewer connections, workers {workers}", two, words(workers, 3), status=LISTEN_FAULT)
    # what goes wrong in a session ends that one alone
    mixed = [
        Link([], last=put(b"abc", "Content-Length: 5", KEYS[1])), Link([hashes()]),
        Link([hashes("Number: 1")], last=put(b""), fault=3), Link([]),
        Link([(crlf("GET /nowhere HTTP/1.1", "Host: x", ""), text(404, "Not Found", "no route")), hashes()], calls=1),
    ]
    for workers in 1, 2, 5:
        yield served(f"sessions that end otherwise, workers {workers}", mixed, words(workers, len(mixed)))


def main():
    given, wanted = [f"policy {POLICY}"], []
    for line, lines in cases():
        given.append(line)
        wanted += lines
    stale = False
    for path, lines in ((FOLDER + "stdin", given), (FOLDER + "stdout", wanted)):
        whole = "".join(line + "\n" for line in lines)
        if "--check" in sys.argv[1:]:
            stale |= open(path, encoding="utf-8").read() != whole
        else:
            open(path, "w", encoding="utf-8").write(whole)
    sys.exit(1 if stale else 0)


if __name__ == "__main__":
    main()
