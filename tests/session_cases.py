#!/usr/bin/env python3
"""Writes crates/vr_session_cases/{stdin,stdout}: books, and sessions over desks of them, and what comes of each.

The replies are written down here beside the calls, by the rules of policies and runs; the bytes of the responses and the
ends of the sessions are those of `face_cases.py` and `http_cases.py`, which work them out from the rules of messages.

    tests/session_cases.py          writes the two files
    tests/session_cases.py --check  ends with status 1 where they are not what would be written
"""
import json, re, sys

sys.dont_write_bytecode = True
from face_cases import FAULTS, response, text
from http_cases import KEY1, KEY2, crlf, put
from programs import DIVIDE, HEADER, HI, LOOP, NOTHING, UNLINK, UNLINK_TRAP
from texts import LISTS, WARD, policy, sha256

FOLDER = "crates/vr_session_cases/"
READER = policy({1: {"in": "w"}, 2: {"./in": "r"}})
BOX = policy(WARD, **LISTS)
# Four bytes may lie below `/box/`.
NARROW = policy({1: {"in": "rw", "box/": "rw"}}, programs=[{"program_file_name": "p", "file_rights": []}],
                pipelines=[{"id": 7, "pipeline": "/p"}], quotas=[{"file_name": "box/", "bytes": 4}])
MODULES = {f"/p/m{k}": body for k, body in enumerate([NOTHING, LOOP, HI, UNLINK_TRAP, UNLINK, DIVIDE, UNLINK, NOTHING])}
NUMBERS = {"done": 0, "no such file": 1, "denied": 2, "no such pipeline": 3, "pin missing": 4, "pin mismatch": 5, "too large": 6,
           "bad program": 7, "trapped": 8, "out of fuel": 9, "bad path": 10, "unkeyed": 13, "quota": 14}
# A body of 16,777,216 bytes.
MOST = "61" * 4096 + "*4096"
STATUSES = {1: (404, "Not Found"), 2: (403, "Forbidden"), 3: (404, "Not Found"), 4: (409, "Conflict"), 5: (409, "Conflict"),
            6: (413, "Payload Too Large"), 7: (422, "Unprocessable Entity"), 8: (422, "Unprocessable Entity"),
            9: (422, "Unprocessable Entity"), 10: (400, "Bad Request"), 13: (403, "Forbidden"), 14: (409, "Conflict")}


def rows_of(files):
    return " ".join(f"{name}={body if isinstance(body, str) else body.hex() or '-'}" for name, body in files) or "-"


def tokens_of(stream):
    """The tokens of a stream, in which a key is one byte 64 times."""
    parts = re.split(f"({KEY1}|{KEY2})".encode(), stream)
    return ",".join(part[:1].hex() + "*64" if place % 2 else part.hex() for place, part in enumerate(parts) if part) or "-"


def told(files):
    """The lines of files, in the order of their paths."""
    return [f"  file {path} {len(body)} {sha256(body)}" for path, body in sorted(files.items())]


def kept(files):
    """The lines of the files that are loaded from a keeper."""
    return ["  stored", *told(files)]


def quoted(content):
    return "  " + json.dumps(content.decode())


# ---- Books

def book(name, calls, files, failing="-", rows=(), stored=None, faulty=None):
    """A case of calls with their replies, after which the book has these files. The entries are those of the calls that
    are made."""
    lines = [f"  {reply}" for _, reply in calls]
    for call, reply in calls:
        number = next((n for words, n in NUMBERS.items() if reply.startswith(words)), None)
        lines += [f"  seat 0 of {call.split()[0]}: {number}"] if number is not None else []
    first = [f"  {faulty}"] if faulty else lines + told(files)
    last = ["  stored", f"  {stored}"] if stored else kept(files)
    line = f"book {name} | {failing} | {rows_of(rows)} | {'; '.join(call for call, _ in calls) or '-'}"
    return line, [f"book {name}"] + first + last


# Ten calls of identity 1, and what each makes of the bytes of its file. `/box/` never has more than four bytes.
CHANGES = [("write", "/in", b"a"), ("append", "/in", b"b"), ("append", "/box/n", b"c"), ("write", "/in", b"d"),
           ("write", "/box/n", b"ef"), ("append", "/box/m", b"g"), ("append", "/in", b"h"), ("write", "/box/m", b""),
           ("write", "/in", b"i"), ("append", "/box/n", b"j")]


def after(files, change):
    verb, path, body = change
    return {**files, path: files.get(path, b"") + body if verb == "append" else body}


def lost_in_turn():
    """Each of the changes is lost in turn, or none is, and they end after each of them: a name, which keeper's call fails,
    the changes that are made, the place of the lost one and the files."""
    for lost in (None, *range(len(CHANGES))):
        for made in range(0 if lost is None else lost + 1, len(CHANGES) + 1):
            files = {"/in": b"z"}
            for place, change in enumerate(CHANGES[:made]):
                files = files if place == lost else after(files, change)
            name = f"of {made} changes {'none' if lost is None else f'number {lost}'} is lost"
            # the keeper's first call is the load
            yield name, "-" if lost is None else lost + 1, CHANGES[:made], lost, files


def book_of_changes(name, failing, changes, lost_place, files):
    calls = [f"1 {verb} {path} {f'text {body.decode()}' if body else 'empty'}" for verb, path, body in changes]
    replies = ["unavailable" if place == lost_place else "done" for place in range(len(calls))]
    return book(name, list(zip(calls, replies)), files, failing, [("/in", b"z")])


def books():
    yield f"policy {READER}", []
    yield book("one write of three is lost", [("1 write in text a", "done"), ("1 write in text b", "unavailable"),
               ("1 write in text c", "done"), ("2 read in", "done bytes 1 63")], {"/in": b"c"}, failing=2)
    opening = {"/out": b"abc", "/in": b""}
    yield book("begins with the rows of its keeper", [], opening, rows=opening.items())
    yield book("a keeper that fails to load comes back", [], opening, failing=0, rows=opening.items(), faulty="KeeperFailed")
    for name, rows, place in [
        ("no normal form", [("in", b"a")], 0), ("a directory", [("/in", b"a"), ("/box/", b"b")], 1),
        ("no name", [("/in", b"a"), ("", b"b"), ("in", b"c")], 1), ("twice", [("/in", b"a"), ("/box/n", b"b"), ("/in", b"c")], 2),
        ("two dots", [("/b", b"a"), ("/a", b"b"), ("/b/..", b"c")], 2), ("too large", [("/in", MOST + ",61")], 0),
    ]:
        yield book(f"a row is bad: {name}", [], {}, rows=rows, faulty=f"BadRow({place})", stored=f"BadRow({place})")
    yield book("a file of the most bytes", [], {"/in": b"a" * 16_777_216}, rows=[("/in", MOST)])
    yield f"policy {NARROW}", []
    yield book("refused runs have entries", [("1 run 8", "no such pipeline 8"), ("1 run 7", "denied /p execute")], {})
    yield book("files above their quota may be lowered", [
        ("1 write box/n text abcdefg", "quota /box/ 7"), ("1 append box/m text x", "quota /box/ 7"), ("1 append box/m empty", "done"),
        ("1 write box/n text uvwxyz", "done"), ("1 write box/n text abcde", "done"), ("1 write box/n text uvwxyz", "quota /box/ 6"),
        ("1 read box/n", "done bytes 5 6162636465"),
    ], {"/box/m": b"", "/box/n": b"abcde"}, rows=[("/box/n", b"abcdef")])
    for case in lost_in_turn():
        yield book_of_changes(*case)


# ---- Sessions

class Asked:
    """A request, the parts of its response, and the identity and the number of the reply of its entry, where it has one."""

    def __init__(self, stream, parts, who=None, number=0):
        self.stream, self.parts, self.entry = stream, parts, (who, number) if who else None


DESKS = "plain", "shared", "listened"
KEYS = {1: "Party-Key: " + KEY1, 2: "Party-Key: " + KEY2}
STORED = 204, "No Content", None, b"", []


def found(body):
    return 200, "OK", "application/octet-stream", body, []


def ended(code, out=b""):
    return 200, "OK", "application/octet-stream", out, [f"Exit-Code: {code}"]


def refused(reply):
    number = next(n for words, n in NUMBERS.items() if reply.startswith(words))
    return number, text(*STATUSES[number], reply)


def asked(who, method, target, parts, body=None):
    """A request of an identity, whose answer is a response's parts or the text of a refusal."""
    number, parts = refused(parts) if isinstance(parts, str) else (0, parts)
    sized = [] if body is None else [f"Content-Length: {len(body)}"]
    return Asked(crlf(f"{method} {target} HTTP/1.1", "Host: x", KEYS[who], *sized, "") + (body or b""), parts, who, number)


def reads(who, name, parts):
    return asked(who, "GET", f"/files{name}", parts)


def writes(who, name, body, parts=STORED):
    return asked(who, "PUT", f"/files{name}", parts, body)


def runs(who, pipeline, parts):
    return asked(who, "POST", f"/pipelines/{pipeline}", parts)


def appends(who, name, body, parts=STORED):
    return asked(who, "POST", f"/files{name}", parts, body)


def unavailable(request):
    """A request whose change the keeper refuses, so that it has no entry."""
    return Asked(request.stream, text(503, "Service Unavailable", "unavailable"))


def entries_of(requests, seat=0):
    return [f"  seat {seat} of {request.entry[0]}: {request.entry[1]}" for request in requests if request.entry]


def session(name, requests, files, desk="plain", piece=7, failing="-", rows=(), end="Closed", last=b"", fault=None):
    """A case of requests, after which the book has these files. What comes last is no whole request."""
    written = b"".join(response(number, b"GET", request.parts, False) for number, request in enumerate(requests, 1))
    if fault:
        written += response(0, b"", text(*FAULTS[fault], f"bad request {fault}"), True)
    stream = b"".join(request.stream for request in requests) + last
    line = f"session {name} | {desk} {piece} - | {failing} | {rows_of(rows)} | {tokens_of(stream)}"
    # at a shared desk the last call, a write by identity 1, has one entry more; the fault of a session ends no serving
    ends = {
        "plain": [f"  {end}", quoted(written)] + entries_of(requests) + told(files) + kept(files),
        "shared": [f"  {end}", quoted(written), "  done", f"  {len(entries_of(requests)) + 1} entries"],
        "listened": ["  Ok(())", quoted(written)] + entries_of(requests, 1) + told(files) + kept(files),
    }
    return line, [f"session {name}"] + ends[desk]


def worked():
    """Reads of a file by who may read it and by who may not, whole and in pieces of each size."""
    files = {"/in": b"abc"}
    for who, parts in (2, found(b"abc")), (1, "denied /in fd_read"):
        read = asked(who, "GET", "/files/in", parts)
        for piece in [len(read.stream) + 1, *range(1, len(read.stream) + 1)]:
            yield session(f"read by {who} in pieces of {piece}", [read], files, piece=piece, rows=files.items())
        for desk in "shared", "listened":
            yield session(f"read by {who}, {desk}", [read], files, desk=desk, rows=files.items())
    # a request that is cut short, but not one of which nothing came
    for count in range(len(read.stream)):
        yield session(f"{count} bytes of a read", [], files, rows=files.items(), end="CutShort" if count else "Closed",
                      last=read.stream[:count])


def refused_messages():
    files, read = {"/in": b"abc"}, asked(2, "GET", "/files/in", found(b"abc"))
    nowhere = Asked(crlf("GET /nowhere HTTP/1.1", "Host: x", ""), text(404, "Not Found", "no route"))
    for desk in DESKS:
        for name, bad, fault in [("no length", put(b""), 3), ("expects", put(b"abc", "Content-Length: 3", "Expect: 100-continue"), 6),
                                 ("too long", put(b"", "Content-Length: 16777217"), 4)]:
            for requests in [], [read]:
                yield session(f"{name} after {len(requests)}, {desk}", requests, files, desk=desk, rows=files.items(),
                              end=f"BadMessage({fault})", last=bad + read.stream, fault=fault)
        cut = put(b"abc", "Content-Length: 5", KEYS[1])
        yield session(f"cut short, {desk}", [], files, desk=desk, rows=files.items(), end="CutShort", last=cut)
        yield session(f"no route, {desk}", [nowhere, read], files, desk=desk, rows=files.items())
        yield session(f"one write of three is lost, {desk}", [
            writes(1, "/in", b"a"), unavailable(writes(1, "/in", b"b")), writes(1, "/in", b"c"), reads(2, "/in", found(b"c")),
        ], {"/in": b"c"}, desk=desk, failing=2)


WARD_CALLS = [
    runs(2, 0, ended(0)), runs(2, 1, "out of fuel /p/m1"), runs(2, 2, ended(0, b"hi")), runs(2, 99, "no such pipeline 99"),
    runs(1, 0, "denied /p/m0 execute"), runs(2, 5, "trapped /p/m5 3"), runs(2, 6, ended(76)),
    writes(2, "/out", b"keep"), runs(2, 3, "trapped /p/m3 1"), reads(2, "/out", found(b"keep")),
    runs(2, 4, ended(0)), reads(2, "/out", "no such file /out"), runs(2, 4, ended(44)),
    runs(2, 7, ended(0, b"hihi")), writes(2, "/flag", b""), runs(2, 7, ended(0, b"hi")), runs(2, 8, ended(0)),
    runs(2, 9, "pin missing /in"), writes(1, "/in", b""), runs(2, 9, f"pin mismatch /in {sha256(b'')}"),
    writes(1, "/in", b"abc"), runs(2, 9, ended(0)),
    appends(2, "/out", b"ab"), appends(2, "/out", b"c"), reads(2, "/out", found(b"abc")),
    writes(1, "/box/n", b"a"), reads(1, "/box/n", "denied /box/n fd_read"),
    writes(2, "/p/m0", HEADER), runs(2, 0, "bad program /p/m0 link 2 0"),
    asked(2, "GET", "/policy/hash", (200, "OK", "text/plain", sha256(BOX.encode()).encode(), [])),
    # these are answered without the desk
    Asked(crlf("GET /files/../x HTTP/1.1", KEYS[2], ""), refused("bad path 3")[1]),
    Asked(crlf("GET /files/in HTTP/1.1", ""), refused("unkeyed")[1]),
]
WARD_FILES = {**MODULES, "/p/m0": HEADER, "/flag": b"", "/in": b"abc", "/out": b"abc", "/box/n": b"a"}


def sessions():
    yield f"policy {READER}", []
    yield from worked()
    yield session("written by one and read by another", [writes(1, "/in", b"abc"), reads(2, "/in", found(b"abc"))], {"/in": b"abc"})
    yield session("one entry of a shared desk", [], {}, desk="shared")
    yield from refused_messages()
    yield from faults_in_turn()
    yield f"policy {BOX}", []
    for desk in DESKS:
        for piece in 1, 100_000:
            yield session(f"the drop box, {desk}, in pieces of {piece}", WARD_CALLS, WARD_FILES, desk=desk, piece=piece, rows=MODULES.items())
    yield f"policy {NARROW}", []
    yield session("a quota is reached", [writes(1, "/box/n", b"abcd"), writes(1, "/box/m", b"e", "quota /box/ 5"), writes(1, "/box/n", b"abc")],
                  {"/box/n": b"abc"})
    for case in lost_in_turn():
        yield session_of_changes(*case)


def session_of_changes(name, failing, changes, lost_place, files):
    made = [(writes if verb == "write" else appends)(1, path, body) for verb, path, body in changes]
    requests = [unavailable(request) if place == lost_place else request for place, request in enumerate(made)]
    return session(name, requests, files, desk="listened", failing=failing, rows=[("/in", b"z")])


def faults_in_turn():
    """Each call of the connection fails in turn. A byte takes a call, and a last call finds that no more comes."""
    requests = [writes(1, "/in", b"a"), writes(1, "/in", b"bc"), reads(2, "/in", found(b"bc"))]
    files = [{}, {"/in": b"a"}, {"/in": b"bc"}, {"/in": b"bc"}]
    cases, written = [], b""
    for number, request in enumerate(requests, 1):
        sent = response(number, b"GET", request.parts, False)
        cases += [("ReadFault", number - 1, written)] * len(request.stream)
        cases += [("WriteFault", number, written + sent[:count]) for count in range(len(sent))]
        written += sent
    cases += [("ReadFault", len(requests), written), ("Closed", len(requests), written)]
    shown = []
    for end, made, sent in cases:
        shown += [f"  {end} {len(sent)}{quoted(sent[-16:])}", *entries_of(requests[:made]), *told(files[made])]
    stream = b"".join(request.stream for request in requests)
    yield f"faults of two writes and a read | - | {tokens_of(stream)}", ["faults of two writes and a read"] + shown


def main():
    given, wanted = [], []
    for line, lines in [*books(), *sessions()]:
        given.append(line)
        wanted += lines
    stale = False
    for path, lines in ((FOLDER + "stdin", given), (FOLDER + "stdout", wanted)):
        whole = "".join(line + "\n" for line in lines)
        if "--check" in sys.argv[1:]:
            stale |= open(path, encoding="utf-8").read() != whole
        else:
            open(path, "w", encoding="utf-8").write(whole)
    sys.exit(1 if stale else 0)


if __name__ == "__main__":
    main()
