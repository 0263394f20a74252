#!/usr/bin/env python3
"""Writes crates/vr_face_cases/{stdin,stdout}: connections with requests in pieces, and what a session over each writes.

The desk of the program answers each call from the call itself: a file reads as its name, a pipeline ends with its id.
What is wanted is worked out here from the written rules, over whole streams, and by nothing of the repository.

    tests/face_cases.py          writes the two files
    tests/face_cases.py --check  ends with status 1 where they are not what would be written
"""
import re, sys

sys.dont_write_bytecode = True
import http_cases as http
from http_cases import KEY1, KEY2, WORKED, Fault, crlf, get, put

FOLDER = "crates/vr_face_cases/"
MOST_REQUESTS, MOST_SHOWN, ROOM = 65_536, 2048, 8 << 20
FAULTS = {1: (400, "Bad Request"), 2: (431, "Request Header Fields Too Large"), 3: (411, "Length Required"), 4: (413, "Payload Too Large"), 5: (501, "Not Implemented"), 6: (417, "Expectation Failed")}


def requests(stream):
    """Each request, and last the name of the end."""
    for number in range(1, MOST_REQUESTS + 1):
        try:
            head = http.cut_head(stream)
            if head is None:
                yield "closed"
                return
            text, rest = head
            method, target, minor, fields = http.read_head(text)
            size = http.body_size(method, target, fields)
            if len(rest) < size:
                raise Fault("cut")
        except Fault as fault:
            yield "cut short" if fault.args[0] == "cut" else "bad message " + fault.args[0]
            return
        stream = rest[size:]
        parts = [part.strip(b" \t").lower() for name, value in fields if name == b"connection" for part in value.split(b",")]
        keys = [value for name, value in fields if name == b"party-key"]
        close = minor == b"0" or b"close" in parts
        yield method, target, keys, close
        if close:
            yield "closed"
            return
    yield "enough"


def text(status, phrase, line):
    return status, phrase, "text/plain", line.encode() + b"\n", []


def not_allowed(methods):
    status, phrase, kind, body, _ = text(405, "Method Not Allowed", "bad method")
    return status, phrase, kind, body, ["Allow: " + methods]


def answer(method, target, keys):
    """The response's parts, and whether the desk made a call."""
    done = None
    if target.startswith(b"/files/") and len(target) > 7:
        allowed = "GET, PUT, POST"
        if method == b"GET":
            done = 200, "OK", "application/octet-stream", target[7:], []
        elif method in (b"PUT", b"POST"):
            done = 204, "No Content", None, b"", []
    elif re.fullmatch(rb"/pipelines/(0|[1-9][0-9]*)", target) and int(target[11:]) < 2 ** 32:
        allowed = "POST"
        if method == b"POST":
            done = 200, "OK", "application/octet-stream", b"out", ["Exit-Code: " + target[11:].decode()]
    elif target == b"/policy/hash":
        allowed = "GET"
        if method == b"GET":
            done = 200, "OK", "text/plain", b"f" * 64, []
    else:
        return text(404, "Not Found", "no route"), False
    if done is None:
        return not_allowed(allowed), False
    if len(keys) != 1 or keys[0] not in (KEY1.encode(), KEY2.encode()):
        return text(403, "Forbidden", "unkeyed"), False
    return done, True


def response(number, method, parts, close):
    status, phrase, kind, body, fields = parts
    typed = [f"Content-Type: {kind}", f"Content-Length: {len(body)}"] if kind else []
    ended = ["Connection: close"] if close or number == MOST_REQUESTS else []
    return crlf(f"HTTP/1.1 {status} {phrase}", *typed, *fields, *ended, "") + (b"" if method == b"HEAD" else body)


def session(stream, room=ROOM):
    """How the session ends, how many calls the desk makes and what is written."""
    written, calls = b"", 0
    for number, request in enumerate(requests(stream), 1):
        sent = b""
        if isinstance(request, tuple):
            method, target, keys, close = request
            parts, made = answer(method, target, keys)
            calls += made
            sent = response(number, method, parts, close)
        elif request.startswith("bad message"):
            fault = int(request[-1])
            sent = response(number, b"", text(*FAULTS[fault], f"bad request {fault}"), True)
        written += sent
        if len(written) > room:
            return "write fault", calls, written[:room]
    return request, calls, written


def post(target, *fields):
    return crlf(f"POST {target} HTTP/1.1", *fields, "")


KNOWN = "Party-Key: " + KEY2
MIXED = b"".join([
    get(KNOWN),
    put(b"abc", "Content-Length: 3", "Party-Key: " + KEY1),
    post("/files/a/b", "Content-Length: 0", KNOWN),
    post("/pipelines/44", KNOWN),
    get(KNOWN, target="/policy/hash"),
    get(target="/policy/hash"),
    get(target="/nowhere"),
    post("/pipelines/044", KNOWN),
    post("/policy/hash", KNOWN),
    crlf("HEAD /files/in HTTP/1.1", KNOWN, ""),
    crlf("HEAD /nowhere HTTP/1.1", KNOWN, ""),
    get("Party-Key: " + "3" * 64),
    get(KNOWN, KNOWN),
    get(KNOWN, "Connection: close"),
    get(KNOWN),
])


def cases():
    """The name of a case, a piece's size, the room, the calls that fail and the tokens of the input, and what comes of it."""
    def over(name, stream, piece=7, room=ROOM):
        return name, piece, room, "-", stream.hex() or "-", session(stream, room)

    for piece in (1, 2, 3, 64, 100_000):
        yield over("worked_in_pieces", WORKED, piece)
        yield over("mixed_in_pieces", MIXED, piece)
    for cut in range(len(WORKED)):
        yield over("worked_cut", WORKED[:cut])
    yield over("old_version_closes", get(KNOWN, version="1.0") + WORKED)
    yield over("blank_at_the_end", WORKED + b"\r\n\n")
    # bytes that are no request, first and after one
    for bad in (b"G@T / HTTP/1.1\r\n\r\n", get("X: " + "a" * 16384), put(b""), put(b"", "Content-Length: 16777217"), put(b"", "Transfer-Encoding: chunked"), put(b"", "Expect: 100-continue")):
        yield over("refused", bad + WORKED)
        yield over("refused_after_one", WORKED + bad)
    # the link fails: its first read, or a write without room left
    yield "first_read_fails", 7, ROOM, "0", WORKED.hex(), ("read fault", 0, b"")
    whole = len(session(WORKED)[2])
    for room in (0, 1, whole - 1, whole, whole + 1, 2 * whole - 1, 2 * whole):
        yield over("little_room", WORKED * 2, room=room)
    yield over("little_room_for_a_refusal", WORKED + put(b""), room=whole + 9)
    # as many requests as a connection may have
    bare = get(target="/")
    one, last = (response(number, b"GET", text(404, "Not Found", "no route"), False) for number in (1, MOST_REQUESTS))
    many = one * (MOST_REQUESTS - 1)
    yield "most_requests", 65536, ROOM, "-", f"{bare.hex()}*{MOST_REQUESTS + 1}", ("enough", 0, many + last)
    yield "one_less", 65536, ROOM, "-", f"{bare.hex()}*{MOST_REQUESTS - 1}", ("closed", 0, many)
    closing = get("Connection: close", target="/").hex()
    yield "last_one_closes", 65536, ROOM, "-", f"{bare.hex()}*{MOST_REQUESTS - 1},{closing}", ("closed", 0, many + last)


def main():
    given, wanted = [], []
    for name, piece, room, failing, tokens, (end, calls, written) in cases():
        given.append(f"{name} {piece} {room} {failing} {tokens}")
        wanted += [name, f"  {end} {calls} {len(written)} {written[:MOST_SHOWN].hex()} {written[-MOST_SHOWN:].hex()}"]
    stale = False
    for path, lines in ((FOLDER + "stdin", given), (FOLDER + "stdout", wanted)):
        whole = "".join(line + "\n" for line in lines)
        if "--check" in sys.argv[1:]:
            stale |= open(path, encoding="utf-8").read() != whole
        else:
            open(path, "w", encoding="utf-8").write(whole)
    sys.exit(1 if stale else 0)


if __name__ == "__main__":
    main()
