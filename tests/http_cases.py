#!/usr/bin/env python3
"""Writes crates/vr_http_cases/{stdin,stdout}: streams of HTTP requests in pieces, and what they spell.

What is wanted is worked out here from the written rules of requests, over whole streams, and by nothing
of the repository.

    tests/http_cases.py          writes the two files
    tests/http_cases.py --check  ends with status 1 where they are not what would be written
"""
import os, re, sys

os.chdir(os.path.join(os.path.dirname(os.path.abspath(__file__)), ".."))
FOLDER = "crates/vr_http_cases/"
MOST_HEAD, MOST_LINES, MOST_BODY = 16_384, 64, 16_777_216
TOKEN = rb"[!#$%&'*+\-.^_`|~0-9A-Za-z]+"
START = re.compile(rb"(" + TOKEN + rb") ([\x21-\x7e\x80-\xff]+) HTTP/1\.([01])\r?\n")
FIELD = re.compile(rb"(" + TOKEN + rb"):([\t\x20-\x7e\x80-\xff]*)\r?\n")


class Fault(Exception):
    pass


def cut_head(stream):
    """The head text and what comes after it; None where the stream ends between requests."""
    blank = len(stream) - len(stream.lstrip(b"\r\n"))
    window = stream[blank:MOST_HEAD]
    ends = [m.end() for m in re.finditer(rb"\n\r?\n", window)]
    # an empty line comes after the LF of another; the first one ends the head
    if ends:
        text = window[: ends[0]]
        if text.count(b"\n") - 2 > MOST_LINES:
            raise Fault("2")
        return text, stream[blank + len(text):]
    if len(stream) >= MOST_HEAD:
        raise Fault("2")
    if blank == len(stream):
        return None
    raise Fault("cut")


def read_head(text):
    """The method, the target, the version's last digit and the fields."""
    start = START.match(text)
    if not start:
        raise Fault("1")
    try:
        start.group(2).decode("utf-8")
    except UnicodeDecodeError:
        raise Fault("1")
    at, fields = start.end(), []
    while True:
        if text[at:] in (b"\n", b"\r\n"):
            return start.group(1), start.group(2), start.group(3), fields
        field = FIELD.match(text, at)
        if not field:
            raise Fault("1")
        fields.append((field.group(1).lower(), field.group(2).strip(b" \t")))
        at = field.end()


def body_size(method, target, fields):
    values = lambda name: [value for field, value in fields if field == name]
    if values(b"transfer-encoding"):
        raise Fault("5")
    if values(b"expect"):
        raise Fault("6")
    lengths = values(b"content-length")
    if len(lengths) > 1 or lengths and not re.fullmatch(rb"[0-9]+", lengths[0]):
        raise Fault("1")
    if not lengths:
        if method == b"PUT" or method == b"POST" and target.startswith(b"/files/"):
            raise Fault("3")
        return 0
    if int(lengths[0]) > MOST_BODY:
        raise Fault("4")
    return int(lengths[0])


def requests(stream):
    """A line for each request, and one for the end."""
    lines = []
    try:
        while True:
            head = cut_head(stream)
            if head is None:
                return lines + ["  = ended"]
            text, rest = head
            method, target, minor, fields = read_head(text)
            size = body_size(method, target, fields)
            if len(rest) < size:
                raise Fault("cut")
            body, stream = rest[:size], rest[size:]
            parts = [part.strip(b" \t").lower() for name, value in fields if name == b"connection" for part in value.split(b",")]
            close = minor == b"0" or b"close" in parts
            keys = [value for name, value in fields if name == b"party-key"]
            known = len(keys) == 1 and re.fullmatch(rb"[0-9A-Fa-f]{64}", keys[0])
            key = keys[0].lower().decode() if known else "-"
            shown = body[:32].hex()
            lines.append(f"  {method.decode()} {target.decode()} {'close' if close else 'keep'} {size} {shown} {key}")
            if close:
                return lines + ["  = closing"]
    except Fault as fault:
        return lines + ["  = " + fault.args[0]]


def bytes_of(tokens):
    if tokens == "-":
        return b""
    parts = []
    for token in tokens.split(","):
        digits, _, count = token.partition("*")
        parts.append(bytes.fromhex(digits) * int(count or 1))
    return b"".join(parts)


KEY1, KEY2 = "1" * 64, "2" * 64


def crlf(*lines):
    return "".join(line + "\r\n" for line in lines).encode()


def get(*fields, target="/files/in", version="1.1"):
    return crlf(f"GET {target} HTTP/{version}", *fields, "")


def put(body, *fields):
    return crlf("PUT /files/in HTTP/1.1", *fields, "") + body


WORKED = get("Host: x", "Party-Key: " + KEY2)


def cases():
    """The name of a case, a piece's size and the tokens of a stream."""
    for piece in range(1, len(WORKED) + 1):
        yield "worked_in_pieces", piece, WORKED.hex()
    for cut in range(len(WORKED)):
        yield "worked_cut", 7, WORKED[:cut].hex() or "-"
    yield "other_key", 1, get("Host: x", "Party-Key: " + KEY1).hex()
    yield "no_length", 4, put(b"").hex()
    yield "expect", 5, put(b"", "Expect: 100-continue", "Content-Length: 0").hex()
    yield "too_large", 6, put(b"", "Content-Length: 16777217").hex()
    yield "cut_body", 7, put(b"abc", "Content-Length: 5").hex()
    yield "no_route_goes_on", 8, (get(target="/nowhere") + WORKED).hex()
    # CR and LF before a request
    for blank in (b"\r", b"\n", b"\r\n", b"\n\n\r\r\n", b"\r\r\r"):
        yield "blank_before", 1, (blank + WORKED).hex()
        yield "blank_between", 3, (WORKED + blank + WORKED).hex()
        yield "blank_alone", 2, blank.hex()
        yield "blank_after", 2, (WORKED + blank).hex()
    # 16,384 bytes, dropped ones counted
    room = MOST_HEAD - len(get("X: "))
    for extra in (-1, 0, 1):
        head = get("X: " + "a" * (room + extra))
        for piece in (1, 4096, 100000):
            yield f"head_of_{len(head)}", piece, head.hex()
        yield "head_then_request", 1000, (head + WORKED).hex()
    for blank in (1, 2):
        yield "blank_counts", 999, "0a" * blank + "," + get("X: " + "a" * (room - 1)).hex()
    for size in (MOST_HEAD - 1, MOST_HEAD, MOST_HEAD + 1):
        yield f"newlines_{size}", 512, f"0d0a*{size // 2}" + (",0d" if size % 2 else "")
        yield f"no_end_{size}", 512, f"61*{size}"
    yield "end_cut_by_the_limit", 100, (get("X: " + "a" * room)[:-1] + b"\r\n").hex()
    # 64 lines and 65
    for lines in (63, 64, 65, 66):
        yield f"lines_{lines}", 11, get(*["A: b"] * lines).hex()
    yield "lines_65_bad", 11, get(*["A b"] * 65).hex()
    # LF alone ends lines
    yield "bare_lf", 1, b"GET /a HTTP/1.1\nHost: x\n\nGET /b HTTP/1.1\n\r\nGET /c HTTP/1.0\r\n\n".hex()
    yield "cr_inside", 1, b"GET /a HTTP/1.1\r\nA: b\rc\r\n\r\n".hex()
    yield "lf_cr_cr_lf", 1, b"GET /a HTTP/1.1\n\r\r\n\r\n".hex()
    # heads that are none
    for bad in (b"GET /a HTTP/2.0\r\n\r\n", b"GET  /a HTTP/1.1\r\n\r\n", b"GET /a\r\n\r\n", b"G@T /a HTTP/1.1\r\n\r\n", b"GET /a HTTP/1.1\r\n A: b\r\n\r\n", b"GET /a HTTP/1.1\r\nA : b\r\n\r\n", b"GET /a HTTP/1.1\r\n: b\r\n\r\n", b"GET /\xff HTTP/1.1\r\n\r\n", b"GET /\xc3\xa9 HTTP/1.1\r\n\r\n", b"GET /a HTTP/1.1\r\nA: \x01\r\n\r\n", b" GET /a HTTP/1.1\r\n\r\n", b"GET /a HTTP/1.1 \r\n\r\n", b"a\n\n"):
        yield "bad_head", 1, bad.hex()
        yield "bad_head_cut", 2, bad[:-1].hex()
    # lengths
    for length in ("0", "00000000000000000000000000000000003", "3", " 3 ", "\t3\t", "16777217", "99999999999999999999999999999999", "-1", "+3", "3,3", "", "3 3", "0x3", "3a"):
        yield "length", 3, put(b"abc", "Content-Length:" + length).hex()
        yield "length_of_get", 3, (get("content-length:" + length) + b"abc").hex()
    yield "two_lengths", 3, put(b"abc", "Content-Length: 3", "Content-Length: 3").hex()
    yield "two_lengths_one_bad", 3, put(b"abc", "Content-Length: x", "CONTENT-LENGTH: 3").hex()
    yield "largest_body", 65536, put(b"", "Content-Length: 16777216").hex() + ",61*16777216," + WORKED.hex()
    yield "largest_body_cut", 65536, put(b"", "Content-Length: 000016777216").hex() + ",61*16777215"
    yield "post_to_files", 9, crlf("POST /files/in HTTP/1.1", "").hex()
    yield "post_to_pipelines", 9, crlf("POST /pipelines/1 HTTP/1.1", "").hex()
    yield "post_to_a_prefix", 9, crlf("POST /files HTTP/1.1", "").hex()
    yield "put_anywhere", 9, crlf("PUT /nowhere HTTP/1.1", "").hex()
    yield "body_in_the_head_piece", 100000, (put(b"abc", "Content-Length: 3") + put(b"\r\ndef", "Content-Length: 5") + WORKED).hex()
    # the order of the faults
    yield "coding", 3, put(b"", "Expect: x", "Transfer-Encoding: chunked", "Content-Length: x").hex()
    yield "expect_before_length", 3, put(b"", "Expect:", "Content-Length: x").hex()
    yield "length_before_none", 3, put(b"", "Content-Length: 16777217", "content-length: 1").hex()
    yield "coding_in_get", 3, get("TRANSFER-encoding: identity").hex()
    yield "fault_ends", 3, (put(b"") + WORKED).hex()
    # close
    for value in ("close", "Close", " close ", "keep-alive, CLOSE", "a,b,\tclose\t,c", "closed", "close;", "clo se", "", ",", "keep-alive"):
        yield "connection", 2, (get("Connection: " + value) + WORKED).hex()
    yield "connection_twice", 2, (get("Connection: a", "connection: close") + WORKED).hex()
    yield "version_1_0", 2, (get(version="1.0") + WORKED).hex()
    yield "version_1_0_kept", 2, (get("Connection: keep-alive", version="1.0") + WORKED).hex()
    # keys
    for key in (KEY1[:63], KEY1, KEY1 + "1", "aB" * 32, " " + KEY2 + "\t", "g" + KEY2[1:], "", KEY2[:32] + " " + KEY2[33:]):
        yield "key", 13, get("Party-Key:" + key).hex()
        yield "key_named", 13, get("PARTY-KEY: " + key).hex()
    yield "two_keys", 13, get("Party-Key: " + KEY1, "party-key: " + KEY1).hex()
    # requests one after the other
    for piece in (1, 50, 16384, 100000):
        yield "pipelined", piece, WORKED.hex() + "*300"
    yield "pipelined_bodies", 4097, put(b"abcde", "Content-Length: 5").hex() + "*500"
    yield "nothing", 1, "-"
    yield "one_byte", 1, "47"


def status_bytes(status, phrase, fields, body):
    return crlf(f"HTTP/1.1 {status} {phrase}", *fields, "") + body


def text_fields(body, *more):
    return ["Content-Type: text/plain", f"Content-Length: {len(body)}", *more]


def responses():
    octets = lambda size: ["Content-Type: application/octet-stream", f"Content-Length: {size}"]
    yield status_bytes(200, "OK", octets(3), b"abc")
    yield status_bytes(403, "Forbidden", text_fields(b"denied /in fd_read\n"), b"denied /in fd_read\n")
    yield status_bytes(204, "No Content", ["Connection: close"], b"")
    yield status_bytes(200, "OK", octets(2) + ["Exit-Code: 44"], b"hi")
    yield status_bytes(405, "Method Not Allowed", text_fields(b"bad method\n", "Allow: GET, PUT, POST", "Connection: close"), b"")
    for number, status, phrase in ((1, 400, "Bad Request"), (2, 431, "Request Header Fields Too Large"), (3, 411, "Length Required"), (4, 413, "Payload Too Large"), (5, 501, "Not Implemented"), (6, 417, "Expectation Failed")):
        body = f"bad request {number}\n".encode()
        yield status_bytes(status, phrase, text_fields(body, "Connection: close"), body)
    yield None
    yield status_bytes(200, "OK", octets(70000), b"a" * 70000)


def response_line(written):
    return "  none" if written is None else f"  {len(written)} {written[:256].hex()}"


def main():
    given, wanted = [], []
    for name, piece, tokens in cases():
        given.append(f"{name} {piece} {tokens}")
        wanted += [name] + requests(bytes_of(tokens))
    given.append("responses")
    wanted += ["responses"] + [response_line(written) for written in responses()]
    stale = False
    for path, lines in ((FOLDER + "stdin", given), (FOLDER + "stdout", wanted)):
        text = "".join(line + "\n" for line in lines)
        if "--check" in sys.argv[1:]:
            stale |= open(path, encoding="utf-8").read() != text
        else:
            open(path, "w", encoding="utf-8").write(text)
    sys.exit(1 if stale else 0)


if __name__ == "__main__":
    main()
