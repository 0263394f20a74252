"""The built program as a server over real sockets, the connections that its tests make, and what a request has to be answered."""
import hashlib, json, os, select, socket, struct, subprocess, sys, tempfile, time

sys.dont_write_bytecode = True
HERE = os.getcwd()
from face_cases import response, text

os.chdir(HERE)

CLIENTS = range(1, 17)
# A program that returns at once: it exports one page of memory, and a start function without instructions.
NOTHING = bytes.fromhex("0061736d01000000010401600000030201000503010001071302066d656d6f72790200065f737461727400000a040102000b")
# Identity 0 may write everything; each of the others has a folder of its own, and all share one and a drop box.
OWNER, STRANGER = 0, 99
POLICY = {
    "identities": [{"id": OWNER, "file_rights": [{"file_name": "/", "rights": "rw"}]}]
    + [
        {
            "id": who,
            "file_rights": [
                {"file_name": f"/own/{who}/", "rights": "rw"},
                {"file_name": "/all/", "rights": "rw"},
                {"file_name": "/drop", "rights": 64},
                {"file_name": "/p/", "rights": "x"},
            ],
        }
        for who in CLIENTS
    ],
    "programs": [{"program_file_name": "/p/nothing", "file_rights": []}],
    "pipelines": [{"id": 7, "pipeline": "/p/nothing"}],
}


def key(who):
    return hashlib.sha256(f"key of {who}".encode()).hexdigest()


POLICY_BYTES = json.dumps(POLICY).encode()
HASH = hashlib.sha256(POLICY_BYTES).hexdigest()
KEYS = "".join(f"{who} {key(who)}\n" for who in (OWNER, *CLIENTS)).encode()


def folder():
    """A new folder with the policy and the keys."""
    made = tempfile.TemporaryDirectory()
    for name, content in (("policy", POLICY_BYTES), ("keys", KEYS)):
        with open(os.path.join(made.name, name), "wb") as file:
            file.write(content)
    return made


def free_port():
    with socket.socket() as asked:
        asked.bind(("127.0.0.1", 0))
        return asked.getsockname()[1]


def request(method, target, who=None, body=None, *fields, version="1.1"):
    """The bytes of a request. Those that name nobody have no key."""
    lines = [f"{method} {target} HTTP/{version}"]
    if who is not None:
        lines.append(f"Party-Key: {key(who)}")
    if body is not None:
        lines.append(f"Content-Length: {len(body)}")
    return "".join(line + "\r\n" for line in [*lines, *fields, ""]).encode() + (body or b"")


def read(body):
    return 200, "OK", "application/octet-stream", body, []


def said(status, line):
    phrases = {400: "Bad Request", 403: "Forbidden", 404: "Not Found", 413: "Payload Too Large"}
    return text(status, phrases[status], line)


STORED = (204, "No Content", None, b"", [])
RAN = (200, "OK", "application/octet-stream", b"", ["Exit-Code: 0"])
TOLD_HASH = (200, "OK", "text/plain", HASH.encode(), [])


def whole(method, parts, close=False):
    """The bytes of a response that isn't its connection's 65,536th."""
    return response(1, method.encode(), parts, close)


class Peer:
    """A connection to the server. What comes is awaited for a bounded time."""

    def __init__(self, port, patience=60):
        self.socket = socket.create_connection(("127.0.0.1", port), patience)
        self.socket.setsockopt(socket.IPPROTO_TCP, socket.TCP_NODELAY, 1)
        self.held = b""

    def __enter__(self):
        return self

    def __exit__(self, *_):
        self.socket.close()

    def send(self, *pieces):
        for piece in pieces:
            self.socket.sendall(piece)

    def take(self, count):
        """The next bytes, fewer where the server has ended the connection."""
        while len(self.held) < count:
            more = self.socket.recv(65536)
            if not more:
                break
            self.held += more
        taken, self.held = self.held[:count], self.held[count:]
        return taken

    def has_ended(self):
        return self.take(1) == b""

    def answer(self, bare=False):
        """The next response: its head and its body. No bytes where the server has ended the connection."""
        while b"\r\n\r\n" not in self.held:
            more = self.socket.recv(65536)
            if not more:
                return b""
            self.held += more
        head = self.held[: self.held.index(b"\r\n\r\n") + 4]
        sizes = [line for line in head.split(b"\r\n") if line.startswith(b"Content-Length: ")]
        size = int(sizes[0][16:]) if sizes and not bare else 0
        return self.take(len(head) + size)

    def ask(self, *what, **how):
        """The response to one request."""
        self.send(request(*what, **how))
        return self.answer(what[0] == "HEAD")

    def reset(self):
        """Hangs up so that the server's next read or write fails."""
        self.socket.setsockopt(socket.SOL_SOCKET, socket.SO_LINGER, struct.pack("ii", 1, 0))
        self.socket.close()


class Server:
    """A running server, of which its first two lines were read."""

    def __init__(self, program, place, *words, files=("policy", "keys"), **how):
        self.port = free_port()
        words = [program, "serve", "--port", str(self.port), *words, *files]
        pipes = {"stdout": subprocess.PIPE, "stderr": subprocess.PIPE}
        self.process = subprocess.Popen(words, cwd=place, **pipes, **how)
        self.first = self.lines(f"policy {HASH}\nlistening {self.port}\n".encode())

    def lines(self, wanted):
        """What is written first, within a bounded time: as many bytes as are wanted."""
        found, until = b"", time.monotonic() + 60
        while len(found) < len(wanted) and time.monotonic() < until:
            if select.select([self.process.stdout], [], [], 1)[0]:
                more = os.read(self.process.stdout.fileno(), len(wanted) - len(found))
                if not more:
                    break
                found += more
        if found != wanted:
            self.process.kill()
            raise AssertionError(f"the server began with {found}, {self.process.communicate()[1]}")
        return found

    def __enter__(self):
        return self

    def __exit__(self, *_):
        if self.process.poll() is None:
            self.process.kill()
        self.process.communicate()

    def peer(self, **how):
        return Peer(self.port, **how)

    def end(self):
        """Waits for the server's own end: its status, what it wrote after its first lines, and its standard error."""
        out, error = self.process.communicate(timeout=60)
        return self.process.returncode, out, error

    def kill(self):
        self.process.kill()
        self.process.communicate()


def summary(entries, files):
    """What a server writes at its end."""
    lines = [f"entries {entries}\n"]
    for path in sorted(files, key=str.encode):
        body = files[path]
        lines.append(f"file {path} {len(body)} {hashlib.sha256(body).hexdigest()}\n")
    return "".join(lines).encode()
