"""What the benches of `serve` share: the built program once it listens, and requests to it."""
import json, os, pathlib, socket, subprocess, tempfile

KEY = "ab" * 32
POLICY = {"identities": [{"id": 1, "file_rights": [{"file_name": "/", "rights": "rw"}]}]}
BODY = b"x" * 1024


class Vr:
    """The program, once it listens."""

    def __init__(self, program, place, *words):
        with socket.socket() as asked:
            asked.bind(("127.0.0.1", 0))
            self.port = asked.getsockname()[1]
        words = [os.path.abspath(program), "serve", "--port", str(self.port), *words, "policy", "keys"]
        self.process = subprocess.Popen(words, cwd=place, stdout=subprocess.PIPE)
        for wanted in (b"policy ", b"listening "):
            assert self.process.stdout.readline().startswith(wanted)

    def __enter__(self):
        return self

    def __exit__(self, *_):
        self.process.kill()
        self.process.communicate()


def place():
    made = tempfile.TemporaryDirectory()
    (pathlib.Path(made.name) / "policy").write_text(json.dumps(POLICY))
    (pathlib.Path(made.name) / "keys").write_text(f"1 {KEY}\n")
    return made


def put(path, fields=""):
    head = f"PUT {path} HTTP/1.1\r\nHost: here\r\nParty-Key: {KEY}\r\n{fields}Content-Length: {len(BODY)}\r\n\r\n"
    return head.encode() + BODY
