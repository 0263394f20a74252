#!/usr/bin/env python3
"""http_rates.py PROGRAM SECONDS: what http.sh runs."""
import os, pathlib, re, shutil, socket, subprocess, sys, time

sys.dont_write_bytecode = True
from server import BODY, KEY, Vr, place, put

PROGRAM, SECONDS = os.path.abspath(sys.argv[1]), int(sys.argv[2])
HERE = pathlib.Path(__file__).resolve().parent


class Node(Vr):
    """Node's http server, over a map."""

    def __init__(self, place):
        words = ["node", str(HERE / "http_map.js")]
        self.process = subprocess.Popen(words, cwd=place, stdout=subprocess.PIPE)
        self.port = int(self.process.stdout.readline())


def put_once(port, path):
    with socket.create_connection(("127.0.0.1", port)) as link:
        link.sendall(put(path, "Connection: close\r\n"))
        assert link.recv(12) == b"HTTP/1.1 204"


def milliseconds(text):
    number, unit = re.fullmatch(r"([0-9.]+)(us|ms|s|m)", text).groups()
    return float(number) * {"us": 0.001, "ms": 1, "s": 1000, "m": 60_000}[unit]


def wrk(port, method, connections):
    """Requests a second, the latencies' median and 99th percentile in milliseconds, and how many connections waited long."""
    words = ["wrk", "-t", str(min(connections, 2)), "-c", str(connections), "-d", f"{SECONDS}s", "--latency"]
    words += ["-s", str(HERE / "http.lua"), f"http://127.0.0.1:{port}/files/a", "--", method, KEY]
    said = subprocess.run(words, capture_output=True, text=True, check=True).stdout
    assert "Non-2xx" not in said, said
    # A connection that no worker was free for in two seconds is a timeout; there is no other error.
    waiting = re.search(r"Socket errors: connect 0, read 0, write 0, timeout ([0-9]+)", said)
    assert waiting or "Socket errors" not in said, said
    rate = float(re.search(r"Requests/sec: +([0-9.]+)", said).group(1))
    half, most = (milliseconds(re.search(rf" {part}% +(\S+)", said).group(1)) for part in (50, 99))
    return rate, half, most, int(waiting.group(1)) if waiting else 0


def row(name, port, method, connections):
    put_once(port, "/files/a")
    rate, half, most, waiting = wrk(port, method, connections)
    waited = f", {waiting} waited" if waiting else ""
    plural = "s" if connections > 1 else ""
    print(
        f"{method} over {connections} connection{plural}, {name}: {rate:,.0f} requests a second, "
        f"{half:.3f} ms median, {most:.3f} ms 99th percentile{waited}",
        flush=True,
    )


def rates():
    for method in ("GET", "PUT"):
        for connections in (1, 4, 16):
            for workers in (1, 4):
                with place() as here, Vr(PROGRAM, here, "--workers", str(workers)) as server:
                    row(f"vr with {workers} worker{'s' if workers > 1 else ''}", server.port, method, connections)
            if shutil.which("node"):
                with place() as here, Node(here) as server:
                    row("node", server.port, method, connections)


def memory(puts=100_000, files=100, at_once=50):
    with place() as here, Vr(PROGRAM, here) as server, socket.create_connection(("127.0.0.1", server.port)) as link:
        begun, answered = time.monotonic(), 0
        for first in range(0, puts, at_once):
            if first == 50_000:
                # a connection has 65,536 requests at most
                link.close()
                link = socket.create_connection(("127.0.0.1", server.port))
            link.sendall(b"".join(put(f"/files/f{number % files}") for number in range(first, first + at_once)))
            came = b""
            while came.count(b"\r\n\r\n") < at_once:
                came += link.recv(65536)
            answered += came.count(b"HTTP/1.1 204")
        assert answered == puts, answered
        seconds = time.monotonic() - begun
        status = pathlib.Path(f"/proc/{server.process.pid}/status").read_text()
        found = {name: int(re.search(rf"{name}:\s+([0-9]+) kB", status).group(1)) * 1024 for name in ("VmHWM", "VmRSS")}
        # What has to be kept: each call with its body, and the files.
        holds = puts * len(BODY) + files * len(BODY)
        print(
            f"{puts:,} PUTs of {len(BODY)} bytes to {files} files: {seconds:.1f} s, {found['VmRSS'] / 1e6:.0f} MB in the end, "
            f"{found['VmHWM'] / 1e6:.0f} MB at most, {found['VmHWM'] / holds:.2f} times the bodies"
        )


if shutil.which("wrk"):
    rates()
else:
    print("rates: skipped, since there is no wrk")
memory()
