#!/usr/bin/env python3
"""stored.py PROGRAM: times 1,000 PUTs of 1 KiB into a store file by the built program's `serve`, beside Python's sqlite3 making
the same transactions, and how long the server takes to begin with a store of 10,000 files of 1 KiB."""
import pathlib, random, resource, socket, sqlite3, sys, time

sys.dont_write_bytecode = True
from server import Vr, place, put

WRITES, FILES = 1_000, 10_000
FILE = "INSERT INTO files VALUES(?1, ?2) ON CONFLICT(path) DO UPDATE SET body = excluded.body"
SIZE = "INSERT INTO sizes VALUES(?1, length(?2)) ON CONFLICT(path) DO UPDATE SET size = excluded.size"
SCHEMA = """
    CREATE TABLE files(path TEXT PRIMARY KEY NOT NULL, body BLOB NOT NULL) STRICT;
    CREATE TABLE sizes(path TEXT PRIMARY KEY NOT NULL REFERENCES files(path) ON DELETE CASCADE, size INTEGER NOT NULL) STRICT;
"""


def by_server(here):
    with Vr(sys.argv[1], here, "--store", "store") as server:
        with socket.create_connection(("127.0.0.1", server.port)) as link:
            begun = time.monotonic()
            for number in range(WRITES):
                link.sendall(put(f"/files/d/{number}"))
                assert link.recv(1024).startswith(b"HTTP/1.1 204")
            return time.monotonic() - begun


def by_sqlite(here):
    connection = sqlite3.connect(pathlib.Path(here) / "beside")
    connection.executescript(SCHEMA)
    begun = time.monotonic()
    for number in range(WRITES):
        for statement in (FILE, SIZE):
            connection.execute(statement, (f"/d/{number}", b"x" * 1024))
        connection.commit()
    return time.monotonic() - begun


def children_time():
    """The processor time of all servers that have ended."""
    used = resource.getrusage(resource.RUSAGE_CHILDREN)
    return used.ru_utime + used.ru_stime


def load(here):
    draw = random.Random(1)
    connection = sqlite3.connect(pathlib.Path(here) / "large")
    connection.executescript(SCHEMA.splitlines()[1])
    rows = ((f"/d/{number:05}/f", draw.randbytes(1024)) for number in range(FILES))
    connection.executemany("INSERT INTO files VALUES(?, ?)", rows)
    connection.commit()
    connection.close()
    took = []
    for _ in range(3):
        before, begun = children_time(), time.monotonic()
        with Vr(sys.argv[1], here, "--store", "large"):
            seconds = time.monotonic() - begun
        took.append((seconds, children_time() - before))
    return took


with place() as here:
    print(f"{WRITES:,} PUTs of 1 KiB into a store file: {by_server(here):.2f} s; python's sqlite3: {by_sqlite(here):.2f} s")
    for name, (seconds, processor) in zip(("of the first schema", "again", "and again"), load(here)):
        print(f"a server begins with {FILES:,} files {name}: {seconds:.2f} s, of the processor {processor:.2f} s")
