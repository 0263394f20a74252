#!/usr/bin/env python3
"""Store files that Python's sqlite3 made, and one that the program made, read by the other.

store.py --write    writes the store files of crates/vr_keeper_sql_cases/data
store.py PROGRAM    runs the built program in a folder with these files, and finds the rows expected in those that it wrote
"""
import pathlib
import shutil
import subprocess
import sys
import tempfile

try:
    import sqlite3
except ImportError:
    print("store.py: skipped, since Python has no sqlite3")
    sys.exit(0)
if sqlite3.sqlite_version_info < (3, 37):
    print(f"store.py: skipped, since SQLite {sqlite3.sqlite_version} knows no STRICT tables")
    sys.exit(0)

CRATE = pathlib.Path(__file__).resolve().parent.parent / "crates" / "vr_keeper_sql_cases"
DATA = CRATE / "data"

FILES = "CREATE TABLE files(path TEXT PRIMARY KEY NOT NULL, body BLOB NOT NULL) STRICT"
SIZES = (
    "CREATE TABLE sizes(path TEXT PRIMARY KEY NOT NULL REFERENCES files(path) ON DELETE CASCADE, "
    "size INTEGER NOT NULL) STRICT"
)
VERSIONS = "CREATE TABLE version(n INTEGER PRIMARY KEY NOT NULL) STRICT"
ROW = "INSERT INTO files VALUES('/in', x'616263')"
SECOND = [FILES, SIZES, VERSIONS, ROW]

# The statements that make each file.
STORES = {
    # The first schema, which has the files alone.
    "first.db": [FILES, ROW],
    "second.db": [*SECOND, "INSERT INTO sizes VALUES('/in', 3)", "INSERT INTO version VALUES(2)"],
    "foreign.db": ["CREATE TABLE note(id INTEGER PRIMARY KEY, text TEXT)", "INSERT INTO note VALUES(1, 'a')"],
    "other_columns.db": ["CREATE TABLE files(path TEXT PRIMARY KEY NOT NULL, text TEXT) STRICT"],
    "third.db": [*SECOND, "INSERT INTO sizes VALUES('/in', 3)", "INSERT INTO version VALUES(3)"],
    "two_versions.db": [
        *SECOND,
        "INSERT INTO sizes VALUES('/in', 3)",
        "INSERT INTO version VALUES(2)",
        "INSERT INTO version VALUES(3)",
    ],
    "missing_size.db": [*SECOND, "INSERT INTO version VALUES(2)"],
    "wrong_size.db": [*SECOND, "INSERT INTO sizes VALUES('/in', 4)", "INSERT INTO version VALUES(2)"],
    "no_text.db": [FILES, "INSERT INTO files VALUES(CAST(x'2fff' AS TEXT), x'')"],
    "no_name.db": [FILES, "INSERT INTO files VALUES('', x'61')"],
}

# What is in each file after the program ran: its rows, and the versions.
AFTER = {
    "first.db": ([("/in", b"abc", 3)], [2]),
    "second.db": ([("/in", b"abc", 3)], [2]),
    "made.db": ([("/a", b"", 0), ("/b/c", b"xyz", 3)], [2]),
}
# Those that the program refuses, and leaves as they are.
REFUSED = [
    "foreign.db",
    "other_columns.db",
    "third.db",
    "two_versions.db",
    "missing_size.db",
    "wrong_size.db",
    "no_text.db",
]


def connect(path):
    connection = sqlite3.connect(path)
    connection.execute("PRAGMA foreign_keys = ON")
    return connection


def write():
    DATA.mkdir(exist_ok=True)
    for name, statements in STORES.items():
        path = DATA / name
        path.unlink(missing_ok=True)
        connection = sqlite3.connect(path)
        for statement in statements:
            connection.execute(statement)
        connection.commit()
        connection.close()
    whole = (DATA / "second.db").read_bytes()
    # Cut in its second page, and with a page that is no page.
    (DATA / "cut.db").write_bytes(whole[:6000])
    (DATA / "damaged.db").write_bytes(whole[:4096] + b"\xee" * 4096 + whole[8192:])
    (DATA / "no_database.db").write_bytes(b"ID,NAME\n1,a\n" * 400)


def dump(path):
    connection = connect(path)
    lines = list(connection.iterdump())
    connection.close()
    return lines


def check(program):
    faults = []
    with tempfile.TemporaryDirectory() as folder:
        folder = pathlib.Path(folder)
        for path in DATA.iterdir():
            shutil.copy(path, folder)
        before = {name: dump(folder / name) for name in REFUSED if name != "no_text.db"}
        ran = subprocess.run([pathlib.Path(program).resolve()], cwd=folder, capture_output=True, text=True)
        if ran.returncode != 0 or ran.stdout != (CRATE / "stdout").read_text():
            faults.append(f"the program wrote {ran.stdout!r}, status {ran.returncode}")
        for name, (rows, versions) in AFTER.items():
            connection = connect(folder / name)
            query = "SELECT files.path, body, size FROM files LEFT JOIN sizes USING(path) ORDER BY files.path"
            found = connection.execute(query).fetchall()
            if found != rows:
                faults.append(f"{name}: {found} in place of {rows}")
            found = [n for (n,) in connection.execute("SELECT n FROM version ORDER BY n")]
            if found != versions:
                faults.append(f"{name}: versions {found} in place of {versions}")
            if connection.execute("PRAGMA integrity_check").fetchall() != [("ok",)]:
                faults.append(f"{name}: damaged")
            connection.close()
        for name, lines in before.items():
            if dump(folder / name) != lines:
                faults.append(f"{name} was changed")
        for name in ("cut.db", "damaged.db", "no_database.db"):
            if (folder / name).read_bytes() != (DATA / name).read_bytes():
                faults.append(f"{name} was changed")
    for fault in faults:
        print(f"store.py: {fault}")
    print(f"store.py: {len(AFTER)} stores read back, {len(REFUSED) + 3} refused ones unchanged")
    return len(faults)


if sys.argv[1:] == ["--write"]:
    write()
elif len(sys.argv) != 2:
    sys.exit(__doc__)
else:
    sys.exit(1 if check(sys.argv[1]) else 0)
