#!/usr/bin/env python3
"""store.py PROGRAM: times how long the built vr_keeper_sql_cases takes to load a store of 10,000 files of 1 KiB."""
import pathlib
import random
import shutil
import sqlite3
import subprocess
import sys
import tempfile
import time

FILES = 10_000
DATA = pathlib.Path(__file__).resolve().parent.parent / "crates" / "vr_keeper_sql_cases" / "data"


def make_store(path):
    draw = random.Random(1)
    path.unlink()
    connection = sqlite3.connect(path)
    connection.execute("CREATE TABLE files(path TEXT PRIMARY KEY NOT NULL, body BLOB NOT NULL) STRICT")
    rows = ((f"/d/{i:05}/f", draw.randbytes(1024)) for i in range(FILES))
    connection.executemany("INSERT INTO files VALUES(?, ?)", rows)
    connection.commit()
    connection.close()


def main():
    program = pathlib.Path(sys.argv[1]).resolve()
    with tempfile.TemporaryDirectory() as folder:
        folder = pathlib.Path(folder)
        for path in DATA.iterdir():
            shutil.copy(path, folder)
        make_store(folder / "first.db")
        ran = subprocess.Popen([program], cwd=folder, stdout=subprocess.PIPE, text=True)
        last, times = time.time(), []
        for line in ran.stdout:
            if line.startswith("'"):
                now = time.time()
                if line.startswith("'first.db'"):
                    times.append(now - last)
                last = now
        begun = time.time()
        rows = sqlite3.connect(folder / "first.db").execute(
            "SELECT files.path, body, size FROM files LEFT JOIN sizes USING(path) ORDER BY files.path"
        )
        count = len(rows.fetchall())
        print(f"python's sqlite3 reading {count} rows: {time.time() - begun:.2f} s")
    print(f"a load that takes a store of the first schema over: {times[0]:.2f} s")
    print(f"the next load: {times[1]:.2f} s")
    print(f"the load after it: {times[2]:.2f} s")


main()
