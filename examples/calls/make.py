#!/usr/bin/env python3
"""Writes the policy, the script and the expected output of the case. What each call gives is the block of docs/PROGRAMS.md."""
import os, re, sys

FOLDER = os.path.dirname(os.path.abspath(__file__))
sys.path.insert(0, os.path.join(FOLDER, ".."))
from scenario import Scenario

GUIDE = os.path.join(FOLDER, "..", "..", "docs", "PROGRAMS.md")
PROGRAM = "/programs/calls.wasm"
READ, WRITE, UNLINK = 2367526, 4727876, 1 << 26


def told():
    """What the program prints, as the guide says it."""
    with open(GUIDE, encoding="utf-8") as guide:
        return re.search(r"^```output of=calls\n(.*?)^```$", guide.read(), re.M | re.S)[1].encode()


def policy():
    return {
        "identities": [{"id": 1, "file_rights": [{"file_name": "/", "rights": "rwx"}]}],
        "programs": [{"program_file_name": PROGRAM, "file_rights": [
            {"file_name": "/data/", "rights": "r"},
            {"file_name": "/out", "rights": READ | WRITE | UNLINK}]}],
        "pipelines": [{"id": 1, "name": "make the calls", "pipeline": PROGRAM}],
    }


def main():
    case = Scenario(FOLDER, policy())
    case.writes(1, PROGRAM, case.program("calls.wasm"))
    case.writes(1, "/data/in", b"abcdefgh")
    case.writes(1, "/secret", b"s")
    case.note("Each line of the output is a call and what it gave; the code 7 is that of the program's main.")
    case.runs(1, 1, code=7, output=told())
    case.finish()


main()
