#!/usr/bin/env python3
"""Writes the policy, the script and the expected output of the case, from seeded lists of patients."""
import os, random, sys

FOLDER = os.path.dirname(os.path.abspath(__file__))
sys.path.insert(0, os.path.join(FOLDER, ".."))
from scenario import Scenario, digits

ANNA, LAKESIDE, SUPPLIER = 1, 2, 3
PROGRAM = "/programs/intersect.wasm"


def policy(program):
    return {
        "identities": [
            {"id": ANNA, "name": "St. Anna's hospital", "file_rights": [
                {"file_name": "/anna/", "rights": "rw"},
                {"file_name": "/result/", "rights": "r"},
                {"file_name": PROGRAM, "rights": "x"}]},
            {"id": LAKESIDE, "name": "Lakeside hospital", "file_rights": [
                {"file_name": "/lakeside/", "rights": "rw"},
                {"file_name": "/result/", "rights": "r"},
                {"file_name": PROGRAM, "rights": "x"}]},
            {"id": SUPPLIER, "name": "who brings the program", "file_rights": [
                {"file_name": PROGRAM, "rights": "w"}]},
        ],
        "programs": [
            {"program_file_name": PROGRAM, "file_rights": [
                {"file_name": "/anna/patients", "rights": "r"},
                {"file_name": "/lakeside/patients", "rights": "r"},
                {"file_name": "/result/shared", "rights": "w"}]},
        ],
        "pipelines": [{"id": 1, "name": "count the shared patients", "pipeline": PROGRAM}],
        "file_hashes": [{"file_path": PROGRAM, "hash": digits(program)}],
    }


def patients(draw):
    """Two lists of 40 numbers, 13 of which stand in both; the second list has three of its own twice."""
    numbers = draw.sample(range(100000, 1000000), 67)
    shared, ours, theirs = numbers[:13], numbers[13:40], numbers[40:]
    lists = [shared + ours, shared + theirs + theirs[:3]]
    for numbers in lists:
        draw.shuffle(numbers)
    return ["".join(f"P-{number}\n" for number in numbers).encode() for numbers in lists]


def main():
    with open(os.path.join(FOLDER, "intersect.wasm"), "rb") as module:
        program = module.read()
    anna, lakeside = patients(random.Random("shared patients"))
    case = Scenario(FOLDER, policy(program))
    case.keep("anna.txt", anna.decode())
    case.keep("lakeside.txt", lakeside.decode())
    case.note("Each hospital sees that the runtime has the policy that it signed.")
    case.asks_hash(ANNA)
    case.asks_hash(LAKESIDE)
    case.note("The program comes from somebody else; only the bytes whose hash the policy has will run.")
    case.writes(SUPPLIER, PROGRAM, program)
    case.writes(ANNA, "/anna/patients", anna)
    case.note("Without the second list the program ends with code 2 and leaves nothing.")
    case.runs(ANNA, 1, code=2)
    case.writes(LAKESIDE, "/lakeside/patients", lakeside)
    case.note("Nobody reads a list that isn't his, and who brings the program runs nothing.")
    case.denied(ANNA, "read /lakeside/patients", "/lakeside/patients", "fd_read")
    case.denied(LAKESIDE, "read /anna/patients", "/anna/patients", "fd_read")
    case.denied(SUPPLIER, "read /anna/patients", "/anna/patients", "fd_read")
    case.denied(SUPPLIER, "run 1", PROGRAM, "execute")
    case.note("The lists are counted together, and both read the one number.")
    count = len(set(anna.split()) & set(lakeside.split()))
    case.runs(LAKESIDE, 1, files={"/result/shared": f"{count}\n".encode()})
    case.reads(ANNA, "/result/shared")
    case.reads(LAKESIDE, "/result/shared")
    case.note("Another program in its place does not run.")
    case.writes(SUPPLIER, PROGRAM, program[:-1] + b"?")
    case.call(ANNA, "run 1", f"pin mismatch {PROGRAM} {digits(case.files[PROGRAM])}")
    case.finish()


main()
