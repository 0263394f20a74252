#!/usr/bin/env python3
"""Writes the policy, the script and the expected output of the case, from seeded tables."""
import collections, os, random, sys

FOLDER = os.path.dirname(os.path.abspath(__file__))
sys.path.insert(0, os.path.join(FOLDER, ".."))
from scenario import Scenario, digits

OFFICES, STATISTICS, READER = {1: "north", 2: "south", 3: "coast"}, 9, 50
SUMS, SUPPRESS = "/programs/sums.wasm", "/programs/suppress.wasm"
LEAST = 5


def policy(sums, suppress):
    offices = [{"id": who, "name": f"the office of the {name}", "file_rights": [
        {"file_name": f"/tables/{name}", "rights": "rw"},
        {"file_name": "/published/table", "rights": "r"}]} for who, name in OFFICES.items()]
    statistics = {"id": STATISTICS, "name": "the statistics office", "file_rights": [
        {"file_name": "/programs/", "rights": "wx"},
        {"file_name": "/published/table", "rights": "r"}]}
    reader = {"id": READER, "name": "the public", "file_rights": [
        {"file_name": "/published/table", "rights": "r"}]}
    return {
        "identities": [*offices, statistics, reader],
        "programs": [
            {"program_file_name": SUMS, "file_rights": [
                {"file_name": f"/tables/{name}", "rights": "r"} for name in OFFICES.values()]},
            {"program_file_name": SUPPRESS, "file_rights": [{"file_name": "/published/table", "rights": "w"}]},
        ],
        "pipelines": [{"id": 1, "name": "publish the table", "pipeline": f"{SUMS} | {SUPPRESS}"}],
        "file_hashes": [{"file_path": SUMS, "hash": digits(sums)},
                        {"file_path": SUPPRESS, "hash": digits(suppress)}],
    }


def main():
    programs = []
    for name in ("sums.wasm", "suppress.wasm"):
        with open(os.path.join(FOLDER, name), "rb") as module:
            programs.append(module.read())
    draw = random.Random("small cells")
    regions, groups = ("hills", "port", "valley"), ("under 18", "18 to 64", "65 and over")
    tables = {who: [(region, group, draw.randrange(0, 9)) for region in regions for group in groups
                    if draw.randrange(4)] for who in OFFICES}
    case = Scenario(FOLDER, policy(*programs))
    case.note("The statistics office brings the two programs; their hashes are in the policy that all have signed.")
    case.writes(STATISTICS, SUMS, programs[0])
    case.writes(STATISTICS, SUPPRESS, programs[1])
    case.note("Each office hands in its table, which nobody else reads.")
    for who, name in OFFICES.items():
        lines = "".join(f"{region} {group} {count}\n" for region, group, count in tables[who])
        case.writes(who, f"/tables/{name}", lines.encode())
    case.denied(STATISTICS, "read /tables/north", "/tables/north", "fd_read")
    case.denied(1, "read /tables/south", "/tables/south", "fd_read")
    case.call(READER, "read /published/table", "no such file /published/table")
    case.note("The sums go to the second program alone: what a run writes between its programs nobody reads.")
    sums = collections.Counter()
    for rows in tables.values():
        for region, group, count in rows:
            sums[f"{region} {group}"] += count
    table = "".join(f"{cell} {total if total >= LEAST else 'fewer than 5'}\n" for cell, total in sorted(sums.items()))
    case.runs(STATISTICS, 1, files={"/published/table": table.encode()})
    case.reads(READER, "/published/table")
    case.denied(READER, "write /published/table empty", "/published/table", "fd_write")
    case.finish()


main()
