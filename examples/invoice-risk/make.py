#!/usr/bin/env python3
"""Writes the policy, the script and the expected output of the case, from seeded invoices."""
import os, random, sys

FOLDER = os.path.dirname(os.path.abspath(__file__))
sys.path.insert(0, os.path.join(FOLDER, ".."))
from scenario import Scenario, digits

BANK, SUPPLIERS = 10, (21, 22, 23)
PROGRAM = "/programs/score.wasm"


def policy(program):
    def supplier(who):
        return {"id": who, "name": f"supplier {who}", "file_rights": [
            {"file_name": f"/suppliers/{who}/invoices", "rights": "rw"},
            {"file_name": f"/suppliers/{who}/scores", "rights": "r"}]}
    bank = {"id": BANK, "name": "the bank", "file_rights": [
        {"file_name": "/bank/ratings", "rights": "rw"},
        {"file_name": "/bank/scores", "rights": "r"},
        {"file_name": PROGRAM, "rights": "wx"}]}
    grants = [{"file_name": "/bank/ratings", "rights": "r"}, {"file_name": "/bank/scores", "rights": "w"}]
    for who in SUPPLIERS:
        grants.append({"file_name": f"/suppliers/{who}/invoices", "rights": "r"})
        grants.append({"file_name": f"/suppliers/{who}/scores", "rights": "w"})
    return {
        "identities": [bank, *map(supplier, SUPPLIERS)],
        "programs": [{"program_file_name": PROGRAM, "file_rights": grants}],
        "pipelines": [{"id": 1, "name": "score the invoices", "pipeline": PROGRAM}],
        "file_hashes": [{"file_path": PROGRAM, "hash": digits(program)}],
        "quotas": [{"file_name": f"/suppliers/{who}/invoices", "bytes": 4096} for who in SUPPLIERS],
    }


def main():
    with open(os.path.join(FOLDER, "score.wasm"), "rb") as module:
        program = module.read()
    draw = random.Random("invoice risk")
    ratings = {21: 2, 22: 7}
    invoices = {who: [(f"INV-{who}{at:02}", draw.randrange(900, 60000), draw.randrange(0, 45)) for at in range(8)]
                for who in SUPPLIERS}
    case = Scenario(FOLDER, policy(program))
    case.note("The bank brings the program that all have agreed on, and its ratings.")
    case.writes(BANK, PROGRAM, program)
    case.writes(BANK, "/bank/ratings", "".join(f"{who} {rating}\n" for who, rating in ratings.items()).encode())
    case.note("Each supplier hands in its invoices, at most 4,096 bytes of them.")
    for who in SUPPLIERS:
        lines = "".join(f"{name} {amount} {days}\n" for name, amount, days in invoices[who])
        case.writes(who, f"/suppliers/{who}/invoices", lines.encode())
    case.call(22, "append /suppliers/22/invoices fill 78 4096",
              f"quota /suppliers/22/invoices {len(case.files['/suppliers/22/invoices']) + 4096}")
    case.note("The bank sees no invoice, no supplier another's, and none the ratings.")
    case.denied(BANK, "read /suppliers/21/invoices", "/suppliers/21/invoices", "fd_read")
    case.denied(21, "read /suppliers/22/invoices", "/suppliers/22/invoices", "fd_read")
    case.denied(21, "read /bank/ratings", "/bank/ratings", "fd_read")
    case.denied(21, "run 1", PROGRAM, "execute")
    case.note("The scores: all for the bank, and each supplier's own.")
    scores = {who: [(name, ratings.get(who, 9) * days * (amount // 1000)) for name, amount, days in invoices[who]]
              for who in SUPPLIERS}
    files = {f"/suppliers/{who}/scores": "".join(f"{name} {score}\n" for name, score in scores[who]).encode()
             for who in SUPPLIERS}
    files["/bank/scores"] = "".join(f"{who} {name} {score}\n" for who in SUPPLIERS
                                    for name, score in scores[who]).encode()
    case.runs(BANK, 1, files=files)
    case.reads(BANK, "/bank/scores")
    for who in SUPPLIERS:
        case.reads(who, f"/suppliers/{who}/scores")
    case.denied(23, "read /suppliers/21/scores", "/suppliers/21/scores", "fd_read")
    case.finish()


main()
