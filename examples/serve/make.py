#!/usr/bin/env python3
"""Writes answers.txt, what run.sh has to write: from the files of the case of two hospitals, and by the rules in plain Python."""
import os, sys

FOLDER = os.path.dirname(os.path.abspath(__file__))
CASE = os.path.join(FOLDER, "..", "shared-patients")
sys.path.insert(0, os.path.join(FOLDER, ".."))
from scenario import digits


def case_file(name):
    with open(os.path.join(CASE, name), "rb") as it:
        return it.read()


def main():
    signed, program = digits(case_file("policy.json")), case_file("intersect.wasm")
    anna, lakeside = case_file("anna.txt"), case_file("lakeside.txt")
    count = len(set(anna.split()) & set(lakeside.split()))
    answers = [
        f"1 GET /policy/hash: 200 {signed}",
        f"2 GET /policy/hash: 200 {signed}",
        "3 PUT /files/programs/intersect.wasm: 204",
        "1 PUT /files/anna/patients: 204",
        "1 POST /pipelines/1: 200 with code 2",
        "2 PUT /files/lakeside/patients: 204",
        "1 GET /files/lakeside/patients: 403 denied /lakeside/patients fd_read",
        "3 POST /pipelines/1: 403 denied /programs/intersect.wasm execute",
        "2 POST /pipelines/1: 200 with code 0",
        f"1 GET /files/result/shared: 200 {count}",
        f"2 GET /files/result/shared: 200 {count}",
        "stranger GET /files/result/shared: 403 unkeyed",
    ]
    # The stranger's request never comes to the book.
    server = [f"policy {signed}", "listening PORT", f"entries {len(answers) - 1}"]
    files = {
        "/anna/patients": anna,
        "/lakeside/patients": lakeside,
        "/programs/intersect.wasm": program,
        "/result/shared": f"{count}\n".encode(),
    }
    left = [f"file {path} {len(body)} {digits(body)}" for path, body in files.items()]
    with open(os.path.join(FOLDER, "answers.txt"), "w", encoding="ascii", newline="\n") as out:
        out.write("\n".join([*answers, *server, *left]) + "\n")


main()
