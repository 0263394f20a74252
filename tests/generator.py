#!/usr/bin/env python3
"""The policy and the script that `vr make N` replays, written apart from the program by this rule.

A state of 64 bits begins as N. A draw below M sets it to `state * 6364136223846793005 + 1442695040888963407` modulo 2^64 and
gives the whole quotient of it and 2^33, modulo M. The policy is always the same: four identities that share `/out` and have a
folder each, and two programs. The script first writes the two programs, and then makes 100 N calls, each by four draws: who
calls, what they do, in whose folder, and a number of bytes.

generator.py N policy    prints the policy
generator.py N script    prints the script
generator.py N sums      prints the size and the SHA-256 of both
generator.py --check     ends with status 1 where crates/vr_generator_cases/stdout has others
"""
import hashlib
import json
import pathlib
import sys

STORED = pathlib.Path(__file__).resolve().parent.parent / "crates" / "vr_generator_cases" / "stdout"

HEADER = "0061736d01000000"
START = "070a01065f73746172740000"
WASI = b"wasi_snapshot_preview1".hex()
WASI = "16" + WASI

# Writes `hi` to its output.
WRITER = (
    HEADER + "010c0260047f7f7f7f017f600000" + "022301" + WASI + "0866645f77726974650000"
    + "03020101" + "0503010001" + "070a01065f73746172740001"
    + "0a0f010d00410141004101410810001a0b" + "0b14010041000b0e0c00000002000000000000006869"
)
# Unlinks `out`, and exits with what the call answered.
UNLINKER = (
    HEADER + "010f0360037f7f7f017f60017f00600000" + "024e02" + WASI
    + "10706174685f756e6c696e6b5f66696c650000" + WASI + "0970726f635f657869740001"
    + "03020102" + "0503010001" + "070a01065f73746172740002"
    + "0a0e010c00410341004103100010010b" + "0b09010041000b036f7574"
)


def policy():
    def grant(name, rights):
        return {"file_name": name, "rights": rights}

    identities = [
        {
            "id": i,
            "file_rights": [
                grant(f"/d/{i}/", "rw"),
                grant("/out", "rw"),
                grant("/p/", "rwx" if i == 0 else "x"),
            ],
        }
        for i in range(4)
    ]
    programs = [
        {"program_file_name": "/p/m2", "file_rights": []},
        {"program_file_name": "/p/m4", "file_rights": [grant("/out", 67108864)]},
    ]
    pipelines = [{"id": 0, "pipeline": "/p/m2"}, {"id": 1, "pipeline": "/p/m4 ; /p/m2"}]
    tree = {"identities": identities, "programs": programs, "pipelines": pipelines}
    return json.dumps(tree, separators=(",", ":"))


def script(n):
    state = n

    def draw(below):
        nonlocal state
        state = (state * 6364136223846793005 + 1442695040888963407) % 2**64
        return state // 2**33 % below

    lines = [f"0 write /p/m2 hex {WRITER}", f"0 write /p/m4 hex {UNLINKER}"]
    for _ in range(100 * n):
        who, act, file, size = draw(4), draw(5), draw(4), draw(2000)
        lines.append(
            [
                f"{who} write /d/{file}/f fill 61 {size}",
                f"{who} append /d/{file}/f fill 62 {size}",
                f"{who} read /d/{file}/f",
                f"{who} write /out fill 63 {size}",
                f"{who} run {size % 2}",
            ][act]
        )
    return "".join(line + "\n" for line in lines)


def sums(n):
    for name, text in (("policy", policy()), ("script", script(n))):
        data = text.encode()
        yield f"{n} {name} {len(data)} {hashlib.sha256(data).hexdigest()}"


def check():
    stored = STORED.read_text(encoding="utf-8").splitlines()
    numbers = list(dict.fromkeys(int(line.split()[0]) for line in stored))
    if stored != [line for n in numbers for line in sums(n)]:
        sys.exit(f"{STORED} has other sums")
    print(f"{len(numbers)} generated scripts are as stored")


def main():
    if sys.argv[1:] == ["--check"]:
        check()
        return
    n, what = int(sys.argv[1]), sys.argv[2]
    if what == "policy":
        sys.stdout.write(policy())
    elif what == "script":
        sys.stdout.write(script(n))
    else:
        print(*sums(n), sep="\n")


main()
