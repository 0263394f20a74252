#!/usr/bin/env python3
"""Replays random scripts under random policies, and for each caller the calls of those identities alone whose calls may lead
to what it learns, as `vr flows` tells them: the caller has to hear the same.

    isolation.py PROGRAM [HISTORIES [SEED]]
"""
import json, os, pathlib, random, subprocess, sys, tempfile

FOLDER = pathlib.Path(__file__).resolve().parent / "histories"
MODULES = [(FOLDER / f"{name}.wasm").read_bytes() for name in ("copy", "measure", "remove", "spoil")]
FILES = [f"{directory}/{name}" for directory in "abc" for name in "xy"]
NAMES = ["a/", "b/", "c/", *FILES]
OWNER, CALLERS, STRANGER = 0, range(1, 5), 9
# Words of rights for callers: nothing, to read, to write, both, to write without reading, to append.
WORDS = [0, "r", "w", "rw", 64, 68]
# Words of rights for programs: to learn whether a file is there, to take it away, and letters.
PROGRAM_WORDS = ["r", "w", "rw", 1 << 18, 1 << 26, 1 << 13, "rw"]


def grants(draw, names, words):
    chosen = draw.sample(names, draw.randrange(1, 4))
    return [{"file_name": name, "rights": draw.choice(words)} for name in chosen]


def pipeline(draw, programs, depth=2):
    """The text of a pipeline: a program, two of them in one of the two orders, or a test of a file."""
    kind = draw.randrange(4 if depth else 1)
    part = lambda: pipeline(draw, programs, depth - 1)
    if kind == 0:
        return draw.choice(programs)
    if kind == 1:
        return f"{part()} ; {part()}"
    test = f"if {draw.choice(FILES)} {{ {part()} }}"
    if kind == 2:
        return test + (f" else {{ {part()} }}" if draw.random() < 0.5 else "")
    return f"{draw.choice(programs)} | {draw.choice(programs)}"


def policy(draw):
    programs = [f"p/{number}" for number in range(draw.randrange(1, 4))]
    identities = [{"id": OWNER, "file_rights": [{"file_name": "p/", "rights": "w"}]}]
    for who in CALLERS:
        held = grants(draw, NAMES, WORDS)
        if draw.random() < 0.6:
            held += [{"file_name": name, "rights": "x"} for name in draw.sample(programs, draw.randrange(1, len(programs) + 1))]
        identities.append({"id": who, "file_rights": held})
    told = {
        "identities": identities,
        "programs": [{"program_file_name": name, "file_rights": grants(draw, NAMES, PROGRAM_WORDS)} for name in programs],
        "pipelines": [{"id": number, "pipeline": pipeline(draw, programs)} for number in range(draw.randrange(1, 4))],
    }
    if draw.random() < 0.4:
        told["quotas"] = [{"file_name": draw.choice(NAMES), "bytes": draw.randrange(12)}]
    if draw.random() < 0.2:
        # the SHA-256 of the one byte `a`
        hash = "ca978112ca1bbdcafac231b39a23dc4da786eff8147c4e72b9807785afee48bb"
        told["file_hashes"] = [{"file_path": draw.choice(FILES), "hash": hash}]
    return told


def module(draw):
    """A program that works on two files."""
    names = [draw.choice(FILES).encode() for _ in range(2)]
    return draw.choice(MODULES).replace(b"@@1", names[0]).replace(b"@@2", names[1])


def script(draw, told):
    """The calls: the programs are written first, and now and then later."""
    programs = [program["program_file_name"] for program in told["programs"]]
    write_program = lambda: (OWNER, f"write {draw.choice(programs)} hex {module(draw).hex()}")
    calls = [(OWNER, f"write {name} hex {module(draw).hex()}") for name in programs]
    for _ in range(24):
        who = draw.choice([*CALLERS, *CALLERS, STRANGER])
        name, letter = draw.choice(FILES), draw.choice("abc")
        calls.append(draw.choice([
            (who, f"read {name}"), (who, f"read {name}"), (who, f"write {name} text {letter * draw.randrange(4)}"),
            (who, f"append {name} text {letter}"), (who, f"run {draw.randrange(len(told['pipelines']))}"),
            (who, f"run {draw.randrange(len(told['pipelines']))}"), (who, "hash"), write_program(),
        ]))
    return calls


class Program:
    """The built program, with a policy and a script in files."""

    def __init__(self, path, folder):
        self.path, self.folder = os.path.abspath(path), folder

    def says(self, *words):
        done = subprocess.run([self.path, *words], cwd=self.folder, capture_output=True, timeout=60, check=True)
        return done.stdout.decode().splitlines()

    def reaches(self):
        """For each identity, those whose calls may lead to what it learns."""
        reached = {}
        for line in self.says("flows", "policy"):
            words = line.split(" ")
            reached[int(words[1])] = {int(word) for word in words[3 : words.index("regions")]}
        return reached

    def heard(self, calls):
        """The reply to each call, with its caller."""
        text = "".join(f"{who} {call}\n" for who, call in calls)
        (self.folder / "script").write_text(text, encoding="ascii")
        replies = [line.split(" ", 2) for line in self.says("replay", "policy", "script")]
        return [(int(words[1]), words[2]) for words in replies if words[0].isdigit()]


def differing(program, draw):
    """The callers of one history that hear something else in a purge; and how many purges left a call out."""
    told = policy(draw)
    (program.folder / "policy").write_text(json.dumps(told), encoding="ascii")
    calls, reached = script(draw, told), program.reaches()
    whole, wrong, proper = program.heard(calls), [], 0
    for caller in [OWNER, *CALLERS, STRANGER]:
        kept = reached.get(caller, {caller})
        purge = [call for call in calls if call[0] in kept]
        proper += len(purge) < len(calls)
        mine = lambda replies: [reply for who, reply in replies if who == caller]
        if mine(program.heard(purge)) != mine(whole):
            wrong.append(caller)
    return wrong, proper


def main():
    histories = int(sys.argv[2]) if len(sys.argv) > 2 else 200
    seed = int(sys.argv[3]) if len(sys.argv) > 3 else 1
    faults = purges = 0
    with tempfile.TemporaryDirectory() as folder:
        program = Program(sys.argv[1], pathlib.Path(folder))
        for number in range(seed, seed + histories):
            wrong, proper = differing(program, random.Random(number))
            purges += proper
            for caller in wrong:
                faults += 1
                print(f"isolation.py: history {number}: {caller} hears something else in its purge", file=sys.stderr)
    print(f"{histories} histories, {purges} purges that leave calls out, {faults} in which a caller hears something else")
    sys.exit(1 if faults or purges < histories else 0)


if __name__ == "__main__":
    main()
