#!/usr/bin/env python3
"""What examples/readable makes of lines of replays: each form of a reply, files, and lines that it doesn't know."""
import json, os, subprocess, sys, tempfile

ROOT = os.path.join(os.path.dirname(os.path.abspath(__file__)), "..")
FILTER = os.path.join(ROOT, "examples", "readable")
DIGITS = "ba7816bf8f01cfea414140de5dae2223b00361a396177a9cb410ff61f20015ad"
CUT = "ba7816bf8f01…"
TEXT = "beds 31\nfreed 7\n".encode().hex()
# with the sign that turns the direction of writing
HIDDEN = "a\u202eb".encode().hex()

# The text of a reply, and what stands for it.
REPLIES = [
    ("done", "done"),
    ("done bytes 0 -", "done, it is empty"),
    ("done bytes 3 616263", 'done, it says "abc"'),
    ("done bytes 3 31330a", 'done, it says "13"'),
    ("done bytes 1 0a", 'done, it says ""'),
    ("done bytes 5 22613a2209", 'done, it says "\\"a:\\"\\t"'),
    (f"done bytes 16 {TEXT}", "done, it says 2 lines\n      | beds 31\n      | freed 7"),
    ("done bytes 8 0061736d01000000", "done, it has 8 bytes that are no text"),
    (f"done bytes 5 {HIDDEN}", "done, it has 5 bytes that are no text"),
    ("done code 0 out 0 -", "ended with code 0"),
    ("done code 44 out 2 6869", 'ended with code 44, its output says "hi"'),
    ("done code 0 out 4 680a690a", "ended with code 0, its output says 2 lines\n      | h\n      | i"),
    (f"done hash {DIGITS}", f"it is {CUT}"),
    ("no such file /in", "there is no file /in"),
    ("denied /in fd_read", "refused, may not read /in (fd_read)"),
    ("denied /in fd_write", "refused, may not write /in (fd_write)"),
    ("denied /in fd_seek", "refused, may not append to /in (fd_seek)"),
    ("denied /p execute", "refused, may not run /p (execute)"),
    ("no such pipeline 99", "the policy has no pipeline 99"),
    ("pin missing /in", "refused, /in is pinned and isn't there"),
    (f"pin mismatch /in {DIGITS}", f"refused, /in is not the file that the policy pins: it has {CUT}"),
    ("too large 16777217", "refused, the file would have 16,777,217 bytes, and 16,777,216 are the most"),
    ("quota /box/ 5", "refused, /box/ would have 5 bytes, more than its quota"),
    ("bad program /p decode 9 at 13",
     "/p is no program that can run: it has floating point, at byte 13 (decode 9 at 13); nothing was changed"),
    ("bad program /p invalid 10 0",
     "/p is no program that can run: function body 0 is not valid (invalid 10 at 0); nothing was changed"),
    ("bad program /p link 1 2",
     "/p is no program that can run: import 2 is nothing that programs are given (link 1 at 2); nothing was changed"),
    ("trapped /p 2", "/p was stopped: it divided by zero (trap 2); nothing was changed"),
    ("trapped /p 77", "/p was stopped: kind 77 (trap 77); nothing was changed"),
    ("out of fuel /p", "/p was stopped: the run took all its steps; nothing was changed"),
    ("bad path 1", "refused, the name has an empty segment, or ends in / (bad path 1)"),
    ("bad path 2 at 4", "refused, the name has a byte that no path has, at 4 (bad path 2)"),
    ("unavailable", "the files could not be kept; nothing was changed"),
    ("out of memory", "memory ran out; nothing was changed"),
    ("unkeyed", "refused, the policy has no such identity"),
    ("something else", "something else"),
]
LINES = [
    (f"policy {DIGITS}", f"policy {CUT}"),
    (f"file /in 3 {DIGITS}", f"left: /in, 3 bytes, {CUT}"),
    ("of another form", "of another form"),
    ("", ""),
]
POLICY = {"identities": [{"id": 1, "name": "the ward"}, {"id": 2}], "pipelines": [{"id": 0, "name": "count"}, {"id": 1}]}
# Lines of a script, and what stands for them where each is done.
CALLS = [
    ("1 hash", "the ward asks for the policy's hash"),
    ("1 run 0", 'the ward runs pipeline 0 "count"'),
    ("2 run 1", "identity 2 runs pipeline 1"),
    ("1 read /in", "the ward reads /in"),
    ("1 write /in text beds 31\r", 'the ward writes /in, "beds 31"'),
    ("1 append /in empty", "the ward appends to /in, 0 bytes"),
    ("1 write /in hex 00ff", "the ward writes /in, 2 bytes"),
    ("1 write /in fill 61 4096", "the ward writes /in, 4,096 bytes of 61"),
    ("1 write /in text a\tb", "the ward writes /in, 3 bytes"),
    ('1 write /in text x": refused', 'the ward writes /in, "x\\": refused"'),
]


def filtered(lines, *words):
    done = subprocess.run([FILTER, *words], input="".join(line + "\n" for line in lines), capture_output=True, text=True)
    return done.stdout if done.returncode == 0 else done.stderr


def main():
    cases = [([f"7 4 {text}"], [], f"  7 identity 4: {words}\n") for text, words in REPLIES]
    cases += [([line], [], f"{words}\n") for line, words in LINES]
    with tempfile.TemporaryDirectory() as folder:
        policy, script = os.path.join(folder, "policy"), os.path.join(folder, "script")
        with open(policy, "w", encoding="utf-8") as out:
            json.dump(POLICY, out)
        with open(script, "w", encoding="utf-8", newline="") as out:
            out.writelines(line + "\n" for line, _ in CALLS)
        answers = [f"{place} {line.split()[0]} done" for place, (line, _) in enumerate(CALLS, 1)]
        words = "".join(f"{place:>3} {words}: done\n" for place, (_, words) in enumerate(CALLS, 1))
        cases.append((answers, [policy, script], words))
        wrong = [(lines, filtered(lines, *files), wanted) for lines, files, wanted in cases]
    wrong = [(lines, found, wanted) for lines, found, wanted in wrong if found != wanted]
    for lines, found, wanted in wrong:
        print(f"readable: {lines}: wanted {wanted!r}, found {found!r}", file=sys.stderr)
    print(f"readable: {len(cases) - len(wrong)} of {len(cases)} as they should be")
    sys.exit(1 if wrong else 0)


main()
