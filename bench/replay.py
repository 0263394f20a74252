"""Times `vr replay`; what replay.sh calls. A script is made by a process of its own, so that the memory of the generator
doesn't count as the program's."""
import json, os, random, subprocess, sys, tempfile
from timing import best

LINES = 100000
MIB = 1 << 20


def over(files):
    """Reads and writes, one in two, over so many files in random order; a file is written before it is read."""
    draw = random.Random(files)
    order = list(range(files))
    draw.shuffle(order)
    for k in order:
        yield f"1 write /d/f{k} text opening of file {k}"
    for _ in range(LINES - files):
        k = draw.randrange(files)
        yield f"1 write /d/f{k} text {draw.randrange(10**9)}" if draw.randrange(2) else f"2 read /d/f{k}"


def refused():
    for k in range(LINES):
        yield f"2 write /d/f{k % 100} text {k}"


def appends(count):
    for _ in range(count):
        yield "1 append /d/log fill 61 4096"


def large(count):
    for _ in range(count):
        yield f"1 write /d/large fill 61 {16 * MIB}"


SCRIPTS = {
    "100 files": lambda: over(100),
    "10,000 files": lambda: over(10000),
    "64,000 files": lambda: over(64000),
    "refused": refused,
    "512 appends": lambda: appends(512),
    "2,048 appends": lambda: appends(2048),
    "one large write": lambda: large(1),
    "eight large writes": lambda: large(8),
}
POLICY = {
    "identities": [
        {"id": 1, "file_rights": [{"file_name": "/d/", "rights": "rw"}]},
        {"id": 2, "file_rights": [{"file_name": "/d/", "rights": "r"}]},
    ]
}

if sys.argv[1] == "make":
    _, _, name, path = sys.argv
    with open(path, "w") as f:
        f.writelines(line + "\n" for line in SCRIPTS[name]())
    sys.exit()

program, runs = os.path.abspath(sys.argv[1]), int(sys.argv[2])
with tempfile.TemporaryDirectory() as folder:
    policy, script = os.path.join(folder, "policy.json"), os.path.join(folder, "script.txt")
    with open(policy, "w") as f:
        json.dump(POLICY, f)
    took = {}
    for name in SCRIPTS:
        subprocess.run([sys.executable, __file__, "make", name, script], check=True)
        took[name] = best(program, ["replay", policy, script], runs)

few = took["100 files"].seconds
for name in ("100 files", "10,000 files", "64,000 files", "refused"):
    seconds, peak = took[name]
    print(
        f"{LINES:,} lines, {name}: {seconds:.3f} s, {LINES / seconds:,.0f} lines a second, "
        f"{seconds / few:.1f} times as long as over 100 files, {peak / MIB:.0f} MiB"
    )
for name in ("512 appends", "2,048 appends"):
    print(f"{name} of 4 KiB: {took[name].seconds:.3f} s, {took[name].peak / MIB:.0f} MiB")
print(f"four times the appends: {took['2,048 appends'].seconds / took['512 appends'].seconds:.1f} times as long")
for count, name in ((1, "one large write"), (8, "eight large writes")):
    seconds, peak = took[name]
    beside = (peak - count * 16 * MIB) / (16 * MIB)
    print(f"{name} of 16 MiB: {seconds:.3f} s, {peak / MIB:.0f} MiB, {beside:.1f} times the file beside the bodies in the journal")
