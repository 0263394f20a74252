"""Stamps the lines of `rt ci` as they come, and tells the seconds of each crate; what gate.sh calls."""
import re, sys, time

below = {}
for line in open(sys.argv[1]):
    if ":" in line and not line.startswith("#"):
        name, deps = line.split(":", 1)
        below[name.split()[0]] = deps.split()

began = time.monotonic()
proved, tested, edits, kept = {}, {}, {}, set()
told = None
last = ""
for line in sys.stdin:
    now = time.monotonic() - began
    last = line.rstrip() or last
    if found := re.match(r"rt: (\w+) is kept", line):
        kept.add(found[1])
        proved[found[1]] = now
    elif found := re.match(r"rt: (\w+) (proved|NOT PROVED)", line):
        proved[found[1]] = now
    elif found := re.match(r"rt: (\w+): its tests are (proved|NOT PROVED)", line):
        tested[found[1]] = now
    elif found := re.match(r"rt: (\w+): trying its must-fail edits \((\d+)\)", line):
        edits[found[1]] = found[2]
    elif line.startswith("rt: must-fail ") and told is None:
        told = now

for name in sorted(proved, key=proved.get):
    start = max((proved[lib] for lib in below.get(name, []) if lib in proved), default=0)
    proof = "kept" if name in kept else f"{proved[name] - start:.0f} s"
    tests = f", its tests {tested[name] - start:.0f} s" if name in tested else ""
    tried = f", {edits[name]} edits" if name in edits else ""
    print(f"{name}: proof {proof}{tests}{tried}")
if told is not None:
    print(f"edits: all tried after {told:.0f} s, since the last proof {told - max(proved.values()):.0f} s")
print(f"all: {time.monotonic() - began:.0f} s; {last}")
