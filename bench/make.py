"""Times `vr make` for growing numbers; what make.sh calls."""
import os, sys
from timing import best

program, runs = os.path.abspath(sys.argv[1]), int(sys.argv[2])
before = None
for number in (1, 10, 100, 1000):
    took = best(program, ["make", str(number)], runs)
    grown = f", {took.seconds / before:.1f} times the seconds of the one before" if before else ""
    print(f"make {number}: {took.seconds:.3f} s, {took.peak / 2**20:.0f} MiB{grown}")
    before = max(took.seconds, 0.001)
