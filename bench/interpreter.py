"""Times runs of WebAssembly programs; what interpreter.sh calls."""
import os, re, shutil, subprocess, sys
from timing import best

program, runs = os.path.abspath(sys.argv[1]), int(sys.argv[2])
PROGRAMS = ["sieve", "fibonacci", "sha256", "matrix", "machine"]
FUEL = "--fuel=100000000000"


def steps(path):
    """How many steps the program takes to its end."""
    told = subprocess.run([program, FUEL, path], capture_output=True, text=True).stdout
    found = re.fullmatch(r".*: Ended \{ code: 0, used: (\d+) \}\n", told)
    if not found:
        sys.exit(f"not run to its end: {told}")
    return int(found[1])


def starting(path):
    """The time until the first step, without the start of the process: the module's reading, and the machine's making."""
    many = 1000
    return (best(program, ["--fuel=0"] + [path] * many, runs).seconds - best(program, ["--fuel=0"], runs).seconds) / many


wabt = shutil.which("wasm-interp")
if not wabt:
    print("wasm-interp is not installed (apt-get install wabt), so there is nothing to compare with")
for name in PROGRAMS:
    path = os.path.join("bench", "programs", name + ".wasm")
    count, took, start = steps(path), best(program, [FUEL, path], runs).seconds, starting(path)
    line = f"{name}: {count / 1e6:.1f} million steps, {took:.2f} s, {count / took / 1e6:.0f} million steps a second, "
    line += f"{start * 1e6:.0f} microseconds a start"
    if wabt:
        line += f", {took / best(wabt, ['--run-all-exports', path], runs).seconds:.2f} of wasm-interp's time"
    print(line)
