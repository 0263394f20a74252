"""Times runs of pipelines by `vr replay`; what runs.sh calls. A script is measured beside the same one without its runs."""
import json, os, re, shutil, subprocess, sys, tempfile
from timing import best

MIB = 1 << 20
FUEL = "--fuel=1000000000000"
# Ends at once.
EMPTY = bytes.fromhex("0061736d0100000001040160000003020100070a01065f737461727400000a040102000b")
PROGRAMS = os.path.join("bench", "programs")
POLICY = {
    "identities": [{"id": 1, "file_rights": [{"file_name": "/", "rights": "rwx"}]}],
    "programs": [{"program_file_name": "/program", "file_rights": [{"file_name": "/d/", "rights": "rw"}]}],
    "pipelines": [{"id": 0, "pipeline": "/program"}],
}


def module(name):
    with open(os.path.join(PROGRAMS, name + ".wasm"), "rb") as it:
        return it.read()


class Replays:
    """Scripts in a folder of their own, timed."""

    def __init__(self, program, runs, folder):
        self.program, self.runs, self.folder = program, runs, folder
        self.policy, self.script = (os.path.join(folder, name) for name in ("policy.json", "script.txt"))
        with open(self.policy, "w", encoding="ascii") as it:
            json.dump(POLICY, it)

    def spent(self, lines):
        with open(self.script, "w", encoding="ascii") as it:
            it.writelines(line + "\n" for line in lines)
        return best(self.program, ["replay", FUEL, self.policy, self.script], self.runs)

    def added(self, setup, runs):
        """The seconds that so many runs add to a script, and the peak of memory with them."""
        without, whole = self.spent(setup), self.spent(setup + ["1 run 0"] * runs)
        return whole.seconds - without.seconds, whole.peak


def steps(name):
    """How many steps a program takes, by the bench of the interpreter where that was built."""
    interpreter = os.path.join("crates", "vr_wasm_bench", "out", "vr_wasm_bench")
    if not os.path.exists(interpreter):
        return None
    path = os.path.join(PROGRAMS, name + ".wasm")
    told = subprocess.run([interpreter, "--fuel=100000000000", path], capture_output=True, text=True).stdout
    return int(re.search(r"used: (\d+)", told)[1])


def empty_runs(replays):
    write = f"1 write /program hex {EMPTY.hex()}"
    few = [write] + [f"1 write /d/f{k} text {k}" for k in range(10)]
    many = [write] + [f"1 write /d/f{k} text {k}" for k in range(10000)]
    over_few, over_many = replays.added(few, 1000)[0] * 1000, replays.added(many, 1000)[0] * 1000
    print(f"an empty program over 10 files: {over_few:.0f} microseconds a run")
    print(f"an empty program over 10,000 files: {over_many:.0f} microseconds a run, {over_many - over_few:.0f} microseconds more")


def copies(replays):
    for size in (4, 16):
        setup = [f"1 write /program hex {module('copy').hex()}", f"1 write /d/in fill 61 {size * MIB}"]
        seconds, peak = replays.added(setup, 1)
        print(f"{size} MiB copied in pieces of 4 KiB: {seconds:.3f} s, {peak / MIB:.0f} MiB at the peak")


def long_runs(replays):
    wabt = shutil.which("wasm-interp")
    for name in ("sieve", "sha256", "sort"):
        seconds, _ = replays.added([f"1 write /program hex {module(name).hex()}"], 1)
        line, count = f"{name}: {seconds:.2f} s", steps(name)
        if count:
            line += f", {count / seconds / 1e6:.0f} million steps a second"
        if wabt:
            theirs = best(wabt, ["--run-all-exports", os.path.join(PROGRAMS, name + ".wasm")], replays.runs).seconds
            line += f", {seconds / theirs:.2f} of wasm-interp's time"
        print(line)


def main():
    with tempfile.TemporaryDirectory() as folder:
        replays = Replays(os.path.abspath(sys.argv[1]), int(sys.argv[2]), folder)
        empty_runs(replays)
        copies(replays)
        long_runs(replays)


main()
