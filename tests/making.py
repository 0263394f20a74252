"""What `vr make` prints, beside a replay of the same policy and script as tests/generator.py makes them.

    tests/making.py VR [N ..]

The summary has to be that of the text that `vr replay` prints over the two: its calls by their replies, its files and their
sizes, and its SHA-256. A second run has to print the same.
"""
import collections, hashlib, os, subprocess, sys, tempfile

HERE = os.path.dirname(os.path.abspath(__file__))

# The replies by how their texts begin; those of the first kind are the number 0.
KINDS = ["done", "no such file", "denied", "no such pipeline", "pin missing", "pin mismatch", "too large", "bad program",
         "trapped", "out of fuel", "bad path", "unavailable", "out of memory", "unkeyed"]


def generated(n, what, folder):
    """The file of the policy or the script of a number."""
    path = os.path.join(folder, what)
    with open(path, "wb") as out:
        subprocess.run([sys.executable, os.path.join(HERE, "generator.py"), str(n), what], stdout=out, check=True)
    return path


def number_of(reply):
    """The number of a reply, by its text."""
    return next(number for number, kind in enumerate(KINDS) if reply == kind or reply.startswith(kind + " "))


def summary(n, text):
    """The summary of the text of a replay."""
    lines = text.decode().splitlines()[1:]
    files = [line.split() for line in lines if line.startswith("file ")]
    calls = [line.split(" ", 2)[2] for line in lines if not line.startswith("file ")]
    counts = collections.Counter(map(number_of, calls))
    rows = [f"made {n}", f"calls {len(calls)}"]
    rows += [f"reply {number} {counts[number]}" for number in range(len(KINDS))]
    rows += [f"files {len(files)}", f"bytes {sum(int(file[2]) for file in files)}"]
    return "".join(row + "\n" for row in rows + [f"hash {hashlib.sha256(text).hexdigest()}"]).encode()


def main():
    vr, numbers = os.path.abspath(sys.argv[1]), sys.argv[2:] or ["1", "2", "7"]
    run = lambda *words: subprocess.run([vr, *words], capture_output=True, check=True).stdout
    wrong = 0
    with tempfile.TemporaryDirectory() as folder:
        for n in numbers:
            text = run("replay", generated(n, "policy", folder), generated(n, "script", folder))
            made = run("make", n)
            if made != summary(n, text) or made != run("make", n):
                wrong += 1
                print(f"make {n} printed\n{made.decode()}and not\n{summary(n, text).decode()}", file=sys.stderr)
    print(f"make: {len(numbers) - wrong} of {len(numbers)} summaries are those of their replays")
    sys.exit(1 if wrong else 0)


main()
