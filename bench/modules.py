"""Times decoding and validation of large modules; what modules.sh calls."""
import os, random, shutil, subprocess, sys, tempfile
from timing import best

program, runs = os.path.abspath(sys.argv[1]), int(sys.argv[2])
HEADER = b"\0asm\1\0\0\0"
MOST_BYTES = 16 * 1024 * 1024


def number(n):
    """In LEB128."""
    low = []
    while n > 127:
        low.append(n % 128 + 128)
        n //= 128
    return bytes(low + [n])


def vector(items):
    return number(len(items)) + b"".join(items)


def sized(contents):
    return number(len(contents)) + contents


def section(id, items):
    return bytes([id]) + sized(vector(items))


def module(bodies, exports=()):
    """Functions from i32 to i32 with these bodies, exported by these names."""
    kinds = [b"\x60\1\x7f\1\x7f"]
    named = [sized(name) + b"\0" + number(k % len(bodies)) for k, name in enumerate(exports)]
    return (HEADER + section(1, kinds) + section(3, [b"\0"] * len(bodies)) + (section(7, named) if named else b"")
            + section(10, [sized(body) for body in bodies]))


def operations(draw, count):
    """Sums, shifts and comparisons of the parameter and of drawn constants."""
    made = []
    for _ in range(count):
        made.append(b"\x20\0\x41" + bytes([draw.randrange(64)]) + bytes([draw.choice((0x6a, 0x6b, 0x73, 0x74, 0x48))]) + b"\x21\0")
    return b"".join(made)


def code(draw, size):
    """Functions of some thousand instructions, up to this size."""
    pieces = [operations(draw, 250) for _ in range(64)]
    bodies, total = [], 64
    while total + 40000 < size:
        body = b"\0" + b"".join(draw.choice(pieces) for _ in range(20)) + b"\x20\0\x0b"
        bodies.append(body)
        total += len(body) + 4
    return module(bodies)


def functions(draw, count):
    return module([b"\0\x20\0\x41" + bytes([draw.randrange(64)]) + b"\x6a\x0b" for _ in range(count)])


def blocks(draw, count):
    """Functions of 1,024 blocks, each in the one before."""
    return module([b"\0" + b"\2\x40" * 1024 + b"\x0b" * 1024 + b"\x20\0\x0b"] * count)


def exports(draw, count):
    names = set()
    while len(names) < count:
        names.add(b"f%d" % draw.randrange(10**9))
    shuffled = sorted(names)
    draw.shuffle(shuffled)
    return module([b"\0\x20\0\x0b"], shuffled)


def locals_(draw, count):
    """Functions that declare 8,192 locals each."""
    return module([b"\1\x80\x40\x7f\x20\0\x0b"] * count)


CASES = [
    ("16 MiB of code", code, MOST_BYTES),
    ("65,536 functions", functions, 65536),
    ("1,024 nested blocks in 4,096 functions", blocks, 4096),
    ("60,000 exports", exports, 60000),
    ("8,192 locals in 65,536 functions", locals_, 65536),
]


def found_valid(path):
    return subprocess.run([program, path], capture_output=True, text=True).stdout == f"{path}: valid\n"


wabt = shutil.which("wasm-validate")
if not wabt:
    print("wasm-validate is not installed (apt-get install wabt), so there is nothing to compare with")
with tempfile.TemporaryDirectory() as folder:
    path = os.path.join(folder, "module.wasm")
    for title, made, whole in CASES:
        took = []
        for size in (whole // 4, whole):
            text = made(random.Random(size), size)
            assert len(text) <= MOST_BYTES, title
            with open(path, "wb") as f:
                f.write(text)
            assert found_valid(path), title
            took.append(best(program, [path], runs).seconds)
        line = f"{title} ({len(text)} bytes): {took[1]:.3f} s, {took[1] / took[0]:.1f} times a quarter's"
        if wabt:
            line += f", {took[1] / best(wabt, [path], runs).seconds:.2f} of wasm-validate's time"
        print(line)
