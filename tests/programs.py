"""Small WebAssembly modules, byte by byte, for scripts that write them and run them.

Each is told with the steps that it takes: an instruction is one, and so is leaving a function at its end.
"""
WASI = b"wasi_snapshot_preview1"
I32, I64 = 0x7F, 0x7E
# The functions of WASI that the programs call, by the types of their parameters and results.
FUNCTIONS = {
    "fd_read": ([I32] * 4, [I32]),
    "fd_write": ([I32] * 4, [I32]),
    "path_open": ([I32] * 5 + [I64, I64, I32, I32], [I32]),
    "path_unlink_file": ([I32] * 3, [I32]),
    "proc_exit": ([I32], []),
}
HEADER = b"\0asm\1\0\0\0"


def number(n):
    """A number without a sign in LEB128."""
    low, rest = n & 0x7F, n >> 7
    return bytes([low | 0x80]) + number(rest) if rest else bytes([low])


def signed(n):
    """A number with a sign in LEB128."""
    low, rest = n & 0x7F, n >> 7
    if rest == (-1 if low & 0x40 else 0):
        return bytes([low])
    return bytes([low | 0x80]) + signed(rest)


def sized(content):
    return number(len(content)) + content


def vector(items):
    return number(len(items)) + b"".join(items)


def section(kind, content):
    return bytes([kind]) + sized(content)


def signature(params, results):
    return b"\x60" + sized(bytes(params)) + sized(bytes(results))


def const(n, wide=False):
    return bytes([0x42 if wide else 0x41]) + signed(n)


DROP, UNREACHABLE, END = b"\x1a", b"\0", b"\x0b"


def call(index):
    return b"\x10" + number(index)


def module(code, functions=(), data=b"", pages=0):
    """A module whose `_start` has this code, with the functions of WASI by their order, and data from place 0 on."""
    types = [signature(*FUNCTIONS[name]) for name in functions] + [signature([], [])]
    imports = [sized(WASI) + sized(name.encode()) + b"\0" + number(k) for k, name in enumerate(functions)]
    parts = [HEADER, section(1, vector(types))]
    if imports:
        parts.append(section(2, vector(imports)))
    parts.append(section(3, vector([number(len(functions))])))
    if pages:
        parts.append(section(5, vector([b"\0" + number(pages)])))
    parts.append(section(7, vector([sized(b"_start") + b"\0" + number(len(functions))])))
    parts.append(section(10, vector([sized(b"\0" + code + END)])))
    if data:
        parts.append(section(11, vector([b"\0" + const(0) + END + sized(data)])))
    return b"".join(parts)


def pair(place, length):
    """A place and a length, as a vector of WASI has them."""
    return place.to_bytes(4, "little") + length.to_bytes(4, "little")


def exit_with(code):
    """Ends with the code: 2 steps."""
    return module(const(code) + call(0), ["proc_exit"])


def say(text, code=None):
    """Writes the text: 7 steps; with a code it ends with that, in 8."""
    write = b"".join(const(n) for n in (1, 0, 1, 8)) + call(0) + DROP
    data = pair(12, len(text)) + bytes(4) + text
    if code is None:
        return module(write, ["fd_write"], data, 1)
    return module(write + const(code) + call(1), ["fd_write", "proc_exit"], data, 1)


def say_zeros(*lengths):
    """Writes so many zeros each time, at most 1,114,048, and ends with the last write's error number: 6 steps a
    write."""
    vectors = b"".join(pair(64, length) for length in lengths)
    writes = [b"".join(const(n) for n in (1, 8 * k, 1, 56)) + call(0) for k in range(len(lengths))]
    return module(DROP.join(writes) + call(1), ["fd_write", "proc_exit"], vectors, 17)


def copy():
    """Reads at most 64 bytes of its input, and writes what it read: 13 steps."""
    read = b"".join(const(n) for n in (0, 0, 1, 12)) + call(0) + DROP
    write = b"".join(const(n) for n in (1, 8, 1, 16)) + call(1) + DROP
    return module(read + write, ["fd_read", "fd_write"], pair(32, 64) + pair(32, 0), 1)


def opening(path, base, place):
    """The code that makes the file of the path, whose name lies at the place, or cuts it to nothing, and opens it: 10
    steps, after which the error number is there."""
    before = b"".join(const(n) for n in (3, 0, place, len(path), 9))
    return before + const(base, wide=True) + const(0, wide=True) + const(0) + const(40) + call(0)


def make(path):
    """Makes the empty file of the path, and ends with the error number: 11 steps."""
    return module(opening(path, 0, 48) + call(1), ["path_open", "proc_exit"], bytes(48) + path, 1)


def put(path, text):
    """Makes the file of the path, or cuts it to nothing, and writes the text into it: 18 steps."""
    write = b"".join(const(n) for n in (4, 0, 1, 44)) + call(1) + DROP
    data = pair(256, len(text)) + bytes(40) + path
    data += bytes(256 - len(data)) + text
    return module(opening(path, 64, 48) + DROP + write, ["path_open", "fd_write"], data, 1)


def unlink(path, after):
    """Takes the file of the path out, and goes on with the code: 4 steps, after which the error number is there."""
    functions = ["path_unlink_file", "proc_exit"] if after == call(1) else ["path_unlink_file"]
    return module(const(3) + const(0) + const(len(path)) + call(0) + after, functions, path, 1)


# Ends at once: 1 step.
NOTHING = module(b"")
# Loops.
LOOP = module(b"\x03\x40\x0c\0\x0b")
# Divides the least number by -1, and the remainder of that.
DIVIDE = module(const(-(2**31)) + const(-1) + b"\x6d" + DROP)
REMAINDER = module(const(-(2**31)) + const(-1) + b"\x6f" + DROP)
# A drop after a branch, which is never reached, and one on an empty stack, which has no typing.
DROP_AFTER_BRANCH = module(b"\x0c\0" + DROP)
DROP_OF_NOTHING = module(DROP)
# Takes `/out` out and traps, and takes it out and ends with the error number.
UNLINK_TRAP = unlink(b"out", DROP + UNREACHABLE)
UNLINK = unlink(b"out", call(1))
HI = say(b"hi")
