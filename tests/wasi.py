#!/usr/bin/env python3
"""WASI snapshot preview 1 as a program of this runtime sees it, written from its table of calls alone.

It reads crates/vr_wasi_cases/stdin, and works out what that program is to print. It shares no code with the crates.

    tests/wasi.py          writes crates/vr_wasi_cases/stdout
    tests/wasi.py --check  ends with status 1 where that isn't what would be written
"""
import os, sys

os.chdir(os.path.join(os.path.dirname(os.path.abspath(__file__)), ".."))
FOLDER = "crates/vr_wasi_cases/"

BADF, EXIST, FAULT, FBIG, INVAL, MFILE = 8, 20, 21, 22, 28, 33
NOENT, NOSPC, NOSYS, NOTDIR, NOTSUP, NOTCAPABLE = 44, 51, 52, 54, 58, 76

READ, SEEK, TELL, WRITE, CREATE, OPEN = 1, 2, 5, 6, 10, 13
STAT, CUT, FD_STAT, FD_SIZE, UNLINK, EXECUTE = 18, 19, 21, 22, 26, 30

KNOWN = sum(1 << bit for bit in (READ, SEEK, TELL, WRITE, CREATE, OPEN, STAT, CUT, FD_STAT, FD_SIZE, UNLINK, EXECUTE))
OF_FILES = sum(1 << bit for bit in (READ, SEEK, TELL, WRITE, FD_STAT, FD_SIZE))
EVERY = 536870911
MOST_FILE, MOST_OUTPUT, PAGE = 16777216, 1048576, 65536

MODULE = "wasi_snapshot_preview1"
NAME_BYTES = set(b"abcdefghijklmnopqrstuvwxyzABCDEFGHIJKLMNOPQRSTUVWXYZ0123456789._-/")

# how runs end: by the fuel, the end of the module and the world
RUNS = {
    (7, "006869", "/p"): "ended 0 used 7\noutput: 6869",
    (6, "006869", "/p"): "out of fuel\noutput: 6869",
    (7, "6f7574", "/p; grant /out 67108864"): "trapped 1 used 6\noutput: ",
    (5, "6f7574", "/p"): "ended 76 used 5\noutput: ",
}

# the types of the parameters, and whether there is a result
TYPES = {
    "fd_read": "iiii", "fd_write": "iiii", "fd_seek": "iIii", "fd_tell": "ii", "fd_close": "i", "fd_fdstat_get": "ii",
    "fd_filestat_get": "ii", "fd_filestat_set_size": "iI", "fd_prestat_get": "ii", "fd_prestat_dir_name": "iii",
    "path_open": "iiiiiIIii", "path_filestat_get": "iiiii", "path_unlink_file": "iii", "args_sizes_get": "ii",
    "args_get": "ii", "environ_sizes_get": "ii", "environ_get": "ii", "sched_yield": "", "clock_time_get": "iIi",
    "random_get": "ii", "proc_exit": "i",
}


class Refused(Exception):
    def __init__(self, errno):
        self.errno = errno


class Exit(Exception):
    def __init__(self, code):
        self.code = code


def refuse_if(test, errno):
    if test:
        raise Refused(errno)


def has(word, bit):
    return word >> bit & 1 == 1


def parse(name):
    """The path that a name stands for, or None."""
    path = name[2:] if name.startswith(b"./") else name
    path = path if path.startswith(b"/") else b"/" + path
    if len(path) > 1024 or any(b not in NAME_BYTES for b in name):
        return None
    for segment in path[1:].split(b"/"):
        if segment in (b"", b".", b"..") or len(segment) > 255:
            return None
    return path


def covers(grant, path):
    return path.startswith(grant) and len(path) > len(grant) if grant.endswith(b"/") else grant == path


class Open:
    def __init__(self, kind, path=None, base=0, appends=False):
        self.kind, self.path, self.base, self.appends, self.position = kind, path, base, appends, 0


class World:
    def __init__(self, path, grants, files, stdin, pages):
        self.path, self.grants, self.files, self.stdin = path, grants, dict(files), stdin
        self.before = dict(files)
        self.taken, self.output = 0, bytearray()
        self.open = {0: Open("in", base=1 << READ), 1: Open("out", base=1 << WRITE), 2: Open("err", base=1 << WRITE),
                     3: Open("dir", base=EVERY)}
        self.memory = bytearray(PAGE * pages)

    # ---- checks

    def word(self, path):
        best = None
        for name, word in self.grants:
            if covers(name, path) and (best is None or len(name) > len(best[0])):
                best = (name, word)
        return best[1] & KNOWN if best else 0

    def there(self, at, length):
        return length == 0 or at + length <= len(self.memory)

    def room(self, at, length):
        refuse_if(not self.there(at, length), FAULT)

    def put(self, at, width, number):
        self.memory[at:at + width] = (number & ((1 << 8 * width) - 1)).to_bytes(width, "little")

    def number(self, at, width):
        return int.from_bytes(self.memory[at:at + width], "little")

    def stream(self, fd):
        refuse_if(fd not in self.open or self.open[fd].kind == "dir", BADF)
        return self.open[fd]

    def directory(self, fd):
        refuse_if(fd not in self.open, BADF)
        refuse_if(self.open[fd].kind != "dir", NOTDIR)

    def body(self, path):
        refuse_if(path not in self.files, NOENT)
        return self.files[path]

    def pieces(self, at, count):
        refuse_if(count > 1024, INVAL)
        self.room(at, 8 * count)
        found = [(self.number(at + 8 * k, 4), self.number(at + 8 * k + 4, 4)) for k in range(count)]
        for pointer, length in found:
            self.room(pointer, length)
        return found

    def spelled(self, at, length):
        path = parse(bytes(self.memory[at:at + length]) if length else b"")
        refuse_if(path is None, INVAL)
        return path

    # ---- calls

    def fd_read(self, fd, at, count, out):
        d = self.stream(fd)
        refuse_if(not has(d.base, READ), NOTCAPABLE)
        pieces = self.pieces(at, count)
        self.room(out, 4)
        left = self.stdin[self.taken:] if d.kind == "in" else self.body(d.path)[d.position:]
        done = 0
        for pointer, length in pieces:
            piece = left[done:done + length]
            self.memory[pointer:pointer + len(piece)] = piece
            done += len(piece)
        if d.kind == "in":
            self.taken += done
        else:
            d.position += done
        self.put(out, 4, done)

    def fd_write(self, fd, at, count, out):
        d = self.stream(fd)
        refuse_if(not has(d.base, WRITE), NOTCAPABLE)
        pieces = self.pieces(at, count)
        self.room(out, 4)
        total = sum(length for _, length in pieces)
        data = b"".join(bytes(self.memory[p:p + n]) for p, n in pieces)
        if d.kind == "out":
            refuse_if(len(self.output) + total > MOST_OUTPUT, NOSPC)
            self.output += data
        elif d.kind == "err":
            refuse_if(total > MOST_OUTPUT, NOSPC)
        else:
            body = self.body(d.path)
            place = len(body) if d.appends else d.position
            refuse_if(place + total > MOST_FILE, FBIG)
            if total:
                body = body + bytes(max(0, place - len(body)))
                self.files[d.path] = body[:place] + data + body[place + total:]
                d.position = place + total
        self.put(out, 4, total)

    def fd_seek(self, fd, offset, whence, out):
        d = self.stream(fd)
        refuse_if(not has(d.base, SEEK), NOTCAPABLE)
        refuse_if(whence > 2, INVAL)
        self.room(out, 8)
        body = self.body(d.path)
        place = (0, d.position, len(body))[whence] + (offset - (1 << 64) if offset >> 63 else offset)
        refuse_if(place < 0 or place > (1 << 63) - 1, INVAL)
        d.position = place
        self.put(out, 8, place)

    def fd_tell(self, fd, out):
        d = self.stream(fd)
        refuse_if(not has(d.base, SEEK) and not has(d.base, TELL), NOTCAPABLE)
        self.room(out, 8)
        self.put(out, 8, d.position)

    def fd_close(self, fd):
        refuse_if(fd not in self.open, BADF)
        del self.open[fd]

    def kind_number(self, d):
        return {"dir": 3, "file": 4}.get(d.kind, 2)

    def fd_fdstat_get(self, fd, out):
        refuse_if(fd not in self.open, BADF)
        d = self.open[fd]
        self.room(out, 24)
        self.put(out, 8, self.kind_number(d))
        self.put(out + 2, 2, int(d.appends))
        self.put(out + 4, 4, 0)
        self.put(out + 8, 8, d.base)
        self.put(out + 16, 8, EVERY if d.kind == "dir" else 0)

    def put_filestat(self, out, kind, size):
        self.memory[out:out + 64] = bytes(64)
        self.put(out + 16, 1, kind)
        self.put(out + 24, 8, 1)
        self.put(out + 32, 8, size)

    def fd_filestat_get(self, fd, out):
        refuse_if(fd not in self.open, BADF)
        d = self.open[fd]
        refuse_if(d.kind == "file" and not has(d.base, FD_STAT), NOTCAPABLE)
        self.room(out, 64)
        size = len(self.body(d.path)) if d.kind == "file" else 0
        self.put_filestat(out, self.kind_number(d), size)

    def fd_filestat_set_size(self, fd, size):
        refuse_if(fd not in self.open or self.open[fd].kind != "file", BADF)
        d = self.open[fd]
        refuse_if(not has(d.base, FD_SIZE), NOTCAPABLE)
        refuse_if(size > MOST_FILE, FBIG)
        body = self.body(d.path)
        self.files[d.path] = body[:size] + bytes(max(0, size - len(body)))

    def preopened(self, fd):
        refuse_if(fd not in self.open or self.open[fd].kind != "dir", BADF)

    def fd_prestat_get(self, fd, out):
        self.preopened(fd)
        self.room(out, 8)
        self.put(out, 8, 0)
        self.put(out + 4, 4, 1)

    def fd_prestat_dir_name(self, fd, at, length):
        self.preopened(fd)
        refuse_if(length == 0, INVAL)
        self.room(at, 1)
        self.memory[at] = ord("/")

    def path_open(self, fd, dirflags, at, length, oflags, base, inheriting, fdflags, out):
        self.directory(fd)
        self.room(at, length)
        self.room(out, 4)
        path = self.spelled(at, length)
        word = self.word(path)
        refuse_if(not has(word, OPEN), NOTCAPABLE)
        refuse_if(oflags > 15 or fdflags > 31, INVAL)
        refuse_if(oflags & 2, NOTSUP)
        there = path in self.files
        refuse_if(not there and not oflags & 1, NOENT)
        refuse_if(there and oflags & 1 and oflags & 4, EXIST)
        refuse_if(not there and not has(word, CREATE), NOTCAPABLE)
        refuse_if(there and oflags & 8 and not has(word, CUT), NOTCAPABLE)
        free = next((number for number in range(4, 64) if number not in self.open), None)
        refuse_if(free is None, MFILE)
        if not there or oflags & 8:
            self.files[path] = b""
        self.open[free] = Open("file", path, base & word & OF_FILES, bool(fdflags & 1))
        self.put(out, 4, free)

    def path_filestat_get(self, fd, flags, at, length, out):
        self.directory(fd)
        self.room(at, length)
        self.room(out, 64)
        path = self.spelled(at, length)
        refuse_if(not has(self.word(path), STAT), NOTCAPABLE)
        self.put_filestat(out, 4, len(self.body(path)))

    def path_unlink_file(self, fd, at, length):
        self.directory(fd)
        self.room(at, length)
        path = self.spelled(at, length)
        refuse_if(not has(self.word(path), UNLINK), NOTCAPABLE)
        self.body(path)
        del self.files[path]

    def args_sizes_get(self, count, size):
        self.room(count, 4)
        self.room(size, 4)
        self.put(count, 4, 1)
        self.put(size, 4, len(self.path) + 1)

    def args_get(self, pointers, text):
        self.room(pointers, 4)
        self.room(text, len(self.path) + 1)
        self.put(pointers, 4, text)
        self.memory[text:text + len(self.path) + 1] = self.path + b"\0"

    def environ_sizes_get(self, count, size):
        self.room(count, 4)
        self.room(size, 4)
        self.put(count, 4, 0)
        self.put(size, 4, 0)

    def environ_get(self, pointers, text):
        pass

    def sched_yield(self):
        pass

    def clock_time_get(self, clock, precision, out):
        raise Refused(NOSYS)

    def random_get(self, at, length):
        raise Refused(NOSYS)

    def proc_exit(self, code):
        raise Exit(code)

    # ---- a call by its name and type

    def call(self, name, sort, args):
        if not found(name, sort):
            return "not found"
        if name not in TYPES:
            return str(NOTSUP)
        try:
            getattr(self, name)(*args)
        except Refused as refused:
            return str(refused.errno)
        except Exit as end:
            return "exit %d" % end.code
        return "0"


def found(name, sort):
    """Whether a function of this name and type can be imported; the type is its parameters, `>` and its results."""
    params, results = sort.split(">")
    if name in TYPES:
        return params == TYPES[name] and results == ("" if name == "proc_exit" else "i")
    return results == "i"


def shown(data):
    return data.hex() if len(data) <= 64 else "%d bytes, sum %d" % (len(data), sum(data))


def said(data):
    return bytes.fromhex("" if data == "-" else data)


def normal(name):
    """A grant's name from the root on."""
    name = name.encode()
    name = name[2:] if name.startswith(b"./") else name
    return name if name.startswith(b"/") else b"/" + name


def made(words):
    """The world that a line says: a path, and after each `; ` a part."""
    name, *parts = words.split("; ")
    grants, files, stdin, pages = [], {}, b"", 1
    for part in parts:
        what, *rest = part.split()
        if what == "grant":
            grants.append((normal(rest[0]), int(rest[1])))
        elif what == "file":
            files[parse(rest[0].encode())] = said(rest[1])
        elif what == "large":
            files[parse(rest[0].encode())] = bytes(int(rest[1]))
        elif what == "input":
            stdin = said(rest[0])
        elif what == "pages":
            pages = int(rest[0])
        else:
            sys.exit("unknown part: " + part)
    return World(parse(name.encode()), grants, files, stdin, pages)


def ended(world):
    """The files that are others than at the beginning, and the output."""
    lines = []
    for path in sorted(set(world.before) | set(world.files)):
        if world.before.get(path) != world.files.get(path):
            body = world.files.get(path)
            lines.append("%s: %s" % (path.decode(), "removed" if body is None else shown(body)))
    return lines + ["output: %s" % shown(bytes(world.output))]


def typed(word):
    return ("I", int(word[:-1])) if word.endswith("L") else ("i", int(word))


def answer(world, verb, words):
    if verb == "call":
        name, results, *rest = words
        args = [typed(word) for word in rest]
        sort = "".join(letter for letter, _ in args) + ">" + results.replace("-", "")
        return "%s: %s" % (name, world.call(name, sort, [value for _, value in args]))
    if verb == "find":
        module, name, params, results = words
        there = module == MODULE and found(name, params.replace("-", "") + ">" + results.replace("-", ""))
        return "%s %s: %s" % (module, name, "found" if there else "not found")
    at = int(words[0])
    if verb == "show":
        return "%d: %s" % (at, shown(bytes(world.memory[at:at + int(words[1])])))
    if verb == "fill":
        count, pointer, length = (int(word) for word in words[1:])
        for k in range(count):
            world.put(at + 8 * k, 4, pointer)
            world.put(at + 8 * k + 4, 4, length)
    else:
        data = said(words[1]) if verb == "memory" else words[1].encode()
        world.memory[at:at + len(data)] = data
    return "%s %d" % (verb, at)


def run(words):
    """Whole runs have no model here: what they end with follows from the steps of each module, counted by hand."""
    fuel, module, world = words.split(" ", 2)
    return RUNS[int(fuel), module[-6:], world].split("\n")


def answers(lines):
    """What is to be printed."""
    world = None
    for line in lines:
        verb, _, words = line.partition(" ")
        if verb == "#":
            yield line
        elif verb == "world":
            world = made(words)
            yield line
        elif verb == "run":
            yield from run(words)
        elif verb == "end":
            yield from ended(world)
            world = None
        elif line:
            yield answer(world, verb, words.split())


def main():
    with open(FOLDER + "stdin", encoding="utf-8") as given:
        wanted = "".join(line + "\n" for line in answers(given.read().splitlines()))
    if sys.argv[1:] == ["--check"]:
        with open(FOLDER + "stdout", encoding="utf-8") as found:
            sys.exit(found.read() != wanted)
    with open(FOLDER + "stdout", "w", encoding="utf-8") as found:
        found.write(wanted)


if __name__ == "__main__":
    main()
