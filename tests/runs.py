"""Runs of pipelines by the program, in replays of scripts that write their programs: what replays.sh runs.

Each row: what it shows, the policy, the fuel where it is given, the calls of a script with the reply to each, and the
files that are left, in the order of their paths.
"""
import sys
from program import Rows
from programs import DIVIDE, DROP_AFTER_BRANCH, DROP_OF_NOTHING, HEADER, HI, LOOP, NOTHING, REMAINDER, UNLINK, UNLINK_TRAP
from programs import copy, exit_with, make, put, say, say_zeros
from texts import LISTS, WARD, grants, policy, script_of, sha256, text_of


def write(who, path, body):
    return (f"{who} write {path} hex {body.hex()}", "done")


def ended(code, out=b""):
    return f"done code {code} out {len(out)} {out.hex() or '-'}"


def named(files):
    """Files in the order of their paths."""
    return dict(sorted(files.items()))


# ---- The programs of the drop box

WARD_MODULES = [NOTHING, LOOP, HI, UNLINK_TRAP, UNLINK, DIVIDE, UNLINK, NOTHING]
SET_UP = [write(2, f"/p/m{k}", body) for k, body in enumerate(WARD_MODULES)]
WARD_FILES = {f"/p/m{k}": body for k, body in enumerate(WARD_MODULES)}
BOX = policy(WARD, **LISTS)
NO_OUT = policy(WARD, **LISTS, quotas=[{"file_name": "/out", "bytes": 0}])
EMPTY = sha256(b"")


def ward(name, calls, files={}, fuel=None, said=BOX):
    """A row whose calls come after the programs were written."""
    return (name, said, fuel, SET_UP + calls, named({**WARD_FILES, **files}))


def first(body):
    """The calls that write the first program and run it."""
    return [(f"2 write /p/m0 hex {body.hex()}" if body else "2 write /p/m0 empty", "done")]


def bad(name, body, why):
    return (name, BOX, None, first(body) + [("2 run 0", f"bad program /p/m0 {why}")], {"/p/m0": body})


# What is wrong with the first bytes of the program that ends at once, by their number.
CUT = {n: "decode 1 at 0" for n in range(8)}
CUT |= {8: "link 2 0", 9: "decode 2 at 9", 10: "decode 2 at 10", 11: "decode 2 at 10", 12: "decode 2 at 10"}
CUT |= {13: "decode 2 at 10", 14: "link 2 0", 15: "decode 2 at 15", 16: "decode 2 at 16", 17: "decode 2 at 16"}
CUT |= {18: "decode 8 at 18", 19: "decode 2 at 19", 30: "decode 8 at 30", 31: "decode 2 at 31"}
CUT |= {n: "decode 2 at 20" for n in range(20, 30)} | {n: "decode 2 at 32" for n in range(32, 36)}
CODE = bytes.fromhex("0a040102000b")
TYPE = bytes.fromhex("010401600000")

# Fills 32 bytes of its memory.
FILLED = HEADER + TYPE + bytes.fromhex("030201000503010001070a01065f737461727400000a0e010c00410041e1004120fc0b000b")


def counted(segments):
    """The program that writes `hi`, with a count of its data segments before its code."""
    hi = WARD_FILES["/p/m2"]
    return hi[:80] + bytes([0x0C, 1, segments]) + hi[80:]


ROWS = [
    ward("all fuel is used", [("2 run 0", ended(0))], fuel=1),
    ward("no fuel", [("2 run 0", "out of fuel /p/m0")], fuel=0),
    ("no program", BOX, None, [("2 run 0", "no such file /p/m0"), ("2 run 99", "no such pipeline 99"),
                               ("9 run 99", "unkeyed"), ("1 run 99", "no such pipeline 99")], {}),
    ward("who may not execute a program", [("1 run 0", "denied /p/m0 execute"), ("3 run 6", "denied /p/m6 execute"),
                                           ("3 run 9", "denied /p/m7 execute")]),
    *[bad(f"the first {n} bytes of a program", NOTHING[:n], why) for n, why in sorted(CUT.items())],
    ("a size spelled with more bytes than it needs", BOX, None,
     first(NOTHING.replace(CODE, bytes.fromhex("0a8400") + CODE[2:])) + [("2 run 0", ended(0))],
     {"/p/m0": NOTHING.replace(CODE, bytes.fromhex("0a8400") + CODE[2:])}),
    bad("a size of more than five bytes", NOTHING.replace(CODE, bytes.fromhex("0a848080808000") + CODE[2:]), "decode 3 at 31"),
    bad("a type that isn't supported", NOTHING.replace(TYPE, bytes.fromhex("01050160017d00")), "decode 9 at 13"),
    bad("sections out of order", HEADER + bytes.fromhex("03020100010401600000"), "decode 4 at 12"),
    bad("a drop on an empty stack", DROP_OF_NOTHING, "invalid 10 0"),
    ("a fill costs a step more for each 16 bytes", BOX, 7, first(FILLED) + [("2 run 0", ended(0))], {"/p/m0": FILLED}),
    ("and one step less", BOX, 6, first(FILLED) + [("2 run 0", "out of fuel /p/m0")], {"/p/m0": FILLED}),
    ("a count of data before the code", BOX, None, first(counted(1)) + [("2 run 0", ended(0, b"hi"))], {"/p/m0": counted(1)}),
    bad("a count that is another one", counted(2), "decode 8 at 102"),
    bad("a count after the code", NOTHING + bytes.fromhex("0c0100"), "decode 4 at 36"),
    ("a drop after a branch", BOX, None, first(DROP_AFTER_BRANCH) + [("2 run 0", ended(0))], {"/p/m0": DROP_AFTER_BRANCH}),
    ward("a division that overflows", [("2 run 5", "trapped /p/m5 3")]),
    ward("and the remainder, which is 0", [write(2, "/p/m5", REMAINDER), ("2 run 5", ended(0))], {"/p/m5": REMAINDER}),
    ward("a loop without an end", [("2 run 1", "out of fuel /p/m1"), ("2 run 0", ended(0))], fuel=10),
    ward("output", [("2 run 2", ended(0, b"hi"))], fuel=7),
    ward("the last step without fuel", [("2 run 2", "out of fuel /p/m2")], fuel=6),
    ward("a trap changes nothing, and an end with a code does",
         [("2 write /out text keep", "done"), ("2 run 3", "trapped /p/m3 1"), ("2 read /out", "done bytes 4 6b656570"),
          ("2 run 4", ended(0)), ("2 read /out", "no such file /out"), ("2 run 4", ended(44))]),
    ward("an end without fuel changes nothing", [("2 write /out text keep", "done"), ("2 run 4", "out of fuel /p/m4")],
         {"/out": b"keep"}, fuel=4),
    ward("a test of a file, and output that is fed",
         [("2 run 7", ended(0, b"hihi")), ("2 write /flag empty", "done"), ("2 run 7", ended(0, b"hi")), ("2 run 8", ended(0))],
         {"/flag": b""}),
    ward("a program without a right, and its code ends the pipeline", [("2 run 6", ended(76))]),
    ward("a pinned file",
         [("2 run 9", "pin missing /in"), ("1 write /in empty", "done"), ("2 run 9", f"pin mismatch /in {EMPTY}"),
          ("1 write /in text abc", "done"), ("2 run 9", ended(0))], {"/in": b"abc"}),
    ward("what others write reaches a run", [("3 write /out text x", "done"), ("2 run 4", ended(0))]),
    ward("a quota, and a run that takes the file out",
         [("2 write /out text x", "quota /out 1"), ("2 write /out empty", "done"), ("2 run 4", ended(0))], said=NO_OUT),
]


# ---- Pipelines of all shapes

# One party may do all. The programs have a right only where they are listed here.
RIGHTS = {"/p/flag": {"/flag": "w"}, "/p/over": {"/p/": "w"}, "/p/log": {"/log": "w"}, "/p/log4": {"/log": "w"}}


def bench(name, texts, modules, calls, files={}, fuel=None, quotas=()):
    """A row with these pipelines, by their places, and these programs, which stand below `/p/` and are written first, but
    for one without a body."""
    paths = [f"/p/{short}" for short in modules]
    bodies = {path: body for path, body in zip(paths, modules.values()) if body is not None}
    programs = [{"program_file_name": path, "file_rights": grants(RIGHTS.get(path, {}))} for path in paths]
    listed = [{"id": k, "pipeline": text} for k, text in enumerate(texts)]
    said = policy({1: {"/": "rwx"}}, programs=programs, pipelines=listed, quotas=list(quotas))
    written = [write(1, path, body) for path, body in bodies.items()]
    return (name, said, fuel, written + calls, named({**bodies, **files}))


A, B, C = "/p/a", "/p/b", "/p/c"
THREE = {"a": say(b"a"), "b": say(b"b"), "c": say(b"c")}
CAT = {"cat": copy()}
FLAG = {"flag": make(b"flag")}
# Where each of the programs, and no other, ends with the code 3.
ENDS = {k: {n: say(n.encode(), 3 if n == k else None) for n in "abc"} for k in "abc"}
SHAPES = [
    (f"{A} ; {B} ; {C}", b"abc", {"a": b"a", "b": b"ab", "c": b"abc"}),
    (f"{A} ; {B} ; {C} ;", b"abc", {"a": b"a", "b": b"ab", "c": b"abc"}),
    (f"{A} | {B} | {C}", b"c", {"a": b"", "b": b"", "c": b"c"}),
    (f"{A} ; {B} | {C}", b"ac", {"a": b"a", "b": b"a", "c": b"ac"}),
    (f"{A} | {B} ; {C}", b"bc", {"a": b"", "b": b"b", "c": b"bc"}),
    (f"if /no {{ {A} }} else {{ {B} ; {C} }}", b"bc", {"a": None, "b": b"b", "c": b"bc"}),
    (f"{A} ; if /no {{ {B} }} ; {C}", b"ac", {"a": b"a", "b": None, "c": b"ac"}),
    (f"{A} | if /no {{ {B} }} | {C}", b"c", {"a": b"", "b": None, "c": b"c"}),
    (f"if {A} {{ if /no {{ {B} }} else {{ {A} ; if {B} {{ {C} ; }} }} }} else {{ {B} }}", b"ac", {"a": b"a", "b": None, "c": b"ac"}),
]
TEXTS = [text for text, whole, cut in SHAPES]
MIB = 1048576
FULL, PAST = {"a": say_zeros(MIB), "b": say_zeros(MIB)}, {"a": say_zeros(MIB + 1), "b": say_zeros(MIB, 1)}

ROWS += [
    bench("pipelines whose programs all end with 0", TEXTS, THREE,
          [(f"1 run {k}", ended(0, whole)) for k, (text, whole, cut) in enumerate(SHAPES)]),
    *[bench(f"pipelines of which {name} ends with another code", TEXTS, ENDS[name],
            [(f"1 run {k}", ended(0, whole) if cut[name] is None else ended(3, cut[name]))
             for k, (text, whole, cut) in enumerate(SHAPES)]) for name in "abc"],
    bench("input is fed on, and none is where a program comes after a semicolon",
          ["/p/a | /p/cat", "/p/a | /p/cat | /p/cat", "/p/a ; /p/cat", "/p/cat", "/p/a | if /p/a { /p/cat }",
           "/p/a | if /no { /p/cat }", "/p/a | if /no { /p/a } else { /p/cat ; /p/cat }"], {"a": say(b"a"), **CAT},
          [("1 run 0", ended(0, b"a")), ("1 run 1", ended(0, b"a")), ("1 run 2", ended(0, b"a")), ("1 run 3", ended(0)),
           ("1 run 4", ended(0, b"a")), ("1 run 5", ended(0)), ("1 run 6", ended(0, b"a"))]),
    bench("a file is tested as the run has left it", ["/p/flag ; if /flag { /p/a } else { /p/b }", "if /flag { /p/a } else { /p/b }"],
          {"a": say(b"a"), "b": say(b"b"), **FLAG}, [("1 run 1", ended(0, b"b")), ("1 run 0", ended(0, b"a")), ("1 run 1", ended(0, b"a"))],
          {"/flag": b""}),
    bench("the most output of a program, and one byte more", ["/p/a", "/p/a ; /p/b", "/p/a | /p/b"], FULL,
          [("1 run 0", ended(0, bytes(MIB))), ("1 run 1", ended(0, bytes(2 * MIB))), ("1 run 2", ended(0, bytes(MIB)))]),
    bench("output past its limit", ["/p/a", "/p/b", "/p/b | /p/a"], PAST,
          [("1 run 0", ended(51)), ("1 run 1", ended(51, bytes(MIB))), ("1 run 2", ended(51))]),
    bench("fuel for two programs", ["/p/a ; /p/b", "/p/a | /p/b"], THREE, [("1 run 0", ended(0, b"ab")), ("1 run 1", ended(0, b"b"))], fuel=14),
    bench("one step less", ["/p/a ; /p/b", "/p/a | /p/b ;"], THREE, [("1 run 0", "out of fuel /p/b"), ("1 run 1", "out of fuel /p/b")], fuel=13),
    bench("fuel for one of two programs", ["/p/a ; /p/b"], THREE, [("1 run 0", "out of fuel /p/b")], fuel=7),
    bench("less than one of them needs", ["/p/a ; /p/b"], THREE, [("1 run 0", "out of fuel /p/a")], fuel=6),
    bench("fuel for a program that is fed", ["/p/a | /p/cat"], {"a": say(b"a"), **CAT}, [("1 run 0", ended(0, b"a"))], fuel=20),
    bench("and one step less", ["/p/a | /p/cat"], {"a": say(b"a"), **CAT}, [("1 run 0", "out of fuel /p/cat")], fuel=19),
    bench("an untaken branch takes no step", ["if /no { /p/a } ; /p/b"], THREE, [("1 run 0", ended(0, b"b"))], fuel=7),
    bench("the most fuel", ["/p/a"], THREE, [("1 run 0", ended(0, b"a"))], fuel=1000000000000),
    bench("each run begins with all fuel", ["/p/a"], THREE, [("1 run 0", ended(0, b"a"))] * 3, fuel=7),
    bench("nothing runs where a later program is bad", ["/p/flag ; /p/bad", "/p/flag ; if /no { /p/bad }", "/p/flag"],
          {"bad": DROP_OF_NOTHING, **FLAG},
          [("1 run 0", "bad program /p/bad invalid 10 0"), ("1 run 1", "bad program /p/bad invalid 10 0"), ("1 read /flag", "no such file /flag"),
           ("1 run 2", ended(0)), ("1 read /flag", "done bytes 0 -")], {"/flag": b""}),
    bench("a program that isn't there is told before one that is bad", ["/p/bad ; /p/gone", "/p/bad"],
          {"bad": b"bad", "gone": None}, [("1 run 0", "no such file /p/gone"), ("1 run 1", "bad program /p/bad decode 1 at 0")]),
    bench("a run has its programs as they were when it began", ["/p/over ; /p/a", "/p/a"], {"a": say(b"a"), "over": put(b"p/a", say(b"b"))},
          [("1 run 0", ended(0, b"a")), ("1 run 1", ended(0, b"b")), ("1 run 0", ended(0, b"b"))], {"/p/a": say(b"b")}),
    bench("what a run writes is there for the next", ["/p/log", "/p/log4"], {"log": put(b"log", b"abc"), "log4": put(b"log", b"abcd")},
          [("1 run 0", ended(0)), ("1 read /log", "done bytes 3 616263"), ("1 run 1", ended(0)), ("1 read /log", "done bytes 4 61626364")],
          {"/log": b"abcd"}),
    bench("a run past a quota changes nothing", ["/p/log", "/p/log4"], {"log": put(b"log", b"abc"), "log4": put(b"log", b"abcd")},
          [("1 run 1", "quota /log 4"), ("1 read /log", "no such file /log"), ("1 run 0", ended(0)), ("1 run 1", "quota /log 4")],
          {"/log": b"abc"}, quotas=[{"file_name": "/log", "bytes": 3}]),
    bench("an exit code of 32 bits", ["/p/a", "/p/b"], {"a": exit_with(-1), "b": exit_with(7)},
          [("1 run 0", ended(4294967295)), ("1 run 1", ended(7))]),
]

FILES = {}
for place, (name, said, fuel, calls, files) in enumerate(ROWS):
    FILES[f"policy-{place}"] = said.encode()
    FILES[f"script-{place}"] = script_of(calls)

table = Rows("runs", sys.argv[1], FILES)
for place, (name, said, fuel, calls, files) in enumerate(ROWS):
    options = [] if fuel is None else [f"--fuel={fuel}"] if place % 2 else ["--fuel", str(fuel)]
    done = table.run([table.program, "replay", *options, f"policy-{place}", f"script-{place}"])
    table.compare(name, done, 0, "", text_of(said, calls, files))
table.end()
