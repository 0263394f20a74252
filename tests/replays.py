"""Whole replays by the program, and the flows of their policies: what replays.sh runs.

Each row: what it shows, the policy, the calls of a script with the reply to each, and the files that are left, in the
order of their paths. The hashes are taken here. Of flows: what it shows, the policy and the lines.
"""
import sys
from program import Rows
from texts import LISTS, PROGRAMS, WARD, policy, script_of, text_of

# One writes `/in`, and another reads it.
IN_ORDER = policy({1: {"in": "w"}, 2: {"./in": "r"}})
# One does both.
BOTH = policy({1: {"in": "rw"}, 2: {"./in": "r"}})
BOX = policy(WARD, **LISTS)
BOX_OF_FOUR = policy(WARD, **LISTS, quotas=[{"file_name": "/box/", "bytes": 4}])
NO_OUT = policy(WARD, **LISTS, quotas=[{"file_name": "/out", "bytes": 0}])
# `/box/own` has a region of its own, which the quota of `/box/` doesn't bound; of two quotas on a name the least counts.
QUOTAS = policy(
    {1: {"in": "rw", "out": "rw", "box/": "rw", "box/own": "rw"}},
    quotas=[{"file_name": name, "bytes": most} for name, most in (("/box/", 4), ("out", 0), ("box/", 9))],
)
# Two may write `/in`, but not seek in it.
ANY = policy({1: {"in": "rw"}, 2: {"in": 64}})
MOST = 16777216
LONGEST = "/".join(["a" * 203] * 4 + ["a" * 207])  # of 1,024 bytes with the `/` before it
HASH = "done hash {hash}"

ROWS = [
    ("a file is written and read", IN_ORDER,
     [("1 write /in text abc", "done"), ("2 read in", "done bytes 3 616263")], {"/in": b"abc"}),
    ("no call", IN_ORDER, [], {}),
    ("a hash", IN_ORDER, [("2 hash", HASH), ("9 hash", "unkeyed")], {}),
    ("an empty file", IN_ORDER,
     [("1 write /in empty", "done"), ("2 read /in", "done bytes 0 -")], {"/in": b""}),
    ("refused calls", IN_ORDER,
     [("1 read /in", "denied /in fd_read"), ("2 write /in text x", "denied /in fd_write"),
      ("2 read /in", "no such file /in"), ("9 read /in", "unkeyed")], {}),
    ("skipped lines, a return before a line's end, and the last body counts", IN_ORDER,
     [("# two writes\r", None), ("", None), ("1 write ./in text a\r", "done"), ("1 write /in text  b c", "done"),
      ("2 read /in", "done bytes 4 20622063")], {"/in": b" b c"}),
    ("an empty text, and one of any bytes", IN_ORDER,
     [("1 write /in text ", "done"), ("2 read /in", "done bytes 0 -"), (b"1 write /in text \xff\0\r\r", "done"),
      ("2 read /in", "done bytes 3 ff000d")], {"/in": b"\xff\0\r"}),
    ("names, before the identity is looked at", IN_ORDER,
     [("1 read /in/", "bad path 1"), ("1 read /a%20", "bad path 2 at 2"), ("1 read ../x", "bad path 3"),
      (f"1 read {LONGEST}a", "bad path 4"), (f"1 read {LONGEST}", f"denied /{LONGEST} fd_read"),
      (f"1 read {'a' * 256}", "bad path 4"),
      ("9 read ../x", "bad path 3"), (b"1 read \xff", "bad path 2 at 0"), ("9 write a% empty", "bad path 2 at 1")], {}),
    ("the longest grant counts", BOX,
     [("1 read /box/x", "denied /box/x fd_read"), ("3 read /box/b/x", "denied /box/b/x fd_read"),
      ("3 read /box/x", "no such file /box/x"), ("3 append /out text x", "denied /out fd_seek")], {}),
    ("what others append is not told to him who writes", BOX,
     [("1 write /box/n text a", "done"), ("3 append /box/n text bbbb", "done"), ("1 write /box/n text c", "done")],
     {"/box/n": b"c"}),
    ("the same without the other", BOX,
     [("1 write /box/n text a", "done"), ("1 write /box/n text c", "done")], {"/box/n": b"c"}),
    ("the most bytes of a file", BOTH,
     [(f"1 write /in fill 61 {MOST - 1}", "done"), ("1 append /in text a", "done"),
      ("1 append /in text a", f"too large {MOST + 1}"), ("1 append /in empty", "done"),
      (f"1 write /in fill 61 {MOST + 1}", f"too large {MOST + 1}")], {"/in": b"a" * MOST}),
    ("appends, and what they need", ANY,
     [("1 read in", "no such file /in"), ("1 append in text ab", "done"), ("1 append ./in hex 63", "done"),
      ("1 read /in", "done bytes 3 616263"), ("2 append in text d", "denied /in fd_seek"),
      ("2 read in", "denied /in fd_read"), ("2 write in text d", "done"), ("1 append in empty", "done"),
      ("1 read in", "done bytes 1 64"), ("1 read out", "denied /out fd_read")], {"/in": b"d"}),
    ("an append at the end of a page, and past it", BOTH,
     [("1 write in fill 61 4095", "done"), ("1 append in text b", "done"), ("1 append in text c", "done"),
      ("1 append in fill 64 8192", "done")], {"/in": b"a" * 4095 + b"bc" + b"d" * 8192}),
    ("files in the order of their paths", policy({1: {"/": "w"}}),
     [("1 write in/b empty", "done"), ("1 write in.a text abc", "done"), ("1 write in text x", "done")],
     {"/in": b"x", "/in.a": b"abc", "/in/b": b""}),
    ("a quota counts what others append", BOX_OF_FOUR,
     [("1 write /box/n text a", "done"), ("3 append /box/n text bbb", "done"), ("1 write /box/m text c", "quota /box/ 5"),
      ("1 write /box/n empty", "done"), ("1 write /box/m text c", "done")], {"/box/m": b"c", "/box/n": b""}),
    ("the same without the other's append", BOX_OF_FOUR,
     [("1 write /box/n text a", "done"), ("1 write /box/m text c", "done")], {"/box/m": b"c", "/box/n": b"a"}),
    ("a quota of nothing", NO_OUT,
     [("2 write /out text x", "quota /out 1"), ("2 write /out empty", "done")], {"/out": b""}),
    ("a quota without room, for each call that grows", QUOTAS,
     [("1 write /out text x", "quota /out 1"), ("1 append /out text xy", "quota /out 2"), ("1 write /out empty", "done"),
      ("1 append /out empty", "done"), ("1 append /out text x", "quota /out 1")], {"/out": b""}),
    ("a quota bounds a region and not one inside it", QUOTAS,
     [("1 write /box/n text abcd", "done"), ("1 append /box/n text e", "quota /box/ 5"), ("1 append /box/n empty", "done"),
      ("1 write /box/n text wxyz", "done"), ("1 write /box/n text ab", "done"), ("1 append /box/m text cd", "done"),
      ("1 append /box/m text e", "quota /box/ 5"), ("1 write /box/own text abcdef", "done")],
     {"/box/m": b"cd", "/box/n": b"ab", "/box/own": b"abcdef"}),
    ("the size of a file is tested before its quota", QUOTAS,
     [(f"1 write /box/n fill 61 {MOST + 1}", f"too large {MOST + 1}"),
      (f"1 write /box/n fill 61 {MOST}", f"quota /box/ {MOST}")], {}),
    ("a text of several pieces", IN_ORDER, [("2 hash", HASH)] * 3000, {}),
]

# 2 reads what pipeline 4 unlinks and what 1 and 3 write. 1 learns of 3 only where `/box/` has a quota, which tells 1 its size.
TO_2 = "flow 2 identities 1 2 3 regions /flag /in /out /p/ " + " ".join(PROGRAMS)
TO_3 = "flow 3 identities 1 3 regions /box/"
FLOWS = [
    ("flows of the drop box", BOX, ["flow 1 identities 1 regions /in", TO_2, TO_3]),
    ("flows by a quota", BOX_OF_FOUR, ["flow 1 identities 1 3 regions /box/ /in", TO_2, TO_3]),
    ("flows from one who appends, and so learns of sizes, to a reader", IN_ORDER, ["flow 1 identities 1 regions /in", "flow 2 identities 1 2 regions /in"]),
]

FILES = {}
for place, (name, said, calls, files) in enumerate(ROWS):
    FILES[f"policy-{place}"] = said.encode()
    FILES[f"script-{place}"] = script_of(calls)
for place, (name, said, lines) in enumerate(FLOWS):
    FILES[f"flows-{place}"] = said.encode()

table = Rows("replays", sys.argv[1], FILES)
for place, (name, said, calls, files) in enumerate(ROWS):
    done = table.run([table.program, "replay", f"policy-{place}", f"script-{place}"])
    table.compare(name, done, 0, "", text_of(said, calls, files))
for place, (name, said, lines) in enumerate(FLOWS):
    done = table.run([table.program, "flows", f"flows-{place}"])
    table.compare(name, done, 0, "", "".join(line + "\n" for line in lines).encode())
table.end()
