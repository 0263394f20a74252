"""The program's statuses over real files: what statuses.sh runs.

Each row: the words, the exit status, the text on standard error, and whether anything is on standard output.
"""
import hashlib, os, sys
from program import Rows

POLICY = (
    '{"identities":[{"id":1,"file_rights":[{"file_name":"in","rights":"w"}]},'
    '{"id":2,"file_rights":[{"file_name":"./in","rights":"r"}]}]}'
).encode()
SCRIPT = b"1 write /in text abc\n2 read in\n"
HASH = hashlib.sha256(POLICY).hexdigest()
ABC = hashlib.sha256(b"abc").hexdigest()
TEXT = f"policy {HASH}\n1 1 done\n2 2 done bytes 3 616263\nfile /in 3 {ABC}\n".encode()

# An entry in each list, members that nobody reads, a pipeline with a last semicolon, and a hash in upper case.
ONE_OF_EACH = b"""{"debug":false,"server_url":"127.0.0.1:3017","identities":[{"certificate":"-----BEGIN CERTIFICATE-----\\nMIIB\\n-----END CERTIFICATE-----\\n","id":0,"file_rights":[{"file_name":"/input/","rights":8198},{"file_name":"./program/","rights":"wx"}]}],"programs":[{"program_file_name":"program/linear.wasm","id":0,"file_rights":[{"file_name":"/input/","rights":8198},{"file_name":"/output/","rights":"rw"}]}],"pipelines":[{"name":"linear","id":0,"pipeline":"/program/linear.wasm ;"}],"file_hashes":[{"file_path":"/program/linear.wasm","hash":"E3B0C44298FC1C149AFBF4C8996FB92427AE41E4649B934CA495991B7852B855"}],"max_memory_mib":256}"""

FILES = {
    "one-of-each": ONE_OF_EACH,
    "policy": POLICY,
    "script": SCRIPT,
    "nothing": b"",
    "no-json": b"{",
    "no-text": b"\xff\xfe",
    "no-object": b"[]",
    "no-identities": b"{}",
    "no-list": b'{"identities":7}',
    "bad-id": b'{"identities":[{"id":1,"file_rights":[]},{"id":-1,"file_rights":[]}]}',
    "bad-rights": b'{"identities":[{"id":1,"file_rights":[{"file_name":"a","rights":"rz"}]}]}',
    "bad-hash": b'{"identities":[],"file_hashes":[{"file_path":"a","hash":"0"}]}',
    "nobody": b'{"identities":[]}',
    "one-name-twice": b'{"identities":[{"id":1,"file_rights":[]},{"id":2,"file_rights":[{"file_name":"input","rights":"r"},{"file_name":"/input","rights":"w"}]}]}',
    "one-id-twice": b'{"identities":[{"id":7,"file_rights":[]},{"id":8,"file_rights":[]},{"id":7,"file_rights":[]}]}',
    "bad-pipeline": b'{"identities":[{"id":1,"file_rights":[]}],"programs":[{"program_file_name":"a","file_rights":[]}],"pipelines":[{"id":0,"pipeline":"a | ;"}]}',
    "bad-name": b'{"identities":[{"id":1,"file_rights":[]},{"id":2,"file_rights":[{"file_name":"a/../b","rights":"r"}]}]}',
    "fly": b"# a comment\n1 fly /in\n",
    "no-verb": b"1\n",
    "no-name": b"1 read\n",
    "two-spaces": b"1  read /in\n",
    "leading-zero": b"01 read /in\n",
    "large-id": b"4294967296 hash\n",
    "no-body": b"1 write /in\n",
    "no-text-after": b"1 write /in text\n",
    "other-body": b"1 write /in bytes abc\n",
    "after-hash": b"1 hash now\n",
    "after-read": b"1 read /in now\n",
    "no-more": b"1 append /in text\n",
    "no-name-after": b"1 read  /in\n",
    "no-number": b"x hash\n",
    "no-pipeline": b"1 run\n",
    "no-number-after-run": b"1 run x\n",
    "pipeline-with-zero": b"1 run 01\n",
    "large-pipeline": b"1 run 4294967296\n",
    "after-run": b"1 run 1 2\n",
    "space-after-run": b"1 run 1 \n",
    "last-pipeline": b"1 run 4294967295\n",
    "late": b"# all is well\n\n1 hash \n",
    "name-with-return": b"1 read /in\r",
    "lone-return": b"1 hash\n2 hash\r",
    "bytes": bytes(range(256)),
    "too-long": b"#" * 67108864 + b"\n",
    "as-long": b"#" * 67108863 + b"\n",
    "long-policy": b" " * 4194305,
}

ROWS = [
    (["replay", "policy", "script"], 0, "", TEXT),
    (["replay", "policy", "nothing"], 0, "", f"policy {HASH}\n".encode()),
    (["replay", "policy", "as-long"], 0, "", f"policy {HASH}\n".encode()),
    (["hash", "policy"], 0, "", f"{HASH}\n".encode()),
    (["hash", "no-text"], 0, "", hashlib.sha256(b"\xff\xfe").hexdigest().encode() + b"\n"),
    (["check", "policy"], 0, "", b"ok 2 0 0 0\n"),
    (["check", "one-of-each"], 0, "", b"ok 1 1 1 1\n"),
    (["check"], 1, "usage: word 1", b""),
    (["check", "-policy"], 1, "usage: word 1", b""),
    (["check", "policy", "script"], 1, "usage: word 2", b""),
    (["check", "no-object"], 2, "policy refused: stage 1 rule 4 at 0", b""),
    (["check", "no-list"], 2, "policy refused: stage 1 rule 4 at 0", b""),
    (["check", "bad-id"], 2, "policy refused: stage 1 rule 4 at 1", b""),
    (["check", "bad-rights"], 2, "policy refused: stage 1 rule 6 at 0", b""),
    (["check", "bad-hash"], 2, "policy refused: stage 1 rule 7 at 0", b""),
    (["check", "one-id-twice"], 2, "policy refused: stage 2 rule 2 at 2", b""),
    (["check", "bad-pipeline"], 2, "policy refused: stage 2 rule 8 at 0", b""),
    (["check", "no-identities"], 2, "policy refused: stage 1 rule 3 at 0", b""),
    (["check", "nobody"], 2, "policy refused: stage 2 rule 1 at 0", b""),
    (["check", "one-name-twice"], 2, "policy refused: stage 2 rule 6 at 1", b""),
    (["check", "absent"], 4, "absent: absent", b""),
    (["flows"], 1, "usage: word 1", b""),
    (["flows", "-policy"], 1, "usage: word 1", b""),
    (["flows", "policy", "script"], 1, "usage: word 2", b""),
    (["flows", "policy"], 0, "", b"flow 1 identities 1 regions /in\nflow 2 identities 1 2 regions /in\n"),
    (["flows", "no-json"], 2, "policy refused: stage 1 rule 2 at 0", b""),
    (["flows", "long-policy"], 2, "policy refused: stage 1 rule 1 at 0", b""),
    (["flows", "one-id-twice"], 2, "policy refused: stage 2 rule 2 at 2", b""),
    (["flows", "absent"], 4, "absent: absent", b""),
    (["flows", "folder"], 5, "read fault", b""),
    ([], 1, "usage: word 0", b""),
    (["fly", "policy", "script"], 1, "usage: word 0", b""),
    (["", "policy", "script"], 1, "usage: word 0", b""),
    (["--help"], 1, "usage: word 0", b""),
    (["replay"], 1, "usage: word 1", b""),
    (["replay", "policy"], 1, "usage: word 2", b""),
    (["replay", "-policy", "script"], 1, "usage: word 1", b""),
    (["replay", "policy", ""], 1, "usage: word 2", b""),
    (["replay", "policy", "script", "script"], 1, "usage: word 3", b""),
    (["replay", "", "script"], 1, "usage: word 1", b""),
    (["replay", "policy", "--fuel"], 1, "usage: word 3", b""),
    (["replay", "--fuel", "0", "policy", "script"], 0, "", TEXT),
    (["replay", "policy", "--fuel=1000000000000", "script"], 0, "", TEXT),
    (["replay", "policy", "script", "--fuel", "7"], 0, "", TEXT),
    (["replay", "--fuel", "01", "policy", "script"], 1, "usage: word 2", b""),
    (["replay", "--fuel=01", "policy", "script"], 1, "usage: word 1", b""),
    (["replay", "--fuel=", "policy", "script"], 1, "usage: word 1", b""),
    (["replay", "--fuel", "1000000000001", "policy", "script"], 1, "usage: word 2", b""),
    (["replay", "policy", "script", "--fuel", "5", "--fuel", "5"], 1, "usage: word 5", b""),
    (["replay", "--store", "x", "policy", "script"], 1, "usage: word 1", b""),
    (["replay", "--fuel", "5", "absent", "script"], 4, "absent: absent", b""),
    (["replay", "policy", "--fuel", "5", "gone"], 4, "absent: gone", b""),
    (["hash", "--fuel", "5", "policy"], 1, "usage: word 1", b""),
    (["make"], 1, "usage: word 1", b""),
    (["make", "0"], 1, "usage: word 1", b""),
    (["make", "1001"], 1, "usage: word 1", b""),
    (["make", "01"], 1, "usage: word 1", b""),
    (["make", "-1"], 1, "usage: word 1", b""),
    (["make", "=1"], 1, "usage: word 1", b""),
    (["make", ""], 1, "usage: word 1", b""),
    (["make", "1", "1"], 1, "usage: word 2", b""),
    (["make", "--fuel", "1", "1"], 1, "usage: word 1", b""),
    (["serve", "policy", "script"], 10, "keys refused: line 1", b""),
    (["replay", "policy", "script", ""], 1, "usage: word 3", b""),
    (["hash"], 1, "usage: word 1", b""),
    (["hash", "-"], 1, "usage: word 1", b""),
    (["hash", "policy", "script"], 1, "usage: word 2", b""),
    ([b"replay", b"policy", b"\xff"], 1, "usage: word 0", b""),
    (["replay", "no-json", "script"], 2, "policy refused: stage 1 rule 2 at 0", b""),
    (["replay", "nothing", "script"], 2, "policy refused: stage 1 rule 2 at 0", b""),
    (["replay", "no-text", "script"], 2, "policy refused: stage 1 rule 2 at 0", b""),
    (["replay", "no-identities", "script"], 2, "policy refused: stage 1 rule 3 at 0", b""),
    (["replay", "bad-name", "script"], 2, "policy refused: stage 1 rule 5 at 1", b""),
    (["replay", "long-policy", "script"], 2, "policy refused: stage 1 rule 1 at 0", b""),
    (["hash", "long-policy"], 2, "policy refused: stage 1 rule 1 at 0", b""),
    (["replay", "no-json", "absent"], 2, "policy refused: stage 1 rule 2 at 0", b""),
    (["replay", "nobody", "absent"], 2, "policy refused: stage 2 rule 1 at 0", b""),
    (["replay", "one-name-twice", "absent"], 2, "policy refused: stage 2 rule 6 at 1", b""),
    (["replay", "policy", "fly"], 3, "script refused: line 2", b""),
    (["replay", "policy", "no-verb"], 3, "script refused: line 1", b""),
    (["replay", "policy", "no-name"], 3, "script refused: line 1", b""),
    (["replay", "policy", "no-name-after"], 3, "script refused: line 1", b""),
    (["replay", "policy", "no-number"], 3, "script refused: line 1", b""),
    (["replay", "policy", "no-more"], 3, "script refused: line 1", b""),
    (["replay", "policy", "name-with-return"], 3, "script refused: line 1", b""),
    (["replay", "policy", "late"], 3, "script refused: line 3", b""),
    (["replay", "policy", "two-spaces"], 3, "script refused: line 1", b""),
    (["replay", "policy", "leading-zero"], 3, "script refused: line 1", b""),
    (["replay", "policy", "large-id"], 3, "script refused: line 1", b""),
    (["replay", "policy", "no-body"], 3, "script refused: line 1", b""),
    (["replay", "policy", "no-text-after"], 3, "script refused: line 1", b""),
    (["replay", "policy", "other-body"], 3, "script refused: line 1", b""),
    (["replay", "policy", "after-hash"], 3, "script refused: line 1", b""),
    (["replay", "policy", "after-read"], 3, "script refused: line 1", b""),
    (["replay", "policy", "no-pipeline"], 3, "script refused: line 1", b""),
    (["replay", "policy", "no-number-after-run"], 3, "script refused: line 1", b""),
    (["replay", "policy", "pipeline-with-zero"], 3, "script refused: line 1", b""),
    (["replay", "policy", "large-pipeline"], 3, "script refused: line 1", b""),
    (["replay", "policy", "after-run"], 3, "script refused: line 1", b""),
    (["replay", "policy", "space-after-run"], 3, "script refused: line 1", b""),
    (["replay", "policy", "last-pipeline"], 0, "", f"policy {HASH}\n1 1 no such pipeline 4294967295\n".encode()),
    (["replay", "policy", "lone-return"], 3, "script refused: line 2", b""),
    (["replay", "policy", "bytes"], 3, "script refused: line 1", b""),
    (["replay", "policy", "too-long"], 3, "script refused: line 0", b""),
    (["replay", "absent", "script"], 4, "absent: absent", b""),
    (["replay", "policy", "not/there"], 4, "absent: not/there", b""),
    (["replay", "absent", "gone"], 4, "absent: absent", b""),
    (["replay", "folder", "script"], 5, "read fault", b""),
    (["replay", "policy", "folder"], 5, "read fault", b""),
    (["replay", "policy/under", "script"], 5, "read fault", b""),
    (["hash", "folder"], 5, "read fault", b""),
]


table = Rows("statuses", sys.argv[1], FILES)
os.mkdir(os.path.join(table.folder, "folder"))
for words, status, error, out in ROWS:
    table.row(words, status, error, out)
# Standard output that takes nothing, and one that is closed.
with open("/dev/full", "wb") as full:
    done = table.run([table.program, "replay", "policy", "script"], stdout=full)
table.compare("standard output full", done, 6, "write fault", b"")
done = table.run(["sh", "-c", '"$0" replay policy script >&-', table.program])
table.compare("standard output closed", done, 6, "write fault", b"")
with open("/dev/full", "wb") as full:
    done = table.run([table.program, "flows", "policy"], stdout=full)
table.compare("standard output full, for flows", done, 6, "write fault", b"")
with open("/dev/full", "wb") as full:
    done = table.run([table.program, "make", "1"], stdout=full)
table.compare("standard output full, for a summary", done, 6, "write fault", b"")
# A file that may not be read; the superuser reads it all the same.
if os.geteuid() != 0:
    os.chmod(os.path.join(table.folder, "script"), 0)
    table.row(["replay", "policy", "script"], 5, "read fault", b"")
table.end()
