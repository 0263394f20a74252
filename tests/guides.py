#!/usr/bin/env python3
"""Runs the blocks of the guides that have a name, page by page, each page in a folder of its own. After a block's language:

    policy=NAME  a policy, which has to pass its check
    of=NAME      a script is kept; an output has to be what replaying that script under its policy writes, after the line of the
                 policy's hash, or what the commands of that name wrote; what is readable, the filter's lines of its calls;
                 flows have to be those of the policy
    file=NAME    a file, which is put into the folder
    run=NAME     commands for sh, which have to end with status 0; `vr` and the filters of examples/ are on their path, and PORT is
                 a port that is free

Commands with needs=A,B are left out, with the outputs of their names, where A or B is missing: the test says so.

    tests/guides.py VR [PAGE ..]
"""
import os, re, shutil, socket, subprocess, sys, tempfile

ROOT = os.path.realpath(os.path.join(os.path.dirname(os.path.abspath(__file__)), ".."))
PAGES = ["README.md", "docs/POLICY.md", "docs/PROGRAMS.md", "docs/OPERATION.md"]
BLOCK = re.compile(r"^```(\w+) (policy|of|file|run)=(\S+)(?: needs=(\S+))?\n(.*?)^```$", re.M | re.S)
PATH = ["/usr/bin", *os.environ["PATH"].split(os.pathsep)]  # Debian's programs come first


def free_port():
    with socket.socket() as it:
        it.bind(("127.0.0.1", 0))
        return str(it.getsockname()[1])


class Page:
    """The blocks of a page as they are run, and what came of them."""

    def __init__(self, vr, name, folder):
        self.vr, self.name, self.folder = os.path.abspath(vr), name, folder
        self.written, self.missing = {}, {}
        self.passed, self.wrong = 0, []

    def run(self, words):
        path = os.pathsep.join([os.path.dirname(self.vr), os.path.join(ROOT, "examples"), *PATH])
        surroundings = {**os.environ, "PATH": path, "BALMVIKUR": ROOT, "PORT": free_port()}
        how = {"cwd": self.folder, "env": surroundings, "stdin": subprocess.DEVNULL, "timeout": 300}
        return subprocess.run(words, capture_output=True, text=True, **how)

    def place(self, name):
        return os.path.join(self.folder, name)

    def keep(self, name, text):
        with open(self.place(name), "w", encoding="utf-8") as out:
            out.write(text)

    def judge(self, block, good, found):
        if good:
            self.passed += 1
        else:
            self.wrong.append(f"{self.name}: {block}:\n{found}")

    def has(self, need):
        if need == "clang":
            return shutil.which("clang") and shutil.which("wasm-ld") and os.path.isdir("/usr/include/wasm32-wasi")
        if need == "rustc":
            return os.path.isfile("/usr/bin/rustc") and os.path.isdir("/usr/lib/rustlib/wasm32-wasi")
        if need == "serve":
            return self.run([self.vr, "serve"]).stderr.startswith("usage: word 1\n")
        return shutil.which(need)

    def policy(self, name, text):
        self.keep(name + ".json", text)
        done = self.run([self.vr, "check", name + ".json"])
        self.judge(f"policy {name}", done.returncode == 0 and done.stdout.startswith("ok "), done.stdout + done.stderr)

    def commands(self, name, needs, text):
        missing = [need for need in needs.split(",") if need and not self.has(need)]
        if missing:
            self.missing[name] = missing
            return
        done = self.run(["sh", "-euc", text])
        self.written[name] = done.stdout
        self.judge(f"commands {name}", done.returncode == 0, f"status {done.returncode}\n{done.stdout}{done.stderr}")

    def output(self, name, text):
        if name not in self.written:
            done = self.run([self.vr, "replay", name + ".json", name + ".txt"])
            self.written[name] = done.stdout.partition("\n")[2] if done.returncode == 0 else done.stderr
        self.judge(f"output of {name}", self.written[name] == text, self.written[name])

    def readable(self, name, text):
        words = f"vr replay {name}.json {name}.txt | readable {name}.json {name}.txt | sed '1d; /^left: /d'"
        done = self.run(["sh", "-euc", words])
        self.judge(f"readable text of {name}", done.stdout == text, done.stdout + done.stderr)

    def flows(self, name, text):
        done = self.run([self.vr, "flows", name + ".json"])
        self.judge(f"flows of {name}", done.returncode == 0 and done.stdout == text, done.stdout + done.stderr)

    def block(self, language, kind, name, needs, text):
        if kind == "policy":
            self.policy(name, text)
        elif kind == "file":
            self.keep(name, text)
        elif kind == "run":
            self.commands(name, needs, text)
        elif language == "script":
            self.keep(name + ".txt", text)
        elif name not in self.missing:
            {"output": self.output, "readable": self.readable, "flows": self.flows}[language](name, text)


def checked(vr, name):
    with open(os.path.join(ROOT, name), encoding="utf-8") as text, tempfile.TemporaryDirectory() as folder:
        page = Page(vr, name, folder)
        for block in BLOCK.findall(text.read()):
            page.block(*block)
    return page


def main():
    pages = [checked(sys.argv[1], name) for name in sys.argv[2:] or PAGES]
    for page in pages:
        for name, missing in page.missing.items():
            print(f"guides: {page.name}: {name} is left out, since {' and '.join(missing)} is missing")
        for wrong in page.wrong:
            print(f"guides: {wrong}", file=sys.stderr)
    passed, wrong = sum(page.passed for page in pages), sum(len(page.wrong) for page in pages)
    print(f"guides: {passed} of {passed + wrong} blocks as they should be")
    sys.exit(1 if wrong or not all(page.passed for page in pages) else 0)


main()
