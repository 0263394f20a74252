"""The built program over files in a folder of its own, and what it comes to beside what it should come to."""
import os, pathlib, subprocess, sys, tempfile

USAGE = pathlib.Path(__file__).resolve().parent / "usage.txt"


class Rows:
    """Rows of a table, each a run of the program in a folder that has these files. After the text of status 1 comes the
    usage text."""

    def __init__(self, title, program, files):
        self.title, self.program = title, os.path.abspath(program)
        self.usage = USAGE.read_text(encoding="utf-8")
        self.rows = self.wrong = 0
        self.kept = tempfile.TemporaryDirectory()
        self.folder = self.kept.name
        for name, content in files.items():
            with open(os.path.join(self.folder, name), "wb") as f:
                f.write(content)

    def run(self, words, **how):
        how.setdefault("stdout", subprocess.PIPE)
        return subprocess.run(words, cwd=self.folder, stderr=subprocess.PIPE, timeout=60, **how)

    def row(self, words, status, error, out):
        """The program on these words has the status, the text on standard error and the bytes on standard output."""
        self.compare(words, self.run([self.program, *words]), status, error, out)

    def compare(self, name, done, status, error, out):
        self.rows += 1
        error = error + "\n" if error else ""
        wanted = (status, (error + self.usage if status == 1 else error).encode(), out)
        found = (done.returncode, done.stderr, done.stdout or b"")
        if found != wanted:
            self.wrong += 1
            print(f"{name}: wanted {wanted}\n{name}: found {found}", file=sys.stderr)

    def end(self):
        self.kept.cleanup()
        print(f"{self.title}: {self.rows - self.wrong} of {self.rows} as they should be")
        sys.exit(1 if self.wrong else 0)
