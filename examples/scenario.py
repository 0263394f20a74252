"""What the cases share: a script for `vr replay` and the text that it has to write, made side by side. The expected text
comes from the case's own plain Python, not from the runtime."""
import hashlib, json, os


def digits(body):
    return hashlib.sha256(body).hexdigest()


def sized(body):
    return f"{len(body)} {body.hex() or '-'}"


class Scenario:
    """A case in its folder: its policy, the lines of its script, and the line that answers each call."""

    def __init__(self, folder, policy):
        self.folder, self.files, self.script, self.answers = folder, {}, [], []
        text = json.dumps(policy, indent=2) + "\n"
        self.keep("policy.json", text)
        self.hash = digits(text.encode())

    def keep(self, name, text):
        with open(os.path.join(self.folder, name), "w", encoding="ascii", newline="\n") as out:
            out.write(text)

    def program(self, name):
        with open(os.path.join(self.folder, name), "rb") as module:
            return module.read()

    def note(self, text):
        self.script.append(f"# {text}")

    def call(self, who, words, answer):
        self.script.append(f"{who} {words}")
        self.answers.append(f"{len(self.script)} {who} {answer}")

    def asks_hash(self, who):
        self.call(who, "hash", f"done hash {self.hash}")

    def writes(self, who, name, body):
        self.files[name] = body
        self.call(who, f"write {name} hex {body.hex()}", "done")

    def reads(self, who, name):
        self.call(who, f"read {name}", f"done bytes {sized(self.files[name])}")

    def denied(self, who, words, path, right):
        self.call(who, words, f"denied {path} {right}")

    def runs(self, who, pipeline, code=0, output=b"", **changes):
        """A run that ends with a code; the changes are the files that it leaves, by their paths."""
        self.files.update(changes.pop("files", {}))
        self.call(who, f"run {pipeline}", f"done code {code} out {sized(output)}")

    def finish(self):
        self.keep("script.txt", "\n".join(self.script) + "\n")
        left = [f"file {path} {len(body)} {digits(body)}" for path, body in sorted(self.files.items())]
        self.keep("expected.txt", "\n".join([f"policy {self.hash}", *self.answers, *left]) + "\n")
