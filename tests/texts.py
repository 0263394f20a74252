"""Policies, and the texts of replays under them."""
import hashlib, json


def grants(rights):
    return [{"file_name": name, "rights": word} for name, word in rights.items()]


def policy(identities, **lists):
    """The text of a policy: the grants of each identity by its id, and further lists."""
    listed = [{"id": who, "file_rights": grants(rights)} for who, rights in identities.items()]
    return json.dumps({"identities": listed, **lists}, separators=(",", ":"))


def sha256(content):
    return hashlib.sha256(content).hexdigest()


def coded(text):
    return text if isinstance(text, bytes) else text.encode()


def text_of(policy, calls, files):
    """The text of a replay in which each call has its reply. A line without one is no call."""
    hashed = sha256(policy.encode())
    lines = [f"policy {hashed}"]
    for number, (line, reply) in enumerate(calls, 1):
        if reply is not None:
            lines.append(f"{number} {coded(line).split()[0].decode()} {reply.format(hash=hashed)}")
    lines += [f"file {path} {len(body)} {sha256(body)}" for path, body in files.items()]
    return ("\n".join(lines) + "\n").encode()


def script_of(calls):
    return b"\n".join(coded(line) for line, reply in calls)


# A drop box, into which one writes and from which another reads, but not below `/box/b/`; programs and pipelines.
WARD = {
    1: {"/in": "rw", "/box/": 64},
    2: {"/p/": "rwx", "/out": "rw", "/flag": "rw"},
    3: {"/box/": 70, "/box/b/": 0, "/out": 64},
}
PROGRAMS = {f"/p/m{k}": {"/out": 67108864} if k in (3, 4) else {"/in": "r"} if k == 7 else {} for k in range(8)}
PIPELINES = [f"/p/m{k}" for k in range(6)]
PIPELINES += ["/p/m6 ; /p/m2", "/p/m2 ; if /flag { /p/m0 } else { /p/m2 } ;", "/p/m2 | /p/m0", "/p/m7"]
LISTS = {
    "programs": [{"program_file_name": name, "file_rights": grants(rights)} for name, rights in PROGRAMS.items()],
    "pipelines": [{"id": k, "pipeline": text} for k, text in enumerate(PIPELINES)],
    "file_hashes": [{"file_path": "/in", "hash": sha256(b"abc")}],
}
