"""Times `vr check` of large policies; what policy.sh calls. Each policy is made by a process of its own, so that the memory
of the generator doesn't count as the program's."""
import json, os, subprocess, sys, tempfile
from timing import best

MOST = 4194304


def grants(count, first=0):
    return [{"file_name": f"/department/ward/patient-{first + k:05}/", "rights": "rw"} for k in range(count)]


def many_identities(share):
    return {"identities": [{"id": k, "file_rights": grants(65)} for k in range(int(1024 * share))]}


def many_grants(share):
    return {"identities": [{"id": k, "file_rights": grants(1024)} for k in range(max(1, int(65 * share)))]}


def many_pipelines(share):
    count = int(1024 * share)
    names = [f"/programs/of-the-department/for-every-ward/number-{k:04}" for k in range(count)]
    programs = [{"program_file_name": name, "file_rights": []} for name in names]
    places = lambda k: " | ".join(names[(k + j) % count] for j in range(64))
    pipelines = [{"id": k, "pipeline": places(k)} for k in range(count)]
    return {"identities": [{"id": 0, "file_rights": []}], "programs": programs, "pipelines": pipelines}


SHAPES = {shape.__name__: shape for shape in (many_identities, many_grants, many_pipelines)}

if sys.argv[1] == "make":
    _, _, name, share, path = sys.argv
    with open(path, "w") as f:
        f.write(json.dumps(SHAPES[name](float(share)), separators=(",", ":")))
    sys.exit()

program, runs = os.path.abspath(sys.argv[1]), int(sys.argv[2])
for name in SHAPES:
    took = []
    for share in ("0.1", "1"):
        with tempfile.TemporaryDirectory() as folder:
            path = os.path.join(folder, "policy.json")
            subprocess.run([sys.executable, __file__, "make", name, share, path], check=True)
            size = os.path.getsize(path)
            assert size <= MOST, size
            seconds, peak = best(program, ["check", path], runs)
        took.append((size, seconds))
        print(f"{name}, {size / 2**20:.2f} MiB: {seconds:.3f} s, {peak / 2**20:.0f} MiB, {peak / size:.1f} times the file")
    (small, quick), (large, slow) = took
    print(f"{name}, {large / small:.1f} times the bytes: {slow / quick:.1f} times as long")
