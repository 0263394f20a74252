"""Times the flows of large policies; what flows.sh calls. An office: identities, programs and pipelines over folders of their
wards, each pipeline from one ward to the next. The other shapes are those of policy.py, and one in which every grant is on a
region of its own."""
import json, os, random, subprocess, sys, tempfile

MOST = 4194304


def folder(k):
    return f"/ward-{k % 50:02}/patient-{k:05}/"


def office(share):
    """Up to 200 identities, 500 programs, 500 pipelines and 5,000 regions."""
    draw = random.Random(7)
    regions, count = int(4450 * share), int(500 * share)
    name = lambda k: f"/programs/tool-{k:03}"
    grants = lambda many, rights: [{"file_name": folder(k), "rights": rights} for k in sorted(draw.sample(range(regions), many))]
    whole = lambda k, rights: [{"file_name": f"/ward-{k % 50:02}/", "rights": rights}]
    identities = [{"id": k, "file_rights": whole(k, "rw") + grants(25, "r") + [{"file_name": name(k + j), "rights": "x"} for j in range(3)]}
                  for k in range(int(200 * share))]
    programs = [{"program_file_name": name(k), "file_rights": grants(20, "r") + [{"file_name": folder((k * 9) % regions) + "out", "rights": "rw"}]}
                for k in range(count)]
    pipelines = [{"id": k, "pipeline": " | ".join(name((k + j) % count) for j in range(3))} for k in range(count)]
    return {"identities": identities, "programs": programs, "pipelines": pipelines}


def own_regions(share):
    """Each holder has grants on regions of its own."""
    each = int(50 * share)
    grants = lambda holder: [{"file_name": f"/{holder}/{k}/", "rights": 70} for k in range(each)]
    identities = [{"id": k, "file_rights": grants(f"i{k}")} for k in range(1024)]
    programs = [{"program_file_name": f"/p{k}", "file_rights": grants(f"i{k}")} for k in range(1024)]
    pipelines = [{"id": k, "pipeline": f"/p{k}"} for k in range(1024)]
    return {"identities": identities, "programs": programs, "pipelines": pipelines}


def policy_shape(shape):
    def made(share):
        with tempfile.TemporaryDirectory() as place:
            path = os.path.join(place, "policy.json")
            subprocess.run([sys.executable, "bench/policy.py", "make", shape, str(share), path], check=True)
            with open(path) as f:
                return json.load(f)
    made.__name__ = shape
    return made


def printed(program, path):
    """The processor seconds and the peak memory in bytes of one run."""
    with open(path) as text, subprocess.Popen([program], stdin=text, stdout=subprocess.PIPE) as child:
        first = child.stdout.read(5)
        while child.stdout.read(1 << 20):
            pass
        _, status, used = os.wait4(child.pid, 0)
        child.returncode = os.waitstatus_to_exitcode(status)
    if child.returncode or first != b"flow ":
        sys.exit(f"status {child.returncode}, {first}")
    return used.ru_utime + used.ru_stime, used.ru_maxrss * 1024


program, runs = os.path.abspath(sys.argv[1]), int(sys.argv[2])
for shape in (office, own_regions, *map(policy_shape, ("many_identities", "many_grants", "many_pipelines"))):
    for share in (0.5, 1):
        with tempfile.TemporaryDirectory() as place:
            path = os.path.join(place, "policies")
            with open(path, "w") as f:
                f.write(json.dumps(shape(share), separators=(",", ":")))
            size = os.path.getsize(path)
            assert size <= MOST, size
            used = [printed(program, path) for _ in range(runs)]
        seconds, peak = min(u[0] for u in used), max(u[1] for u in used)
        print(f"{shape.__name__}, {size / 2**20:.2f} MiB: {seconds:.2f} s, {peak / 2**20:.0f} MiB")
