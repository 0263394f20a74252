"""What the benches share: runs of the built program, the processor time of the quickest and the peak memory of the largest."""
import os, subprocess, sys
from typing import NamedTuple


class Spent(NamedTuple):
    seconds: float  # of processor time
    peak: int  # bytes of memory


def spent(program, words):
    """What one run of the program takes."""
    with subprocess.Popen([program, *words], stdout=subprocess.DEVNULL) as child:
        _, status, used = os.wait4(child.pid, 0)
        child.returncode = os.waitstatus_to_exitcode(status)
    if child.returncode:
        sys.exit(f"{words}: status {child.returncode}")
    return Spent(used.ru_utime + used.ru_stime, used.ru_maxrss * 1024)


def best(program, words, runs):
    """The least time and the largest peak of several runs."""
    all_spent = [spent(program, words) for _ in range(runs)]
    return Spent(min(s.seconds for s in all_spent), max(s.peak for s in all_spent))
