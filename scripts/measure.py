"""What the other scripts share: where the program is, and runs of it with their seconds and peak of memory."""
import dataclasses
import os
import re
import subprocess
import sys
import time

TOP = os.path.dirname(os.path.dirname(os.path.abspath(__file__)))
sys.path.insert(0, os.path.join(TOP, "clients", "python"))


def program():
    """The built program: the one that FLP names, or else the one that the gate leaves."""
    path = os.path.abspath(os.environ.get("FLP") or os.path.join(TOP, "crates", "flp", "out", "flp"))
    if not os.path.exists(path):
        sys.exit(f"{path} is not built: `rt ci` makes it")
    return path


@dataclasses.dataclass(frozen=True)
class Run:
    """How a command ended: seconds by the clock and of processors, the peak of memory in MB, and its exit status."""

    seconds: float
    used: float
    peak: float
    status: int


def peak_of(pid):
    """The peak of memory of a process that runs, in MB; 0 where it has ended."""
    try:
        with open(f"/proc/{pid}/status", encoding="ascii") as file:
            found = re.search(r"VmHWM:\s+(\d+) kB", file.read())
    except OSError:
        found = None
    return int(found.group(1)) / 1024 if found else 0


def watch(process):
    """Waits for a process and looks at its peak a hundred times a second, which misses what grows at its very end."""
    start, peak, ended = time.monotonic(), 0, 0
    while not ended:
        peak = max(peak, peak_of(process.pid))
        time.sleep(0.01)
        ended, status, used = os.wait4(process.pid, os.WNOHANG)
    process.returncode = os.waitstatus_to_exitcode(status)
    return Run(time.monotonic() - start, used.ru_utime + used.ru_stime, peak, process.returncode)


def run(command, given, said):
    """Runs a command from one file into another."""
    with open(given, "rb") as source, open(said, "wb") as sink:
        return watch(subprocess.Popen(command, stdin=source, stdout=sink))
