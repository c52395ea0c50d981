"""Times whole runs of programs, for the benchmarks beside this file."""
import os
import statistics
import subprocess
import sys
import tempfile
import time


def timed(command, given=None, out=None):
    """The seconds and the peak memory in MiB of a run that has to end well. It reads the file `given` and writes `out`."""
    with open(given or os.devnull, "rb") as source, open(out, "wb") if out else tempfile.TemporaryFile() as target:
        began = time.perf_counter()
        started = subprocess.Popen(command, stdin=source, stdout=target)
        _, status, used = os.wait4(started.pid, 0)
        seconds = time.perf_counter() - began
        # told so that it waits for no process that is gone
        started.returncode = os.waitstatus_to_exitcode(status)
        if started.returncode:
            sys.exit(f"{' '.join(command)} ended with status {started.returncode}")
    return seconds, used.ru_maxrss / 1024


def told(name, figures):
    """Prints the best and the median of some runs."""
    seconds, peaks = [it[0] for it in figures], [it[1] for it in figures]
    best, median = min(seconds), statistics.median(seconds)
    print(f"  {name:34} best {best:8.3f} s  median {median:8.3f} s  peak {max(peaks):6.1f} MiB", flush=True)
