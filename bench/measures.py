"""What a call of a program takes: time, memory, instructions."""

import os
import re
import subprocess


def called(words, folder, path):
    """The status of a call, its seconds of the processor and the MB at its peak. What it writes goes into the file `path`."""
    # the peak that wait4 gives would be that of this script, where that is greater
    timed = ["/usr/bin/time", "-q", "-f", "%M", "-o", path + ".peak", *words]
    with open(path, "wb") as out:
        child = subprocess.Popen(timed, cwd=folder, stdout=out)
        _, status, usage = os.wait4(child.pid, 0)
    child.returncode = os.waitstatus_to_exitcode(status)
    with open(path + ".peak", encoding="ascii") as file:
        memory = int(file.read().split()[-1]) / 1024
    return child.returncode, usage.ru_utime + usage.ru_stime, memory


def instructions(words, folder):
    """How many instructions a call runs, by valgrind's count of them, which is the cheapest of its tools that count each."""
    counting = ["valgrind", "--tool=cachegrind", "--cache-sim=no", "--cachegrind-out-file=/dev/null", "--vgdb=no"]
    end = subprocess.run(
        [*counting, *words], cwd=folder, stdout=subprocess.DEVNULL, stderr=subprocess.PIPE, text=True, check=False
    )
    found = re.search(r"I +refs: +([\d,]+)", end.stderr)
    if end.returncode or not found:
        raise SystemExit(f"{words} under valgrind ended with {end.returncode}: {end.stderr[-500:]}")
    return int(found[1].replace(",", ""))
