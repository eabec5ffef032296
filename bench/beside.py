#!/usr/bin/env python3
"""Measures `check` beside another checker, by the seconds of processors that both take.

    bench/beside.py PROGRAM CHECKER NETLIST ..

PROGRAM is the built nclc, and CHECKER a command that judges the netlist that stands behind it, as `judge --keep` does. The
two run by turns, so that a busy machine is as busy for both; of each the median of ROUNDS runs is taken. Prints a line for
each netlist: its cells, the seconds of processors of both and their ratio, and the seconds of the clock with all processors
and with one. Where valgrind is on the path, the instructions of PROGRAM for each byte of the netlist stand behind these:
they are the same each time.
"""
import os
import pathlib
import re
import shlex
import shutil
import statistics
import subprocess
import sys
import tempfile
import time

sys.path.insert(0, str(pathlib.Path(__file__).resolve().parent.parent / "tools"))
from script import Parser

ROUNDS = 5


def run(command, processors=None):
    """The seconds of processors and of the clock that a command takes, on some of the processors or on all."""
    def pin():
        if processors:
            os.sched_setaffinity(0, processors)
    begin = time.monotonic()
    child = subprocess.Popen(command, stdout=subprocess.DEVNULL, stderr=subprocess.DEVNULL, preexec_fn=pin)
    _, _, usage = os.wait4(child.pid, 0)
    child.returncode = 0
    return usage.ru_utime + usage.ru_stime, time.monotonic() - begin


def instructions(command):
    """The instructions that a command takes by callgrind, or None without valgrind."""
    if shutil.which("valgrind") is None:
        return None
    with tempfile.TemporaryDirectory() as folder:
        told = subprocess.run(["valgrind", "--tool=callgrind", f"--callgrind-out-file={folder}/out", *command],
                              capture_output=True, text=True).stderr
    found = re.search(r"Collected : (\d+)", told)
    return int(found.group(1)) if found else None


def beside(program, checker, netlist):
    """Measures one netlist, and prints its line."""
    own, other = [program, "check", netlist, "--limit", "1000000"], [*checker, netlist]
    mine, theirs, clock, alone = [], [], [], []
    for _ in range(ROUNDS):
        seconds, whole = run(own)
        mine.append(seconds)
        clock.append(whole)
        theirs.append(run(other)[0])
        alone.append(run(own, {0})[1])
    text = pathlib.Path(netlist).read_text()
    cells = len(re.findall(r"^\s*TH\w+ ", text, re.MULTILINE))
    ours, peer = statistics.median(mine), statistics.median(theirs)
    counted = instructions(own)
    each = f", {counted / len(text):.0f} instructions a byte" if counted else ""
    print(f"{pathlib.Path(netlist).stem}: {cells} cells, {ours:.3f} beside {peer:.3f}, {ours / max(peer, 0.001):.2f};"
          f" clock {statistics.median(clock):.3f}, on one processor {statistics.median(alone):.3f}{each}", flush=True)
    return ours, peer


def main():
    parser = Parser(__doc__)
    parser.add_argument("program")
    parser.add_argument("checker")
    parser.add_argument("netlists", nargs="+")
    given = parser.parse_args()
    program, checker = str(pathlib.Path(given.program).resolve()), shlex.split(given.checker)
    pairs = [beside(program, checker, netlist) for netlist in given.netlists]
    ours, peer = sum(pair[0] for pair in pairs), sum(pair[1] for pair in pairs)
    print(f"together: {ours:.2f} beside {peer:.2f}, {ours / max(peer, 0.001):.2f}")


if __name__ == "__main__":
    main()
