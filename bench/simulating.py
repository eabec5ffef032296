#!/usr/bin/env python3
"""Runs netlists by `nclc sim` and by Icarus Verilog with the same delays, and compares words, times and every change.

    bench/simulating.py PROGRAM [BITS [STAGES [LAYERS [WORDS [MOST_DELAY]]]]]

PROGRAM is the built nclc; iverilog and vvp have to be on the path. Icarus runs the netlist with examples/cells.v and
the test bench of tools/bench. First come the runs of examples/, then a
pipeline of bench/pipelines.py twice: STAGES stages of LAYERS layers of half adders of BITS bits, where no bank holds a
word at reset, and where every third does. Each cell, the source and the sink have random delays from 1 to MOST_DELAY.
The lines of the words have to be the same, and each net has to change at the same times. Prints the cells, the seconds of
both without a dump, the steps of the run and how many nclc makes in a second.
"""
import pathlib
import random
import re
import subprocess
import sys
import tempfile
import time

sys.path.insert(0, str(pathlib.Path(__file__).resolve().parent.parent / "tools"))
from script import Parser

HERE = pathlib.Path(__file__).resolve().parent
EXAMPLES = HERE.parent / "examples"
sys.path.insert(0, str(HERE))
import pipelines
import waves

RESET = 10


def timed(command):
    """What a command writes, and its seconds."""
    start = time.perf_counter()
    ran = subprocess.run(command, capture_output=True, text=True)
    return ran, time.perf_counter() - start


def changes_of(text, begin):
    """The changes of each net of a dump, with times from the end of the reset on."""
    codes, told, time_now = {}, {}, 0
    for line in text.split("\n"):
        if found := re.match(r"\$var \w+ 1 (\S+) (\S+)", line):
            codes[found[1]] = found[2]
        elif line.startswith("#"):
            time_now = int(line[1:]) - begin
        elif time_now > 0 and line[:1] in ("0", "1") and line[1:] in codes:
            told.setdefault(codes[line[1:]], []).append((time_now, line[0]))
    return told


def peer(folder, netlist, delays, words, dump):
    """What Icarus prints for a netlist with a file of delays and one of words, and its seconds."""
    bench = subprocess.run([HERE.parent / "tools/bench", netlist, "--delays", delays], capture_output=True, text=True, check=True)
    pathlib.Path(folder, "bench.v").write_text(bench.stdout)
    subprocess.run(["iverilog", "-s", "bench", "-o", "bench", EXAMPLES / "cells.v", "bench.v", netlist], cwd=folder, check=True)
    ran, seconds = timed(["vvp", "-n", f"{folder}/bench", f"+words={words}", *([f"+vcd={folder}/peer.vcd"] if dump else [])])
    return "".join(line + "\n" for line in ran.stdout.splitlines() if line.startswith("word ")), seconds


def compare(program, netlist, delays, words):
    """Compares one run, and prints a line."""
    with tempfile.TemporaryDirectory() as folder:
        theirs, seconds = peer(folder, netlist, delays, words, False)
        peer(folder, netlist, delays, words, True)
        other = changes_of(pathlib.Path(folder, "peer.vcd").read_text(), RESET)
    command = [program, "sim", netlist, "--delays", delays, "--words", words]
    ours, taken = timed(command)
    dump, _ = timed([*command, "--vcd"])
    lines = ours.stdout.splitlines()
    if "".join(line + "\n" for line in lines if line.startswith("word ")) != theirs:
        sys.exit(f"{netlist}: the words differ")
    if changes_of(dump.stdout, 0) != other:
        sys.exit(f"{netlist}: the changes differ")
    steps = int(re.search(r"after (\d+) steps", lines[-1])[1])
    cells = len(re.findall(r"^\s*TH", pathlib.Path(netlist).read_text(), re.M))
    print(f"{pathlib.Path(netlist).name}: {cells} cells, {len(lines) - 1} words, {steps} steps: Icarus {seconds:.2f} s, nclc {taken:.2f} s"
          f" ({steps / taken:.0f} steps/s), ratio {taken / seconds:.3f}; words, times and changes agree", flush=True)


def with_words_held(netlist, chance):
    """The netlist with a word held at reset by every third bank."""
    def cell(found):
        number, bit = int(found[1]), found[2]
        rail = held.setdefault((number, bit), chance.choice("01")) if number % 3 == 1 else None
        return f"TH22{'D' if found[3] == rail else 'N'} b{number}r{bit}_{found[3]}("
    held = {}
    return re.sub(r"TH22N b(\d+)r(\d+)_([01])\(", cell, netlist)


def files_of(folder, netlist, bits, count, most, chance):
    """Files of a netlist with random delays and words."""
    pair = lambda: "{} {}".format(chance.randint(1, most), chance.randint(1, most))
    names = re.findall(r"^TH\w+ (\w+)\(", netlist, re.M)
    delays = [f"cell {name} {pair()}" for name in names] + [f"source {pair()}", f"sink {pair()}"]
    words = ["".join(chance.choice("01") for _ in range(bits)) for _ in range(count)]
    texts = {"net.v": netlist, "net.delays": "\n".join(delays) + "\n", "net.words": "\n".join(words) + "\n"}
    for name, text in texts.items():
        pathlib.Path(folder, name).write_text(text)
    return [f"{folder}/{name}" for name in texts]


def main():
    parser = Parser(__doc__)
    parser.add_argument("program")
    parser.add_argument("numbers", nargs="*", type=int, metavar="NUMBER")
    given = parser.parse_args()
    program, usual = str(pathlib.Path(given.program).resolve()), [10, 30, 40, 512, 30]
    bits, stages, layers, count, most = [*given.numbers[:5], *usual[len(given.numbers):]]
    for run in waves.RUNS:
        if run[0] != "orphan.v":
            compare(program, *(str(EXAMPLES / name) for name in run))
    netlist, _ = pipelines.pipeline(bits, stages, layers)
    chance = random.Random(1)
    with tempfile.TemporaryDirectory() as folder:
        for text in (netlist, with_words_held(netlist, chance)):
            compare(program, *files_of(folder, text, bits, count, most, chance))


if __name__ == "__main__":
    main()
