#!/usr/bin/env python3
"""Judges random stages by two programs, and compares their answers.

    bench/thrown.py PROGRAM OTHER [COUNT [SEED]]

Both are a built nclc, say of this tree and of one before a change of the judgement. Each netlist is two banks with a stage of
random gates between them, most of them faulty in some way; half are compiled from random BLIF, and sound. Each is checked at
the usual limit, at the least limit that PROGRAM doesn't refuse, at one less, and at a random one. Prints the netlists on which
the two differ, and how many answers of each kind there were; the status is 1 where they differ.
"""
import collections
import pathlib
import random
import re
import subprocess
import sys
import tempfile

sys.path.insert(0, str(pathlib.Path(__file__).resolve().parent.parent / "tools"))
from script import Parser

GATES = {2: ["TH12", "TH22"], 3: ["TH13", "TH23", "TH33", "TH23w2", "TH33w2"],
         4: ["TH14", "TH24", "TH34", "TH44", "TH24w2", "TH34w2", "TH44w2", "TH34w3", "TH44w3", "TH24w22", "TH34w22", "TH44w22",
             "TH54w22", "TH34w32", "TH54w32", "TH44w322", "TH54w322", "THxor0", "THand0", "TH24comp"]}


def cell(kind, name, pins, out):
    """A line of a cell with its pins in order."""
    return f"{kind} {name}({','.join(f'.{p}({n})' for p, n in zip('ABCD', pins))},.Z({out}));\n"


def bank(name, ins, request, acknowledge):
    """The register cells and the acknowledge cells of bits, and a chain of TH22 to the root; gives the rails and the text."""
    rails, text, root = [], "", None
    for bit, pair in enumerate(ins):
        outs = [f"{name}{bit}_{rail}" for rail in (0, 1)]
        for rail in (0, 1):
            text += f"TH22N c{outs[rail]}(.A({pair[rail]}),.B({request}),.RST(rst),.Z({outs[rail]}));\n"
        last = bit == len(ins) - 1
        joined = acknowledge if last and root is None else f"{name}k{bit}"
        text += cell("TH12B", f"k{name}{bit}", outs, joined)
        if root is not None:
            text += cell("TH22", f"t{name}{bit}", [root, joined], acknowledge if last else f"{name}t{bit}")
            joined = acknowledge if last else f"{name}t{bit}"
        root = joined
        rails.append(outs)
    return rails, text


def thrown(rand):
    """A netlist of two banks and random gates."""
    inputs = [[f"i{bit}_{rail}" for rail in (0, 1)] for bit in range(rand.randint(1, 5))]
    rails, first = bank("p", inputs, "c", "ko")
    nets, gates = [net for pair in rails for net in pair], ""
    for number in range(rand.randint(2, 14)):
        pins = rand.sample(nets, min(len(nets), rand.choice([2, 2, 2, 3, 4])))
        gates += cell(rand.choice(GATES[len(pins)]), f"g{number}", pins, f"n{number}")
        nets.append(f"n{number}")
    unread = [net for net in nets if not re.search(rf"\.[ABCD]\({net}\)", gates)]
    ends = (unread + rand.sample(nets, len(nets)))[:2 * rand.randint(1, 4)]
    ends = ends[:len(ends) // 2 * 2] or nets[:2]
    ports = [["z%d_%d" % (k, rail) for rail in (0, 1)] for k in range(len(ends) // 2)]
    _, last = bank("q", list(zip(ends[::2], ends[1::2])), "ki", "c")
    for k, pair in enumerate(ports):
        for rail in (0, 1):
            last = re.sub(rf"\bq{k}_{rail}\b", pair[rail], last)
    names = [net for pair in inputs for net in pair] + ["ki", "rst"]
    outs = [net for pair in ports for net in pair] + ["ko"]
    return (f"module thrown({','.join(names + outs)});\ninput {','.join(names)};\noutput {','.join(outs)};\n"
            f"{first}{gates}{last}endmodule\n")


def model(rand):
    """A model of a few random covers, each over earlier signals."""
    ins = [f"a{k}" for k in range(rand.randint(2, 7))]
    signals, text = list(ins), ""
    for k in range(rand.randint(1, 8)):
        reads = rand.sample(signals, min(len(signals), rand.randint(2, 4)))
        rows = {"".join(rand.choice("01-") for _ in reads) for _ in range(rand.randint(1, 4))}
        text += f".names {' '.join(reads)} n{k}\n" + "".join(f"{row} 1\n" for row in sorted(rows))
        signals.append(f"n{k}")
    outs = rand.sample(signals[len(ins):], min(len(signals) - len(ins), 3))
    return f".model m\n.inputs {' '.join(ins)}\n.outputs {' '.join(outs)}\n{text}.end\n"


def told(program, file, limit):
    """What a program answers, with its status."""
    ran = subprocess.run([program, "check", file, "--limit", str(limit)], capture_output=True, timeout=100)
    return ran.returncode, ran.stdout.decode()


def least(program, file):
    """The least limit at which a program doesn't tell a limit."""
    low, high = 1, 100_000
    while low < high:
        middle = (low + high) // 2
        low, high = (middle + 1, high) if told(program, file, middle)[0] == 6 else (low, middle)
    return low


def main():
    parser = Parser(__doc__)
    parser.add_argument("program")
    parser.add_argument("other")
    parser.add_argument("count", nargs="?", type=int, default=1500)
    parser.add_argument("seed", nargs="?", type=int, default=1)
    given = parser.parse_args()
    program, other, count, seed = given.program, given.other, given.count, given.seed
    rand, kinds, differ = random.Random(seed), collections.Counter(), 0
    with tempfile.TemporaryDirectory() as folder:
        file, blif = pathlib.Path(folder, "thrown.v"), pathlib.Path(folder, "thrown.blif")
        for number in range(count):
            if number % 2:
                blif.write_text(model(rand))
                file.write_bytes(subprocess.run([program, "compile", blif], capture_output=True).stdout)
            else:
                file.write_text(thrown(rand))
            edge = least(program, file)
            for limit in {100_000, edge, max(1, edge - 1), rand.randint(1, 400)}:
                answers = told(program, file, limit), told(other, file, limit)
                kinds[" ".join(re.split(r"[:,\d]", answers[0][1])[:2]).strip()] += 1
                if answers[0] != answers[1]:
                    differ += 1
                    print(f"netlist {number} of seed {seed} at limit {limit}: {answers}")
    print(f"{count} netlists, {sum(kinds.values())} answers, {differ} differ: {dict(kinds)}")
    return 1 if differ else 0


if __name__ == "__main__":
    sys.exit(main())
