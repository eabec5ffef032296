#!/usr/bin/env python3
"""Compiles models of growing size, and checks what comes of them.

    bench/compiling.py PROGRAM

PROGRAM is the built nclc. Writes ripple adders, of one stage and of one stage for each bit, and a cover of as many rows
as may be, and prints for each the bytes, the cells, the gates on the longest way through a stage, and the seconds of
compiling and of the check.
"""
import pathlib
import re
import subprocess
import sys
import tempfile
import time

sys.path.insert(0, str(pathlib.Path(__file__).resolve().parent.parent / "tools"))
from script import Parser

CARRY = ".names {a} {b} {c} {out}\n11- 1\n1-1 1\n-11 1\n"
SUM = ".names {a} {b} {c} {out}\n100 1\n010 1\n001 1\n111 1\n"


def adder(bits):
    """One model: operands interleaved, the carry first among the outputs."""
    ins = " ".join(f"a{i} b{i}" for i in range(bits))
    outs = " ".join(["c"] + [f"s{i}" for i in range(bits)])
    text = f".model adder\n.inputs {ins}\n.outputs {outs}\n.names z\n"
    carry = "z"
    for i in range(bits):
        out = "c" if i + 1 == bits else f"c{i}"
        text += SUM.format(a=f"a{i}", b=f"b{i}", c=carry, out=f"s{i}")
        text += CARRY.format(a=f"a{i}", b=f"b{i}", c=carry, out=out)
        carry = out
    return text + ".end\n"


def pipeline(bits):
    """A model for each bit, which hands on what the later ones need."""
    text = ""
    for i in range(bits):
        later = [f"{x}{j}" for j in range(i + 1, bits) for x in "ab"]
        sums = [f"s{j}" for j in range(i)]
        ins = ["c"] * (i > 0) + sums + [f"a{i}", f"b{i}"] + later
        text += f".model bit{i}\n.inputs {' '.join(ins)}\n.outputs n {' '.join(sums + [f's{i}'] + later)}\n"
        if i == 0:
            text += ".names c\n"
        text += SUM.format(a=f"a{i}", b=f"b{i}", c="c", out=f"s{i}")
        text += CARRY.format(a=f"a{i}", b=f"b{i}", c="c", out="n") + ".end\n"
    return text


def rows(count):
    """A cover of equal rows."""
    return ".inputs a\n.outputs y\n.names a y\n" + "1 1\n" * count


def cells_and_levels(netlist):
    """The cells, and the gates on the longest way through a stage."""
    cells, depth, deepest = 0, {}, 0
    for kind, name, pins in re.findall(r"^(TH\w+) (\w+)\((.*)\);$", netlist, re.M):
        cells += 1
        nets = dict(re.findall(r"\.(\w+)\((\w+)\)", pins))
        if name.startswith("s"):
            out = nets.pop("Z")
            depth[out] = 1 + max(depth.get(net, 0) for net in nets.values())
            deepest = max(deepest, depth[out])
    return cells, deepest


def timed(words):
    start = time.perf_counter()
    out = subprocess.run(words, capture_output=True, text=True).stdout
    return out, time.perf_counter() - start


def main():
    parser = Parser(__doc__)
    parser.add_argument("program")
    given = parser.parse_args()
    program = given.program
    cases = [("adder of 8 bits, one stage", adder(8)), ("adder of 8 bits, eight stages", pipeline(8)),
             ("adder of 32 bits, one stage", adder(32)), ("adder of 32 bits, 32 stages", pipeline(32)),
             ("8,191 rows of one input", rows(8191))]
    with tempfile.TemporaryDirectory() as folder:
        for name, text in cases:
            source, netlist = f"{folder}/m.blif", f"{folder}/m.v"
            open(source, "w").write(text)
            out, compiling = timed([program, "compile", source])
            open(netlist, "w").write(out)
            cells, levels = cells_and_levels(out)
            said, checking = timed([program, "check", netlist])
            print(f"{name}: {len(text)} bytes, {cells} cells, {levels} levels, "
                  f"compiled in {compiling:.2f} s, checked in {checking:.2f} s: {said.strip()}")


if __name__ == "__main__":
    main()
