#!/usr/bin/env python3
"""Compiles and checks arithmetic whose operands stand one after the other, as synthesis tools write ports.

    bench/arithmetic.py PROGRAM [LIMIT]

PROGRAM is the built nclc. Writes, as BLIF, adders, comparators and arithmetic units of 8, 16 and 32 bits: first all bits
of a, then all of b, the most significant first. Compiles each and checks it with LIMIT, the usual limit if none is given.
Prints the gates, the cells, the nodes, which are the least limit with which the stage is accepted, the seconds of compiling
and of the check, and what the check says.
"""
import pathlib
import re
import subprocess
import sys
import tempfile
import time

sys.path.insert(0, str(pathlib.Path(__file__).resolve().parent.parent / "tools"))
from script import Parser

USUAL = 100_000
AND, OR, XOR = "11 1\n", "1- 1\n-1 1\n", "10 1\n01 1\n"
SUM = "100 1\n010 1\n001 1\n111 1\n"
CARRY = "11- 1\n1-1 1\n-11 1\n"
CHOICE = "01- 1\n1-1 1\n"


def nodes(rows, *nets):
    """A table of the last net by the others."""
    return f".names {' '.join(nets)}\n{rows}"


def model(inputs, outputs, body):
    return f".model top\n.inputs {' '.join(inputs)}\n.outputs {' '.join(outputs)}\n{body}.end\n"


def operand(name, bits):
    """The bits of an operand, the most significant first."""
    return [f"{name}{bit}" for bit in reversed(range(bits))]


def summed(a, b, carry, prefix):
    """The sums of two operands, the least significant bits first, and the carry."""
    body, sums = "", []
    for bit, (x, y) in enumerate(zip(a, b)):
        sums.append(f"{prefix}s{bit}")
        body += nodes(SUM, x, y, carry, sums[-1]) + nodes(CARRY, x, y, carry, f"{prefix}c{bit}")
        carry = f"{prefix}c{bit}"
    return body, sums, carry


def adder(bits):
    """The sum of a, b and a carry, and the carry out first."""
    a, b = operand("a", bits), operand("b", bits)
    body, sums, carry = summed(a[::-1], b[::-1], "ci", "")
    return model(a + b + ["ci"], [carry] + sums[::-1], body)


def comparator(bits):
    """Whether a is less than b, and whether they are the same."""
    a, b = operand("a", bits), operand("b", bits)
    body = ".names l\n" + ".names e\n1\n"
    less, equal = "l", "e"
    for x, y in zip(a[::-1], b[::-1]):
        now = x[1:]
        body += nodes("00 1\n11 1\n", x, y, f"q{now}")
        body += nodes("01- 1\n1-1 1\n", f"q{now}", y, less, f"l{now}")
        body += nodes(AND, f"q{now}", equal, f"e{now}")
        less, equal = f"l{now}", f"e{now}"
    return model(a + b, [less, equal], body)


def unit(bits):
    """The sum, the AND, the OR or the XOR of a and b, as two bits choose."""
    a, b = operand("a", bits), operand("b", bits)
    body, sums, carry = summed(a[::-1], b[::-1], "z", "")
    body = ".names z\n" + body
    outs = []
    for bit, (x, y) in enumerate(zip(a[::-1], b[::-1])):
        body += nodes(AND, x, y, f"n{bit}") + nodes(OR, x, y, f"o{bit}") + nodes(XOR, x, y, f"x{bit}")
        body += nodes(CHOICE, "f0", sums[bit], f"n{bit}", f"p{bit}")
        body += nodes(CHOICE, "f0", f"o{bit}", f"x{bit}", f"r{bit}")
        body += nodes(CHOICE, "f1", f"p{bit}", f"r{bit}", f"y{bit}")
        outs.append(f"y{bit}")
    return model(a + b + ["f1", "f0"], [carry] + outs[::-1], body)


def run(program, *words):
    """The status, the output and the seconds of a run."""
    start = time.monotonic()
    done = subprocess.run([program, *words], capture_output=True, text=True, check=False)
    return done.returncode, done.stdout, time.monotonic() - start


def is_judged(program, path, limit):
    """Whether the stage has no more nodes than the limit."""
    return run(program, "check", path, "--limit", str(limit))[0] != 6


def least_limit(program, path, most):
    """The least limit with which the stage is judged, where it is with the most."""
    low, high = 1, 64
    while high < most and not is_judged(program, path, high):
        low, high = high + 1, 2 * high
    high = min(high, most)
    while low < high:
        middle = (low + high) // 2
        if is_judged(program, path, middle):
            high = middle
        else:
            low = middle + 1
    return low


def measured(program, limit, text, folder):
    """The gates, cells and nodes of a model, the seconds of compiling and of the check, and what the check says."""
    blif, netlist = str(folder / "top.blif"), str(folder / "top.v")
    pathlib.Path(blif).write_text(text)
    status, made, compiling = run(program, "compile", blif)
    if status:
        return f"compile ends with status {status}"
    pathlib.Path(netlist).write_text(made)
    cells = re.findall(r"^\s*(TH\w+) \w+\(", made, re.M)
    gates = [cell for cell in cells if cell[-1] not in "NDB"]
    status, said, checking = run(program, "check", netlist, "--limit", str(limit))
    nodes = "more" if status == 6 else str(least_limit(program, netlist, limit))
    return f"{len(gates):6} {len(cells):6} {nodes:>8} {compiling:8.3f} {checking:8.3f}  {said.strip()}"


def main():
    parser = Parser(__doc__)
    parser.add_argument("program")
    parser.add_argument("limit", nargs="?", type=int, default=USUAL)
    given = parser.parse_args()
    program, limit = given.program, given.limit
    print("design   gates  cells    nodes  compile    check  answer")
    with tempfile.TemporaryDirectory() as folder:
        for name, make in [("adder", adder), ("less", comparator), ("unit", unit)]:
            for bits in (8, 16, 32):
                print(f"{name + str(bits):7}", measured(program, limit, make(bits), pathlib.Path(folder)), flush=True)


if __name__ == "__main__":
    main()
