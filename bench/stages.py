#!/usr/bin/env python3
"""Judges large stages, and prints seconds, memory and nodes.

    bench/stages.py PROGRAM [NAME]

PROGRAM is the built nclc. The stages are compiled from BLIF: an adder of two operands of 32 bits and a carry, their bits
interleaved; a multiplier of 6 bits; 128 wires; and pipelines of three adders and of four equal multipliers. Each is
checked with a limit of a million nodes. The nodes are the least limit that accepts, found by halving. The seconds are
those of the processors together, of the clock, and of the clock on one processor: stages of one pipeline are judged side
by side.
"""
import os
import pathlib
import subprocess
import sys
import tempfile
import time

sys.path.insert(0, str(pathlib.Path(__file__).resolve().parent.parent / "tools"))
from script import Parser

LARGEST = 1_000_000


def cover(ins, out, rows):
    return f".names {' '.join(ins)} {out}\n" + "".join(f"{row} 1\n" for row in rows)


def full(a, b, c, s, carry):
    """A full adder."""
    return cover([a, b, c], s, ["100", "010", "001", "111"]) + cover([a, b, c], carry, ["11-", "1-1", "-11"])


def half(a, b, s, carry):
    return cover([a, b], s, ["10", "01"]) + cover([a, b], carry, ["11"])


def model(name, ins, outs, body):
    return f".model {name}\n.inputs {' '.join(ins)}\n.outputs {' '.join(outs)}\n{body}.end\n"


def adder(bits):
    """Two operands, their bits interleaved, and a carry in front."""
    ins = ["c0"] + [f"{x}{i}" for i in range(bits) for x in "ab"]
    body = "".join(full(f"a{i}", f"b{i}", f"c{i}", f"s{i}", f"c{i + 1}") for i in range(bits))
    return model("adder", ins, [f"s{i}" for i in range(bits)] + [f"c{bits}"], body)


def multiplier(bits):
    """An array of full adders, row by row."""
    ins = [f"{x}{i}" for i in range(bits) for x in "ab"]
    body = "".join(cover([f"a{i}", f"b{j}"], f"p{i}_{j}", ["11"]) for i in range(bits) for j in range(bits))
    outs, row, top = ["p0_0"], [f"p{i}_0" for i in range(1, bits)], None
    for j in range(1, bits):
        carry, sums = None, []
        for i in range(bits):
            other = row[i] if i < len(row) else top
            s, c, p = f"s{j}_{i}", f"k{j}_{i}", f"p{i}_{j}"
            if other is None and carry is None:
                sums.append(p)
                continue
            if other is None or carry is None:
                body += half(p, other or carry, s, c)
            else:
                body += full(p, other, carry, s, c)
            carry = c
            sums.append(s)
        outs.append(sums[0])
        row, top = sums[1:], carry
    return model("multiplier", ins, outs + row + [top], body)


def multipliers(bits, stages):
    """Stages that each multiply what the bits before give, its even and its odd places."""
    return "".join(multiplier(bits).replace(".model multiplier", f".model multiplier{stage}") for stage in range(stages))


def wires(count):
    ins, outs = [f"x{i}" for i in range(count)], [f"y{i}" for i in range(count)]
    return model("wires", ins, outs, "".join(cover([x], y, ["1"]) for x, y in zip(ins, outs)))


def three(bits):
    """a + b, and then c and d added to it, stage by stage; what waits is handed on."""
    text, width, waiting = "", bits, [[f"{x}{i}" for i in range(bits)] for x in "cd"]
    left, right = [f"a{i}" for i in range(bits)], [f"b{i}" for i in range(bits)]
    for stage in range(3):
        ins = [name for pair in zip(left, right) for name in pair] + left[len(right):] + [n for word in waiting for n in word]
        body, carry, sums = "", None, []
        for i in range(width):
            a, b = left[i], right[i] if i < len(right) else None
            s, c = f"s{stage}_{i}", f"k{stage}_{i}"
            if b is None:
                body += half(a, carry, s, c)
            elif carry is None:
                body += half(a, b, s, c)
            else:
                body += full(a, b, carry, s, c)
            carry = c
            sums.append(s)
        sums.append(carry)
        following, later = (waiting[0], waiting[1:]) if waiting else ([], [])
        pairs = [name for i, s in enumerate(sums) for name in [s] + following[i:i + 1] if i < len(following)]
        outs = pairs + sums[len(following):] + [n for word in later for n in word]
        text += model(f"add{stage}", ins, outs, body)
        left, right, waiting, width = sums, following, later, width + 1
    return text


def run(words, processors=None):
    """The status, the text, the seconds of the processors and of the clock, and the most kilobytes of a program.

    It runs on so many of the processors that may be used, or on all of them.
    """
    start = time.perf_counter()
    bound = sorted(os.sched_getaffinity(0))[:processors]
    child = subprocess.Popen(words, stdout=subprocess.PIPE, text=True, preexec_fn=lambda: os.sched_setaffinity(0, bound))
    text = child.stdout.read()
    _, status, used = os.wait4(child.pid, 0)
    child.returncode = os.waitstatus_to_exitcode(status)
    return child.returncode, text, used.ru_utime + used.ru_stime, time.perf_counter() - start, used.ru_maxrss


def least_limit(program, netlist):
    low, high = 1, LARGEST
    while low < high:
        middle = (low + high) // 2
        if run([program, "check", netlist, "--limit", str(middle)])[0] == 0:
            high = middle
        else:
            low = middle + 1
    return low


def main():
    parser = Parser(__doc__)
    parser.add_argument("program")
    parser.add_argument("name", nargs="?", default="")
    given = parser.parse_args()
    program = given.program
    print(f"{'stage':<24}{'cells':>8}{'nodes':>10}{'processors':>12}{'clock':>8}{'on one':>8}{'MB':>8}")
    stages = {
        "adder of 65 bits": adder(32),
        "multiplier of 6 bits": multiplier(6),
        "128 wires": wires(128),
        "three adders": three(16),
        "four multipliers": multipliers(6, 4),
    }
    for name, text in stages.items():
        if given.name not in name:
            continue
        with tempfile.TemporaryDirectory() as folder:
            blif, netlist = os.path.join(folder, "s.blif"), os.path.join(folder, "s.v")
            with open(blif, "w") as file:
                file.write(text)
            status, made, *_ = run([program, "compile", blif])
            if status:
                sys.exit(f"{name}: {made}")
            with open(netlist, "w") as file:
                file.write(made)
            command = [program, "check", netlist, "--limit", str(LARGEST)]
            status, answer, used, clock, memory = run(command)
            alone = run(command, 1)[3]
            if status:
                sys.exit(f"{name}: {answer}")
            cells = answer.split("cells=")[1].strip()
            nodes = least_limit(program, netlist)
        print(f"{name:<24}{cells:>8}{nodes:>10}{used:>12.2f}{clock:>8.2f}{alone:>8.2f}{memory / 1024:>8.1f}")


if __name__ == "__main__":
    main()
