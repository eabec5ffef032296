#!/usr/bin/env python3
"""Hands files to the program that were made to harm it, and prints the answer, seconds and memory.

    bench/hostile.py PROGRAM [WORD]

PROGRAM is the built nclc. Most files are as long as a file may be, 16 MiB; others have as many cells as a netlist may
have, or chains of as many gates; and some are short, and have large functions. With WORD only the kinds are tried whose name
has it. A run is stopped after a minute.
"""
import itertools
import os
import pathlib
import random
import subprocess
import sys
import tempfile
import threading
import time

sys.path.insert(0, str(pathlib.Path(__file__).resolve().parent.parent / "tools"))
from script import Parser

from thrown import bank, cell

MOST_BYTES = 16 << 20
MOST_CELLS = 131_072
SECONDS = 60

# Two banks of one bit, with cells between them, and the nets of the rails of the output.
FRONT = """module t(x1_0,x1_1,ki,rst,z1_0,z1_1,ko);
input x1_0,x1_1,ki,rst;
output z1_0,z1_1,ko;
TH22N r1_0(.A(x1_0),.B(c),.RST(rst),.Z(p1_0));
TH22N r1_1(.A(x1_1),.B(c),.RST(rst),.Z(p1_1));
TH12B k1(.A(p1_0),.B(p1_1),.Z(ko));
"""
BACK = """TH22N s1_0(.A({}),.B(ki),.RST(rst),.Z(z1_0));
TH22N s1_1(.A(p1_1),.B(ki),.RST(rst),.Z(z1_1));
TH12B d1(.A(z1_0),.B(z1_1),.Z(c));
endmodule
"""
MODEL = ".model m\n.inputs a\n.outputs y\n"


def filled(front, piece, back=""):
    """The front, as many equal pieces as fit, and the back."""
    left = (MOST_BYTES - len(front) - len(back)) // len(piece)
    yield front
    while left:
        count = min(left, 10_000)
        yield piece * count
        left -= count
    yield back


def numbered(front, line, back=""):
    """The front, as many lines with a number as fit, and the back."""
    yield front
    left, number = MOST_BYTES - len(front) - len(back), 0
    while True:
        text = line.format(number, number + 1)
        left -= len(text)
        if left < 0:
            break
        yield text
        number += 1
    yield back


def gates(count, line, order=1):
    """Gates between two banks, in the order of their numbers or against it."""
    yield FRONT
    for number in range(count)[::order]:
        yield line.format(number, number + 1)
    yield f"TH12 g{count}(.A(p1_0),.B(p1_0),.Z(n{count}));\n" + BACK.format("n0")


def one_bank():
    """One bank, of all the register cells that a netlist has room for beside their completion tree."""
    rails = MOST_CELLS * 3 // 5 // 2 * 2
    ins, outs = ",".join(f"a{i}" for i in range(rails)), ",".join(f"z{i}" for i in range(rails))
    yield f"module t({ins},ki,rst,{outs},ko);\ninput {ins},ki,rst;\noutput {outs},ko;\n"
    for i in range(rails):
        yield f"TH22N r{i}(.A(a{i}),.B(ki),.RST(rst),.Z(z{i}));\n"
    for i in range(0, rails, 2):
        yield f"TH12B k{i}(.A(z{i}),.B(z{i + 1}),.Z(e{i // 2}));\n"
    first, last = 0, rails // 2
    while last - first > 4:
        a, b, c, d = range(first, first + 4)
        yield f"TH44 t{last}(.A(e{a}),.B(e{b}),.C(e{c}),.D(e{d}),.Z(e{last}));\n"
        first, last = first + 4, last + 1
    kind = {2: "TH22", 3: "TH33", 4: "TH44"}[last - first]
    pins = "".join(f".{pin}(e{net})," for pin, net in zip("ABCD", range(first, last)))
    yield f"{kind} t{last}({pins}.Z(ko));\nendmodule\n"


def many_banks():
    """Banks of one bit, one after another."""
    count = MOST_CELLS // 3
    yield f"module t(v0_0,v0_1,ki,rst,v{count}_0,v{count}_1,e0);\n"
    yield f"input v0_0,v0_1,ki,rst;\noutput v{count}_0,v{count}_1,e0;\n"
    for i in range(count):
        request = "ki" if i + 1 == count else f"e{i + 1}"
        for rail in "01":
            yield f"TH22N r{i}_{rail}(.A(v{i}_{rail}),.B({request}),.RST(rst),.Z(v{i + 1}_{rail}));\n"
        yield f"TH12B k{i}(.A(v{i + 1}_0),.B(v{i + 1}_1),.Z(e{i}));\n"
    yield "endmodule\n"


def wires():
    return [FRONT + BACK.format("p1_0")]


def covers(count, order=1, last="a"):
    """Buffers one after another from `y` back to the input, or to a signal that makes them a cycle."""
    yield MODEL.replace(".outputs y", ".outputs n0")
    for number in range(count)[::order]:
        yield f".names n{number + 1} n{number}\n1 1\n"
    yield f".names {last} n{count}\n1 1\n.end\n"


def two_rails(name):
    return [f"{name}_{rail}" for rail in (0, 1)]


def module(ins, outs, body):
    """A netlist of two banks with these rails, and what stands in it."""
    names, ends = sum(ins, []) + ["ki", "rst"], sum(outs, []) + ["ko"]
    return f"module t({','.join(names + ends)});\ninput {','.join(names)};\noutput {','.join(ends)};\n{body}endmodule\n"


def summed(pairs, name):
    """The sum of bits, one XOR after another, and its cells."""
    last, text = pairs[0], ""
    for place, pair in enumerate(pairs[1:]):
        out = two_rails(f"{name}{place}")
        for rail, other in ((0, pair), (1, pair[::-1])):
            text += cell("THxor0", f"g{out[rail]}", [last[0], other[0], last[1], other[1]], out[rail])
        last = out
    return last, text


def product(a, b, name):
    """The AND of two bits, and its cells."""
    out = two_rails(name)
    return out, cell("THand0", f"g{out[0]}", [b[0], a[0], b[1], a[1]], out[0]) + cell("TH22", f"g{out[1]}", [a[1], b[1]], out[1])


def asked_stage(half, count):
    """A sound stage, asked variant by variant: the first output puts the bits in an order that is bad for the second, a sum of
    products, to which the bits are added again and again, so that each of so many XORs has many nodes."""
    ins = [two_rails(f"i{bit}") for bit in range(2 * half)]
    bits, text = bank("p", ins, "c", "ko")
    first, cells = summed(bits, "e")
    products = [product(a, b, f"m{place}") for place, (a, b) in enumerate(zip(bits[:half], bits[half:]))]
    last, chain = summed([out for out, _ in products] + list(itertools.islice(itertools.cycle(bits), count)), "x")
    outs, back = bank("q", [first, last], "ki", "c")
    yield module(ins, outs, text + cells + "".join(made for _, made in products) + chain + back)


def joined(nets, kind, name):
    """Nets joined by gates of a kind that their number of pins tells, four at a time, and the cells."""
    text = ""
    for number in itertools.count():
        if len(nets) == 1:
            return nets[0], text
        taken = nets[:4]
        text += cell(kind.format(len(taken)), f"g{name}{number}", taken, f"{name}{number}")
        nets = [*nets[4:], f"{name}{number}"]


def met_stage(functions, pairs):
    """A stage with a gate that meets the product of the nodes of some functions: each is a sum of products, of bits that stand far
    from one another, and of the last bit or its complement. Together they are never high, so that of all that is met no node comes."""
    ins, far = [two_rails(f"i{bit}") for bit in range(2 * functions * pairs + 1)], functions * pairs
    bits, text = bank("p", ins, "c", "ko")
    first, cells = summed(bits, "e")
    ends = []
    for number in range(functions):
        places = range(number * pairs, (number + 1) * pairs)
        cells += "".join(cell("TH22", f"gm{place}", [bits[place][1], bits[far + place][1]], f"m{place}") for place in places)
        some, made = joined([f"m{place}" for place in places], "TH1{}", f"s{number}_")
        cells += made + cell("TH22", f"gf{number}", [some, bits[-1][int(number == 0)]], f"f{number}")
        ends.append(f"f{number}")
    last, made = joined(ends, "TH{0}{0}", "a")
    outs, back = bank("q", [first, [last, bits[0][1]]], "ki", "c")
    yield module(ins, outs, text + cells + made + back)


def wide(bits, outputs):
    """A netlist of wires, with so many outputs."""
    ins = [two_rails(f"i{bit}") for bit in range(bits)]
    rails, text = bank("p", ins, "c", "ko")
    outs, back = bank("q", list(itertools.islice(itertools.cycle(rails), outputs)), "ki", "c")
    yield module(ins, outs, text + back)


def covered(half, count, outputs):
    """A cover that all outputs have: rows of the lower bits, one row for each number of the upper ones, and then rows that
    cover nothing new, each of which goes over what there is."""
    rand, names = random.Random(1), " ".join(f"a{bit}" for bit in range(2 * half))
    outs = [f"z{place}" for place in range(outputs)]
    yield f".model m\n.inputs {names}\n.outputs {' '.join(outs)}\n.names {names} g\n"
    low = [format(value, f"0{half}b") for value in rand.sample(range(1 << half), 24)]
    rows = ["-" * half + value for value in low]
    rows += [format(value, f"0{half}b") + format(rand.randrange(1 << half), f"0{half}b") for value in range(1 << half)]
    again = ["-" * (half - 4) + "".join(free) + value for free in itertools.product("-01", repeat=4) if "-" in free for value in low]
    yield "".join(f"{row} 1\n" for row in rows + rand.sample(again, count))
    yield "".join(f".names g {out}\n1 1\n" for out in outs) + ".end\n"


NETLISTS = {
    "one name": filled("module ", "a"),
    "one escaped name": filled("module \\", "a"),
    "one comment": filled("/*", "*"),
    "one comment of a line": filled("//", "/"),
    "one attribute": filled('(* a = "', "a", '" *)'),
    "many attributes": filled("", "(* a *)"),
    "blanks": filled("", " "),
    "line feeds": filled("", "\n"),
    "header names": numbered("module m(a", ",a{0}"),
    "nets": numbered("module m;\n", "wire w{0};\n"),
    "cells in one line": numbered("module m(a);input a;", "TH22 g{0}(.A(a),.B(a),.Z(n{0}));"),
    "one bank": one_bank(),
    "banks of one bit": many_banks(),
    "one net on every pin": gates(100_000, "TH44 g{0}(.A(p1_0),.B(p1_0),.C(p1_0),.D(p1_0),.Z(n{0}));\n"),
    "a chain of 10,000 gates": gates(10_000, "TH12 g{0}(.A(n{1}),.B(n{1}),.Z(n{0}));\n"),
    "a chain of 100,000 gates": gates(100_000, "TH12 g{0}(.A(n{1}),.B(n{1}),.Z(n{0}));\n"),
    "the chain in order": gates(100_000, "TH12 g{0}(.A(n{1}),.B(n{1}),.Z(n{0}));\n", -1),
    "a cycle of 100,000 gates": gates(100_000, "TH22 g{0}(.A(n{1}),.B(n0),.Z(n{0}));\n"),
    "a stage with 100 XORs": asked_stage(9, 100),
    "a stage with 200 XORs": asked_stage(9, 200),
    "a gate over 4 sums of 5 products": met_stage(4, 5),
    "a gate over 4 sums of 6 products": met_stage(4, 6),
}
MODELS = {
    "one signal": filled(".inputs ", "a"),
    "one long line": filled(".inputs", " a"),
    "signals": numbered(".inputs", " a{0}"),
    "continued lines": filled(".inputs a", "\\\n"),
    "comments": filled("", "#\n"),
    "rows": filled(MODEL + ".names a y\n", "1 1\n"),
    "covers": numbered(MODEL, ".names a n{0}\n1 1\n"),
    "models": filled("", ".model m\n.inputs a\n.outputs y\n.names a y\n1 1\n.end\n"),
    "a chain of covers": covers(4_000),
    "a long chain of covers": covers(300_000),
    "that chain in order": covers(300_000, -1),
    "a cycle of covers": covers(300_000, last="n0"),
}


COVERS = {
    "128 outputs and 400 rows again": covered(9, 400, 128),
    "128 outputs and 1,200 rows again": covered(9, 1_200, 128),
}


def lines():
    """Files for a simulation, as its delays or as its words."""
    return {
        "blanks": filled("", " "),
        "line feeds": filled("", "\n"),
        "comments": filled("", "#\n"),
        "one word": filled("", "1"),
        "words": filled("", "1\n"),
        "delays": filled("", "cell r1_0 1 1\n"),
        "unknown cells": numbered("", "cell r{0} 1 1\n"),
    }


def write(folder, name, pieces):
    """Writes a file, and gives its path and its size."""
    path = os.path.join(folder, name)
    with open(path, "w") as file:
        file.writelines(pieces)
    return path, os.path.getsize(path)


def measured(words):
    """The status, the first line, the seconds and the kilobytes of a run, which is stopped after a while."""
    start = time.perf_counter()
    child = subprocess.Popen(words, stdout=subprocess.PIPE)
    stop = threading.Timer(SECONDS, child.kill)
    stop.start()
    line = child.stdout.readline(200).decode(errors="replace").strip()
    while child.stdout.read(1 << 16):
        pass
    _, status, used = os.wait4(child.pid, 0)
    stop.cancel()
    child.returncode = os.waitstatus_to_exitcode(status)
    return child.returncode, line, time.perf_counter() - start, used.ru_maxrss


def row(kind, size, answer):
    status, line, seconds, kilobytes = answer
    took = f"{seconds:8.2f}" if status >= 0 else f"{'>' + str(SECONDS):>8}"
    each = f"{kilobytes * 1024 / size:8.1f}" if size >= 1 << 20 else " " * 8
    print(f"{kind:<34}{size:>10}{took}{kilobytes / 1000:>8.0f}{each}{status:>4}  {line[:60]}", flush=True)


def main():
    parser = Parser(__doc__)
    parser.add_argument("program")
    parser.add_argument("word", nargs="?", default="")
    given = parser.parse_args()
    program, word = given.program, given.word
    print(f"{'kind':<34}{'bytes':>10}{'seconds':>8}{'MB':>8}{'a byte':>8}{'':>4}  answer")
    with tempfile.TemporaryDirectory() as folder:
        netlist, _ = write(folder, "wires.v", wires())
        empty, _ = write(folder, "empty", [])
        broad, _ = write(folder, "broad.v", wide(18, 128))
        forms = [
            ("check", NETLISTS, lambda file: ["check", file]),
            ("compile", MODELS, lambda file: ["compile", file]),
            ("match", COVERS, lambda file: ["match", broad, file]),
            ("delays", lines(), lambda file: ["sim", netlist, "--delays", file, "--words", empty]),
            ("words", lines(), lambda file: ["sim", netlist, "--delays", empty, "--words", file]),
        ]
        for form, kinds, words in forms:
            for kind, pieces in kinds.items():
                if word not in f"{form}: {kind}":
                    continue
                file, size = write(folder, "hostile", pieces)
                row(f"{form}: {kind}", size, measured([program, *words(file)]))


if __name__ == "__main__":
    main()
