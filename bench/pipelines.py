#!/usr/bin/env python3
"""Checks pipelines of growing size, and prints what a cell costs.

    bench/pipelines.py [BITS [STAGES [LAYERS]]]

Writes pipelines of STAGES, twice as many and four times as many stages (at most 255), each of which has LAYERS layers
of half adders of neighbouring bits of BITS bits. Checks each with the built program and prints cells, bytes, seconds,
and cells and bytes a second. Where these stay the same, the time grows in proportion to the number of stages. The
program is crates/nclc/out/nclc; `(cd crates/nclc && rt run -- check data/wires.v)` builds it.
"""
import pathlib
import subprocess
import sys
import tempfile
import time

sys.path.insert(0, str(pathlib.Path(__file__).resolve().parent.parent / "tools"))
from script import Parser, carry_out

PROGRAM = pathlib.Path(__file__).resolve().parent.parent / "crates/nclc/out/nclc"


def tree(name, nets, root):
    """Cells of TH22, TH33 and TH44 that join the nets to the root."""
    cells, level = [], 0
    while len(nets) > 1:
        groups = [nets[i:i + 4] for i in range(0, len(nets), 4)]
        if len(groups) > 1 and len(groups[-1]) == 1:
            groups[-2:] = [groups[-2][:3], groups[-2][3:] + groups[-1]]
        following = []
        for place, group in enumerate(groups):
            out = root if len(groups) == 1 else f"{name}t{level}_{place}"
            pins = ",".join(f".{pin}({net})" for pin, net in zip("ABCD", group))
            cells.append(f"TH{len(group)}{len(group)} {name}c{level}_{place}({pins},.Z({out}));")
            following.append(out)
        nets, level = following, level + 1
    return cells


def bank(name, inputs, request, root):
    """A register bank over pairs of nets, and the pairs of its outputs."""
    cells, outputs, acks = [], [], []
    for bit, pair in enumerate(inputs):
        rails = [f"{name}q{bit}_{rail}" for rail in (0, 1)]
        for rail in (0, 1):
            cells.append(f"TH22N {name}r{bit}_{rail}(.A({pair[rail]}),.B({request}),.RST(rst),.Z({rails[rail]}));")
        outputs.append(rails)
    for bit, rails in enumerate(outputs):
        acks.append(root if len(outputs) == 1 else f"{name}a{bit}")
        cells.append(f"TH12B {name}k{bit}(.A({rails[0]}),.B({rails[1]}),.Z({acks[-1]}));")
    return cells + tree(name, acks, root), outputs


def layer(name, bits):
    """Half adders of neighbouring bits: the sum and the carry of each pair, and a last bit without a neighbour as it is."""
    cells, outputs = [], []
    for place in range(0, len(bits) - 1, 2):
        (a0, a1), (b0, b1) = bits[place], bits[place + 1]
        s, c = f"{name}s{place}", f"{name}c{place}"
        cells += [
            f"TH24comp {s}g0(.A({a0}),.B({b1}),.C({a1}),.D({b0}),.Z({s}_0));",
            f"TH24comp {s}g1(.A({a0}),.B({b0}),.C({b1}),.D({a1}),.Z({s}_1));",
            f"THand0 {c}g0(.A({a0}),.B({b0}),.C({a1}),.D({b1}),.Z({c}_0));",
            f"TH22 {c}g1(.A({a1}),.B({b1}),.Z({c}_1));",
        ]
        outputs += [[f"{s}_0", f"{s}_1"], [f"{c}_0", f"{c}_1"]]
    if len(bits) % 2:
        outputs.append(bits[-1])
    return cells, outputs


def stage(name, bits, layers):
    """Layers of half adders, each over the bits of the one before, turned by one."""
    cells = []
    for number in range(layers):
        inner, outputs = layer(f"{name}l{number}", bits)
        cells += inner
        bits = outputs[1:] + outputs[:1]
    return cells, bits


def pipeline(bits, stages, layers):
    sources = [[f"x{bit}_{rail}" for rail in (0, 1)] for bit in range(bits)]
    cells, last = bank("b0", sources, "c1" if stages else "ki", "ko")
    for number in range(1, stages + 1):
        inner, outputs = stage(f"g{number}", last, layers)
        request = "ki" if number == stages else f"c{number + 1}"
        joined, last = bank(f"b{number}", outputs, request, f"c{number}")
        cells += inner + joined
    inputs = [rail for pair in sources for rail in pair] + ["ki", "rst"]
    outputs = [rail for pair in last for rail in pair] + ["ko"]
    head = [f"module pipeline({','.join(inputs + outputs)});", f"input {','.join(inputs)};", f"output {','.join(outputs)};"]
    return "\n".join(head + cells + ["endmodule", ""]), len(cells)


def main():
    parser = Parser(__doc__)
    parser.add_argument("bits", nargs="?", type=int, default=10)
    parser.add_argument("stages", nargs="?", type=int, default=60)
    parser.add_argument("layers", nargs="?", type=int, default=1)
    given = parser.parse_args()
    bits, stages, layers = given.bits, given.stages, given.layers
    print(f"{'stages':>8}{'cells':>10}{'bytes':>12}{'seconds':>10}{'cells/s':>12}{'bytes/s':>12}")
    for factor in (1, 2, 4):
        text, cells = pipeline(bits, stages * factor, layers)
        with tempfile.NamedTemporaryFile("w", suffix=".v") as file:
            file.write(text)
            file.flush()
            start = time.perf_counter()
            answer = subprocess.run([PROGRAM, "check", file.name], capture_output=True, text=True)
            seconds = time.perf_counter() - start
        wanted = f"accepted banks={stages * factor + 1} stages={stages * factor} cells={cells}\n"
        if answer.stdout != wanted:
            sys.exit(f"expected {wanted!r}, and got {answer.stdout!r}")
        print(f"{stages * factor:>8}{cells:>10}{len(text):>12}{seconds:>10.2f}{cells / seconds:>12.0f}{len(text) / seconds:>12.0f}")


if __name__ == "__main__":
    carry_out("pipelines", main)
