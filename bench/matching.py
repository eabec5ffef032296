#!/usr/bin/env python3
"""Compares netlists with the BLIF that they were compiled from, by `match` and by the equivalence check of Berkeley's ABC.

    bench/matching.py PROGRAM ABC [NAME]

PROGRAM is the built nclc, ABC the program of that name (`berkeley-abc` in distributions). The designs are adders of 8, 16
and 32 bits, a multiplier of 6 bits, an equality of 64 bits and a pipeline of three adders, each with the bits of its
operands in turn; with NAME, those alone that have it in their names. `compile` writes the netlist of each. `match` compares
the two with a limit of a million nodes. For ABC both are written as BLIF with the same inputs and outputs: the models joined by
position, and of the netlist what its outputs are reached from, where each gate is a cover of its products, a register
cell a wire, a rail of an input the bit or its inverse, and an output its rail 1. Then one literal of the last cover is
turned, and both have to find a difference.

ABC simulates and asks a satisfiability solver, and knows no order of variables, so it is the faster where no order is
good, as for products, or where operands aren't interleaved; the nodes tell where that is.

Prints the cells, the nodes, which are the least limit with which `match` answers, and the seconds of both programs where
the two are the same and where they differ. An answer that isn't as expected ends the script.
"""
import itertools
import os
import pathlib
import re
import subprocess
import sys
import tempfile
import time

sys.path.insert(0, str(pathlib.Path(__file__).resolve().parent.parent / "tools"))
from script import Parser

from stages import adder, cover, model, multiplier, three
from waves import is_set, read_netlist

LARGEST = 1_000_000


def equality(bits):
    """Whether two operands are the same, bit by bit in a chain."""
    ins = [f"{x}{i}" for i in range(bits) for x in "ab"]
    body = cover(["a0", "b0"], "e0", ["00", "11"])
    for i in range(1, bits):
        body += cover([f"a{i}", f"b{i}"], f"q{i}", ["00", "11"]) + cover([f"q{i}", f"e{i - 1}"], f"e{i}", ["11"])
    return model("equality", ins, [f"e{bits - 1}"], body)


def in_turn(text):
    """The same with the bits of all operands of the first model in turn."""
    first, *others = text.split("\n", 2)[1:]
    ins = sorted(first.split()[1:], key=lambda name: (int(name[1:]), name))
    return "\n".join([text.split("\n", 1)[0], ".inputs " + " ".join(ins), *others])


DESIGNS = {
    "adder of 8 bits": adder(8),
    "adder of 16 bits": adder(16),
    "adder of 32 bits": adder(32),
    "multiplier of 6 bits": multiplier(6),
    "equality of 64 bits": equality(64),
    "three adders": in_turn(three(16)),
}


def read_models(text):
    """The inputs, the outputs and the covers of each model; a cover is its signals and its rows."""
    models = []
    for line in text.splitlines():
        words = line.split()
        if words[0] == ".model":
            models.append(([], [], []))
        elif words[0] in (".inputs", ".outputs"):
            models[-1][words[0] == ".outputs"].extend(words[1:])
        elif words[0] == ".names":
            models[-1][2].append((words[1:], []))
        elif words[0] != ".end":
            models[-1][2][-1][1].append(line)
    return models


def written(models):
    """The text of models."""
    return "".join(
        f".model m{place}\n.inputs {' '.join(ins)}\n.outputs {' '.join(outs)}\n"
        + "".join(f".names {' '.join(signals)}\n" + "".join(row + "\n" for row in rows) for signals, rows in covers)
        + ".end\n"
        for place, (ins, outs, covers) in enumerate(models)
    )


def turned(models):
    """The same with the first literal of the last cover turned."""
    *front, (ins, outs, covers) = models
    signals, rows = covers[-1]
    place = next(place for place, character in enumerate(rows[0]) if character in "01")
    row = rows[0][:place] + "10"[int(rows[0][place])] + rows[0][place + 1:]
    return front + [(ins, outs, covers[:-1] + [(signals, [row] + rows[1:])])]


def ends(inputs, outputs, body):
    return model("flat", [f"x{i}" for i in range(inputs)], [f"y{i}" for i in range(outputs)], body)


def joined(models):
    """One model, in which what the outputs of a model are goes to the inputs of the next."""
    fed, body = [f"x{i}" for i in range(len(models[0][0]))], ""
    for place, (ins, outs, covers) in enumerate(models):
        name = dict(zip(ins, fed))
        for signals, rows in covers:
            name[signals[-1]] = f"m{place}_{signals[-1]}"
            body += f".names {' '.join(name.get(s, f'm{place}_{s}') for s in signals)}\n" + "".join(row + "\n" for row in rows)
        fed = [name[out] for out in outs]
    body += "".join(cover([net], f"y{place}", ["1"]) for place, net in enumerate(fed))
    return ends(len(models[0][0]), len(fed), body)


def rows_of(kind, arity):
    """The rows of a gate: a 1 where the product has the pin, a dash elsewhere."""
    sets = [set(pins) for size in range(1, arity + 1) for pins in itertools.combinations("ABCD"[:arity], size)]
    held = [pins for pins in sets if is_set(kind, pins)]
    least = [pins for pins in held if not any(other < pins for other in held)]
    return ["".join("1" if pin in pins else "-" for pin in "ABCD"[:arity]) for pins in least]


def closure(text):
    """What the rails 1 of the outputs are of the bits of the inputs, as one model."""
    _, ports, cells = read_netlist(text)
    bits = {side: len([port for port in ports if re.fullmatch(side + r"\d+_1", port)]) for side in "io"}
    drivers = {pins["Z"]: (kind, pins) for kind, _, pins in cells}
    body, waiting, met = "", [f"o{j + 1}_1" for j in range(bits["o"])], set()
    while waiting:
        net = waiting.pop()
        if net in met:
            continue
        met.add(net)
        if net not in drivers:
            bit, rail = re.fullmatch(r"i(\d+)_([01])", net).groups()
            body += cover([f"x{int(bit) - 1}"], net, [rail])
            continue
        kind, pins = drivers[net]
        reads = [pins[pin] for pin in ("A" if kind in ("TH22N", "TH22D") else "ABCD") if pin in pins]
        body += cover(reads, net, ["1"] if kind in ("TH22N", "TH22D") else rows_of(kind, len(reads)))
        waiting += reads
    body += "".join(cover([f"o{j + 1}_1"], f"y{j}", ["1"]) for j in range(bits["o"]))
    return ends(bits["i"], bits["o"], body)


def run(*words):
    """The status, the text and the seconds of a program."""
    start = time.perf_counter()
    done = subprocess.run(words, capture_output=True, text=True, check=False)
    return done.returncode, done.stdout, time.perf_counter() - start


def least_limit(program, netlist, blif):
    """The least limit with which `match` answers."""
    low, high = 1, LARGEST
    while low < high:
        middle = (low + high) // 2
        if run(program, "match", netlist, blif, "--limit", str(middle))[0] == 6:
            low = middle + 1
        else:
            high = middle
    return low


def checked(abc, folder, first, second, same):
    """The seconds of ABC's check of two texts, which has to say whether they are the same."""
    names = []
    for place, text in enumerate((first, second)):
        names.append(os.path.join(folder, f"{place}.blif"))
        with open(names[-1], "w") as file:
            file.write(text)
    said, seconds = run(abc, "-q", f"cec {names[0]} {names[1]}")[1:]
    if ("are equivalent" in said) != same or ("NOT EQUIVALENT" in said) == same:
        sys.exit(f"{abc}: {said}")
    return seconds


def matched(program, netlist, blif, same):
    """The seconds of `match`, which has to say whether the two are the same."""
    status, said, seconds = run(program, "match", netlist, blif, "--limit", str(LARGEST))
    if (status, said.startswith("differ at word")) != ((0, False) if same else (1, True)):
        sys.exit(f"{program}: status {status}, {said}")
    return seconds


def measured(program, abc, text, folder):
    """The cells, the nodes, and the seconds of both programs on a design and on the same with a literal turned."""
    blif, other, netlist = (os.path.join(folder, name) for name in ("top.blif", "turned.blif", "top.v"))
    models = read_models(text)
    with open(blif, "w") as file:
        file.write(text)
    with open(other, "w") as file:
        file.write(written(turned(models)))
    status, made, _ = run(program, "compile", blif)
    if status:
        sys.exit(f"compile: {made}")
    with open(netlist, "w") as file:
        file.write(made)
    flat = closure(made)
    seconds = [
        matched(program, netlist, blif, True),
        checked(abc, folder, joined(models), flat, True),
        matched(program, netlist, other, False),
        checked(abc, folder, joined(turned(models)), flat, False),
    ]
    return len(read_netlist(made)[2]), least_limit(program, netlist, blif), seconds


def main():
    parser = Parser(__doc__)
    parser.add_argument("program")
    parser.add_argument("abc")
    parser.add_argument("name", nargs="?", default="")
    given = parser.parse_args()
    program, abc = given.program, given.abc
    print(f"{'design':<24}{'cells':>8}{'nodes':>10}{'match':>10}{'abc':>10}{'match':>10}{'abc':>10}")
    for name, text in DESIGNS.items():
        if given.name not in name:
            continue
        with tempfile.TemporaryDirectory() as folder:
            cells, nodes, seconds = measured(program, abc, text, folder)
        print(f"{name:<24}{cells:>8}{nodes:>10}" + "".join(f"{second:>10.2f}" for second in seconds), flush=True)


if __name__ == "__main__":
    main()
