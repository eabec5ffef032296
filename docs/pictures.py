#!/usr/bin/env python3
"""Draws the pictures of these pages, each from what the program writes.

    docs/pictures.py PROGRAM

PROGRAM is the built nclc. Writes, beside this file, `full_adder.svg`, the wave of three words through a full adder;
`completion_tree.svg`, the tree that joins the acknowledge cells of a bank of 16 bits; and `phases.svg`, the phases of
one word through three banks. In the waves what is high is filled, rail 1 over rail 0, so that DATA is seen as blocks and
NULL as the gaps between them.
"""
import pathlib
import re
import subprocess
import sys

DOCS = pathlib.Path(__file__).resolve().parent
sys.path.insert(0, str(DOCS.parent / "bench"))
import waves

EXAMPLES = DOCS.parent / "examples"
ONE, ZERO, OTHER, INK, PALE = "#2e6eb4", "#d67828", "#5a8c5a", "#282828", "#e1e1e1"


class Picture:
    """An SVG picture that grows by shapes."""

    def __init__(self, width, height):
        self.width, self.height, self.shapes = width, height, []

    def line(self, x1, y1, x2, y2, colour=INK):
        self.shapes.append(f'<line x1="{x1}" y1="{y1}" x2="{x2}" y2="{y2}" stroke="{colour}"/>')

    def box(self, x, y, width, height, colour, inner=None):
        self.shapes.append(f'<rect x="{x}" y="{y}" width="{width}" height="{height}" fill="{inner or colour}" stroke="{colour}"/>')

    def text(self, x, y, words, anchor="start"):
        self.shapes.append(f'<text x="{x}" y="{y}" text-anchor="{anchor}">{words}</text>')

    def save(self, name):
        head = f'<svg xmlns="http://www.w3.org/2000/svg" width="{self.width}" height="{self.height}"'
        style = f'font-family="sans-serif" font-size="12" fill="{INK}"'
        lines = [f"{head} {style}>", '<rect width="100%" height="100%" fill="white"/>', *self.shapes, "</svg>", ""]
        (DOCS / name).write_text("\n".join(lines))


def spans(net, values, changes, end):
    """The stretches of time in which a net is high."""
    found, since = [], 0 if values[net] else None
    for time, changed, new in changes:
        if changed == net and new:
            since = time
        elif changed == net:
            found.append((since, time))
            since = None
    return found + ([(since, end)] if since is not None else [])


def legend(picture, y):
    """What the colours mean, in a row."""
    for place, (colour, words) in enumerate(((ONE, "rail 1 high"), (ZERO, "rail 0 high"), (OTHER, "another net high"))):
        picture.box(110 + 105 * place, y - 9, 14, 9, colour)
        picture.text(130 + 105 * place, y, words)


def wave(name, dump, rows):
    """A row for each name and its nets: two for a bit, rail 1 first, and one for another net; and the meaning of the colours."""
    left, top, unit, row, high = 110, 24, 20, 34, 9
    _, _, values, changes = waves.read_dump(dump)
    end = changes[-1][0] + 2
    bottom = top + row * len(rows)
    picture = Picture(left + unit * end + 10, bottom + 26)
    legend(picture, bottom + 18)
    for time in range(0, end + 1, 5):
        picture.line(left + unit * time, top - 4, left + unit * time, bottom, PALE)
        picture.text(left + unit * time, 14, time, "middle")
    for place, (words, nets) in enumerate(rows):
        picture.text(8, top + row * place + 21, words)
        for number, net in enumerate(nets):
            colour = OTHER if len(nets) == 1 else (ONE, ZERO)[number]
            low = top + row * place + (number + 1) * 12 + (6 if len(nets) == 1 else 0)
            picture.line(left, low, left + unit * end, low, colour)
            for since, until in spans(net, values, changes, end):
                picture.box(left + unit * since, low - high, unit * (until - since), high, colour)
    picture.save(name)


def bit(name, words=None):
    """The row of the bit of the nets NAME_0 and NAME_1."""
    return words or name, [f"{name}_1", f"{name}_0"]


def levels_of(netlist, bank):
    """The cells of a bank's completion by level, acknowledge cells first, each as its name, its kind and its nets."""
    _, _, cells = waves.read_netlist(netlist)
    level, levels = {}, []
    for kind, name, pins in cells:
        if not name.startswith(f"b{bank:03}c") or kind in ("TH22N", "TH22D"):
            continue
        ins = [pins[pin] for pin in "ABCD" if pin in pins]
        own = 0 if kind == "TH12B" else 1 + max(level[net] for net in ins)
        level[pins["Z"]] = own
        levels += [[] for _ in range(own + 1 - len(levels))]
        levels[own].append((kind, ins, pins["Z"]))
    return levels


def tree(name, netlist, bank):
    """The completion tree of a bank, its root at the top."""
    levels, width, step = levels_of(netlist, bank), 52, 70
    picture = Picture(20 + width * len(levels[0]), 40 + step * len(levels))
    place = {}
    for depth, cells in enumerate(levels):
        y = picture.height - 40 - step * depth
        for number, (kind, ins, out) in enumerate(cells):
            below = [place[net] for net in ins if net in place]
            x = sum(x for x, _ in below) / len(below) if below else 10 + width * number + width / 2
            for other, level in below:
                picture.line(x, y + 16, other, level - 6)
            place[out] = (x, y)
            picture.box(x - 24, y - 6, 48, 22, INK, "#f4f4f4")
            picture.text(x, y + 10, kind, "middle")
    root = levels[-1][-1][2]
    x, y = place[root]
    picture.line(x, y - 6, x, y - 20)
    picture.text(x + 8, y - 12, root)
    picture.save(name)


def main():
    program = str(pathlib.Path(sys.argv[1]).resolve())

    def told(*words):
        return subprocess.run([program, *words], cwd=EXAMPLES, capture_output=True, text=True, check=True).stdout

    def dump(netlist, delays, words):
        return told("sim", netlist, "--delays", delays, "--words", words, "--vcd")

    adder = [bit(f"x{b}") for b in (1, 2, 3)] + [bit(f"p{b}") for b in (1, 2, 3)]
    adder += [("m", ["m1", "m0"]), ("y", ["y1", "y0"]), bit("z1"), bit("z2"), ("ki", ["ki"]), ("ko", ["ko"])]
    wave("full_adder.svg", dump("full_adder.v", "unit.delays", "three_bits.words"), adder)
    phases = [bit("x1", "source"), ("ko", ["ko"]), bit("p1", "bank 1"), ("request 1", ["c2"]), bit("q1", "bank 2")]
    phases += [("request 2", ["c3"]), bit("z1", "bank 3"), ("ki", ["ki"])]
    wave("phases.svg", dump("solution_7.v", "slow_bank.delays", "one_bit.words"), phases)
    tree("completion_tree.svg", told("compile", "add8.blif"), 1)


if __name__ == "__main__":
    main()
