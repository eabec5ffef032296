#!/usr/bin/env python3
"""Makes the ports of netlists vectors, sends them through Yosys, and gives what it writes to `check`.

    bench/through_yosys.py PROGRAM [NETLIST ..]

PROGRAM is the built nclc; yosys has to be on the path. Without netlists, those that `compile` makes of the BLIF texts of
examples/ are taken. The inputs of each become one vector and the outputs another, in an ANSI header. `check` has to tell
the same line of the netlist, of the one with vectors, and of what Yosys writes of that, with vectors as ports and with
`splitnets -ports`. Prints a line for each netlist; the status is 1 where a line differs.
"""
import pathlib
import re
import subprocess
import sys
import tempfile

sys.path.insert(0, str(pathlib.Path(__file__).resolve().parent.parent / "tools"))
from script import Parser

EXAMPLES = pathlib.Path(__file__).resolve().parent.parent / "examples"
PASSES = {"vectors": "opt_clean -purge; splitnets; opt_clean -purge", "bits": "splitnets -ports; opt_clean -purge"}
GATES = ("TH12 TH22 TH13 TH23 TH33 TH23w2 TH33w2 TH14 TH24 TH34 TH44 TH24w2 TH34w2 TH44w2 TH34w3 TH44w3 TH24w22 TH34w22"
         " TH44w22 TH54w22 TH34w32 TH54w32 TH44w322 TH54w322 THxor0 THand0 TH24comp").split()


def pins(cell):
    """The inputs of a cell: as many as the second digit of a gate's name says, and those of registers."""
    if cell in ("TH22N", "TH22D"):
        return ["A", "B", "RST"]
    if cell == "TH12B":
        return ["A", "B"]
    return list("ABCD"[: int(cell[3]) if cell[2].isdigit() else 4])


def cells():
    """Each cell as a module with nothing in it."""
    lines = []
    for cell in [*GATES, "TH22N", "TH22D", "TH12B"]:
        inputs = ", ".join(pins(cell))
        lines.append(f"module {cell}({inputs}, Z); input {inputs}; output Z; endmodule\n")
    return "".join(lines)


def declared(text, way):
    """The names that a netlist declares with a direction, in order."""
    lists = re.findall(rf"\b{way}\s+([^;]*);", text)
    return [name.strip() for names in lists for name in names.split(",")]


def with_vectors(text):
    """The netlist with its inputs as bits of `a` and its outputs as bits of `z`, from the first to the last."""
    inputs, outputs = declared(text, "input"), declared(text, "output")
    bits = {name: f"a[{place}]" for place, name in enumerate(inputs)}
    bits |= {name: f"z[{place}]" for place, name in enumerate(outputs)}
    header = f"(input [0:{len(inputs) - 1}] a, output [0:{len(outputs) - 1}] z);"
    text = re.sub(r"\b(input|output|wire)\b[^;]*;", "", text)
    text = re.sub(r"(?<=module )(\w+)[^;]*;", rf"\1 {header}", text, count=1)
    return re.sub(r"\(([\w$]+)\)", lambda net: f"({bits.get(net.group(1), net.group(1))})", text)


def through_yosys(folder, netlist, passes):
    """What Yosys writes of a netlist."""
    (folder / "cells.v").write_text(cells())
    written = folder / "written.v"
    script = (f"read_verilog -lib {folder}/cells.v; read_verilog {netlist}; hierarchy -auto-top; {passes};"
              f" write_verilog -noexpr {written}")
    subprocess.run(["yosys", "-q", "-w", "implicitly declared", "-p", script], check=True, timeout=600)
    return written


def checked(program, netlist):
    """What `check` tells of a netlist."""
    return subprocess.run([program, "check", str(netlist)], capture_output=True, text=True, timeout=600).stdout


def compiled(program, folder):
    """The netlists that `compile` makes of the examples."""
    for blif in sorted(EXAMPLES.glob("*.blif")):
        ran = subprocess.run([program, "compile", str(blif)], capture_output=True, text=True, timeout=600)
        if ran.returncode == 0:
            netlist = folder / f"{blif.stem}.v"
            netlist.write_text(ran.stdout)
            yield netlist


def same_lines(program, folder, netlist):
    """Checks a netlist in its four forms, and prints whether the lines are the same."""
    line = checked(program, netlist)
    vectors = folder / "vectors.v"
    vectors.write_text(with_vectors(netlist.read_text()))
    lines = {"with vectors": checked(program, vectors)}
    for name, passes in PASSES.items():
        lines[f"Yosys, {name}"] = checked(program, through_yosys(folder, vectors, passes))
    differ = [f"{name}: {told.strip()}" for name, told in lines.items() if told != line]
    print(f"{netlist.stem}: {line.strip()}; {'DIFFERS, ' + '; '.join(differ) if differ else 'the same in all forms'}")
    return not differ


def main():
    parser = Parser(__doc__)
    parser.add_argument("program")
    parser.add_argument("netlists", nargs="*")
    given = parser.parse_args()
    program = str(pathlib.Path(given.program).resolve())
    same = True
    with tempfile.TemporaryDirectory() as name:
        folder = pathlib.Path(name)
        for netlist in [pathlib.Path(path) for path in given.netlists] or list(compiled(program, folder)):
            same &= same_lines(program, folder, netlist)
    return 0 if same else 1


if __name__ == "__main__":
    sys.exit(main())
