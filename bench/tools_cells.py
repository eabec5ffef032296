"""Tests of what stands beside the cells: the test bench, their areas, delays of SDF. `bench/tools.py` runs them."""
import os
import random
import re
import subprocess

from tools_help import EXAMPLES, nclc, needing, ran, refuses, same, tool
import netlist
import through_yosys


def in_icarus(folder, text, words, delays=None, more=""):
    """The words of a netlist in Icarus by its test bench, with the delays of a file, and what else the bench is to do."""
    bench = tool("bench", text, *(["--delays", delays] if delays else []))
    (folder / "b.v").write_text(bench.replace("  initial begin", f"{more}\n  initial begin", 1))
    cells = folder / "cells.v" if more else EXAMPLES / "cells.v"
    ran(["iverilog", *["-gspecify"] * bool(more), "-s", "bench", "-o", "bench", cells, "b.v", text], folder=folder)
    found = ran(["vvp", "-n", "bench", f"+words={words}", "+vcd=run.vcd"], folder=folder)
    return [line for line in found.splitlines() if line.startswith("word ")]


@needing("iverilog", "vvp")
def bench_reads_what_tools_write(folder):
    adder = (EXAMPLES / "full_adder.v").read_text()
    marked = "/* first; */ " + adder.replace("TH23 co0", "(* src = \"a.v:1;\" *) TH23 /* (; */ \\co0+x ").replace("endmodule", "// TH12 a;\nendmodule")
    words = EXAMPLES / "three_bits.words"
    (folder / "marked.v").write_text(marked)
    (folder / "d.delays").write_text("# a remark\ncell co0+x 20 7\r\ndefault 3 2\n\nsource 4 5\n")
    sim = nclc("sim", folder / "marked.v", "--delays", folder / "d.delays", "--words", words)
    same(in_icarus(folder, folder / "marked.v", words, folder / "d.delays"), sim.splitlines()[:-1])
    for text in ("", "module m(input a);endmodule\n", adder.replace("endmodule", "assign a = b;\nendmodule"), "/* open\n", adder + "x", "\x7f\0\xff", adder[:900]):
        (folder / "bad.v").write_text(text, "latin-1")
        refuses("bench", folder / "bad.v")
    for line in ("cell co0 1 1", "default 0 1", "default 1", "sink 1 10000000", "rise 1 1", "\0"):
        (folder / "bad.delays").write_text("\n" + line)
        assert "line 2" in refuses("bench", folder / "marked.v", "--delays", folder / "bad.delays")
    refuses("bench", status=2)


@needing("iverilog", "vvp")
def bench_takes_any_ports(folder):
    """Compiled netlists of eight bits: as they are, with vectors in an ANSI header, with other names, and from Yosys."""
    chance = random.Random(3)
    text = nclc("compile", EXAMPLES / "add8.blif")
    (folder / "w.words").write_text("".join("".join(chance.choice("01") for _ in range(16)) + "\n" for _ in range(6)))
    (folder / "plain.v").write_text(text)
    ports = [name.strip() for name in re.search(r"\((.*?)\);", text)[1].split(",")]
    odd = {name: f"\\{place}+{name} " for place, name in enumerate(ports)}
    (folder / "odd.v").write_text(re.sub(r"\b(?:%s)\b" % "|".join(ports), lambda found: odd[found[0]], text))
    (folder / "vectors.v").write_text(through_yosys.with_vectors(text))
    sim = nclc("sim", folder / "plain.v", "--delays", EXAMPLES / "unit.delays", "--words", folder / "w.words").splitlines()[:-1]
    for name in ("plain", "odd", "vectors"):
        same((name, in_icarus(folder, folder / f"{name}.v", folder / "w.words")), (name, sim))


def cells_lib_is_the_table_of_gates(folder):
    text = (EXAMPLES / "cells.lib").read_text()
    cells = re.findall(r"cell \((\w+)\) \{\n    area : \d+;\n(.*?)\n  \}", text, re.S)
    same({name for name, _ in cells}, {*netlist.GATES, *netlist.REGISTERS, "TH12B"})
    for name, body in cells:
        reset = ["RST"] if name in netlist.REGISTERS else []
        pins = [*netlist.inputs_of(name), *reset]
        same(re.findall(r"pin \((\w+)\) \{ direction : input", body), pins)
        rows = re.findall(r"((?:[LH-] )+): - : ([LHN])", body)
        function = re.search(r'function : "([^"]*)"', body)
        if function:
            same(function[1], "!(A+B)" if name == "TH12B" else "+".join(pins))
            continue
        told = {row: value for row, value in rows}
        count = len(pins) - len(reset)
        for word in range(1 << count):
            row = "".join("LH"[word >> i & 1] + " " for i in range(count)) + "L " * len(reset)
            same((name, row, told[row]), (name, row, "H" if netlist.rises(name) >> word & 1 else "N" if word else "L"))
        same([told.get("- " * count + "H ")] if reset else [], [{"TH22N": "L", "TH22D": "H"}[name]] if reset else [])


@needing("yosys")
def cells_lib_is_read_without_a_warning(folder):
    text = nclc("compile", EXAMPLES / "add8.blif")
    (folder / "n.v").write_text(text)
    areas = dict(re.findall(r"cell *\((\w+)\) *\{[^}]*?area *: *(\d+)", (EXAMPLES / "cells.lib").read_text()))
    area = sum(int(areas[kind]) for kind in re.findall(r"^(TH\w+) ", text, re.MULTILINE))
    done = subprocess.run(["yosys", "-p", f"read_liberty -lib {EXAMPLES}/cells.lib; read_verilog n.v; stat -liberty {EXAMPLES}/cells.lib"], cwd=folder, capture_output=True, text=True)
    assert f"Chip area for module '\\top': {area}" in done.stdout and "arning" not in done.stdout + done.stderr.replace("implicitly", ""), done.stdout[-500:] + done.stderr


def cells_with_paths(kinds):
    """The cells as modules whose delays are those of paths, for SDF."""
    lines = ["`timescale 1ns / 1ns\n`define RESET 1000\n"]
    for kind in sorted(kinds):
        pins, table = list(netlist.inputs_of(kind)), netlist.rises(kind)
        ones = [" & ".join(pin if word >> i & 1 else f"~{pin}" for i, pin in enumerate(pins)) for word in range(1 << len(pins)) if table >> word & 1]
        keep, reset = "1'b0" if kind == "TH12B" else " | ".join(pins), kind in netlist.REGISTERS
        inputs = pins + ["RST"] * reset
        paths = " ".join(f"({pin} => Z) = (1, 1);" for pin in inputs)
        lines.append(f"module {kind}(input {', '.join(inputs)}, output Z);\n reg z; initial z = 0;\n wire next = {'~RST & ' * reset}(({' | '.join(ones)}) | (z & ({keep})));\n"
                     f" always @(next) z = next;\n assign Z = z;\n specify {paths} endspecify\nendmodule\n")
    return "".join(lines)


@needing("iverilog", "vvp")
def sdf_delays_are_those_of_icarus(folder):
    chance = random.Random(5)
    for name, words in (("full_adder", "three_bits"), ("multiplier", "four_bits"), ("three_stages", "two_bits")):
        text = (EXAMPLES / f"{name}.v").read_text()
        cells = re.findall(r"(TH\w+) (\w+) \(", text)
        sdf = [f'(DELAYFILE (SDFVERSION "3.0") (DESIGN "{name}") (DIVIDER .) (TIMESCALE 1ns)\n']
        for kind, cell in cells:
            pair = f"({chance.randint(1, 9)}) ({chance.randint(1, 9)})"
            sdf.append(f'(CELL (CELLTYPE "{kind}") (INSTANCE {cell}) (DELAY (ABSOLUTE {" ".join(f"(IOPATH {pin} Z {pair})" for pin in netlist.inputs_of(kind))})))\n')
        (folder / "x.sdf").write_text("".join(sdf) + ")\n")
        (folder / "x.delays").write_text(tool("sdf_delays", "--unit", "1ns", folder / "x.sdf"))
        if words == "four_bits":
            (folder / "four_bits.words").write_text("0000\n1111\n1001\n0110\n1101\n")
        file = folder / "four_bits.words" if words == "four_bits" else EXAMPLES / f"{words}.words"
        (folder / "cells.v").write_text(cells_with_paths({kind for kind, _ in cells}))
        found = in_icarus(folder, EXAMPLES / f"{name}.v", file, more='  initial $sdf_annotate("x.sdf", net);')
        sim = nclc("sim", EXAMPLES / f"{name}.v", "--delays", folder / "x.delays", "--words", file)
        same(found, sim.splitlines()[:-1])


def sdf_delays_reads_paths_and_refuses_the_rest(folder):
    file = folder / "x.sdf"
    frame = '(DELAYFILE (SDFVERSION "3.0") (TIMESCALE 10 ps) // (a remark\n (CELL (CELLTYPE "TH22") (INSTANCE a\\[1\\]) %s)\n)'
    path = "(DELAY (ABSOLUTE (IOPATH A Z (1:2:3.1) (4)) (IOPATH (posedge B) Z (2:3:4) ())))"
    for given, wanted in (((), "4 4"), (("--corner", "min"), "2 4"), (("--corner", "typ"), "3 4")):
        file.write_text(frame % path)
        same(tool("sdf_delays", "--unit", "10ps", *given, file).splitlines()[1:], [f"cell a[1] {wanted}"])
    same(tool("sdf_delays", "--unit", "1us", file).splitlines()[1:], ["cell a[1] 1 1"])
    for part in ("(DELAY (INCREMENT (IOPATH A Z (1))))", "(DELAY (ABSOLUTE (COND a (IOPATH A Z (1)))))", "(TIMINGCHECK (SETUP A B (1)))", "(DELAY (ABSOLUTE (INTERCONNECT a b (1))))",
                 "(DELAY (ABSOLUTE (IOPATH A Z (x))))", "(DELAY (ABSOLUTE (IOPATH A Z (1e9))))", "(DELAY", ")("):
        file.write_text(frame % part)
        refuses("sdf_delays", "--unit", "10ps", file)
    file.write_text("module m;")
    refuses("sdf_delays", "--unit", "10ps", file)
    refuses("sdf_delays", "--unit", "3 parsecs", file)
    refuses("sdf_delays", file, status=2)


# An SDF file as a program for timing writes it: the wires stand in the top cell, whose instance is empty.
OF_TIMING = """(DELAYFILE
 (SDFVERSION "3.0")
 (DESIGN "top")
 (DIVIDER /)
 (VOLTAGE 1.800::1.800)
 (TIMESCALE 1ns)
 (CELL
  (CELLTYPE "top")
  (INSTANCE)
  (DELAY
   (ABSOLUTE
    (INTERCONNECT x0 a/r0/A (0.250::0.260))
    (INTERCONNECT a/r0/Z a/b\\/g/A (0.010::0.020) (0.030::0.040))
    (INTERCONNECT a/r0/Z a/k[1]/A (0.015::0.025) (0.010::0.010))
    (INTERCONNECT a/b\\/g/Z z0 (0.000::0.000))
   )
  )
 )
 (CELL
  (CELLTYPE "TH22N")
  (INSTANCE a/r0)
  (DELAY
   (ABSOLUTE
    (IOPATH A Z (0.120::0.130) (0.100:0.105:0.110))
    (IOPATH B Z (::0.090))
   )
  )
 )
 (CELL
  (CELLTYPE "TH12B")
  (INSTANCE a/k\\[1\\])
 )
 (CELL
  (CELLTYPE "TH22")
  (INSTANCE a/b\\/g)
  (DELAY
   (ABSOLUTE
    (IOPATH A Z (0.050::) ())
   )
  )
 )
)
"""


def sdf_delays_reads_wires_and_dividers(folder):
    file = folder / "x.sdf"
    file.write_text(OF_TIMING)
    found = lambda *given: tool("sdf_delays", "--unit", "10ps", *given, file).splitlines()[1:]
    same(refuses("sdf_delays", "--unit", "10ps", file), "sdf_delays: line 12: a wire takes time: give --wires add, or --wires drop\n")
    same(found("--wires", "drop"), ["cell a.r0 13 11", "cell a.k[1] 1 1", "cell a.b/g 5 1"])
    added = "# wires from ports take up to 26 steps, which are the environment's"
    same(found("--wires", "add"), [added, "cell a.r0 16 15", "cell a.k[1] 1 1", "cell a.b/g 5 1"])
    same(found("--wires", "add", "--corner", "min")[1], "cell a.r0 14 13")
    same(found("--wires", "drop", "--corner", "typ")[0], "cell a.r0 13 11")
    file.write_text(OF_TIMING.replace("DIVIDER /", "DIVIDER ."))
    same(found("--wires", "drop")[0], "cell a/r0 13 11")
    for old, new in (("DIVIDER /", "DIVIDER :"), ("a/r0/Z a/b", "none/Z a/b"), ("(0.120::0.130)", "(::)"), ("INTERCONNECT x0 a/r0/A", "PORT a/r0/A"), ("1ns", "(1ns)")):
        file.write_text(OF_TIMING.replace(old, new))
        refuses("sdf_delays", "--unit", "10ps", "--wires", "add", file)


def sdf_delays_takes_large_files(folder):
    cell = ' (CELL\n  (CELLTYPE "TH22")\n  (INSTANCE u%d)\n  (DELAY\n   (ABSOLUTE\n    (IOPATH A Z (0.1) (0.1))\n    (IOPATH B Z (0.1) (0.2)))))\n'
    cells = [cell % i for i in range(30000)]
    (folder / "x.sdf").write_text('(DELAYFILE (TIMESCALE 1ns)\n' + "".join(cells) + ")\n")
    begin = sum(os.times()[2:4])
    same(tool("sdf_delays", "--unit", "10ps", folder / "x.sdf").splitlines()[-1], "cell u29999 10 20")
    took = sum(os.times()[2:4]) - begin
    assert took < 30, took
    for text in ("/* " * 500000, "(" * 500000, "\\" * 500001, "", "\0\xff"):
        (folder / "x.sdf").write_text(text)
        refuses("sdf_delays", "--unit", "10ps", folder / "x.sdf")
