"""Tests of what carries netlists in and reports on them: carry_in, bench, ports, report. `bench/tools.py` runs them."""
import itertools
import random
import re
import subprocess

from tools_help import EXAMPLES, PROGRAM, TOOLS, nclc, needing, ran, refuses, same, tool
import netlist

CELL = re.compile(r"^(TH\w+) (\w+) ?\((.*)\);$", re.M)
BUFFER = "module BUFX2 (input A, output Z); assign Z = A; endmodule\n"
GATE = "module BUFX2 (input A, output Z); TH22 _TECHMAP_REPLACE_ (.A(A), .B(A), .Z(Z)); endmodule\n"
INVERTER = "module INVX1 (input A, output Z); assign Z = A; endmodule\n"
OR = "module OR2X1 (input A, B, output Z); TH12B g (.A(A), .B(B), .Z(Z)); endmodule\n"


def each_cell(text, form):
    """The netlist with each cell as the form says of its kind, its name and its nets by pin."""
    return CELL.sub(lambda found: form(found[1], found[2], dict(re.findall(r"\.(\w+)\((\w+)\)", found[3]))), text)


def with_numbers(text):
    """The netlist with its cells numbered, so that tools that sort names put cell 10 before cell 2."""
    count = itertools.count(1)
    return each_cell(text, lambda kind, name, nets: with_pins(kind, f"cell{next(count)}", nets))


def by_position(kind, name, nets):
    return f"{kind} {name} ({', '.join(nets[pin] for pin in [*netlist.inputs_of(kind), *['RST'] * ('RST' in nets), 'Z'])});"


def with_pins(kind, name, nets):
    return f"{kind} {name} ({', '.join(f'.{pin}({net})' for pin, net in nets.items())});"


def behind(item):
    """Each inner net is driven by way of another, which the item joins to it."""
    def form(kind, name, nets):
        if not nets["Z"].startswith("s"):
            return with_pins(kind, name, nets)
        return with_pins(kind, name, dict(nets, Z=f"{nets['Z']}_before")) + item % {"name": f"x{name}", "from": f"{nets['Z']}_before", "to": nets["Z"]}
    return form


def in_modules(kind, name, nets):
    return with_pins(f"own_{kind}", name, {f"p{pin}": net for pin, net in nets.items()})


def modules():
    pins = lambda kind: [*netlist.inputs_of(kind), *["RST"] * (kind in netlist.REGISTERS)]
    return "".join(f"module own_{kind} (input {', '.join(f'p{pin}' for pin in pins(kind))}, output pZ);\n  {kind} cell ("
                   f"{', '.join(f'.{pin}(p{pin})' for pin in [*pins(kind), 'Z'])});\nendmodule\n" for kind in [*netlist.GATES, "TH22N", "TH12B"])


def with_ors(text):
    """Completion by ORs, and an inverter at the root of each tree."""
    text = text.replace("TH12B ", "OR2X1 ")
    return re.sub(r"\.Z\((a\d+|ko)\)\);$", r".Z(not_\1));\nINVX1 inv_\1 (.A(not_\1), .Z(\1));", text, flags=re.M)


def with_an_array(text):
    """The first two register cells as one array of instances."""
    first, second = itertools.islice(CELL.finditer(text), 2)
    nets = [dict(re.findall(r"\.(\w+)\((\w+)\)", found[3])) for found in (first, second)]
    pins = ", ".join(f".{pin}({{{nets[0][pin]}, {nets[1][pin]}}})" for pin in ("A", "B", "RST", "Z"))
    return text.replace(first[0], f"TH22N cell [1:0] ({pins});").replace(second[0], "")


def with_port_vectors(text):
    """The rails of the inputs as two vectors, of which a `generate` makes nets."""
    count = len(re.findall(r"\bi\d+_0\b", text.partition(";")[0]))
    body = re.sub(r"^(input|output)[^;]*;", "", text.partition(";")[2], flags=re.M)
    outs = re.findall(r"\bo\d+_[01]\b", text.partition(";")[0])
    wires = "".join(f"assign i{i}_{rail} = low{rail}[{i}];" for i in range(1, count + 1) for rail in (0, 1))
    return (f"module top #(parameter N = {count}) (input [N-1:0] x0, x1, input ki, rst, output {', '.join(outs)}, ko);\n"
            f"wire [N:1] low0, low1;\ngenvar i;\ngenerate for (i = 0; i < N; i = i + 1) begin : g BUFX2 b0 (.A(x0[i]), .Z(low0[i + 1])); "
            f"BUFX2 b1 (.A(x1[i]), .Z(low1[i + 1])); end endgenerate\n{wires}\n{body}")


def renamed(text):
    """The cells of another library, with other names and pins, and with pins for the power."""
    pins = {"A": "i0", "B": "i1", "C": "i2", "D": "i3", "RST": "reset", "Z": "q"}
    text = re.sub(r"ko\);", "ko, vdd, gnd);\ninout vdd, gnd;", text, count=1)
    return each_cell(text, lambda kind, name, nets: with_pins(f"L_{kind}", name, {pins[pin]: net for pin, net in [*nets.items()]} | {"vdd": "vdd", "gnd": "gnd"}))


def library():
    pins = {"A": "i0", "B": "i1", "C": "i2", "D": "i3", "RST": "reset", "Z": "q"}
    lines = []
    for kind in [*netlist.GATES, *netlist.REGISTERS, "TH12B"]:
        names = [*netlist.inputs_of(kind), *["RST"] * (kind in netlist.REGISTERS)]
        lines.append(f"module L_{kind} (input {', '.join(pins[pin] for pin in names)}, inout vdd, gnd, output q); {kind} _TECHMAP_REPLACE_ "
                     f"({', '.join(f'.{pin}({pins[pin]})' for pin in [*names, 'Z'])}); endmodule\n")
    return "".join(lines)


def powered(text):
    text = re.sub(r"ko\);", "ko, VDD, VSS);\ninout VDD, VSS;", text, count=1)
    return each_cell(text, lambda kind, name, nets: with_pins(kind, name, nets | {"VDD": "VDD", "VSS": "VSS"}))


def late(text):
    nets = sorted(set(re.findall(r"\.Z\((\w+)\)", text)) - set(re.findall(r"\w+", text.partition(";")[0])))
    return text.replace("endmodule", f"wire {', '.join(nets)};\nendmodule")


def their_order(text):
    """Cells of the same names whose pins stand for others: A and B exchanged at TH12B."""
    return each_cell(text, lambda kind, name, nets: with_pins(kind, name, dict(nets, A=nets["B"], B=nets["A"]) if kind == "TH12B" else nets))


DIRECTIVES = "`timescale 1ns / 1ps\n`celldefine\n`default_nettype wire\n`define WIDE 8\n`ifdef NOTHING\nbroken (;\n`endif\n"
EXCHANGED = "module their_TH12B (input A, B, output Z); TH12B _TECHMAP_REPLACE_ (.A(B), .B(A), .Z(Z)); endmodule\n"
FORMS = {
    "as it is": (lambda text: text, "", ()),
    "positions": (lambda text: each_cell(text, by_position), "", ()),
    "parameters": (lambda text: re.sub(r"^(TH\w+) (\w+) ?\(", r"\1 #(.RISE(2), .FALL(3)) \2(", text, flags=re.M), "", ()),
    "a parameter by position": (lambda text: re.sub(r"^(TH\w+) (\w+) ?\(", r"\1 #(2) \2(", text, flags=re.M), "", ()),
    "defparam": (lambda text: text.replace("endmodule", f"defparam {CELL.search(text)[2]}.RISE = 4;\nendmodule"), "", ()),
    "assigns": (lambda text: each_cell(text, behind("assign %(to)s = %(from)s;")), "", ()),
    "nets with a value": (lambda text: each_cell(text, behind("wire other_%(name)s = %(from)s; assign %(to)s = other_%(name)s;")), "", ()),
    "buffers": (lambda text: each_cell(text, behind("BUFX2 %(name)s (.A(%(from)s), .Z(%(to)s));")), BUFFER, ()),
    "an array of instances": (with_an_array, "", ()),
    "models of the cells in the file": (lambda text: text + (EXAMPLES / "cells.v").read_text(), "", ("--top", "top")),
    "buf, supply and tri": (lambda text: each_cell(text, behind("buf b%(name)s (%(to)s, %(from)s);")).replace("endmodule", "supply0 low; tri s001n000000;\nendmodule"), "", ()),
    "buffers as gates": (lambda text: each_cell(text, behind("BUFX2 b%(name)s (.A(%(from)s), .Z(%(to)s));")), GATE, ()),
    "directives": (lambda text: DIRECTIVES + text + "`endcelldefine\n`resetall\n", "", ()),
    "late declarations": (late, "", ()),
    "modules in modules": (lambda text: each_cell(text, in_modules) + modules(), "", ("--top", "top")),
    "vectors and generate": (with_port_vectors, BUFFER, ()),
    "another library with power": (renamed, library(), ("--drop", "vdd,gnd")),
    "pins for the power": (powered, "", ("--drop", "VDD,VSS")),
    "the same names with other pins": (their_order, EXCHANGED, ()),
    "completion by ORs": (with_ors, OR + INVERTER, ()),
    "a reset that is low": (lambda text: re.sub(r"(?<!\()\brst\b", "rst_n", text).replace("endmodule", "INVX1 low (.A(rst_n), .Z(rst));\nendmodule"), INVERTER, ()),
    "a buffered reset and request": (lambda text: re.sub(r"\.B\(ki\)", ".B(ki_q)", text.replace(".RST(rst)", ".RST(rst_q)")).replace("endmodule", "BUFX2 b1 (.A(rst), .Z(rst_q)); BUFX2 b2 (.A(ki), .Z(ki_q));\nendmodule"), BUFFER, ()),
}


@needing("yosys")
def carry_in_takes_foreign_forms(folder):
    """Each form comes in as the netlist that it was made of; of eight bits, with names that a tool sorts otherwise, a few."""
    wide = ("positions", "vectors and generate", "completion by ORs")
    for name, form in [*(("three_stages", form) for form in FORMS), *(("add8", form) for form in wide)]:
        text = with_numbers(nclc("compile", EXAMPLES / f"{name}.blif"))
        change, cells, options = FORMS[form]
        (folder / "foreign.v").write_text(change(text))
        (folder / "map.v").write_text(cells)
        (folder / "new.v").write_text(tool("carry_in", "--map", folder / "map.v", *options, folder / "foreign.v"))
        count = len(CELL.findall(text)) + (change(text).count("BUFX2 ") if cells == GATE else 0)
        same((form, nclc("check", folder / "new.v").partition("cells=")[2]), (form, f"{count}\n"))
        same((form, nclc("match", folder / "new.v", EXAMPLES / f"{name}.blif")), (form, "same\n"))


@needing("yosys")
def carry_in_keeps_what_is_wrong(folder):
    """An orphan that nobody reads stays, and so does the line that `check` tells of each example."""
    for name in ("orphan", "exercise_2", "exercise_5", "exercise_6", "held_word"):
        status = subprocess.run([PROGRAM[0], "check", EXAMPLES / f"{name}.v"], capture_output=True).returncode
        (folder / "new.v").write_text(tool("carry_in", EXAMPLES / f"{name}.v"))
        same((name, nclc("check", folder / "new.v", status=status).partition(":")[0]), (name, nclc("check", EXAMPLES / f"{name}.v", status=status).partition(":")[0]))
    text = nclc("compile", EXAMPLES / "and.blif").replace("endmodule", "TH22 alone (.A(w001b001_0), .B(w001b002_0), .Z(nobody));\nendmodule")
    (folder / "orphan.v").write_text(text)
    (folder / "new.v").write_text(tool("carry_in", folder / "orphan.v"))
    same(nclc("check", folder / "new.v", status=1), "refused stage 1: orphan, cell alone, word 00\n")


@needing("yosys")
def carry_in_reads_several_files_and_what_they_include(folder):
    text = with_numbers(nclc("compile", EXAMPLES / "and.blif"))
    (folder / "own.v").write_text(modules())
    (folder / "top.sv").write_text('`include "cell list.vh"\n' + each_cell(text, in_modules))
    (folder / "cell list.vh").write_text("`define USED\n")
    (folder / "new.v").write_text(tool("carry_in", "--top", "top", folder / "top.sv", folder / "own.v"))
    same(nclc("match", folder / "new.v", EXAMPLES / "and.blif"), "same\n")


@needing("yosys")
def carry_in_refuses_in_one_line(folder):
    netlist_text, file = nclc("compile", EXAMPLES / "add8.blif"), folder / "n.v"
    for text, told in (("", "not one module"), ("\0\xff\x80", "not one module"), ("\x7fELF", "ERROR"), (netlist_text[:3000], "ERROR"), (netlist_text.replace("TH23", "TH99"), "ERROR"),
                       (netlist_text.replace("endmodule", "assign o1_0 = ki;\nendmodule"), "two ports"), (netlist_text.replace(".A(i1_0)", ".A(1'b0)"), ".A(1'h0)"),
                       ("module m (input a, output z); assign z = a; endmodule\n", "assign z = a"), ("`pragma x\n" + netlist_text, "`pragma"),
                       (netlist_text.replace(".B(ki)", ".B(~ki)"), "$not"), (netlist_text.replace("endmodule", "initial $stop;\nendmodule"), "ERROR"),
                        ("x" * 16777217, "more than")):
        file.write_bytes(text.encode("latin-1"))
        assert told in refuses("carry_in", file), (text[:50], told)
    refuses("carry_in", folder / "absent.v")
    refuses("carry_in", "--map", folder / "absent.v", EXAMPLES / "and.v")
    refuses("carry_in", "--drop", "a;shell", EXAMPLES / "and.v")
    refuses("carry_in", "--by", "size", EXAMPLES / "and.v", status=2)
    refuses("carry_in", status=2)
    file.write_text("`timescale 1ns / 1ns\n" + netlist_text)
    same(refuses("models", file), "models: netlist: the directive `timescale\n")


@needing("yosys")
def ports_have_the_names_of_the_models(folder):
    """Of eight bits each, with the operands in turn and without; carry_in makes one netlist of it again, with the new names."""
    (folder / "turn.blif").write_text(tool("interleave", EXAMPLES / "add8.blif"))
    for blif in (EXAMPLES / "add8.blif", folder / "turn.blif"):
        (folder / "n.v").write_text(with_numbers(nclc("compile", blif)))
        text = tool("ports", blif, folder / "n.v")
        for line in ("module add8_ncl (\n", "input [7:0] a_0, a_1,\n", "output [8:0] s_0, s_1,\n", "module add8_ncl_cells("):
            assert line in text, line
        (folder / "p.v").write_text(text)
        (folder / "one.v").write_text(tool("carry_in", folder / "p.v"))
        same(nclc("match", folder / "one.v", blif), "same\n")
        cell = re.search(r"\.A\(\\b_1\[6\] \),\s+\.B\(\S+\s*\),\s+\.RST\(rst\)", (folder / "one.v").read_text())
        assert cell, "the last bits of b have lost their name"


@needing("iverilog")
def ports_of_several_netlists_stand_in_one_design(folder):
    parts = []
    for name in ("add8", "three_stages"):
        (folder / f"{name}.v").write_text(nclc("compile", EXAMPLES / f"{name}.blif"))
        (folder / f"{name}_named.v").write_text(tool("ports", "--name", f"n_{name}", EXAMPLES / f"{name}.blif", folder / f"{name}.v"))
        parts.append(f"{name}_named.v")
    (folder / "both.v").write_text("module both (input [7:0] a_0, a_1, b_0, b_1, input ki, rst, output [8:0] s_0, s_1, output ko);\n"
                                     "n_add8 one (.ki(ki), .rst(rst), .a_0(a_0), .a_1(a_1), .b_0(b_0), .b_1(b_1), .s_0(s_0), .s_1(s_1), .ko(ko));\n"
                                     "n_three_stages two ();\nendmodule\n")
    ran(["iverilog", "-Wall", "-Wno-timescale", "-s", "both", "-o", "both", EXAMPLES / "cells.v", "both.v", *parts], folder=folder)


def ports_refuses_in_one_line(folder):
    file = folder / "n.v"
    file.write_text(nclc("compile", EXAMPLES / "add8.blif"))
    same(refuses("ports", EXAMPLES / "and.blif", file), "ports: widths differ: netlist 16 to 9, blif 2 to 1\n")
    for text in ("", "\0\xff", ".model m\n.inputs a a[0]\n.outputs z\n", ".model m\n.inputs a\n.outputs a\n", ".model m\n.inputs a[0] a[0]\n.outputs z\n"):
        (folder / "bad.blif").write_text(text, "latin-1")
        refuses("ports", folder / "bad.blif", EXAMPLES / "solution_4.v")
    for text in ("", "\x7fELF\0\xff", file.read_text()[:2000]):
        (folder / "bad.v").write_text(text, "latin-1")
        refuses("ports", EXAMPLES / "add8.blif", folder / "bad.v")
    refuses("ports", "--name", "8", EXAMPLES / "add8.blif", file)
    refuses("ports", EXAMPLES / "add8.blif", status=2)


def table_of(text):
    """The rows of a report by its columns."""
    lines = [re.split(r"  +", line.strip()) for line in text.splitlines()[1:] if re.match(r" *(stage|\d+|last)  ", line)]
    return [dict(zip(lines[0], line)) for line in lines[1:]]


def report_is_what_the_program_says(folder):
    """Of eight bits, and of three stages: cells, areas of the page, the least limit from both sides, latency and cycle."""
    (folder / "add8.v").write_text(nclc("compile", EXAMPLES / "add8.blif"))
    told = tool("report", "--nclc", PROGRAM[0], folder / "add8.v")
    assert told.startswith("top: 115 cells, area 1570, 2 banks\n"), told
    first, last = table_of(told)
    same([first["bits"], last["bits"], first["depth"], first["tree"]], ["16", "9", "9", "5"])
    same(sum(int(row[name]) for row in (first, last) for name in ("registers", "tree", "gates") if name in row), 115)
    limit = int(first["least limit"])
    assert nclc("check", folder / "add8.v", "--limit", limit).startswith("accepted")
    assert nclc("check", folder / "add8.v", "--limit", limit - 1, status=6).startswith("limit")
    (folder / "three.v").write_text(nclc("compile", EXAMPLES / "three_stages.blif"))
    told = tool("report", "--nclc", PROGRAM[0], "--delays", EXAMPLES / "unit.delays", "--words", EXAMPLES / "two_bits.words", folder / "three.v")
    same([(row["stage"], row["bits"], row.get("gates")) for row in table_of(told)], [("1", "2", "4"), ("2", "2", "0"), ("3", "2", "2"), ("last", "1", None)])
    times = [int(time) for time in re.findall(r"^word \d+ at (\d+)", nclc("sim", folder / "three.v", "--delays", EXAMPLES / "unit.delays", "--words", EXAMPLES / "two_bits.words"), re.M)]
    same(told.splitlines()[-1], f"latency {times[0]}, cycle {(times[-1] - times[0]) / (len(times) - 1):.1f}, {len(times)} words")


def report_asks_nothing_of_the_program(folder):
    """Another library's areas, and a chain of 30,000 gates in seconds."""
    library = re.sub(r"area : (\d+);", lambda found: f"area : {int(found[1])}.5;", (EXAMPLES / "cells.lib").read_text())
    (folder / "own.lib").write_text(library)
    same(tool("report", "--no-runs", "--lib", folder / "own.lib", EXAMPLES / "full_adder.v").split("\n")[0], "full_adder: 21 cells, area 278.5, 2 banks")
    text = (EXAMPLES / "and.v").read_text()
    gate = re.search(r"^\s*TH22 (\w+) ?\(\.A\((\w+)\)", text, re.M)
    chain = "".join(f"TH12 x{i} (.A({f'chain{i - 1}' if i else gate[2]}), .B({f'chain{i - 1}' if i else gate[2]}), .Z(chain{i}));\n" for i in range(30000))
    (folder / "long.v").write_text(text.replace("endmodule", chain + "endmodule"))
    same(max(int(table_of(tool("report", "--no-runs", folder / "long.v"))[0][name]) for name in ("depth", "tree depth")), 30000)


def report_refuses_in_one_line(folder):
    for text in ("", "\x7fELF\0\xff", nclc("compile", EXAMPLES / "add8.blif")[:3000], "module m;endmodule", ";" * 1000000):
        (folder / "bad.v").write_text(text, "latin-1")
        refuses("report", folder / "bad.v")
    for text in ("", "\0\xff", "cell (TH12) { area : 4; }"):
        (folder / "bad.lib").write_text(text, "latin-1")
        refuses("report", "--no-runs", "--lib", folder / "bad.lib", EXAMPLES / "and.v")
    refuses("report", "--nclc", folder / "absent", EXAMPLES / "and.v")
    refuses("report", status=2)
