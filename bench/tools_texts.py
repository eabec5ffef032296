"""Tests of the scripts of tools/ that read or write netlists, models and runs. `bench/tools.py` runs them."""
import random
import re
import subprocess
import sys

import tools_cells
from tools_help import EXAMPLES, PROGRAM, TOOLS, TOP, nclc, needing, ran, refuses, same, tool
import shape


def interleave_puts_bits_in_turn(folder):
    text = ".model m\n.inputs a[0] a[1] cin \\\nb[0] b[1]\n.outputs z\n.names a[0] z\n1 1\n.end\n.model n\n.inputs z\n"
    (folder / "m.blif").write_text(text)
    wanted = text.replace(" a[0] a[1] cin \\\nb[0] b[1]", " cin a[0] b[0] a[1] b[1]")
    same(tool("interleave", folder / "m.blif"), wanted)
    same(tool("interleave", "--first", "b", folder / "m.blif").split("\n")[1], ".inputs b[0] b[1] cin a[0] a[1]")
    same(refuses("interleave", "--first", "c", folder / "m.blif"), "interleave: no input c\n")
    refuses("interleave", folder / "absent")
    refuses("interleave", status=2)


def interleave_keeps_a_netlist_comparable(folder):
    text = tool("interleave", EXAMPLES / "add8.blif")
    (folder / "new.blif").write_text(text)
    (folder / "new.v").write_text(nclc("compile", folder / "new.blif"))
    same(nclc("match", folder / "new.v", folder / "new.blif", "--limit", "2000"), "same\n")


@needing("yosys")
def interleave_takes_what_chooses_first(folder):
    (folder / "rotate.v").write_text("module m (input [19:0] d, input [4:0] by, output [19:0] q); wire [39:0] t = {d, d} << by; assign q = t[39:20]; endmodule\n")
    ran(["yosys", "-q", "-p", "read_verilog rotate.v; synth -flatten; abc -g AND,XOR; opt_clean -purge; write_blif rotate.blif"], folder=folder)
    (folder / "new.blif").write_text(tool("interleave", "--first", "by", folder / "rotate.blif"))
    for name, told, status in (("rotate", "limit output 1: more than 100000 nodes\n", 6), ("new", "same\n", 0)):
        (folder / "n.v").write_text(nclc("compile", folder / f"{name}.blif"))
        same(nclc("match", folder / "n.v", folder / f"{name}.blif", status=status), told)


def place_points_at_lines(folder):
    for name, wanted in [("unknown_cell.v", "16:3: netlist: unknown cell at 635"), ("forgotten_bit.v", "12:9: shape: loose at cell k2"),
                         ("orphan.v", "19:8: refused stage 1: orphan, cell co0, word 000"), ("latch.blif", "8:1: blif: unsupported in line 8")]:
        answer = nclc("check" if name.endswith(".v") else "compile", EXAMPLES / name, status=1 if name == "orphan.v" else 3)
        same(tool("place", EXAMPLES / name, given=answer), f"{EXAMPLES / name}:{wanted}\n")
    text = folder / "odd.v"
    text.write_text("module m(a,z); // g\r\n input [1:0] a;\n output z;\n /* TH22 g( */ TH22 \\g+ (.A(a[0]),\n .B(a[1]),.Z(z)); TH12 g (.A(q),.B(z),.Z(y));\nendmodule\n")
    for answer, wanted in [("netlist: no driver of q", "5:30"), ("netlist: no driver of a[1]", "5:5"), ("shape: loose at cell g+", "4:21"),
                           ("shape: loose at cell g", "5:24"), ("netlist: syntax at %d" % text.read_bytes().index(b"endmodule"), "6:1")]:
        found = tool("place", text, given=answer)
        assert found.startswith(f"{text}:{wanted}: "), (found, wanted)
    tool("place", text, given="shape: no chain, rule 5\n", status=1)
    refuses("place", status=2)


def place_knows_what_answers_count(folder):
    """Bits, outputs, stages and rules lead to a cell of the netlist, and models to their line."""
    text, netlist = (EXAMPLES / "full_adder.v").read_text(), EXAMPLES / "full_adder.v"
    cell_at = lambda name: next((k, line.index(f" {name} ") + 2) for k, line in enumerate(text.split("\n"), 1) if f" {name} (" in line)
    register = {(bank, bit): re.search(rf"TH22N (\w+) .*\.Z *\({net}\)", text)[1] for (bank, bit), net in {(1, 2): "p2_1", (2, 1): "z1_1", (2, 2): "z2_1"}.items()}
    for answer, cell in [("refused stage 1: both rails, output 2, word 000", register[2, 2]), ("refused stage 1: no rail, output 1, word 000", register[2, 1]),
                         ("refused stage 1: incomplete, bit 2, word 000", register[1, 2]), ("differ at word 000, output 2", register[2, 2]),
                         ("limit output 1: more than 5 nodes", register[2, 1]), ("limit stage 1: more than 5 nodes", "co0")]:
        same(tool("place", netlist, given=answer), "{}:{}:{}: {}\n".format(netlist, *cell_at(cell), answer))
    same(tool("place", netlist, given="refused stage 7: no rail, output 1, word 000", status=1)[-4:], "000\n")
    models = folder / "m.blif"
    models.write_text("# .model no\n.model a\n.inputs a\n.outputs a\n.end\n .model b\n.inputs a b\n.outputs a\n")
    same(tool("place", models, given="blif: width of model 2"), f"{models}:6:2: blif: width of model 2\n")
    for name in ("exercise_7.v", "neighbours_held.v"):
        answer = nclc("check", EXAMPLES / name, status=3)
        assert tool("place", EXAMPLES / name, given=answer).split(":")[1] != "1", answer


def place_takes_escaped_names_and_passes_over_comments(folder):
    text = folder / "odd.v"
    text.write_text("// TH22 k2 (.A(x)\nmodule k2(a, z);\n(* TH22 k2 (.A(q) *) /* \\g,1 (.A( */ input a; output z;\n"
                    "  \\TH23 \\g,1 (.\\A (a), .B(a), .C(a), .Z(q));\n  TH12 k2 ( .A(q), .B(\\r[1] ), .Z(z));\nendmodule\n")
    for answer, wanted in [("refused stage 1: orphan, cell g,1, word 000", "4:9"), ("hazard at 6: cell g,1, after 19 steps, delivered 1 of 3", "4:9"), ("shape: loose at cell k2", "5:8"),
                           ("netlist: two cells g,1", "4:9"), ("netlist: no driver of r[1]", "5:23"), ("netlist: no driver of q", "4:41"), ("lost: cell g,1", "4:9")]:
        same(tool("place", text, given=answer), f"{text}:{wanted}: {answer}\n")
    for text, given in (("", "shape: loose at cell k2"), ("\0\xff", "netlist: two cells k"), ("(" * 1000000, "shape: no chain, rule 5")):
        (folder / "bad.v").write_text(text)
        same(tool("place", folder / "bad.v", given=given, status=1), f"{folder}/bad.v:1:1: {given}\n")


def banks_tell_the_rule_of_shape(folder):
    count, wrong = 0, []
    for netlist in sorted((*EXAMPLES.glob("*.v"), *(TOP / "crates/runs/data").glob("*.v"))):
        check = subprocess.run([PROGRAM[0], "check", netlist], capture_output=True, text=True).stdout
        if check.startswith(("shape: ", "accepted", "refused")):
            count += 1
            told = shape.fault(shape.Shape(netlist.read_text("latin-1")))
            wrong += [] if (told[0] if told else "") == (check.strip() if check.startswith("shape: ") else "") else [(netlist.name, check, told)]
    same(wrong, [])
    assert count > 150, count
    for name, last in (("forgotten_bit", "shape: loose at cell k2"), ("orphan", "no rule of shape is broken")):
        same(tool("banks", EXAMPLES / f"{name}.v").splitlines()[-1], last)
    same(refuses("banks", EXAMPLES / "unknown_cell.v").partition(":")[0], "banks")
    refuses("banks", EXAMPLES / "absent.v")
    refuses("banks", status=2)


def banks_tell_who_requests(folder):
    found = tool("banks", EXAMPLES / "exercise_7.v").splitlines()
    same([line.partition(": ")[2] for line in found if line.startswith("bank ")],
         ["request c3, driven by TH12B zk1, completion of bank 3", "request c2, driven by TH12B qk1, completion of bank 2", "request ki, driven by an input port"])
    same(found[-1], "shape: no chain, rule 5")
    same([line.strip() for line in found if "root" in line], ["root: ko (output port)", "root: c2 (requests bank 2)", "root: c3 (requests bank 1)"])


@needing("vim")
def place_in_vim(folder):
    netlist = EXAMPLES / "unknown_cell.v"
    (folder / "rc.vim").write_text(f"set errorformat=%f:%l:%c:\\ %m\ncexpr system('{PROGRAM[0]} check {netlist} | {TOOLS}/place {netlist}')\n"
                                   f"call writefile([line('.') . ' ' . col('.') . ' ' . getqflist()[0].text], '{folder}/found')\nqall!\n")
    ran(["vim", "-es", "-u", "NONE", "-S", folder / "rc.vim", netlist])
    same((folder / "found").read_text(), "16 3 netlist: unknown cell at 635\n")


def with_an_orphan(netlist, chance):
    """The netlist with a gate that nobody reads, on two nets of one stage."""
    nets = re.findall(r"\.Z\((s001n\w+|w001b\w+)\)", netlist)
    first, second = chance.sample(nets, 2)
    return netlist.replace("endmodule", f"TH22 unread(.A({first}),.B({second}),.Z(nobody));\nendmodule")


def orphans(folder, count):
    """Netlists with an orphan of which `check` tells a run: the files of netlist and run."""
    chance = random.Random(7)
    for name in ("add8", "multiplier4", "three_stages", "exercise_6"):
        compiled = nclc("compile", EXAMPLES / f"{name}.blif")
        for number in range(count):
            netlist, why = folder / f"{name}_{number}.v", folder / f"{name}_{number}.why"
            netlist.write_text(with_an_orphan(compiled, chance))
            told = subprocess.run([PROGRAM[0], "check", netlist, "--why"], capture_output=True, text=True)
            why.write_text(told.stdout)
            if "\nlost: " in told.stdout:
                yield netlist, why


def cone_shows_what_the_orphan_reads(folder):
    (folder / "why").write_text(nclc("check", EXAMPLES / "orphan.v", "--why", status=1))
    found = tool("cone", EXAMPLES / "orphan.v", folder / "why").splitlines()
    same([line.split(":")[0] for line in found[1:]], ["step 4", "step 5", "step 6", "step 17", "step 18", "lost"])
    same(found[-1], "lost: cell co0 (TH23): m0 was to rise; A p1_0 low, B p2_0 low, C p3_0 high")
    refuses("cone", EXAMPLES / "and.v", folder / "why")
    refuses("cone", folder / "why", folder / "why")
    lengths = [(why.read_text().count("\n"), tool("cone", netlist, why).count("\n")) for netlist, why in orphans(folder, 4)]
    assert lengths and all(short < whole for whole, short in lengths), lengths


def why_delays_bring_the_hazard(folder):
    count = 0
    for netlist, why in orphans(folder, 14):
        tool("why_delays", netlist, why, folder / "run")
        told = subprocess.run([PROGRAM[0], "sim", netlist, "--delays", folder / "run.delays", "--words", folder / "run.words"], capture_output=True, text=True)
        lost = why.read_text().splitlines()[-1].removeprefix("lost: ")
        assert told.returncode == 1 and re.search(rf"^hazard at \d+: {lost}, ", told.stdout, re.M), (netlist.read_text(), lost, told.stdout)
        count += 1
    assert count > 20, count
    refuses("why_delays", EXAMPLES / "and.v", EXAMPLES / "and.v", folder / "run")


@needing("berkeley-abc")
def second_opinion_is_that_of_match(folder):
    for blif in sorted(EXAMPLES.glob("*.blif")):
        told = subprocess.run([PROGRAM[0], "compile", blif], capture_output=True, text=True)
        if told.returncode == 0:
            (folder / "n.v").write_text(told.stdout)
            same(tool("second_opinion", folder / "n.v", blif), "same\n")
    for number in range(1, 11):
        for name in ("exercise", "solution"):
            netlist, blif = EXAMPLES / f"{name}_{number}.v", EXAMPLES / f"exercise_{number}.blif"
            match = subprocess.run([PROGRAM[0], "match", netlist, blif], capture_output=True, text=True) if blif.exists() else None
            if match and match.returncode < 2:
                same(tool("second_opinion", netlist, blif, status=match.returncode).split()[0].strip(","), match.stdout.split()[0])
    refuses("second_opinion", EXAMPLES / "and.v", EXAMPLES / "latch.blif", status=3)
    same(tool("second_opinion", EXAMPLES / "and.v", EXAMPLES / "full_adder.blif", status=1), "widths differ: netlist 2 to 1, blif 3 to 2\n")


def second_opinion_has_statuses_of_its_own(folder):
    undriven, netlist = folder / "undriven.blif", EXAMPLES / "and.v"
    undriven.write_text(".model m\n.inputs a b\n.outputs y\n.names a q t\n11 1\n.names t b y\n11 1\n.end\n")
    same(refuses("second_opinion", netlist, undriven, status=3), "second_opinion: blif: nothing drives q\n")
    for bad in (folder / "absent", folder, "/dev/null"):
        refuses("second_opinion", bad, EXAMPLES / "and.blif", status=3)
        refuses("second_opinion", netlist, bad, status=3)
    refuses("second_opinion", netlist, status=2)
    (folder / "python3").symlink_to(sys.executable)
    done = subprocess.run([TOOLS / "second_opinion", netlist, EXAMPLES / "and.blif"], env={"PATH": str(folder)}, capture_output=True, text=True)
    if done.returncode != 127:
        same((done.returncode, done.stdout, done.stderr), (4, "", "second_opinion: no ABC on the path: berkeley-abc, yosys-abc or abc\n"))


def second_opinion_tells_shapes_as_match_does(folder):
    count, found, blif = 0, [], EXAMPLES / "and.blif"
    for netlist in sorted((*EXAMPLES.glob("*.v"), *(TOP / "crates/runs/data").glob("*.v"))):
        match = subprocess.run([PROGRAM[0], "match", netlist, blif], capture_output=True, text=True).stdout
        if match.startswith("shape: "):
            count += 1
            told = refuses("second_opinion", netlist, blif, status=3)
            found += [] if told == f"second_opinion: {match}" else [(netlist.name, match, told)]
    same(found, [])
    assert count > 60, count


def order_sorts_the_bits_of_banks(folder):
    same(tool("order", EXAMPLES / "twelve_bits.v"), (EXAMPLES / "twelve_bits.v").read_text())
    text = (EXAMPLES / "twelve_bits.v").read_text()
    lines = text.split("\n")
    cells = [i for i, line in enumerate(lines) if line.startswith("TH12B")]
    for i, line in zip(cells, random.Random(2).sample([lines[i] for i in cells], len(cells))):
        lines[i] = "(* a = 1; *) " + line
    (folder / "mixed.v").write_text("\n".join(lines))
    assert nclc("match", folder / "mixed.v", EXAMPLES / "twelve_bits.blif", status=1).startswith("differ")
    for by in ("cells", "nets"):
        same(tool("order", "--by", by, folder / "mixed.v").replace("(* a = 1; *) ", "").count("TH12B"), len(cells))
        (folder / "new.v").write_text(tool("order", "--by", by, folder / "mixed.v"))
        same(nclc("match", folder / "new.v", EXAMPLES / "twelve_bits.blif"), "same\n")
    refuses("order", EXAMPLES / "exercise_7.v")
    refuses("order", "--by", "size", EXAMPLES / "and.v", status=2)


def models_are_what_the_netlist_computes(folder):
    for name in ("and", "full_adder", "multiplier", "three_stages", "held_sum", "solution_4", "solution_8", "solution_10"):
        (folder / "m.blif").write_text(tool("models", EXAMPLES / f"{name}.v"))
        same(nclc("match", EXAMPLES / f"{name}.v", folder / "m.blif"), "same\n")
        (folder / "m.v").write_text(nclc("compile", folder / "m.blif"))
        assert nclc("check", folder / "m.v").startswith("accepted")
    refuses("models", EXAMPLES / "exercise_7.v")
    refuses("models", EXAMPLES / "and.blif")


@needing("iverilog", "vvp")
def why_delays_bring_it_in_icarus(folder):
    runs = list(orphans(folder, 3))
    for name in ("orphan", "exercise_6"):
        (folder / f"{name}.why").write_text(nclc("check", EXAMPLES / f"{name}.v", "--why", status=1))
        runs.append((EXAMPLES / f"{name}.v", folder / f"{name}.why"))
    for text, why in runs:
        tool("why_delays", text, why, folder / "run")
        tools_cells.in_icarus(folder, text, folder / "run.words", folder / "run.delays")
        lost = tool("cone", text, why).splitlines()[-1].split(": ")[2].split()[0]
        dump = (folder / "run.vcd").read_text()
        code = re.search(rf"\$var \w+ 1 (\S+) {re.escape(lost)} \$end", dump)[1]
        same((text.name, re.findall(rf"^([01x]){re.escape(code)}$", dump, re.M)), (text.name, ["0"]))
