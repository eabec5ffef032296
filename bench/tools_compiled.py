"""Tests of the scripts of tools/ on an adder of eight bits as `compile` writes it. `bench/tools.py` runs them."""
import random
import re

from tools_help import EXAMPLES, compiled, needing, nclc, ran, same, tool


def file_of(folder, text=None):
    """The compiled adder, or a text made of it, as a file."""
    (folder / "adder.v").write_text(text or compiled("add8"))
    return folder / "adder.v"


def shuffled(text):
    """A netlist with the acknowledge cells of its first bank in any order."""
    lines = text.split("\n")
    places = [i for i, line in enumerate(lines) if re.match(r"TH12B \S*b001c", line)]
    for place, line in zip(places, random.Random(3).sample([lines[i] for i in places], len(places))):
        lines[place] = line
    return "\n".join(lines)


def order_keeps_what_compile_wrote(folder):
    for name in ("add8", "add16_in_turn"):
        text = compiled(name)
        for by in ("cells", "nets"):
            same(tool("order", "--by", by, file_of(folder, text)), text)
            same(tool("order", "--by", by, file_of(folder, shuffled(text))), text)
    assert "TH22N b001c00000z(" in text and "TH22N b001c000010(" in text
    (folder / "ordered.v").write_text(tool("order", file_of(folder, shuffled(compiled("add8")))))
    same(nclc("match", folder / "ordered.v", EXAMPLES / "add8.blif"), "same\n")


def order_counts_names_in_a_hierarchy(folder):
    text = re.sub(r"\b([bs]\d{3}[cn]\w{6})\b", r"\\adder.\1 ", compiled("add8"))
    same(tool("order", file_of(folder, shuffled(text))), text)


def models_of_what_compile_wrote(folder):
    (folder / "m.blif").write_text(tool("models", file_of(folder)))
    same(nclc("match", folder / "adder.v", folder / "m.blif"), "same\n")


def place_finds_the_cells_that_compile_wrote(folder):
    text = compiled("add8")
    for cell in ("b001c00000z", "b001c000010", "s001c000000"):
        line = next(i for i, line in enumerate(text.split("\n"), 1) if f" {cell}(" in line)
        answer = f"refused stage 1: orphan, cell {cell}, word 0000000000000000"
        column = text.split("\n")[line - 1].index(cell) + 1
        same(tool("place", file_of(folder), given=answer), f"{folder}/adder.v:{line}:{column}: {answer}\n")


def banks_of_what_compile_wrote(folder):
    found = tool("banks", file_of(folder)).splitlines()
    same([line.partition(": ")[2] for line in found if line.startswith("bank ")],
         ["request a002, driven by TH44 b002c00000t, completion of bank 2", "request ki, driven by an input port"])
    assert "    completion: 16 acknowledge cells and 5 gates: b001c00000w, " in "\n".join(found), found
    same(found[-1], "no rule of shape is broken")


def sdf_delays_for_what_compile_wrote(folder):
    cells = re.findall(r"^(TH\w+) (\w+)\(", compiled("add8"), re.M)
    paths = [f'(CELL (CELLTYPE "{kind}") (INSTANCE {name}) (DELAY (ABSOLUTE (IOPATH A Z (0.0{k % 7 + 1}) (0.02)))))'
             for k, (kind, name) in enumerate(cells)]
    (folder / "x.sdf").write_text('(DELAYFILE (SDFVERSION "3.0") (TIMESCALE 1ns)\n' + "\n".join(paths) + ")\n")
    (folder / "x.delays").write_text(tool("sdf_delays", "--unit", "10ps", folder / "x.sdf"))
    (folder / "x.words").write_text("1" * 16 + "\n")
    told = nclc("sim", file_of(folder), "--delays", folder / "x.delays", "--words", folder / "x.words")
    same([told.splitlines()[0].split(": ")[1], told.splitlines()[1].split()[0]], ["011111111", "quiet"])


@needing("dot")
def show_draws_what_compile_wrote(folder):
    page = tool("show", file_of(folder))
    same(len(set(re.findall(r'class="c" data-c="(\d+)"', page))), len(re.findall(r"^TH", compiled("add8"), re.M)))
