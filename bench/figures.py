#!/usr/bin/env python3
"""Writes the counts in the tables of docs/: cells, gates, nodes, and requests for memory.

    bench/figures.py PROGRAM [--runs FILE] [--write] [--forms FOLDER] [TABLE ..]

PROGRAM is the built nclc, and FILE the built program `runs`, which merges a netlist by the library, if it isn't where the gate
leaves it; yosys, berkeley-abc and cc have to be on the path. Each table has a name, and its rows and columns are
those of the page: what is counted of a row stands in its columns here, and cells of other columns, as seconds are, stay as they
are. Without --write the pages are compared, each cell that differs is printed, and the status is 1 where one does. The texts of
the designs (`designs.py`) are made in FOLDER, and stay there for another time. Without names all tables are taken.
"""
import pathlib
import random
import re
import shutil
import subprocess
import sys
import tempfile
import zlib

HERE = pathlib.Path(__file__).resolve().parent
TOP = HERE.parent
sys.path[:0] = [str(HERE), str(TOP / "tools")]
import arithmetic
import compiling
import designs
import matching
import minterms
import refused_memory
import stages
from netlist import inputs_of, read_netlist
from script import Parser, Refused, carry_out

MOST_NODES = 1_000_000
WORDS = 200


class Bench:
    """The programs, and the folder in which texts and netlists are made."""

    def __init__(self, program, runs, folder, forms):
        self.program, self.runs, self.folder, self.forms = program, runs, folder, forms
        self.made = {}

    def run(self, *words):
        """The status and the text of a run."""
        done = subprocess.run([self.program, *map(str, words)], cwd=self.folder, capture_output=True, text=True)
        return done.returncode, done.stdout

    def compiled(self, name, text, *flags):
        """The netlist of a BLIF text, as a file and as text, or None where it is refused."""
        key = (name, *flags)
        if key not in self.made:
            blif, netlist = self.folder / f"{name}.blif", self.folder / f"{'.'.join(key)}.v"
            blif.write_text(text)
            status, told = self.run("compile", blif, *flags)
            netlist.write_text(told)
            self.made[key] = (blif, netlist, told) if status == 0 else None
        return self.made[key]

    def merged(self, text):
        """The netlist of a text as the library merges it: the program `runs` does so with files of its folder, and with this one
        first."""
        with tempfile.TemporaryDirectory() as folder:
            examples = pathlib.Path(folder, "examples")
            examples.mkdir()
            for name in ("full_adder.blif", "unit.delays", "three_bits.words"):
                shutil.copy(TOP / "examples" / name, examples)
            for file in (TOP / "crates/runs/data").glob("*.v"):
                shutil.copy(file, folder)
            (examples / "and_of_minterms.v").write_text(text)
            for place in (examples, pathlib.Path(folder)):
                (place / "commands").write_text("")
            done = subprocess.run([self.runs], cwd=folder, capture_output=True, text=True)
        if done.returncode:
            raise Refused(f"{self.runs}: {done.stderr.strip() or done.returncode}")
        begin = done.stdout.index("module ")
        return done.stdout[begin:done.stdout.index("endmodule\n", begin) + len("endmodule\n")]

    def of_form(self, design, form, *flags):
        """The netlist of a design in a form, or None where it has none."""
        blif = designs.written(design, form, self.forms)
        return blif and self.compiled(f"{design}.{form}", blif.read_text(), *flags)

    def least(self, accepts, guess):
        """The least number of nodes with which something is accepted; a guess saves runs where it is right or near."""
        low, high, step = 1, MOST_NODES, 64
        if guess and accepts(guess):
            if not accepts(guess - 1):
                return guess
            high = guess - 1
        while low < high and not accepts(min(low + step, high)):
            low, step = low + step + 1, 2 * step
        high = min(low + step, high)
        while low < high:
            middle = (low + high) // 2
            low, high = (low, middle) if accepts(middle) else (middle + 1, high)
        return low

    def checked(self, netlist, guess=0):
        """The least limit with which `check` accepts a netlist."""
        return self.least(lambda nodes: nodes and self.run("check", netlist, "--limit", nodes)[0] == 0, guess)

    def matched(self, netlist, blif, guess=0):
        """The least limit with which `match` says that the two are the same."""
        return self.least(lambda nodes: nodes and self.run("match", netlist, blif, "--limit", nodes)[0] == 0, guess)


def areas():
    """The transistors of each cell, as examples/cells.lib guides."""
    cells = re.findall(r"cell \((\w+)\)\s*\{.*?area : (\d+)", (TOP / "examples/cells.lib").read_text(), re.DOTALL)
    return {name: int(area) for name, area in cells}


def counts(text):
    """Of a netlist that `compile` wrote: its cells, and the gates of its stages, their pins, the gates on the longest ways
    through the stages, added up and of the longest, and their transistors."""
    cells, area = read_netlist(text)[3], areas()
    gates = [(kind, pins, int(name[1:4])) for kind, name, pins in cells if name[0] == "s"]
    depth, ways = {}, {}
    for kind, pins, stage in gates:
        reads = [pins[pin] for pin in inputs_of(kind)]
        depth[pins["Z"]] = 1 + max(depth.get(net, 0) for net in reads)
        ways[stage] = max(ways.get(stage, 0), depth[pins["Z"]])
    return {"cells": len(cells), "gates": len(gates), "pins": sum(len(inputs_of(kind)) for kind, _, _ in gates),
            "depth": sum(ways.values()), "longest": max(ways.values(), default=0),
            "transistors": sum(area[kind] for kind, _, _ in gates), "all transistors": sum(area[kind] for kind, _, _ in cells),
            "in registers": sum(area[kind] for kind, _, _ in cells if kind in ("TH22N", "TH22D"))}


def cycle(bench, netlist):
    """The mean time from a word to the next, of random words at delays of 1."""
    bits = len([name for name in read_netlist(netlist.read_text())[1] if re.fullmatch(r"i\d+_1", name)])
    chance, words = random.Random(1), bench.folder / "of_a_cycle.words"
    words.write_text("".join(f"{chance.getrandbits(bits):0{bits}b}\n" for _ in range(WORDS)))
    (bench.folder / "unit.delays").write_text("default 1 1\n")
    status, told = bench.run("sim", netlist, "--delays", "unit.delays", "--words", words)
    times = [int(time) for time in re.findall(r"^word \d+ at (\d+):", told, re.MULTILINE)]
    if status or len(times) != WORDS:
        raise Refused(f"{netlist.name}: a run that isn't quiet")
    return (times[-1] - times[0]) / (WORDS - 1)


def netlists_of(bench, form, *flags):
    """The netlists of all designs that a form has and `compile` takes."""
    found = [bench.of_form(design, form, *flags) for design in designs.modules()]
    return [made for made in found if made]


def made_of(bench, what):
    """The BLIF, the netlist and its text of a text of BLIF, or of a design with its form."""
    if isinstance(what, tuple):
        return bench.of_form(*what)
    return bench.compiled(f"made{zlib.crc32(what.encode()):x}", what)


def guessed(cells, column):
    """The number that the page has in a column, or 0."""
    digits = cells[column].replace(",", "") if column < len(cells) else ""
    return int(digits) if digits.isdigit() else 0


def form_row(bench, form, _):
    """What the stages of all designs in a form come to; each has to be accepted."""
    all_of = netlists_of(bench, form)
    sums = [counts(text) for _, _, text in all_of]
    for _, netlist, _ in all_of:
        if bench.run("check", netlist)[0]:
            raise Refused(f"{netlist.name}: not accepted")
    merged = sum(counts(text)["gates"] for _, _, text in netlists_of(bench, form, "--merge"))
    total = lambda what: sum(each[what] for each in sums)
    times = sum(cycle(bench, netlist) for _, netlist, _ in all_of)
    return [len(sums), total("gates"), merged, total("pins"), total("depth"), total("transistors"), round(times)]


def script_row(bench, form, _):
    """The gates of the designs in a form, and those on their longest ways."""
    sums = [counts(text) for _, _, text in netlists_of(bench, form)]
    return [sum(each["gates"] for each in sums), sum(each["depth"] for each in sums)]


def ripple_row(bench, bits, page):
    """A full adder for each bit, with a carry in."""
    _, netlist, text = made_of(bench, stages.adder(bits))
    told = counts(text)
    return [told["gates"], told["transistors"], told["longest"], round(cycle(bench, netlist)), bench.checked(netlist, guessed(page, 5))]


def size_row(bench, what, _):
    """The cells of what models compile to, and the gates on the longest way through a stage."""
    told = counts(made_of(bench, what)[2])
    return [told["cells"], told["longest"]]


def check_row(bench, what, page):
    """The cells, and the least limit with which `check` accepts them."""
    _, netlist, text = made_of(bench, what)
    return [counts(text)["cells"], bench.checked(netlist, guessed(page, 2))]


def match_row(bench, what, page):
    """The cells of what is compared with its own models, and the least limit with which it is found the same."""
    blif, netlist, text = made_of(bench, what)
    return [counts(text)["cells"], bench.matched(netlist, blif, guessed(page, 2))]


def after_another(text):
    """A model of stages.py with all bits of one operand before those of the next."""
    head, inputs, rest = text.split("\n", 2)
    ins = sorted(inputs.split()[1:], key=lambda name: (name[0] != "c", name[0], int(name[1:])))
    return "\n".join([head, ".inputs " + " ".join(ins), rest])


def operands_row(bench, text, page):
    """The nodes of a comparison with the bits of operands in turn, and with one operand after the other."""
    orders = [made_of(bench, text), made_of(bench, after_another(text))]
    return [bench.matched(netlist, blif, guessed(page, column)) for column, (blif, netlist, _) in enumerate(orders, 1)]


def cells_row(bench, names, _):
    """The cells of some modules as one pipeline."""
    text = "".join(designs.written(name, "yosys-pairs", bench.forms).read_text() for name in names)
    return [counts(made_of(bench, text)[2])["cells"]]


def area_row(bench, blif, _):
    """The cells and the transistors of an example, and those in register cells."""
    told = counts(made_of(bench, (TOP / "examples" / blif).read_text())[2])
    return [told["cells"], told["all transistors"], told["in registers"]]


def merged_row(bench, draw, _):
    """The gates of a netlist before and after they are merged, and those on the longest way through a stage. Both have to be
    accepted, and what is merged to compute what the stages did before."""
    texts = {"before": draw(), "after": bench.merged(draw())}
    for name, text in texts.items():
        (bench.folder / f"{name}.v").write_text(text)
        if bench.run("check", f"{name}.v")[0]:
            raise Refused(f"minterms, {name} they are merged: not accepted")
    models = subprocess.run([sys.executable, TOP / "tools/models", bench.folder / "before.v"], capture_output=True, text=True, check=True)
    (bench.folder / "before.blif").write_text(models.stdout)
    if bench.run("match", "after.v", "before.blif")[0]:
        raise Refused("minterms: another function once they are merged")
    told = {name: counts(text) for name, text in texts.items()}
    return [told[name][what] for what in ("gates", "longest") for name in texts]


def prepared(bench, design, *options):
    """The text that tools/prepare makes of the tables of a design by this program; it stays with the forms for another time."""
    file = bench.forms / f"{design}.prepared-{zlib.crc32(pathlib.Path(bench.program).read_bytes()):08x}.blif"
    if not file.exists():
        given = designs.written(design, "yosys-tables", bench.forms)
        done = subprocess.run([TOP / "tools/prepare", "--nclc", bench.program, *options, given], capture_output=True, text=True)
        if done.returncode:
            raise Refused(f"prepare, {design}: {done.stderr.strip()[-200:]}")
        file.write_text(done.stdout)
    return file


def prepared_row(bench, names, _):
    """The gates, transistors and gates on the longest ways of designs, before and after they are prepared; each is to be accepted."""
    before, after = [], []
    for design in names:
        before.append(bench.of_form(design, "yosys-tables"))
        after.append(bench.compiled(f"{design}.prepared", prepared(bench, design).read_text()))
        if bench.run("check", after[-1][1])[0]:
            raise Refused(f"{after[-1][1].name}: not accepted")
    sums = [[counts(text) for _, _, text in each] for each in (before, after)]
    return [sum(each[what] for each in told) for what in ("gates", "transistors", "depth") for told in sums]


def adder_row(bench, design, _):
    """The gates of an adder in two forms of Yosys, and those on its longest way."""
    told = [counts(bench.of_form(design, form)[2]) for form in ("yosys-pairs", "yosys-tables")]
    return [each[what] for what in ("gates", "longest") for each in told]


def rotation_row(bench, form, page):
    """The gates of a rotation of 32 bits in a form, and the least limit with which `check` accepts it."""
    if form == "prepared":
        made = bench.compiled("rotate32.prepared", prepared(bench, "rotate32", "--limit", "100000").read_text())
    elif form == "reversed":
        text = designs.written("rotate32", "yosys-tables", bench.forms).read_text()
        turned = re.sub(r"^(\.outputs)(.*)$", lambda found: " ".join([found[1], *found[2].split()[::-1]]), text, flags=re.MULTILINE)
        made = bench.compiled("rotate32.reversed", turned)
    else:
        made = bench.of_form("rotate32", form)
    accepted = bench.run("check", made[1], "--limit", MOST_NODES)[0] == 0
    return [counts(made[2])["gates"], bench.checked(made[1], guessed(page, 2)) if accepted else f"more than {MOST_NODES:,}"]


def memory_row(bench, words, _):
    """How many requests for memory a run makes, and how the runs end in which one is refused."""
    return refused_memory.ends(bench.program, words)


# The rows of each table by their names on the page, with what is to be counted.
FORMS = {
    "tables of four inputs by Yosys": "yosys-tables", "Yosys' gates": "yosys-gates", "nodes of two inputs by Yosys": "yosys-pairs",
    "the operators as they are": "yosys-plain", "an AIG by ABC": "abc-aig", "nodes of two inputs by ABC": "abc-pairs",
    "tables of four inputs by ABC": "abc-tables", "covers of up to eight inputs": "abc-covers",
    "one cover for each output": "abc-outputs"}
SCRIPTS = {
    "ABC, a network of ANDs: `strash; dc2; strash`": "abc-aig",
    "ABC, nodes of two inputs: `strash; dch; if -a -K 2`": "abc-pairs",
    "ABC, covers of up to eight inputs: `strash; dc2; renode -K 8; sop`": "abc-covers",
    "Yosys, its own gates: `synth -flatten`": "yosys-gates",
    "Yosys, nodes of two inputs: `synth -flatten; abc -g AND,XOR; opt_clean -purge`": "yosys-pairs",
    "Yosys, tables of up to four inputs: `synth -flatten -lut 4; opt_clean -purge`": "yosys-tables",
    "ABC, tables of up to four inputs: `strash; dch; if -K 4`": "abc-tables"}
SIZES = {
    "an adder of 8 bits, one stage": stages.adder(8),
    "an adder of 8 bits in eight stages, one for each bit": compiling.pipeline(8),
    "an adder of 32 bits in 32 stages": compiling.pipeline(32),
    "a multiplier of 4 bits, tables of four inputs by Yosys": ("mul4", "yosys-tables"),
    "an arithmetic unit of 8 bits, eight operations, likewise": ("alu8", "yosys-tables")}
CHECKS = {
    "an adder of 32 bits and a carry, operands in turn": stages.adder(32), "a multiplier of 6 bits": stages.multiplier(6),
    "128 wires": stages.wires(128), "three adders of 16 bits, one behind the other": stages.three(16),
    "four multipliers of 6 bits": stages.multipliers(6, 4),
    **{f"{name} of {bits} bits, one operand after the other": make(bits) for bits in (8, 16, 32)
       for name, make in (("an adder", arithmetic.adder), ("a comparison", arithmetic.comparator), ("an arithmetic unit", arithmetic.unit))},
    **{f"{name}, tables of four inputs by Yosys": (design, "yosys-tables") for name, design in (
        ("an adder of 8 bits", "add8"), ("an adder of 16 bits", "add16"), ("an adder of 32 bits", "add32"),
        ("a comparison of 16 bits", "cmp16"), ("an arithmetic unit of 8 bits", "alu8"), ("a multiplier of 4 bits", "mul4"),
        ("a multiplier of 6 bits", "mul6"), ("a priority encoder of 16 bits", "prio16"))}}
MATCHES = {name.replace("adder of", "an adder of").replace("multiplier", "a multiplier").replace("equality", "an equality")
           .replace("three adders", "three adders of 16 bits"): text for name, text in matching.DESIGNS.items()}
OPERANDS = {f"an adder of {bits} bits": stages.adder(bits) for bits in (4, 6, 8, 10)} | {"a product of 6 bits by 6": stages.multiplier(6)}
AES = {"the column, two stages": ["sub_bytes", "mix_columns"], "MixColumns of 128 bits": ["mix_state"],
       "SubBytes of 128 bits, `--limit 1000000` for `check`": ["sub_state"]}
PRODUCTS = {"a product of 8 bits by 8": ["mul8"], "a product of 12 bits by 12": ["mul12"]}
AREAS = {"a full adder": "full_adder.blif", "an adder of 8 bits": "add8.blif", "an adder of 16 bits": "add16_in_turn.blif",
         "a product of 4 bits by 4, two stages": "multiplier4.blif",
         "a half adder, an inverter and an OR, three stages": "three_stages.blif"}
PREPARED = {**{name: [name] for name in designs.modules()}, "all 22": designs.modules()}
ROTATIONS = {
    "Yosys, tables of up to four inputs": "yosys-tables", "Yosys, its own gates": "yosys-gates",
    "Yosys, nodes of two inputs": "yosys-pairs", "the tables, with the last output first and the first one last": "reversed",
    "the tables behind `prepare --limit 100000`": "prepared"}
MEMORY = dict(zip(("`check` of an AND of two bits", "the same with `--limit 5`",
                   "`check --why` of the AND beside a gate that nothing waits for", "`sim` of two banks joined by wires, two words",
                   "`sim --vcd` of them, one word", "`compile` of a XOR and an AND",
                   "`compile --merge` of an AND beside an input that nothing reads", "`match` of the AND with an OR"),
                  refused_memory.RUNS))
# Of each table the page, how its head begins, what counts a row, and its rows.
TABLES = {
    "forms": ("compiler.md", "| form | designs | gates |", form_row, FORMS),
    "ripples": ("compiler.md", "| bits | gates |", ripple_row, {str(bits): bits for bits in (1, 4, 8, 16, 32, 48)}),
    "sizes": ("compiler.md", "| models | cells |", size_row, SIZES),
    "merging": ("compiler.md", "| netlist | gates | merged |", merged_row, minterms.NETLISTS),
    "scripts": ("from-verilog.md", "| what `compile` is given |", script_row, SCRIPTS),
    "adders": ("from-verilog.md", "| adder with a carry in |", adder_row, {f"{bits} bits": f"add{bits}" for bits in (8, 16, 32)}),
    "prepared": ("from-verilog.md", "| design | gates | prepared |", prepared_row, PREPARED),
    "check": ("speed.md", "| `check` | cells | nodes |", check_row, CHECKS),
    "rotations": ("limits.md", "| a rotation of 32 bits |", rotation_row, ROTATIONS),
    "match": ("speed.md", "| `match` | cells | nodes |", match_row, MATCHES),
    "operands": ("limits.md", "| models | bits in turn |", operands_row, OPERANDS),
    "memory": ("limits.md", "| run | requests |", memory_row, MEMORY),
    "aes": ("aes.md", "| what | cells |", cells_row, AES),
    "products": ("second-opinion.md", "| netlist and BLIF | cells |", cells_row, PRODUCTS),
    "areas": ("libraries.md", "| netlist | cells | transistors |", area_row, AREAS),
}


def cells_of(line):
    """The cells of a line of a table."""
    return [cell.strip() for cell in line.strip()[1:-1].split("|")]


def counted(bench, row, count, what):
    """The line of a table with what is counted in its first columns behind the name."""
    cells = cells_of(row)
    for column, value in enumerate(count(bench, what, cells), 1):
        cells[column] = value if isinstance(value, str) else f"{value:,}"
    return "|" + "".join(f" {cell} |" if cell else " |" for cell in cells)


def table_of(bench, name, write):
    """How many rows of a table differ from what is counted; each is printed, or with `write` put into the page."""
    file, head, count, rows = TABLES[name]
    page = TOP / "docs" / file
    lines = page.read_text().split("\n")
    starts = [place for place, line in enumerate(lines) if line.startswith(head)]
    if len(starts) != 1:
        raise Refused(f"{file}: {len(starts)} tables begin with {head}")
    body = range(starts[0] + 2, next(place for place in range(starts[0], len(lines)) if not lines[place].startswith("|")))
    by_name, differ = {cells_of(lines[place])[0]: place for place in body}, 0
    for row in rows.keys() - by_name.keys():
        raise Refused(f"{file}: no row {row} in the table {name}")
    for row, what in rows.items():
        line, place = counted(bench, lines[by_name[row]], count, what), by_name[row]
        if line != lines[place]:
            print(f"{file}: {lines[place]}\n    {line}", flush=True)
            lines[place], differ = line, differ + 1
    if write and differ:
        page.write_text("\n".join(lines))
    return differ


def main():
    parser = Parser(__doc__)
    parser.add_argument("program", metavar="PROGRAM", type=pathlib.Path)
    parser.add_argument("--runs", metavar="FILE", type=pathlib.Path, default=TOP / "crates/runs/out/runs")
    parser.add_argument("--write", action="store_true")
    parser.add_argument("--forms", metavar="FOLDER", type=pathlib.Path)
    parser.add_argument("tables", metavar="TABLE", nargs="*")
    words = parser.parse_intermixed_args()
    for name in words.tables:
        if name not in TABLES:
            parser.error(f"no table {name}; there are {', '.join(TABLES)}")
    asked = words.tables or list(TABLES)
    needed = [str(words.program), "yosys", "berkeley-abc", "cc"] + [str(words.runs)] * ("merging" in asked)
    if lacks := [name for name in needed if shutil.which(name) is None]:
        raise Refused(f"no program {', '.join(lacks)}")
    with tempfile.TemporaryDirectory() as folder:
        forms = (words.forms or pathlib.Path(folder, "forms")).resolve()
        forms.mkdir(parents=True, exist_ok=True)
        bench = Bench(str(words.program.resolve()), str(words.runs.resolve()), pathlib.Path(folder), forms)
        differ = sum(table_of(bench, name, words.write) for name in asked)
    print(f"{differ} rows {'written' if words.write else 'differ'}")
    return 1 if differ and not words.write else 0


if __name__ == "__main__":
    carry_out("figures", main)
