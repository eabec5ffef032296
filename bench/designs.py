#!/usr/bin/env python3
"""Writes designs as BLIF, in the forms that Yosys and ABC make of them: the texts behind the tables of the pages.

    bench/designs.py FOLDER [--form NAME ..] [--design NAME ..]

The designs are the modules of bench/designs/designs.v. There are larger ones, which have the form yosys-pairs alone: the stages
of examples/aes_column.v, SubBytes of 128 bits, which is made of them, and two products; and a rotation of 32 bits, which has the
forms of Yosys. Each goes to FOLDER/DESIGN.FORM.blif,
where it doesn't stand there yet. yosys and berkeley-abc have to be on the path. The forms are

    yosys-plain   the operators as they are, mapped to gates          abc-aig      ABC, a network of ANDs
    yosys-gates   Yosys' own gates                                    abc-pairs    ABC, nodes of two inputs
    yosys-pairs   nodes of two inputs                                 abc-tables   ABC, tables of up to four inputs
    yosys-tables  tables of up to four inputs                         abc-covers   ABC, covers of up to eight inputs
                                                                      abc-outputs  ABC, one cover for each output
The last is of designs of at most twelve inputs alone.
"""
import pathlib
import re
import shutil
import subprocess
import sys
import tempfile

HERE = pathlib.Path(__file__).resolve().parent
sys.path.insert(0, str(HERE.parent / "tools"))
from script import Parser, Refused, carry_out

DESIGNS = HERE / "designs/designs.v"
COLUMN, PRODUCTS = [HERE.parent / "examples/aes_column.v", HERE / "designs/sub_state.v"], [HERE / "designs/products.v"]
LARGER = {"sub_bytes": COLUMN, "mix_columns": COLUMN, "mix_state": COLUMN, "sub_state": COLUMN,
          "mul8": PRODUCTS, "mul12": PRODUCTS, "rotate32": [HERE / "designs/rotate32.v"]}
PLAIN = "hierarchy -top {}; proc; flatten; opt; memory; opt; techmap; opt"
PAIRS = "synth -flatten -top {}; abc -g AND,XOR; opt_clean -purge"
YOSYS = {"yosys-plain": PLAIN, "yosys-gates": "synth -flatten -top {}", "yosys-pairs": PAIRS,
         "yosys-tables": "synth -flatten -lut 4 -top {}; opt_clean -purge"}
ABC = {"abc-aig": "dc2; strash", "abc-pairs": "dch; if -a -K 2", "abc-tables": "dch; if -K 4",
       "abc-covers": "dc2; renode -K 8; sop", "abc-outputs": "collapse; sop"}
MOST_INPUTS = 12


def modules():
    """The names of the designs, in the order of their file."""
    return re.findall(r"^module (\w+)", DESIGNS.read_text(), re.MULTILINE)


def carried_out(*words):
    """Runs a program that has to end well."""
    done = subprocess.run([str(word) for word in words], capture_output=True, text=True)
    if done.returncode:
        raise Refused(f"{words[0]}: {(done.stdout + done.stderr).strip()[-200:]}")


def width(blif):
    """How many inputs the first model of a text has."""
    text = blif.read_text().replace("\\\n", " ")
    return len(re.search(r"^\.inputs(.*)$", text, re.MULTILINE)[1].split())


def written(design, form, folder):
    """The text of a design in a form, or None where it has none; what it is made of is written too."""
    file = folder / f"{design}.{form}.blif"
    if design in LARGER and form not in (YOSYS if design == "rotate32" else ["yosys-pairs"]):
        return None
    if form in ABC:
        plain = written(design, "yosys-plain", folder)
        if form == "abc-outputs" and width(plain) > MOST_INPUTS:
            return None
    if file.exists():
        return file
    with tempfile.TemporaryDirectory() as made:
        part = pathlib.Path(made, "made.blif")
        if form in ABC:
            carried_out("berkeley-abc", "-q", f"read_blif {plain}; strash; {ABC[form]}; write_blif {part}")
        else:
            sources = " ".join(map(str, LARGER.get(design, [DESIGNS])))
            carried_out("yosys", "-q", "-p", f"read_verilog {sources}; {YOSYS[form].format(design)}; write_blif {part}")
        shutil.move(part, file)
    return file


def main():
    parser = Parser(__doc__)
    parser.add_argument("folder", metavar="FOLDER", type=pathlib.Path)
    parser.add_argument("--form", metavar="NAME", nargs="*", choices=[*YOSYS, *ABC], default=[*YOSYS, *ABC])
    parser.add_argument("--design", metavar="NAME", nargs="*", choices=[*modules(), *LARGER], default=[*modules(), *LARGER])
    words = parser.parse_args()
    if lacks := [name for name in ("yosys", "berkeley-abc") if shutil.which(name) is None]:
        raise Refused(f"not on the path: {', '.join(lacks)}")
    words.folder.mkdir(parents=True, exist_ok=True)
    made = [written(design, form, words.folder.resolve()) for design in words.design for form in words.form]
    print(f"{sum(file is not None for file in made)} texts in {words.folder}")
    return 0


if __name__ == "__main__":
    carry_out("designs", main)
