#!/usr/bin/env python3
"""Compiles random models, and asks check, match and sim of what comes of them.

Each text has one to three models of random covers, which are stages of a pipeline. What compile makes of it has to be
accepted by check, with the banks, stages and cells that it has, to be the same as the text for match, and to give at random
delays the words that the covers say, which are worked out here, without a hazard; each with its status. No netlist may have
more gates than the rows of its covers have literals and its stages twice their inputs and outputs, and --merge, which is given
every third time, may not make more of them. The texts are too small to pass a limit of nodes. Stops at the first text that does
otherwise, and leaves it in the folder of --keep; the status is then 1.
"""
import pathlib
import random
import re
import subprocess
import sys
import tempfile

sys.path.insert(0, str(pathlib.Path(__file__).resolve().parent.parent / "tools"))
from script import Parser, carry_out


def arguments():
    """The program and how many texts."""
    reader = Parser(__doc__)
    reader.add_argument("program", help="a built nclc")
    reader.add_argument("count", nargs="?", type=int, default=300, help="how many texts (300)")
    reader.add_argument("--seed", type=int, default=1, help="of the random numbers (1)")
    reader.add_argument("--words", type=int, default=12, help="how many words each is run on; 0 to run none (12)")
    reader.add_argument("--seconds", type=int, default=100, help="that a command may take (100)")
    reader.add_argument("--keep", default=".", help="the folder for a text that fails (this one)")
    return reader.parse_args()


def model(rand, number, inputs):
    """A model of so many inputs: their names, its covers as (reads, signal, bit, rows), and its outputs."""
    ins = [f"i{number}_{k}" for k in range(inputs)]
    signals, covers = list(ins), []
    small = rand.random() < 0.6
    for k in range(rand.randint(1, 16)):
        reads = rand.sample(signals, min(len(signals), rand.choice([1, 2, 2, 2, 3] if small else [2, 3, 4, 4, 5])))
        rows = {"".join(rand.choice("01-" if small else "011-") for _ in reads) for _ in range(rand.randint(0 if k else 1, 4))}
        covers.append((reads, f"n{number}_{k}", rand.choice("1110"), sorted(rows)))
        signals.append(f"n{number}_{k}")
    outs = rand.sample(signals, rand.randint(1, min(len(signals), 6)))
    return ins, covers, outs


def written(number, ins, covers, outs):
    """A model as BLIF: its outputs are covers of their own, since a signal may be two."""
    text = f".model m{number}\n.inputs {' '.join(ins)}\n.outputs {' '.join(f'o{number}_{k}' for k in range(len(outs)))}\n"
    for reads, signal, bit, rows in covers:
        text += f".names {' '.join(reads + [signal])}\n" + "".join(f"{row} {bit}\n" for row in rows)
    return text + "".join(f".names {out} o{number}_{k}\n1 1\n" for k, out in enumerate(outs)) + ".end\n"


def answer(models, word):
    """The word at the outputs of the last model."""
    for ins, covers, outs in models:
        bits = dict(zip(ins, word))
        for reads, signal, bit, rows in covers:
            found = any(all(want in ("-", bits[name]) for want, name in zip(row, reads)) for row in rows)
            bits[signal] = bit if found else "01"[bit == "0" and bool(rows)]
        word = [bits[out] for out in outs]
    return "".join(word)


def delays(rand, netlist):
    """Random delays of all cells, the source and the sink; most of them short."""
    lines = [f"cell {name} {rand.randint(1, 4)} {rand.choice([1, 2, 3, 40])}" for name in re.findall(r"^TH\w+ (\w+)\(", netlist, re.M)]
    return "\n".join(lines + [f"{end} {rand.randint(1, 9)} {rand.randint(1, 9)}" for end in ("source", "sink")]) + "\n"


class Wrong(Exception):
    """What is wrong with what is compiled."""


def asked(given, *words):
    """The lines that a command of the program prints, which has to end with status 0 and nothing on standard error."""
    try:
        done = subprocess.run([given.program, *words], capture_output=True, text=True, timeout=given.seconds)
    except subprocess.TimeoutExpired:
        raise Wrong(f"{words[0]}: more than {given.seconds} seconds") from None
    if done.returncode or done.stderr:
        raise Wrong(f"{words[0]}: status {done.returncode}, {done.stdout[:200]!r} {done.stderr[:200]!r}")
    return done.stdout.splitlines()


def most_gates(models):
    """How many gates the stages may have at most."""
    literals = sum(len(row.replace("-", "")) for _, covers, _ in models for _, _, _, rows in covers for row in rows)
    return literals + 2 * sum(len(ins) + len(outs) for ins, _, outs in models)


def compiled(given, models, blif, options):
    """The netlist of models and how many gates it has, which may not be too many."""
    made = asked(given, "compile", blif)
    gates = lambda lines: sum(line.startswith("TH") and line.split()[1].startswith("s") for line in lines)
    most, made = gates(made), asked(given, "compile", blif, *options) if options else made
    if gates(made) > most or most > most_gates(models):
        raise Wrong(f"compile: {gates(made)} gates, {most} without --merge, at most {most_gates(models)}")
    return made, gates(made)


def try_models(given, rand, models, files, options):
    """Tries what is compiled of models; how many gates it has."""
    blif, netlist, times, words = files
    blif.write_text("".join(written(k, *one) for k, one in enumerate(models)))
    made, gates = compiled(given, models, blif, options)
    netlist.write_text("\n".join(made) + "\n")
    cells, told = sum(line.startswith("TH") for line in made), asked(given, "check", netlist)
    if told != [f"accepted banks={len(models) + 1} stages={len(models)} cells={cells}"]:
        raise Wrong(f"check: {told}, of {cells} cells")
    told = asked(given, "match", netlist, blif)
    if told != ["same"]:
        raise Wrong(f"match: {told}")
    offered = ["".join(rand.choice("01") for _ in models[0][0]) for _ in range(given.words)]
    words.write_text("".join(word + "\n" for word in offered))
    times.write_text(delays(rand, netlist.read_text()))
    run = asked(given, "sim", netlist, "--delays", times, "--words", words) if offered else ["quiet delivered 0 of 0"]
    quiet = run and run[-1].startswith("quiet ") and run[-1].endswith(f" delivered {len(offered)} of {len(offered)}")
    if not quiet or [line.split(": ")[-1] for line in run[:-1]] != [answer(models, word) for word in offered]:
        raise Wrong(f"sim: {run}")
    return gates


def random_models(rand):
    """One to three models, of which each has as many inputs as the one before has outputs."""
    models, width = [], rand.randint(1, 8)
    for stage in range(rand.choice([1, 1, 1, 2, 3])):
        models.append(model(rand, stage, width))
        width = len(models[-1][2])
    return models


def keep(files, folder):
    for file in files:
        if file.exists():
            pathlib.Path(folder, file.name).write_text(file.read_text())


def main():
    given, gates = arguments(), 0
    rand = random.Random(given.seed)
    with tempfile.TemporaryDirectory() as folder:
        files = [pathlib.Path(folder, name) for name in ("m.blif", "m.v", "m.delays", "m.words")]
        for number in range(given.count):
            options = ["--merge"] if number % 3 == 2 else []
            try:
                gates += try_models(given, rand, random_models(rand), files, options)
            except Wrong as wrong:
                keep(files, given.keep)
                print(f"text {number} of seed {given.seed} {options}: {wrong}")
                return 1
    print(f"{given.count} texts of seed {given.seed}, {gates} gates: none disagrees")
    return 0


if __name__ == "__main__":
    carry_out("random_compile", main)
