"""Tests of prepare. `bench/tools.py` runs them."""
import os
import pathlib
import re
import subprocess

from tools_help import EXAMPLES, PROGRAM, TOOLS, nclc, needing, ran, refuses, same
from blif import logical_lines
from headers import pieces

ROTATE = "module m (input [7:0] d, input [2:0] by, output [7:0] q); assign q = d << by | d >> (8 - by); endmodule\n"
COUNTS = r"(\d+) gates, (\d+) transistors, (\d+) deep"
TWO = ".model m\n.inputs a b\n.outputs y z\n.names a b y\n10 1\n01 1\n.names a b z\n11 1\n.end\n"
WIRES = ".model m\n.inputs a b\n.outputs y z\n.names a y\n1 1\n.names b z\n1 1\n.end\n"
REMARKS = ("# before\n\n.inputs a \\\n b # two\n.outputs z\n.names a b z\n11 1\n.end\n# between\n"
           ".model twice\n.inputs a\n.outputs n\n.names a n\n0 1 # not")


def numbers(words):
    return [int(word) for word in words if word]


def prepared(folder, blif, *options):
    """What prepare writes and tells, and the gates, transistors and depths of each model before and after, as it tells them."""
    words = [TOOLS / "prepare", "--nclc", PROGRAM[0], "--rounds", 1, *options, blif]
    done = subprocess.run([str(word) for word in words], capture_output=True, text=True, timeout=300)
    assert done.returncode == 0, done.stderr[-300:]
    (folder / "new.blif").write_text(done.stdout)
    (folder / "new.v").write_text(nclc("compile", folder / "new.blif"))
    same((blif.name, nclc("match", folder / "new.v", blif)), (blif.name, "same\n"))
    told = re.findall(rf"^prepare: model \d+: {COUNTS}; kept: (?:{COUNTS}; )?", done.stderr, re.M)
    before, after = [numbers(row[:3]) for row in told], [numbers(row[3:]) or numbers(row[:3]) for row in told]
    return done.stdout, done.stderr, before, after


@needing("berkeley-abc", "yosys")
def prepare_keeps_the_least_of_each_model(folder):
    """A rotation loses gates; two models are prepared each by itself, with their ends as they were; the jobs change nothing."""
    (folder / "rotate.v").write_text(ROTATE)
    ran(["yosys", "-q", "-p", "read_verilog rotate.v; synth -flatten; abc -g AND,XOR; opt_clean -purge; write_blif rotate.blif"], folder=folder)
    for blif, most in ((folder / "rotate.blif", 0.6), (EXAMPLES / "multiplier4.blif", 0.99), (EXAMPLES / "add8.blif", 1)):
        text, told, before, after = prepared(folder, blif, "--all")
        assert sum(row[0] for row in after) <= most * sum(row[0] for row in before) and ": yosys: " in told, (blif.name, before, after)
        assert all(new <= old for new, old in zip(after, before)) and before, (blif.name, before, after)
        tried = [numbers(row) for row in re.findall(rf"model 1: tried, {COUNTS}", told)]
        same(after[0], min([before[0], *tried]))
        heads = lambda given: [line.split() for line, _ in logical_lines(given) if line.split()[:1] in ([".model"], [".inputs"], [".outputs"])]
        same(heads(text), heads(blif.read_text()))
        same(prepared(folder, blif, "--jobs", 1)[0], text)
    cells = nclc("compile", folder / "new.blif").count("\nTH")
    same(cells, nclc("compile", blif).count("\nTH") + sum(row[0] for row in after) - sum(row[0] for row in before))


@needing("berkeley-abc")
def prepare_leaves_what_is_best(folder):
    """What isn't bettered comes out byte by byte, with remarks, continued lines and all, also beside a model that is."""
    (folder / "remarks.blif").write_text(REMARKS)
    for blif in (EXAMPLES / "full_adder.blif", EXAMPLES / "three_stages.blif", folder / "remarks.blif"):
        text = blif.read_text()
        same("".join(pieces(text)), text)
        same(prepared(folder, blif)[0], text)
    blif = EXAMPLES / "multiplier4.blif"
    text, _, before, after = prepared(folder, blif)
    same([new == old for new, old in zip(after, before)], [False, True])
    same(pieces(text)[1], pieces(blif.read_text())[1])


@needing("berkeley-abc")
def prepare_keeps_bounds(folder):
    """With each depth that something tried has, the best that is no deeper is kept; and of all the fewest transistors."""
    blif = folder / "products.blif"
    blif.write_text(pieces((EXAMPLES / "multiplier4.blif").read_text())[0])
    _, told, before, after = prepared(folder, blif, "--transistors", "--all")
    tried = [numbers(row) for row in re.findall(rf"tried, {COUNTS}", told)] + before
    same(after[0][1], min(area for _, area, _ in tried))
    depths = sorted({depth for _, _, depth in tried})
    kept = [prepared(folder, blif, "--depth", depth, "--limit", 1000)[3][0] for depth in depths]
    same(kept, [min(row for row in tried if row[2] <= depth) for depth in depths])
    assert kept[0][0] > kept[-1][0], kept
    words = [TOOLS / "prepare", "--nclc", PROGRAM[0], "--rounds", "1", "--limit", "3", EXAMPLES / "add8.blif"]
    done = subprocess.run(words, capture_output=True, text=True)
    assert (done.returncode, done.stdout) == (1, "") and "model 1: nothing that was tried is within the bounds" in done.stderr, done


@needing("berkeley-abc")
def prepare_passes_over_what_fails(folder):
    """An ABC that never ends, one that writes nothing and one that writes another function: each is told, and the text stays."""
    for name, body, told in (("slow", "sleep 50 & echo $! > $(dirname $0)/pid; wait", "no end in 1 seconds"), ("none", "exit 1", "no model comes of it"),
                             ("wrong", f"printf '{WIRES}' > new.blif", "not found equal"),
                             ("ends", f"printf '{WIRES.replace('y z', 'z y')}' > new.blif", "other inputs or outputs")):
        home, blif = folder / name, folder / f"{name}.blif"
        home.mkdir()
        (home / "berkeley-abc").write_text("#!/bin/sh\n" + body.replace("\n", "\\n") + "\n")
        (home / "berkeley-abc").chmod(0o755)
        blif.write_text(TWO)
        done = subprocess.run([TOOLS / "prepare", "--nclc", PROGRAM[0], "--seconds", "1", blif], capture_output=True, text=True,
                              env={**os.environ, "PATH": f"{home}:{os.environ['PATH']}"}, timeout=60)
        same((done.returncode, done.stdout), (0, TWO))
        assert f"prepare: model 1: passed over, {told}: abc: " in done.stderr, (name, done.stderr)
    below = pathlib.Path("/proc", (folder / "slow/pid").read_text().strip(), "stat")
    assert not below.exists() or " Z " in below.read_text(), "what a script started goes on behind it"


@needing("berkeley-abc")
def prepare_refuses_in_one_line(folder):
    file = folder / "bad.blif"
    for text in ("", "\x7fELF\0\xff", (EXAMPLES / "latch.blif").read_text(), ".model m\n.inputs a\n.outputs z\n", "." * 17000000):
        file.write_text(text, "latin-1")
        assert "blif: " in refuses("prepare", "--nclc", PROGRAM[0], file), text[:40]
    refuses("prepare", "--nclc", folder / "absent", EXAMPLES / "and.blif")
    refuses("prepare", "--nclc", PROGRAM[0], folder / "absent")
    for words in (["--depth", "x"], ["--jobs", "0"], ["--seconds", "0"], ["--limit", "-1"]):
        refuses("prepare", "--nclc", PROGRAM[0], *words, EXAMPLES / "and.blif", status=2)
    refuses("prepare", status=2)
