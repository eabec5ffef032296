#!/usr/bin/env python3
"""Tests `show`: the pages are driven in headless Chromium, and what they show is compared with the run.

    bench/show_pages.py PROGRAM EXAMPLES

PROGRAM is the built nclc and EXAMPLES the folder of examples. The slider is moved, keys are pressed, and what is
asked for is what the browser draws: the width and the colour of wires, the rings of cells, the rows, the places of the
parts of the page. Expected values come from the dump alone, read here, and for `--why` from its lines.
"""
import html
import json
import pathlib
import re
import shutil
import subprocess
import sys
import tempfile

TOP = pathlib.Path(__file__).resolve().parent.parent
SHOW = TOP / "tools/show"
sys.path.insert(0, str(TOP / "tools"))
from script import Parser, Refused, carry_out

PROBE = """
const slider = document.getElementById("slider"), seen = {}, nets = run.nets;
const press = key => dispatchEvent(new KeyboardEvent("keydown", { key }));
const places = () => ["frame", "list", "slider", "play", "rows", "now"].map(id => { const r = document.getElementById(id).getBoundingClientRect(); return [r.x, r.y, r.width, r.height]; });
const look = () => {
  const wires = {}, cells = {};
  for (const w of document.querySelectorAll(".picture .w")) { const s = getComputedStyle(w.querySelector("path")); (wires[nets[w.dataset.n]] ??= []).push([parseFloat(s.strokeWidth) > 2 && !w.matches(".just") || w.matches(".just.high"), s.stroke, s.strokeDasharray !== "none"]); }
  for (const c of document.querySelectorAll(".picture .c")) cells[run.cells[c.dataset.c][0]] = [getComputedStyle(c.querySelector(".ring")).stroke !== "none", c.lastChild.textContent, getComputedStyle(c.querySelector(".body")).fill];
  return { wires, cells, places: places(), rows: [...document.querySelectorAll("td.state")].map(s => s.textContent), now: document.getElementById("now").textContent, at: +slider.value };
};
for (const step of STEPS) { slider.value = step; slider.dispatchEvent(new Event("input")); seen[step] = look(); }
press("Home"); const keys = [+slider.value]; press("ArrowRight"); press("ArrowRight"); press("ArrowLeft"); keys.push(+slider.value); press("End"); keys.push(+slider.value);
document.getElementById("probe").textContent = JSON.stringify({ seen, keys });
"""


RUNS = [("full_adder", "unit", "three_bits"),
        ("orphan", "slow_carry", "three_bits"),
        ("held_word", "slow_register", "one_bit"),
        ("vectors", "unit", "one_bit")]
GIVEN = []  # the program and the folder of examples, once they are known


def nclc(*args):
    return subprocess.run([GIVEN[0], *map(str, args)], capture_output=True, text=True).stdout


def values_of(dump):
    """The values of each net after each step of a dump."""
    names, states, now = dict(re.findall(r"\$var wire 1 (\S+) (\S+)", dump)), [], {}
    head, rest = dump.split("$dumpvars\n")[1].split("$end\n")
    for line in head.split():
        now[names[line[1:]]] = line[0] == "1"
    states.append(dict(now))
    for line in rest.split():
        if line[0] != "#":
            now[names[line[1:]]] = line[0] == "1"
            states.append(dict(now))
    return states


def asked(folder, page, probe):
    """What a script that is put behind a page finds, as it leaves it in the element `probe`."""
    file = folder / "page.html"
    file.write_text(page.replace("</html>", f'<pre id="probe"></pre><script>{probe}</script></html>'))
    browser = ["chromium", "--headless", "--no-sandbox", "--disable-gpu", f"--user-data-dir={folder}/profile", "--dump-dom", file.as_uri()]
    dom = subprocess.run(browser, capture_output=True, text=True, timeout=120).stdout
    return json.loads(html.unescape(re.search(r'<pre id="probe">(.*?)</pre>', dom, re.S)[1]))


def drive(folder, page, steps):
    return asked(folder, page, PROBE.replace("STEPS", json.dumps(steps)))


def ends(path):
    """Where the parts of a path end: each is a move with lines along the axes, or a curve."""
    for part in path.split("M")[1:]:
        x, y = map(float, part.replace("C", " ").replace("H", " ").replace("V", " ").replace("h", " ").split()[:2])
        for step, numbers in re.findall(r"([HVCh])([^HVCh]*)", part):
            numbers = [float(n) for n in re.findall(r"-?[\d.]+(?:e-?\d+)?", numbers)]
            x, y = (numbers[0], y) if step == "H" else (x, numbers[0]) if step == "V" else (x + numbers[0], y) if step == "h" else numbers[-2:]
        yield x, y


def missing(netlist, page):
    """The pins of cells at which no wire of their net ends, in the picture of a page."""
    drawn = re.findall(r'<g class="w \w+" data-n="\d+"><title>([^<]*)</title><path d="([^"]*)"', page)
    places = {m[4]: (float(m[1]), float(m[2])) for m in re.finditer(r'data-c="\d+" transform="translate\((\S+) (\S+)\)"><title>(\w+) ([^:]+):', page)}
    found = []
    for kind, cell, pins in re.findall(r"(TH\w+)\s+(\w+)\s*\(([^;]*)\);", netlist):
        pins = [(pin, net) for pin, net in re.findall(r"\.(\w+)\s*\(([^)]*)\)", pins) if pin not in ("Z", "RST")]
        for i, (pin, net) in enumerate(reversed(pins) if kind == "TH12B" else pins):
            x, y = places[cell]
            at = y + (i - (len(pins) - 1) / 2) * 12
            if not any(abs(abs(ex - x) - 22) < 2 and abs(ey - at) < 2 for name, path in drawn if name == net for ex, ey in ends(path)):
                found.append((cell, pin))
    return found


def show(*args):
    return subprocess.run([SHOW, *map(str, args)], capture_output=True, text=True)


def check(what, holds):
    print("ok  " if holds else "FAIL", what)
    check.failed |= not holds


check.failed = False


def played(folder, netlist, delays, words):
    """A run of `sim` is drawn as its dump has it."""
    examples, run = GIVEN[1], folder / "run"
    run.write_text(nclc("sim", examples / f"{netlist}.v", "--delays", examples / f"{delays}.delays", "--words", examples / f"{words}.words", "--vcd"))
    states = values_of(run.read_text())
    found = drive(folder, show(examples / f"{netlist}.v", "--vcd", run).stdout, sorted(range(len(states)), key=lambda i: i * 7919 % len(states)))
    seen = [found["seen"][str(i)] for i in range(len(states))]
    drawn = set(seen[0]["wires"])
    check(f"{netlist}: {len(drawn)} of {len(states[0])} nets are drawn, all but rst", set(states[0]) - drawn <= {"rst"})
    for i in (1, len(states) // 2, len(states) - 1):
        wrong = [n for n, wires in seen[i]["wires"].items() if any(wide != states[i][n] for wide, _, _ in wires)]
        check(f"{netlist}: at step {i} of {len(states) - 1} the wires are those of the dump {wrong}", not wrong)
    check(f"{netlist}: and at all steps", all(wide == states[i][n] for i in range(len(states)) for n, wires in seen[i]["wires"].items() for wide, _, _ in wires))
    colours = {v: {w[1] for i in range(len(states)) for n, wires in seen[i]["wires"].items() for w in wires if states[i][n] == v} for v in (False, True)}
    check(f"{netlist}: no colour is that of a high and of a low wire", not colours[False] & colours[True] and len(colours[False]) == 1)
    driven = {m[2]: m[1] for m in re.finditer(r"TH\w+\s+(\w+)\s*\([^;]*\.Z\s*\(\s*([\w\[\]]+)\s*\)", (examples / f"{netlist}.v").read_text())}
    stepped = [(i, driven[n]) for i in range(len(states) - 1) for n in states[0] if states[i][n] != states[i + 1][n] and n in driven]
    check(f"{netlist}: each of {len(stepped)} cells that step had a ring before", stepped and all(seen[i]["cells"][c][0] for i, c in stepped))
    check(f"{netlist}: nothing moves on the page", len({json.dumps(s["places"]) for s in seen}) == 1)
    check(f"{netlist}: Home, three arrows and End", found["keys"] == [0, 1, len(states) - 1])
    said = re.findall(r"word \d+ at \d+: (\w+)", nclc("sim", examples / f"{netlist}.v", "--delays", examples / f"{delays}.delays", "--words", examples / f"{words}.words"))
    check(f"{netlist}: the sink took {said}", seen[-1]["rows"][-1] == "took " + ", ".join(said[-4:]))


def explained(folder):
    """A run of `check --why`, with the cell that is lost."""
    examples, run = GIVEN[1], folder / "run"
    run.write_text(nclc("check", examples / "orphan.v", "--why"))
    seen = drive(folder, show(examples / "orphan.v", "--why", run).stdout, [0, 8, 16, 17, 18])["seen"]
    check("why: co0 is ready at 16 and at 17, and lost at 18 alone", [seen[i]["cells"]["co0"][1] for i in ("0", "8", "16", "17", "18")] == ["", "▲", "▲", "▲", "✕ lost"])
    check("why: the rows at 8 and 17", [seen["8"]["rows"][:3], seen["17"]["rows"][:3]] == [["DATA 000", "DATA 000", "DATA 0"], ["NULL", "partial -00", "DATA 0"]])
    rails = {n: {w[2] for w in wires} for n, wires in seen["0"]["wires"].items()}
    check("rail 0 is dashed and rail 1 is not", all(rails[f"p{i}_0"] == {True} and rails[f"p{i}_1"] == {False} for i in (1, 2, 3)))


def hazards(folder):
    """What `sim` and `check` tell stands on the page."""
    examples, run = GIVEN[1], folder / "run"
    ran = nclc("sim", examples / "orphan.v", "--delays", examples / "slow_carry.delays", "--words", examples / "three_bits.words")
    (folder / "told").write_text(ran)
    run.write_text(nclc("sim", examples / "orphan.v", "--delays", examples / "slow_carry.delays", "--words", examples / "three_bits.words", "--vcd"))
    page, steps = show(examples / "orphan.v", "--vcd", run, "--told", folder / "told").stdout, len(values_of(run.read_text())) - 1
    last = drive(folder, page, [steps - 1, steps])["seen"]
    check("sim: the cell of the hazard is marked at the last step alone", [last[str(i)]["cells"]["co0"][1] for i in (steps - 1, steps)] == ["▲", "✕ lost"])
    check("sim: the line of the hazard stands on the page", ran.splitlines()[-1] in page)
    (folder / "told").write_text("shape: loose at cell k2\n")
    check("the rule that is broken stands on the page", "shape: loose at cell k2" in show(examples / "and.v", "--told", folder / "told").stdout)
    (folder / "told").write_text("hazard at 6: cell none, after 19 steps, delivered 1 of 3\n")
    check("refused: a hazard of another netlist", show(examples / "orphan.v", "--told", folder / "told").returncode == 1)


def stages(folder):
    """Of a large netlist a stage is drawn at a time, and of a long run the steps near the present one."""
    examples, run = GIVEN[1], folder / "run"
    bits = "".join(f".model m{k}\n.inputs a b c d\n.outputs a b c e\n.names a b c d e\n1001 1\n0110 1\n1111 1\n.end\n" for k in range(30))
    (folder / "stages.blif").write_text(bits)
    (folder / "stages.v").write_text(nclc("compile", folder / "stages.blif"))
    probe = """const press = key => dispatchEvent(new KeyboardEvent("keydown", { key })), told = [];
      const look = () => told.push([pictures.filter(p => getComputedStyle(p).display !== "none").length, document.getElementById("stage").textContent]);
      look(); press("n"); look(); press("n"); press("p"); look(); document.getElementById("probe").textContent = JSON.stringify(told);"""
    found = asked(folder, show(folder / "stages.v").stdout, probe)
    said = [count == 1 and re.fullmatch(rf", stage {k} shown with its banks, \d+ gates on the longest way", text) for (count, text), k in zip(found, (1, 2, 2))]
    check("n and p go from stage to stage", len(found) == 3 and all(said))
    (folder / "long.words").write_text("".join(f"{i % 16:04b}\n" for i in range(200)))
    run.write_text(nclc("sim", folder / "stages.v", "--delays", examples / "unit.delays", "--words", folder / "long.words", "--vcd"))
    probe = """const told = [[at("list").length, total]]; for (const step of [total, 5000, 0]) { show(step); told.push([+at("list").value, step]); }
      told.push([document.querySelectorAll(".strip div").length]); document.getElementById("probe").textContent = JSON.stringify(told);"""
    (length, total), *steps, (blocks,) = asked(folder, show(folder / "stages.v", "--vcd", run).stdout, probe)
    check(f"of {total} steps the list has {length}, and the rows {blocks} blocks", total > 10000 and length == 4000 and blocks < 5000 and all(a == b for a, b in steps))


def places(folder):
    """A cell is found by its name, told, or drawn with what is near it, and the longest way is marked."""
    orphan = GIVEN[1] / "orphan.v"
    page = show(orphan).stdout
    check("the longest way has two gates", page.count('class="body deep"') == 2 and ", 2 gates on the longest way" in page)
    titles = lambda text: set(re.findall(r"<title>\w+ (\w+): ", text))
    check("co0 with what it reads and what reads it", titles(show(orphan, "--around", "co0", "--steps", "1").stdout) == {"co0", "r1_0", "r2_0", "r3_0", "s1"})
    check("co0 alone", titles(show(orphan, "--around", "co0", "--steps", "0").stdout) == {"co0"})
    look = "[at('hits').textContent, [...document.querySelectorAll('.c.found')].map(part => run.cells[part.dataset.c][0])]"
    probe = f"const told = [{look}]; seek('kt'); told.push({look}); seek('no such'); told.push({look}); document.getElementById('probe').textContent = JSON.stringify(told);"
    (folder / "told").write_text(nclc("check", orphan))
    found = asked(folder, show(orphan, "--told", folder / "told").stdout, probe)
    check(f"the told cell, then kt, then none {found}", found == [["", ["co0"]], ["kt, 1 of 1", ["kt"]], ["none", []]])


def pictures():
    """The wires end at the pins, and the gates say what they are."""
    examples = GIVEN[1]
    for file in ("full_adder.v", "orphan.v", "three_stages.v", "multiplier.v", "held_sum.v", "vectors.v", "solution_8.v"):
        found = missing((examples / file).read_text(), show(examples / file).stdout)
        check(f"{file}: at each pin a wire of its net ends {found}", not found)
    signs = dict(re.findall(r"<title>\w+ (\w+):.*?class=\"sign\"[^>]*>(\w+)<", show(examples / "orphan.v").stdout))
    check("the signs in the gates", {c: signs[c] for c in ("s0", "co1", "r1_0", "k1", "kt")} == {"s0": "3w2", "co1": "2", "r1_0": "2n", "k1": "1", "kt": "3"})
    page = show(examples / "orphan.v").stdout
    check("the page loads nothing", not re.search(r"(src|href)=|url\(|@import|fetch\(", page))


def refusals(folder):
    """What can't be drawn is told in a line."""
    examples = GIVEN[1]
    for file in sorted(examples.glob("*.v")):
        said, got = nclc("check", file), show(file)
        wanted = [0] if said.startswith(("accepted", "refused")) else [1] if said.startswith("netlist") else [0, 1]
        if got.returncode not in wanted or got.returncode and (got.stdout or got.stderr.count("\n") != 1):
            check(f"{file.name}: {said.strip()}; {got.stderr.strip()}", False)
    bad = folder / "bad"
    for text in ["", "module m;", "module m(a);input a;assign b=a;endmodule", "module \\ab", "\xff", "module m;endmodule", "module m(a;", "module m(,);endmodule"]:
        bad.write_text(text)
        got = show(bad)
        check(f"refused: {text!r}: {got.stderr.strip()}", got.returncode == 1 and not got.stdout and got.stderr.count("\n") == 1 and "Traceback" not in got.stderr)
    for args in (["--why", bad], ["--vcd", bad], ["--stage", "9"], ["--why", folder / "none"], ["--around", "none"]):
        got = show(examples / "orphan.v", *args)
        check(f"refused: {got.stderr.strip()[:80]}", got.returncode == 1 and not got.stdout and got.stderr.count("\n") == 1)


def main():
    parser = Parser(__doc__)
    parser.add_argument("program")
    parser.add_argument("examples", type=pathlib.Path)
    given = parser.parse_args()
    lacking = [name for name in (given.program, "chromium", "dot") if shutil.which(name) is None]
    if lacking or not given.examples.is_dir():
        raise Refused(f"there is no {lacking[0] if lacking else given.examples}")
    GIVEN[:] = [given.program, given.examples]
    with tempfile.TemporaryDirectory() as name:
        folder = pathlib.Path(name)
        for run in RUNS:
            played(folder, *run)
        for test in (explained, hazards, places, stages, refusals):
            test(folder)
    pictures()
    return 1 if check.failed else 0


if __name__ == "__main__":
    carry_out("show_pages", main)
