"""Tests of the scripts of tools/ that lead from a clocked or a large design to a pipeline. `bench/tools.py` runs them."""
import re
import subprocess
import sys

from tools_help import EXAMPLES, PROGRAM, TOOLS, nclc, needing, ran, refuses, same, tool
import blif

CLOCKED = ".model m\n.inputs clk a b\n.outputs q\n.names a b n\n11 1\n.latch n p re clk 2\n.names p m\n0 1\n.latch m q re clk 2\n.end\n"


def clocked(models):
    """The models in a row as one, with a register at each signal that one hands on to the next."""
    text, given = [".model clocked", ".inputs clk " + " ".join(models[0].inputs), ".outputs " + " ".join(f"z{j}" for j in range(len(models[-1].outputs)))], models[0].inputs
    for k, model in enumerate(models):
        names = dict(zip(model.inputs, given))
        names.update({signal: f"s{k}_{number}" for number, signal in enumerate(model.covers)})
        for signal, (reads, rows) in model.covers.items():
            text += [".names " + " ".join(names[name] for name in [*reads, signal]), *rows]
        given = [f"r{k}_{j}" if model is not models[-1] else f"z{j}" for j in range(len(model.outputs))]
        text += [f".latch {names[name]} {register} re clk 2" for name, register in zip(model.outputs, given)]
    return "\n".join([*text, ".end", ""])


def stages_are_the_models_between_registers(folder):
    for name in ("three_stages", "multiplier4", "add8", "exercise_6"):
        models = blif.read_models((EXAMPLES / f"{name}.blif").read_text())
        (folder / "clocked.blif").write_text(clocked(models))
        (folder / "new.blif").write_text(tool("stages", folder / "clocked.blif"))
        (folder / "new.v").write_text(nclc("compile", folder / "new.blif"))
        told = nclc("check", folder / "new.v")
        assert told.startswith(f"accepted banks={len(models) + 1} stages={len(models)} "), told
        same(nclc("match", folder / "new.v", EXAMPLES / f"{name}.blif"), "same\n")


def stages_take_registers_at_the_ends_for_banks(folder):
    text = folder / "clocked.blif"
    text.write_text(CLOCKED)
    same(tool("stages", text).count(".model"), 2)
    text.write_text(CLOCKED.replace(".names a b n", ".latch a c re clk\n.latch b d re clk\n.names c d n"))
    same([model.inputs for model in blif.read_models(tool("stages", text))], [["a", "b"], ["p"]])
    text.write_text(CLOCKED.replace(".names a b n\n11 1", ".latch a c re clk\n.names c b n\n11 1"))
    same(refuses("stages", text), "stages: n reads signals of several ages: b of age 0, c of age 1\n")
    text.write_text(CLOCKED.replace(".inputs clk a b", ".inputs clk rst a b"))
    same([tool("stages", *given, text).split("\n")[1] for given in ((), ("--drop",))], [".inputs rst a b", ".inputs a b"])
    text.write_text(CLOCKED.replace(".names p m\n0 1", ".names one\n1\n.latch one late re clk\n.names p late m\n01 1"))
    (folder / "new.blif").write_text(tool("stages", text))
    (folder / "new.v").write_text(nclc("compile", folder / "new.blif"))
    (folder / "wanted.blif").write_text(".model m\n.inputs a b\n.outputs q\n.names a b q\n0- 1\n-0 1\n")
    same(nclc("match", folder / "new.v", folder / "wanted.blif"), "same\n")


def stages_name_what_is_no_pipeline(folder):
    text = folder / "clocked.blif"
    changes = {"feedback through the register p": (".names a b n", ".names a p n"), "q is a latch, no register": ("m q re clk", "m q ah clk"),
               "the register p begins with 1: a model tells no word at reset": ("n p re clk 2", "n p re clk 1"), "nothing drives x": (".names a b n", ".names a x n"),
               "the registers p and q have different clocks or edges": ("m q re clk", "m q fe clk"), "the clock clk is read as a signal": (".names a b n", ".names a clk n"),
               "outputs of several ages: a of age 0, q of age 2": (".outputs q", ".outputs q a"), "the clock clk is no input": (".inputs clk", ".inputs"),
               "line 6: not read: .subckt $_SDFF_PP0_ D=n": (".latch n p re clk 2", ".subckt $_SDFF_PP0_ D=n"), "line 6: n is driven twice": (".latch n p", ".names a n\n.latch n p"),
               "no output depends on an input": (".outputs q", ".outputs one\n.names one\n1"), "2 models where one is wanted: `flatten` makes one of a hierarchy": (".end", ".end\n" + CLOCKED)}
    for line, (old, new) in changes.items():
        text.write_text(CLOCKED.replace(old, new))
        same(refuses("stages", text), f"stages: {line}\n")
    for name in ("and.blif", "and.v", "cells.lib"):
        refuses("stages", EXAMPLES / name)
    odd_texts(folder, "stages")


def odd_texts(folder, *words, behind=()):
    """Empty, binary and long texts have one line."""
    chain = "".join(f".names s{i} s{i + 1}\n1 1\n" for i in range(200000))
    texts = {"empty": b"", "binary": bytes(range(256)) * 5000, "names": b".inputs " + b"a " * 2000000, "line": b"x" * 5000000, "turned": b"a\\\n" * 1000000,
             "chain": f".model m\n.inputs s0\n.outputs s200000\n{chain}".encode(), "cycle": f".model m\n.inputs a\n.outputs s9\n{chain}.names s200000 s0\n1 1\n".encode()}
    for name, text in texts.items():
        (folder / name).write_bytes(text)
        refuses(*words, folder / name, *behind)
    refuses(*words, folder / "absent", *behind)
    refuses(words[0], "--no-such-option", status=2)


@needing("yosys", "iverilog")
def stages_give_the_words_of_the_clocked_design(folder):
    design = (EXAMPLES / "multiply_add.v").read_text()
    (folder / "m.v").write_text(design)
    ran(["yosys", "-q", "-p", "read_verilog m.v; synth -flatten; delete -port multiply_add/rst_n; connect -set rst_n 1'b1; opt -full; "
         "dfflegalize -cell $_DFF_P_ x; abc -g AND,XOR; opt_clean -purge; write_blif m.blif"], folder=folder)
    (folder / "n.blif").write_text(tool("stages", folder / "m.blif"))
    (folder / "n.v").write_text(nclc("compile", folder / "n.blif"))
    given = [(a * 37 % 64, a * 11 % 64, a * 1001 % 4096) for a in range(1, 7)]
    bits = lambda number, width: format(number, f"0{width}b")[::-1]
    (folder / "n.words").write_text("".join(bits(a, 6) + bits(b, 6) + bits(c, 12) + "\n" for a, b, c in given))
    told = nclc("sim", folder / "n.v", "--delays", "/dev/null", "--words", folder / "n.words").splitlines()
    feed = "".join(f"a = {a}; b = {b}; c = {c}; #2;" for a, b, c in given)
    (folder / "t.v").write_text("module t; reg clk = 0, rst_n = 0; reg [5:0] a, b; reg [11:0] c; wire [12:0] y; multiply_add m(clk, rst_n, a, b, c, y);\n"
                                f"always #1 clk = ~clk; always @(negedge clk) $display(\"%0d\", y); initial begin #2 rst_n = 1; {feed} #10 $finish; end endmodule\n")
    ran(["iverilog", "-o", "t", "t.v", "m.v"], folder=folder)
    wanted = [str(a * b + c) for a, b, c in given]
    clocked_words = ran(["vvp", "-n", "t"], folder=folder).split()
    same(clocked_words[clocked_words.index(wanted[0]):][:len(wanted)], wanted)
    same([line.split()[-1] for line in told[:-1]], [bits(int(word), 13) for word in wanted])


def interleave_reads_what_ends_in_a_turned_line(folder):
    (folder / "m.blif").write_text(".model m\n.outputs z\n.names a[1] z\n1 1\n.inputs a[1] \\\na[0] b[0]\\")
    same(tool("interleave", folder / "m.blif").split("\n")[-1], ".inputs a[0] b[0] a[1]")


def accepted(folder, text):
    """What `check` says of what is compiled of a text, which is kept as n.blif and n.v."""
    (folder / "n.blif").write_text(text)
    (folder / "n.v").write_text(nclc("compile", folder / "n.blif"))
    told = nclc("check", folder / "n.v")
    assert told.startswith("accepted "), told
    return told


def split_model_keeps_the_function(folder):
    for name in ("add8", "full_adder", "twelve_bits", "and"):
        for stages in (1, 2, 3, 5):
            told = accepted(folder, tool("split_model", "--nclc", PROGRAM[0], "--stages", stages, EXAMPLES / f"{name}.blif"))
            assert f" banks={stages + 1} stages={stages} " in told, told
            same(nclc("match", folder / "n.v", EXAMPLES / f"{name}.blif"), "same\n")


def waist(bits, folder):
    """A parity of some bits, and its exclusive OR with each of two more, so that three signals can cross."""
    names = [f"a[{i}]" for i in range(bits)]
    text = [".model m", ".inputs " + " ".join([*names, "b", "c"]), ".outputs y z"]
    for i in range(bits - 1):
        text += [f".names {'a[0]' if i == 0 else f'p{i - 1}'} a[{i + 1}] p{i}", "10 1", "01 1"]
    text += [f".names p{bits - 2} b y", "10 1", "01 1", f".names p{bits - 2} c z", "10 1", "01 1", ".end", ""]
    (folder / "waist.blif").write_text("\n".join(text))
    return folder / "waist.blif"


def split_model_cuts_where_fewest_signals_cross(folder):
    text = waist(9, folder)
    models = lambda *words: [len(model.inputs) for model in blif.read_models(tool("split_model", *words, text))]
    same(models("--stages", "2"), [11, 6])
    same(models("--stages", "2", "--slack", "3"), [11, 3])
    same(models("--stages", "3"), [11, 8, 5])
    same(models("--depth", "9"), [11])
    same(models("--depth", "3"), [11, 8, 5])


def split_model_asks_the_program(folder):
    text = waist(9, folder)
    asked = lambda *words: len(blif.read_models(tool("split_model", "--nclc", PROGRAM[0], *words, text)))
    least = next(limit for limit in range(20, 2000, 20) if nclc_accepts(folder, text, limit))
    same(asked("--limit", least), 1)
    same(asked("--limit", least // 2), 2)
    whole, most = (sim_cycle(folder, tool("split_model", "--stages", stages, text)) for stages in (1, 4))
    assert most < whole, (most, whole)
    assert 1 < asked("--cycle", int(most) + 1) <= 4
    refuses_with_lines(folder, "none of up to 10 stages is what was asked for", "--nclc", PROGRAM[0], "--cycle", "1", text)


def refuses_with_lines(folder, line, *words):
    """Split tells a line of each try, and this one at the end."""
    same(tool("split_model", *words, status=1).splitlines()[-1], f"split_model: {line}")


def nclc_accepts(folder, text, limit):
    (folder / "l.v").write_text(nclc("compile", text))
    return subprocess.run([PROGRAM[0], "check", folder / "l.v", "--limit", str(limit)], capture_output=True).returncode == 0


def sim_cycle(folder, text):
    """The mean time between twenty words."""
    accepted(folder, text)
    width = len(blif.read_models(text)[0].inputs)
    (folder / "n.words").write_text("".join(format(number * 7919 % (1 << width), f"0{width}b") + "\n" for number in range(20)))
    times = [int(line.split()[3].rstrip(":")) for line in nclc("sim", folder / "n.v", "--delays", "/dev/null", "--words", folder / "n.words").splitlines()[:-1]]
    return (times[-1] - times[0]) / (len(times) - 1)


@needing("berkeley-abc")
def split_model_says_what_abc_says(folder):
    done = subprocess.run([TOOLS / "split_model", "--stages", "2", EXAMPLES / "add8.blif"], capture_output=True, text=True)
    assert done.returncode == 0 and done.stderr.endswith(" and 9 bits; ABC: same\n"), done.stderr
    done = subprocess.run([sys.executable, TOOLS / "split_model", "--stages", "2", EXAMPLES / "add8.blif"], capture_output=True, text=True, env={"PATH": str(folder)})
    assert done.returncode == 0 and done.stderr.endswith(" and 9 bits; not compared, no ABC on the path\n"), done.stderr


@needing("berkeley-abc")
def second_opinion_compares_models_with_models(folder):
    (folder / "three.blif").write_text("# a remark\n" + tool("split_model", "--stages", "3", EXAMPLES / "add8.blif"))
    same(tool("second_opinion", folder / "three.blif", EXAMPLES / "add8.blif"), "same\n")
    (folder / "three.blif").write_text((folder / "three.blif").read_text().replace("\n11 1\n", "\n10 1\n", 1))
    assert tool("second_opinion", folder / "three.blif", EXAMPLES / "add8.blif", status=1).startswith("differ")


def split_model_refuses(folder):
    text = folder / "odd.blif"
    text.write_text(CLOCKED)
    same(refuses("split_model", "--stages", "2", text), "split_model: model 1: there are registers in it: tools/stages makes models of a clocked pipeline\n")
    text.write_text(".model m\n.inputs a\n.outputs y\n.names a y n\n11 1\n.names n y\n1 1\n")
    same(refuses("split_model", "--stages", "2", text), "split_model: a cycle through y\n")
    wide = "".join(f".names a{i} b n{i}\n11 1\n.names n{i} c y{i}\n11 1\n" for i in range(130))
    text.write_text(f".model m\n.inputs b c {' '.join(f'a{i}' for i in range(130))}\n.outputs {' '.join(f'y{i}' for i in range(130))}\n{wide}")
    same(refuses("split_model", "--stages", "2", text), "split_model: no 2 stages: more than 128 signals cross\n")
    same(refuses("split_model", "--stages", "300", EXAMPLES / "add8.blif"), "split_model: no more than 255 stages, and no slack below 0\n")
    for name in ("multiplier4.blif", "and.v", "cells.lib"):
        refuses("split_model", "--stages", "2", EXAMPLES / name)
    refuses("split_model", EXAMPLES / "add8.blif", status=2)
    refuses("split_model", "--stages", "0", EXAMPLES / "add8.blif", status=2)
    refuses("split_model", "--stages", "2", "--limit", "5", EXAMPLES / "add8.blif", status=2)
    odd_texts(folder, "split_model", "--stages", "3")


def match_stages_says_same(folder):
    compare = lambda netlist, text, *words, status=0: tool("match_stages", "--nclc", PROGRAM[0], *words, netlist, text, status=status)
    for name, stages in (("three_stages", 3), ("multiplier4", 2), ("add8", 1), ("exercise_6", 1)):
        accepted(folder, (EXAMPLES / f"{name}.blif").read_text())
        same(compare(folder / "n.v", folder / "n.blif"), "".join(f"stage {s}: same\n" for s in range(1, stages + 1)) + "same\n")
    for name in ("held_sum", "full_adder", "three_stages", "solution_8"):
        (folder / "m.blif").write_text(tool("models", EXAMPLES / f"{name}.v"))
        assert compare(EXAMPLES / f"{name}.v", folder / "m.blif").endswith("\nsame\n")
    text = (EXAMPLES / "add16_in_turn.blif").read_text()
    names = blif.read_models(text)[0].inputs
    accepted(folder, text.replace(" ".join(names), " ".join(sorted(names, key=lambda name: (name[0], int(name[2:-1]))))))
    same(nclc("match", folder / "n.v", folder / "n.blif", "--limit", "5000", status=6).split()[0], "limit")
    same(compare(folder / "n.v", folder / "n.blif", "--limit", "5000"), "stage 1: same\nsame\n")
    same(compare(folder / "n.v", folder / "n.blif", "--limit", "5", status=6), "stage 1: limit output 1: more than 5 nodes\nlimit\n")


def match_stages_tells_a_word_in_the_order_of_the_bank(folder):
    model = ".model m\n.inputs " + " ".join(f"{name}[{i}]" for name in "ab" for i in range(4)) + "\n.outputs y\n.names a[0] a[1] a[2] a[3] b[0] b[1] b[2] b[3] y\n11111111 1\n"
    last = ".end\n.model n\n.inputs y\n.outputs z\n.names y z\n0 1\n"
    accepted(folder, model + last)
    (folder / "m.blif").write_text(model + "10110010 1\n" + last)
    found = tool("match_stages", "--nclc", PROGRAM[0], folder / "n.v", folder / "m.blif", status=1)
    same(found, "stage 1: differ at word 10110010, output 1\nstage 2: same\ndiffer\n")


def match_stages_refuses(folder):
    words = "match_stages", "--nclc", PROGRAM[0]
    same(refuses(*words, EXAMPLES / "and.v", EXAMPLES / "add8.blif"), "match_stages: the banks have 2 1 bits, and the models 16 9 inputs and outputs\n")
    refuses(*words, EXAMPLES / "exercise_7.v", EXAMPLES / "exercise_7.blif")
    refuses(*words, "--limit", "0", EXAMPLES / "and.v", EXAMPLES / "and.blif")
    refuses("match_stages", "--nclc", folder / "absent", EXAMPLES / "and.v", EXAMPLES / "and.blif")
    refuses("match_stages", EXAMPLES / "and.v", status=2)
    odd_texts(folder, *words, EXAMPLES / "and.v")
    odd_texts(folder, *words, behind=[EXAMPLES / "and.blif"])


def words_are_numbers_with_names(folder):
    (folder / "values").write_text("# two numbers\na=200 b=0x2b\n\n b=0b11   a=-1 \n")
    same(tool("words", EXAMPLES / "add8.blif", folder / "values"), "0001001111010100\n1111111111000000\n")
    (folder / "new.blif").write_text(tool("interleave", EXAMPLES / "add8.blif"))
    for text in (EXAMPLES / "add8.blif", folder / "new.blif"):
        (folder / "n.v").write_text(nclc("compile", text))
        (folder / "n.words").write_text(tool("words", text, folder / "values"))
        told = nclc("sim", folder / "n.v", "--delays", "/dev/null", "--words", folder / "n.words")
        found = tool("words", "--back", text, "/dev/stdin", given=told).splitlines()
        same([line.split(": ")[1] for line in found[:-1]], ["s=243", "s=258"])
        same(found[-1], told.splitlines()[-1])
        same([line.split(": ")[1] for line in tool("words", "--back", "--signed", "s,a", text, "/dev/stdin", given=told).splitlines()[:-1]], ["s=243", "s=-254"])


def words_back_in_answers(folder):
    answers = {"differ at word 1000000001000000, output 9": "differ at word a=1 b=2, output s[8]", "refused stage 1: orphan, cell a, word 0000000100000001": "refused stage 1: orphan, cell a, word a=128 b=128",
               "why: word 1111111100000000": "why: word a=255 b=0", "word 1 at 5: X00000000": "word 1 at 5: s=0b00000000X", "same": "same", "refused stage 2: orphan, cell a, word 1": "refused stage 2: orphan, cell a, word 1"}
    for told, wanted in answers.items():
        same(tool("words", "--back", EXAMPLES / "add8.blif", "/dev/stdin", given=told + "\n"), wanted + "\n")
    (folder / "told").write_text("word 1 at 5: 00\n")
    same(refuses("words", "--back", EXAMPLES / "add8.blif", folder / "told"), "words: line 1: a word of 2 bits where there are 9: 00\n")
    (folder / "told").write_text("same\ndiffer at word 1000000001000000, output 10\n")
    assert refuses("words", "--back", EXAMPLES / "add8.blif", folder / "told").startswith("words: line 2: no such output: ")


def words_refuse(folder):
    values = folder / "values"
    lines = {"a=256 b=0": "a=256: a has 8 bits", "a=-129 b=0": "a=-129: a has 8 bits", "a=1": "no number for b", "a=1 b=2 a=3": "two numbers for one input",
             "a=1 b=x": "not a number of an input: b=x", "c=1 a=1 b=2": "not a number of an input: c=1", "1010": "not a number of an input: 1010", "a=1 b=0b2": "not a number of an input: b=0b2"}
    for line, wanted in lines.items():
        values.write_text(f"a=1 b=1\n{line}\n")
        same(refuses("words", EXAMPLES / "add8.blif", values), f"words: line 2: {wanted}\n")
    (folder / "odd.blif").write_text(".model m\n.inputs a[4] a[2]\n.outputs y\n.names a[2] y\n1 1\n")
    values.write_text("a=5\n")
    same(tool("words", folder / "odd.blif", values), "11\n")
    values.write_text("a=2\n")
    same(refuses("words", folder / "odd.blif", values), "words: line 1: a=2: a[3] is no input\n")
    same(refuses("words", "--back", "--signed", "q", EXAMPLES / "add8.blif", values), "words: no input or output q\n")
    refuses("words", EXAMPLES / "add8.blif", status=2)
    values.write_bytes(bytes(range(256)) * 9)
    refuses("words", EXAMPLES / "add8.blif", values)
    values.write_text("a=" + "9" * 3000000 + " b=1\n")
    refuses("words", EXAMPLES / "add8.blif", values)
    values.write_text("a=1 b=2\n" * 100000)
    same(tool("words", EXAMPLES / "add8.blif", values), "1000000001000000\n" * 100000)
    odd_texts(folder, "words", behind=[values])


def pins_keep_the_netlist(folder):
    for name in ("add8", "multiplier4", "three_stages"):
        accepted(folder, (EXAMPLES / f"{name}.blif").read_text())
        (folder / "new.v").write_text(tool("pins", "--nclc", PROGRAM[0], folder / "n.v"))
        same(nclc("match", folder / "new.v", folder / "n.blif"), "same\n")


def conjunction(signals, name):
    """The covers of a tree of ANDs over the signals, and its root."""
    text, waiting = "", list(signals)
    for number in range(len(signals) - 1):
        first, second = waiting[:2]
        waiting = [*waiting[2:], f"{name}{number}"]
        text += f".names {first} {second} {waiting[-1]}\n11 1\n"
    return text, waiting[0]


def comparison(bits):
    """Whether a is less than b, by a chain, and neither is all ones, which is asked first and of one after the other."""
    a, b = ([f"{name}[{i}]" for i in range(bits)] for name in "ab")
    (text, first), (more, second) = conjunction(a, "p"), conjunction(b, "q")
    text += more + f".names {first} {second} odd\n1- 1\n-1 1\n.names a[0] b[0] c0\n01 1\n"
    for i in range(1, bits):
        text += f".names a[{i}] b[{i}] c{i - 1} c{i}\n01- 1\n001 1\n111 1\n"
    return f".model less\n.inputs {' '.join(a + b)}\n.outputs y\n{text}.names odd c{bits - 1} y\n01 1\n.end\n"


def pins_exchange_where_it_helps(folder):
    accepted(folder, comparison(8))
    text = (folder / "n.v").read_text()
    gate = re.search(r"^(TH\w+ s\w+)\(\.A\((\w+)\)", text, re.M)
    odd = text.replace(gate[0], f"(* a = \";\" *) {gate[1]} /* g(.A(x)); */ ( . A  ( \\{gate[2]} )")
    for netlist in (text, odd):
        (folder / "odd.v").write_text(netlist)
        done = subprocess.run([TOOLS / "pins", "--nclc", PROGRAM[0], folder / "odd.v"], capture_output=True, text=True)
        found = re.fullmatch(r"pins: (\d+) nodes as it stands, (\d+) with the deepest pins first: exchanged\n", done.stderr)
        assert found and 10 * int(found[2]) < int(found[1]), done.stderr
        (folder / "new.v").write_text(done.stdout)
        nclc("check", folder / "new.v", "--limit", found[2])
        same(nclc("check", folder / "new.v", "--limit", int(found[2]) - 1, status=6).split()[0], "limit")
        same(nclc("match", folder / "new.v", folder / "n.blif"), "same\n")
        same(sorted(re.findall(r"\w+", done.stdout)), sorted(re.findall(r"\w+", netlist)))
    done = subprocess.run([TOOLS / "pins", "--nclc", PROGRAM[0], folder / "new.v"], capture_output=True, text=True)
    same((done.stdout, done.stderr), ((folder / "new.v").read_text(), f"pins: {found[2]} nodes as it stands, {found[2]} with the deepest pins first: left as it is\n"))


def pins_refuse(folder):
    words = "pins", "--nclc", PROGRAM[0]
    same(refuses(*words, EXAMPLES / "orphan.v"), "pins: check says refused stage 1: orphan, cell co0, word 000\n")
    refuses(*words, EXAMPLES / "exercise_7.v")
    refuses("pins", "--nclc", folder / "absent", EXAMPLES / "and.v")
    refuses("pins", status=2)
    odd_texts(folder, *words)
