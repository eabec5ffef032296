#!/usr/bin/env python3
"""Compares value change dumps with a model of the machine, and with what GTKWave's tools make of them.

    bench/waves.py PROGRAM [NETLIST DELAYS WORDS]

PROGRAM is the built nclc. Without files the runs are those of examples/. The model is written here from
docs/formats.md: it finds the values at reset and each change of a net with its time. `nclc sim .. --vcd` has to tell the
same, in the same order. Where vcd2fst and fst2vcd are on the path, the dump is turned into a waveform file of GTKWave
and back, and each net has to have the same changes then. Prints each run with its count of changes.
"""
import heapq
import pathlib
import re
import shutil
import subprocess
import sys
import tempfile

sys.path.insert(0, str(pathlib.Path(__file__).resolve().parent.parent / "tools"))
from script import Parser

EXAMPLES = pathlib.Path(__file__).resolve().parent.parent / "examples"
RUNS = [
    ("full_adder.v", "unit.delays", "three_bits.words"),
    ("full_adder.v", "slow_carry.delays", "three_bits.words"),
    ("orphan.v", "slow_carry.delays", "three_bits.words"),
    ("held_word.v", "slow_register.delays", "one_bit.words"),
    ("held_word.v", "unit.delays", "no.words"),
    ("two_words_held.v", "unit.delays", "no.words"),
]
# Set functions that are no sum of weights with a threshold.
OTHERS = {"THxor0": "AB+CD", "THand0": "AB+BC+AD", "TH24comp": "AC+BC+AD+BD"}


def read_netlist(text):
    """The name, the ports with the outputs among them, and the cells as kind, name and nets by pin."""
    text = re.sub(r"//[^\n]*|/\*.*?\*/", " ", text, flags=re.S)
    name, header = re.search(r"module\s+(\S+?)\s*\(([^)]*)\)\s*;", text).groups()
    cells = re.findall(r"(TH\w+)\s+(\w+)\s*\(((?:\s*\.\w+\s*\(\s*\w+\s*\)\s*,?)+)\s*\)\s*;", text)
    cells = [(kind, cell, dict(re.findall(r"\.(\w+)\s*\(\s*(\w+)\s*\)", pins))) for kind, cell, pins in cells]
    return name, [port.strip() for port in header.split(",")], cells


def is_set(kind, high):
    """Whether the set function of a gate holds, where it reads these pins as 1."""
    if kind in OTHERS:
        return any(set(product) <= high for product in OTHERS[kind].split("+"))
    threshold, width, weights = re.fullmatch(r"TH(\d)(\d)(?:w(\d+))?", kind).groups()
    weights = [int(w) for w in (weights or "").ljust(int(width), "1")]
    return sum(w for pin, w in zip("ABCD", weights) if pin in high) >= int(threshold)


class Machine:
    """A netlist with its source and its sink, at delays."""

    def __init__(self, netlist, delays, words):
        self.name, ports, self.cells = read_netlist(netlist)
        self.nets = list(dict.fromkeys(ports + [pins[p] for _, _, pins in self.cells for p in ("A", "B", "C", "D", "RST", "Z") if p in pins]))
        self.inputs = self.bits_of("x", ports)
        self.outputs = self.bits_of("z", ports)
        self.words = [line.strip() for line in words.split("\n") if line.strip() and not line.strip().startswith("#")]
        self.delays = self.read_delays(delays)
        self.done, self.falling = 0, False
        self.value = self.at_reset()
        self.readers = {net: [] for net in self.nets}
        for place, (_, _, pins) in enumerate(self.cells):
            for net in set(pins.values()):
                self.readers[net].append(place)

    def bits_of(self, letter, ports):
        """The rails of the bits, which the examples name by a letter, a number and the rail."""
        numbers = [int(m[1]) for port in ports if (m := re.fullmatch(rf"{letter}(\d+)_0", port))]
        return [(f"{letter}{n}_0", f"{letter}{n}_1") for n in sorted(numbers)]

    def read_delays(self, text):
        """The delays of each cell, of the source and of the sink: those of a rise and of a fall."""
        stated = {}
        for line in text.split("\n"):
            words = line.split()
            if words and not words[0].startswith("#"):
                stated[tuple(words[:-2])] = (int(words[-2]), int(words[-1]))
        usual = stated.get(("default",), (1, 1))
        delays = {cell: stated.get(("cell", cell), usual) for _, cell, _ in self.cells}
        return {**delays, "source of words": stated.get(("source",), (1, 1)), "sink of words": stated.get(("sink",), (1, 1))}

    def at_reset(self):
        """The values at reset: the completion trees of banks without a word ask for DATA."""
        high = {pins["Z"] for kind, _, pins in self.cells if kind == "TH22D"}
        trees, grew = {"ki"}, True
        while grew:
            grew = False
            for kind, _, pins in self.cells:
                reads = {net for pin, net in pins.items() if pin != "Z"}
                joins = not reads & high if kind == "TH12B" else kind not in ("TH22N", "TH22D") and bool(reads & (trees - {"ki"}))
                if joins and pins["Z"] not in trees:
                    trees.add(pins["Z"])
                    grew = True
        return {net: int(net in high | trees) for net in self.nets}

    def next_of(self, place):
        """The next value of a cell's net."""
        kind, _, pins = self.cells[place]
        high = {pin for pin, net in pins.items() if pin not in ("Z", "RST") and self.value[net]}
        if kind == "TH12B":
            return int(not high)
        if is_set("TH22" if kind in ("TH22N", "TH22D") else kind, high):
            return 1
        return self.value[pins["Z"]] if high else 0

    def named(self, bit):
        """The rail of a bit that the current word names."""
        return self.inputs[bit][int(self.words[self.done][bit])] if self.done < len(self.words) else None

    def move(self, item):
        """The net that an item changes and its new value, or nothing where it is not enabled."""
        sort, place = item
        if sort == 0:
            net, new = self.cells[place][2]["Z"], self.next_of(place)
            return (net, new) if new != self.value[net] else None
        if sort == 1:
            net = self.named(place)
            ready = net and self.value["ko"] == int(not self.falling) and self.value[net] == int(self.falling)
            return (net, int(not self.falling)) if ready else None
        rails = [self.value[zero] or self.value[one] for zero, one in self.outputs]
        if self.value["ki"]:
            return ("ki", 0) if all(rails) else None
        return ("ki", 1) if not any(rails) else None

    def key(self, item):
        """What an item is one and the same by: a rise of a rail or of `ki` and its fall are two."""
        return (*item, self.falling if item[0] == 1 else self.value["ki"] if item[0] == 2 else 0)

    def make(self, item, net, new):
        """Steps an item."""
        self.value[net] = new
        if item[0] == 1:
            rails = [self.value[self.named(bit)] for bit in range(len(self.inputs))]
            if not self.falling and all(rails):
                self.falling = True
            elif self.falling and not any(rails):
                self.falling, self.done = False, self.done + 1

    def run(self):
        """The changes of nets, each with its time."""
        others = [(1, bit) for bit in range(len(self.inputs))] + [(2, 0)]
        due, queue, changes = {}, [], []
        held = len({pins["B"] for kind, _, pins in self.cells if kind == "TH22D"})
        most = 2 * (held + len(self.words)) * len(self.nets)

        def look(item, time):
            move, key = self.move(item), self.key(item)
            for old in [k for k in due if k[:2] == item and (not move or k != key)]:
                if old != stepped:
                    return True
                del due[old]
            if move and key not in due:
                who = self.cells[item[1]][1] if item[0] == 0 else "source of words" if item[0] == 1 else "sink of words"
                due[key] = time + self.delays[who][0 if move[1] else 1]
                heapq.heappush(queue, (due[key], key))
            return False

        stepped = None
        for item in [(0, place) for place in range(len(self.cells))] + others:
            look(item, 0)
        while queue:
            time, key = heapq.heappop(queue)
            if due.get(key) != time:
                continue
            net, new = self.move(key[:2])
            self.make(key[:2], net, new)
            changes.append((time, net, new))
            stepped = key
            due.pop(key)
            lost = [look(item, time) for item in dict.fromkeys([(0, place) for place in self.readers[net]] + others + [key[:2]])]
            if any(lost) or len(changes) == most:
                break
        return changes


def read_dump(text):
    """The module, the nets in order, their first values, and the changes."""
    name = re.search(r"\$scope module (.*) \$end", text)[1]
    codes = dict(re.findall(r"^\$var wire 1 (\S+) (\S+)(?: \[\d+\])? \$end$", text, flags=re.M))
    values, changes, time = {}, [], None
    for line in text.split("$enddefinitions $end\n")[1].split("\n"):
        if line.startswith("#"):
            time = int(line[1:])
        elif line[:1] in ("0", "1") and line[1:] in codes:
            net = codes[line[1:]]
            if net not in values:
                values[net] = int(line[0])
            else:
                changes.append((time, net, int(line[0])))
    return name, list(codes.values()), values, changes


def through_tools(text, folder):
    """The dump as GTKWave's tools give it back."""
    for name in ("dump.vcd", "dump.fst", "back.vcd"):
        pathlib.Path(folder, name).unlink(missing_ok=True)
    pathlib.Path(folder, "dump.vcd").write_text(text)
    subprocess.run(["vcd2fst", "dump.vcd", "dump.fst"], cwd=folder, check=True, stdout=subprocess.DEVNULL)
    subprocess.run(["fst2vcd", "-f", "dump.fst", "-o", "back.vcd"], cwd=folder, check=True, stdout=subprocess.DEVNULL)
    return read_dump(pathlib.Path(folder, "back.vcd").read_text())


def by_net(changes):
    """The changes of each net, in order."""
    told = {}
    for time, net, new in changes:
        told.setdefault(net, []).append((time, new))
    return told


def compare(program, files, folder):
    """Compares one run."""
    netlist, delays, words = (pathlib.Path(file).read_text() for file in files)
    ran = subprocess.run([program, "sim", files[0], "--delays", files[1], "--words", files[2], "--vcd"], capture_output=True, text=True)
    machine = Machine(netlist, delays, words)
    first = dict(machine.value)
    wanted = (machine.name, machine.nets, first, machine.run())
    if read_dump(ran.stdout) != wanted:
        sys.exit(f"{files}: the dump differs from the model")
    tools = "no tools of GTKWave"
    if shutil.which("vcd2fst") and shutil.which("fst2vcd"):
        name, nets, values, changes = through_tools(ran.stdout, folder)
        if name != wanted[0] or set(nets) != set(wanted[1]) or values != first or by_net(changes) != by_net(wanted[3]):
            sys.exit(f"{files}: GTKWave's tools give back another dump")
        tools = "the same through vcd2fst and fst2vcd"
    names = " ".join(pathlib.Path(file).name for file in files)
    print(f"{names}: status {ran.returncode}, {len(first)} nets, {len(wanted[3])} changes, {tools}", flush=True)


def main():
    parser = Parser(__doc__)
    parser.add_argument("program")
    parser.add_argument("files", nargs="*", metavar="NETLIST DELAYS WORDS")
    given = parser.parse_args()
    program = str(pathlib.Path(given.program).resolve())
    runs = [tuple(given.files[:3])] if given.files else [tuple(str(EXAMPLES / file) for file in run) for run in RUNS]
    with tempfile.TemporaryDirectory() as folder:
        for files in runs:
            compare(program, files, folder)


if __name__ == "__main__":
    main()
