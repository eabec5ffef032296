"""The places of the cells and the curves of the wires of a netlist, as `dot` of Graphviz finds them."""
import json
import subprocess

from netlist import inputs_of
from script import Refused

BIT, GAP, WIDE, PIN = 100, 52, 44, 12  # the height of a bit, between its rails, the width of a gate, the room of a pin


# Of more gates dot gets less time to move nodes about, and draws wires as lines.
MANY, QUICK = 300, "nslimit=0.5; nslimit1=0.5; mclimit=0.1; splines=line;"
NAMED, LETTER = 11, 5  # letters of a name that are shown, and the room of one


def short(name):
    """A name, or its end, as it stands beside its cell."""
    return name if len(name) <= NAMED else "…" + name[1 - NAMED:]


def node(name, columns):
    """A node of dot: columns from left to right, each its width and the ports below one another with their heights."""
    table = lambda rows: f'<TABLE BORDER="0" CELLBORDER="0" CELLSPACING="0" CELLPADDING="0">{"".join(rows)}</TABLE>'
    cell = lambda port, w, h: f'<TR><TD FIXEDSIZE="TRUE" WIDTH="{w}" HEIGHT="{h}" PORT="{port}"></TD></TR>'
    column = lambda w, ports: "<TD>" + table(cell(port, w, h) for port, h in ports) + "</TD>"
    return f"{name} [label=<{table(['<TR>' + ''.join(column(*each) for each in columns) + '</TR>'])}>];"


def gate_node(pipe, c, left=0):
    """The node of a gate, with room for something on the left."""
    pins = inputs_of(pipe.cells[c][0])
    columns = [(WIDE // 2, [(pin, PIN) for pin in pins]), (WIDE - WIDE // 2, [("Z", PIN * len(pins))])]
    return node(f"g{c}", [(left, [("L", PIN * len(pins))]), *columns] if left else columns)


def laid_out(lines, size):
    """The places of nodes, the curves of edges with what is said of each, and the height, as dot finds them for so many gates."""
    head = f"digraph {{rankdir=LR; nodesep=0.2; ranksep={0.9 + size / 150:g}; {QUICK if size > MANY else ''} node [shape=plain]; edge [dir=none];"
    try:
        done = subprocess.run(["dot", "-Tjson0"], input="\n".join([head, *lines, "}"]), capture_output=True, text=True, timeout=300)
    except FileNotFoundError:
        raise Refused("no dot on the path: it is of Graphviz") from None
    except subprocess.TimeoutExpired:
        raise Refused("dot takes too long: choose a stage by --stage, or a cell by --around") from None
    if done.returncode:
        raise Refused("dot failed: " + done.stderr.strip().partition("\n")[0])
    graph = json.loads(done.stdout)
    height = float(graph["bb"].split(",")[3])
    point = lambda text: (float(text.split(",")[0]), height - float(text.split(",")[1]))
    places = {o["name"]: point(o["pos"]) for o in graph["objects"] if "pos" in o}
    curves = [(e["comment"], [point(p) for p in e["pos"].split() if p[0] not in "es"]) for e in graph.get("edges", ()) if "comment" in e]
    return places, curves, height


class Layout:
    """What is shown of a netlist, all of it or a stage with its two banks, and where dot puts it."""

    def __init__(self, pipe, stage):
        self.pipe = pipe
        self.shown = range(len(pipe.banks)) if stage is None else range(stage - 1, stage + 1)
        self.gates = [c for k in self.shown[:-1] for c in pipe.stages[k]]

    def depth(self, k):
        """The level of each gate of a bank's completion tree, from 1."""
        level = {}
        for c in self.pipe.trees[k]:
            level[c] = 1 + max(level.get(self.pipe.driver[net], 0) for net in self.pipe.reads(c))
        return level

    def bank_width(self, k):
        levels = max(self.depth(k).values(), default=0)
        return max(160, 40 + 78 * levels) + 6 * len(self.pipe.banks[k]) + 8

    def layout(self):
        """The places of cells and bits, and the curves of wires, as dot finds them."""
        lines = []
        pipe, place = self.pipe, {}
        for k in self.shown:
            names, wide = [f"b{k}_{i}" for i in range(len(pipe.banks[k]))], self.bank_width(k)
            left = [("A1", 30), ("n1", GAP - 30), ("A0", 30), ("n0", BIT - GAP - 30)]
            right = [("Z1", 44), ("m1", GAP - 44), ("Z0", 44), ("m0", BIT - GAP - 44)]
            lines.append("{rank=same; " + "".join(node(name, [(wide // 2, left), (wide - wide // 2, right)]) for name in names))
            lines.append(" -> ".join(names) + " [style=invis, weight=100];}" if len(names) > 1 else "}")
            for name, bit in zip(names, pipe.banks[k]):
                place.update({pipe.out(bit[r]): f"{name}:Z{r}:e" for r in (0, 1)})
        for c in self.gates:
            lines.append(gate_node(pipe, c))
            place[pipe.out(c)] = f"g{c}:Z:e"
        read = {net for _, _, pins in pipe.cells for pin, net in pins.items() if pin != "Z"}
        edge = lambda net, head: lines.append(f'{place[net]} -> {head} [comment="{pipe.number[net]} {head.partition(":")[0]}"];')
        for c in self.gates:
            for pin in inputs_of(pipe.cells[c][0]):
                edge(pipe.cells[c][2][pin], f"g{c}:{pin}:w")
        for k in self.shown[1:]:
            for i, bit in enumerate(pipe.banks[k]):
                for r in (0, 1):
                    edge(pipe.cells[bit[r]][2]["A"], f"b{k}_{i}:A{r}:w")
            lines += [f"g{c} -> b{k}_0 [style=invis, weight=0];" for c in pipe.stages[k - 1] if pipe.out(c) not in read]
            lines.append(f"b{k - 1}_0 -> b{k}_0 [style=invis, weight=0];")
        return laid_out(lines, len(self.gates))
