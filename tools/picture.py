"""Draws a netlist as SVG."""
import html

from figures import longest
from layout import BIT, GAP, PIN, WIDE, Layout, short
from netlist import GATES, REGISTERS, weights


class Drawing:
    """A drawing as SVG. Each wire has the class w and its net, and each cell the class c and its number."""

    def __init__(self, pipe):
        self.pipe, self.boxes, self.wires, self.shapes, self.rail, self.deep = pipe, [], [], [], {}, set()
        for bits in pipe.banks:
            for bit in bits:
                for r in (0, 1):
                    self.rail[pipe.out(bit[r])] = r
                    self.rail.setdefault(pipe.cells[bit[r]][2]["A"], r)

    def curve(self, said, points):
        """A wire as dot bends it, to a gate or a bank; on a longest way there is a band below it."""
        number, _, head = said.partition(" ")
        net, path = self.pipe.nets[int(number)], "M%g %gC" % points[0] + " ".join("%g,%g" % p for p in points[1:])
        if self.pipe.driver.get(net) in self.deep and head[:1] == "g" and int(head[1:]) in self.deep:
            self.boxes.append(f'<path class="way" d="{path}"/>')
        self.wire(net, path)

    def wire(self, net, path, dots=()):
        number = self.pipe.number[net]
        kind = "r%d" % self.rail[net] if net in self.rail else "x"
        ends = "".join(f'<circle cx="{x:g}" cy="{y:g}" r="2.5"/>' for x, y in dots)
        self.wires.append(f'<g class="w {kind}" data-n="{number}"><title>{html.escape(net)}</title><path d="{path}"/>{ends}</g>')

    def text(self, x, y, words, kind="", anchor="middle"):
        self.shapes.append(f'<text x="{x:g}" y="{y:g}" class="{kind}" text-anchor="{anchor}">{html.escape(words)}</text>')

    def gate(self, c, x, y, left=False):
        """A gate in the middle of its left and its right end, with its pins; it looks to the left in a completion tree."""
        kind, name, pins = self.pipe.cells[c]
        each = weights(kind)[1] if kind in GATES else [1, 1]
        h = PIN * len(each) + 4
        sign = REGISTERS.get(kind) or {"TH12B": "1", "THxor0": "xor", "THand0": "and", "TH24comp": "comp"}.get(kind) or kind[2] + kind[4:]
        shape = lambda name, x, y: (f'<path class="{name}"{" transform=" + chr(34) + "scale(-1 1)" + chr(34) if left else ""} '
            f'd="M{-x} {-y:g}h{x}a{x} {y:g} 0 0 1 0 {2 * y:g}h{-x}z"/>')
        bubble = f'<circle class="body" cx="{WIDE // 2 + 4}" cy="0" r="4"/>' if kind == "TH12B" else ""
        label = lambda name, x, y, words: f'<text class="{name}" x="{x}" y="{y:g}">{html.escape(words)}</text>'
        heavy = "".join(label("pin", 5 - WIDE // 2, (i - (len(each) - 1) / 2) * PIN + 3, str(w)) for i, w in enumerate(each) if w > 1)
        title = f"{kind} {name}: " + ", ".join(f"{p} {n}" for p, n in pins.items())
        beside = f'<text class="name" x="{-5 - WIDE // 2 if left else 5 + WIDE // 2 + 6 * (kind == "TH12B")}" y="-3" text-anchor="{"end" if left else "start"}">{html.escape(short(name))}</text>'
        self.shapes.append(
            f'<g class="c" data-c="{c}" transform="translate({x:g} {y:g})"><title>{html.escape(title)}</title>'
            + shape("ring", WIDE // 2 + 4, h / 2 + 4) + shape("body deep" if c in self.deep else "body", WIDE // 2, h / 2) + bubble + heavy
            + label("sign", 3 if left or heavy else -2, 4, sign) + beside
            + label("mark", WIDE // 2 + 2, 1 - h / 2, "") + "</g>")

    def svg(self, said):
        x1, y1, x2, y2 = self.box
        return (f'<svg class="picture" data-stage="{html.escape(said)}" role="img" aria-label="schematic" viewBox="{x1:g} {y1:g} {x2 - x1:g} {y2 - y1:g}" style="--w:{x2 - x1:g}px">'
            + "".join(self.boxes + self.wires + self.shapes) + "</svg>")


class Picture(Drawing, Layout):
    """All of a netlist, or a stage with its two banks."""

    def __init__(self, pipe, stage, level):
        Drawing.__init__(self, pipe)
        Layout.__init__(self, pipe, stage)
        ways = [longest(pipe, level, k) for k in self.shown[:-1]]
        most = max(map(len, ways))
        self.deep = {c for way in ways if len(way) == most for c in way}
        self.most = most
        self.draw(*self.layout())

    def draw(self, places, curves, height):
        pipe, bottom = self.pipe, height + 14
        for said, points in curves:
            self.curve(said, points)
        for c in self.gates:
            self.gate(c, *places[f"g{c}"])
        trees = {k: self.tree(k, places[f"b{k}_0"][0] - self.bank_width(k) / 2, bottom) for k in self.shown}
        low = max(t[1] for t in trees.values()) + 12
        boxes, right = [], max(places[f"b{self.shown[-1]}_0"][0] + self.bank_width(self.shown[-1]) / 2, 0)
        for k in self.shown:
            left, wide = places[f"b{k}_0"][0] - self.bank_width(k) / 2, self.bank_width(k)
            for i, bit in enumerate(pipe.banks[k]):
                self.bit(k, bit, left, places[f"b{k}_{i}"][1] - BIT / 2, trees[k][0], wide, i)
            boxes.append(f'<rect class="bank" x="{left:g}" y="-8" width="{wide:g}" height="{low:g}" rx="6"/>')
            self.text(left + wide / 2, -14, f"bank {k + 1}", "head")
            if k + 1 in self.shown:
                gap = places[f"b{k + 1}_0"][0] - self.bank_width(k + 1) / 2
                self.text((left + wide + gap) / 2, -14, f"stage {k + 1}", "head")
            # the request: from the root of the bank behind, or from the sink, along a lane to the column of the bank
            top = places[f"b{k}_0"][1] - BIT / 2 + 29
            lane = low + 6 + 10 * (k % 2)
            inner = k + 1 in self.shown
            start = places[f"b{k + 1}_0"][0] - self.bank_width(k + 1) / 2 + 18 if inner else right + 40
            self.wire(pipe.requests[k], f"M{start:g} {trees[k + 1][2] if inner else lane:g}V{lane:g}H{left + 8:g}V{top:g}")
            if not inner:
                self.text(right + 44, lane + 4, pipe.requests[k], "port", "start")
            if k == self.shown[0]:
                away = low + 6 + 10 * ((k + 1) % 2)
                self.wire(pipe.roots[k], f"M{left + 18:g} {trees[k][2]:g}V{away:g}H{left - 40:g}")
                self.text(left - 44, away + 4, pipe.roots[k], "port", "end")
        margin = 52 + 7 * max(len(pipe.cells[r][2][pin]) for k in self.shown for bit in pipe.banks[k] for r in bit[:2] for pin in "AZ")
        first = self.shown[0]
        self.boxes = boxes + self.boxes
        self.box = (places[f"b{first}_0"][0] - self.bank_width(first) / 2 - margin, -34, right + margin, low + 26)

    def bit(self, k, bit, left, top, tracks, wide, i):
        """The two register cells of a bit, rail 1 over rail 0, and the acknowledge cell between their wires."""
        pipe, x = self.pipe, left + 46
        middle = top + 22 + GAP / 2
        for r, y in ((1, top + 22), (0, top + 22 + GAP)):
            c, pins = bit[r], pipe.cells[bit[r]][2]
            ack = middle + (-6 if r else 6)
            self.wire(pins["A"], f"M{left:g} {y - 7:g}H{x - 22:g}V{y - 6:g}")
            self.wire(pins["B"], f"M{left + 8:g} {y + 6:g}H{x - 22:g}", [(left + 8, y + 6)])
            self.wire(pins["Z"], f"M{x + 22:g} {y:g}H{left + wide:g}M{x + 32:g} {y:g}V{ack:g}H{x + 42:g}", [(x + 32, y)])
            self.gate(c, x, y)
            if k == self.shown[0]:
                self.wire(pins["A"], f"M{left - 40:g} {y - 7:g}H{left:g}")
                self.text(left - 44, y - 3, f"{pins['A']}", "port", "end")
            if k == self.shown[-1]:
                self.wire(pins["Z"], f"M{left + wide:g} {y:g}h40")
                self.text(left + wide + 44, y + 4, f"{pins['Z']}", "port", "start")
        track, end = tracks[pipe.out(bit[2])]
        self.wire(pipe.out(bit[2]), f"M{x + 92:g} {middle:g}H{track:g}V{end:g}")
        self.gate(bit[2], x + 64, middle)

    def tree(self, k, left, top):
        """The completion tree of a bank, which goes to the left. Returns for each acknowledge the column and the end of
        its wire, the lowest place, and the height of the root."""
        pipe, level, bits = self.pipe, self.depth(k), self.pipe.banks[k]
        deep, fill = max(level.values(), default=0), {}
        columns = left + max(160, 40 + 78 * deep)
        tracks = {pipe.out(bit[2]): [columns + 6 * i, top] for i, bit in enumerate(bits)}
        outs = {net: (x, top) for net, (x, _) in tracks.items()}
        root, lowest = top, top
        for n, c in enumerate(pipe.trees[k]):
            reads = pipe.reads(c)
            x = left + 54 + 78 * (deep - level[c])
            h = PIN * len(reads) + 4
            y = fill.get(level[c], top) + h / 2
            fill[level[c]] = y + h / 2 + 14
            lowest = max(lowest, fill[level[c]])
            for i, net in enumerate(reads):
                pin = y + (i - (len(reads) - 1) / 2) * PIN
                if net in tracks:
                    self.wire(net, f"M{tracks[net][0]:g} {pin:g}H{x + 22:g}")
                    tracks[net][1] = max(tracks[net][1], pin)
                else:
                    from_x, from_y = outs[net]
                    middle = from_x - 4 - 4 * (n % 4)
                    self.wire(net, f"M{from_x:g} {from_y:g}H{middle:g}V{pin:g}H{x + 22:g}")
            outs[pipe.out(c)] = (x - 22, y)
            self.gate(c, x, y, left=True)
        x, root = outs[pipe.roots[k]]
        if pipe.roots[k] in tracks:
            root, lowest = top + 8, max(lowest, top + 16)
            tracks[pipe.roots[k]][1] = max(root, tracks[pipe.roots[k]][1])
        self.wire(pipe.roots[k], f"M{x:g} {root:g}H{left + 18:g}")
        return tracks, lowest, root
