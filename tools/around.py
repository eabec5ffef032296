"""Draws a cell with what it reads and what reads it, some steps far."""
from layout import LETTER, PIN, WIDE, gate_node, laid_out
from netlist import inputs_of
from picture import Drawing
from script import Refused

MOST = 500  # cells of a picture


def readers_of(pipe):
    """For each net the cells that read it, but for its reset."""
    found = {}
    for c in range(len(pipe.cells)):
        for net in pipe.reads(c):
            found.setdefault(net, []).append(c)
    return found


def reached(first, steps, following):
    """The cells so many steps from one."""
    found = last = {first: None}
    for _ in range(min(steps, MOST)):
        last = {c: None for known in last for c in following(known) if c not in found}
        found = {**found, **last}
        if len(found) > MOST:
            raise Refused(f"more than {MOST} cells are so near: take fewer steps")
    return found


class Around(Drawing):
    """The cells around one. A net from elsewhere has its name in front of its pin, one that goes elsewhere ends in the open."""

    def __init__(self, pipe, middle, steps):
        super().__init__(pipe)
        self.middle, readers = middle, readers_of(pipe)
        before = reached(middle, steps, lambda c: [pipe.driver[net] for net in pipe.reads(c) if net in pipe.driver])
        self.cells = {**before, **reached(middle, steps, lambda c: readers.get(pipe.out(c), []))}
        self.draw(*laid_out(list(self.lines()), len(self.cells)))

    def pins(self, c):
        """The pins of a cell with their nets, and whether the net comes from a cell that is shown."""
        nets = [(pin, self.pipe.cells[c][2][pin]) for pin in inputs_of(self.pipe.cells[c][0])]
        return [(pin, net, self.pipe.driver.get(net) in self.cells) for pin, net in nets]

    def before(self, c):
        """The room in front of a cell for the names of nets from elsewhere."""
        return max((12 + LETTER * len(net) for _, net, known in self.pins(c) if not known), default=0)

    def lines(self):
        """What dot is told: the nodes, and an edge for each pin that reads a cell of these."""
        for c in self.cells:
            yield gate_node(self.pipe, c, self.before(c))
        for c in self.cells:
            for pin, net, known in self.pins(c):
                if known:
                    yield f'g{self.pipe.driver[net]}:Z:e -> g{c}:{pin}:w [comment="{self.pipe.number[net]} g{c}"];'

    def draw(self, places, curves, height):
        for said, points in curves:
            self.curve(said, points)
        for c in self.cells:
            x, y = places[f"g{c}"]
            x += self.before(c) / 2
            self.gate(c, x, y)
            self.name_pins(c, x - WIDE / 2, y)
        points = [*places.values(), *(point for _, curve in curves for point in curve)]
        half = max(map(self.before, self.cells)) / 2 + WIDE + 60
        self.box = min(x for x, _ in points) - half, -20, max(x for x, _ in points) + half, height + 20

    def name_pins(self, c, left, y):
        pins = self.pins(c)
        for i, (_, net, known) in enumerate(pins):
            pin = y + (i - (len(pins) - 1) / 2) * PIN
            if not known:
                self.wire(net, f"M{left - 8:g} {pin:g}H{left:g}")
                self.text(left - 10, pin + 3, net, "name far", "end")
