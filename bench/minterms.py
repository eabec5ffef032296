"""Netlists whose nodes are sums of minterms: a gate for each word of a node's inputs, which is high at that word alone, and for each
rail the OR of its words. What is merged in them is counted by figures.py; run by itself this file writes one, by its name.

    bench/minterms.py NAME
"""
import itertools
import sys

AND, OR, XOR = (lambda *bits: all(bits)), (lambda *bits: any(bits)), (lambda *bits: sum(bits) % 2)
MAJORITY = lambda *bits: 2 * sum(bits) > len(bits)


def in_a_row(join, nets, width=4):
    """The OR of some nets: each gate after the first is over what the one before gives, and others."""
    while len(nets) > 1:
        nets = [join(nets[:width]), *nets[width:]]
    return nets[0]


def chain(join, nets):
    return in_a_row(join, nets, 2)


def in_pairs(join, nets):
    """The OR of some nets, of pairs, and of pairs of these."""
    while len(nets) > 1:
        nets = [join(nets[at: at + 2]) for at in range(0, len(nets), 2)]
    return nets[0]


class Drawing:
    """A netlist that grows: banks of bits, and between them nodes that are sums of minterms, whose words are joined in one way."""

    def __init__(self, bits, way=in_a_row):
        self.way, self.cells, self.stage, self.gates = way, [], 0, 0
        self.sources = [(f"x{bit}_0", f"x{bit}_1") for bit in range(bits)]
        self.bits, self.asked = [], "ko"
        self.close(self.sources)

    def cell(self, kind, name, pins, out):
        listed = ",".join(f".{pin}({net})" for pin, net in zip("ABCD", pins))
        self.cells.append(f"{kind} {name}({listed},.Z({out}));")

    def gate(self, kind, pins):
        """The net of a gate of the present stage."""
        self.gates += 1
        net = f"s{self.stage:03}{self.gates:06}"
        self.cell(kind, net, pins, f"{net}z")
        return f"{net}z"

    def nodes(self, inputs, *functions):
        """Nodes of the same inputs, which share their minterms. A word alone is a rail by itself."""
        words = list(itertools.product((0, 1), repeat=len(inputs)))
        nets = {word: self.gate(f"TH{len(word)}{len(word)}", [rails[bit] for rails, bit in zip(inputs, word)]) for word in words}
        high = lambda function, rail: [nets[word] for word in words if bool(function(*word)) == rail]
        join = lambda some: self.gate(f"TH1{len(some)}", some)
        return [tuple(self.way(join, high(function, rail)) for rail in (False, True)) for function in functions]

    def node(self, function, *inputs):
        return self.nodes(inputs, function)[0]

    def close(self, bits, request=None):
        """Puts a bank behind what the stage gives, and begins the next stage. The root of its tree asks the bank before."""
        self.stage += 1
        asks, self.asked = self.asked, request or f"c{self.stage}"
        self.bits = [tuple(f"b{self.stage}_{place}_{rail}" for rail in (0, 1)) for place, _ in enumerate(bits)]
        for place, (taken, rails) in enumerate(zip(bits, self.bits)):
            for rail, (net, out) in enumerate(zip(taken, rails)):
                self.cells.append(f"TH22N r{self.stage}_{place}_{rail}(.A({net}),.B({self.asked}),.RST(rst),.Z({out}));")
        joined, level = [("TH12B", rails) for rails in self.bits], 0
        while joined:
            outs = [asks] if len(joined) == 1 else [f"t{self.stage}_{level}_{place}" for place, _ in enumerate(joined)]
            for place, ((kind, pins), out) in enumerate(zip(joined, outs)):
                self.cell(kind, f"k{self.stage}_{level}_{place:03}", pins, out)
            parts = [outs[at: at + 4] for at in range(0, len(outs), 4)] if len(outs) > 1 else []
            joined, level = [(f"TH{len(part)}{len(part)}", part) for part in parts], level + 1

    def text(self, outputs):
        """The netlist, with a last bank behind these bits."""
        self.close(outputs, "ki")
        ins, outs = ([net for rails in bits for net in rails] for bits in (self.sources, self.bits))
        ports = {"input": [*ins, "ki", "rst"], "output": [*outs, "ko"]}
        heads = [f"{way} {','.join(names)};" for way, names in ports.items()]
        return "\n".join([f"module minterms({','.join(sum(ports.values(), []))});", *heads, *self.cells, "endmodule", ""])


def inverted(rails):
    return rails[::-1]


def drawing(bits, outputs, way=in_a_row):
    """A netlist of one stage whose outputs are made of its bits."""
    made = Drawing(bits, way)
    return made.text(outputs(made, *made.bits))


def chained(made, function, bits):
    """A node over the first two bits, and one over what it gives and each further bit."""
    found = bits[0]
    for bit in bits[1:]:
        found = made.node(function, found, bit)
    return [found]


def halved(made, function, bits):
    while len(bits) > 1:
        bits = [made.node(function, *bits[at: at + 2]) for at in range(0, len(bits), 2)]
    return bits


def full_adder(made, a, b, c):
    half, carry = made.node(XOR, a, b), made.node(AND, a, b)
    return [made.node(XOR, half, c), made.node(OR, carry, made.node(AND, half, c))]


def choice(made, select, low, high):
    return made.node(OR, made.node(AND, inverted(select), low), made.node(AND, select, high))


def of_four(made, a, b, *four):
    return [choice(made, b, choice(made, a, *four[:2]), choice(made, a, *four[2:]))]


def greater(made, a1, a0, b1, b0):
    same = inverted(made.node(XOR, a1, b1))
    return [made.node(OR, made.node(AND, a1, inverted(b1)), made.node(AND, same, made.node(AND, a0, inverted(b0))))]


def decoder(made, *bits):
    return [chained(made, AND, [rails if bit else inverted(rails) for rails, bit in zip(bits, word)])[0]
            for word in itertools.product((0, 1), repeat=len(bits))]


def three_stages():
    made = Drawing(16)
    for others in (lambda bits: bits[8:], lambda bits: bits[1:] + bits[:1]):
        made.close([made.node(XOR, *pair) for pair in zip(made.bits, others(made.bits))])
    return made.text(halved(made, XOR, made.bits))


def of_all(*functions):
    return lambda made, *bits: made.nodes(bits, *functions)


def of_pairs(made, *bits):
    return chained(made, OR, [made.node(AND, *bits[at: at + 2]) for at in range(0, len(bits), 2)])


NETLISTS = {
    "the AND of two bits": lambda: drawing(2, of_all(AND)),
    "their exclusive OR": lambda: drawing(2, of_all(XOR)),
    "the AND of four bits, its minterms joined by a chain of TH12": lambda: drawing(4, of_all(AND), chain),
    "a majority, its ORs of gates of four inputs": lambda: drawing(3, of_all(MAJORITY)),
    "a majority, its ORs of pairs": lambda: drawing(3, of_all(MAJORITY), in_pairs),
    "a full adder, whose sum and carry share minterms": lambda: drawing(3, of_all(XOR, MAJORITY)),
    "such a full adder, its ORs of pairs": lambda: drawing(3, of_all(XOR, MAJORITY), in_pairs),
    "a full adder of two half adders and an OR": lambda: drawing(3, full_adder),
    "the OR of four ANDs of two bits": lambda: drawing(8, of_pairs),
    "a choice of four bits by two, of pairs of AND and OR": lambda: drawing(6, of_four),
    "a decoder of two bits, an AND for each output": lambda: drawing(2, decoder),
    "a decoder of three bits, two ANDs for each output": lambda: drawing(3, decoder),
    "a comparison of two numbers of two bits": lambda: drawing(4, greater),
    "the parity of eight bits, a chain": lambda: drawing(8, lambda made, *bits: chained(made, XOR, bits)),
    "three stages, two of eight exclusive ORs and one of the parity": three_stages,
}

if __name__ == "__main__":
    if len(sys.argv) != 2 or sys.argv[1] not in NETLISTS:
        sys.exit("minterms: no such netlist; there are:\n" + "\n".join(NETLISTS))
    sys.stdout.write(NETLISTS[sys.argv[1]]())
