"""The banks and stages of a netlist, as far as its banks follow one another."""
from netlist import REGISTERS, rises
from script import Refused
from shape import PORT, Shape


class Pipeline(Shape):
    """The banks and stages of a netlist. A bit is the cells of its rails 0 and 1 and its acknowledge cell."""

    def __init__(self, text):
        super().__init__(text)
        for c, (kind, name, _) in enumerate(self.cells):
            if kind == "TH12B" and c not in self.request_of:
                raise Refused(f"no pipeline: {name} does not read the two rails of a bit")
        if self.unsorted:
            raise Refused("no pipeline: a cycle of gates")
        for c in self.order:
            if self.single(self.out(c)) in (None, PORT):
                raise Refused(f"no pipeline: {self.cells[c][1]} does not read one bank alone")
        self.origin = {net: self.single(net) for net in self.nets}
        banks = {request: [(*self.rails_of(c), c) for c in cells] for request, cells in self.acks.items()}
        self.follow(banks)

    def follow(self, banks):
        """Puts the banks in a row, with the stages and the completion trees between them."""
        last = [request for request in banks if request in self.inputs]
        following = {self.origin[request][1]: request for request in banks if self.origin[request][0] == "acks"}
        if len(last) != 1 or len(following) != len(banks) - 1:
            raise Refused("no pipeline: the banks do not follow one another")
        requests = last
        while requests[0] in following and len(requests) < len(banks):
            requests.insert(0, following[requests[0]])
        paired = sorted(r for bits in banks.values() for bit in bits for r in bit[:2])
        if len(requests) < len(banks) or paired != [c for c, cell in enumerate(self.cells) if cell[0] in REGISTERS]:
            raise Refused("no pipeline: a bank stands apart, or a register cell is not in one bit")
        self.requests, self.banks = requests, [banks[request] for request in requests]
        behind = self.gates_by_origin()
        self.stages, self.trees = ([behind.get((what, request), []) for request in requests] for what in ("rails", "acks"))
        for k, request in enumerate(requests):
            read = {self.origin[self.cells[r][2]["A"]] for bit in self.banks[k] for r in bit[:2]}
            if not all(o[0] == "port" for o in read) if k == 0 else read != {("rails", requests[k - 1])}:
                raise Refused(f"no pipeline: bank {k + 1} reads something else than the stage before it")
        if self.stages[-1]:
            raise Refused("no pipeline: a gate reads the last bank")
        shown = [net for net in self.outs if self.origin[net] == ("acks", requests[0])]
        if len(shown) != 1:
            raise Refused("no pipeline: no output port, or several, is the acknowledge of the first bank")
        self.roots = shown + requests[:-1]

    def following(self, c, values):
        """The next value of a cell at these values of the nets."""
        reads = [values[self.number[net]] for net in self.reads(c)]
        if rises(self.cells[c][0]) >> sum(v << i for i, v in enumerate(reads)) & 1:
            return 1
        return values[self.number[self.out(c)]] if any(reads) and self.cells[c][0] != "TH12B" else 0

    def reset(self):
        high = {self.requests[-1]} | {pins["Z"] for kind, _, pins in self.cells if kind == "TH22D"}
        for bits, tree in zip(self.banks, self.trees):
            if not any(self.cells[r][0] == "TH22D" for bit in bits for r in bit[:2]):
                high |= {self.out(c) for c in [*(bit[2] for bit in bits), *tree]}
        return [int(net in high) for net in self.nets]

    def ends(self):
        """What the nets of both ends are: `ki`, `ko`, `rst`, and rail 1 of bit 3 `x1[3]` before the first bank, `z1[3]` behind the last."""
        names = {self.requests[-1]: "ki", self.roots[0]: "ko"}
        names.update((pins["RST"], "rst") for kind, _, pins in self.cells if kind in REGISTERS)
        for b, bit in enumerate(self.banks[0]):
            names.update((self.cells[bit[rail]][2]["A"], f"x{rail}[{b}]") for rail in (0, 1))
        for b, bit in enumerate(self.banks[-1]):
            names.update((self.out(bit[rail]), f"z{rail}[{b}]") for rail in (0, 1))
        return names

    def stage_text(self, k, order=None):
        """The stage behind bank k with its two banks, which hold no word, as a netlist; nets and cells are numbered. The bits of
        bank k stand in this order, or as they do."""
        net = lambda name: f"n{self.number[name]}"
        before, behind = [self.banks[k][i] for i in order or range(len(self.banks[k]))], self.banks[k + 1]
        given = {cell: f"i{i}_{rail}" for i, bit in enumerate(before) for rail, cell in enumerate(bit[:2])}
        cells = [cell for bit in [*before, *behind] for cell in bit] + self.trees[k] + self.stages[k] + self.trees[k + 1]
        resets = {self.cells[cell][2]["RST"]: None for cell in cells if self.cells[cell][0] in REGISTERS}
        inputs = [*given.values(), net(self.requests[k + 1]), *map(net, resets)]
        outputs = [net(self.out(cell)) for bit in behind for cell in bit[:2]] + [net(self.roots[k])]
        text = [f"module stage{k + 1} ({', '.join(inputs + outputs)});"]
        text += [f"input {', '.join(inputs)};", f"output {', '.join(outputs)};"]
        for cell in cells:
            kind, _, pins = self.cells[cell]
            joined = (f".{pin}({given[cell] if pin == 'A' and cell in given else net(name)})" for pin, name in pins.items())
            text.append(f"{'TH22N' if kind in REGISTERS else kind} c{cell} ({', '.join(joined)});")
        return "\n".join([*text, "endmodule\n"])
