"""What a netlist is made of, whether it is a pipeline or not: its banks, what leads where, and the rule of shape that it breaks."""
import collections

from netlist import GATES, REGISTERS, inputs_of, read_netlist
from script import Refused

PORT = ("port", "")
MOST_ORIGINS = 3  # of more origins than these a net keeps as many: it has too many anyway
WAITING = ("TH22", "TH33", "TH44")
MOST_BITS, MOST_BANKS = 128, 256


def twice(names):
    """The first name that stands a second time, or nothing."""
    seen = set()
    return next((name for name in names if name in seen or seen.add(name)), None)


class Shape:
    """A netlist with its banks. A bank is the register cells with one net on pin B, its request. The origins of a net are what
    paths of gates lead back to: ports, the rails of banks, and acknowledge cells of banks; each a kind and a request."""

    def __init__(self, text):
        self.name, self.ins, self.outs, self.cells = read_netlist(text)
        self.inputs = set(self.ins)
        self.nets = list(dict.fromkeys(self.ins + self.outs + [net for _, _, pins in self.cells for net in pins.values()]))
        self.number = {net: i for i, net in enumerate(self.nets)}
        self.driver = {pins["Z"]: c for c, (_, _, pins) in enumerate(self.cells)}
        again = twice(name for _, name, _ in self.cells)
        if again is not None:
            raise Refused(f"netlist: two cells {again}")
        driven = collections.Counter([*self.ins, *(self.out(c) for c in range(len(self.cells)))])
        again = next((net for net in self.nets if driven[net] > 1), None)
        if again is not None:
            raise Refused(f"netlist: two drivers of {again}")
        lacking = next((net for net in self.nets if net not in self.driver and net not in self.inputs), None)
        if lacking is not None:
            raise Refused(f"netlist: no driver of {lacking}")
        self.gates = [c for c, cell in enumerate(self.cells) if cell[0] in GATES]
        self.find_banks()
        self.sort_gates()
        self.find_origins()

    def out(self, c):
        return self.cells[c][2]["Z"]

    def reads(self, c):
        return [self.cells[c][2][pin] for pin in inputs_of(self.cells[c][0])]

    def behind(self, c):
        """The gates that a cell reads."""
        return [self.driver[net] for net in self.reads(c) if net in self.driver and self.cells[self.driver[net]][0] in GATES]

    def find_banks(self):
        """The register cells and the acknowledge cells of each request, and the acknowledge pins that read each register cell."""
        self.members, self.acks, self.request_of, self.paired = {}, {}, {}, {}
        for c, (kind, _, pins) in enumerate(self.cells):
            if kind in REGISTERS:
                self.members.setdefault(pins["B"], []).append(c)
                self.acks.setdefault(pins["B"], [])
                self.request_of[c] = pins["B"]
        for c, (kind, _, pins) in enumerate(self.cells):
            if kind == "TH12B":
                rails = self.rails_of(c)
                for rail in rails:
                    self.paired[rail] = self.paired.get(rail, 0) + 1
                if len({self.request_of.get(rail) for rail in rails}) == 1 and rails[0] in self.request_of:
                    self.request_of[c] = self.request_of[rails[0]]
                    self.acks[self.request_of[c]].append(c)

    def rails_of(self, c):
        """The cells that drive pins A and B of an acknowledge cell."""
        return [self.driver.get(self.cells[c][2][pin]) for pin in "AB"]

    def sort_gates(self):
        """The gates in an order in which each stands behind those that it reads, and those that no order has: cycles, and
        what stands behind them."""
        readers, waits = {c: [] for c in self.gates}, {}
        for c in self.gates:
            waits[c] = len(self.behind(c))
            for gate in self.behind(c):
                readers[gate].append(c)
        self.order = [c for c in self.gates if not waits[c]]
        for c in self.order:
            for reader in readers[c]:
                waits[reader] -= 1
                if not waits[reader]:
                    self.order.append(reader)
        self.unsorted = [c for c in self.gates if waits[c]]

    def find_origins(self):
        self.origins = {net: {PORT} for net in self.inputs}
        for c, (kind, _, pins) in enumerate(self.cells):
            if kind in REGISTERS or kind == "TH12B":
                self.origins[pins["Z"]] = {("rails" if kind in REGISTERS else "acks", self.request_of.get(c, ""))}
        for c in [*self.order, *self.unsorted]:
            found = set().union(*(self.origins.get(net, ()) for net in self.reads(c)))
            self.origins[self.out(c)] = set(sorted(found)[:MOST_ORIGINS])

    def single(self, net):
        """The origin of a net that has one alone, or nothing."""
        return next(iter(self.origins[net])) if len(self.origins[net]) == 1 else None

    def gates_by_origin(self):
        """The gates of each origin, in order: of the rails of a bank a stage, and of its acknowledge cells its tree."""
        found = {}
        for c in self.order:
            found.setdefault(self.single(self.out(c)), []).append(c)
        return found

    def root_nets(self):
        """For each bank the nets of its completion that request, or are output ports."""
        asked, found = {*self.members, *self.outs}, {request: [] for request in self.members}
        for net in self.nets:
            one = self.single(net) if net in asked else None
            if one and one[0] == "acks" and one[1] in found:
                found[one[1]].append(net)
        return found


def cycle(shape):
    """The first gate on a cycle: of the groups that lead to one another, by a search forwards and one back."""
    left, done, order = set(shape.unsorted), set(), []
    for start in shape.unsorted:
        stack = [(start, False)]
        while stack:
            c, leave = stack.pop()
            if leave:
                order.append(c)
            elif c not in done:
                done.add(c)
                stack += [(c, True), *((gate, False) for gate in shape.behind(c) if gate in left and gate not in done)]
    return least_of_cycles(shape, left, order)


def least_of_cycles(shape, left, order):
    readers, group, found = {c: [] for c in left}, {}, []
    for c in left:
        for gate in shape.behind(c):
            if gate in left:
                readers[gate].append(c)
    for start in reversed(order):
        stack, members = [start], []
        while stack:
            c = stack.pop()
            if c not in group:
                group[c] = start
                members.append(c)
                stack += readers[c]
        if len(members) > 1 or members and start in shape.behind(start):
            found.append(min(members))
    return min(found, default=None)


def is_unpaired(shape, c):
    kind = shape.cells[c][0]
    if kind in REGISTERS:
        return shape.paired.get(c, 0) != 1
    if kind != "TH12B":
        return False
    first, second = shape.rails_of(c)
    return c not in shape.request_of or first == second or shape.cells[first][0] == shape.cells[second][0] == "TH22D"


def is_mixed(shape, c, held):
    """Whether a cell breaks the rule of origins; `held` are the banks with a cell that is reset to 1."""
    kind, _, pins = shape.cells[c]
    if kind == "TH12B":
        return shape.request_of[c] in held and not any(shape.cells[rail][0] == "TH22D" for rail in shape.rails_of(c))
    if kind not in REGISTERS:
        one = shape.single(pins["Z"])
        return one in (None, PORT) or one[0] == "acks" and kind not in WAITING
    first = shape.cells[shape.members[pins["B"]][0]][2]["A"]
    asks, given = shape.single(pins["B"]), shape.single(pins["A"])
    through = any(shape.single(pins[pin]) == PORT and pins[pin] not in shape.inputs for pin in "AB")
    return pins["RST"] not in shape.inputs or not asks or asks[0] == "rails" or through or not given or given[0] == "acks" or given != shape.single(first)


def is_loose(shape, c, read):
    return shape.single(shape.out(c))[0] == "acks" and shape.out(c) not in read


def cell_fault(shape):
    """The first fault of the rules of single ports and cells, as its text and what it names."""
    used = {net for _, _, pins in shape.cells for pin, net in pins.items() if pin != "Z"}
    port = next((net for net in shape.ins if net not in used), None)
    if port is not None:
        return f"unused port {port}", port
    held = {pins["B"] for kind, _, pins in shape.cells if kind == "TH22D"}
    read = {*shape.outs, *shape.members, *(net for c in shape.gates for net in shape.reads(c))}
    first = lambda breaks: next((c for c in range(len(shape.cells)) if breaks(c)), None)
    for what, find in (("cycle", lambda: cycle(shape)), ("unpaired", lambda: first(lambda c: is_unpaired(shape, c))),
                       ("mixed", lambda: first(lambda c: is_mixed(shape, c, held))), ("loose", lambda: first(lambda c: is_loose(shape, c, read)))):
        c = find()
        if c is not None:
            return f"{what} at cell {shape.cells[c][1]}", c
    return None


def chain_of(shape):
    """The banks in a row as far as each is read by one other, from the one that reads ports, and the inner rule that is broken
    with what it is about, or nothing: rules 1 to 5."""
    source = {request: shape.single(shape.cells[members[0]][2]["A"]) or ("", "") for request, members in shape.members.items()}
    first = [request for request in source if source[request] == PORT]
    last = [request for request in source if request in shape.inputs]
    if not source:
        return [], (1, None)
    if len(first) != 1 or len(last) != 1:
        return [], (2, next(iter((first[1:] or last[1:] or list(source)))))
    again = twice(one[1] for one in source.values() if one[0] == "rails")
    if again is not None:
        return [], (3, [request for request in source if source[request] == ("rails", again)][1])
    following, row = {one[1]: request for request, one in source.items() if one[0] == "rails"}, first
    while row[-1] in following:
        row.append(following[row[-1]])
    apart = next((request for request in source if request not in set(row)), None)
    if apart is not None:
        return row, (4, apart)
    wrong = next((here for here, there in zip(row, row[1:]) if shape.single(here) != ("acks", there)), None)
    return row, (5, wrong) if wrong is not None or row[-1] not in shape.inputs else None


def ports_fault(shape, row, roots):
    """The inner rules of ports, 7 and 8, and 9 of words at reset."""
    rails = [shape.out(c) for c in shape.members[row[-1]]]
    read_last = next((c for c in shape.gates if shape.single(shape.out(c)) == ("rails", row[-1])), None)
    other = set(shape.outs) ^ {*rails, *roots[row[0]]}
    if other or read_last is not None:
        return 7, next((net for net in shape.nets if net in other), read_last)
    roles = {}
    for c, (kind, _, pins) in enumerate(shape.cells):
        for pin in ("A", "B", "RST") if kind in REGISTERS else ():
            roles.setdefault(pins[pin], []).append((pin, c if pin == "A" else None))
    shared = next((net for net in shape.ins if len(set(roles[net])) > 1), None)
    if shared is not None:
        return 8, shared
    holds = [any(shape.cells[c][0] == "TH22D" for c in shape.members[request]) for request in row]
    return next(((9, there) for here, there, pair in zip(row, row[1:], zip(holds, holds[1:])) if all(pair)), None)


def fault(shape):
    """The first rule of shape that is broken, as `nclc check` tells it, and what it is about: a cell as its number, a port or a
    request as its name, or nothing of a netlist without banks. None of a netlist that has the shape."""
    found = cell_fault(shape)
    if found:
        return "shape: " + found[0], found[1]
    row, found = chain_of(shape)
    roots = shape.root_nets()
    if not found:
        several = next((request for request in row if len(roots[request]) != 1), None)
        found = (6, several) if several is not None else ports_fault(shape, row, roots)
    if found:
        return f"shape: no chain, rule {found[0]}", found[1]
    wide = next((k for k, request in enumerate(row, 1) if len(shape.acks[request]) > MOST_BITS), None)
    if wide:
        return f"shape: too wide, bank {wide}", row[wide - 1]
    return ("shape: too long", row[MOST_BANKS]) if len(row) > MOST_BANKS else None
