"""Cuts a network of covers where fewest signals cross, by the greatest flow (Ford and Fulkerson 1956; layers as Dinic 1970)."""
import math

from blif import WIDTH, Model
from script import Refused

ANY = 1 << 30  # room without a bound


class NoCut(Refused):
    """Why a model has no cut where one is wanted."""


class Flow:
    """A network of edges with room for flow."""

    def __init__(self):
        self.to, self.room, self.edges = [], [], []

    def node(self):
        self.edges.append([])
        return len(self.edges) - 1

    def edge(self, begin, end, room):
        """An edge, and behind it the one that takes flow back."""
        for here, there, most in ((begin, end, room), (end, begin, 0)):
            self.edges[here].append(len(self.to))
            self.to.append(there)
            self.room.append(most)

    def layers(self, source):
        """The number of edges with room from the source to each node, -1 where there is no way."""
        layer, waiting = [-1] * len(self.edges), [source]
        layer[source] = 0
        for node in waiting:
            for edge in self.edges[node]:
                if self.room[edge] and layer[self.to[edge]] < 0:
                    layer[self.to[edge]] = layer[node] + 1
                    waiting.append(self.to[edge])
        return layer

    def leads(self, edge, layer, node):
        """Whether an edge of a node has room and leads to the next layer."""
        return self.room[edge] and layer[self.to[edge]] == layer[node] + 1

    def path(self, layer, at, source, sink):
        """A way through the layers as a list of edges, or None; at are the edges of each node up to which none leads on."""
        path, node = [], source
        while node != sink:
            edges = self.edges[node]
            while at[node] < len(edges) and not self.leads(edges[at[node]], layer, node):
                at[node] += 1
            if at[node] < len(edges):
                path.append(edges[at[node]])
                node = self.to[path[-1]]
            elif path:
                node = self.to[path.pop() ^ 1]
                at[node] += 1
            else:
                return None
        return path

    def push(self, path):
        for edge in path:
            self.room[edge] -= 1
            self.room[edge ^ 1] += 1

    def run(self, source, sink, most):
        """The greatest flow, or one more than the most; on each way from source to sink an edge has room for one."""
        flow, layer = 0, self.layers(source)
        at = [0] * len(layer)
        while layer[sink] >= 0 and flow <= most:
            path = self.path(layer, at, source, sink)
            if path:
                self.push(path)
                flow += 1
            else:
                layer, at = self.layers(source), [0] * len(layer)
        return flow


def levels(reads, rows):
    """The levels of gates that a cover of two or more signals is counted for."""
    if reads < 2:
        return 0
    if reads == 3:  # a parity is two exclusive ORs, or a sum beside a carry
        return 2 if sum("-" not in row.split()[0] for row in rows) == 4 else 1
    return 1 if reads == 2 else math.ceil(math.log2(reads)) + (reads > 4)


class Network:
    """The covers of a model that reach an output, in their order, with their levels; constants stand apart."""

    def __init__(self, model):
        self.model, self.constants, self.order, self.outputs = model, set(), [], set(model.outputs)
        for signal in model.live():
            (self.constants.add if self.constants.issuperset(model.reads(signal)) else self.order.append)(signal)
        self.levels = {signal: levels(len(model.covers[signal][0]), model.covers[signal][1]) for signal in self.order}
        self.deep = self.depths(self.order)

    def depths(self, order):
        """The levels up to each signal of an order."""
        deep = {}
        for signal in order:
            deep[signal] = self.levels[signal] + max((deep.get(name, 0) for name in self.model.reads(signal)), default=0)
        return deep

    def heights(self, order):
        """The levels from each signal of an order on, its own with them."""
        high = {}
        for signal in reversed(order):
            high[signal] = self.levels[signal] + high.get(signal, 0)
            for name in self.model.reads(signal):
                high[name] = max(high.get(name, 0), high[signal])
        return high

    def flow(self, sources, behind, depth, rest):
        """The flow from what has to stand before a cut to what has to stand behind it, and the node of each signal."""
        deep, high, flow = self.depths(behind), self.heights(behind), Flow()
        source, sink = flow.node(), flow.node()  # 0 and 1
        nodes = {signal: flow.node() for signal in behind}
        for signal in behind:
            if deep[signal] > depth and high[signal] > rest:
                raise NoCut(f"{signal} has to stand before a cut and behind it")
            if high[signal] > rest:
                flow.edge(source, nodes[signal], ANY)
            if deep[signal] > depth:
                flow.edge(nodes[signal], sink, ANY)
        self.cross(flow, nodes, sources, behind)
        return flow, nodes

    def cross(self, flow, nodes, sources, behind):
        """Each signal crosses once for all that read it, and what is read before a cut stands before it."""
        crossing = {name: flow.node() for name in dict.fromkeys([*sources, *behind])}
        for name, node in crossing.items():
            flow.edge(nodes.get(name, 0), node, 1)
            if name in self.outputs:
                flow.edge(node, 1, ANY)
        for signal in behind:
            for name in self.model.reads(signal):
                if name in nodes:
                    flow.edge(nodes[signal], nodes[name], ANY)
                if name in crossing:
                    flow.edge(crossing[name], nodes[signal], ANY)

    def before(self, sources, behind, left, slack):
        """What stands before the next cut, where so many stages are left for what is behind."""
        total = max(self.depths(behind).values(), default=0)
        flow, nodes = self.flow(sources, behind, math.ceil(total / left) + slack, total - total // left + slack)
        if flow.run(0, 1, WIDTH) > WIDTH:
            raise NoCut(f"more than {WIDTH} signals cross")
        layer = flow.layers(0)
        return {signal for signal in behind if layer[nodes[signal]] >= 0}

    def part(self, number, inputs, own, outputs):
        """A model of some covers, with the constants that they read, in the order of the text."""
        needed, waiting = set(own), [*outputs, *(name for signal in own for name in self.model.reads(signal))]
        for name in waiting:
            if name in self.constants and name not in needed:
                needed.add(name)
                waiting += self.model.reads(name)
        kept = ((signal, cover) for signal, cover in self.model.covers.items() if signal in needed)
        return Model(f"{self.model.name}_{number}", inputs, outputs, kept)

    def split(self, stages, slack):
        """So many models in a row with the function of the model."""
        sources, behind, parts = self.model.inputs, self.order, []
        for number in range(1, stages):
            found = self.before(sources, behind, stages - number + 1, slack)
            own, behind = [signal for signal in behind if signal in found], [signal for signal in behind if signal not in found]
            later = {name for signal in behind for name in self.model.reads(signal)}.union(self.model.outputs)
            crossing = [name for name in [*dict.fromkeys(sources), *own] if name in later]
            if not crossing:
                raise NoCut("nothing crosses")
            parts.append(self.part(number, sources, own, crossing))
            sources = crossing
        return [*parts, self.part(stages, sources, behind, self.model.outputs)]


def split(network, stages, slack):
    """The models, by the least slack from this on, up to steps that grow, with which there are cuts."""
    total = max(network.deep.values(), default=0)
    while True:
        try:
            return network.split(stages, slack)
        except NoCut as why:
            if slack > total:
                raise NoCut(f"no {stages} stages: {why}") from None
            slack += max(1, slack // 4)


def depth(model):
    """The levels of a model."""
    return max(Network(model).deep.values(), default=0)
