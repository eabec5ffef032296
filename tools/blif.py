"""Reads and writes BLIF as far as the scripts need it: models of covers and registers. It is no judge: `nclc compile` is."""
import graphlib
import re

from script import Refused

WIDTH = 128  # bits of a bank
KINDS = ("re", "fe", "ah", "al", "as")


def logical_lines(text):
    """The lines of a text, with continued ones put together; each with its text as it was."""
    whole, was = "", []
    for line in text.split("\n"):
        was.append(line)
        said = line.partition("#")[0]
        if said.rstrip("\r").endswith("\\"):
            whole += said.rstrip("\r")[:-1] + " "
            continue
        yield whole + said, "\n".join(was)
        whole, was = "", []
    if was:
        yield whole, "\n".join(was)


class Model:
    """A model. A cover is the signals that it reads and its rows; a register its input, kind, clock and first value."""

    def __init__(self, name, inputs=(), outputs=(), covers=()):
        self.name, self.inputs, self.outputs, self.covers, self.registers = name, list(inputs), list(outputs), dict(covers), {}

    def drive(self, signal, line, where, what):
        if signal in self.covers or signal in self.registers:
            raise Refused(f"line {line}: {signal} is driven twice")
        where[signal] = what

    def reads(self, signal):
        """What drives a signal: other signals, or none where it is an input or a constant."""
        if signal in self.registers:
            return self.registers[signal][:1]
        return self.covers[signal][0] if signal in self.covers else []

    def live(self):
        """The driven signals that reach an output, each behind those that it reads."""
        graph, waiting, known = {}, list(self.outputs), {*self.inputs, *self.covers, *self.registers}
        while waiting:
            signal = waiting.pop()
            if signal not in known:
                raise Refused(f"nothing drives {signal}")
            if signal not in graph:
                graph[signal] = self.reads(signal)
                waiting += graph[signal]
        try:
            order = list(graphlib.TopologicalSorter(graph).static_order())
        except graphlib.CycleError as found:
            through = [signal for signal in found.args[1] if signal in self.registers]
            said = f"feedback through the register {through[0]}" if through else f"a cycle through {found.args[1][0]}"
            raise Refused(said) from None
        return [signal for signal in order if signal in self.covers or signal in self.registers]

    def fault(self, clocked):
        """What is wrong with its inputs, outputs and registers, if anything is."""
        if not self.inputs or not self.outputs:
            return "no inputs, or no outputs"
        if self.registers and not clocked:
            return "there are registers in it: tools/stages makes models of a clocked pipeline"
        driven = [name for name in self.inputs if name in self.covers or name in self.registers]
        return f"{driven[0]} is driven twice" if driven else "an input twice" if len(set(self.inputs)) < len(self.inputs) else ""

    def text(self):
        lines = [f".model {self.name}", ".inputs " + " ".join(self.inputs), ".outputs " + " ".join(self.outputs)]
        for signal, (reads, rows) in self.covers.items():
            lines += [".names " + " ".join([*reads, signal]), *rows]
        return "\n".join([*lines, ".end", ""])


class Reader:
    """What was read so far, and the rows of the last cover."""

    def __init__(self):
        self.models, self.rows = [], None

    def take(self, fields, line):
        """Takes the fields of a line."""
        word, names, rows, self.rows = fields[0], fields[1:], self.rows, None
        if word == ".model" or not self.models:
            self.models.append(Model(names[0] if word == ".model" and names else "top"))
        model = self.models[-1]
        if word == ".inputs":
            model.inputs += names
        elif word == ".outputs":
            model.outputs += names
        elif word == ".names" and names:
            self.rows = []
            model.drive(names[-1], line, model.covers, (names[:-1], self.rows))
        elif word == ".latch" and len(names) > 1:
            kind, clock = names[2:4] if len(names) > 3 and names[2] in KINDS else ("", "")
            model.drive(names[1], line, model.registers, (names[0], kind, clock, names[-1] if len(names) in (3, 5) else "3"))
        elif word[0] != "." and rows is not None:
            rows.append(" ".join(fields))
            self.rows = rows
        elif word not in (".model", ".end"):
            raise Refused(f"line {line}: not read: {' '.join(fields)[:60]}")


def in_turn(names, first=()):
    """The names with their bits in turn: those without an index, bit 0 of each vector, bit 1 of each; first these vectors."""
    split = {name: re.fullmatch(r"(.*)\[(\d{1,9})\]", name) for name in names}
    vectors = {}
    for name, found in split.items():
        vectors.setdefault(found[1] if found else name, len(vectors))
    lacking = [name for name in first if name not in vectors]
    if lacking:
        raise Refused(f"no input {lacking[0]}")
    before = {name: place for place, name in enumerate(first)}

    def place(name):
        base, index = (split[name][1], int(split[name][2])) if split[name] else (name, 0)
        if base in before:
            return 0, before[base], index
        return (2, index, vectors[base]) if split[name] else (1, vectors[base], 0)

    return sorted(names, key=place)


def read_models(text, clocked=False):
    """The models of a text, each with inputs and outputs, and with registers where it is clocked."""
    reader, line = Reader(), 1
    for said, was in logical_lines(text):
        fields = said.split()
        if fields:
            reader.take(fields, line)
        line += was.count("\n") + 1
    if not reader.models:
        raise Refused("no model")
    for number, model in enumerate(reader.models, 1):
        fault = model.fault(clocked)
        if fault:
            raise Refused(f"model {number}: {fault}")
    return reader.models


def read_model(text, clocked=False):
    """The model of a text that has one."""
    models = read_models(text, clocked)
    if len(models) > 1:
        raise Refused(f"{len(models)} models where one is wanted: `flatten` makes one of a hierarchy")
    return models[0]
