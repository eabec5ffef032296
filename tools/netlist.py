"""Reads netlist texts: their names, ports and cells, and what the cells do. It is no judge: `nclc check` is."""
import re

from script import Refused

OTHERS = {"THxor0": "AB+CD", "THand0": "AB+BC+AD", "TH24comp": "AC+BC+AD+BD"}
GATES = """TH12 TH22 TH13 TH23 TH33 TH23w2 TH33w2 TH14 TH24 TH34 TH44 TH24w2 TH34w2 TH44w2 TH34w3 TH44w3 TH24w22 TH34w22
    TH44w22 TH54w22 TH34w32 TH54w32 TH44w322 TH54w322 THxor0 THand0 TH24comp""".split()
REGISTERS = {"TH22N": "2n", "TH22D": "2d"}


def weights(kind):
    """The threshold of a gate and the weights of its pins; of the three that have none, the threshold 0."""
    if kind in OTHERS:
        return 0, [1, 1, 1, 1]
    threshold, width, more = re.fullmatch(r"TH(\d)(\d)(?:w(\d+))?", kind).groups()
    return int(threshold), [int(w) for w in (more or "").ljust(int(width), "1")]


def inputs_of(kind):
    return "AB" if kind in REGISTERS or kind == "TH12B" else "ABCD"[: len(weights(kind)[1])]


def rises(kind):
    """The set function as a number: its bit m is the value where the pins of the bits of m are high."""
    pins = inputs_of(kind)
    sets = [{pin for i, pin in enumerate(pins) if m >> i & 1} for m in range(1 << len(pins))]
    if kind in REGISTERS:
        return 8
    if kind == "TH12B":
        return 1
    if kind in OTHERS:
        return sum(any(set(p) <= high for p in OTHERS[kind].split("+")) << m for m, high in enumerate(sets))
    threshold, each = weights(kind)
    return sum((sum(w for pin, w in zip(pins, each) if pin in high) >= threshold) << m for m, high in enumerate(sets))


def rows_of(kind):
    """The rows of a cover that is the set function, without what they end in."""
    table, count = rises(kind), len(inputs_of(kind))
    return ["".join(str(word >> i & 1) for i in range(count)) for word in range(1 << count) if table >> word & 1]


SPACE = r"(?:\s|//[^\n]*|/\*.*?\*/|\(\*.*?\*\))*"
TOKEN = re.compile(SPACE + r"(?:(\\[!-~]+)\s|([A-Za-z_][\w$]*|\d+(?![\w'])|[(),;.\[\]:])|\Z)", re.S | re.A)
DIRECTIVE = re.compile(SPACE + r"(`\w+)", re.S | re.A)
NAME = r"(\\\S+|[A-Za-z_]\S*)"
CONNECTION = rf"\. {NAME} \( {NAME} (?:\[ (\d+) \] )?\)"
CELL = re.compile(rf"{NAME} {NAME} \( ({CONNECTION}(?: , {CONNECTION})*) \)")
RANGE = r"\[ (\d{1,5}) : (\d{1,5}) \]"


def written(name):
    """A name in Verilog."""
    return name if re.fullmatch(r"[A-Za-z_][\w$]*", name, re.A) else f"\\{name} "


def tokens(text):
    """The tokens of a text with their places, but for comments; an escaped name has its backslash."""
    at = 0
    while at < len(text):
        found = TOKEN.match(text, at)
        if not found:
            directive = DIRECTIVE.match(text, at)
            raise Refused(f"netlist: the directive {directive[1]}" if directive else f"netlist: not understood behind byte {at}")
        at, token = found.end(), found[1] or found[2]
        if token:
            yield at - len(token) - bool(found[1]), token


def placed(text):
    """Of each statement the place, from the end of the one before it, and the tokens; the last is what follows the last semicolon."""
    begin, words = 0, []
    for at, token in tokens(text):
        if token == ";":
            yield begin, at + 1, words
            begin, words = at + 1, []
        else:
            words.append(token)
    yield begin, len(text), words


def statements(text):
    """The tokens of each statement, of which the first is the header and the last `endmodule`."""
    found = [words for _, _, words in placed(text)]
    if found[0][:1] != ["module"] or len(found[0]) < 2 or found[-1] != ["endmodule"] or len(found) < 2:
        raise Refused("netlist: not one module from module to endmodule")
    return found


def read_cell(item):
    """The kind, the name and the nets by pin of an instance."""
    found = CELL.fullmatch(" ".join(item))
    if not found:
        raise Refused("netlist: not understood: " + " ".join(item)[:60])
    kind, name = found[1], found[2].lstrip("\\")
    if kind not in GATES and kind not in REGISTERS and kind != "TH12B":
        raise Refused(f"netlist: unknown cell {kind}")
    pins = {pin: net.lstrip("\\") + (index and f"[{int(index)}]") for pin, net, index in re.findall(CONNECTION, found[3])}
    if set(pins) != set(inputs_of(kind)) | {"Z"} | ({"RST"} if kind in REGISTERS else set()):
        raise Refused(f"netlist: bad pins of {name}")
    return kind, name, pins


def read_ports(text):
    """The name of the module, and its ports as in the header: a name, a way, and the numbers of a vector's bits or None."""
    return ports_in(statements(text))


def ports_in(parts):
    head, *items = parts
    vectors, ways = {}, {}
    for item in [head[3:-1], *(item for item in items if item[:1] and item[0] in ("input", "output", "wire"))]:
        declare(item, vectors, ways)
    return head[1].lstrip("\\"), [(name, way, vectors.get(name)) for name, way in ways.items() if way]


def bits_of(name, span):
    return [name] if span is None else [f"{name}[{i}]" for i in span]


def read_netlist(text):
    """The name, the input ports, the output ports, and the cells as kind, name and nets by pin."""
    parts = statements(text)
    name, ports = ports_in(parts)
    cells = [read_cell(item) for item in parts[1:-1] if item[:1] not in (["input"], ["output"], ["wire"])]
    nets = lambda wanted: [net for port, way, span in ports if way == wanted for net in bits_of(port, span)]
    return name, nets("input"), nets("output"), cells


def declare(tokens, vectors, ways):
    """Notes the names of a header, which may have groups, or of one declaration, with their ranges and ways."""
    if re.search(r"(?:^| )[().\d:[\]]", re.sub(RANGE, "", " ".join(tokens))):
        raise Refused("netlist: not understood: " + " ".join(tokens)[:60])
    way, span, tokens = None, None, iter(tokens)
    for token in tokens:
        if token in ("input", "output"):
            way, span = token, None
        elif token == "[":
            first, _, last, _ = (next(tokens) for _ in range(4))
            step = 1 if int(first) <= int(last) else -1
            span = range(int(first), int(last) + step, step)
        elif token not in (",", "wire"):
            name = token.lstrip("\\")
            ways[name] = way or ways.get(name)
            if span:
                vectors[name] = span
