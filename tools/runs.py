"""Reads runs: what `nclc check --why` and `nclc sim --vcd` write. A run is the values of the nets at its beginning, and changes,
each a net, its value and words."""
import re

from script import Refused


def whole(what, text, end=""):
    """The text, which is refused where it ends within a line, or before what stands at its end."""
    if not text.endswith("\n") or end not in text[text.rfind("\n", 0, -1) + 1:]:
        raise Refused(f"{what}: it is cut off: write it again, whole")
    return text


def read_why(text, pipe):
    lines = text.splitlines()
    word = next((line[10:].strip() for line in lines if re.fullmatch("why: word [01]+", line)), None)
    if word is None or len(word) != len(pipe.banks[0]):
        raise Refused("why: there is no run in it for this netlist")
    whole("why", text, "lost: cell ")
    cells = {name: c for c, (_, name, _) in enumerate(pipe.cells)}
    values, changes, lost = pipe.reset(), [], None
    begin = values[:]
    for line in lines:
        said = re.fullmatch(r"step (\d+): (raise|lower|cell|take|ready)(?: (\S+))?|lost: cell (\S+)", line)
        if not said:
            continue
        number, what, who, name = said.groups()
        no_bit = what in ("raise", "lower") and who not in map(str, range(1, len(word) + 1))
        if no_bit or (what == "cell" and who not in cells) or (name and name not in cells):
            raise Refused(f"why: not of this netlist: {line}")
        if name:
            lost = cells[name]
            continue
        if what == "cell":
            net, wanted = pipe.out(cells[who]), pipe.following(cells[who], values)
        elif what in ("raise", "lower"):
            net, wanted = pipe.cells[pipe.banks[0][int(who) - 1][int(word[int(who) - 1])]][2]["A"], int(what == "raise")
        else:
            net, wanted = pipe.requests[-1], int(what == "ready")
        n = pipe.number[net]
        if values[n] == wanted:
            raise Refused(f"why: can't happen in this netlist: {line}")
        values[n] = wanted
        changes.append([n, values[n], f"{what} {who or ''}".strip()])
    return begin, changes, lost, lines[0]


def read_vcd(text, pipe):
    if "$dumpvars" not in text:
        raise Refused("vcd: there is no dump of values, or it is cut off")
    codes = {code: net for code, net in re.findall(r"^\$var wire 1 (\S+) (\S+) \$end$", text, re.M)}
    if set(codes.values()) != set(pipe.nets):
        raise Refused("vcd: its nets are not those of this netlist")
    body, ended, rest = whole("vcd", text).partition("$dumpvars")[2].partition("$end\n")
    if not ended:
        raise Refused("vcd: it is cut off: write it again, whole")
    begin = [0] * len(pipe.nets)
    for value, code in re.findall(r"^([01])(\S+)$", body, re.M):
        begin[pipe.number[codes[code]]] = int(value)
    changes, time = [], 0
    for line in rest.split():
        if line[0] == "#":
            time = line[1:]
        elif line[0] in "01" and line[1:] in codes:
            net = codes[line[1:]]
            who = "sink" if net == pipe.requests[-1] else "source"
            who = f"cell {pipe.cells[pipe.driver[net]][1]}" if net in pipe.driver else who
            changes.append([pipe.number[net], int(line[0]), f"{who} at {time}"])
        else:
            raise Refused(f"vcd: not understood: {line}")
    return begin, changes, None, ""


def read_orphan(text, pipe):
    """A run of `--why` to its end, at which a cell loses its excitation."""
    run = read_why(text, pipe)
    if run[2] is None or not run[1]:
        raise Refused("why: it has no step, or no line that says which cell is lost")
    return run
