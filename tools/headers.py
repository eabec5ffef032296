"""The models of a BLIF text as texts, and the names at both ends; what stands between is not looked at."""
from blif import logical_lines
from script import Refused


def ends(text):
    """The name of the first model, its inputs, and the outputs of the last model."""
    name, models, inputs, outputs = "", 0, [], []
    for line, _ in logical_lines(text):
        fields = line.split()
        if fields[:1] == [".model"]:
            models += 1
            name, outputs = name if models > 1 else "".join(fields[1:2]), []
        elif fields[:1] == [".inputs"] and models < 2:
            inputs += fields[1:]
        elif fields[:1] == [".outputs"]:
            outputs += fields[1:]
    if not inputs or not outputs:
        raise Refused("blif: there are no inputs in the first model, or no outputs in the last")
    return name, inputs, outputs


def models(text):
    """The text of each model, without remarks and empty lines."""
    parts = []
    for line, _ in logical_lines(text):
        if line.split()[:1] == [".model"] or line.strip() and not parts:
            parts.append([])
        if line.strip():
            parts[-1].append(line.strip() + "\n")
    return ["".join(part) for part in parts]


def pieces(text):
    """The text cut where a model begins, with all that stands there; remarks before the first model are the first one's."""
    parts, said = [""], False
    for line, was in logical_lines(text):
        if said and line.split()[:1] == [".model"]:
            parts.append("")
        said = said or bool(line.strip())
        parts[-1] += was + "\n"
    parts[-1] = parts[-1][:-1]
    return parts
