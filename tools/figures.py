"""Figures of a netlist: its cells, areas, and the gates on the longest ways through its stages."""
import pathlib
import re

from script import Refused, text_of

LIBRARY = pathlib.Path(__file__).resolve().parent.parent / "examples/cells.lib"


def areas(name=LIBRARY):
    """The areas of the cells in a Liberty file, by kind."""
    text = re.sub(r"/\*.*?\*/", " ", text_of(name), flags=re.S)
    found = dict(re.findall(r'\bcell\s*\(\s*"?(\w+)"?\s*\)\s*\{[^{}]*?\barea\s*:\s*([\d.]+(?:[eE][+-]?\d+)?)', text))
    if not found:
        raise Refused(f"{name}: no cell with an area")
    return {kind: float(area) for kind, area in found.items()}


def area_of(kinds, table):
    """The areas of cells, added up."""
    kinds = list(kinds)
    lacking = sorted(set(kinds) - set(table))
    if lacking:
        raise Refused(f"no area of {lacking[0]}")
    total = sum(table[kind] for kind in kinds)
    return int(total) if total == int(total) else round(total, 3)


def levels(pipe):
    """For each net that a gate drives the gates on the longest way to it."""
    level = {}
    for c in pipe.order:
        level[pipe.out(c)] = 1 + max(level.get(read, 0) for read in pipe.reads(c))
    return level


def longest(pipe, level, k):
    """The gates on a longest way through the stage behind bank k, from the bank on."""
    way = [max(pipe.stages[k], key=lambda c: level[pipe.out(c)])] if pipe.stages[k] else []
    while way and level[pipe.out(way[-1])] > 1:
        way.append(pipe.driver[max(pipe.reads(way[-1]), key=lambda net: level.get(net, 0))])
    return way[::-1]


def depths(pipe):
    """The gates on the longest way through each stage, and through the completion of each bank."""
    most = {}
    for net, level in levels(pipe).items():
        most[pipe.origin[net]] = max(most.get(pipe.origin[net], 0), level)
    ways = lambda what: [most.get((what, request), 0) for request in pipe.requests]
    return ways("rails")[:-1], ways("acks")
