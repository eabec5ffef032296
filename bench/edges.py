#!/usr/bin/env python3
"""Crates that stand on another one for a few names alone, and what that costs.

    bench/edges.py [--most NAMES]

What a crate is checked with, the memory that the gate keeps for it and what it waits for go by all crates below it. So a name of
crates.txt is dear where it brings crates that no other name brings, for a few definitions or lemmas that could stand lower. Reads
the files of src/, specs/ and proofs/ of each crate. Prints each pair of crates of which the first calls nothing of the second and
brings at most so many of its names (12 without --most): how many these are, and how many lines of src/ the first would stand on
less, the most of them first; then the names, with the modules that they come from.
"""
import argparse
import pathlib
import re
import sys

TOP = pathlib.Path(__file__).resolve().parent.parent
LINE = re.compile(r"^(\w+)[^:#\n]*:(.*)$", re.MULTILINE)
BROUGHT = re.compile(r"\buse Rattle\.(\w+)\.([\w+]+(?:\.[\w+]+)*)(?:\.\{([^}]*)\})?")


def listed():
    """The crates, each with those of this repository that its line names."""
    found = {crate: names.split() for crate, names in LINE.findall((TOP / "crates.txt").read_text())}
    return {crate: [name for name in names if name in found] for crate, names in found.items()}


def below(crates, crate, without=None):
    """The crates that a crate stands on, where its line lacks one name."""
    found, left = set(), [name for name in crates[crate] if name != without]
    while left:
        name = left.pop()
        if name not in found:
            found.add(name)
            left += crates[name]
    return found


def texts_of(crate, *kinds):
    """The texts of a crate's files of some kinds."""
    return [path.read_text() for kind in kinds for path in sorted((TOP / "crates" / crate).glob(kind))]


def brought(texts):
    """For each crate the names that texts bring of it, with their modules."""
    found = {}
    for text in texts:
        for crate, module, names in BROUGHT.findall(text):
            for name in names.split(",") if names else [""]:
                found.setdefault(crate, set()).add(f"{module}.{name.strip()}".rstrip("."))
    return found


def thin(crates, most):
    """The pairs of crates with few names between them, the lines that the name of the second brings, and the names."""
    lines = {crate: sum(text.count("\n") for text in texts_of(crate, "src/**/*.rt")) for crate in crates}
    found = []
    for crate, names in crates.items():
        calls = "".join(texts_of(crate, "src/**/*.rt"))
        taken = brought(texts_of(crate, "src/**/*.rt", "specs/**/*.antt", "proofs/**/*.antt"))
        for name in names:
            cost = sum(lines[other] for other in below(crates, crate) - below(crates, crate, name))
            if cost and not re.search(rf"\b{name}::", calls) and len(taken.get(name, ())) <= most:
                found.append((cost, crate, name, sorted(taken.get(name, ()))))
    return sorted(found, key=lambda row: -row[0])


def main():
    parser = argparse.ArgumentParser(description=__doc__, formatter_class=argparse.RawDescriptionHelpFormatter)
    parser.add_argument("--most", type=int, default=12, metavar="NAMES")
    rows = thin(listed(), parser.parse_args().most)
    for cost, crate, name, names in rows:
        print(f"{crate} on {name}: {len(names)} names, {cost} lines: {', '.join(names)}")
    print(f"{len(rows)} pairs")
    return 0


if __name__ == "__main__":
    sys.exit(main())
