#!/usr/bin/env python3
"""Says what the proof of a crate costs, function by function.

    bench/costs.py CRATE .. [--least SECONDS]

`rt check` writes a file into crates/CRATE/out/incremental for each part of a function's proof as it ends with it, so the time
between two files is what the later one took. That holds for a check from nothing by one job: remove crates/CRATE/out/incremental
and run `rt check --jobs 1` in crates/CRATE first, with nothing else running. For each crate the first line tells how long all
files took together, how much of it went into those that are generated from the bodies and the types, into the search for goals
that have no written answer, and into what a person wrote (definitions, lemmas, invariants, answers), and how much into
functions that took more than 5 seconds each; then comes a line for each function that took at least so many seconds (3 without
--least): the seconds, of them those of the generated steps, of the search, of the written answers, and of the rest of the
proof. Many steps mostly come of many owned values that are held while something is called that may fail: give it parts that
take references. A search of more than two seconds is for a goal that should have an answer.
"""
import collections
import os
import pathlib
import re
import sys

TOP = pathlib.Path(__file__).resolve().parent.parent
sys.path.insert(0, str(TOP / "tools"))
from script import Parser, Refused, carry_out

# How the file of a part of a proof ends its name; what is left is the function, or a file of lemmas.
PARTS = r"Lts|Proof|Tie|Code|Statement|Goals|Met|Kinds[-\d]*|Invariants|Answers|Reads|Given|View|Layout|Named|Symbol|Key|TheLink"
# The parts that a person writes. The search is the part Proof, and the others are generated.
WRITTEN = ("Answers", "Invariants")
MANY = 5


def files_of(folder):
    """The time, and the name of the module, of each file of proofs below the folder, in the order in which they were written."""
    found = []
    for at, _, names in os.walk(folder):
        for name in names:
            if name.endswith(".oantt"):
                found.append((os.stat(f"{at}/{name}").st_mtime, name.removesuffix(".oantt").removesuffix(".decls")))
    return sorted(found)


def part_of(name):
    """The function or the file of lemmas that a module belongs to, and the kind of the part."""
    words, part = re.sub(r"^Rattle-\w+(-specs|-proofs)?\.?", "", name).split("."), ""
    while len(words) > 1 and re.fullmatch(PARTS, words[-1]):
        part = words.pop()
    return ".".join(words) or "(all that is below the crate)", part


def costs_of(crate):
    """The seconds of each function of the crate, by the kind of the part, and those of all together."""
    files = files_of(TOP / "crates" / crate / "out/incremental")
    if not files:
        raise Refused(f"crates/{crate}/out/incremental holds nothing: run rt check --jobs 1 in crates/{crate} first")
    costs, last = collections.defaultdict(collections.Counter), files[0][0]
    for time, name in files:
        function, part = part_of(name)
        costs[function][part] += time - last
        last = time
    return costs, files[-1][0] - files[0][0]


def maker_of(crate, name, part):
    """Who makes a module: generated, search or written."""
    if part == "Proof":
        return "search"
    file = name.replace(".", "/") + ".antt"
    is_own = not part and any((TOP / "crates" / crate / it / file).is_file() for it in ("specs", "proofs"))
    return "written" if is_own or part in WRITTEN else "generated"


def shares_of(crate, costs):
    """The seconds of all modules together, by who makes them."""
    shares = collections.Counter()
    for name, parts in costs.items():
        for part, took in parts.items():
            shares[maker_of(crate, name, part)] += took
    return shares


def tell(crate, least):
    costs, whole = costs_of(crate)
    sums = {name: sum(parts.values()) for name, parts in costs.items()}
    shares = shares_of(crate, costs)
    told = ", ".join(f"{it} {shares[it]:.0f}" for it in ("generated", "search", "written"))
    above = sum(max(it - MANY, 0) for it in sums.values())
    print(f"{crate}: {whole:.0f} s ({told}), {above:.0f} s of them above {MANY} s a function")
    for name, took in sorted(sums.items(), key=lambda it: -it[1]):
        if took >= least:
            steps, search, answers = (costs[name][part] for part in ("Lts", "Proof", "Answers"))
            rest = took - steps - search - answers
            print(f"{took:8.1f}  {name}  (steps {steps:.1f}, search {search:.1f}, answers {answers:.1f}, rest {rest:.1f})")


def main():
    parser = Parser(__doc__)
    parser.add_argument("crates", nargs="+", metavar="CRATE")
    parser.add_argument("--least", type=float, default=3.0, metavar="SECONDS")
    given = parser.parse_args()
    for crate in given.crates:
        tell(crate, given.least)


if __name__ == "__main__":
    carry_out("costs", main)
