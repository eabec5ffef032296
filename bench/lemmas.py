#!/usr/bin/env python3
"""Lemmas that stand twice, and lemmas that nothing cites.

    bench/lemmas.py

Reads the files of crates/*/proofs. Two statements are one where they are the same but for the names of what they bind; what is
only defined, the answer to a goal, and what holds at a point of one function (After-POINT), is not compared. A lemma is cited where its name stands outside it, in a proof, in
a definition or in a line of the program that names it for a proof; the prover may still find one that isn't by itself. Prints
each with its places, then the sums. The status is 1 where a statement stands twice.
"""
import argparse
import collections
import os
import pathlib
import re
import sys

TOP = pathlib.Path(__file__).resolve().parent.parent
HEAD = re.compile(r"^(abbrev )?(?:pub )?([A-Za-z_][\w'-]*) : (.*)$")
WORD = re.compile(r"[A-Za-z_][\w'-]*")


def paragraphs(lines):
    """The paragraphs that state or define something: from which line to which, its name, and the statement of a lemma."""
    start = 0
    while start < len(lines):
        found, end = HEAD.match(lines[start]), start + 1
        if found:
            while end < len(lines) and lines[end].strip():
                end += 1
            more = []
            for line in lines[start + 1:end]:
                if not re.match(r"\s+(→|×|⊎|≡|\(|\{)", line):
                    break
                more.append(line.strip())
            yield start, end, found.group(2), "" if found.group(1) else " ".join([found.group(3), *more])
        start = end


def alike(statement):
    """A statement with the names of what it binds as numbers."""
    bound = dict.fromkeys(name for group in re.findall(r"[({]([\w ]+) :", statement) for name in group.split())
    number = {name: f"v{place}" for place, name in enumerate(bound)}
    return re.sub(r"(?<![\w.'-])[\w'-]+", lambda found: number.get(found[0], found[0]), statement)


def words(text):
    """The words of a file, but those of its comments and imports."""
    skipped = ("--", "//", "use ", "pub use ", "ghost use ")
    return WORD.findall("\n".join(line for line in text.split("\n") if not line.lstrip().startswith(skipped)))


def sources():
    """The files of definitions, proofs and programs. What a build leaves in out/ is many times as much, and isn't looked at."""
    for folder, inner, names in os.walk(TOP / "crates"):
        inner[:] = sorted(name for name in inner if name != "out")
        yield from (pathlib.Path(folder, name) for name in sorted(names) if name.endswith((".antt", ".rt")))


def main():
    argparse.ArgumentParser(description=__doc__, formatter_class=argparse.RawDescriptionHelpFormatter).parse_args()
    texts = {path: path.read_text() for path in sources()}
    cited = collections.Counter(word for text in texts.values() for word in words(text))
    places, unused = collections.defaultdict(list), []
    for path, text in texts.items():
        if path.suffix != ".antt" or "proofs" not in path.parts:
            continue
        lines = text.split("\n")
        for start, end, name, statement in paragraphs(lines):
            place = f"{path.relative_to(TOP)}:{start + 1} {name}"
            if "goal." in statement or "After-" in statement or path.name == "Invariants.antt":
                continue
            if len(statement) >= 40:
                places[alike(statement)].append(place)
            if cited[name] == WORD.findall("\n".join(lines[start:end])).count(name):
                unused.append(place)
    twice = {statement: found for statement, found in places.items() if len(found) > 1}
    for statement, found in twice.items():
        print(f"{len(found)} times: {statement[:150]}", *(f"    {place}" for place in found), sep="\n")
    for place in unused:
        print(f"not cited: {place}")
    print(f"{len(twice)} statements stand {sum(map(len, twice.values()))} times; {len(unused)} lemmas are cited nowhere")
    return 1 if twice else 0


if __name__ == "__main__":
    sys.exit(main())
