#!/usr/bin/env python3
"""Compares what docs/architecture.md says of each crate with the head of the crate's root, or writes it from there.

    bench/heads.py [--write]

An entry of "Who does what" is the head of the crate's `lib.rt` or `main.rt`, up to the paragraph that introduces an example, which
ends with a colon; the crates have the order and the groups of crates.txt. Without --write nothing is written. Prints the crates
whose entry is another, and names in heads that no file has and that stand in no program and no definition; the status is 1 where
there are some, or where a crate has no head.
"""
import pathlib
import re
import sys
import textwrap

TOP = pathlib.Path(__file__).resolve().parent.parent
sys.path.insert(0, str(TOP / "tools"))
from script import Parser, Refused, carry_out

PAGE, TITLE = TOP / "docs/architecture.md", "## Who does what\n\n"


def head_of(crate):
    """What the comment at the head of a crate's root says before it comes to an example."""
    roots = [file for name in ("lib.rt", "main.rt") if (file := TOP / "crates" / crate / "src" / name).exists()]
    lines = roots[0].read_text().split("\n") if roots else []
    end = next((place for place, line in enumerate(lines) if not line.startswith("//!")), len(lines))
    paragraphs = "\n".join(line[3:].strip() for line in lines[:end]).split("\n\n")
    stop = next((place for place, text in enumerate(paragraphs) if text.endswith(":") or text.startswith("```")), len(paragraphs))
    if not "".join(paragraphs[:stop]):
        raise Refused(f"{crate}: no head")
    return " ".join(" ".join(paragraphs[:stop]).split())


def known_names():
    """What a head may name: files of all crates, and the words of programs and definitions, without those of heads."""
    found = set()
    for file in (TOP / "crates").glob("*/*"):
        found.update((file.name, file.parent.name))
    for file in (TOP / "crates").glob("*/*/**/*.*t*"):
        if file.suffix in (".rt", ".antt") and "out" not in file.parts:
            found.update((file.stem, file.parent.name))
            if "proofs" not in file.parts:
                found.update(re.findall(r"\w+", re.sub(r"(?m)^//!.*", "", file.read_text())))
    return found


def stray_names(crate, known):
    """The names in a crate's head that nothing has."""
    named = re.findall(r"`([A-Za-z_][\w:]*)`", head_of(crate))
    return [name for name in named if name.split("::")[-1] not in known]


def entries():
    """The crates with their entries, and the groups between them, as the page has them."""
    for line in (TOP / "crates.txt").read_text().split("\n"):
        group, crate = re.match(r"# ([a-z]+): ", line), re.match(r"(\w+)[^#:]*:", line)
        if group:
            yield None, f"### {group[1].capitalize()}\n"
        elif crate:
            said = f"- **{crate[1]}**: {head_of(crate[1])}"
            yield crate[1], textwrap.fill(said, 125, subsequent_indent="  ", break_on_hyphens=False, break_long_words=False)


def laid_out(listed):
    """The section of the page, with an empty line before each group and after its heading."""
    return "\n".join(text if crate or not place else f"\n{text}" for place, (crate, text) in enumerate(listed))


def main():
    parser = Parser(__doc__)
    parser.add_argument("--write", action="store_true")
    write, text = parser.parse_args().write, PAGE.read_text()
    if TITLE not in text:
        raise Refused(f"{PAGE.name}: no heading {TITLE.strip()}")
    front, _, rest = text.partition(TITLE)
    body, mark, behind = rest.partition("\n\n## ")
    listed = list(entries())
    differ = [crate for crate, entry in listed if crate and entry not in body]
    made = laid_out(listed)
    if write:
        PAGE.write_text(front + TITLE + made + mark + behind)
    print(f"{'written' if write else 'differ'}: {', '.join(differ) or 'none'}")
    known = known_names()
    stray = [f"{crate} {name}" for crate, _ in listed if crate for name in stray_names(crate, known)]
    for line in stray:
        print(f"no such name: {line}")
    return 0 if (write or made == body) and not stray else 1


if __name__ == "__main__":
    carry_out("heads", main)
