#!/usr/bin/env python3
"""Names of crates.txt that a crate doesn't use, and those that it lacks.

    bench/listed.py

A crate needs a name on its line of crates.txt where one of its own files names that crate, and not for what it stands on only
through others. Reads the files of src/, specs/, proofs/ and must-fail/ of each crate, without their comments. Prints the names
to be cut, by crate, those to be added, of crates of this repository that a file brings names from, and the sums; the status is 1
where there is one.
"""
import argparse
import pathlib
import re
import sys

TOP = pathlib.Path(__file__).resolve().parent.parent
LINE = re.compile(r"^(\w+)[^:#]*:(.*)$", re.MULTILINE)
# The files that name crates, and how their comments begin.
FILES = {"src/**/*.rt": "//", "specs/**/*.antt": "--", "proofs/**/*.antt": "--", "must-fail/*.edit": "//"}


def used(crate):
    """The words of a crate's files."""
    texts = [re.sub(rf"(?<!\S){begin}.*", "", path.read_text())
             for files, begin in FILES.items() for path in (TOP / "crates" / crate).glob(files)]
    return {word for text in texts for word in re.findall(r"\w+", text)}


def brought(crate):
    """The crates that a crate's files bring names from."""
    texts = [path.read_text() for files in FILES for path in (TOP / "crates" / crate).glob(files)]
    return {name for text in texts for name in re.findall(r"^\s*(?:pub )?(?:ghost )?use (?:Rattle\.)?(\w+)\b", text, re.MULTILINE)}


def main():
    argparse.ArgumentParser(description=__doc__, formatter_class=argparse.RawDescriptionHelpFormatter).parse_args()
    listed = {crate: names.split() for crate, names in LINE.findall((TOP / "crates.txt").read_text())}
    unused = {crate: sorted({*names} - used(crate)) for crate, names in listed.items()}
    lacking = {crate: sorted(brought(crate) & {*listed} - {*names, crate}) for crate, names in listed.items()}
    for crate in listed:
        if unused[crate]:
            print(f"{crate}: {' '.join(unused[crate])}")
        if lacking[crate]:
            print(f"{crate} lacks {' '.join(lacking[crate])}")
    lost, missing = (sum(map(len, names.values())) for names in (unused, lacking))
    print(f"{sum(map(len, listed.values()))} names of {len(listed)} crates, {lost} unused, {missing} lacking")
    return 1 if lost or missing else 0


if __name__ == "__main__":
    sys.exit(main())
