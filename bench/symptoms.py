#!/usr/bin/env python3
"""Compares the table of docs/symptoms.md with the stored runs of crates/runs.

    bench/symptoms.py

Each row names a file `crates/runs/data/mistake_NAME`, and what it says is told has to be the first line of a stored run with
that file. Each such file has a row, but for the two without a mistake. Prints what differs; the status is 1 where
something does.
"""
import pathlib
import re
import sys

TOP = pathlib.Path(__file__).resolve().parent.parent


def main():
    rows = re.findall(r"^\| `([\w.]+)` \| (.*?) \| .* \|$", (TOP / "docs/symptoms.md").read_text(), re.M)
    runs = re.findall(r"^\$ nclc (.*)\n(.*)$", (TOP / "crates/runs/stdout").read_text(), re.M)
    wrong = 0
    for name, told in rows:
        first = [line for words, line in runs if re.search(rf"\bmistake_{re.escape(name)}(\.v|\.blif|$| )", words)]
        lines = [word for word in re.findall(r"`([^`]+)`", told) if word not in ("check", "match")]
        if not lines or any(line not in first for line in lines):
            wrong += 1
            print(f"{name}: the page says {lines}, stored are {first}")
    files = {path.name.removeprefix("mistake_") for path in (TOP / "crates/runs/data").glob("mistake_*")}
    named = {name for name, _ in rows}
    for file in sorted(files - {"no_mistake.v", "none.blif", "two_words_of_two.words"}):
        if file not in named and file.rpartition(".")[0] not in named:
            wrong += 1
            print(f"no row for {file}")
    print(f"{len(rows)} rows, {wrong} differ")
    return 1 if wrong else 0


if __name__ == "__main__":
    sys.exit(main())
