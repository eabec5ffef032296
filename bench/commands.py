#!/usr/bin/env python3
"""Writes the commands of nclc and ncl_reach that the pages show, in their order and each once, into examples/commands.

    bench/commands.py [--compare]

The pages are README and all of docs/. The gate carries out the lines of that file over the files of examples/ and compares what
is printed with what is stored, so that no answer on a page goes stale unseen; `shown.py` compares the pages themselves, and
`stored_runs.py PROGRAM --write` stores what is printed. What a shell does behind a command is left out, but for `> NAME` behind
`nclc compile`. A command on a file that another program makes is passed over. At the end each BLIF text of examples/ is
compiled, and matched with what came of it, but for those that are refused. With `--compare` nothing is written, and the status
is 1 where the file is another.
"""
import pathlib
import re
import sys

TOP = pathlib.Path(__file__).resolve().parent.parent
sys.path.insert(0, str(TOP / "tools"))
from script import Parser, carry_out


def commands(text):
    """The commands that a page shows."""
    for nclc, reach in re.findall(r"^\$ (?:nclc (.*)|(ncl_reach .*))$", text, re.MULTILINE):
        yield re.split(r"; | \| ", nclc or reach)[0]


def shown(pages, examples):
    """The commands of the pages on files that are there or are made by one before, each once."""
    found, made = {}, set()
    for command in (command for page in pages for command in commands(page.read_text())):
        command, _, kept = command.partition(" > ")
        files = [word for word in re.split("[ =]", command) if "." in word]
        if not all((examples / word).exists() or word in made for word in files):
            continue
        if kept and command.startswith("compile"):
            made.add(kept)
            command += f" > {kept}"
        found[command] = True
    return list(found)


def compiled(examples):
    """Two commands for each BLIF text: it is compiled, and what came of it is matched."""
    for text in sorted(examples.glob("*.blif")):
        if ".latch" not in text.read_text():
            kept = f"{text.stem}.compiled.v"
            yield from (f"compile {text.name} > {kept}", f"match {kept} {text.name}")


def main():
    parser = Parser(__doc__)
    parser.add_argument("--compare", action="store_true")
    compare, examples = parser.parse_args().compare, TOP / "examples"
    pages = [TOP / "README.md", *sorted((TOP / "docs").glob("*.md"))]
    found = [*shown(pages, examples), *compiled(examples)]
    text, stored = "\n".join(found) + "\n", examples / "commands"
    same = stored.exists() and stored.read_text() == text
    if not compare:
        stored.write_text(text)
    print(f"{len(found)} commands, {'as stored' if same else 'NOT as stored' if compare else 'written'}")
    return 1 if compare and not same else 0


if __name__ == "__main__":
    carry_out("commands", main)
