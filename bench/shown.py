#!/usr/bin/env python3
"""Runs the commands that the pages show, and compares what they print with what stands below them.

    bench/shown.py PROGRAM [--write] [PAGE ..]

PROGRAM is the built nclc, a file of this name, and ncl_reach stands beside it. Without pages, README and those of docs/ are taken. The commands of a page, the
lines that begin with `$ ` in its blocks, run one after another in a folder of their own, in which the files of examples/ lie, as
the pages tell their readers to make one; the program's folder is first on the path, and tools/ last. Where a program isn't on
the path that a command asks for, nothing is run; gtkwave alone, which waits for a person, is never run. With --write, what a
command prints is put below it. Prints each command that differs; the status is 1 where one does.
"""
import os
import pathlib
import re
import shutil
import subprocess
import sys
import tempfile

TOP = pathlib.Path(__file__).resolve().parent.parent
sys.path.insert(0, str(TOP / "tools"))
from script import Parser, Refused, carry_out

SECONDS = 600
# What else commands ask for, and a script of tools/ by what it calls.
ASKED = {"yosys": "yosys", "berkeley-abc": "berkeley-abc", "iverilog": "iverilog", "vvp": "vvp", "awk": "awk",
         "second_opinion": "berkeley-abc", "split_model": "berkeley-abc", "prepare": "berkeley-abc", "carry_in": "yosys",
         "show": "dot", "ncl_reach": "ncl_reach"}


def text_of(page):
    """The text of a page."""
    try:
        return page.read_text()
    except UnicodeDecodeError:
        raise Refused(f"{page}: no text") from None


def is_run(line):
    """Whether a line of a block is a command that can be run without a person."""
    return line.startswith("$ ") and not line.startswith("$ gtkwave")


def blocks(text):
    """The lines of a page, each with whether it stands in a block."""
    inside = False
    for line in text.split("\n"):
        if line.startswith("```"):
            inside = not inside
            yield line, False
        else:
            yield line, inside


def path_to(program):
    """The path of the commands: the program's folder first, and tools/ last."""
    return f"{pathlib.Path(program).parent}:{os.environ['PATH']}:{TOP / 'tools'}"


def lacking(pages, program):
    """The programs that commands of the pages ask for and that aren't on the path, each with its page."""
    commands = [(page, line) for page in pages for line, inside in blocks(text_of(page)) if inside and is_run(line)]
    asked = [(page, ASKED[word]) for page, line in commands for word in re.findall(r"[\w-]+", line) if word in ASKED]
    return sorted({f"{name} ({page.name})" for page, name in asked if shutil.which(name, path=path_to(program)) is None})


def ran(command, folder, program):
    """What a command prints."""
    command = re.sub(r"\bnclc\b(?= (check|compile|sim|match|demo))", program, command)
    try:
        done = subprocess.run(["bash", "-c", command], cwd=folder, env=dict(os.environ, PATH=path_to(program)), capture_output=True, text=True, timeout=SECONDS)
    except subprocess.TimeoutExpired:
        return [f"no end in {SECONDS} seconds"]
    return done.stdout.split("\n")[:-1]


def page_as_run(text, folder, program):
    """The page with what its commands print, and the commands that differ."""
    lines, differ, shown, wanted = [], [], None, []

    def end():
        if shown is not None and shown != wanted:
            differ.append((lines[len(lines) - len(wanted) - 1], shown))
            lines[len(lines) - len(wanted):] = shown

    for line, inside in blocks(text):
        if not inside or line.startswith("$ "):
            end()
            shown, wanted = None, []
        elif shown is not None:
            wanted.append(line)
        lines.append(line)
        if inside and is_run(line):
            shown = ran(line[2:], folder, program)
    return "\n".join(lines), differ


def compare(page, program, write):
    """How many commands of a page differ; each is printed."""
    with tempfile.TemporaryDirectory() as folder:
        shutil.copytree(TOP / "examples", folder, dirs_exist_ok=True)
        text, differ = page_as_run(text_of(page), folder, program)
    for command, shown in differ:
        print(f"{page.name}: {command}", *shown, sep="\n    ", flush=True)
    if write and differ:
        page.write_text(text)
    return len(differ)


def main():
    parser = Parser(__doc__)
    parser.add_argument("program", metavar="PROGRAM", type=pathlib.Path)
    parser.add_argument("--write", action="store_true")
    parser.add_argument("pages", metavar="PAGE", nargs="*", type=pathlib.Path)
    words = parser.parse_intermixed_args()
    pages = words.pages or [TOP / "README.md", *sorted((TOP / "docs").glob("*.md"))]
    if shutil.which(str(words.program)) is None:
        raise Refused(f"{words.program}: no program")
    program = str(words.program.resolve())
    if lacks := lacking(pages, program):
        raise Refused(f"not on the path: {', '.join(lacks)}")
    count = sum(compare(page, program, words.write) for page in pages)
    print(f"{count} commands print something else")
    return 1 if count else 0


if __name__ == "__main__":
    carry_out("shown", main)
