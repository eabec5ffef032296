#!/usr/bin/env python3
"""Runs the built program on the stored commands, and compares what it writes and its status with what is stored.

    bench/stored_runs.py PROGRAM [--write]

PROGRAM is the built nclc, and ncl_reach stands beside it. The gate makes the same runs through the top call; here they go through the program's own arguments,
files, standard output and status, and nothing may come to standard error. Prints each run that differs, each that is stored and
that no command makes, each file of `crates/runs/data` that no command names, and how many runs there were, those of the pages
first. The status is 1 where something is printed beside that. With --write the runs of the pages are stored, behind what the
program `runs` prints before them.
"""
import pathlib
import re
import shutil
import subprocess
import sys
import tempfile

TOP = pathlib.Path(__file__).resolve().parent.parent
DATA, STORED = TOP / "crates/runs/data", TOP / "crates/runs/stdout"
sys.path.insert(0, str(TOP / "tools"))
from script import Parser, Refused, carry_out

SECONDS = 120


def told(program, line, folder):
    """What is stored of a command that answers so."""
    command, _, name = line.partition(" > ")
    words = [program, *command.split(" ")]
    shown = f"nclc {line}"
    if words[1] == "ncl_reach":
        words, shown = [str(pathlib.Path(program).parent / "ncl_reach"), *words[2:]], line
    try:
        ran = subprocess.run(words, cwd=folder, capture_output=True, timeout=SECONDS)
    except subprocess.TimeoutExpired:
        return f"$ {shown}\nmore than {SECONDS} seconds\n"
    if name:
        pathlib.Path(folder, name).write_bytes(ran.stdout)
    text = "" if name else ran.stdout.decode(errors="replace")
    error = "standard error: " + ran.stderr.decode(errors="replace") if ran.stderr else ""
    return f"$ {shown}\n{text}{error}status {ran.returncode}\n"


def stored_of(text):
    """What is stored before the first run, and the runs one behind the other, each from its command to its status."""
    first, *found = re.split(r"^(?=\$ (?:nclc|ncl_reach) )", text, flags=re.M)
    if not found:
        raise Refused("no run is stored")
    return first, found


def unnamed(folder, lines):
    """The files of a folder that no command names."""
    named = {part for line in lines for word in line.split(" ") for part in (word, word.partition("=")[2])}
    return sorted(path.name for path in folder.iterdir() if path.is_file() and path.name not in named | {"commands"})


def runs_of(program, data, lines):
    """The runs of some commands, in a copy of the folder."""
    with tempfile.TemporaryDirectory() as folder:
        shutil.copytree(data, folder, dirs_exist_ok=True)
        return [told(program, line, folder) for line in lines]


def commands_of(folder):
    """The commands of a folder."""
    return (folder / "commands").read_text().splitlines()


def are_same(program, write):
    """Whether the runs are as they are stored, or those of the pages are stored now."""
    (first, stored), shown, single = stored_of(STORED.read_text()), commands_of(DATA / "examples"), commands_of(DATA)
    runs = runs_of(program, DATA / "examples", shown) + runs_of(program, DATA, single)
    if write:
        stored = runs[:len(shown)] + stored[-len(single):]
        STORED.write_text(first + "".join(stored))
    for run in sorted(set(runs) - set(stored)):
        print("differs:", run)
    made = {run.partition("\n")[0] for run in runs}
    gone = [run.partition("\n")[0] for run in stored if run.partition("\n")[0] not in made]
    gone += [f"a command for {name}" for name in unnamed(DATA, single)]
    for what in gone:
        print("gone:", what)
    same = runs == stored and not gone
    print(f"{len(shown)} and {len(single)} runs, {'all as stored' if same else 'NOT as stored'}")
    return same


def main():
    parser = Parser(__doc__)
    parser.add_argument("program", metavar="PROGRAM")
    parser.add_argument("--write", action="store_true")
    words = parser.parse_args()
    program = shutil.which(str(pathlib.Path(words.program).resolve()))
    if program is None or shutil.which(str(pathlib.Path(program).parent / "ncl_reach")) is None:
        raise Refused(f"{words.program}: no program, or no ncl_reach beside it")
    return 0 if are_same(program, words.write) else 1


if __name__ == "__main__":
    carry_out("stored_runs", main)
