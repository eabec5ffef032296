#!/usr/bin/env python3
"""Tries each script of tools/ on stored inputs, and compares what it writes, its status and its refusals.

    bench/tools.py PROGRAM [NAME ..]

PROGRAM is the built nclc. Without names all tests are run; each is a function `NAME_..` of the script NAME, in a file
`tools_..` beside this one. Where a test asks for another program, as yosys or iverilog, that isn't on the path,
it is passed over with a line. Prints a line for each test; the status is 1 where one fails.
"""
import importlib
import pathlib
import shutil
import subprocess
import tempfile

import tools_help

from script import Parser, Refused, carry_out

MODULES = [importlib.import_module(path.stem) for path in sorted(pathlib.Path(__file__).parent.glob("tools_*.py"))]


def tests():
    """The tests by name."""
    mine = {name: test for module in MODULES for name, test in vars(module).items()}
    scripts = ["bench", "cells_lib", "completions", "manual", *(path.name for path in tools_help.TOOLS.iterdir())]
    return {name: test for name, test in mine.items() if any(name.startswith(f"{script}_") for script in scripts)}


def carried_out(test):
    """Whether a test holds; what it says is printed."""
    needs = [word for word in getattr(test, "needs", ()) if shutil.which(word) is None]
    if needs:
        print(f"{test.__name__}: passed over, no {needs[0]}")
        return True
    with tempfile.TemporaryDirectory() as folder:
        try:
            test(pathlib.Path(folder))
        except (AssertionError, OSError, subprocess.TimeoutExpired) as why:
            print(f"{test.__name__}: FAILS: {why}", flush=True)
            return False
    print(f"{test.__name__}: ok", flush=True)
    return True


def main():
    parser = Parser(__doc__)
    parser.add_argument("program")
    parser.add_argument("names", nargs="*", metavar="NAME")
    given = parser.parse_args()
    program = shutil.which(str(pathlib.Path(given.program).resolve()))
    chosen = [test for name, test in tests().items() if name.startswith(tuple(given.names or [""]))]
    if program is None or not chosen:
        raise Refused(f"there is no program {given.program}" if program is None else f"there is no test {given.names[0]}")
    tools_help.PROGRAM.append(program)
    answers = [carried_out(test) for test in chosen]
    return 0 if all(answers) else 1


if __name__ == "__main__":
    carry_out("tools", main)
