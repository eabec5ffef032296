"""What the tests of tools/ share."""
import functools
import os
import pathlib
import subprocess
import sys

TOP = pathlib.Path(__file__).resolve().parent.parent
TOOLS, EXAMPLES = TOP / "tools", TOP / "crates/runs/data/examples"
PROGRAM = []  # the built nclc, once it is known
sys.path.insert(0, str(TOOLS))


def ran(words, given=None, status=0, folder=None):
    """What a command prints; it has to end with the status."""
    done = subprocess.run([str(word) for word in words], input=given, capture_output=True, text=True, timeout=300, cwd=folder)
    assert done.returncode == status, f"{words}: status {done.returncode}: {done.stdout[-300:]}{done.stderr[-300:]}"
    return done.stdout if status == 0 or done.stdout else done.stderr


def tool(name, *words, given=None, status=0, folder=None):
    """What a script prints."""
    return ran([TOOLS / name, *words], given, status, folder)


def nclc(*words, status=0, folder=None):
    """What the program prints."""
    return ran([PROGRAM[0], *words], status=status, folder=folder)


@functools.lru_cache(maxsize=None)
def compiled(name):
    """The netlist that the program makes of a BLIF text of the examples."""
    return nclc("compile", EXAMPLES / f"{name}.blif")


def same(found, wanted):
    """Says where two values begin to differ, if they do."""
    if found != wanted:
        told = [repr(found), repr(wanted)]
        at = max(0, len(os.path.commonprefix(told)) - 100)
        raise AssertionError("found {}, wanted {}".format(*(each[at:at + 400] for each in told)))


def refuses(name, *words, status=1):
    """The one line by which a script refuses something."""
    done = subprocess.run([TOOLS / name, *map(str, words)], capture_output=True, text=True, timeout=300)
    assert (done.returncode, done.stdout) == (status, "") and done.stderr.count("\n") == 1, (words, done)
    return done.stderr


def needing(*programs):
    """Says which programs a test asks for."""
    def mark(test):
        test.needs = programs
        return test
    return mark
