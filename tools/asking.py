"""Asks other programs: the built nclc, and which ABC is on the path."""
import pathlib
import random
import re
import shutil
import subprocess

from script import Refused

MOST = 1000000  # nodes that --limit takes
ABC = ("berkeley-abc", "yosys-abc", "abc")
FREELY = "/dev/null"  # a file of delays in which each is 1


def takes_program(parser):
    """Lets the arguments name the program."""
    parser.add_argument("--nclc", default="nclc", metavar="PROGRAM", help="the built program")


def asked(program, *words):
    """The status of the program, and what it prints."""
    try:
        done = subprocess.run([program, *map(str, words)], stdin=subprocess.DEVNULL, capture_output=True)
    except OSError as why:
        raise Refused(f"no nclc on the path, or no such program: {program}") from why
    return done.returncode, done.stdout.decode("latin-1")


def least_limit(program, netlist):
    """The least limit by which `check` judges a netlist, or None, and what it says with the greatest."""
    status, told = asked(program, "check", netlist, "--limit", MOST)
    if status not in (0, 1):
        if status != 6:
            raise Refused(f"check says {told.strip()[:100] or 'nothing'}")
        return None, told
    low, high = 0, MOST
    while high - low > 1:
        middle = min((low + high) // 2, 2 * low or 1000)
        enough = asked(program, "check", netlist, "--limit", middle)[0] != 6
        low, high = (low, middle) if enough else (middle, high)
    return high, told


def some_words(bits, count):
    """Words by chance, the same each time."""
    chance = random.Random(1)
    return "".join("".join(chance.choice("01") for _ in range(bits)) + "\n" for _ in range(count))


def simulated(program, netlist, delays, words):
    """The status of a run, its words' times, the mean time between two where there are, and its last line."""
    status, told = asked(program, "sim", netlist, "--delays", delays, "--words", words)
    times = [int(time) for time in re.findall(r"^word \d+ at (\d+): ", told, re.M)]
    cycle = (times[-1] - times[0]) / (len(times) - 1) if len(times) > 1 else None
    return status, times, cycle, told.strip().rpartition("\n")[2] or "nothing"


def found_abc(status=1):
    """ABC by the name that it has here."""
    abc = next(filter(None, map(shutil.which, ABC)), None)
    if abc is None:
        raise Refused(f"no ABC on the path: {ABC[0]}, {ABC[1]} or {ABC[2]}", status)
    return abc


def put_down(folder, name, text):
    """A file with a text, each character a byte."""
    file = pathlib.Path(folder, name)
    file.write_text(text, "latin-1")
    return file
