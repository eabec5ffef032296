"""What the scripts of this folder share: one line for what is refused, on standard error, and a status."""
import argparse
import pathlib
import sys


class Refused(Exception):
    """What can't be read or done, in words. A script may have statuses of its own for what it refuses."""

    def __init__(self, words, status=1):
        super().__init__(words)
        self.status = status


class Parser(argparse.ArgumentParser):
    """Arguments; wrong ones are told in one line, with status 2."""

    def __init__(self, text):
        super().__init__(description=text, formatter_class=argparse.RawDescriptionHelpFormatter)

    def error(self, message):
        self.exit(2, f"{self.prog}: {message}\n")


def text_of(name):
    """The text of a file, each byte a character."""
    return pathlib.Path(name).read_bytes().decode("latin-1")


def put(text):
    """Writes a text as `text_of` reads it."""
    sys.stdout.buffer.write(text.encode("latin-1"))


def tell(name, text):
    """One line beside what is written."""
    sys.stderr.write(f"{name}: {text}\n")


def carry_out(name, work):
    """Ends with the status of the work, or with one line and the status of what it refuses."""
    try:
        status = work()
        sys.stdout.flush()
    except BrokenPipeError:
        sys.stderr.close()
        sys.exit(1)
    except (Refused, OSError) as why:
        line = f"{name}: {why}".replace("\n", " ")
        print("".join(each if each.isprintable() else "?" for each in line), file=sys.stderr)
        status = getattr(why, "status", 1)
    sys.exit(status)
