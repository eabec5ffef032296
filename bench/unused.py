#!/usr/bin/env python3
"""Names that a file brings by `ghost use` and that none of its clauses has.

    bench/unused.py [--write]

Reads the files of src/ of each crate, without their comments. A name is used where it, or the name that it is given there, stands
anywhere else in the file; an operator, as ◌+◌, where all its parts do. Prints the names of each file, and the sums; the status is 1
where there is one. With --write it takes them out, and lines that are left with none.
"""
import argparse
import pathlib
import re
import sys

TOP = pathlib.Path(__file__).resolve().parent.parent
BROUGHT = re.compile(r"^[ \t]*ghost use [\w.+]+\.\{([^}]*)\};\n", re.MULTILINE)
COMMENT = re.compile(r"(?<!\S)//.*")


def parts_of(name):
    """What has to stand in a file that uses a name: the words of it, or the parts of an operator."""
    given = name.split(" as ")[-1]
    return [part for part in given.split("◌") if part]


def is_used(part, text):
    """Whether a part of a name stands in a text: as a whole word, where it is one."""
    return re.search(rf"(?<![\w']){re.escape(part)}(?![\w'])" if re.fullmatch(r"\w+", part) else re.escape(part), text)


def unused_in(text):
    """The names that a text brings and has nowhere else."""
    rest = COMMENT.sub("", BROUGHT.sub("", text))
    names = [name.strip() for line in BROUGHT.findall(text) for name in line.split(",")]
    return [name for name in names if name and not all(is_used(part, rest) for part in parts_of(name))]


def without(text, unused):
    """The text without these names."""
    def left(line):
        names = [name.strip() for name in line[1].split(",") if name.strip()]
        kept = [name for name in names if name not in unused]
        if kept == names:
            return line[0]
        return line[0][:line.start(1) - line.start()] + ", ".join(kept) + "};\n" if kept else ""
    return BROUGHT.sub(left, text)


def main():
    parser = argparse.ArgumentParser(description=__doc__, formatter_class=argparse.RawDescriptionHelpFormatter)
    parser.add_argument("--write", action="store_true")
    write = parser.parse_args().write
    count = files = 0
    for path in sorted((TOP / "crates").glob("*/src/**/*.rt")):
        text = path.read_text()
        names = unused_in(text)
        if names:
            print(f"{path.relative_to(TOP)}: {' '.join(names)}")
            if write:
                path.write_text(without(text, set(names)))
            count, files = count + len(names), files + 1
    print(f"{count} unused names in {files} files")
    return 1 if count and not write else 0


if __name__ == "__main__":
    sys.exit(main())
