#!/usr/bin/env python3
"""Compares the names in clauses of public functions with the tables of docs/names.md.

    bench/named.py [--write]

A public function is one that its crate hands out: in a public module, or of a name or a type in a `pub use`. Its clauses are its
`requires` and `ensures`; a name is one that the file imports from definitions of this repository. Not asked for are types and
constants of the program, and names of worked examples. Prints what stands on one side alone.

Then it reads README.md and all pages of docs/: a name that is said to be "of" a crate stands in this crate, each path is there,
and each definition of a table that has a file is public in this file. With --write the files of docs/names.md are put there first,
as the definitions stand. Prints what isn't so. The status is 1 where something was printed.
"""
import pathlib
import re
import sys

TOP = pathlib.Path(__file__).resolve().parent.parent
sys.path.insert(0, str(TOP / "tools"))
from script import Parser, carry_out

EXAMPLES = {"Examples", "IllShaped", "Unsound"}
# They stand in a file of examples, and say what each example shows.
COUNTEREXAMPLES = ("TakesBack", "BreaksOnly", "IsCounterexample")
HEAD = re.compile(r"^( *)(pub )?(fn|impl|trait)\b([^\n]*)", re.MULTILINE)


def imports(text):
    """The definitions that a file imports: each with its name, its crate and its file."""
    for place, names in re.findall(r"^ghost use Rattle\.(ncl_\w+\.specs[\w.]*)\.\{([^}]*)\}", text, re.MULTILINE):
        crate, file = place.split(".")[0], place.split(".")[-1]
        if ".declared." not in place and file not in EXAMPLES:
            yield from ((name.strip(), crate, file) for name in names.split(","))


def handed_out(crate):
    """The names and the public modules that the root of a crate hands out."""
    root = (crate / "src/lib.rt").read_text()
    used = set(re.findall(r"\w+", " ".join(re.findall(r"^pub use ([^;]+);", root, re.MULTILINE))))
    return used, set(re.findall(r"^pub mod (\w+);", root, re.MULTILINE))


def clauses(text, module, used, modules):
    """The clauses of the public functions of a file, as one text."""
    found, owner, always = [], "", False
    for head in HEAD.finditer(text):
        indent, public, kind, rest = head.groups()
        if kind != "fn":
            owner = re.sub(r"<[^>]*>", "", rest).split(" for ")[-1].split("{")[0]
            always = kind == "trait" or " for " in rest
            continue
        name = re.match(r" *(\w+)", rest).group(1)
        outer = not indent and public and (name in used or module in modules)
        inner = indent and (public or always) and set(re.findall(r"\w+", owner)[:1]) & used
        if outer or inner:
            end = re.compile(rf"\n{indent}\{{|;\n|\n\n").search(text, head.start())
            found.append(text[head.start():end.start() if end else None].partition("\n")[2])
    return " ".join(found)


def named_in(crate):
    """The names in clauses of a crate: each with the crate and the file of its definition."""
    used, modules = handed_out(crate)
    for file in sorted((crate / "src").rglob("*.rt")):
        text = file.read_text()
        module = file.relative_to(crate / "src").parts[0].removesuffix(".rt")
        words = set(re.findall(r"(?<![\w.])\w+", clauses(text, module, used, modules)))
        yield from (found for found in imports(text) if found[0] in words)


def listed():
    """The names of the tables: each with its crate and the files of its row."""
    for crate, table in re.findall(r"^## (ncl_\w+)\n(.*?)(?=^## |\Z)", (TOP / "docs/names.md").read_text(), re.MULTILINE | re.DOTALL):
        for names, files in re.findall(r"^\| (`[^|]*`) \|[^|]*\| ([^|]*) \|$", table, re.MULTILINE):
            yield from ((name, crate, file) for name in re.findall(r"`(\w+)`", names) for file in re.findall(r"\w+", files))


def pages():
    """Each line of README.md and docs/, with where it stands."""
    for page in [TOP / "README.md", *sorted((TOP / "docs").glob("*.md"))]:
        for number, line in enumerate(page.read_text().split("\n"), 1):
            yield f"{page.relative_to(TOP)}:{number}", line


def stands_in(crate, name):
    """Whether an item of the program or a definition of a crate has this name."""
    folder = TOP / "crates" / crate
    item = re.compile(rf"\b(fn|struct|enum|trait|const|type|mod) +{name}\b|^ +{name}\b *[,({{]|\b{name}:", re.MULTILINE)
    definition = re.compile(rf"^ *(unfoldable |abbrev )*(pub )?(abbrev |data |record )*{name}\b", re.MULTILINE)
    return any(item.search(file.read_text()) for file in (folder / "src").rglob("*.rt")) or any(
        definition.search(file.read_text()) for file in folder.glob("specs/**/*.antt"))


def misplaced():
    """What pages say to be of a crate in which it doesn't stand."""
    for place, line in pages():
        for name, crate in re.findall(r"`([\w:]+)` of\s`(ncl_\w+)`", line):
            if (TOP / "crates" / crate).is_dir() and not name.startswith("ncl_") and not stands_in(crate, name.split("::")[-1]):
                yield f"{place}: {name} is not of {crate}"


def lost_paths():
    """Paths on pages at which nothing stands."""
    roots = [TOP, TOP / "crates"]
    for place, line in pages():
        for path in re.findall(r"`((?:crates|docs|bench|tools|examples|ncl_\w+|\w+_tests)/[\w./-]+)`", line):
            if "NAME" not in path and "/out/" not in path and not any((root / path).exists() for root in roots):
                yield f"{place}: no {path}"


def public_in(crate, name):
    """The files of a crate in which a definition is public."""
    public = re.compile(rf"^ *((abbrev|unfoldable) )*pub ((data|record|abbrev) )*{name}\b|^  {name} :", re.MULTILINE)
    return [file.stem for file in sorted((TOP / "crates" / crate / "specs").rglob("*.antt")) if public.search(file.read_text())]


def files_of(crate, names, shown):
    """The files of the definitions of a row, in their order; of several that have one name those that are shown."""
    found = []
    for name in re.findall(r"`(\w+)`", names):
        files = public_in(crate, name)
        found += [file for file in files if file in shown] or files[:1]
    return ", ".join(dict.fromkeys(found)) or ", ".join(shown)


def write_files():
    """Puts the files of all rows into the tables."""
    page = TOP / "docs/names.md"
    parts = re.split(r"^(?=## )", page.read_text(), flags=re.MULTILINE)
    row = re.compile(r"^\| (`[^|]*`) \|([^|]*)\| ([^|]*) \|$", re.MULTILINE)
    for place, part in enumerate(parts):
        if crate := re.match(r"## (ncl_\w+)\n", part):
            parts[place] = row.sub(lambda found: f"| {found[1]} |{found[2]}| {files_of(crate[1], found[1], found[3].split(', '))} |", part)
    page.write_text("".join(parts))


def hidden():
    """Definitions in the table that aren't public in their files."""
    rows = {}
    for name, crate, file in listed():
        rows.setdefault((name, crate), []).append(file)
    for (name, crate), files in sorted(rows.items()):
        if not set(files) & set(public_in(crate, name)):
            yield f"docs/names.md: {name} is not public in {', '.join(files)} of {crate}"


def main():
    parser = Parser(__doc__)
    parser.add_argument("--write", action="store_true")
    if parser.parse_args().write:
        write_files()
    rows = set(listed())
    crates = [crate for crate in sorted((TOP / "crates").glob("ncl_*")) if (crate / "src/lib.rt").exists()]
    cited = {found for crate in crates for found in named_in(crate)}
    on_page = {(name, crate) for name, crate, _ in rows}
    lost = sorted(found for found in cited if found not in rows and found[:2] not in on_page)
    extra = sorted(on_page - {found[:2] for found in cited} - {(name, "ncl_insensitivity") for name in COUNTEREXAMPLES})
    for found in lost:
        print("no row for", *found)
    for found in extra:
        print("in no clause:", *found)
    print(f"{len(on_page)} names, {len(lost)} without a row, {len(extra)} in no clause")
    untrue = [*misplaced(), *lost_paths(), *hidden()]
    for line in untrue:
        print(line)
    return 1 if lost or extra or untrue else 0


if __name__ == "__main__":
    carry_out("named", main)
