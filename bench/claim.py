#!/usr/bin/env python3
"""Compares docs/claim.md with the definitions that a yes and a no of `check` rest on, as they stand, or writes it.

    bench/claim.py [--write]

The page begins with `IsDelayInsensitiveText` and goes on to what each definition names, in the files of `specs/` and, of the
types of the program, in those of `src/`; then it does so for `IsWrongText`. Without --write nothing is written, and the status
is 1 where the page is another.
"""
import pathlib
import re
import sys

TOP = pathlib.Path(__file__).resolve().parent.parent
sys.path.insert(0, str(TOP / "tools"))
from script import Parser, Refused, carry_out

PAGE = TOP / "docs/claim.md"
# What a yes and a no claim: each stands alone in its section, and what it names in those behind it.
CLAIMS = (("ncl_check", "Headline", "IsDelayInsensitiveText"), ("ncl_check", "Refusal", "IsWrongText"))
# The sections of the page, each with the definition that it begins with.
SECTIONS = [
    ("A yes", "What a yes says of the bytes of a file.", CLAIMS[0]),
    ("Delay-insensitive", "The firing machine and what holds after each of its runs.", ("ncl_machine", "DelayInsensitive", "IsDelayInsensitive")),
    ("The shape of a netlist", "Which cells are banks, stages and completion trees.", ("ncl_shape", "Shape", "Shape")),
    ("Netlists", "Cells that are joined by nets, and the parts that they are built of.", ("ncl_netlist", "Faults", "IsFaultless")),
    ("Texts", "What a text of a netlist says, by the grammar of its tokens.", ("ncl_reader", "Reads", "Reads")),
    ("A no", "What a no says of the bytes of a file, and of the text that was written.", CLAIMS[1]),
    ("Faults of a stage", "What a stage does at a word, and the faults that the word can show.", ("ncl_faults", "Faults", "shows")),
    ("The verdict of a fault", "How a fault of a stage at a word is told.", ("ncl_verdict", "Judgement", "verdict_of")),
    ("Words that are brought", "What an input makes of the stages before one.", ("ncl_hazard", "Why", "brings")),
    ("What is told", "The stage and the word in a verdict.", ("ncl_refusal", "Told", "Tells")),
    ("The line", "The text that tells a verdict.", ("ncl_lines", "VerdictText", "verdict_line")),
]
HEAD = """# What a yes and a no claim

Where `nclc check` says yes, `IsDelayInsensitiveText` holds of the bytes of the file: the clause `headline` of `run`. Where it says
no, `IsWrongText` holds of them and of what was written: the part `refusal` of its clause `answered`. This page has the two
definitions and all that they rest on, as they stand in the crates, each definition where it is first met, under the name of its
file, and with its meaning in front; a file that two sections need stands in both. Who reads the page has read both claims: what
follows in other files is proof and program. [headline.md](headline.md) says in words what they mean and why they are true.

`bench/claim.py` writes this page. Words as `All`, `map` and `slice_get` are those of the library, over lists; `≡` says that two
values are one, `×` *and*, `⊎` *or*, `⊥` that something can't be; `(x : T) → P` is *for each*, and `(x : T) × P` *for some*.
"""
DEFINED = re.compile(r"^(?:(?:abbrev|unfoldable) )?(?:pub )?(?:data |record |abbrev )?([\w-]+)(?: [({]| :)", re.MULTILINE)
WORD = re.compile(r"[\w-]+")


class File:
    """A file of definitions: its head, its paragraphs, and where the names that it uses are defined."""

    def __init__(self, crate, name):
        text = (TOP / "crates" / crate / "specs" / f"{name.replace('.', '/')}.antt").read_text()
        paragraphs = [part for part in re.split(r"\n\n+", text.strip()) if part]
        lines = paragraphs[0].split("\n")
        self.crate, self.name = crate, name
        self.head = " ".join(line[2:].strip() for line in lines if line.startswith("--"))
        self.parts = [part for part in paragraphs if not part.startswith("use ") and "\nuse " not in part]
        self.imports = {}
        for place, names in re.findall(r"^use Rattle\.(ncl_\w+\.specs\.[\w.]+)\.\{([^}]*)\}", text, re.MULTILINE):
            for said in names.split(","):
                found, _, here = said.strip().partition(" as ")
                self.imports[here or found] = (*place.split(".specs."), found)

    def part_of(self, name):
        """The paragraph that defines a name: itself, or as a field or a constructor of it."""
        whole = [part for part in self.parts if name in DEFINED.findall(uncommented(part))]
        inner = [part for part in self.parts if re.search(rf"^ +(?:pub )?{re.escape(name)} :", part, re.MULTILINE)]
        return next(iter(whole or inner), None)


def uncommented(part):
    """A paragraph without its comments."""
    return "\n".join(line for line in part.split("\n") if not line.lstrip().startswith("--"))


def declared(crate, place):
    """A type or a constant of the program, as its source has it, with its comment."""
    name = place.split(".")[-1]
    for file in sorted((TOP / "crates" / crate / "src").rglob("*.rt")):
        text = file.read_text()
        found = re.search(rf"(?:^ *///[^\n]*\n)*(?:^ *#\[[^\n]*\n)*^pub (?:\([a-z]+\) )?(?:struct|enum|const) {name}\b[^;{{]*(?:;|\{{[^}}]*\}})",
                          text, re.MULTILINE)
        if found:
            shown = "\n".join(line for line in found.group(0).split("\n") if not line.startswith("#["))
            return file.relative_to(TOP), shown
    return None


class Claim:
    """The definitions that are needed, section by section, and the types of the program that they speak of."""

    def __init__(self):
        self.files, self.shown, self.types = {}, {}, {}
        self.sections = [self.alone(start) if start in CLAIMS else self.section(start) for _, _, start in SECTIONS]
        for claim in CLAIMS:
            self.lacks(claim)

    def alone(self, start):
        """The section of one definition and nothing that it names."""
        file = self.file_of(*start[:2])
        part = file.part_of(start[2])
        self.shown.setdefault(start[:2], []).append(part)
        return [(file, [part])]

    def lacks(self, claim):
        """Refuses a claim that names what no section has."""
        file = self.file_of(*claim[:2])
        for crate, place, name in self.named_in(file, file.part_of(claim[2])):
            if not place.startswith("declared.") and self.file_of(crate, place).part_of(name) not in self.shown.get((crate, place), []):
                raise Refused(f"no section has {name} of {crate}, which {claim[2]} names")

    def file_of(self, crate, name):
        """A file of definitions. Constructors are named under their type, whose file it is."""
        if not (TOP / "crates" / crate / "specs" / f"{name.replace('.', '/')}.antt").exists():
            name = name.rpartition(".")[0]
        return self.files.setdefault((crate, name), None) or self.files.update({(crate, name): File(crate, name)}) or self.files[crate, name]

    def named_in(self, file, part):
        """What a paragraph names, and where that is defined."""
        own = {name for other in file.parts for name in DEFINED.findall(uncommented(other))}
        for word in dict.fromkeys(WORD.findall(uncommented(part))):
            if word in file.imports:
                yield file.imports[word]
            elif word in own:
                yield file.crate, file.name, word

    def section(self, start):
        """The files that are met from a definition on, each with the paragraphs that no earlier section has."""
        needed, queue = {}, [start]
        while queue:
            crate, place, name = queue.pop(0)
            if place.startswith("declared."):
                self.declare(crate, name if "TheConstants" in place else place.removeprefix("declared.").split(".TheVariants")[0])
                continue
            file = self.file_of(crate, place)
            part, known = file.part_of(name), self.shown.setdefault((file.crate, file.name), [])
            if part is not None and part not in known:
                known.append(part)
                needed.setdefault((file.crate, file.name), []).append(part)
                queue.extend(self.named_in(file, part))
        return [(self.files[key], [part for part in self.files[key].parts if part in parts]) for key, parts in needed.items()]

    def declare(self, crate, place):
        """Takes in a type of the program."""
        found = declared(crate, place)
        if found:
            self.types.setdefault(found[0], {})[found[1]] = True


def page():
    """The page as it is to be."""
    claim, text, lines, files = Claim(), [HEAD], 0, 0
    for (title, said, _), section in zip(SECTIONS, claim.sections):
        text.append(f"## {title}\n\n{said}\n")
        for file, parts in section:
            shown = "\n\n".join(parts)
            lines, files = lines + shown.count("\n") + 1, files + 1
            text.append(f"`{file.crate}/specs/{file.name}.antt`: {file.head}\n\n```text\n{shown}\n```\n")
    text.append("## The types of the program\n\nThe records and lists of variants that the definitions speak of.\n")
    for path, found in claim.types.items():
        shown = "\n\n".join(found)
        text.append(f"`{path.as_posix().removeprefix('crates/')}`\n\n```rust\n{shown}\n```\n")
    text.insert(1, f"There are {lines:,} lines of definitions, from {files} places, and the types at the end.\n")
    return "\n".join(text)


def main():
    parser = Parser(__doc__)
    parser.add_argument("--write", action="store_true")
    write, wanted = parser.parse_args().write, page()
    same = PAGE.exists() and PAGE.read_text() == wanted
    if write:
        PAGE.write_text(wanted)
    print("docs/claim.md is " + ("as it is to be" if same else "written" if write else "another: run bench/claim.py --write"))
    return 0 if same or write else 1


if __name__ == "__main__":
    carry_out("claim", main)
