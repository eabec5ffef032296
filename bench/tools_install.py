"""Tests of the installed program, its manual page and completions, and of the pages of tools/show. `bench/tools.py` runs them."""
import os
import pty
import re
import select
import shutil
import subprocess

from tools_help import EXAMPLES, PROGRAM, TOOLS, TOP, nclc, needing, ran, refuses, same, tool


def forms():
    """The options of each command, as docs/formats.md has them."""
    rows = re.findall(r"^\| `(\w+) ([^`]*)` \|", (TOP / "docs/formats.md").read_text(), re.M)
    return {name: set(re.findall(r"--\w+", form)) for name, form in rows if re.match(r"(FILE|N)\b", form)}


def manual_says_what_the_pages_say(folder):
    text = (TOOLS / "man/nclc.1").read_text()
    synopsis = text.partition(".Sh SYNOPSIS")[2].partition(".Sh")[0]
    found = {part.split()[0]: {"-" + option for option in re.findall(r"Fl (-\w+)", part)} for part in synopsis.split(".Cm ")[1:]}
    same(found, forms())
    same(set(re.findall(r"^\.It Fl (-\w+)", text, re.M)), {option[1:] for options in found.values() for option in options})
    answers = (TOP / "docs/answers.md").read_text()
    statuses = text.partition(".Sh EXIT STATUS")[2].partition(".Sh")[0]
    same(re.findall(r"^\.It (\d)", statuses, re.M), sorted(set(re.findall(r"^\| (\d) \|", answers, re.M))))
    for line in (r"netlist:", r"shape:", r"blif:", r"compile:", r"delays:", r"words:", "accepted", "same", "refused", "differ", "hazard", "stalled", "over"):
        assert line in statuses.replace("\\&", "").replace(" :", ":") and f"`{line}" in answers, line


def version():
    """The newest version that CHANGELOG.md has."""
    return re.search(r"^## (\d[\d.]*)$", (TOP / "CHANGELOG.md").read_text(), re.M)[1]


def manual_has_the_version(folder):
    same(re.search(r"^\.Os nclc (.*)$", (TOOLS / "man/nclc.1").read_text(), re.M)[1], version())
    same(re.search(r"^version: (.*)$", (TOP / "CITATION.cff").read_text(), re.M)[1], version())


def manual_of_bench_has_all_scripts(folder):
    page = (TOP / "bench/README.md").read_text()
    same([path.name for path in sorted((TOP / "bench").glob("*.py")) if f"`{path.name}" not in page], [])


@needing("mandoc")
def manual_is_clean(folder):
    # the version stands where a system has its name, which is a matter of style
    same(ran(["mandoc", "-Tlint", "-W", "warning", TOOLS / "man/nclc.1"]), "")
    assert "threshold gates" in ran(["man", "-l", TOOLS / "man/nclc.1"]) if shutil.which("man") else True


ASKED = [("nclc m", {"match"}, {"check"}), ("nclc check --", {"--limit", "--why"}, {"--merge"}), ("nclc compile --", {"--merge"}, {"--why"}),
         ("nclc check ", {"a.v"}, {"a.blif", "a.words"}), ("nclc match a.v ", {"a.blif"}, {"a.words"}), ("nclc compile ", {"a.blif"}, {"a.v"}),
         ("nclc sim a.v --delays ", {"a.delays"}, {"a.blif", "a.v"}), ("nclc sim a.v --words ", {"a.words"}, {"a.delays", "a.v"})]


ASKED_WITH_VALUES = [("nclc sim a.v --delays=", {"a.delays"}, {"a.blif", "a.v"}), ("nclc sim a.v --delays=a", {"a.delays"}, {"a.words", "a.v"}),
                     ("nclc sim --words=a.words ", {"a.v"}, {"a.words"}), ("nclc match --limit=5 a.v ", {"a.blif"}, {"a.v"}),
                     ("nclc match --limit 5 a.v ", {"a.blif"}, {"a.v"}), ("nclc match --limit=5 ", {"a.v"}, {"a.blif"}), ("nclc check --limit=", set(), {"a.v"})]


def completes(folder, ask, lines=ASKED):
    """Asks a shell for completions of each line, in a folder with a file of each kind."""
    for ending in ("v", "blif", "delays", "words"):
        (folder / f"a.{ending}").write_text("")
    for line, wanted, other in lines:
        found = ask(line)
        assert wanted <= found and not other & found, (line, found)


@needing("bash")
def completions_of_bash(folder):
    def ask(line):
        # bash cuts words at an =, and gives the line beside them
        script = ("source %s; COMP_LINE='%s'; COMP_POINT=${#COMP_LINE}; line=${COMP_LINE//=/ = }; COMP_WORDS=($line); [[ $line == *' ' ]] && COMP_WORDS+=('')\n"
                  "COMP_CWORD=$((${#COMP_WORDS[@]} - 1)); _nclc; printf '%%s\\n' \"${COMPREPLY[@]}\"") % (TOOLS / "completions/nclc.bash", line)
        return set(ran(["bash", "-c", script], folder=folder).split())
    completes(folder, ask, ASKED + ASKED_WITH_VALUES)


@needing("fish")
def completions_of_fish(folder):
    def ask(line):
        script = f"source {TOOLS}/completions/nclc.fish; complete -C '{line}'"
        return {found.split("\t")[0] for found in ran(["fish", "--no-config", "-c", script], folder=folder).splitlines()}
    completes(folder, ask)


@needing("zsh")
def completions_of_zsh(folder):
    def ask(line):
        (folder / "rc").mkdir(exist_ok=True)
        (folder / "rc/.zshrc").write_text(f"fpath=({TOOLS}/completions $fpath); autoload -Uz compinit; compinit -u -D; PS1='> '; setopt no_beep; zstyle ':completion:*' list-prompt ''\n"
                                          "zstyle ':completion:*' menu no; LISTMAX=0; unsetopt auto_menu; setopt auto_list; print -r ready\n")
        number, handle = pty.fork()
        if not number:
            os.chdir(folder)
            os.environ.update(ZDOTDIR=str(folder / "rc"), TERM="dumb", COLUMNS="200")
            os.execvp("zsh", ["zsh", "-i"])
        until(handle, b"ready")
        os.write(handle, line.encode() + b"\t\t")
        shown = until(handle, None)
        os.write(handle, b"\x15exit\n")
        until(handle, None)
        os.close(handle)
        os.waitpid(number, 0)
        shown = re.sub(r"\x1b\[[0-9;?]*[A-Za-z]|\x1b[=>]", "", shown.decode("latin-1"))
        return set(shown.replace(line.strip(), " ").split()) - set(line.split()) | ({line.split()[-1] + shown.split(line)[-1].split()[0]} if line[-1] != " " and shown.split(line)[-1].split() else set())
    completes(folder, ask)


def until(handle, mark):
    """What a terminal shows until the mark, or until it is silent for a second."""
    shown = b""
    while mark is None or mark not in shown:
        if not select.select([handle], [], [], 1 if mark is None else 20)[0]:
            return shown
        try:
            shown += os.read(handle, 4096)
        except OSError:
            return shown
    return shown


def install_puts_all(folder):
    tool("install", folder / "prefix", PROGRAM[0])
    for file in ("bin/nclc", "share/man/man1/nclc.1", "share/bash-completion/completions/nclc", "share/zsh/site-functions/_nclc",
                 "share/fish/vendor_completions.d/nclc.fish", "share/nclc/cells.v", "share/nclc/tools/interleave", "share/doc/nclc/README.md"):
        assert (folder / "prefix" / file).is_file(), file
    same(ran([folder / "prefix/bin/nclc", "check", "and.v"], folder=folder / "prefix/share/nclc/examples"), "accepted banks=2 stages=1 cells=12\n")
    if shutil.which("dot"):
        ran([folder / "prefix/share/nclc/tools/pages", folder / "pages", folder / "prefix/bin/nclc"])
    assert ran([folder / "prefix/share/nclc/tools/interleave", folder / "prefix/share/nclc/examples/and.blif"])
    for page in (folder / "prefix/share/doc/nclc").rglob("*.md"):
        links = {link.partition("#")[0] for link in re.findall(r"\]\(([^)#\s]+[^)\s]*)\)", page.read_text()) if "://" not in link}
        same((page.name, [link for link in links if not (page.parent / link).exists()]), (page.name, []))
    named = re.findall(r"share/\w+/?\S*", " ".join(re.findall(r"^\.It Pa (.*)$", (TOOLS / "man/nclc.1").read_text(), re.M)))
    assert "share/nclc/examples" in named and all((folder / "prefix" / name).exists() for name in named), named
    refuses("install", status=2)
    refuses("install", folder / "prefix", folder / "absent")


def pack_makes_an_archive(folder):
    for name in ("nclc", "again"):
        tool("pack", folder / f"{name}.tar.gz", PROGRAM[0])
    same((folder / "nclc.tar.gz").read_bytes() == (folder / "again.tar.gz").read_bytes(), True)
    prefix, about = folder / "prefix", folder / "prefix/share/doc/nclc"
    (prefix / "bin").mkdir(parents=True, mode=0o700)
    ran(["tar", "-xzf", "nclc.tar.gz", "-C", prefix], folder=folder)
    same((prefix / "bin").stat().st_mode & 0o777, 0o700)
    assert ran(["sha256sum", "-c", "share/doc/nclc/SHA256SUMS"], folder=prefix).count(": OK\n") > 50
    same(ran([prefix / "bin/nclc", "check", "and.v"], folder=prefix / "share/nclc/examples"), "accepted banks=2 stages=1 cells=12\n")
    proved = (about / "PROVED").read_text()
    assert proved.startswith(f"version: {version()}\n"), proved
    assert re.search(r"^commit: ([0-9a-f]{40}|not known)", proved, re.M) and "of whose proof nothing is known" in proved, proved
    assert re.search(r"^needs: .*\blibc\.so\.6 .*GLIBC_2\.\d+$", proved, re.M), proved
    same(refuses("pack", folder / "absent/nclc.tar.gz", PROGRAM[0]), f"pack: no folder {folder}/absent\n")
    refuses("pack", "nclc.zip", status=2)
    refuses("pack", folder / "nclc.tar.gz", PROGRAM[0], "more", status=2)


def pack_certifies_what_rt_has_linked(folder):
    """An rt in place of the true one links a program, or leaves what stands there, or answers something else."""
    top, built = folder / "top", folder / "top/crates/nclc/out/nclc"
    for part in ("tools", "docs", "bench", "crates/runs/data/examples"):
        shutil.copytree(TOP / part, top / part)
    for file in ("README.md", "CHANGELOG.md", "CITATION.cff", "LICENSE-MIT", "LICENSE-APACHE"):
        shutil.copy(TOP / file, top)
    built.parent.mkdir(parents=True)
    for links, answer, status in (("cp %s out/nclc" % PROGRAM[0], "accepted banks=2 stages=1 cells=6", 0), (":", "accepted banks=2 stages=1 cells=6", 1),
                                  ("cp /bin/true out/nclc", "", 1)):
        shutil.copy("/bin/true", built)
        (folder / "rt").write_text(f"#!/bin/sh\n[ $1 = run ] || exit 0\n{links}\necho {answer}\n")
        (folder / "rt").chmod(0o755)
        done = subprocess.run([top / "tools/pack", folder / "x.tar.gz"], env={**os.environ, "PATH": f"{folder}:{os.environ['PATH']}"}, capture_output=True, text=True)
        same((links, done.returncode, done.stderr.count("\n")), (links, status, status))
        assert status == 0 or built.is_file()
        told = ran(["tar", "-xzOf", folder / "x.tar.gz", "share/doc/nclc/PROVED"])
        assert "built by rt run just now" in told, told
    without = {**os.environ, "PATH": ":".join(part for part in os.environ["PATH"].split(":") if not os.path.exists(f"{part}/rt"))}
    subprocess.run([top / "tools/pack", folder / "y.tar.gz"], env=without, check=True)
    assert "of whose proof nothing is known here, as there is no rt" in ran(["tar", "-xzOf", folder / "y.tar.gz", "share/doc/nclc/PROVED"])


@needing("dot")
def show_draws_a_page(folder):
    assert tool("show", EXAMPLES / "full_adder.v").startswith("<!DOCTYPE html>")
    same(refuses("show", EXAMPLES / "exercise_7.v").partition(":")[0], "show")
    refuses("show", "--stage", "9", EXAMPLES / "and.v")
    refuses("show", "--stage", "x", EXAMPLES / "and.v", status=2)
    tool("pages", folder / "pages", PROGRAM[0])
    same(sorted(path.name for path in (folder / "pages").iterdir()), ["adder.html", "orphan.html", "stages.html"])
    refuses("pages", status=2)


@needing("dot")
def show_tells_what_is_cut_off_or_empty(folder):
    netlist = EXAMPLES / "orphan.v"
    why = nclc("check", netlist, "--why", status=1)
    vcd = nclc("sim", netlist, "--delays", EXAMPLES / "slow_carry.delays", "--words", EXAMPLES / "three_bits.words", "--vcd", status=1)
    for option, text in (("--why", why), ("--vcd", vcd)):
        (folder / "run").write_text(text)
        assert tool("show", netlist, option, folder / "run").startswith("<!DOCTYPE html>")
        for cut in (text[:-1], text[: len(text) // 2].rstrip("\n")):
            (folder / "run").write_text(cut)
            assert "it is cut off" in refuses("show", netlist, option, folder / "run"), cut[-50:]
    (folder / "run").write_text(why[: why.rindex("lost: ")])
    assert "it is cut off" in refuses("show", netlist, "--why", folder / "run")
    for empty in ("", "\n\n"):
        (folder / "run").write_text(empty)
        refuses("show", netlist, "--told", folder / "run")


def show_refuses_too_many_cells(folder):
    text, wires = (EXAMPLES / "and.v").read_text(), "".join(f"TH12 many{i}(.A(p1_0),.B(p1_1),.Z(w{i}));\n" for i in range(20001))
    (folder / "large.v").write_text(text.replace("endmodule", wires + "endmodule"))
    told = refuses("show", folder / "large.v")
    assert "more than 20000: cut the netlist" in told, told


def install_and_all_others_have_a_help(folder):
    for path in TOOLS.iterdir():
        if path.is_file() and path.stat().st_mode & 0o100:
            found = tool(path.name, "--help")
            assert f"{path.name}" in found and found.count("\n") > 2, path.name
            assert f"| `{path.name} " in (TOOLS / "README.md").read_text(), path.name
            assert path.read_text().count("\n") < 200, path.name
