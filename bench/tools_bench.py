"""Tests of the scripts of bench/ that judge others: each has to fail where something is wrong. `bench/tools.py` runs them."""
import os
import re
import shutil
import subprocess
import sys

from tools_help import EXAMPLES, PROGRAM, TOP, needing, same


def script(name, *words, top=TOP, folder=None):
    """The status and the text of a script of bench/, which may be a copy in another folder."""
    done = subprocess.run([sys.executable, top / "bench" / name, *map(str, words)], capture_output=True, text=True, timeout=600, cwd=folder)
    assert "Traceback" not in done.stderr, done.stderr
    return done.returncode, done.stdout or done.stderr


def copied(folder, *files):
    """A folder with copies of files of the repository, and what scripts of bench/ share."""
    for file in (*files, "tools/script.py"):
        (folder / file).parent.mkdir(parents=True, exist_ok=True)
        shutil.copy(TOP / file, folder / file)
    return folder


def program(folder, text):
    """A program in place of nclc: a shell script, in which $nclc is the true one."""
    file = folder / "program"
    file.write_text(f"#!/bin/sh\nnclc='{PROGRAM[0]}'\n{text}\n")
    file.chmod(0o755)
    return file


def bench_scripts_tell_wrong_arguments_in_a_line(folder):
    for name in ("shown.py", "stored_runs.py", "tools.py", "show_pages.py", "random_compile.py", "refused_memory.py", "figures.py"):
        status, text = script(name)
        same((name, status, text.count("\n")), (name, 2, 1))
        status, text = script(name, folder / "absent", *[EXAMPLES] * (name == "show_pages.py"), folder=folder)
        same((name, status, text.count("\n")), (name, 1, 1))
        assert script(name, "--help")[0] == 0, name
    same(script("tools.py", PROGRAM[0], "no_such_test")[0], 1)
    same(script("shown.py", PROGRAM[0], folder / "absent.md")[0], 1)


def bench_random_compile_finds_what_is_wrong(folder):
    def found(text):
        return script("random_compile.py", program(folder, text), 12, "--keep", folder)
    same(found('exec "$nclc" "$@"')[0], 0)
    for text, said in [('"$nclc" "$@"; exit 3', "compile: status 3"), ('"$nclc" "$@"; echo more >&2', "compile: status 0"),
                       ('[ $1 = check ] && echo "limit stage 1: more than 100000 nodes" && exit 6; exec "$nclc" "$@"', "check: status 6"),
                       ('[ $1 = match ] && echo "limit output 1: more than 100000 nodes" && exit 6; exec "$nclc" "$@"', "match: status 6"),
                       ('[ $1 = check ] && echo "accepted banks=2 stages=1 cells=1" && exit 0; exec "$nclc" "$@"', "check: ['accepted"),
                       ('[ $1 = sim ] && exit 0; exec "$nclc" "$@"', "sim: []"),
                       ('[ $1 = compile ] || exec "$nclc" "$@"; "$nclc" "$@" | sed "s/^endmodule/%s/"' % ("TH12 s9 ()\\n" * 300), "compile: ")]:
        status, told = found(text)
        assert status == 1 and said in told, (text, told)


def bench_lemmas_finds_what_stands_twice(folder):
    top = copied(folder, "bench/lemmas.py")
    proofs, out = top / "crates/one/proofs", top / "crates/one/out/proofs"
    proofs.mkdir(parents=True)
    out.mkdir(parents=True)
    lemma = "{name} : ({bound} : ℕ) → ({bound} + 0 ≡ {bound}) → ({bound} ≤ {bound} + {bound} + {bound} + {bound})\n{name} {bound} same = cited\n"
    (proofs / "A.antt").write_text(lemma.format(name="first", bound="n"))
    (out / "B.antt").write_text(lemma.format(name="other", bound="m"))
    same(script("lemmas.py", top=top), (0, "not cited: crates/one/proofs/A.antt:1 first\n0 statements stand 0 times; 1 lemmas are cited nowhere\n"))
    (proofs / "B.antt").write_text(lemma.format(name="other", bound="m"))
    status, told = script("lemmas.py", top=top)
    assert status == 1 and "1 statements stand 2 times; 2 lemmas" in told, told
    begin = sum(os.times()[2:4])
    same(script("lemmas.py")[0], 0)
    assert sum(os.times()[2:4]) - begin < 20


def bench_stored_runs_tells_what_is_gone(folder):
    top = copied(folder, "bench/stored_runs.py", "crates/runs/stdout", "crates/runs/data/commands", "crates/runs/data/examples/commands")
    stored, data = top / "crates/runs/stdout", top / "crates/runs/data"
    run = "$ nclc check wires.v\naccepted banks=2 stages=1 cells=6\nstatus 0\n"
    for place in (data, data / "examples"):
        (place / "wires.v").write_bytes((TOP / "crates/runs/data/wires.v").read_bytes())
        (place / "commands").write_text("check wires.v\n")
    stored.write_text(f"ran\n{run}{run}")
    found = lambda: script("stored_runs.py", PROGRAM[0], top=top)
    same(found(), (0, "1 and 1 runs, all as stored\n"))
    text = stored.read_text()
    stored.write_text(text + "$ nclc check absent\nread failed\nstatus 4\n")
    same((found()[0], found()[1].split("\n")[0]), (1, "gone: $ nclc check absent"))
    stored.write_text(text.replace("cells=6", "cells=7"))
    assert found()[0] == 1 and "differs: $ nclc check wires.v" in found()[1]
    stored.write_text(text)
    (data / "left.v").write_text("")
    same((found()[0], found()[1].split("\n")[0]), (1, "gone: a command for left.v"))
    for place in (data, data / "examples"):
        (place / "commands").write_text("")
    assert found()[0] == 1 and "gone: $ nclc check wires.v" in found()[1]


ALLOCATING = """#include <stdio.h>
#include <stdlib.h>
int main(void) {
    static char room[64];
    setvbuf(stdout, room, _IOFBF, sizeof room);
    for (int i = 0; i < 3; i++) if (!malloc(100)) { fputs("out of memory\\n", stdout); return 7; }
    return 0;
}
"""


@needing("cc", "yosys", "berkeley-abc")
def bench_refused_memory_is_compared_with_the_page(folder):
    subprocess.run(["cc", "-O0", "-fno-builtin", "-xc", "-", "-o", folder / "program"], input=ALLOCATING, text=True, check=True)
    status, told = script("refused_memory.py", folder / "program")
    same((status, told.split("\n")[0]), (0, "check and.v: 3 requests, 3 out of memory, 0 as with it"))
    status, told = script("figures.py", folder / "program", "memory")
    assert status == 1 and told.count("\n") > 8, told
