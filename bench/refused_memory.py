#!/usr/bin/env python3
"""Refuses each request for memory of some runs, one at a time, and looks at how the program ends.

    bench/refused_memory.py PROGRAM

PROGRAM is the built nclc. A small library, which is made here by `cc` and loaded before the C library, answers the Nth
request that the program makes with nothing. Each run has to end with status 7, having written a first part of `out of
memory` and a line feed, or as it ends with all of its memory. It prints how many requests there are and how many runs
ended so; `figures.py PROGRAM memory` compares these with the table in docs/limits.md, or writes it.
"""
import os
import pathlib
import shutil
import subprocess
import sys
import tempfile

sys.path.insert(0, str(pathlib.Path(__file__).resolve().parent.parent / "tools"))
from script import Parser, Refused, carry_out

REFUSING = r"""
#include <errno.h>
#include <stddef.h>
#include <stdlib.h>
#include <unistd.h>

extern void *__libc_malloc(size_t), *__libc_calloc(size_t, size_t), *__libc_realloc(void *, size_t);
extern void *__libc_memalign(size_t, size_t);

static long left = -1;

/* Whether this is the request that is refused, which is told to the file that TOLD names. */
static int refused(void) {
    if (left < 0) left = atol(getenv("REFUSED"));
    if (left == 0 || __sync_sub_and_fetch(&left, 1)) return 0;
    if (write(atoi(getenv("TOLD")), "x", 1) != 1) abort();
    errno = ENOMEM;
    return 1;
}

void *malloc(size_t size) { return refused() ? NULL : __libc_malloc(size); }
void *calloc(size_t count, size_t size) { return refused() ? NULL : __libc_calloc(count, size); }
void *realloc(void *old, size_t size) { return refused() ? NULL : __libc_realloc(old, size); }
void *aligned_alloc(size_t align, size_t size) { return refused() ? NULL : __libc_memalign(align, size); }
int posix_memalign(void **made, size_t align, size_t size) {
    if (refused()) return ENOMEM;
    *made = __libc_memalign(align, size);
    return *made ? 0 : ENOMEM;
}
"""
AND = """module t(x1_0,x1_1,x2_0,x2_1,ki,rst,z1_0,z1_1,ko);
input x1_0,x1_1,x2_0,x2_1,ki,rst;
output z1_0,z1_1,ko;
TH22N r1_0(.A(x1_0),.B(c),.RST(rst),.Z(p1_0));
TH22N r1_1(.A(x1_1),.B(c),.RST(rst),.Z(p1_1));
TH22N r2_0(.A(x2_0),.B(c),.RST(rst),.Z(p2_0));
TH22N r2_1(.A(x2_1),.B(c),.RST(rst),.Z(p2_1));
TH12B k1(.A(p1_0),.B(p1_1),.Z(e1));
TH12B k2(.A(p2_0),.B(p2_1),.Z(e2));
TH22 kt(.A(e1),.B(e2),.Z(ko));
TH22 g1(.A(p1_1),.B(p2_1),.Z(y1));
THand0 g0(.A(p1_0),.B(p2_0),.C(p1_1),.D(p2_1),.Z(y0));
TH22N s1_0(.A(y0),.B(ki),.RST(rst),.Z(z1_0));
TH22N s1_1(.A(y1),.B(ki),.RST(rst),.Z(z1_1));
TH12B d1(.A(z1_0),.B(z1_1),.Z(c));
endmodule
"""
WIRES = """module t(x1_0,x1_1,ki,rst,z1_0,z1_1,ko);
input x1_0,x1_1,ki,rst;
output z1_0,z1_1,ko;
TH22N r1_0(.A(x1_0),.B(c),.RST(rst),.Z(p1_0));
TH22N r1_1(.A(x1_1),.B(c),.RST(rst),.Z(p1_1));
TH12B k1(.A(p1_0),.B(p1_1),.Z(ko));
TH22N s1_0(.A(p1_0),.B(ki),.RST(rst),.Z(z1_0));
TH22N s1_1(.A(p1_1),.B(ki),.RST(rst),.Z(z1_1));
TH12B d1(.A(z1_0),.B(z1_1),.Z(c));
endmodule
"""
XOR = ".model x\n.inputs a b\n.outputs y z\n.names a b y\n10 1\n01 1\n.names a b z\n11 1\n.end\n"
# An AND whose rail 1 is folded into the gate that joins the input which it doesn't read.
JOINED = ".model m\n.inputs a b u\n.outputs y\n.names a b y\n11 1\n"
OR = ".model m\n.inputs a b\n.outputs y\n.names a b y\n1- 1\n-1 1\n"
# The AND beside a gate that nothing waits for.
UNSEEN = AND.replace("endmodule", "TH12 u9(.A(p1_0),.B(p1_1),.Z(w9));\nendmodule")
FILES = {"and.v": AND, "seen.v": UNSEEN, "wires.v": WIRES, "xor.blif": XOR, "or.blif": OR, "joined.blif": JOINED, "d.txt": "cell r1_0 2 3\n", "w.txt": "1\n0\n", "unit.txt": "", "one.txt": "1\n"}
RUNS = [
    ["check", "and.v"],
    ["check", "and.v", "--limit", "5"],
    ["check", "seen.v", "--why"],
    ["sim", "wires.v", "--delays", "d.txt", "--words", "w.txt"],
    ["sim", "wires.v", "--delays", "unit.txt", "--words", "one.txt", "--vcd"],
    ["compile", "xor.blif"],
    ["compile", "joined.blif", "--merge"],
    ["match", "and.v", "or.blif"],
    ["demo", "2"],
]
OUT_OF_MEMORY = b"out of memory\n"


def ran(program, library, folder, words, request=0):
    """The status and the text of a run in which a request is refused, or none, and whether it came to that."""
    told, tell = os.pipe()
    surroundings = dict(os.environ, LD_PRELOAD=library, REFUSED=str(request), TOLD=str(tell))
    done = subprocess.run([program, *words], cwd=folder, env=surroundings, pass_fds=[tell], stdout=subprocess.PIPE)
    os.close(tell)
    with os.fdopen(told, "rb") as reader:
        came = reader.read() != b""
    return (done.returncode, done.stdout), came


def ends(program, words):
    """How many requests a run makes, and how many of the runs in which one is refused end with status 7, and how many as with
    all of the memory."""
    with tempfile.TemporaryDirectory() as folder:
        for name, text in FILES.items():
            with open(os.path.join(folder, name), "w") as file:
                file.write(text)
        library = os.path.join(folder, "refusing.so")
        subprocess.run(["cc", "-O1", "-shared", "-fPIC", "-xc", "-", "-o", library], input=REFUSING, text=True, check=True)
        wanted, _ = ran(program, library, folder, words)
        request, refused, whole = 1, 0, 0
        got, came = ran(program, library, folder, words, request)
        while came:
            if got != wanted and (got[0] != 7 or not OUT_OF_MEMORY.startswith(got[1])):
                raise Refused(f"{' '.join(words)}, request {request}: status {got[0]}, {got[1][:200]!r}")
            whole, refused = whole + (got == wanted), refused + (got != wanted)
            request += 1
            got, came = ran(program, library, folder, words, request)
    return request - 1, refused, whole


def main():
    parser = Parser(__doc__)
    parser.add_argument("program")
    program = shutil.which(os.path.abspath(parser.parse_args().program))
    if program is None:
        raise Refused("there is no such program")
    for words in RUNS:
        requests, refused, whole = ends(program, words)
        print(f"{' '.join(words)}: {requests} requests, {refused} out of memory, {whole} as with it", flush=True)


if __name__ == "__main__":
    carry_out("refused_memory", main)
