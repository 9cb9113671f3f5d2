"""The library for C, as a firm gets it: header, archive, vectors and the example.

include/tolmezha.h and include/vectors.txt must be what tests/library/header.py and tests/library/vectors.py make, and what
these and `./run library` must refuse is refused (tests/library/refused.py). Then `./run library` builds the archive. It must
have the header's functions and no more, no data, and nothing that it asks of others, and the header must compile as C and as
C++. What tests/library/vectors.c prints of the vectors through the archive must be the vectors, and examples/receive.c must
fetch a pod's blocks over good links and rough ones (tests/library/flights.py).

Needs gcc, g++ and the C library, on a processor other than x86-64 also gcc for x86-64 and its C library; installed where
missing.
"""
import os
import platform
import re
import sys
import tempfile
import textwrap
from pathlib import Path

HERE = Path(__file__).resolve().parent
sys.path[:0] = [str(HERE / part) for part in ("library", "counts", "second")]
import flights
import header
import refused
import vectors
from aircraft import differing
from module import TOP, fail, need, run, tools

NATIVE = platform.machine() == "x86_64"
CROSS = "" if NATIVE else "x86_64-linux-gnu-"
STRICT = ("-Wall", "-Wextra", "-pedantic", "-Wredundant-decls", "-Werror")
LIBRARY = TOP / "target" / "library"
ARCHIVE, INCLUDE = LIBRARY / "libtolmezha.a", LIBRARY / "include"
PAGE = TOP / "docs" / "LIBRARY.md"


def installed():
    """What Debian has of this."""
    need("g++", "g++")
    need("/usr/include/stdint.h", "libc6-dev")
    need(CROSS + "gcc", "gcc" if NATIVE else "gcc-x86-64-linux-gnu")
    if not NATIVE:
        need("/usr/x86_64-linux-gnu/include/stdio.h", "libc6-dev-amd64-cross")


def same(what, came, due):
    """Two texts that must be one."""
    difference = differing(what, *(text.encode().split(b"\n") for text in (came, due)))
    if difference:
        fail(difference)


def text_of(path):
    return path.read_text() if path.exists() else "there is no such file"


def stored():
    """The stored files are what is made of the present source and by the second program."""
    for name, script, text in (("tolmezha.h", "header", header.made()), ("vectors.txt", "vectors", vectors.text())):
        same(f"include/{name} (python3 tests/library/{script}.py --write)", text_of(TOP / "include" / name), text)


def built():
    """The archive, with the stored files beside it; and what is then said is what the page shows."""
    shown = re.search(r"^    \$ \./run library\n((?:    .*\n)+)", PAGE.read_text(), re.M)
    if not shown:
        fail("docs/LIBRARY.md shows no ./run library")
    same("what ./run library says", run("./run", "library").decode(), textwrap.dedent(shown[1]))
    if not ARCHIVE.exists():
        fail("./run library leaves no archive")
    for path in (INCLUDE / "tolmezha.h", LIBRARY / "vectors.txt"):
        same(f"{path.relative_to(TOP)}", text_of(path), text_of(TOP / "include" / path.name))


def program(place, *sources):
    """A program in C over the archive, and the words that run it."""
    out = place / sources[0].stem
    static = () if NATIVE else ("-static",)  # so the emulator needs no loader
    run(CROSS + "gcc", "-std=c99", *STRICT, f"-I{INCLUDE}", *static, "-o", out, *sources, ARCHIVE)
    return [str(out)] if NATIVE else [str(tools() / "bin" / "qemu-x86_64"), str(out)]


def functions(place):
    """The header as C99 and as C++, its functions by their plain names; the archive has them, and exports nothing else."""
    names = re.findall(r"^\w+ (tolmezha_\w+)\(", (INCLUDE / "tolmezha.h").read_text(), re.M)
    source = place / "uses.c"
    addresses = "".join(f"    (void (*)(void)){name},\n" for name in names)
    twice = '#include "tolmezha.h"\n' * 2
    source.write_text(f"{twice}typedef void (*any)(void);\nany all[] = {{\n{addresses}}};\nint main(void) {{ return 0; }}\n")
    run(*program(place, source))
    for standard in ("c++98", "c++17"):
        code = run("g++", "-x", "c++", f"-std={standard}", *STRICT, f"-I{INCLUDE}", "-S", "-o", "-", source).decode()
        if set(names) != set(re.findall(r"\w*tolmezha_\w+", code)):
            fail(f"as {standard} the header's functions have other names")
    there = re.findall(r"^\w+ [A-Z] (.+)$", run(CROSS + "nm", "-g", "--defined-only", ARCHIVE).decode(), re.M)
    if sorted(there) != sorted(names):
        fail(f"the header has {' '.join(sorted(names))}, and the archive {' '.join(sorted(there))}")
    return len(names)


def alone():
    """The archive calls nothing outside itself, and has no data: constants alone."""
    outside = re.findall(r"^ +[A-Za-z] (.+)$", run(CROSS + "nm", "-u", ARCHIVE).decode(), re.M)
    if outside:
        fail(f"the archive calls {' '.join(outside)}")
    parts = re.findall(r"^ *\d+\t *(\d+)\t *(\d+)\t.*$", run(CROSS + "size", ARCHIVE).decode(), re.M)
    if not parts or any(part != ("0", "0") for part in parts):
        fail(f"the archive has data, or data that begins as 0, in bytes: {parts}")


def told(place):
    """The vectors as the library has them."""
    text = (LIBRARY / "vectors.txt").read_text()
    due = vectors.cases(text)
    same("the vectors through the library", run(*program(place, *vectors.PROGRAM), input=text.encode()).decode(), due)
    return due.count("\n")


def main():
    for word in [word for word in os.environ if word.startswith("QEMU_")]:
        del os.environ[word]
    installed()
    stored()
    edits = refused.all_of()
    built()
    with tempfile.TemporaryDirectory() as folder:
        place = Path(folder)
        count = functions(place)
        alone()
        lines = told(place)
        flown = flights.all_of(program(place, TOP / "examples" / "receive.c"))
    print(f"library: ok, {count} functions, {lines} vectors, {edits} refusals, {flown}")


if __name__ == "__main__":
    main()
