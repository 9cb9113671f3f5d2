"""The emulated board mps2-an386, a Cortex-M4: programs for it, compiled and linked, and what they print and take there."""
import functools
import os
import struct
import subprocess
import tempfile
from pathlib import Path

import module
from module import TOP, fail

HERE = Path(__file__).resolve().parent
OWN = ("start.c", "counted.S", "moves.S", "divide.c")
CPU = ("--target=thumbv7em-none-eabi", "-mcpu=cortex-m4", "-mfloat-abi=soft")
STRICT = ("-O2", "-Wall", "-Wextra", "-Werror", "-ffreestanding")
BOARD = "qemu-system-arm -M mps2-an386 -display none -serial none -monitor none -semihosting -icount shift=8".split()
TICKS = 256 * 25 / 1000  # of the board's timer, 25 MHz, in an instruction, which takes 2^8 ns
LIMIT = 1200  # seconds for one run
EMPTY, KNOWN = len(module.CALLS), len(module.CALLS) + 1


@functools.cache
def own_parts():
    """What a board needs beside the module, compiled."""
    place = module.KEPT / "board"
    place.mkdir(parents=True, exist_ok=True)
    parts = [place / f"{Path(name).stem}.o" for name in OWN]
    for name, part in zip(OWN, parts):
        module.clang(*CPU, *STRICT, "-c", HERE / name, "-o", part)
    return parts


def c_code(source, *ways):
    """A part of a C program over the library, compiled: to an object file, or in another way."""
    part = own_parts()[0].with_name(f"library-{source.stem}{'.ll' if ways else '.o'}")
    include = ("-I", HERE, "-I", TOP / "include")
    module.clang(*CPU, "-std=c99", "-pedantic", *STRICT, *include, *(ways or ("-c",)), source, "-o", part)
    return part


def built(name, ir, *more):
    """A module, set to the M4, compiled as the kit does it and linked for the board, with more parts where there are some."""
    parts = [*own_parts(), *more]
    source = parts[0].with_name(f"{name}.ll")
    source.write_text(module.for_m4(ir))
    part, program = source.with_suffix(".o"), source.with_suffix(".elf")
    module.clang(*CPU, "-O3", "-Werror", "-x", "ir", "-c", source, "-o", part)
    module.run(module.tools() / "bin" / "ld.lld", "-T", HERE / "board.ld", "-e", "start", "-o", program, part, *parts)
    return program


def alone(program):
    """A program's module calls nothing outside itself: it links without any other part."""
    module.run(module.tools() / "bin" / "ld.lld", "-e", "0", "-o", os.devnull, program.with_suffix(".o"))


def loaded(program):
    """How many bytes of code and constants a program's module has on the board."""
    data = program.with_suffix(".o").read_bytes()
    table, size, number = struct.unpack_from("<I", data, 32) + struct.unpack_from("<HH", data, 46)
    heads = (struct.unpack_from("<6I", data, table + size * at) for at in range(number))
    return sum(length for _, kind, flags, _, _, length in heads if kind == 1 and flags & 2)


def instructions(ticks):
    """The clock is read a tick early or late, at most."""
    found = ticks / TICKS
    if abs(found - round(found)) > 0.35:
        fail(f"{ticks} ticks are no whole number of instructions")
    return round(found)


class Ran:
    """What a program printed on the board, what it took, and what each watched call took, with the call's name."""

    def __init__(self, program, given):
        with tempfile.TemporaryDirectory() as place:
            (Path(place) / "in").write_bytes(given)
            done = subprocess.run([*BOARD, "-kernel", program], cwd=place, timeout=LIMIT, check=False)
            if done.returncode:
                fail(f"{program.name} ended with status {done.returncode} on the board")
            self.printed = (Path(place) / "out").read_bytes()
            counts = (Path(place) / "counts").read_bytes()
        empty, known, whole, *notes = struct.unpack(f"<{len(counts) // 4}I", counts)
        around = instructions(empty & 0xFFFFFFF) - 1
        if (empty >> 28, known >> 28) != (EMPTY, KNOWN) or instructions(known & 0xFFFFFFF) - around != 1001:
            fail("the board's clock doesn't count instructions")
        self.whole = instructions(whole)
        self.calls = [(module.CALLS[n >> 28], instructions(n & 0xFFFFFFF) - around) for n in notes]
