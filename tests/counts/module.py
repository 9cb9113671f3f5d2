"""The module that the kit compiles of a proved program, kept; and its forms: with the calls of the pod or of the aircraft's
half as firmware makes them, external and not inlined, and for another processor.

A folder of links stands in for the kit, whose clang notes what it is given and then does its work. So what is kept is the
module of the very run that proved and built the program.
"""
import contextlib
import functools
import platform
import re
import shutil
import subprocess
import sys
import tempfile
from pathlib import Path

TOP = Path(__file__).resolve().parents[2]
KEPT = TOP / "target" / "kept"
CALLS = (
    "power_on",
    "packet",
    "put",
    "samples",
    "pipe_byte",
    "pipe_timeout",
    "deadline",
    "command_word",
    "data_in",
    "data_out",
    "status_word",
    "packet_out",
    "taken",
)
# those that `repeats` makes: not power on
REPEATED = CALLS[1:]
AIRFRAME = ("build", "read")
RT = ("rt", "rtlib.py")  # the kit's command, which works with the kit that it lies in, links followed
KEEPER = """#!/bin/sh
cp module.bc '{keep}.bc' && printf '%s\\n' "$@" >'{keep}.words' && exec '{clang}' "$@"
"""


def fail(text):
    raise SystemExit(f"{Path(sys.argv[0]).name}: {text}")


def run(*words, **more):
    """A command that must succeed; what it says on standard output is returned."""
    words = [str(word) for word in words]
    try:
        return subprocess.run(words, check=True, stdout=subprocess.PIPE, **{"cwd": TOP, **more}).stdout
    except FileNotFoundError:
        fail(f"the command {words[0]} is missing")
    except subprocess.CalledProcessError as ended:
        fail(f"{' '.join(words)} ended with status {ended.returncode}")


def need(what, package):
    """A command of Debian's, or a file, installed where it is missing."""

    def there():
        return Path(what).exists() if "/" in what else shutil.which(what)

    if not there():
        print(f"installing Debian's {package}, for {what}", flush=True)
        quiet = {"stdout": subprocess.DEVNULL, "stderr": subprocess.DEVNULL, "check": False}
        for words in (["update"], ["install", "-y", "--no-install-recommends", package]):
            if shutil.which("apt-get"):
                subprocess.run(["apt-get"] + words, **quiet)
    if not there():
        fail(f"{what} is missing (Debian's {package}), and could not be installed")


@functools.cache
def kit():
    """The kit's folder, found by its guide."""
    if not shutil.which("rt"):
        fail("the command rt is missing: install the Rattle kit")
    return Path(run("rt", "doc").decode().strip()).parent


def tools():
    """What the kit has of compiler, linker and C library."""
    return kit() / "toolchain"


def clang(*words):
    return run(tools() / "bin" / "clang", *words)


def on_x86(program, given):
    """What a program for x86-64 prints: run as it is on such a machine, and by the kit's emulator on another."""
    words = [program]
    if platform.machine() != "x86_64":
        lib = tools() / "lib"
        words = [tools() / "bin" / "qemu-x86_64", lib / "ld-linux-x86-64.so.2", "--library-path", lib, program]
    return run(*words, input=given)


def links(folder, to, *but):
    """A folder of links to the parts of another, but those that are to be others."""
    folder.mkdir()
    for part in to.iterdir():
        if part.name not in but:
            (folder / part.name).symlink_to(part)


@contextlib.contextmanager
def keeper(name):
    """The command of the kit again, but for its clang, which keeps what it is given of a program. It lies outside the repository,
    where rt suffers no links."""
    KEPT.mkdir(parents=True, exist_ok=True)
    with tempfile.TemporaryDirectory() as folder:
        place = Path(folder) / "kit"
        links(place, kit(), "bin", "toolchain")
        links(place / "bin", kit() / "bin", *RT)
        for part in RT:
            shutil.copy(kit() / "bin" / part, place / "bin")
        links(place / "toolchain", tools(), "bin")
        links(place / "toolchain" / "bin", tools() / "bin", "clang")
        there = place / "toolchain" / "bin" / "clang"
        there.write_text(KEEPER.format(keep=KEPT / name, clang=tools() / "bin" / "clang"))
        there.chmod(0o755)
        yield place / "bin" / "rt"


def present(name):
    """One number for all that a crate is built of."""
    return run("bash", "-c", '. ./run && sum_of "$0"', name)


def kept(name):
    """Where the module of a proved program lies, proved and compiled again where it isn't of the present files; and target/bin
    has the program."""
    module, seen, out = KEPT / f"{name}.bc", KEPT / f"{name}.sum", TOP / "crates" / name / "out"
    run("./run", name, input=b"")
    now = present(name)
    if module.exists() and seen.exists() and seen.read_bytes() == now:
        return module
    for old in (module, seen, out / f"{name}.stamp"):  # by the last one rt sees that there is nothing to compile
        old.unlink(missing_ok=True)
    with keeper(name) as rt:
        run(rt, "run", cwd=out.parent, input=b"", stderr=subprocess.DEVNULL)
    if not module.exists():
        fail(f"nothing was compiled for {name}")
    if (out / f"{name}.o").read_bytes() != compiled(name, module).read_bytes():
        fail(f"the module kept of {name} is not the one that was compiled")
    if present(name) != now:
        fail(f"while the module of {name} was made, its files have changed")
    seen.write_bytes(now)
    return module


def archived(name):
    """The same of a library that C programs link: `rt lib` proves and compiles it anew whenever it is called."""
    module, out = KEPT / f"lib{name}.bc", TOP / "crates" / name / "out"
    module.unlink(missing_ok=True)
    with keeper(f"lib{name}") as rt:
        run(rt, "lib", cwd=out.parent, stderr=subprocess.DEVNULL)
    if not module.exists():
        fail(f"nothing was compiled for lib{name}.a")
    if run(tools() / "bin" / "llvm-ar", "p", out / f"lib{name}.a") != compiled(f"lib{name}", module).read_bytes():
        fail(f"the module kept of lib{name}.a is not the one that was compiled")
    return module


def compiled(name, module):
    """The object file of a module for x86-64, by the words with which the kit compiled this program's."""
    words = re.sub("^--sysroot=.*$", f"--sysroot={tools()}", (KEPT / f"{name}.words").read_text(), flags=re.M).splitlines()
    out = module.with_suffix(".o")
    clang(*[{"module.bc": module, "module.o": out}.get(word, word) for word in words])
    return out


def text(name, keep=kept):
    """The module as text, as it was before any step of the compiler."""
    ways = ("--target=x86_64-unknown-linux-gnu", "-Xclang", "-disable-llvm-passes")
    return clang(*ways, "-S", "-emit-llvm", "-x", "ir", keep(name), "-o", "-").decode()


@functools.cache
def defined(call):
    """The line by which a call is defined: one of the aircraft's half, or one of the pod, whichever crate and file it stands
    in: the crate `pod` names it."""
    crate = "airframe"
    if call not in AIRFRAME:
        names = (TOP / "crates" / "pod" / "src" / "lib.rt").read_text()
        found = re.findall(rf"^pub use (\w+)::(?:{call}|\{{[^}}]*\b{call}\b[^}}]*\}});$", names, re.M) or fail(f"the crate pod names no {call}")
        crate = found[0]
    return re.compile(rf'^define internal (.*@"{crate}::(?:\w+::)*{call}"\(.*\)) (#\d+ {{)$', re.M)


def external(ir, calls=REPEATED):
    """With the calls as firmware makes them: those of the pod that `repeats` makes, or others."""
    for call in calls:
        ir, found = defined(call).subn(r"define \1 noinline \2", ir)
        if found != 1:
            fail(f"{found} functions are called {call}")
    return ir


def watched(ir):
    """The same, with each call going to outer_X, and the pod's own being inner_X."""
    for call in CALLS:
        line = defined(call).search(ir) or fail(f"no function of the pod is called {call}")
        name = re.search(r'@"[^"]*"', line[1])[0]
        inner = f"define {line[1]} noinline {line[2]}".replace(name, f"@inner_{call}")
        outer = "declare " + re.sub(r" %a\d+", "", line[1]).replace(name, f"@outer_{call}")
        ir = ir.replace(line[0], inner).replace(name, f"@outer_{call}") + outer + "\n"
    return ir


def for_m4(ir):
    """For a Cortex-M4. Sizes stay 64 bits wide, as they were proved; addresses have 32."""
    layout = "e-m:e-p:32:32-Fi8-i64:64-v128:64:128-a:0:32-n32-S64"
    ir, one = re.subn(r'^target datalayout = ".*"$', f'target datalayout = "{layout}"', ir, flags=re.M)
    ir, two = re.subn(r'^target triple = ".*"$', 'target triple = "thumbv7em-unknown-none-eabi"', ir, flags=re.M)
    ir, three = re.subn(r' "(?:probe-stack|stack-probe-size|target-cpu)"="[^"]*"', "", ir)
    if (one, two) != (1, 1) or not three:
        fail("the module's head has another form than was known")
    return ir.replace(" = ptrtoaddr ptr ", " = ptrtoint ptr ")  # which alone may widen an address
