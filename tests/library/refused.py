"""What must be refused: exports that tests/library/header.py can't write down, and builds of which `./run library` may
leave no archive."""
import os
import re
import shutil
import signal
import subprocess
import tempfile
import time
from pathlib import Path

import header
from module import TOP, fail

MARK = header.MARK + "\n"
SIGN = 'pub extern "C" fn tolmezha_crc(bytes: &[u8]) -> u32'
# in the source of the exports, the first of each is changed; the line that is then named lies so far behind it
EDITS = (
    (MARK + SIGN, SIGN, 0),
    (MARK, MARK.replace("\n", " // a mark\n"), 0),
    (MARK, "#[no_mangle]\n", 0),
    (MARK, "\n" + MARK, 2),
    (MARK, "// ends early */\n" + MARK, 0),
    (MARK + SIGN, MARK + SIGN.replace('"C" ', ""), 1),
    (SIGN, SIGN.replace("tolmezha_crc", "crc"), 0),
    (SIGN, SIGN.replace("bytes", "new"), 0),
    (SIGN, SIGN.replace("&[u8]", "&[u16]"), 0),
    (SIGN, SIGN.replace("&[u8]", "&mut [bool; 3]"), 0),
    (SIGN, SIGN.replace("&[u8]", "&[u8; 0]"), 0),
    (SIGN, SIGN.replace("&[u8]", "usize"), 0),
    (SIGN, SIGN.replace("bytes: &[u8]", ""), 0),
    (SIGN, SIGN.replace("u32", "u64"), 0),
    (SIGN, SIGN.replace("u32", "u16"), 0),
    (SIGN, SIGN.replace(" -> u32", ""), 0),
    (SIGN + "\n", SIGN + "\n    requires { 1 < length bytes.now }\n", 0),
    (SIGN + "\n    ensures", SIGN + "\n    decreases", 0),
    ("{\n    u32::from(crc::crc_of(bytes))", "    requires { 1 < length bytes.now }\n{\n    u32::from(crc::crc_of(bytes))", -2),
    ("mod building;", "pub mod building;", 0),
    ("= 25;", "= 5 * 5;", 0),
    ("= 25;", "= 32768;", 0),
    ("pub const OUTSIDE", "\npub const OUTSIDE", 1),
    ("pub const ROOM", "pub const Room", 0),
    ("pub const ROOM: usize", "pub const ROOM: u64", 0),
)
STAND_IN = """#!/bin/sh
# stands in for rt, which works where it is called: leaves and says what rt does, and ends with the status that the test gives it
if [ "$1" = version ]; then exec cat "${0%/*}/version"; fi
top=$PWD/../..
echo "$1 ${PWD##*/}" >>"$top/calls"
status=$(cat "$top/status")
[ "$status" != stay ] || exec sleep 600
mkdir -p out && cp src/lib.rt out/made
if [ "$status" = change ]; then printf %s "$status" >src/lib.rt && echo 0 >"$top/status" && status=0; fi
if [ "$status" != 0 ]; then echo "logic=not-proved"; exit "$status"; fi
mv out/made out/libtolmezha.a && echo "logic=proved"
"""
CALL = "lib tolmezha"  # of rt, and in which crate's folder


def exports():
    """Each edit of the exports is refused, and its line named."""
    source = (header.SOURCES / "lib.rt").read_text()
    for old, new, behind in EDITS:
        at = source.find(old)
        if at < 0:
            fail(f"the exports have no {old!r} to be changed")
        due = source.count("\n", 0, at) + 1 + behind
        try:
            header.text(source[:at] + new + source[at + len(old):])
        except SystemExit as ended:
            if f"lib.rt line {due}:" not in str(ended):
                fail(f"{old!r} as {new!r} is refused, but not at line {due}: {ended}")
        else:
            fail(f"{old!r} as {new!r} is not refused")
    return len(EDITS)


class Desk:
    """A copy of ./run, with a stand-in for rt."""

    def __init__(self, folder):
        self.top, self.refused = Path(folder), 0
        self.archive = self.top / "target" / "library" / "libtolmezha.a"
        for name in ("run", "crates.txt"):
            shutil.copy(TOP / name, self.top)
        shutil.copytree(TOP / "include", self.top / "include")
        for name, value in (("bin/rt", STAND_IN), ("bin/version", "a stand-in\n"), ("crates/session/src/main.rt", "")):
            self.write(name, value)
        (self.top / "bin" / "rt").chmod(0o755)

    def write(self, name, value):
        """A file of the repository."""
        path = self.top / name
        path.parent.mkdir(parents=True, exist_ok=True)
        path.write_text(f"{value}")

    def start(self, files, status=0):
        """./run library over such a source, where rt ends so."""
        for name, value in (("status", status), ("calls", ""), ("crates/tolmezha/src/lib.rt", files)):
            self.write(name, value)
        path = {**os.environ, "PATH": f"{self.top / 'bin'}:{os.environ['PATH']}", "RUN_PROGRESS": "0"}
        pipes = {"stdin": subprocess.DEVNULL, "stdout": subprocess.PIPE, "stderr": subprocess.PIPE, "text": True}
        return subprocess.Popen(["./run", "library"], cwd=self.top, env=path, start_new_session=True, **pipes)

    def calls(self):
        return (self.top / "calls").read_text().splitlines()

    def builds(self, files, calls=1, over=None, status=0):
        """A run that leaves the archive of these files, after so many calls of rt; or over others, which rt ends with changing."""
        run = self.start(over or files, status)
        said, wrong = run.communicate()
        left = self.archive.read_text() if self.archive.exists() else "no archive"
        if (run.returncode, left, self.calls(), said.count("\n"), wrong) != (0, files, [CALL] * calls, 1, ""):
            fail(f"./run library over {files}: status {run.returncode}, {self.calls()}, {left}, {said}{wrong}")

    def refuses(self, files, what, status=0):
        """A run that is refused, and leaves no archive."""
        run = self.start(files, status)
        said, wrong = run.communicate()
        if (run.returncode, said, self.archive.exists()) != (1, "", False) or what not in wrong:
            left = "an archive" if self.archive.exists() else "no archive"
            fail(f"./run library, rt ending with {status}: status {run.returncode}, {left}, {said}{wrong}")
        self.refused += 1

    def stopped(self, files, by):
        """A run that is stopped while rt is at work leaves none either."""
        run = self.start(files, "stay")
        begin = time.monotonic()
        while CALL not in self.calls() and time.monotonic() < begin + 60:
            time.sleep(0.05)
        os.killpg(run.pid, by)
        run.communicate()
        if run.returncode == 0 or self.archive.exists():
            fail(f"./run library, stopped by {by.name}: status {run.returncode}, archive: {self.archive.exists()}")
        self.refused += 1


def builds():
    """What ./run library leaves, by what rt does."""
    with tempfile.TemporaryDirectory() as folder:
        desk = Desk(folder)
        desk.builds("one")
        desk.builds("one", 0)
        desk.builds("two")
        desk.refuses("one", "logic=not-proved", 1)
        desk.refuses("three", "logic=not-proved", 2)
        desk.builds("two", 0)
        desk.archive.unlink()
        desk.refuses("two", "logic=not-proved", 1)
        desk.builds("two")
        for by in (signal.SIGTERM, signal.SIGKILL):
            desk.stopped("one", by)
            desk.builds("two", 0)
            desk.stopped("one", by)
            desk.builds("one")
            desk.stopped("two", by)
            desk.builds("two")
        other_files(desk)
        (desk.top / "include" / "vectors.txt").unlink()
        desk.refuses("one", "vectors.txt")
    return desk.refused


def other_files(desk):
    """All that the archive is built of counts, and nothing else does; what changes while rt is at work is proved once more."""
    for name in ("crates/rows/src/lib.rt", "crates/crc/specs/Crc.antt", "crates/airframe/proofs/build/Proof.antt",
                 "crates/tolmezha/proofs/sent/Answers.antt", "bin/version"):
        desk.write(name, "other")
        desk.builds("two")
        desk.builds("two", 0)
    lines = (desk.top / "crates.txt").read_text()
    desk.write("crates.txt", re.sub(r"^packets:", "packets: orders", lines, flags=re.M))
    desk.builds("two")
    desk.write("crates.txt", lines)
    desk.builds("two")
    desk.write("crates.txt", lines + "# more\n")
    for name in ("crates/session/src/main.rt", "crates/tolmezha/must-fail/one.edit", "crates/tolmezha/out/libtolmezha.a"):
        desk.write(name, "other")
        desk.builds("two", 0)
    desk.write("target/library/libtolmezha.a", "other")
    desk.builds("two")
    desk.write("crates/rows/src/lib.rt", "another")
    desk.builds("change", 2, "two", "change")
    desk.builds("change", 0)


def all_of():
    """How many were refused."""
    return exports() + builds()
