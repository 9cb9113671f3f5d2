"""The files of a commit, or of the tree as it stands, for the tools that compare the two."""
import pathlib
import re
import subprocess

ROOT = pathlib.Path(__file__).resolve().parent.parent


def git(*args, **more):
    return subprocess.run(["git", *args], cwd=ROOT, capture_output=True, check=True, **more).stdout


def files(commit, kind):
    """Each file below crates/ whose path is of the kind, with its text: of the commit, or as it stands where none is given."""
    if not commit:
        names = set(git("ls-files", "--cached", "--others", "--exclude-standard", "crates", text=True).split("\n"))
        for name in sorted(names):
            if re.fullmatch(kind, name) and (ROOT / name).exists():
                yield name, (ROOT / name).read_text()
        return
    names = [n for n in git("ls-tree", "-r", "--name-only", commit, "crates", text=True).split("\n") if re.fullmatch(kind, n)]
    out = git("cat-file", "--batch", input="".join(f"{commit}:{n}\n" for n in names).encode())
    for name in names:
        head, out = out.split(b"\n", 1)
        size = int(head.split()[2])
        yield name, out[:size].decode()
        out = out[size + 1:]
