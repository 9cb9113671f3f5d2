"""The stored output of a program that shows something, held to the lines that a second program works out."""
import itertools
import pathlib
import sys

CRATES = pathlib.Path(__file__).resolve().parent.parent.parent / "crates"


def held(program, lines):
    """The exit status: 1 at the first line that is stored otherwise. With the word print, prints the lines."""
    due = list(lines)
    if sys.argv[1:] == ["print"]:
        print("\n".join(due))
        return 0
    stored = (CRATES / program / "stdout").read_text().split("\n")
    for number, (line, kept) in enumerate(itertools.zip_longest(due + [""], stored), 1):
        if line != kept:
            print(f"{program}: line {number} is stored as {kept!r} and should be {line!r}")
            return 1
    print(f"{program}: ok, {len(due)} lines")
    return 0
