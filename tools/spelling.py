#!/usr/bin/env python3
"""Gives the definitions and lemmas of specs/ and proofs/ the spelling that the rest of the library has.

usage: python3 tools/spelling.py            at the top of the repository, once, after the older spelling of paths and clauses was turned
       python3 tools/spelling.py --list     prints each name with its new spelling, and changes nothing

A definition and a lemma are in snake case, a type and a fact in upper camel case. A dash stays between two names, as in `byte_in-xor`,
and becomes an underscore before or behind a plain word, as in `is_open`. What the code names keeps its spelling. The names are
those that a file right in specs/ or proofs/ gives, and a name is turned wherever it stands: there, in answers, in the clauses of
src/, in the must-fail edits, and in backticks on the pages. A lemma that would fall together with another name gets `_lem`.
"""

import os
import re
import sys

WORD = re.compile(r"[^\s(){}\[\],;.:`\"λ]+")
GIVEN = re.compile(r"^ *(?:(?:pub|abbrev|unfoldable) )*([^\s(){}\[\],;:λ=]+) : ")
BODY = re.compile(r"^ *(?:abbrev |unfoldable )?(?:pub )?(?:record|data) (?:pub )?([^\s(){}\[\]:]+)")
IMPORT = re.compile(r"^(?:pub )?use +([^\s{]+?)\.?\{([^}]*)\}")
CHOSEN = {"foundIn": "FoundIn", "readBack": "said_back"}
# names that an import or a signature of several lines gives
MORE = set("acknowledgedBy cameOf aCell aValue anExchange anAddress aTransfer aThing".split())
# what the library calls these: a dash stays before them
LIBRARY = set("length append take drop set sets cons none xor or and lt le mod cond replicate".split())


def files(folder, ends):
    for where, dirs, names in os.walk(folder):
        dirs[:] = sorted(d for d in dirs if d not in ("out", ".git", "target"))
        for n in sorted(names):
            if n.endswith(ends):
                yield os.path.join(where, n)


def read(path):
    with open(path, encoding="utf-8") as f:
        return f.read()


def is_own(path):
    """A file right in a crate's specs/ or proofs/: what lies deeper is the proof of one function, and is named by its goals."""
    return os.path.basename(os.path.dirname(path)) in ("specs", "proofs")


def snake(word):
    word = re.sub(r"(?<=[a-z0-9])([A-Z])", r"_\1", word)
    return word if word[:1].isupper() else word.lower()


def given_names(root):
    definitions, lemmas, library, words = set(), set(), set(), set()
    for path in files(root, ".antt"):
        text = read(path)
        for line in text.split("\n"):
            m = IMPORT.match(line)
            if m and not m.group(1).startswith("Rattle.") or m and m.group(1).startswith("Rattle.std"):
                library.update(WORD.findall(m.group(2)))
            if re.match(r"^\s*(pub )?(use|mod) ", line):
                words.update(WORD.findall(m.group(2)) if m else [])
                continue
            # behind a dot stands a field or a step of a goal, which hides nothing
            words.update(m.group(0) for m in WORD.finditer(line.split("--")[0]) if line[m.start() - 1 : m.start()] != ".")
            m = GIVEN.match(line)
            if m and is_own(path):
                marked = re.match(r"^ *(abbrev|unfoldable|pub [^\s]+ :|  )", line)
                (definitions if re.match(r"^ *(abbrev|unfoldable)", line) else lemmas).add(m.group(1))
    return definitions, lemmas, library, words


def spelled(definitions, lemmas, library, words):
    """Old name to new name, and what would have fallen together."""
    names = sorted(n for n in (definitions | lemmas | MORE) - library if re.search(r"[a-z0-9][A-Z]|-", n) and n[0].islower() and "→" not in n)
    plain = {snake(n) for n in definitions if "-" not in n} | {n for n in definitions if "-" not in n}
    new = {}
    for n in names:
        parts = [snake(p) for p in n.split("-")]
        done = parts[0]
        for i in range(1, len(parts)):
            rest = "_".join(parts[i:])
            both = done in plain and (rest in plain or parts[i] in LIBRARY and rest == parts[i])
            done += ("-" if both else "_") + parts[i]
        new[n] = CHOSEN.get(n, done)
    taken = words - set(new)
    together = []
    seen, aside = {}, {}
    for n in sorted(new, key=lambda n: (n not in definitions, "-" in n, n)):
        to = new[n]
        if n in definitions and to in lemmas and to not in definitions and to not in seen:
            # the lemma gives way, wherever no dot stands before it
            aside[to] = to + "_lem"
            together.append((to, aside[to], n))
            taken.discard(to)
        while to in seen or to in taken and to != n:
            together.append((n, to, seen.get(to, "a word")))
            to += "_lem" if n in lemmas else "_of"
        new[n] = to
        seen[to] = n
    return {n: t for n, t in new.items() if n != t}, aside, together


def turn(text, new, aside={}):
    def word(m):
        w = m.group(0)
        if w in aside and text[m.start() - 1 : m.start()] != ".":
            return aside[w]
        return new.get(w, w)

    return WORD.sub(word, text)


def turn_antt(path, text, new, camel, aside):
    """Dashed words of a comment may be English: there only what is in camel case is turned, or stands in backticks."""
    out = []
    if not is_own(path):
        # the proof of a function f is f_spec
        proofs = re.findall(r"^pub ([a-z0-9_-]+-spec) :", text, re.M)
        new = new | {n: n.replace("-", "_") for n in proofs}
    for line in text.split("\n"):
        code, mark, said = line.partition("--") if line.lstrip().startswith("--") else (line, "", "")
        if not mark and " -- " in line:
            code, mark, said = line.partition(" -- ")
        said = re.sub(r"`[^`]*`", lambda m: turn(m.group(0), new), said)
        out.append(turn(code, new, aside) + mark + turn(said, camel))
    return "\n".join(out)


def turn_code(text, new, camel):
    out, ghost = [], False
    for line in text.split("\n"):
        s = line.lstrip()
        clause = s.startswith(("ghost ", "requires", "ensures"))
        ghost = clause or ghost and s not in ("{", "") and not s.startswith(("//", "pub ", "fn "))
        out.append(turn(line, new if ghost and not s.startswith("//") else camel))
    return "\n".join(out)


def turn_edit(text, new, camel):
    out, kind = [], ""
    for line in text.split("\n"):
        if line.startswith("file:"):
            kind = line
        if line.startswith("#"):
            out.append(turn(line, camel))
        elif kind.rstrip().endswith(".antt"):
            out.append(turn(line, new))
        else:
            out.append(turn_code(line, new, camel) if re.match(r"(old|new): *(requires|ensures|ghost)", line) else turn(line, camel))
    return "\n".join(out)


def main():
    root = "crates"
    definitions, lemmas, library, words = given_names(root)
    new, aside, together = spelled(definitions, lemmas, library, words)
    camel = {n: t for n, t in new.items() if "-" not in n}
    for old, to, other in together:
        print("together:", old, to, other, file=sys.stderr)
    if "--list" in sys.argv:
        for n in sorted(new):
            print(n, new[n])
        return
    changed = 0
    todo = [(p, lambda t, p=p: turn_antt(p, t, new, camel, aside)) for p in files(root, ".antt")]
    todo += [(p, lambda t: turn_code(t, new, camel)) for p in files(root, ".rt")]
    todo += [(p, lambda t: turn_edit(t, new, camel)) for p in files(root, ".edit")]
    pages = [p for p in ["README.md", *files("docs", ".md")] if os.path.exists(p)]
    todo += [(p, lambda t: re.sub(r"`[^`\n]*`", lambda m: turn(m.group(0), new), t)) for p in pages]
    for path, by in todo:
        text = read(path)
        done = by(text)
        if done != text:
            changed += 1
            with open(path, "w", encoding="utf-8") as f:
                f.write(done)
    print(f"{len(new)} names in {changed} files")


main()
