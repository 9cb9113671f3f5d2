#!/usr/bin/env python3
"""Writes docs/DESIGN-PASS-CHANGES.md: each public signature with its clauses, type, definition, theorem and must-fail edit that is not as it was at a commit, old and new side by side.

usage: python3 tools/design_pass.py [COMMIT] [--gone]     COMMIT is the one in the first line of docs/DESIGN-PASS.md where none is given;
                                                          --gone writes nothing, and lists what went and is not named in docs/DESIGN-PASS.md

It goes by the text alone, comments and line breaks aside: functions and types of crates/*/src, top-level names of crates/*/specs and crates/*/proofs
(Proof.antt, Answers.antt and Invariants.antt have no statements of their own), edits of crates/*/must-fail. A thing is found again by its crate and its name.
"""
import collections
import difflib
import pathlib
import re
import subprocess
import sys

from trees import ROOT, files

PAGE = ROOT / "docs" / "DESIGN-PASS.md"
CHANGES = ROOT / "docs" / "DESIGN-PASS-CHANGES.md"
MARK, END = "<!-- counts -->", "<!-- end of counts -->"
KIND = r"crates/\w+/(?:src/.*\.rt|(?:specs|proofs)/.*\.antt|must-fail/.*\.edit)"
FIRST = r"[^\s:=(){}]+"
Thing = collections.namedtuple("Thing", "crate file name text pub")


def squeeze(text):
    text = re.sub(r"\s+", " ", text).strip()
    return re.sub(r",? ([)>\]])", lambda m: m.group(0) if m.group(1) == ">" else m.group(1), re.sub(r"([(\[]) ", r"\1", text)) if "fn " in text else text


def closing(text, i, opens="([{<", closes=")]}>"):
    """Behind the bracket that closes the one at i."""
    depth = 0
    while i < len(text):
        if text[i] in opens:
            depth += 1
        elif text[i] in closes and text[i - 1:i + 1] not in ("->", "=>"):
            depth -= 1
            if depth == 0:
                return i + 1
        i += 1
    return i


def read_source(crate, file, text):
    """Functions with their clauses, and types with the lines above them, of a file of src/."""
    text = re.sub(r"//[^\n]*", "", text)
    text = re.sub(r"^ *(?:ghost )?use [^;]*;\n|^ *(?:pub )?mod [^;]*;\n", "", text, flags=re.M)
    owners = []
    for m in re.finditer(r"^(impl|(?:pub )?trait)\b([^{\n]*)(?:\{|$)", text, re.M):
        head = squeeze(m.group(2))
        of = re.sub(r"^<[^>]*> ", "", head)
        public = m.group(1) != "impl" or " for " in of
        owners.append((m.start(), text.find("\n}", m.start()), of.split(" where ")[0], public and m.group(1) != "trait"))
    for m in re.finditer(r"^( *)(pub(?:\([^)]*\))? )?((?:const )?(?:extern \"C\" )?fn )(\w+)", text, re.M):
        i = m.end()
        if text[i] == "<":
            i = closing(text, i, "<", ">")
        i = closing(text, i, "(", ")")
        # the head ends at the brace of the body, or at the semicolon of a trait's method
        stop, k = i, i
        while k < len(text):
            if text[k] == "[":
                k = closing(text, k, "[", "]")
                continue
            if text[k] == ";":
                stop = k
                break
            if text[k] == "{":
                line = text[text.rfind("\n", 0, k) + 1:k]
                if re.match(r" *(?:requires|ensures|decreases)\b", line) or (" requires " in line or " ensures " in line) and not line.rstrip().endswith("}"):
                    k = closing(text, k, "{", "}")
                    continue
                stop = k
                break
            k += 1
        inside = [(of, shown) for a, b, of, shown in owners if a < m.start() < b]
        of, shown = inside[-1] if inside else ("", False)
        name = f"{of}::{m.group(4)}" if of else m.group(4)
        yield Thing(crate, file, name, squeeze(text[m.start():stop]), bool(m.group(2)) or shown)
    for m in re.finditer(r"^((?:#\[[^\n]*\]\n)*)(pub )?(struct|enum|trait|const|type) (\w+)", text, re.M):
        block = text[m.end():text.index("\n", m.end())].endswith("{")
        end = re.compile(r"\n\}" if block else r"[;}]\n").search(text, m.end())
        yield Thing(crate, file, f"{m.group(3)} {m.group(4)}", squeeze(text[m.start():end.end()]), bool(m.group(2)))


def read_proof(crate, file, text):
    """Top-level names: the whole of a definition, a record or an enumeration; of anything else in proofs/ what it states."""
    lines = [l for l in text.split("\n") if not re.match(r" *--", l)]
    module, base, found = "", "", []
    for line in lines:
        if re.match(r"(?:pub )?(?:use|mod) ", line):
            continue
        if m := re.match(r"module _ (.*) where$", line):
            module, base = m.group(1) + " ", "  "
            found.append(None)
            continue
        if re.match(r"\S", line) and base:
            module, base = "", ""
        m = re.match(rf"{base}((?:(?:abbrev|unfoldable|opaque|pub) )*)(?:(record|data|ruleset) )?({FIRST})( :(?: |$)| |$)", line)
        if m and (m.group(2) or m.group(4).startswith(" :")) and not (m.group(4) == " " and not m.group(2)):
            whole = bool(m.group(2)) or "abbrev" in m.group(1) or "unfoldable" in m.group(1) or "/specs/" in f"/{file}"
            found.append([m.group(3), whole, [f"{module}{line.strip()}"], "pub" in m.group(1), True])
            continue
        if found and found[-1]:
            last = found[-1]
            if re.match(rf"{base}unfolding |{base}{re.escape(last[0])}(?: |$)", line):
                last[4] = False
                if line.strip().startswith("unfolding ") and last[1]:
                    continue
            if (last[1] or last[4]) and line.strip():
                last[2].append(line.strip())
    for thing in found:
        if thing:
            name, whole, text, public, _ = thing
            yield Thing(crate, file, name, " ¦ ".join(join(text)) if whole else squeeze(" ".join(text)), public)


def join(lines):
    """The equations of a definition, each in a line."""
    out = []
    name = None
    for line in lines:
        if name is None:
            out.append(line)
            m = re.match(rf"(?:(?:abbrev|unfoldable|opaque|pub) )*(?:(?:record|data|ruleset) )?({FIRST})", line)
            name = m.group(1) if m else line
        elif line.startswith(name + " ") or re.match(rf"pub {FIRST} :", line) or re.match(rf"{FIRST} : ", line):
            out.append(line)
        else:
            out[-1] += " " + line
    return [squeeze(l) for l in out]


def read_edits(crate, file, text):
    """Each pair of an edit: its comment, and the two lines."""
    comment, at, old, open_ = [], "", "", False
    for line in text.split("\n"):
        if line.startswith("#"):
            comment = (comment if open_ else []) + [line.lstrip("# ")]
            open_ = True
        elif line.startswith("file: "):
            at = line[6:].strip()
        elif line.startswith("old: "):
            old = line[5:]
        elif line.startswith("new: "):
            yield Thing(crate, file, " ".join(comment) or pathlib.Path(file).stem.replace("_", " "), f"{at}: `{old.strip()}` ⇒ `{line[5:].strip()}`", True)
            open_ = False


def things(commit):
    """All that is compared, by the part of the page that it stands in."""
    parts = {"functions": [], "types": [], "definitions": [], "theorems": [], "edits": []}
    for name, text in files(commit, KIND):
        _, crate, kind, *rest = name.split("/")
        file = "/".join([kind, *rest])
        if kind == "src":
            for thing in read_source(crate, file, text):
                parts["types" if " " in thing.name and thing.name.split()[0] in ("struct", "enum", "trait", "const", "type") else "functions"].append(thing)
        elif kind == "must-fail":
            parts["edits"] += read_edits(crate, file, text)
        elif kind == "specs" and "/declared/" not in name:
            parts["definitions"] += read_proof(crate, file, text)
        elif kind == "proofs" and rest[-1] not in ("Proof.antt", "Answers.antt", "Invariants.antt"):
            for thing in read_proof(crate, file, text):
                parts["theorems"].append(thing)
    return parts


def pairs(old, new):
    """Each thing that changed: the same crate and name, the same text first, then those that are most alike."""
    was, now = (collections.defaultdict(list) for _ in range(2))
    for thing in old:
        was[thing.crate, thing.name].append(thing)
    for thing in new:
        now[thing.crate, thing.name].append(thing)
    changed, gone, fresh = [], [], []
    for key in sorted(set(was) | set(now)):
        a, b = was[key], now[key]
        for x in list(a):
            if y := next((y for y in b if y.text == x.text), None):
                a.remove(x)
                b.remove(y)
        while a and b:
            x, y = max(((x, y) for x in a for y in b), key=lambda p: (p[0].file == p[1].file) + difflib.SequenceMatcher(None, p[0].text, p[1].text, False).ratio())
            a.remove(x)
            b.remove(y)
            changed.append((x, y))
        gone += a
        fresh += b
    return changed, gone, fresh


def quoted(text):
    return "  - `" + text.replace("`", "'").replace(" ¦ ", "`  \n    `") + "`"


def section(title, note, old, new, show, lists_new=True):
    changed, gone, fresh = pairs(old, new)
    where = collections.defaultdict(list)
    for thing in new:
        where[thing.name, thing.text].append(thing)
    moved = [(x, where[x.name, x.text][0]) for x in gone if where[x.name, x.text] and show(x)]
    gone = [x for x in gone if not where[x.name, x.text]]
    changed = [(x, y) for x, y in changed if show(x) or show(y)]
    gone, fresh = [x for x in gone if show(x)], [x for x in fresh if show(x)]
    out = [f"## {title}", "", f"{note} Changed: {len(changed)}; gone: {len(gone)}; moved: {len(moved)}; new: {len(fresh)}.", ""]
    for crate in sorted({x.crate for x, _ in changed} | {x.crate for x in gone} | {x.crate for x, _ in moved} | {x.crate for x in fresh}):
        out += [f"### {title}: {crate}", ""]
        for x, y in changed:
            if x.crate == crate:
                out += [f"- `{x.name}`, {x.file}" + (f", now {y.file}" if y.file != x.file else ""), quoted("old: " + x.text), quoted("new: " + y.text)]
        for x, y in moved:
            if x.crate == crate:
                out.append(f"- moved: `{x.name}`, {x.file}, word for word in {y.crate}: {y.file}")
        for x in gone:
            if x.crate == crate:
                out += [f"- gone: `{x.name}`, {x.file}", quoted("old: " + x.text)]
        for x in fresh:
            if x.crate == crate:
                out += [f"- new: `{x.name}`, {x.file}"] + ([quoted("new: " + x.text)] if lists_new else [])
        out.append("")
    return out


def edits(old, new):
    """One table of the edits whose lines are others now."""
    changed, gone, fresh = pairs(old, new)
    cell = lambda t: t.replace("|", "\\|")
    out = ["## Edits moved", "", f"A must-fail edit has the same name and the same wrong meaning on another line. `old line` ⇒ `wrong line`, at the commit and now. Changed: {len(changed)};"
           f" found under another comment or file, or gone: {len(gone)}; new: {len(fresh)}.", "", "| Edit | What is wrong | At the commit | Now |", "|---|---|---|---|"]
    out += [f"| {x.crate}: {x.file[10:]}" + (f", now {y.file[10:]}" if y.file != x.file else "") + f" | {cell(x.name)} | {cell(x.text)} | {cell(y.text)} |" for x, y in changed]
    out += [f"| {x.crate}: {x.file[10:]} | {cell(x.name)} | {cell(x.text)} | by another comment, below or in docs/DESIGN-PASS.md |" for x in gone]
    out += [f"| {x.crate}: {x.file[10:]} | {cell(x.name)} | new | {cell(x.text)} |" for x in fresh]
    return out + [""]


LOOKS = {
    "1a": "an enum with a case that says none, refused or wrong beside one that says what came of it",
    "1b": "a Bool beside a value in a struct that is answered",
    "1c": "a number or a size that stands for none (for each function once)",
    "1d": "a number that stands for a kind: a code, an error, a refusal (for each function once)",
    "2": "functions that are alike once names, types and numbers are taken out, of 20 words or more",
    "3a": "a `while` that counts a variable up or down by hand",
    "3b": "a `for` over numbers that only serve as an index",
    "4": "a match or an `if` that gives a plain value for each case of a plain enum, a Bool or a byte; digits made by hand",
    "5a": "a `requires` that stands in three contracts or more, names aside",
    "5b": "parameters that three functions or more take together",
    "6": "an array with a count beside it; an array of texts with its parts beside it",
    "7": "a function that is handed which step to run, as a case of an enum",
    "8": "Proof.antt files that walk the code by hand, and answers that say no more than `search rules`",
}


def counts(commit):
    """The table of tools/places.py at the commit and now."""
    run = lambda *of: dict(re.findall(r"point (\w+): (\d+)", subprocess.run([sys.executable, str(ROOT / "tools" / "places.py"), *of, "--counts"], capture_output=True, text=True, check=True).stdout))
    old, new = run(commit), run()
    rows = [f"| {p} | {looks} | {old[p]} | {new[p]} |\n" for p, looks in LOOKS.items()]
    return "\n| Point | What it looks for | At the commit | Now |\n|---|---|---|---|\n" + "".join(rows) + "\n"


def main():
    args = [a for a in sys.argv[1:] if not a.startswith("-")]
    commit = args[0] if args else PAGE.read_text().split("\n", 1)[0].strip()
    old, new = things(commit), things(None)
    if "--gone" in sys.argv:
        page = PAGE.read_text() if PAGE.exists() else ""
        for part in ("functions", "types", "definitions", "theorems"):
            have = {(x.name, x.text) for x in new[part]}
            names = {(x.crate, re.sub(r".*::|.* ", "", x.name)) for x in new[part]}
            for x in pairs(old[part], new[part])[1]:
                short = re.sub(r".*::|.* ", "", x.name)
                if (x.name, x.text) not in have and (x.crate, short) not in names and f"`{short}`" not in page:
                    print(f"{part} {x.crate} {x.file} {x.name}: {x.text[:300]}")
        return
    out = ["# What changed, old and new", "", f"Written by `python3 tools/design_pass.py`, which compares commit {commit} with the files as they stand; [DESIGN-PASS.md](DESIGN-PASS.md) says why. By the text alone, comments and line breaks aside.", ""]
    out += section("Public functions", "Each `pub fn` and each method of a trait or of a trait for a type, with its clauses. A `pub fn` of a private module stands here too.", old["functions"], new["functions"], lambda x: x.pub)
    out += section("Functions of one module", "Those that are not `pub`.", old["functions"], new["functions"], lambda x: not x.pub)
    out += section("Types", "Structs, enums, traits and constants, with their derives, ghost items and the contracts of a trait's methods. An invariant of a type is a `ghost` line of it.", old["types"], new["types"], lambda x: True)
    out += section("Definitions", "The names of specs/, whole; a record's fields too.", old["definitions"], new["definitions"], lambda x: True)
    out += section("Theorems", "The names of proofs/: what each states, and the whole of a definition that stands there. A name that is not `pub` serves its file alone.", old["theorems"], new["theorems"], lambda x: True)
    out += edits(old["edits"], new["edits"])
    CHANGES.write_text("\n".join(out))
    page = PAGE.read_text()
    head, tail = page.split(MARK)[0], page.split(END)[1]
    PAGE.write_text(head + MARK + "\n" + counts(commit) + END + tail)


main()
