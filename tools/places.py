#!/usr/bin/env python3
"""Lists the places of src/ that have an older form where the language has a newer one, by the points of docs/DESIGN-PASS.md, and counts them.

usage: python3 tools/places.py [COMMIT] [--counts]     of the files as they stand, or of a commit's; --counts prints the counts alone

What it looks for goes by the text alone, so a place that is kept with its reason is listed as well as one that is still to be changed:
  1a an enum with a case that says none, or a case that says refused or wrong beside one that says what came of it
  1b a Bool beside a value in a struct that is answered     1c a number or a size that stands for none
  1d a number that stands for a kind: a code, an error, a refusal (a function, or the constants of a file, is one place in 1c and 1d)
  2  functions that are alike once names, types and numbers are taken out (and that have 20 words or more)
  3a a `while` that counts a variable up or down by hand     3b a `for` over numbers that only serve as an index
  4  a match or an `if` that gives a plain value for each case of a plain enum, a Bool or a byte; digits made by hand
  5a a `requires` that stands in three contracts or more, names aside     5b parameters that three functions or more take together
  6  an array with a count beside it, an array of texts with its parts beside it
  7  a function that is handed which step to run, as a case of an enum
  8  Proof.antt files that walk the code by hand, and answers that say no more than `search rules`
"""
import collections
import re
import sys

from trees import files

KIND = r"crates/\w+/(?:src/.*\.rt|proofs/.*\.antt)"
NONE = r"Nothing|Unknown|Nowhere|Outside|Unread|Unusable|Bad|Other|More|Over|Open|Closed|Idle|Refused|Failure|Shut"
WORD = re.compile(r"//[^\n]*|b?'(?:\\.|[^'])'|b?\"(?:\\.|[^\"])*\"|[A-Za-z_]\w*|\d[\w.]*|==|!=|<=|>=|&&|\|\||=>|->|::|\.\.=?|<<|>>|[-+*/%^&|]=|\S")
KEPT = set("fn let mut if else match while for in return loop break continue as pub const struct enum impl true false self Self".split())
found = collections.OrderedDict((p, []) for p in "1a 1b 1c 1d 2 3a 3b 4 5a 5b 6 7 8".split())


def functions(text):
    """Each function: its line, name, parameters, clauses and body."""
    for m in re.finditer(r"^ *(?:pub )?(?:extern \"C\" )?fn (\w+)[^(]*\(", text, re.M):
        depth, i = 1, m.end()
        while depth:
            depth += {"(": 1, ")": -1}.get(text[i], 0)
            i += 1
        params = text[m.end():i - 1]
        start = re.compile(r"\{\n").search(text, i)
        one = re.compile(r"(?:^|[^⌝}]) \{ ?\}$|^\{", re.M).search(text, i)
        at = min([x.start() for x in (start, one) if x] or [len(text)])
        if start is None:
            continue
        # the body begins at the first brace that ends its line and is no clause
        clauses, depth, j = text[i:start.start()], 1, start.end()
        while depth and j < len(text):
            depth += {"{": 1, "}": -1}.get(text[j], 0)
            j += 1
        yield text.count("\n", 0, m.start()) + 1, m.group(1), params, clauses, text[start.end():j - 1]


def words(code):
    return [w for w in WORD.findall(code) if not w.startswith("//")]


def shape(body):
    """The body's words with its names, types and numbers taken out, the same one by the same sign."""
    seen, out = {}, []
    for w in words(body):
        if re.match(r"[A-Za-z_]", w) and w not in KEPT and not w.startswith(("b'", 'b"')):
            out.append(seen.setdefault(w, f"n{len(seen)}"))
        elif re.match(r"\d|b?['\"]", w):
            out.append("#")
        else:
            out.append(w)
    return " ".join(out)


def note(point, name, line, what):
    """One more place."""
    found[point].append((name, line, " ".join(what.split())[:110]))


def read_source(name, text, shapes, asked, together):
    plain = re.sub(r"//[^\n]*", lambda m: " " * len(m.group()), text)
    heads = [(plain.count("\n", 0, m.start()) + 1, m.group(1)) for m in re.finditer(r"^ *(?:pub )?(?:extern \"C\" )?fn (\w+)", plain, re.M)]
    seen = set()

    def once(point, line, what):
        """A place by the function that it stands in, once."""
        fn = ([f for at, f in heads if at <= line] or ["constants"])[-1]
        if (point, fn) not in seen:
            seen.add((point, fn))
            note(point, name, line, f"{fn}: {what.strip()}")

    for m in re.finditer(r"enum (\w+) \{\n(.*?)\n\}", plain, re.S):
        cases = re.findall(r"^ +(\w+)", m.group(2), re.M)
        if [c for c in cases if re.fullmatch(NONE, c)]:
            note("1a", name, plain.count("\n", 0, m.start()) + 1, f"enum {m.group(1)}: {' '.join(cases)}")
    for m in re.finditer(r"pub (taken|ok|restart|minus): bool", plain):
        note("1b", name, plain.count("\n", 0, m.start()) + 1, m.group())
    for i, line in enumerate(plain.split("\n"), 1):
        if re.search(r"\bNONE\b|(?<![\w.])(?:256|65536)$|\{ (?:256|65536) \}|return 256|> (?:255|65535)\b|< 256\b|u64::MAX|left: 0", line) and "ensures" not in line and "requires" not in line and " use " not in f" {line}":
            once("1c", i, line)
        if re.search(r"\b0x9[0-9A-F]\b|== 14[58]\b|== 149\b|== 150\b|: u8 = 0x(?:0|3)|: i32 = -2\d;|=> (?:-?\d+),$", line) and not re.search(r"crates/(?:show|repeats|vectors)", name) and "ensures" not in line:
            once("1d", i, line)
        if re.search(r"n < 10 \{ b'0'", line):
            note("4", name, i, line)
    for m in re.finditer(r"^ *while ([^{]*)\{", plain, re.M):
        end = plain.find("\n" + " " * (len(m.group()) - len(m.group().lstrip())) + "}", m.end())
        if any(re.search(rf"\b{v} [+-]= \d+;", plain[m.end():end]) for v in re.findall(r"[a-z]\w*", m.group(1))):
            note("3a", name, plain.count("\n", 0, m.start()) + 1, m.group())
    for m in re.finditer(r"^ *for (\w+) in [^{]*\.\.[^{]*\{", plain, re.M):
        end = plain.find("\n" + " " * (len(m.group()) - len(m.group().lstrip())) + "}", m.end())
        body = plain[m.end():end]
        if re.search(rf"\[[^\]]*\b{m.group(1)}\b[^\]]*\]", body):
            note("3b", name, plain.count("\n", 0, m.start()) + 1, m.group())
    for m in re.finditer(r"^( *)(?:\w+ = )?match [^{]*\{\n(.*?)\n\1\}", plain, re.M | re.S):
        arms = re.findall(r"=> ([^\n]*)", m.group(2))
        if len(arms) > 1 and all(re.fullmatch(r"(?:true|false|-?\d+|0x\w+|b'.'),", a) for a in arms):
            note("4", name, plain.count("\n", 0, m.start()) + 1, f"match with {' '.join(arms)}")
    for m in re.finditer(r"\b(?:if \w+ \{ 1 \} else \{ 0 \})", plain):
        note("4", name, plain.count("\n", 0, m.start()) + 1, m.group())
    for m in re.finditer(r"struct (\w+) \{\n(.*?)\n\}", plain, re.S):
        fields = re.findall(r"pub (\w+): ([^\n]*),", m.group(2))
        if any(t.startswith("[") for _, t in fields) and any(f in ("count", "gathered", "hand") for f, _ in fields):
            note("6", name, plain.count("\n", 0, m.start()) + 1, f"struct {m.group(1)}: {' '.join(f for f, _ in fields)}")
    if "TEXTS" in plain:
        note("6", name, plain.count("\n", 0, plain.find("TEXTS")) + 1, "texts beside their parts")
    for line, fn, params, clauses, body in functions(text):
        if len(words(body)) >= 20:
            shapes[shape(body)].append((name, line, fn))
        for clause in re.findall(r"requires(?: \w+)? \{ (.*?) \}\n", clauses + "\n"):
            for fact in clause.split(") × ("):
                key = re.sub(r"[a-z_]\w*(?:\.(?:now|old|new))?", "x", re.sub(r"\blength\b", "LENGTH", fact.strip("()")))
                asked[key].append((name, line, f"{fn}: {fact.strip('()')}"))
        given = re.findall(r"(?:mut )?(\w+):", params)
        for group in (("five", "six", "seven"), ("out", "at"), ("priority", "ordinary"), ("capacity", "ring")):
            if all(g in given for g in group):
                together[group].append((name, line, fn))
        if re.search(r"\b(?:program: Program|call: Call|kind: \w+|packet: Packet|port: Port|flow: Flow)", params):
            note("7", name, line, f"fn {fn}")


def main():
    args = [a for a in sys.argv[1:] if not a.startswith("-")]
    shapes, asked, together = (collections.defaultdict(list) for _ in range(3))
    for name, text in files(args[0] if args else None, KIND):
        if name.endswith(".rt"):
            read_source(name, text, shapes, asked, together)
            continue
        if name.endswith("/Proof.antt"):
            note("8", name, 1, "walks the code by hand")
        for m in re.finditer(r"^(\S+)(?: g)?(?: t)? c = search rules$", text, re.M):
            note("8", name, text.count("\n", 0, m.start()) + 1, m.group())
    for places in shapes.values():
        if len(places) > 1:
            name, line, fn = places[0]
            note("2", name, line, f"{len(places)} alike: " + ", ".join(f"{n.split('/')[1]}::{f}" for n, _, f in places))
    for fact, places in asked.items():
        if len(places) > 2:
            note("5a", places[0][0], places[0][1], f"{len(places)} contracts: {places[0][2]}")
    for group, places in together.items():
        if len(places) > 2:
            note("5b", places[0][0], places[0][1], f"{len(places)} functions take {', '.join(group)}")
    for point, places in found.items():
        if "--counts" not in sys.argv:
            for name, line, what in places:
                print(f"{point} {name}:{line}: {what}")
        print(f"point {point}: {len(places)}")


main()
