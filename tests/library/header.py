"""include/tolmezha.h, made from crates/tolmezha/src/lib.rt: python3 tests/library/header.py [--write]

Prints it, or writes it. Each constant becomes a define and each marked function a prototype, with the comment above it.
Whatever is exported in a form that isn't known here is an error that names its line, so that nothing is left out.
"""
import argparse
import re
import sys
from pathlib import Path

sys.path.insert(0, str(Path(__file__).resolve().parents[1] / "counts"))
from module import TOP, fail

SOURCES = TOP / "crates" / "tolmezha" / "src"
HEADER = TOP / "include" / "tolmezha.h"
LONGEST = 119  # characters of a line
MARK = "#[unsafe(no_mangle)]"  # above each export

TOP_OF_IT = """\
/* The aircraft's half of a survey pod's packets, for C and C++. Made of crates/tolmezha by tests/library/header.py.

   Proved of each function, for every argument: it does what its contract says (crates/tolmezha/src/lib.rt), in short
   the words above it, reads and writes nothing but what it is lent, and always returns. The caller sees to the rest:
   each pointer is to the caller's memory of the stated length, or of the number in brackets, aligned as its type asks,
   never NULL, and changed by nobody else during the call; what a function writes overlaps nothing else that it is
   lent. Lengths have 64 bits on every processor. The bounds of fields and parameters stand in vectors.txt. */
#ifndef TOLMEZHA_H
#define TOLMEZHA_H

#include <stdint.h>

#ifdef __cplusplus
extern "C" {
#endif
"""
END_OF_IT = """
#ifdef __cplusplus
}
#endif

#endif
"""

NUMBERS = {"u32": "uint32_t", "i32": "int32_t", "i64": "int64_t"}  # none narrower: docs/DECISIONS.md, 'The library for C'
CELLS = {"u8": "uint8_t", **NUMBERS}
FORMS = {
    "&[u8]": "const uint8_t *{0}, uint64_t {0}_length",
    "&mut [u8]": "uint8_t *{0}, uint64_t {0}_length",
    "&mut i32": "int32_t *{0}",
}
KEYWORDS = frozenset(
    # of C
    "auto break case char const continue default do double else enum extern float for goto if inline int long register "
    "restrict return short signed sizeof static struct switch typedef typeof typeof_unqual union unsigned void volatile while "
    # of C++, some of them of later C too
    "alignas alignof and and_eq asm bitand bitor bool catch char8_t char16_t char32_t class co_await co_return co_yield compl "
    "concept const_cast consteval constexpr constinit decltype delete dynamic_cast explicit export false friend mutable "
    "namespace new noexcept not not_eq nullptr operator or or_eq private protected public reinterpret_cast requires "
    "static_assert static_cast template this thread_local throw true try typeid typename using virtual wchar_t xor "
    "xor_eq".split()
)


def wrong(number, what):
    fail(f"crates/tolmezha/src/lib.rt line {number}: {what}")


# ---- what the source exports


class Constant:
    def __init__(self, number, line, comment):
        form = r"pub const ([A-Z][A-Z0-9_]*): (?:i32|usize) = (-?\d+);(?: // (.+))?"
        found = re.fullmatch(form, line) or wrong(number, "a constant of another form than a number")
        self.name, self.value, self.behind = found.groups()
        self.comment = comment
        if abs(int(self.value)) > 0x7FFF:
            wrong(number, "a constant that does not fit every int of C")


class Function:
    def __init__(self, number, head, comment):
        form = r'pub extern "C" fn (tolmezha_\w+)\((.+?),?\s?\) -> (\w+) ensures \{ .* \}'
        found = re.fullmatch(form, head) or wrong(number, "an export of another form than is known")
        self.name, self.comment = found[1], comment or wrong(number, "an export without a comment")
        if re.search(r"\brequires\b", head):
            wrong(number, "an export that asks something of its caller, which no C compiler sees")
        self.result = NUMBERS.get(found[3]) or wrong(number, f"a result of type {found[3]}")
        self.parameters = [parameter(number, one.strip()) for one in found[2].split(",")]


def parameter(number, words):
    """A parameter as C has it."""
    name, _, form = words.partition(": ")
    if name in KEYWORDS or not re.fullmatch(r"[a-z][a-z0-9_]*", name):
        wrong(number, f"the name {name} is a keyword of C or C++, or no plain name")
    array = re.fullmatch(r"&(mut )?\[(\w+); ([1-9]\d*)\]", form)
    if form in NUMBERS:
        return f"{NUMBERS[form]} {name}"
    if form in FORMS:
        return FORMS[form].format(name)
    if array and array[2] in CELLS:
        return f"{'' if array[1] else 'const '}{CELLS[array[2]]} {name}[{array[3]}]"
    return wrong(number, f"a parameter of type {form}")


def head_of(number, lines):
    """A marked function up to its body, in one line."""
    for count, line in enumerate(lines):
        if line == "{":
            return " ".join(one.strip() for one in lines[:count])
        if line.startswith(("#", "}")):
            break
    return wrong(number, "an export of another form than is known")


def exported(source):
    """The constants and functions of the source. A comment above a constant is for those that follow without one, too."""
    lines, parts, comment = source.split("\n"), [], []
    for number, line in enumerate(lines, 1):
        code, _, remark = line.partition("//")
        if "*/" in remark or "/*" in remark:
            wrong(number, "a comment that would end or begin one in C")
        if code.startswith("pub const "):
            if not comment and not (parts and isinstance(parts[-1], Constant)):
                wrong(number, "a constant without a comment")
            parts.append(Constant(number, line, comment))
        elif line == MARK:
            parts.append(Function(number + 1, head_of(number + 1, lines[number:]), comment))
        elif lines[number - 2] != MARK and re.search(r"\b(?:no_mangle|extern|pub)\b", code):
            wrong(number, "an export of another form than is known")
        comment = comment + [remark.strip()] if line.startswith("//") else []
    return parts


# ---- the header


def filled(first, parts, indent):
    """Parts in as few lines as hold them."""
    lines = [first + parts[0]]
    for part in parts[1:]:
        if len(lines[-1]) + 1 + len(part) > LONGEST:
            lines.append(indent + part)
        else:
            lines[-1] += " " + part
    return "\n".join(lines) + "\n"


def block(comment):
    """A comment of C after an empty line, where there is one."""
    *words, last = " ".join(comment).split() or [""]
    return "\n" + filled("/* ", words + [last + " */"], "   ") if last else ""


def shown(part):
    """A constant or function with its comment."""
    if isinstance(part, Constant):
        value = part.value if int(part.value) >= 0 else f"({part.value})"
        behind = f" /* {part.behind} */" if part.behind else ""
        return block(part.comment) + f"#define TOLMEZHA_{part.name} {value}{behind}\n"
    parameters = (", ".join(part.parameters) + ");").split(", ")
    parameters[:-1] = [one + "," for one in parameters[:-1]]
    return block(part.comment) + filled(f"{part.result} {part.name}(", parameters, "    ")


def named(parts):
    """The comments with the constants under the names that C has for them."""
    constants = [part for part in parts if isinstance(part, Constant)]
    found = re.compile(rf"\b(?:{'|'.join(part.name for part in constants)})\b")
    for part in parts:
        part.comment = [found.sub(r"TOLMEZHA_\g<0>", line) for line in part.comment]
    for part in constants:
        part.behind = found.sub(r"TOLMEZHA_\g<0>", part.behind or "")
    return parts


def text(source):
    """The header of a source."""
    header = TOP_OF_IT + "".join(map(shown, named(exported(source)))) + END_OF_IT
    for number, line in enumerate(header.split("\n"), 1):
        if len(line) > LONGEST or not line.isascii():
            fail(f"line {number} of the header would be over {LONGEST} characters, or have other letters than C's: {line}")
    return header


def made():
    """The header of the present source."""
    for path in SOURCES.glob("**/*.rt"):
        if path != SOURCES / "lib.rt" and re.search(r"\bno_mangle\b|\bextern\b", path.read_text()):
            fail(f"{path.relative_to(TOP)} exports something: only src/lib.rt may")
    return text((SOURCES / "lib.rt").read_text())


def main():
    parser = argparse.ArgumentParser(description=__doc__, formatter_class=argparse.RawDescriptionHelpFormatter)
    parser.add_argument("--write", action="store_true", help="write include/tolmezha.h")
    if parser.parse_args().write:
        HEADER.parent.mkdir(exist_ok=True)
        HEADER.write_text(made())
    else:
        print(made(), end="")


if __name__ == "__main__":
    main()
