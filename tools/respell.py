#!/usr/bin/env python3
"""Spells the names that this repository's specs and proofs declare in snake case, in its crates.

usage: tools/respell.py [FOLDER]     the top of a checkout, this one if none is given; prints each old name with its new one

A name that begins with a small letter and has a hyphen or a capital gets underscores and small letters in all texts of crates/ (.rt, .antt, .edit), and a lemma whose name would
then be a definition's gets _holds after it. A name that a file brings in from a library stays in that file, and so do words in strings. A second run changes nothing.
"""

import os
import re
import sys

NAME = r"[^\s(){}.;,@\"«»\\]+"
DECLARED = re.compile(rf"(?m)^ *(?:(?:pub|abbrev|unfoldable|opaque|private|field) +)*([a-z]{NAME})(?: \{{[^{{}}\n]*\}})* :(?=[ \n])")
USE = re.compile(r"(?m)^\s*(?:ghost )?(?:pub )?use ([^\s;{]+?)\.?(?:\{([^}]*)\})?(?: as \S+?)?;?\s*$")
WORD = re.compile(r"(?<![^\s(){}.;,@\"«»\\⌜⌝≡&|!`'])" + r"([a-z][\w'-]*)" + r"(?![\w'-])")
STRING = re.compile(r'"(?:[^"\\\n]|\\.)*"')


def in_snake_case(name):
    name = re.sub(r"([a-z0-9])([A-Z])", lambda m: m[1] + "_" + m[2].lower(), name)
    name = re.sub(r"([A-Z])(?=[A-Z]|$|-|_)", lambda m: "_" + m[1].lower(), name)
    return name.replace("-", "_").replace("__", "_").lower()


def named(declared):
    """Each name with its new one. A lemma's name that would fall together with a definition's ends in _holds."""
    plain = [n for n in declared if re.fullmatch(r"[a-z][A-Za-z0-9_'-]*", n)]
    definitions = {in_snake_case(n) for n in plain if re.search("[A-Z]", n) and "-" not in n}
    table = {}
    for n in plain:
        new = in_snake_case(n).replace("get_d_", "get_or_")
        hyphened = "-" in n
        if hyphened and (new in definitions or new in declared) or not hyphened and n == new and n in definitions:
            new += "_holds"
        if new != n:
            table[n] = new
    return table


def texts(top):
    for folder, dirs, files in os.walk(os.path.join(top, "crates")):
        dirs[:] = sorted(d for d in dirs if d not in ("out", "target"))
        for name in sorted(files):
            if name.endswith((".rt", ".antt", ".edit")):
                yield os.path.join(folder, name)


def from_libraries(text):
    names = set()
    for path, items in USE.findall(text):
        steps = path.split(".")
        own = steps[0].startswith("Rattle") and not (len(steps) > 1 and steps[1] in ("std", "core", "io", "libc"))
        if own:
            continue
        for item in (items or "").replace("\n", " ").split(","):
            names.add(item.split(" as ")[-1].strip())
    return names


def main():
    top = sys.argv[1] if len(sys.argv) > 1 else os.path.join(os.path.dirname(os.path.realpath(__file__)), "..")
    read = {path: open(path, encoding="utf-8").read() for path in texts(top)}
    declared = set()
    for path, text in read.items():
        # The names of answers and invariants are those of goals, which the check gives.
        of_goals = re.search(r"(?m)^use \S+\.(Goals|Given) as goal$", text)
        if path.endswith(".antt") and not of_goals:
            declared |= set(DECLARED.findall(text))
    table = named(declared)
    for path, text in read.items():
        stay = from_libraries(text)
        turn = lambda m: table[m[1]] if m[1] in table and m[1] not in stay else m[1]
        out, at = [], 0
        for s in STRING.finditer(text) if path.endswith(".rt") else ():
            out += [WORD.sub(turn, text[at : s.start()]), s[0]]
            at = s.end()
        new = "".join(out) + WORD.sub(turn, text[at:])
        if new != text:
            with open(path, "w", encoding="utf-8") as f:
                f.write(new)
    for old in sorted(table):
        print(old, table[old])


if __name__ == "__main__":
    main()
