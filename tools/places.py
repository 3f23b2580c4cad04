#!/usr/bin/env python3
"""Lists the places of crates/*/src that docs/DESIGN-PASS.md counts: tools/places.py [FOLDER] [POINT..].

FOLDER is a checkout, this one by default. It reads the text alone, so it finds candidates: the page says which of them are kept, and why.
"""
import re
import sys
from collections import defaultdict
from pathlib import Path

WORD = re.compile(r"[A-Za-z_][A-Za-z0-9_]*|\d+|b?\"[^\"]*\"|\S")
KEYWORDS = set("as break const continue else enum fn for if impl in let loop match mod mut pub ref return self struct use while true false "
               "Some None Ok Err u8 u16 u32 u64 i64 usize bool".split())


def sources(root):
    for path in sorted(root.glob("crates/*/src/**/*.rt")):
        yield path.relative_to(root), path.read_text()


def without_comments(text):
    return re.sub(r"//.*", "", text)


def lines(root, says):
    """The lines of code of which `says`, given a line's file and text, tells what the list has; none where it says nothing."""
    for path, text in sources(root):
        for i, line in enumerate(without_comments(text).split("\n"), 1):
            said = says(str(path), line)
            if said is not None:
                yield f"{path}:{i} {said}{line.strip()}"


def matching(root, pattern):
    return lines(root, lambda path, line: "" if re.search(pattern, line) else None)


def closing(text, start):
    """The end of the bracket that opens at a place."""
    depth = 0
    pairs = {"(": 1, "[": 1, "{": 1, ")": -1, "]": -1, "}": -1}
    for i in range(start, len(text)):
        depth += pairs.get(text[i], 0)
        if depth == 0:
            return i + 1
    return len(text)


def functions(root):
    """Each function: where, its name, its parameters, its clauses of `requires`, and its body."""
    for path, text in sources(root):
        text = without_comments(text)
        for found in re.finditer(r"\bfn (\w+)(?:<[^(]*>)?\(", text):
            end = closing(text, found.end() - 1)
            parameters = [p.strip() for p in split(text[found.end():end - 1])]
            requires = []
            at = end
            while True:
                clause = re.compile(r"\s*(?:->[^{]*?(?=requires|ensures|where|\{)|where[^{]*?(?=requires|ensures|\{))?\s*(requires|ensures)\s*\w*\s*\{").match(text, at)
                if not clause:
                    break
                stop = closing(text, clause.end() - 1)
                if clause.group(1) == "requires":
                    requires.append(text[clause.end():stop - 1])
                at = stop
            body_at = text.find("{", at)
            if body_at < 0:
                continue
            line = text.count("\n", 0, found.start()) + 1
            yield f"{path}:{line}", found.group(1), parameters, requires, text[body_at:closing(text, body_at)]


def split(text):
    parts, depth, last = [], 0, 0
    for i, c in enumerate(text):
        depth += c in "([{<"
        depth -= c in ")]}>"
        if c == "," and depth == 0:
            parts.append(text[last:i])
            last = i + 1
    parts.append(text[last:])
    return [p for p in parts if p.strip()]


def shape(body):
    """The body with each name and number replaced by where it stood first."""
    seen, out = {}, []
    for token in WORD.findall(body):
        if token in KEYWORDS or not (token[0].isalnum() or token[0] in "_\"b" and len(token) > 1):
            out.append(token)
        else:
            out.append("#%d" % seen.setdefault(token, len(seen)))
    return tuple(out)


def point_1(root):
    yield from matching(root, r"\benum \w+")
    yield from lines(root, lambda path, line: "number of a refusal: " if path.endswith("refusals.rt") and "const" in line else None)
    mark = r"struct \w+\(\[u8|== 1$|\] = 1;|NO_LIMIT:|ASLEEP:|STARTED:"
    yield from lines(root, lambda path, line: "a flag or a mark: " if re.search(mark, line.strip()) else None)


def point_2(root):
    shapes = defaultdict(list)
    for where, name, _, _, body in functions(root):
        if len(WORD.findall(body)) >= 12:
            shapes[shape(body)].append(f"{where} {name}")
    for group in shapes.values():
        if len(group) > 1:
            yield " = ".join(group)


def point_3(root):
    return matching(root, r"^\s*(while|loop)\b")


def point_4(root):
    for where, name, parameters, _, _ in functions(root):
        if re.match(r"(print|show|put|be|two_bytes|byte|wide|same|all_are|copy|clear|larger|smaller)(_|$)", name):
            yield f"{where} {name}"


def point_5(root):
    facts, runs = defaultdict(set), defaultdict(set)
    for where, name, parameters, requires, _ in functions(root):
        for clause in requires:
            for fact in clause.split("×"):
                fact = re.sub(r"\s+", " ", fact).strip()
                facts[fact].add(f"{where} {name}")
        names = [re.sub(r"\s+", " ", p) for p in parameters]
        for size in range(2, 6):
            for at in range(len(names) - size + 1):
                runs[", ".join(names[at:at + size])].add(f"{where} {name}")
    for fact, places in sorted(facts.items(), key=lambda x: -len(x[1])):
        if len(places) >= 3:
            yield f"{len(places)} functions require {fact}"
    for run, places in sorted(runs.items(), key=lambda x: -len(x[1])):
        if len(places) >= 3:
            yield f"{len(places)} functions take {run}"


def point_6(root):
    return matching(root, r"let mut \w+ = \[|struct \w+\(\[|^\s*(pub )?\w+: \[\w+;")


def point_7(root):
    return matching(root, r"\bdyn\b|\bfn\(")


def point_8(root):
    for crate in sorted(p.name for p in root.glob("crates/*") if p.is_dir()):
        answers = sum(len(re.findall(r"^pub ", p.read_text(), re.M)) for p in root.glob(f"crates/{crate}/proofs/**/Answers.antt"))
        length = sum(p.read_text().count("\n") for p in root.glob(f"crates/{crate}/proofs/**/*.antt"))
        if length:
            yield f"{crate}: {answers} answers, {length} lines of proofs"


def main():
    root = Path(sys.argv[1]) if len(sys.argv) > 1 else Path(__file__).resolve().parent.parent
    points = [int(x) for x in sys.argv[2:]] or range(1, 9)
    for point in points:
        found = list(globals()[f"point_{point}"](root))
        print(f"point {point}: {len(found)}")
        for line in found:
            print("  " + line)


main()
