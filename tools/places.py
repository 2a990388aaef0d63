#!/usr/bin/env python3
"""Counts the places in crates/*/src that docs/DESIGN-PASS.md speaks of, a line each: point, what, how many.

    python3 tools/places.py            the counts
    python3 tools/places.py WORD       the places of the lines that have WORD in them, file and line
"""
import pathlib
import re
import sys

TOP = pathlib.Path(__file__).resolve().parent.parent
ALTERNATIVES = (
    "Read Identified Passed Counted Laid Verdict Depth Container Titled Scoped Ended Found Predeclared Place Named Used "
    "Edge Typed Before Holding Body Start Shaped"
).split()  # own enums of the shape of Option or Result, with the one renamed where it is used
KINDS = "kind k n".split()


def functions(text):
    """(line, name, parameters, result, body) of each function; clauses are left out."""
    for m in re.finditer(r"^ *(?:pub )?(?:extern \"C\" )?fn (\w+)", text, re.M):
        depth, i = 0, text.index("(", m.end())
        start = i
        while True:
            depth += {"(": 1, ")": -1}.get(text[i], 0)
            i += 1
            if depth == 0:
                break
        parameters = text[start + 1 : i - 1]
        indent = len(m.group(0)) - len(m.group(0).lstrip())
        opened = re.compile(r"(?:^ {%d}|[\w>\])] ?)\{\n|^ {%d}\{ .* \}\n" % (indent, indent), re.M)
        at, result = i, text[i : text.find("\n", i)]
        b = opened.search(text, i)
        if not b:
            continue
        close = re.compile(r"^ {%d}\}" % indent, re.M).search(text, b.start())
        body = b.group(0) if b.group(0).rstrip().endswith("}") else text[b.end() : close.start() if close else len(text)]
        yield text.count("\n", 0, m.start()) + 1, m.group(1), parameters, result, body


def places():
    files = sorted(TOP.glob("crates/*/src/*.rt"))
    texts = {f.relative_to(TOP): f.read_text() for f in files}

    def lines(pattern, code=True):
        found = []
        for f, t in texts.items():
            for n, line in enumerate(t.split("\n"), 1):
                if code and (line.lstrip().startswith("//") or "ghost use" in line):
                    continue
                found += [(f, n, m.group(0)) for m in re.finditer(pattern, line)]
        return found

    bodies = [(f, *x) for f, t in texts.items() for x in functions(t)]
    yield "1", "enums, all", lines(r"^\s*(pub )?enum \w+")
    yield "1", "enums of the shape of Option or Result", lines(r"^\s*(?:pub )?enum (?:%s)\b" % "|".join(ALTERNATIVES + ["Wrote"]))
    yield "1", "their variants made or taken apart", lines(r"\b(?:%s)::[A-Z]\w*" % "|".join(ALTERNATIVES))
    yield "1", "refusals by number", lines(r"Refused\(\d+")
    yield "1", "faults by number", lines(r"\b(?:duplicate|undefined)\(\s*\d+|(?<=\s)kind: \d+,")
    yield "1", "matches on a kind's number", lines(r"match (?:%s) \{" % "|".join(KINDS))
    yield "1", "a flag beside its value", lines(r"is_member: (?:true|false|bool)|\bconstant: (?:u32|0)\b")
    same = {}
    for f, n, name, parameters, result, body in bodies:
        shape = re.sub(r"\bu(?:8|16|32|64)\b|\busize\b", "T", re.sub(r"\s+", " ", parameters + result + body))
        shape = re.sub(r"\b\d+\b|\b[A-Z][A-Z_0-9]+\b", "N", shape)
        renamed = {}  # variables and fields by the order in which they come; what is called keeps its name
        shape = re.sub(r"\b[a-z_]\w*\b(?! ?\()", lambda m: renamed.setdefault(m.group(0), f"v{len(renamed)}"), shape)
        same.setdefault(shape, []).append((f, n, name))
    yield "2", "functions alike but for types and constants", [x for g in same.values() if len(g) > 1 and len(g[0]) for x in g]
    yield "3", "while and loop", lines(r"\b(?:while|loop)\b[^\"]*\{$")
    yield "3", "for", lines(r"^\s*for .* in .*\{$")
    yield "4", "a byte widened by a function of its own", lines(r"^\s*fn (?:wide|held|value)\(")
    yield "4", "equality by a loop", lines(r"^\s*(?:pub )?fn same\(")
    yield "4", "fields copied one by one from one value", lines(r"\b(\w+): \w+\.\1,")
    yield "4", "a field given the variable of its name", lines(r"\b(\w+): \1,")
    yield "4", "refusals printed by hand", lines(r"refused \{")
    train = [(f, n, name) for f, n, name, p, _, _ in bodies if re.search(r"tree: &\[u8\]", p) and re.search(r"\bnames: u32", p) and re.search(r"\bat: usize", p)]
    yield "5", "functions with tree, names and at", train
    yield "5", "functions that take the walk by value", [(f, n, name) for f, n, name, p, _, _ in bodies if re.search(r"\bst: Walk\b", p)]
    yield "5", "functions that answer the walk", [(f, n, name) for f, n, name, _, r, _ in bodies if re.search(r"-> (?:Walk|Typed|Named|Entry|Holding)\b", r)]
    yield "5", "clauses that begin with Known", [(f, n, x) for f, t in texts.items() for n, line in enumerate(t.split("\n"), 1) for x in re.findall(r"ensures \{ Known", line)]
    yield "6", "tables in two columns", lines(r"^const (?:NAMES|PLACES)")
    yield "6", "a slice with a count beside it", [(f, n, name) for f, n, name, p, _, _ in bodies if re.search(r"values: &\[u32\], count", p)]
    yield "7", "function pointers, boxed closures and dyn", lines(r"\bdyn\b|\bBox\b|: fn\(")
    yield "8", "answer files", [(f.relative_to(TOP), 1, "") for f in sorted(TOP.glob("crates/*/proofs/**/Answers.antt"))]
    yield "8", "lines of answers and invariants", [(f.relative_to(TOP), 1, "") for f in TOP.glob("crates/*/proofs/*/**/*.antt") for _ in f.read_text().splitlines()]
    yield "8", "lines of laws (crates but penne and vectors)", [(f.relative_to(TOP), 1, "") for f in TOP.glob("crates/*/proofs/*.antt") if f.parts[-3] not in ("penne", "vectors") for _ in f.read_text().splitlines()]
    yield "8", "lines of src", [(f, 1, "") for f, t in texts.items() for _ in t.splitlines()]


word = sys.argv[1] if len(sys.argv) > 1 else None
for point, what, found in places():
    if word is None:
        print(f"{point}  {what}: {len(found)}")
    elif word in what:
        for f, n, x in found:
            print(f"{f}:{n}: {x}")
