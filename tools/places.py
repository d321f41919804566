#!/usr/bin/env python3
"""Lists the places in crates/*/src where an older form of code may stand.

usage: tools/places.py [POINT ..]     POINT: 1 to 7, all of them if none is given

For each point a line 'point N: M lines' and the lines. A line is a place to look at, no verdict:
docs/DESIGN-PASS.md tells which were found to be places, and what became of them.
"""
import collections
import pathlib
import re
import sys

ROOT = pathlib.Path(__file__).resolve().parent.parent
FILES = sorted(ROOT.glob("crates/*/src/**/*.rt"))

# What a line of each point looks like.
LINES = {
    1: r"^\s*(pub(\(crate\))? )?enum |^\s*(pub(\(crate\))? )?\w+: bool,|\b(\w+) => \d+,|unwrap_or\(0\)|, 0\)$|-> \(\w+, Option<",
    3: r"\bwhile |\bloop \{|\bfor \w+ in [^{]*\.\.|\+= 1;|= \w+ \+ 1;|saturating_add\(1\)|^\s+(at|next|size|front|end|low|rest|last|reading) \+?= ",
    4: r"\.0 [!=]= |[!=]= \S+\.0\b|^impl.* (fmt::Display|PartialEq|From<.*|TryFrom<.*|Clone|Ord|PartialOrd) for |let \w+ = [\w.()]+\.0;|-> &'static str|fn (name|words|number|of|to_bytes)\(|parse::<|digit|\bas [iu](8|16|32|64|128|size)\b",
    6: r"^\s+(pub(\(crate\))? )?\w+: \[[^;]+; \w+\],|\b(count|len|at|room|size|waiting): (usize|u16|u64)\b",
    7: r"\bkind: \w+,|match self\.kind|enum (Kind|Setting)|pending|\bdyn |: fn\(",
}


def code(path):
    """The lines of a file with their numbers, without comments and attributes."""
    for number, line in enumerate(path.read_text().splitlines(), 1):
        text = re.sub(r"\s*//.*$", "", line)
        if text.strip() and not text.strip().startswith("#"):
            yield number, text


def name(path):
    return str(path.relative_to(ROOT / "crates"))


def functions(path):
    """Each function of a file: its line, its name, its signature with clauses, and its body."""
    lines = list(code(path))
    at = 0
    while at < len(lines):
        number, text = lines[at]
        found = re.match(r"^(\s*)(pub(\([a-z]+\))? )?(const )?fn (\w+)", text)
        if not found:
            at += 1
            continue
        indent = found.group(1)
        head, body, in_body = [], [], False
        while at < len(lines):
            line = lines[at][1]
            if in_body:
                body.append(line)
            else:
                head.append(line)
                in_body = line == indent + "{" or line.endswith(" {") and " ensures" not in line and " requires" not in line
                if line.endswith(";"):
                    break
            if in_body and line == indent + "}":
                break
            at += 1
        yield number, found.group(5), head, body
        at += 1


def shape(lines):
    """The words of some code with names of types, numbers and texts made alike."""
    text = " ".join(lines)
    text = re.sub(r'"[^"]*"', "S", text)
    text = re.sub(r"\b(u8|u16|u24|u32|u64|u128|usize|i32|i64|[A-Z]\w*)\b", "T", text)
    text = re.sub(r"\b\d[\d_]*\b", "N", text)
    return tuple(re.findall(r"\w+|[^\w\s]", text))


def twins():
    groups = collections.defaultdict(list)
    for path in FILES:
        for number, fn, head, body in functions(path):
            words = shape(body)
            if len(words) >= 9:
                groups[words].append(f"{name(path)}:{number}: fn {fn}")
    for members in groups.values():
        if len(members) > 1:
            yield from members
            yield "--"


def repeated():
    clauses, pairs = collections.defaultdict(set), collections.defaultdict(set)
    for path in FILES:
        for number, fn, head, body in functions(path):
            here = f"{name(path)}:{fn}"
            text = "\n".join(head)
            for clause in re.findall(r"(?:ensures|requires)\s+\w*\s*\{(.*)\}\s*$", text, re.M):
                clauses[clause.strip()].add(here)
            signature = re.split(r"\n\s*(?:ensures|requires)", text)[0]
            names = sorted(set(re.findall(r"(\w+): &?(?:'\w+ )?(?:mut )?[\w<>\[\]; ']+", signature)))
            for i, one in enumerate(names):
                for other in names[i + 1:]:
                    pairs[name(path).split("/")[0], one, other].add(here)
    for clause, where in sorted(clauses.items()):
        if len(where) >= 3:
            yield f"{len(where)} contracts: {clause}: {', '.join(sorted(where))}"
    for (crate, one, other), where in sorted(pairs.items()):
        if len(where) >= 3:
            yield f"{len(where)} signatures: {one} with {other}: {', '.join(sorted(where))}"


def places(point):
    if point == 2:
        yield from twins()
    elif point == 5:
        yield from repeated()
    else:
        for path in FILES:
            for number, text in code(path):
                if re.search(LINES[point], text):
                    yield f"{name(path)}:{number}: {text.strip()}"


def main():
    for point in [int(word) for word in sys.argv[1:]] or range(1, 8):
        found = list(places(point))
        print(f"point {point}: {sum(line != '--' for line in found)} lines")
        for line in found:
            print("  " + line)


if __name__ == "__main__":
    main()
