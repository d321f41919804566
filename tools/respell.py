#!/usr/bin/env python3
"""Spells the names that this repository's specs/ and proofs/ declare as the language does today.

usage: tools/respell.py [--table]      at the top of the repository; --table prints the rows and writes nothing

Functions, lemmas, fields and constructors are in snake case, types and facts in upper camel case. A dash joins two
names, as in put-over; it stays where every part is a name of its own (a definition, or one of the library's words).
Only declared names turn, as whole words, in the texts below crates/: all of an .antt file but its comments' prose, and
in a .rt file the 'ghost use' items, clauses and ghost members. What stands right behind c., w., l., g. or goal. is
made by the checker after the source and stays. A name whose new spelling is taken stays and is printed. An import's new
name ('x as theX') turns in its file.
"""
import os
import re
import sys

WORD = r"[^\s(){}.;,@\"«»⌜⌝`\[\]]+"
HEADS = ("goal", "c", "w", "l", "g")
DECL = re.compile(r"^(\s*)(?:(?:pub|abbrev|unfoldable|private|record|data|module)\s+)*(" + WORD + r")((?:\s+\([^()]*\)|\s+\{[^{}]*\}|\s+\((?:[^()]|\([^()]*\))*\))*)\s+:\s+(.*)$")
LIBRARY = {"length", "take", "drop", "append", "map", "set", "cond", "sum", "put", "index", "reverse", "eqb", "leb", "ltb"}
KIT = "/opt/rattle/rattle"
# Names whose plain spelling another name has: a definition beside a function of src/, or a lemma beside its definition.
CHOSEN = {
    "checkWord": "check_word_of", "configBody": "config_body_of", "lastSlotBy": "last_slot_at", "pastComplete": "past_complete_of", "pastRipe": "past_ripe_of",
    "noCell": "cell_none", "inWindow": "within_window", "after-call": "after_call_lem", "after-calls": "after_calls_lem", "calls-keep-the-law": "calls_keep_the_law_lem",
    "in-second": "in_second_lem", "is-out": "is_out_lem", "record-bytes": "record_bytes_lem", "tick-said": "tick_said_lem", "port-from": "port_from_lem", "absentNumber": "absent_number_of", "absentPhasor": "absent_phasor_of", "dataBody": "data_body_of", "verdictNumber": "verdict_number_of",
}

# A word that is the name of a tactic too, by crate.
TACTICS = {"capture": {"first_of": "first_record"}, "feed": {"first_of": "first_taken"}, "runs": {"first_of": "left_true"}}


def texts(root, exts):
    for folder, dirs, files in os.walk(root):
        dirs[:] = sorted(d for d in dirs if d not in ("out", ".git"))
        for f in sorted(files):
            if f.endswith(exts):
                yield os.path.join(folder, f)


def read(p):
    with open(p, encoding="utf-8") as f:
        return f.read()


def bare(line):
    return re.sub(r"(?:^|(?<=[\s(){};,]))--.*$", "", line)


def declared(paths):
    """Each declared name, and whether it names a type or a fact."""
    names = {}
    for p in paths:
        for line in read(p).split("\n"):
            m = DECL.match(bare(line))
            if not m:
                continue
            name, kind = m.group(2), m.group(4)
            if not re.match(r"^[A-Za-z]", name) or name in ("let", "in", "module"):
                continue
            names.setdefault(name, bool(re.search(r"Type 0\s*(where)?\s*$", kind)))
    return names


def new_name(name, names):
    parts = name.split("-")
    if name[0].isupper():
        if names[name] and len(parts) > 1:
            return "".join(x[:1].upper() + x[1:] for x in parts)
        return name
    snake = [re.sub(r"(?<=[a-z0-9])[A-Z]", lambda m: "_" + m[0].lower(), x) for x in parts]
    if len(parts) > 1 and all(x in names or x in LIBRARY for x in parts):
        return "-".join(snake)
    return "_".join(snake)


def main(argv):
    antt = [p for p in texts("crates", (".antt",))]
    answers = re.compile(r"/proofs/(.*/)?(Answers|Invariants|Choices|Proof)\.antt$")
    lemmas = [p for p in antt if not answers.search(p)]
    names = declared(lemmas)
    local = declared([p for p in antt if answers.search(p)])
    for k, v in local.items():
        names.setdefault(k, v)
    said = {p: {w for line in read(p).split("\n") for w in re.findall(WORD, bare(line))} for p in antt}
    for p in texts("crates", (".rt",)):
        said[p] = set(re.findall(r"[\w'-]+", read(p)))
    goals = set()
    for p in antt:
        if answers.search(p):
            goals.update(re.findall(r"^(?:pub |abbrev pub )?(" + WORD + r") : goal\.", read(p), re.M))
    library = set()
    for p in texts(KIT, (".antt",)):
        if "/core/" in p or "/std" in p:
            library.update(m.group(2) for m in map(DECL.match, read(p).split("\n")) if m)
    table, kept = {}, []
    for name in sorted(names):
        to = CHOSEN.get(name) or new_name(name, names)
        if to == name or name in goals:
            continue
        both = [p for p, ws in said.items() if name in ws and (to in ws or any(k in ws and v == to for k, v in table.items()))]
        if both:
            kept.append((name, to, "taken here", *both[:3]))
            continue
        if to in library:
            kept.append((name, to, "a library's name"))
        table[name] = to
    for row in kept:
        print("look:", *row)
    if "--table" in argv:
        for a, b in table.items():
            print(f"{a}\t{b}")
        return 0
    one = re.compile(r"(?<![^\s(){}.;,@\"«»⌜⌝`\[\]])(" + "|".join(sorted(map(re.escape, table), key=len, reverse=True)) + r")(?![^\s(){}.;,@\"«»⌜⌝`\[\]])")

    def turn(text):
        def sub(m):
            before = re.search(r"(?:^|[^\w'.-])(\w+)\.$", text[max(0, m.start() - 12): m.start()])
            if before and before.group(1) in HEADS:
                return m.group(0)
            return table[m.group(1)]
        return one.sub(sub, text)

    for p in antt:
        old = read(p)
        new = "\n".join(turn(l[: len(bare(l))]) + l[len(bare(l)):] for l in old.split("\n"))
        if new != old:
            with open(p, "w", encoding="utf-8") as f:
                f.write(new)
    clause = re.compile(r"(?:requires|ensures|ghost)\b[^{};\n]*\{(?:[^{}]|\{[^{}]*\})*\}|ghost\s+use\b[^;]*;")
    for p in texts("crates", (".rt",)):
        old = read(p)
        new = clause.sub(lambda m: turn(m.group(0)), old)
        if new != old:
            with open(p, "w", encoding="utf-8") as f:
                f.write(new)
    for crate, rows in TACTICS.items():
        for p in texts(os.path.join("crates", crate), (".antt", ".rt")):
            old = new = read(p)
            for a, b in rows.items():
                new = re.sub(rf"(?<![\w'-]){a}(?![\w'-])", b, new)
            if new != old:
                with open(p, "w", encoding="utf-8") as f:
                    f.write(new)
    # Words that an import renames are the file's own.
    for p in texts("crates", (".antt", ".rt")):
        old = new = read(p)
        for alias in sorted(set(re.findall(r" as ([a-z]+[A-Z]\w*)", old))):
            to = re.sub(r"(?<=[a-z0-9])[A-Z]", lambda m: "_" + m[0].lower(), alias)
            if re.search(rf"(?<![\w'-]){to}(?![\w'-])", old):
                print("look:", alias, to, "taken here", p)
            else:
                new = re.sub(rf"(?<![\w'-]){alias}(?![\w'-])", to, new)
        if new != old:
            with open(p, "w", encoding="utf-8") as f:
                f.write(new)
    return 0


if __name__ == "__main__":
    raise SystemExit(main(sys.argv[1:]))
