#!/usr/bin/env python3
"""Plants bugs in a copy of the repository, one at a time, has the prover try each, and writes docs/PLANTED.md.

    python3 tools/planted.py            all crates, and docs/PLANTED.md is written anew
    python3 tools/planted.py NAME..     these crates or bugs (as plan, plan/add_rate) alone; a table of them is printed,
                                        and no file is written
    python3 tools/planted.py --log FILE ..
                                        what `rt ci` or `rt must-fail` printed of these edits is taken from FILE, which has
                                        to be of the same code, and only the others are tried

`rt` has to be on the path. planted/BUGS has a line for each bug: its crate and label, its kind, and what it does.
The edit itself is planted/CRATE/LABEL.edit or crates/CRATE/must-fail/LABEL.edit, in the format of the latter.
planted/SUBJECTS has the calls, feeds and policies that bugs are planted in, each with the bugs that lie in code
that it runs.
"""
import os
import re
import shutil
import subprocess
import sys
import tempfile

ROOT = os.path.dirname(os.path.dirname(os.path.realpath(__file__)))
PREFIX = "planted-"
PARTS = ("src", "specs", "proofs")


class Bug:
    """A bug: what is planted, and, once it was tried, what came of it."""

    def __init__(self, key, kind, words):
        self.key, self.kind, self.words = key, kind, words
        self.crate, self.label = key.split("/")
        own = f"{ROOT}/planted/{self.crate}/{self.label}.edit"
        self.is_new = os.path.isfile(own)
        self.edit = own if self.is_new else f"{ROOT}/crates/{self.crate}/must-fail/{self.label}.edit"
        self.name = (PREFIX if self.is_new else "") + self.label
        self.file, self.pairs = read_edit(self.edit)
        self.outcome, self.said = "not tried", ""


def read_edit(path):
    file, old, pairs = "", None, []
    with open(path, encoding="utf-8") as it:
        for line in it.read().split("\n"):
            if line.startswith("file: "):
                file = line[len("file: "):].strip()
            elif line.startswith("old: "):
                old = line[len("old: "):]
            elif line.startswith("new:"):
                pairs.append((old, line[len("new:"):].removeprefix(" ")))
    return file, pairs


def read_bugs():
    bugs = {}
    with open(f"{ROOT}/planted/BUGS", encoding="utf-8") as it:
        for line in it.read().splitlines():
            key, kind, words = line.split(": ", 2)
            bugs[key] = Bug(key, kind, words)
    return bugs


def read_subjects(bugs):
    subjects, name = {}, ""
    with open(f"{ROOT}/planted/SUBJECTS", encoding="utf-8") as it:
        for line in it.read().splitlines():
            if line.startswith(" "):
                subjects[name] += [bugs[key] for key in line.split()]
            else:
                name = line
                subjects[name] = []
    return subjects


def copy_to(room, bugs):
    """Copies what a check reads, with the bugs as the edits that the prover has to refuse."""
    shutil.copy(f"{ROOT}/crates.txt", room)
    for crate in sorted(os.listdir(f"{ROOT}/crates")):
        for part in PARTS:
            if os.path.isdir(f"{ROOT}/crates/{crate}/{part}"):
                shutil.copytree(f"{ROOT}/crates/{crate}/{part}", f"{room}/crates/{crate}/{part}")
    for bug in bugs:
        os.makedirs(f"{room}/crates/{bug.crate}/must-fail", exist_ok=True)
        shutil.copy(bug.edit, f"{room}/crates/{bug.crate}/must-fail/{bug.name}.edit")


# What `rt must-fail` says of an edit, and what it comes to.
OUTCOMES = (
    ("refused, as it must be (only by a limit of the prover", "the prover gave up"),
    ("refused, as it must be (only because a proof file names", "refused by a name"),
    ("refused, as it must be", "refused"),
    ("NOT REFUSED", "accepted"),
    ("NOT TRIED", "not tried"),
    ("BAD EDIT", "bad edit"),
)


ORDER = ("refused", "refused by a mismatch", "refused by a name", "the prover gave up", "accepted", "bad edit", "not tried")

# What is said where a proof is a term that no longer fits, and not where a fact does not hold.
MISMATCH = re.compile(r"proofs/.*(the two types (first )?differ|the two indices|expected type `|no occurrence of the path|are not equal)")

# What is said, up to its 160th character, where a proof names what is gone.
NAME = re.compile(r"proofs/.*: (record `Rattle|module `Rattle)")


def read_said(text, bugs):
    """Reads what became of bugs from what `rt must-fail` or `rt ci` printed."""
    by_name = {(bug.crate, name): bug for bug in bugs for name in (bug.label, bug.name)}
    bug = None
    for line in text.splitlines():
        found = re.match(r"(?:rt: )?must-fail (\w+)/([A-Za-z0-9_.-]+)\.edit: (.*)", line)
        if found:
            bug = by_name.get((found[1], found[2]))
            if bug:
                bug.outcome = next((outcome for words, outcome in OUTCOMES if found[3].startswith(words)), "not tried")
                bug.said = found[3]
        elif bug and bug.outcome == "bad edit":
            bug.said += "\n" + line
    for bug in bugs:
        if bug.outcome == "refused" and MISMATCH.search(bug.said):
            bug.outcome = "refused by a mismatch"
        if bug.outcome == "refused" and NAME.search(bug.said):
            bug.outcome = "refused by a name"
        # a bug that the compiler refuses did not reach the prover, and need not
        found = re.search(r"error\[(linear-value-let-go)\]: ([^\n]*)", bug.said)
        if bug.outcome == "bad edit" and found:
            bug.outcome, bug.said = "refused", f"the compiler: {found[2]}"


def try_crate(crate, room, bugs):
    ran = subprocess.run(["rt", "must-fail", crate], cwd=room, stdout=subprocess.PIPE, stderr=subprocess.STDOUT, text=True, errors="replace")
    read_said(ran.stdout, bugs)
    if any(bug.outcome == "not tried" for bug in bugs):
        print(ran.stdout, file=sys.stderr)


# Where a first error stands: a file of the crate, a line, and what was said.
PLACE = re.compile(r"(?:note: )?(?:\./)?((?:src|specs|proofs)/\S+?):(\d+):(\d+): (?:error: |warning: )?(.*)")


def item_at(lines, number):
    """Returns the function that a line lies in, or stands for, and the clause on that line if it is one."""
    clause = re.match(r"\s*((?:requires|ensures|ghost)\b ?[\w']*) ?[:{]", lines[number - 1])
    for line in reversed(lines[:number]):
        found = re.match(r"\s*(?:pub(?:\([a-z]+\))? )?(fn|struct|enum|trait|impl)\b(?:<[^>]*>)? ([\w<>, ':]+)", line)
        if found:
            return f"{found[2].split('<')[0].strip()}" if found[1] != "impl" else found[2].strip(), clause and clause[1].strip()
    return "", clause and clause[1].strip()


def shortened(text, most=140):
    text = text.strip()
    return text if len(text) <= most else text[: most - 1].rstrip() + "…"


def where(bug):
    """Says where a bug was refused: file and line, and the clause, function or proof there."""
    if bug.said.startswith("the compiler"):
        return shortened(bug.said, 160)
    found = PLACE.search(bug.said)
    if found and found[4].startswith("note:"):
        return "no line of an error was told first, but a note on a proof that stands"
    if not found:
        return shortened(bug.said, 160)
    path, number, words = found[1], int(found[2]), found[4]
    with open(f"{ROOT}/crates/{bug.crate}/{path}", encoding="utf-8") as it:
        lines = it.read().splitlines()
    told = f"`{path}:{number}`"
    if path.startswith("src/") and number <= len(lines):
        item, clause = item_at(lines, number)
        told += f" {item}" + (f", {clause}" if clause else "")
    return f"{told}: {shortened(plainer(words))}"


def plainer(words):
    """Says what was not proved in fewer words: the need in brackets names the clause."""
    words = words.replace("list the missing equation with its arguments, or rewrite by `rw` or `simp`", "`cc` did not join the two sides")
    words = re.sub(r"`(\w+)` stopped at its own limit.*", r"`\1` came to its own limit and found no proof", words)
    words = re.sub(r"^(`[\w'-]+`): (.*)", r"\2 (\1)", words)
    words = re.sub(r"it is not proved that what the function ensures holds when it returns \((`[^`]*`)\)", r"not proved when it returns (\1)", words)
    words = re.sub(r"`search` found no proof \((`[^`]*`)\)", r"not proved (\1)", words)
    # (a first error is told up to its 160th byte)
    words = re.sub(r"(\(`[^`]*`\)); (the f.*|th?$)", r"\1, false at values that are allowed there", words)
    words = re.sub(r"(\(`[^`]*`\)); (`s.*|`$)", r"\1, where the search gave up", words)
    return words


def code(text):
    text = text.strip()
    return f"`{text}`" if "`" not in text else f"`` {text} ``"


def change(bug):
    """Says what stands in place of what."""
    told = []
    for old, new in bug.pairs:
        if max(len(old.strip()), len(new.strip())) > 60:
            old, new = narrowed(old, new)
        told.append(f"{code(new)} for {code(old)}" if new.strip() else f"{code(old)} is gone")
    return "; ".join(told)


def narrowed(old, new):
    """Returns the two texts without what they share at both ends, up to whole words."""
    whole = old, new
    front = os.path.commonprefix([old, new])
    front = front[: max(front.rfind(" "), 0)] if len(front) < max(len(old), len(new)) else front
    old, new = old[len(front):], new[len(front):]
    back = os.path.commonprefix([old[::-1], new[::-1]])[::-1]
    back = back[back.find(" "):] if " " in back and len(back) < min(len(old), len(new)) else ""
    old, new = old[: len(old) - len(back)], new[: len(new) - len(back)]
    return (old, new) if old.strip() and (new.strip() or not whole[1].strip()) and len(old.strip()) > 1 else whole


def cell(text):
    return text.replace("|", "\\|").replace("\n", " ")


def table(bugs):
    rows = ["| Bug | What is planted | In place of | Kind | Outcome | Refused at |", "|---|---|---|---|---|---|"]
    for bug in bugs:
        at = where(bug) if bug.outcome.startswith("refused") or bug.outcome == "the prover gave up" else shortened(bug.said, 160)
        rows.append("| " + " | ".join(cell(it) for it in (bug.key, bug.words, f"{code(bug.file)}: {change(bug)}", bug.kind, bug.outcome, at)) + " |")
    return rows


def counted(bugs):
    told = [f"{sum(bug.outcome == outcome for bug in bugs)} {outcome}" for outcome in sorted({bug.outcome for bug in bugs}, key=ORDER.index) if any(bug.outcome == outcome for bug in bugs)]
    return f"{len(bugs)} bugs of {len({bug.kind for bug in bugs})} kinds: {', '.join(told)}."


def page(subjects):
    every = list(dict.fromkeys(bug for bugs in subjects.values() for bug in bugs))
    with open(f"{ROOT}/planted/HEAD.md", encoding="utf-8") as it:
        lines = [it.read().rstrip("\n"), ""]
    lines += ["## How many", "", f"All in all: {counted(every)}", "", "| Subject | Bugs | Kinds | Refused |", "|---|---|---|---|"]
    for name, bugs in subjects.items():
        lines.append(f"| {name} | {len(bugs)} | {len({bug.kind for bug in bugs})} | {sum(bug.outcome.startswith('refused') for bug in bugs)} |")
    seen = {}
    for name, bugs in subjects.items():
        own = [bug for bug in bugs if bug not in seen]
        lines += ["", f"## {name}", "", counted(bugs)]
        for other in dict.fromkeys(seen[bug] for bug in bugs if bug in seen):
            lines += ["", f"Of these, told under {other}: {', '.join(bug.key for bug in bugs if seen.get(bug) == other)}."]
        if own:
            lines += ["", *table(own)]
        seen.update({bug: name for bug in own})
    return "\n".join(lines) + "\n"


def main(words):
    logs = [words[at + 1] for at, word in enumerate(words[:-1]) if word == "--log"]
    names = [word for at, word in enumerate(words) if word != "--log" and (at == 0 or words[at - 1] != "--log")]
    bugs = read_bugs()
    subjects = read_subjects(bugs)
    unknown = [it for it in names if not any(it in (bug.crate, bug.key) for bug in bugs.values())]
    if unknown:
        print(f"{unknown[0]} is neither a bug nor a crate that has one", file=sys.stderr)
        return 1
    tried = [bug for bug in bugs.values() if not names or bug.crate in names or bug.key in names]
    for log in logs:
        with open(log, encoding="utf-8", errors="replace") as it:
            read_said(it.read(), tried)
    left = [bug for bug in tried if bug.outcome == "not tried"]
    with tempfile.TemporaryDirectory(prefix="planted-") as room:
        copy_to(room, left)
        for crate in dict.fromkeys(bug.crate for bug in left):
            own = [bug for bug in left if bug.crate == crate]
            try_crate(crate, room, own)
            print(f"{crate}: {counted(own)}", file=sys.stderr, flush=True)
    if names:
        print("\n".join(table(tried)))
    else:
        with open(f"{ROOT}/docs/PLANTED.md", "w", encoding="utf-8") as it:
            it.write(page(subjects))
    return 0 if all(bug.outcome.startswith("refused") for bug in tried) else 1


if __name__ == "__main__":
    sys.exit(main(sys.argv[1:]))
