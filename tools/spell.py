#!/usr/bin/env python3
"""Spells this repository's own definitions and lemmas as today's library spells its own: words in snake case, types in camel case.

Run once at the top, right after the kit's port.py. It renames what .antt files under crates/ declare, wherever it is named: in specs/, proofs/,
the clauses of src/, and in the code spans of the pages. Goals, which the check names, functions of src/, strings, inputs and outputs keep theirs.
"""
import os
import re
import subprocess
import sys

# Names that would fall together with one of the library's, or that are types.
CHOSEN = {
    "asked-all": "all_asked",
    "bit-and": "bit_and_digit",
    "bit-or": "bit_or_digit",
    "Unit-mm": "UnitMm",
    "C-word": "CWord",
    "R-word": "RWord",
}
NAME = r"[A-Za-z][\w']*(?:-[\w']+)*"
DECLARES = re.compile(r"\s*(?:module _ )?(?:pub |abbrev |unfoldable |data |record )*((?:" + NAME + r"\s)+):\s(.*)")
WORD = re.compile(r"(?<![\w'.-])(?:(?<=goal)x)?" + NAME)
KEYWORDS = {"pub", "abbrev", "unfoldable", "data", "record", "module"}


def tracked():
    out = subprocess.run(["git", "ls-files", "-co", "--exclude-standard"], capture_output=True, text=True, check=True).stdout
    return [f for f in out.split("\n") if f and os.path.isfile(f)]


def snake(name):
    if name in CHOSEN:
        return CHOSEN[name]
    name = name.replace("-", "_")
    return re.sub(r"(?<=[a-z0-9])([A-Z])", lambda m: "_" + m.group(1).lower(), name) if name[0].islower() else name


def declared(files):
    found = set()
    for f in files:
        if not f.endswith(".antt"):
            continue
        answers = f.endswith(("Answers.antt", "Invariants.antt"))
        for line in open(f, encoding="utf-8"):
            m = DECLARES.match(line.split("--")[0])
            if m and not (answers and m.group(2).startswith("goal.")):
                found |= {n for n in m.group(1).split() if n not in KEYWORDS}
    return found


def turn(text, names, spans):
    """Renames in text: whole words, none that the check made (behind `goal.`, or of a step behind `c.` or `w.`)."""

    def word(m):
        return snake(m.group(0)) if m.group(0) in names else m.group(0)

    pattern = re.compile(r"(?<![\w'-])(?<!goal\.)(?<!\bc\.)(?<!\bw\.)(?<!\bl\.)" + NAME + r"(?![\w'-])")
    if not spans:
        return pattern.sub(word, text)
    return re.sub(r"`[^`\n]+`", lambda m: pattern.sub(word, m.group(0)), text)


def antt(text, names):
    lines = []
    for line in text.split("\n"):
        code, dashes, said = line.partition("--")
        lines.append(turn(code, names, False) + dashes + turn(said, {n for n in names if "-" not in n}, False))
    return "\n".join(lines)


def rust(text, names):
    """The clauses and ghost lines: names with a dash or a capital within stand nowhere else but in strings and comments."""
    parts = re.split(r'("(?:[^"\\\n]|\\.)*"|//[^\n]*)', text)
    return "".join(p if i % 2 else turn(p, names, False) for i, p in enumerate(parts))


def main():
    files = tracked()
    own = declared([f for f in files if f.startswith("crates/")])
    names = {n for n in own if snake(n) != n}
    fallen = {}
    for n in names:
        fallen.setdefault(snake(n), set()).add(n)
    for new, olds in sorted(fallen.items()):
        if len(olds) > 1 or new in own:
            print("falls together:", new, "of", ", ".join(sorted(olds)), "(declared)" if new in own else "")
    changed = 0
    for f in files:
        kind = antt if f.endswith(".antt") else rust if f.endswith(".rt") else None
        if f.endswith(".md"):
            kind = lambda text, names: turn(text, names, True)
        if not kind or (kind in (antt, rust) and not f.startswith("crates/")):
            continue
        with open(f, encoding="utf-8") as it:
            old = it.read()
        new = kind(old, names)
        if new != old:
            changed += 1
            with open(f, "w", encoding="utf-8") as it:
                it.write(new)
    print(f"{len(names)} names, {changed} files")


if __name__ == "__main__":
    sys.exit(main())
