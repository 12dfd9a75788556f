#!/usr/bin/env python3
"""Respells the goals and steps that the check makes, in the proof files of the crates named: words of the check's own have underscores now.

usage: python3 tools/respell_goals.py CRATE..
"""
import os
import re
import sys

WORDS = [
    (r"\binvariant-of-", "invariant_of-"),
    (r"\boverflow-(add|sub|mul|shl|shr|cast|neg|step)\b", r"overflow_\1"),
    (r"\bin-(ok|err|some|none|default)-", r"in_\1-"),
    (r"\bin-default\b", "in_default"),
    (r"\b(slice|offset)-bounds\b", r"\1_bounds"),
    (r"\bnonzero-(div|rem)\b", r"nonzero_\1"),
    (r"\btype-inv\b", "type_inv"),
]


def main():
    for crate in sys.argv[1:]:
        for folder, _, files in os.walk(f"crates/{crate}/proofs"):
            for name in files:
                if not name.endswith(".antt") or folder == f"crates/{crate}/proofs":
                    continue
                path = os.path.join(folder, name)
                with open(path, encoding="utf-8") as f:
                    old = f.read()
                new = old
                for pattern, to in WORDS:
                    new = re.sub(r"(?<![\w'-])" + pattern if not pattern.startswith(r"\bin-") else r"(?<![\w'])" + pattern, to, new)
                if new != old:
                    with open(path, "w", encoding="utf-8") as f:
                        f.write(new)


main()
