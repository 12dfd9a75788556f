#!/usr/bin/env python3
"""Calls the library's AllByRecursion by its own name, in the crates named: the gate wants the name All for the library's All alone.

usage: python3 tools/name_all_by_recursion.py CRATE..
"""
import os
import re
import sys

for crate in sys.argv[1:]:
    for folder, dirs, files in os.walk(f"crates/{crate}"):
        dirs[:] = [d for d in dirs if d != "out"]
        for name in files:
            path = os.path.join(folder, name)
            if not name.endswith(".antt"):
                continue
            with open(path, encoding="utf-8") as f:
                old = f.read()
            if "AllByRecursion as All" not in old:
                continue
            new = old.replace("AllByRecursion as All", "AllByRecursion")
            new = re.sub(r"(?<![\w'.-])All(?![\w'-])", "AllByRecursion", new)
            with open(path, "w", encoding="utf-8") as f:
                f.write(new)
            print(path)
