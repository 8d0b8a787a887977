#!/usr/bin/env python3
"""Writes `AllByRecursion` under its own name where the port's script imported it as `All`, which is another word of the library.

usage: python3 tools/library_words.py      at the top of the repository; rewrites crates/*/{src,specs,proofs} in place
"""

import glob
import re

ALIAS = "AllByRecursion as All"
WORD = re.compile(r"(?<![\w'\-])All(?![\w'\-])")

for path in sorted(glob.glob("crates/*/**/*.antt", recursive=True) + glob.glob("crates/*/src/**/*.rt", recursive=True)):
    text = open(path, encoding="utf-8").read()
    if ALIAS in text:
        text = WORD.sub("AllByRecursion", text.replace(ALIAS, "AllByRecursion"))
        open(path, "w", encoding="utf-8").write(text)
