#!/usr/bin/env python3
"""Brings the names of goals and of steps, which Rattle makes from a function's text, to today's spelling in proofs/.

usage: python3 tools/goal_names.py CRATE..      at the top of the repository; rewrites crates/CRATE/proofs/*/**.antt

A name of the source (`check_box`, `FRAME_MAX`) now stands in a goal's or a step's name with its underscores; it had hyphens.
Turned are names behind a dot, names that `goal.` has, and labels of clauses in records.
"""

import glob
import re
import sys

FIXED = {"well-formed": "well_formed", "offset-bounds": "offset_bounds", "slice-bounds": "slice_bounds", "from-residual": "from_residual", "type-inv": "type_inv", "in-ok": "in_ok", "in-err": "in_err", "in-default": "in_default"}
OVERFLOW = re.compile(r"\boverflow-(add|sub|mul|div|rem|neg|cast|shl|shr|index)\b")


def names_of(crate):
    text = "\n".join(open(p, encoding="utf-8").read() for p in glob.glob(f"crates/{crate}/src/**/*.rt", recursive=True))
    words = set(re.findall(r"\b[a-z][a-z0-9]*(?:_[a-z0-9]+)+\b|\b[A-Z][A-Z0-9]*(?:_[A-Z0-9]+)+\b", text))
    labels = set(re.findall(r"\b(?:ensures|requires)\*? ([a-z0-9]+(?:_[a-z0-9]+)+) \{", text))
    return sorted(words, key=len, reverse=True), labels


def turned(word, words):
    for w in words:
        word = re.sub(rf"(?<![\w']){re.escape(w.replace('_', '-'))}(?![\w'])", w, word)
    for old, new in FIXED.items():
        word = re.sub(rf"(?<![\w']){old}(?![\w'])", new, word)
    return OVERFLOW.sub(r"overflow_\1", word)


def main():
    for crate in sys.argv[1:]:
        words, labels = names_of(crate)
        for path in glob.glob(f"crates/{crate}/proofs/*/**/*.antt", recursive=True):
            text = open(path, encoding="utf-8").read()
            ours = {w for m in re.finditer(r"^use [^\n{]*\{([^}]*)\}", text, re.M) if ".Goals" not in m.group(0) for w in m.group(1).replace(",", " ").split()}
            goals = set(re.findall(r"^\s*(?:abbrev )?(?:pub )?([\w'\-]+)\s*:\s*(?:goal|need)\.", text, re.M))
            out = []
            for line in text.split("\n"):
                if line.startswith("use ") and not re.search(r"\.(Goals|Given)\b", line):
                    out.append(line)
                    continue
                line = re.sub(r"(?<=\.)[\w'\-]*\w", lambda m: turned(m.group(0), words), line)
                line = re.sub(r"(?<![\w'.\-])[A-Za-z][\w'\-]*", lambda m: turned(m.group(0), words) if m.group(0) in goals or m.group(0) not in ours and re.match(r"(then|else|in|after|Then|Else|In|After|Joined)-", m.group(0)) else m.group(0), line)
                for label in labels:
                    line = re.sub(rf"(?<![\w'\-]){re.escape(label.replace('_', '-'))}(?![\w'\-])", label, line)
                out.append(line)
            new = "\n".join(out)
            if new != text:
                open(path, "w", encoding="utf-8").write(new)


main()
