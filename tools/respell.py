#!/usr/bin/env python3
"""Brings the definitions and lemmas of this repository to the spelling of the library, once, after the port's own script.

usage: python3 tools/respell.py        at the top of the repository; rewrites crates/*/{src,specs,proofs} in place

A word (a definition, a field, a lemma) is written in snake case, a fact (what gives a `Type 0`) in camel case.
Only names that specs/ or the files right in proofs/ declare are turned, so names of functions, of goals and of the library
stay. In a file that imports a name of the library, that name stays too. Where two names would fall together, the one that
proofs/ declares has hyphens. Names that could be taken for another are printed.
"""

import collections
import glob
import os
import re
import sys

WORD = re.compile(r"[^\W\d][\w'\-]*(?<!-)", re.UNICODE)
SIGNATURE = re.compile(r"^\s*(?:(?:abbrev|unfoldable|pub)\s+)*(data|record)?\s*([^\s:(){};.,]+)((?:\s+[({][^=]*)?\s*:\s.*)$")
# Lemmas that the port's script brought to the name that a word gets here; functions of src/ have some of these names too.
LEMMAS = {"entry_in", "in_all", "none_yet", "one_more"}
FACT = re.compile(r"(→|:)\s*Type 0(\s+where)?\s*$")


def is_older(name):
    return "-" in name or re.match(r"[a-z_][^-]*[A-Z]", name) is not None


def snake(name):
    return re.sub(r"([a-z0-9])([A-Z])", r"\1_\2", name).replace("-", "_").lower()


def camel(name):
    return "".join(part[:1].upper() + part[1:] for part in re.split(r"[-_]", name))


def declared(files):
    """Each name with the one that it gets, and the kinds of file that declare it."""
    new, kinds = {}, collections.defaultdict(set)
    for path in files:
        for line in open(path, encoding="utf-8"):
            m = SIGNATURE.match(line)
            if not m or line.lstrip().startswith("--"):
                continue
            kind, name, rest = m.groups()
            if not WORD.fullmatch(name):
                continue
            fact = bool(kind) or FACT.search(rest.rstrip()) is not None
            to = (camel(name) if fact else snake(name)) if is_older(name) else name
            if new.setdefault(name, to) != to:
                sys.exit(f"respell: {name} is a word and a fact")
            kinds[name].add("specs" if "/specs/" in path else "proofs")
    return new, kinds


def imports_of_library(text):
    names = set()
    for m in re.finditer(r"^(?:pub )?(?:ghost )?use (?!Rattle\.(?!std\.))[^\n;{]*\{([^}]*)\}", text, re.M):
        names |= {w for part in m.group(1).split(",") for w in part.split()}
    return names


def main():
    specs = sorted(glob.glob("crates/*/specs/**/*.antt", recursive=True))
    lemmas = sorted(glob.glob("crates/*/proofs/*.antt"))
    new, kinds = declared(specs + lemmas)
    everything = sorted(glob.glob("crates/*/specs/**/*.antt", recursive=True) + glob.glob("crates/*/proofs/**/*.antt", recursive=True) + glob.glob("crates/*/src/**/*.rt", recursive=True))
    texts = {p: open(p, encoding="utf-8").read() for p in everything}
    uses = collections.Counter(w for t in texts.values() for w in WORD.findall(t))
    by_new = collections.defaultdict(list)
    for name, to in new.items():
        by_new[to].append(name)
    for to, names in sorted(by_new.items()):
        if len(names) > 1:
            keep = sorted(names, key=lambda n: (n in LEMMAS, "specs" not in kinds[n], n != to, "-" in n))
            for n in keep[1:]:
                new[n] = n.replace("_", "-") if n in LEMMAS else n
                print(f"apart: {n} is {new[n]} (beside {keep[0]}, now {to})")
    new = {name: to for name, to in new.items() if name != to}
    for name, to in sorted(new.items()):
        if uses[to]:
            print(f"look: {name} becomes {to}, which stands {uses[to]} times already")
    for path, text in texts.items():
        skip = imports_of_library(text)

        def turned(m):
            w = m.group(0)
            if w in LEMMAS and (path.endswith(".rt") or text[m.start() - 1 : m.start()] == "."):
                return w
            return new[w] if w in new and w not in skip else w

        out = WORD.sub(turned, text)
        if out != text:
            for w in sorted(skip & set(new)):
                print(f"library: {w} stays in {path}")
            open(path, "w", encoding="utf-8").write(out)


main()
