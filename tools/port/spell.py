#!/usr/bin/env python3
"""Brings the repository's own definitions and lemmas to today's spelling: words in snake case, modules in camel case.

usage: python3 tools/port/spell.py [--dry]     once, at the top, right after port.py

Names that are declared in specs/ or in proofs/*.antt and are not types are turned everywhere, in .antt and .rt files and in must-fail edits:
a hump becomes `_`; the dash that joins names in a lemma's stays. The modules `laws`, `theory` and `examples` become `Laws`, `Theory` and
`Examples`. Functions of src/, their files and their goals keep their names. A name that the library has too is left in the files that
import the library's.
"""

import collections
import os
import re
import subprocess
import sys

DECLARED = re.compile(r"(?m)^\s*(?:abbrev |unfoldable |pub |data |record |ruleset |module )*([^\s(){}\[\],;:.]+)\s*:\s")
IMPORT = re.compile(r"(?:ghost )?use ([^\s{;]+?)\.\{([^}]*)\}")
TOKEN = re.compile(r"[^\s(){}\[\],;.:λ⌜⌝\"`→|]+")
MODULES = {"laws": "Laws", "theory": "Theory", "examples": "Examples"}


def files(ends):
    for folder, dirs, names in os.walk("crates"):
        dirs[:] = sorted(d for d in dirs if d != "out")
        for n in sorted(names):
            if n.endswith(ends):
                yield os.path.join(folder, n)


def read(p):
    with open(p, encoding="utf-8") as f:
        return f.read()


def snake(name):
    return re.sub(r"(?<=[a-z0-9])(?=[A-Z])", "_", name).lower() if re.search(r"[a-z0-9][A-Z]", name) else name


def own(path, crates):
    parts = path.split(".")
    return len(parts) > 1 and parts[0] == "Rattle" and parts[1] in crates


def main():
    dry = "--dry" in sys.argv
    crates = set(os.listdir("crates"))
    turned, dashed = {}, {}
    for p in files(".antt"):
        parts = p.split("/")
        if parts[2] == "proofs" and len(parts) > 4:
            continue
        for m in DECLARED.finditer(read(p)):
            n = m.group(1)
            if re.match(r"[a-z]", n) and snake(n) != n and not n.startswith(("use", "module")):
                turned[n] = snake(n)
    # what the library has, by file
    foreign = collections.defaultdict(set)
    for p in files((".antt", ".rt")):
        for m in IMPORT.finditer(read(p)):
            if not own(m.group(1), crates):
                for item in m.group(2).split(","):
                    item = item.strip()
                    if " as " in item:
                        item = item.split(" as ")[1].strip()
                    foreign[p].add(item)
    taken = set().union(*foreign.values())
    back = collections.defaultdict(set)
    for a, b in turned.items():
        back[b].add(a)
    declared = set()
    for p in files(".antt"):
        declared |= set(DECLARED.findall(read(p)))
    for b, names in sorted(back.items()):
        if len(names) > 1:
            print("fall together:", b, sorted(names))
        if b in declared:
            # a lemma whose dash port.py took, since a library has a lemma of that spelling: it has its dash again
            print("has its dash again:", b, sorted(names))
            dashed[b] = b.replace("_", "-")
        if b in taken:
            print("is the library's:", b, sorted(names))
    for a in sorted(turned):
        if a in taken:
            print("the library has it too:", a, [p for p in foreign if a in foreign[p]][:4])
    for p in list(files((".antt", ".rt", ".edit"))):
        text = read(p)
        words = set(TOKEN.findall(text))
        if p.endswith(".rt"):
            given = set(re.findall(r"(?:[(,]\s*|let (?:mut )?|for )(?:mut )?([a-z]\w*)\s*[:=]", text))
            for a in sorted(a for a in turned if a in words and turned[a] in given):
                print("a local has that name too:", p, a)
        skip = foreign[p]
        here = lambda m: turned[m.group(0)] if m.group(0) in turned and m.group(0) not in skip else m.group(0)
        # a function of that name is named behind a dot
        lemma = lambda m: dashed[m.group(0)] if m.group(0) in dashed and m.string[m.start() - 1] != "." else m.group(0)
        new = TOKEN.sub(here, TOKEN.sub(lemma, text) if p.endswith(".antt") else text)
        for a, b in MODULES.items():
            new = re.sub(r"(?<=\.specs\.)%s(?![\w-])" % a, b, new)
            new = re.sub(r"(?m)^((?:pub )?mod )%s$" % a, r"\g<1>%s" % b, new)
            new = re.sub(r"(?m)^(file: specs/)%s(?=[./])" % a, r"\g<1>%s" % b, new)
        if new != text and not dry:
            with open(p, "w", encoding="utf-8") as f:
                f.write(new)
    for c in sorted(crates):
        for a, b in MODULES.items():
            for e in (".antt", ""):
                f = f"crates/{c}/specs/{a}{e}"
                if os.path.exists(f) and not dry:
                    subprocess.run(["git", "mv", f, f"crates/{c}/specs/{b}{e}"], check=True)
    print(len(turned), "names")


main()
