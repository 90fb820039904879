#!/usr/bin/env python3
"""Checks a crate over the sources of the crates below it, without their proofs: quick while these are in work, and no verdict.

    over_sources.py CRATE [arguments of `rattle check`, as --only CRATE::module::function --incremental FOLDER --allow-holes]

Run it from the project's root. A function that calls an unproved one is told so, and counts as not proved.
"""
import os
import subprocess
import sys

KIT = "/opt/rattle"
crate, *rest = sys.argv[1:]
below = {}
for line in open("crates.txt"):
    if line.strip() and not line.startswith("#"):
        head, _, names = line.partition(":")
        below[head.split()[0]] = names.split()

needed = set()


def need(name):
    for each in below[name]:
        if each not in needed:
            needed.add(each)
            need(each)


need(crate)
root = os.getcwd()
folder = f"{root}/crates/{crate}"
source = "src/main.rt" if os.path.exists(f"{folder}/src/main.rt") else "src/lib.rt"
words = [f"{KIT}/bin/rattle", "check", "--crate-name", crate, source, "--extern", f"std={KIT}/rlibs/std.rlib", "-L", f"dependency={KIT}/rlibs"]
for name in below:
    if name in needed:
        words += ["--lib", f"{name}:{','.join(below[name] + ['std'])}={root}/crates/{name}/src/lib.rt"]
words += ["--antt-project", f"{KIT}/rattle/logic/antt-project.json", "--logic-built", f"{KIT}/logic_built"] + rest
sys.exit(subprocess.call(words, cwd=folder))
