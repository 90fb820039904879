#!/usr/bin/env python3
"""Says of which must-fail edits the text that they replace does not stand exactly once in its file. Run it from the project's root."""
import glob
import os

count = wrong = 0
for path in sorted(glob.glob("crates/*/must-fail/*.edit")):
    count += 1
    crate = path.split("/must-fail/")[0]
    file = ""
    for line in open(path).read().split("\n"):
        if line.startswith("file: "):
            file = f"{crate}/{line[6:]}"
        elif line.startswith("old: "):
            found = open(file).read().count(line[5:]) if os.path.exists(file) else 0
            if found != 1:
                wrong += 1
                print(f"{path}: {found} times in {file}")
print(f"{count} edits, {wrong} of another text")
