#!/usr/bin/env python3
"""Prints public functions, definitions and theorems that differ from an older commit, old and new side by side, as docs/DESIGN-PASS.md has them.

    sides.py COMMIT

What differs in the names of REPLACED alone stands in one line. Run it from the project's root; it compares with what is committed.
"""
import collections
import io
import re
import subprocess
import sys
import tarfile

# Types and variants that became std's: crate, old ones, new ones.
REPLACED = [
    ("arith", "Found At Nothing", "Option ℕ|Some|None"),
    ("decimal", "Column Value Broken", "Option ℕ|Some|None"),
    ("frame_length", "Measured Length Refused", "Option ℕ|Some|None"),
    ("table_checks", "Checked Passed Failed", "Result (Unit {0}) Refusal|Ok tt|Err"),
    ("frame_table, log_load", "Answer Done Refused", "Result ℕ Refusal|Ok|Err"),
    ("row_judgement", "Judged Verdict NotJudged", "Result Judgement Refusal|Ok|Err"),
    ("row_judgement", "Bounded Bound NotBounded", "Result ℕ Refusal|Ok|Err"),
    ("certifier", "Listed Written NotListed", "Result ℕ Refusal|Ok|Err"),
    ("certifier", "Reply Answered Malformed", "Option (Result ℕ Refusal)|Some|None"),
]
# The same for comparing; `Bound` and `Refused` are other types' names too, and a crate's own name of a refusal is one of Refusal.
WORDS = {old: new for _, olds, news in REPLACED for old, new in zip(olds.split(), news.split("|"))}
WORDS.update(Refused="Err", Is="Ok", Unreadable="None", **{name: "Refusal" for name in ("TableRefusal", "LogRefusal", "SheetRefusal", "RowRefusal")})
del WORDS["Bound"], WORDS["Length"]
SILENT = {"tt", "_", "Unit", "0"}


def read(commit):
    archive = subprocess.check_output(["git", "archive", commit, "crates"])
    tar = tarfile.open(fileobj=io.BytesIO(archive))
    return {m.name: tar.extractfile(m).read().decode() for m in tar.getmembers() if m.isfile() and m.name.endswith((".rt", ".antt"))}


def words(text):
    text = re.sub(r"\b\w+::", "", text)
    text = re.sub(r"\b(Checked|Answer|Found)\.(?=[A-Z])", "", text)
    text = text.replace("Option<usize>", "Option size")
    text = re.sub(r"\b(u32|u64|usize)\b", "ℕ", text).replace("()", "Unit 0")
    found = [WORDS.get(word, word) for word in re.findall(r"[^\s(){},;<>:]+|:", text)]
    return sorted(word for part in found for word in re.findall(r"[^\s(){}]+", part) if word not in SILENT)


def items(files):
    """Definitions whole, theorems up to their proofs, by crate and name."""
    found = {}
    for path, text in files.items():
        crate, part = path.split("/")[1:3]
        if not path.endswith(".antt") or not (part == "specs" or re.match(r"crates/[^/]*/proofs/(Laws|Theory|Examples)", path)):
            continue
        lines = text.split("\n")
        i = 0
        while i < len(lines):
            begin = re.match(r"^( *)((?:(?:abbrev|unfoldable) )?pub (?:record )?)([^\s:({]+)", lines[i])
            i += 1
            if not begin or begin.group(3) in ("mod", "use", "ruleset", "abbrev", "unfoldable"):
                continue
            block = [lines[i - 1]]
            end = r"^ {0,%d}(?:--|(?:(?:abbrev|unfoldable) )?pub |module )" % len(begin.group(1))
            while i < len(lines) and lines[i].strip() and not re.match(end, lines[i]):
                block.append(lines[i])
                i += 1
            stated = re.sub(r" *--[^\n]*", "", "\n".join(block))
            name = begin.group(3)
            if not re.search("record|abbrev|unfoldable", begin.group(2)):
                proof = re.search(r"\n *(unfolding\b|" + re.escape(name) + r"(?=[ \n]))", stated)
                stated = stated[: proof.start()] if proof else stated
            found[crate, name] = (re.sub(r"\s+", " ", stated).strip(), path)
    return found


def functions(files):
    """Whether public, the signature and the clauses, by crate and name."""
    found = {}
    for path, text in files.items():
        if not path.endswith(".rt") or "/src/" not in path:
            continue
        impls = [(m.start(), m.group(1)) for m in re.finditer(r"^impl(?:<[^>]*>)? (?:[\w<>:]+ for )?(\w+)", text, re.M)]
        for m in re.finditer(r"^( *)(pub )?(?:extern \"C\" )?fn (\w+)(.*?)\n\1\}\n", text, re.M | re.S):
            alone = f"\n{m.group(1)}{{\n"
            head = m.group(4).split(alone if alone in m.group(4) else "{\n")[0]
            signature = re.split(r"\n\s*(?:requires|ensures)\b", head)[0]
            clauses = [line.strip() for line in head[len(signature) :].split("\n") if line.strip()]
            owners = [name for at, name in impls if m.group(1) and at < m.start()]
            name = f"{owners[-1]}::{m.group(3)}" if owners else m.group(3)
            signature = re.sub(r"\s+", " ", signature).replace("( ", "(").replace(", )", ")").strip()
            found[path.split("/")[1], name] = (bool(m.group(2)), signature, clauses)
    return found


def cell(text):
    return "`" + text.replace("|", "\\|").replace("`", "'") + "`"


def show_functions(old, new):
    print("### Public functions\n\n| function | old | new |\n|---|---|---|")
    replaced = []
    for key in sorted(old):
        if key not in new or not (old[key][0] or new[key][0]) or old[key][1:] == new[key][1:]:
            continue
        before, after = old[key], new[key]
        name = f"`{key[0]}::{key[1]}`"
        if words(" ".join([before[1], *before[2]])) == words(" ".join([after[1], *after[2]])):
            replaced.append(name)
            continue
        left = [before[1]] * (before[1] != after[1]) + [it for it in before[2] if it not in after[2]]
        right = [after[1]] * (before[1] != after[1]) + [it for it in after[2] if it not in before[2]]
        print(f"| {name} | {'<br>'.join(map(cell, left))} | {'<br>'.join(map(cell, right))} |")
    print("\nBy the replaced names alone: " + ", ".join(replaced) + ".\n")
    print("New: " + ", ".join(f"`{c}::{n}`" for c, n in sorted(new) if (c, n) not in old and new[c, n][0]) + ".\n")


def show_items(old, new):
    replaced = collections.defaultdict(list)
    print("### Definitions and theorems\n\nOf a theorem its statement, of a definition all of it.\n\n| name | old | new |\n|---|---|---|")
    for key in sorted(old):
        if key not in new or old[key][0] == new[key][0]:
            continue
        if words(old[key][0]) == words(new[key][0]):
            replaced[key[0]].append(f"`{key[1]}`")
            continue
        place = new[key][1].split("crates/")[1].rsplit(".", 1)[0]
        print(f"| `{place}`: `{key[1]}` | {cell(old[key][0])} | {cell(new[key][0])} |")
    print("\nBy the replaced names alone, by crate: " + "; ".join(f"{c}: " + ", ".join(v) for c, v in sorted(replaced.items())) + ".\n")
    print("New: " + ", ".join(f"`{n}` ({c})" for c, n in sorted(new) if (c, n) not in old) + ".\n")
    print("Gone: " + ", ".join(f"`{n}` ({c})" for c, n in sorted(old) if (c, n) not in new) + ".")


def main():
    before, now = read(sys.argv[1]), read("HEAD")
    print("## Old and new, side by side\n\n### Names that were replaced\n\n| old | new |\n|---|---|")
    for crate, olds, news in REPLACED:
        print(f"| {', '.join(map(cell, olds.split()))} ({crate}) | {', '.join(map(cell, news.split('|')))} |")
    print()
    show_functions(functions(before), functions(now))
    show_items(items(before), items(now))


main()
