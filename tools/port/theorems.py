#!/usr/bin/env python3
"""Moves theorems of a crate from specs/ to proofs/: the modules Laws, Theory and Examples, but for the definitions that contracts or definitions cite.

usage: python3 tools/port/theorems.py CRATE..     once, at the top

A definition that a contract or a file of definitions names stays in specs/, under its module; everything else goes to the same place below proofs/.
Every use line follows. What has moved is listed, statements whole, on standard output.
"""

import os
import re
import subprocess
import sys
import collections

LAWS = ("Laws", "Theory", "Examples")
USE = re.compile(r"use Rattle\.(\w+)\.(specs)\.((?:%s)(?:\.\w+)*)\.\{([^}]*)\}" % "|".join(LAWS))
HEAD = re.compile(r"^(?:pub |abbrev |unfoldable |data |record |ruleset )*([^\s(){}\[\],;:.]+)\s*(?::|\s\(|\s\{)")
TOKEN = re.compile(r"[^\s(){}\[\],;.:λ→|\"]+")


def walk():
    for folder, dirs, names in os.walk("crates"):
        dirs[:] = sorted(d for d in dirs if d != "out")
        for n in sorted(names):
            if n.endswith((".antt", ".rt")):
                yield os.path.join(folder, n)


def read(p):
    with open(p, encoding="utf-8") as f:
        return f.read()


def write(p, text):
    os.makedirs(os.path.dirname(p), exist_ok=True)
    with open(p, "w", encoding="utf-8") as f:
        f.write(text)


def law_of(p):
    m = re.match(r"crates/(\w+)/specs/((?:%s)(?:/\w+)*)\.antt$" % "|".join(LAWS), p)
    return (m.group(1), m.group(2).replace("/", ".")) if m else None


def blocks(text):
    """Heading, use lines, and the top-level pieces with their comments."""
    lines = text.rstrip("\n").split("\n")
    k = 0
    while k < len(lines) and (lines[k].startswith("--") or not lines[k].strip()):
        k += 1
    head = lines[:k]
    uses = []
    while k < len(lines) and (lines[k].startswith("use ") or not lines[k].strip()):
        if lines[k].startswith("use "):
            uses.append(lines[k])
        k += 1
    pieces, cur, comment = [], [], []
    for l in lines[k:]:
        top = l and not l[0].isspace()
        if top and l.startswith("--"):
            if cur and any(x.strip() and not x.startswith("--") for x in cur):
                pieces.append(cur)
                cur = []
            cur.append(l)
            continue
        if top and (l.startswith("module ") or re.match(r"(pub |abbrev |unfoldable |data |record |ruleset )", l) or (HEAD.match(l) and not clause(l, cur))):
            if any(x.strip() and not x.startswith("--") for x in cur):
                pieces.append(cur)
                cur = []
        cur.append(l)
    if cur:
        pieces.append(cur)
    return head, uses, pieces


def clause(line, cur):
    """Whether the line is a clause of the declaration that is being read."""
    name = declared(cur)
    return name is not None and re.match(re.escape(name) + r"(\s|$)", line) is not None and not re.match(re.escape(name) + r"\s*:", line)


def declared(piece):
    for l in piece:
        if l and not l[0].isspace() and not l.startswith("--"):
            if l.startswith("module "):
                return None
            m = HEAD.match(l)
            return m.group(1) if m else None
    return None


def main():
    crates = sys.argv[1:]
    cited = collections.defaultdict(set)
    for p in walk():
        if law_of(p) or "/proofs/" in p:
            continue
        # the whole of starred_examples is theorems
        if p.startswith("crates/starred_examples/"):
            continue
        for m in USE.finditer(read(p)):
            for n in m.group(4).split(","):
                n = n.strip().split(" as ")[0]
                if n:
                    cited[(m.group(1), m.group(3))].add(n)
    stays = {}
    moved = {}
    listing = []
    parsed = {}
    for p in list(walk()):
        key = law_of(p)
        if not key or key[0] not in crates:
            continue
        parsed[key] = (p, *blocks(read(p)))
    # what a definition that stays needs of the same kind of file stays too
    todo = [(k, n) for k in parsed for n in cited.get(k, ())]
    keep = collections.defaultdict(set)
    where = {}
    for k, (p, head, uses, pieces) in parsed.items():
        for piece in pieces:
            n = declared(piece)
            if n:
                where.setdefault((k, n), piece)
    while todo:
        k, n = todo.pop()
        if n in keep[k]:
            continue
        if (k, n) not in where:
            print("not at the top level:", k, n, file=sys.stderr)
            continue
        keep[k].add(n)
        words = set(TOKEN.findall("\n".join(l for l in where[(k, n)] if not l.lstrip().startswith("--"))))
        for (k2, m) in where:
            if k2 == k and m in words and m != n:
                todo.append((k, m))
        for u in parsed[k][2]:
            m = USE.match(u)
            if m and m.group(1) in crates:
                for x in m.group(4).split(","):
                    x = x.strip().split(" as ")[0]
                    if x in words:
                        todo.append(((m.group(1), m.group(3)), x))
    for k, (p, head, uses, pieces) in sorted(parsed.items()):
        crate, module = k
        path = module.replace(".", "/")
        left = [q for q in pieces if declared(q) in keep[k]]
        gone = [q for q in pieces if declared(q) not in keep[k]]
        is_index = not pieces and not uses or all(re.match(r"(pub )?mod |--|$", l) for l in read(p).split("\n"))
        if is_index:
            continue
        new = f"crates/{crate}/proofs/{path}.antt"
        os.makedirs(os.path.dirname(new), exist_ok=True)
        subprocess.run(["git", "mv", p, new], check=True)
        text = lambda qs: "\n".join("\n".join(q).rstrip("\n") + "\n" for q in qs)
        more = []
        if left:
            more = [f"use Rattle.{crate}.specs.{module}.{{{', '.join(declared(q) for q in left)}}}"]
            words = set(TOKEN.findall(text(left)))
            lines = []
            for u in uses:
                m = re.match(r"use ([^\s{]+)\.\{([^}]*)\}$", u)
                if m:
                    names = [x.strip() for x in m.group(2).split(",")]
                    used = [x for x in names if (x == "[]" and "[]" in text(left)) or (x.split(" as ")[-1] in words) or ("◌" in x and any(t in words for t in x.replace("◌", " ").split()))]
                    if used:
                        lines.append(f"use {m.group(1)}.{{{', '.join(used)}}}")
                else:
                    w = re.match(r"use \S+ as (\S+)$|use (\S+)$", u)
                    name = w and (w.group(1) or w.group(2).split(".")[-1])
                    if name in words:
                        lines.append(u)
            write(p, "\n".join(head).rstrip("\n") + "\n" + "\n".join(lines) + "\n\n" + text(left))
        write(new, "\n".join(head).rstrip("\n") + ("\n" if head else "") + "\n".join(uses + more) + "\n\n" + text(gone))
        moved[k] = {declared(q) for q in left}
        for q in gone:
            listing.append((crate, module, q))
    # module files
    for crate in crates:
        for top in LAWS:
            index = f"crates/{crate}/specs/{top}.antt"
            here = [m for (c, m) in moved if c == crate and m.split(".")[0] == top]
            if not here:
                continue
            lib = f"crates/{crate}/proofs/Lib.antt"
            have = read(lib) if os.path.exists(lib) else ""
            if f"mod {top}\n" not in have:
                write(lib, have.rstrip("\n") + ("\n" if have.strip() else "") + f"pub mod {top}\n")
            speclib = f"crates/{crate}/specs/Lib.antt"
            if os.path.exists(index) and (crate, top) not in moved:
                text = read(index)
                write(f"crates/{crate}/proofs/{top}.antt", text)
                left = [m.split(".")[1] for m in here if moved[(crate, m)]]
                if left:
                    out = [l for l in text.split("\n") if not re.match(r"(pub )?mod (\w+)", l) or re.match(r"(?:pub )?mod (\w+)", l).group(1) in left]
                    out = [l for l in out if not l.startswith("--")]
                    write(index, f"-- Definitions that contracts of inner functions name; what is proved of them is in proofs/{top}.\n" + "\n".join(l for l in out if l.strip()) + "\n")
                else:
                    subprocess.run(["git", "rm", "-qf", index], check=True)
                    write(speclib, re.sub(r"(?m)^(pub )?mod %s\n" % top, "", read(speclib)))
            elif not os.path.exists(index):
                write(speclib, re.sub(r"(?m)^(pub )?mod %s\n" % top, "", read(speclib)))
    # use lines
    def follow(m):
        crate, module = m.group(1), m.group(3)
        if (crate, module) not in moved:
            return m.group(0)
        names = [n.strip() for n in m.group(4).split(",") if n.strip()]
        here = [n for n in names if n.split(" as ")[0] in moved[(crate, module)]]
        gone = [n for n in names if n.split(" as ")[0] not in moved[(crate, module)]]
        out = []
        if here:
            out.append(f"use Rattle.{crate}.specs.{module}.{{{', '.join(here)}}}")
        if gone:
            out.append(f"use Rattle.{crate}.proofs.{module}.{{{', '.join(gone)}}}")
        return "\n".join(out)

    for p in list(walk()):
        text = read(p)
        if p.endswith(".rt"):
            # contracts name only what stays
            continue
        new = USE.sub(follow, text)
        if new != text:
            write(p, new)
    for crate, module, q in listing:
        print(f"{crate} {module}: {declared(q)}")


main()
