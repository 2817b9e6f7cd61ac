#!/usr/bin/env python3
"""Brings the names of definitions, lemmas and fields to snake case, and those of types to upper camel case.

usage: python3 tools/respell.py [--list]      at the top of the repository; --list prints the renamings and changes nothing

Names from the sources, names that the library has too, names of goals, strings and comments stay as they are.
"""

import os
import re
import sys
from collections import defaultdict

LETTER = r"A-Za-z0-9_'\u2080-\u209c\u2115\u2124\u00b7+*-"
TOKEN = re.compile(rf"(?<![{LETTER}])[A-Za-z_][{LETTER}]*")
DEFINED = re.compile(r"^\s*(?:(?:pub|abbrev|unfoldable|record|data|mutual)\s+)*([A-Za-z_][^\s{}();]*)\s*(?:\{[^:]*:[^}]*\}\s*|\([^:]*:[^)]*\)\s*)*:(?!=)(.*)$")
HEADED = re.compile(r"^\s*(?:pub\s+)?(?:record|data)\s+(?:pub\s+)?([A-Za-z_][^\s{}();:]*)")
IMPORT = re.compile(r"use\s+((?:Rattle\.std|mathlib|Prim|lib|borrow|denote|logic)[^\s;{]*)\.\{([^}]*)\}", re.S)


def texts(root, *ends):
    for folder, dirs, files in os.walk(root):
        dirs[:] = sorted(d for d in dirs if d not in ("out", ".git", "target"))
        for name in sorted(files):
            if name.endswith(ends):
                yield os.path.join(folder, name)


def read(path):
    with open(path, encoding="utf-8") as f:
        return f.read()


def is_goal(path, rest):
    return os.path.basename(path) in ("Answers.antt", "Invariants.antt", "Choices.antt", "Proof.antt") and re.match(r"\s*goals?\.", rest)


def defined(files):
    """The names that the repository defines, with the files that do, and those that name goals."""
    own, goals = defaultdict(set), set()
    for path in files:
        for line in read(path).splitlines():
            if line.lstrip().startswith(("use ", "--", "ghost use", "module")):
                continue
            m = HEADED.match(line) or DEFINED.match(line)
            if not m:
                continue
            rest = m.group(2) if m.re is DEFINED else ""
            if is_goal(path, rest):
                goals.add(m.group(1))
            else:
                own[m.group(1)].add(path)
    return own, goals


def of_library(files):
    found = set()
    for path in files:
        for _, names in IMPORT.findall(read(path)):
            for name in names.split(","):
                found.add(name.split(" as ")[0].strip())
    return found


def respelled(name):
    if name[0].isupper():
        head, *tail = name.split("-")
        return head + "".join(w[:1].upper() + w[1:] for w in tail)
    return name.replace("-", "_")


def renamings(root):
    proofs = list(texts(os.path.join(root, "crates"), ".antt"))
    sources = list(texts(os.path.join(root, "crates"), ".rt"))
    own, goals = defined(proofs)
    kept = of_library(proofs + sources) | goals
    new = {n: respelled(n) for n in own if "-" in n and n not in kept and not n.startswith(("invariant-", "decreases-"))}
    taken = defaultdict(set)
    for n in own:
        taken[new.get(n, n)].add(n)
    together = {k: v for k, v in taken.items() if len(v) > 1}
    return new, kept & {n for n in own if "-" in n}, together


PLAIN = re.compile(r'b?"(?:[^"\\\n]|\\.)*"|//[^\n]*|(?<!\S)--(?!\S)[^\n]*')


def turn(text, new):
    """The text with its names respelled, but for strings and comments; what follows c., w. or l. is a step or a variable of a function, not a name of ours."""
    plain = [(m.start(), m.end()) for m in PLAIN.finditer(text)]

    def one(m):
        if any(a <= m.start() < b for a, b in plain):
            return m.group(0)
        if re.search(r"(?<![A-Za-z0-9_'])[cwl]\.$", text[: m.start()][-3:]):
            return m.group(0)
        return new.get(m.group(0), m.group(0))

    return TOKEN.sub(one, text)


def main():
    root = os.getcwd()
    new, kept, together = renamings(root)
    for k, v in sorted(together.items()):
        print("falls together:", k, "of", ", ".join(sorted(v)))
    for n in sorted(kept):
        print("kept:", n)
    if "--list" in sys.argv:
        for n in sorted(new):
            print(n, "->", new[n])
        return
    files = list(texts(os.path.join(root, "crates"), ".antt", ".rt"))
    pages = [p for p in texts(os.path.join(root, "docs"), ".md") if not os.path.basename(p).startswith("PORT")] + [os.path.join(root, "README.md")]
    for path in files + pages:
        old = read(path)
        turned = turn(old, new) if path in files else re.sub(r"`([^`\n]+)`", lambda q: "`" + turn(q.group(1), new) + "`", old)
        if turned != old:
            with open(path, "w", encoding="utf-8") as f:
                f.write(turned)
    print(len(new), "names respelled")


main()
