#!/usr/bin/env python3
"""Respells the repository's own names in clauses, definitions and lemmas as the installed Rattle's library spells names.

usage: python3 tools/respell.py        at the top of the repository, once, after port.py

Definitions, lemmas, fields, constructors and what binds a name in a term are in snake case, types in camel case. Two names that would
fall together are an error, and so is one that would become a word that is in use. Functions, file names and strings keep theirs.
"""

import os
import re
import sys

CRATES = [l.split(":")[0].strip() for l in open("crates.txt", encoding="utf-8") if l.strip() and not l.startswith("#")]
OWN_MODULE = re.compile(r"Rattle\.(" + "|".join(CRATES) + r")\.")
TOKEN = re.compile(r"[^\s(){}\[\];,.@\"«»`]+")
HEAD = re.compile(r"^\s*(?:(?:unfoldable|abbrev|pub|data|record|ruleset|open) )*([^\s(){}\[\]:;,.]+)(?: [^:]*)? : ")
TYPE = re.compile(r"^\s*(?:(?:abbrev|pub) )*(?:data|record|ruleset) ([^\s(){}\[\]:;,.]+)")
FUNCTION = re.compile(r"/proofs/.+/Proof\.antt$")
# bound in terms
LOCALS = """an-input an-operator an-output array-only back-putting by-else else-rule end-rule few-more fill-rule for-rule if-rule in-ledger in-opened is-p is-q
ledger-is move-rule no-array no-choice no-rule no-way' open-else r-is read-rule same-array same-cell same-form same-held same-ledger₁ same-ledger₂ same-loops₁
same-loops₂ same-refusal standard-input stream-only stream-running use-rule write-rule x-is zero-passes""".split()


def texts(*ends):
    for folder, dirs, files in os.walk("crates"):
        dirs[:] = sorted(d for d in dirs if d != "out")
        for f in sorted(files):
            if f.endswith(ends):
                yield os.path.join(folder, f)


def read(path):
    with open(path, encoding="utf-8", newline="") as f:
        return f.read()


def code(line):
    """A line without its comment."""
    return "" if line.lstrip().startswith("--") else re.sub(r" -- .*", "", line)


def declared():
    specs, proofs, library, used = set(), set(), set(), set()
    for path in texts(".antt"):
        for line in read(path).split("\n"):
            line = code(line)
            imports = re.match(r"use (\S+?)\.\{(.*)\}", line)
            if imports:
                if not OWN_MODULE.match(imports.group(1)):
                    library |= {w.strip().split(" ")[0] for w in imports.group(2).split(",")}
            if re.match(r"\s*(pub )?use ", line):
                continue
            used |= set(TOKEN.findall(line))
            if FUNCTION.search(path):
                continue
            for found in (HEAD.match(line), TYPE.match(line)):
                if found:
                    (specs if "/specs/" in path else proofs).add(found.group(1))
    return specs, proofs, library, used


def snake(name):
    return name.replace("-", "_")


def camel(name):
    return "".join(w[:1].upper() + w[1:] for w in name.split("-"))


def spelling(name):
    return camel(name) if re.match(r"[A-Z]", name) else snake(name)


def table():
    specs, proofs, library, used = declared()
    turned = {}
    for name in sorted(specs | proofs | set(LOCALS)):
        if "-" not in name or name in library or re.search(r"[-◌]ℤ|^-|◌", name):
            continue
        new = spelling(name)
        if new != name:
            turned[name] = new
    taken = {}
    for old, new in turned.items():
        taken.setdefault(new, []).append(old)
    together = False
    for new, olds in taken.items():
        others = [n for n in (used | specs | proofs | library) if n == new]
        if len(olds) > 1 or others:
            together = True
            print("falls together:", new, olds, others)
    return turned, together


def turn(text, turned, comments):
    def word(m):
        return turned.get(m.group(0), m.group(0))

    out = []
    for line in text.split("\n"):
        at = 0
        comment = re.search(comments, line)
        body, rest = (line[: comment.start()], line[comment.start() :]) if comment else (line, "")
        # what Rattle makes for a proof keeps the name that it has
        body = re.sub(r"tie\.\S+|" + TOKEN.pattern, lambda m: m.group(0) if m.group(0).startswith("tie.") else word(m), body)
        rest = re.sub(r"`[^`]*`", lambda m: TOKEN.sub(word, m.group(0)), rest)
        out.append(body + rest)
    return "\n".join(out)


def main():
    turned, together = table()
    if together:
        return 1
    for path in texts(".antt", ".rt"):
        old = read(path)
        new = turn(old, turned, r"(?<!\S)--(?!\S)" if path.endswith(".antt") else r"//")
        if new != old:
            with open(path, "w", encoding="utf-8", newline="") as f:
                f.write(new)
    for path in [*texts(".edit"), *(os.path.join(d, f) for top in ("tests/edits", "tests/traps") for d, _, fs in os.walk(top) for f in fs if f.endswith(".edit"))]:
        old = read(path)
        new = "\n".join(turn(l, turned, r"^#") if re.match(r"(old|new): ", l) else l for l in old.split("\n"))
        if new != old:
            with open(path, "w", encoding="utf-8", newline="") as f:
                f.write(new)
    print(f"respell: {len(turned)} names")
    return 0


if __name__ == "__main__":
    sys.exit(main())
