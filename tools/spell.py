#!/usr/bin/env python3
"""Brings the repository's own definitions and lemmas to one spelling: words in snake case, types in camel case.

usage: python3 tools/spell.py          at the top of the repository, once, after port.py
       python3 tools/spell.py --list   prints the names and what each becomes, and changes nothing

A name counts as the repository's own where a file of specs/ or proofs/ declares it, and it is no goal's answer.
Comments, strings, the names of functions in src/, inputs and outputs stay as they are.
"""
import os
import re
import sys

TOKEN = re.compile(r"[^\s(){}.,;«»\[\]|\"]+")
DECLARED = re.compile(r"^\s*(?:abbrev |unfoldable )?(?:mutual )?(?:pub )?((?:[^\s:(){}.,=]+ )+): (.*)$")
BOUND = re.compile(r"[({]\s*((?:[^\s:(){}.,=]+ )+):")
# Types, whose words get capitals, and a name with a word that the library renamed.
SPECIAL = {"side-ok": "SideOk", "So-far": "SoFar", "size-getD": "size_get_or"}


def files(ext):
    for folder, dirs, names in os.walk("crates"):
        dirs[:] = sorted(d for d in dirs if d != "out")
        for f in sorted(names):
            if f.endswith(ext):
                yield os.path.join(folder, f)


def cut(line, mark):
    """The code of a line and its comment."""
    i = line.find(mark)
    return (line, "") if i < 0 else (line[:i], line[i:])


def own():
    names = set()
    for path in files(".antt"):
        with open(path, encoding="utf-8") as f:
            for line in f:
                code = cut(line.rstrip("\n"), "-- ")[0]
                for m in BOUND.finditer(code):
                    names.update(m.group(1).split())
                m = DECLARED.match(code)
                if not m or m.group(2).startswith("goal.") or m.group(1).split()[0] in ("use", "let"):
                    continue
                names.update(m.group(1).split())
    return {n for n in names if re.search(r"[^-]-[^-]", n) and re.fullmatch(r"[A-Za-z][\w'-]*", n)}


def spelled(name):
    return SPECIAL.get(name) or name.replace("-", "_")


def turn(code, table):
    return TOKEN.sub(lambda m: table.get(m.group(0), m.group(0)), code)


def main():
    table = {n: spelled(n) for n in sorted(own())}
    if "--list" in sys.argv:
        for n in table:
            print(n, table[n])
        return
    for path in files(".antt"):
        with open(path, encoding="utf-8") as f:
            old = f.read()
        new = "\n".join("".join((turn(c, table), r)) for c, r in (cut(l, "-- ") for l in old.split("\n")))
        if new != old:
            with open(path, "w", encoding="utf-8") as f:
                f.write(new)
    for path in files(".rt"):
        with open(path, encoding="utf-8") as f:
            old = f.read()
        out, clause = [], False
        for line in old.split("\n"):
            c, r = cut(line, "//")
            s = c.strip()
            # Names stand in clauses, in ghost items and in attributes.
            if re.match(r"(ghost\b|requires\b|ensures\b|#!?\[tactic)", s):
                clause = True
            if clause and '"' not in c:
                c = turn(c, table)
            if clause and (s.endswith("}") or s.endswith("};") or s.endswith("]")):
                clause = False
            out.append(c + r)
        new = "\n".join(out)
        if new != old:
            with open(path, "w", encoding="utf-8") as f:
                f.write(new)


if __name__ == "__main__":
    main()
