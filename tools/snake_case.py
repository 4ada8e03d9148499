#!/usr/bin/env python3
"""Brings the names of the repository's own definitions and lemmas to one spelling: words in snake case, types in camel case.

usage: snake_case.py [ROOT]      rewrites every .antt, .rt and .edit file below ROOT/crates, and says which names it could not turn

A name is turned where a file below specs/ or proofs/ declares it: a definition, a lemma, a constructor, a field, a type. Names that the
toolchain makes (goals, steps, their fields) and names of its libraries stay: of these a dash joins the parts.
"""

import os
import re
import sys

WORD = re.compile(r"[^\s(){}\[\],;.λ:=→↦|\"`]+")
NAME = r"[A-Za-z][^\s(){}\[\],;.λ:=→↦|\"`]*"
DECL = re.compile(r"^\s*((?:(?:abbrev|unfoldable|pub|hint|private|instance)\s+)*)((?:record|data|module|ruleset)\s+)?(" + NAME + r")((?:\s+" + NAME + r")*)\s*(?=[({:]|\s:)")
IMPORT = re.compile(r"(?:^|\n)\s*(?:ghost )?(?:pub )?use\s+([\w.+·'-]+?)\.\{([^}]*)\}", re.S)
GOAL = re.compile(r"^\s*(?:abbrev )?(?:pub )?(" + NAME + r")\s*:\s*(?:goal|need|given)\.", re.M)


def texts(root, ends):
    for folder, dirs, files in os.walk(os.path.join(root, "crates")):
        dirs[:] = sorted(d for d in dirs if d not in ("out", "target", ".git"))
        for f in sorted(files):
            if f.endswith(ends):
                yield os.path.join(folder, f)


def read(p):
    with open(p, encoding="utf-8") as f:
        return f.read()


def declared(text):
    """The names that a file of antt declares, types apart from others."""
    words, types = set(), set()
    goals = set(GOAL.findall(text))
    for line in text.split("\n"):
        if line.lstrip().startswith(("--", "use ", "pub use ", "mod ", "pub mod ", "unfolding ")):
            continue
        m = DECL.match(line)
        if not m:
            continue
        for n in [m.group(3)] + m.group(4).split():
            if "-" in n and n not in goals:
                (types if n[0].isupper() else words).add(n)
    return words, types


def camel(n):
    return "".join(part[:1].upper() + part[1:] for part in n.split("-"))


def rust_names(root):
    """The names of the functions of src/, of which goal files speak as well."""
    found = set()
    for p in texts(root, (".rt",)):
        found.update(re.findall(r"\bfn (\w+)", read(p)))
    return found


def main(root):
    words, types, foreign, spoken = set(), set(), {}, set()
    functions = rust_names(root)
    for p in texts(root, (".antt",)):
        t = read(p)
        spoken.update(WORD.findall(re.sub(r"(?m)^\s*(pub )?use [^{]*", "", t)))
        w, c = declared(t)
        words |= w
        types |= c
    own = set(os.listdir(os.path.join(root, "crates")))
    # names of libraries and of goals, by file
    for p in texts(root, (".antt", ".rt")):
        for path, names in IMPORT.findall(read(p)):
            parts = path.split(".")
            if parts[0] == "Rattle" and len(parts) > 1 and parts[1] in own and "Goals" not in parts and "Given" not in parts:
                continue
            for n in names.split(","):
                n = n.strip().split(" as ")[-1].strip()
                if "-" in n:
                    foreign.setdefault(n, set()).add(p)
    turned = {n: n.replace("-", "_") for n in words if "_" not in n}
    turned |= {n: camel(n) for n in types if len(n.split("-")[0]) > 1}
    for n in sorted(turned):
        if turned[n] in spoken:
            print(f"falls together: {n} and {turned[n]}")
    for n in sorted(n for n in turned if n in foreign):
        print(f"also a library's name: {n} in {len(foreign[n])} files")
    changed = 0
    for p in texts(root, (".antt", ".rt", ".edit")):
        t = read(p)
        skip = {n for n in turned if p in foreign.get(n, ())}
        goals = set(GOAL.findall(t)) if p.endswith(".antt") else set()
        of_function = bool(re.search(r"/proofs/.+/(Answers|Invariants|Choices|Proof)[.]antt$", p))

        def turn(m):
            n = m.group(0)
            if n not in turned or n in skip or n in goals:
                return n
            before = t[max(0, m.start() - 200) : m.start()]
            if of_function and before.endswith("."):
                chain = re.search(r"([^\s(){}\[\],;\u03bb:=\u2192\u21a6|\"`]+)\.$", before).group(1).split(".")
                if chain[0] in ("c", "w", "l", "goal", "need", "given") and len(chain) == 1 and turned[n] not in functions:
                    print(f"look: {os.path.relpath(p, root)}: {chain[0]}.{n}")
                    return n
            return turned[n]

        new = WORD.sub(turn, t)
        if new != t:
            changed += 1
            with open(p, "w", encoding="utf-8") as f:
                f.write(new)
    print(f"{len(turned)} names, {changed} files")


if __name__ == "__main__":
    main(sys.argv[1] if len(sys.argv) > 1 else ".")
