#!/usr/bin/env python3
"""In the proof files of functions: names from source keep their underscores in the names that the check makes, and its own words have them.

usage: goal_names.py [ROOT] [CRATE..]
"""
import os
import re
import sys

TOKEN = re.compile(r"[^\s(){}\[\],;.λ:=→↦|\"`]+")
OWN = ["overflow_add", "overflow_sub", "overflow_mul", "overflow_shl", "overflow_shr", "overflow_cast", "overflow_step", "nonzero_div", "nonzero_rem", "slice_bounds", "offset_bounds", "in_err", "in_ok", "in_default", "invariant_of", "type_inv", "yielded_by", "in_some", "in_none", "from_residual"]


def identifiers(crate):
    found = set()
    for folder, dirs, files in os.walk(os.path.join(crate, "src")):
        for f in files:
            if f.endswith(".rt"):
                with open(os.path.join(folder, f), encoding="utf-8") as h:
                    found.update(re.findall(r"\b\w*[A-Za-z0-9]_\w+\b", h.read()))
    return found


def main(root, names):
    top = os.path.join(root, "crates")
    for c in names or sorted(os.listdir(top)):
        words = identifiers(os.path.join(top, c)) | set(OWN)
        table = {w.replace("_", "-"): w for w in words if not w.startswith("_") and not w.endswith("_")}
        if not table:
            continue
        rx = re.compile(r"(?:(?<=-)|^)(" + "|".join(sorted(map(re.escape, table), key=len, reverse=True)) + r")(?=-|$)")
        n = 0
        for folder, dirs, files in os.walk(os.path.join(top, c, "proofs")):
            for f in files:
                if f not in ("Answers.antt", "Invariants.antt", "Choices.antt") or folder.endswith("/proofs"):
                    continue
                p = os.path.join(folder, f)
                with open(p, encoding="utf-8") as h:
                    t = h.read()
                libs = set()
                for path, ns in re.findall(r"use\s+([\w.+·'-]+?)\.\{([^}]*)\}", t, re.S):
                    if "Goals" not in path and "Given" not in path:
                        libs.update(x.strip() for x in ns.split(","))

                def turn(m):
                    w = m.group(0)
                    if "-" not in w or w in libs:
                        return w
                    return rx.sub(lambda k: table[k.group(1)], w)

                new = "\n".join(l if l.lstrip().startswith("use ") and "Goals" not in l and "Given" not in l else TOKEN.sub(turn, l) for l in t.split("\n"))
                if new != t:
                    n += 1
                    with open(p, "w", encoding="utf-8") as h:
                        h.write(new)
        print(c, n, "files")


if __name__ == "__main__":
    main(sys.argv[1] if len(sys.argv) > 1 else ".", sys.argv[2:])
