#!/usr/bin/env python3
"""Gives the cycles of functions that call one another short names: `parsing` and `showing`.

usage: short_cycles.py [ROOT]
"""
import os
import re
import sys


def main(root):
    top = os.path.join(root, "crates")
    for c in sorted(os.listdir(top)):
        long = set()
        src = os.path.join(top, c, "src")
        for folder, _, files in os.walk(src):
            for f in files:
                with open(os.path.join(folder, f), encoding="utf-8") as h:
                    long.update(n for n in re.findall(r"#\[cycle\((\w+)\)\]", h.read()) if len(n) > 60)
        for n in long:
            short = "showing" if n.startswith("show_") else "parsing"
            for folder, dirs, files in os.walk(os.path.join(top, c)):
                dirs[:] = [d for d in dirs if d != "out"]
                for f in files:
                    p = os.path.join(folder, f)
                    with open(p, "rb") as h:
                        t = h.read()
                    u = t.replace(n.encode(), short.encode())
                    if u != t:
                        with open(p, "wb") as h:
                            h.write(u)
            for folder, dirs, _ in os.walk(os.path.join(top, c), topdown=False):
                if "+" + n in dirs:
                    os.rename(os.path.join(folder, "+" + n), os.path.join(folder, "+" + short))
            print(c, "cycle", short)


if __name__ == "__main__":
    main(sys.argv[1] if len(sys.argv) > 1 else ".")
