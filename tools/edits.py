#!/usr/bin/env python3
"""Fits must-fail edits that replaced a line `use PATH::NAME;` to the grouped imports of today's layout, and lists edits that don't stand.

usage: python3 tools/edits.py [--write] CRATE..     at the top of the repository
"""
import glob
import re
import sys


def main(argv):
    write = "--write" in argv
    for c in [a for a in argv if not a.startswith("--")]:
        for e in sorted(glob.glob(f"crates/{c}/must-fail/*.edit")):
            lines = open(e, encoding="utf-8").read().split("\n")
            target = None
            texts = {}
            changed = False
            for i, l in enumerate(lines):
                if l.startswith("file:"):
                    target = f"crates/{c}/" + l[5:].strip()
                    if target not in texts:
                        texts[target] = open(target, encoding="utf-8").read()
                elif l.startswith("old:"):
                    old = l[4:].strip()
                    n = texts[target].count(old)
                    new = next(x for x in lines[i + 1:] if x.startswith("new:"))[4:].strip()
                    if n != 1:
                        m = re.fullmatch(r"use ([\w:]+)::(\w+);", old)
                        g = m and re.search(r"^use " + re.escape(m.group(1)) + r"::\{([^}]*\b" + m.group(2) + r"\b[^}]*)\};", texts[target], re.M)
                        if g and write:
                            rest = [x.strip() for x in g.group(1).split(",") if x.strip() and x.strip() != m.group(2)]
                            group = rest[0] if len(rest) == 1 else "{" + ", ".join(rest) + "}"
                            one = " ".join(g.group(0).split())
                            if one != g.group(0):
                                print(f"{e}: the import stands over several lines")
                                continue
                            lines[i] = "old: " + one
                            j = next(k for k in range(i + 1, len(lines)) if lines[k].startswith("new:"))
                            lines[j] = f"new: use {m.group(1)}::{group}; {new}"
                            old, new, changed = one, lines[j][5:], True
                        else:
                            print(f"{e}: stands {n} times: {old}")
                            continue
                    texts[target] = texts[target].replace(old, new, 1)
            if changed:
                open(e, "w", encoding="utf-8").write("\n".join(lines))
                print(f"{e}: fitted to a grouped import")
    return 0


if __name__ == "__main__":
    raise SystemExit(main(sys.argv[1:]))
