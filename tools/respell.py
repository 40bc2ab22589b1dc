#!/usr/bin/env python3
"""Brings this repository's own definitions and lemmas to the spelling of today's Rattle, after port.py.

usage: python3 tools/respell.py          at the top of the repository, once, right after port.py
       python3 tools/respell.py --names  prints each own name whose spelling changes, old and new

Words are in snake case (a camel hump or a dash becomes an underscore; a dash stays beside a type's name), types and modules keep
their camel case, and a lemma that would fall together with a definition gets `_lem`. Names of src/ are not touched: there only
`ghost use` lines and clauses have such names. The texts of must-fail edits follow the files that they change.
"""
import collections
import glob
import re
import sys

# lemmas whose new name a definition has
BESIDE_A_DEFINITION = {
    n: n.replace("-", "_") + "_lem"
    for n in "op-offset width-most placed-figures width-back of-plan length-of full-most splat-value is-at head-of table-left placed-tree root_kept".split()
}
WORD = r"[^\s(){};,.λ⌜⌝\[\]]+"
CAMEL = re.compile(r"^[a-z]+[A-Za-z0-9_]*[a-z0-9][A-Z]")
EDITS = [  # what port.py does to the files, for the texts of edits
    (r"\bgetD\b", "get_or"), (r"\btagOf\b", "tag_of"), (r"\bthe-type\b", "the_type"), (r"\bthe-variants\b", "TheVariants"),
    (r"_([≡+\-*/%<≤^]|&&|\|\||∷|\+\+|∙)_", r"◌\1◌"), (r"\bneeds\b", "rules"), (r"′", "'"),
]


def antt_files():
    return sorted(glob.glob("crates/*/specs/**/*.antt", recursive=True) + glob.glob("crates/*/proofs/**/*.antt", recursive=True))


def own_names():
    """The names that the files of specs/ and the lemma files of proofs/ declare, with what each is."""
    found, fields = set(), set()
    for f in sorted(glob.glob("crates/*/specs/*.antt") + glob.glob("crates/*/proofs/*.antt")):
        in_record = None
        for line in open(f, encoding="utf-8").read().split("\n"):
            indent = len(line) - len(line.lstrip())
            if line.strip() and in_record is not None and indent <= in_record:
                in_record = None
            if re.match(r"\s*(pub\s+)?(abbrev\s+)?(pub\s+)?(record|data)\b.*\bwhere\b", line):
                in_record = indent
            m = re.match(r"^\s*((?:(?:abbrev|unfoldable|pub)\s+)*)(data |record )?(" + WORD.replace(".", ":") + r")\s*(?::(?:\s|$)|\()", line)
            if not m or line.strip().startswith("--") or m.group(3) in ("use", "module", "open", "unfolding", "mod", "let", "in", "elim", "record"):
                continue
            if m.group(1) or m.group(2) or re.match(r"^\s*" + re.escape(m.group(3)) + " : ", line):
                found.add(m.group(3))
                if in_record is not None and indent > in_record:
                    fields.add(m.group(3))
    return found, fields


def snake(part):
    if part[:1].islower() and re.search("[A-Z]", part):
        part = part.replace("getD", "getOr")
        return re.sub(r"([a-z0-9])([A-Z]+)", r"\1_\2", part).lower()
    return part


def new_name(name):
    if name in BESIDE_A_DEFINITION:
        return BESIDE_A_DEFINITION[name]
    parts = [snake(p) for p in name.split("-")]
    out = parts[0]
    for a, b in zip(parts, parts[1:]):
        out += ("-" if a[:1].isupper() or b[:1].isupper() else "_") + b
    return out


def turn(text, dashed, fields, ghost_only=False):
    """The text with its own names respelled, comments aside; in a .rt file no dashed name is looked for."""
    out, before = [], ""
    for piece in re.split("(" + WORD + ")", text):
        new = piece
        if re.fullmatch(WORD, piece):
            after_dot = out and out[-1].endswith(".")
            if "::" not in piece and CAMEL.match(piece) and "-" not in piece and "'" not in piece[:1]:
                new = new_name(piece)
            elif piece in dashed and not ghost_only and (not after_dot or before[:1].isupper() or piece in fields):
                new = new_name(piece)
            before = piece
        out.append(new)
    return "".join(out)


def turn_line(line, dashed, fields):
    code, mark, comment = line.partition("--") if line.lstrip().startswith("--") or "  -- " in line else (line, "", "")
    return turn(code, dashed, fields) + mark + turn(comment, {n for n in dashed if False}, fields)


def main(argv):
    found, fields = own_names()
    dashed = {n for n in found if new_name(n) != n}
    if "--names" in argv:
        for n in sorted(dashed):
            print(n, new_name(n))
        return 0
    for f in antt_files():
        old = open(f, encoding="utf-8").read()
        words = collections.Counter(re.findall(WORD, "\n".join(l for l in old.split("\n") if not l.lstrip().startswith("--"))))
        for n in sorted(dashed & set(words)):
            if words[new_name(n)]:
                print(f"look: {f}: {n} becomes {new_name(n)}, which stands there already")
        new = "\n".join(turn_line(l, dashed, fields) for l in old.split("\n"))
        if new != old:
            open(f, "w", encoding="utf-8").write(new)
    for f in sorted(glob.glob("crates/*/src/**/*.rt", recursive=True)):
        old = open(f, encoding="utf-8").read()
        new = "\n".join(l if l.lstrip().startswith("//") else turn(l, set(), set(), True) for l in old.split("\n"))
        if new != old:
            open(f, "w", encoding="utf-8").write(new)
    for f in sorted(glob.glob("crates/*/must-fail/*.edit")):
        old = open(f, encoding="utf-8").read()
        lines = []
        for l in old.split("\n"):
            if re.match(r"(old|new):", l):
                for a, b in EDITS:
                    l = re.sub(a, b, l)
                l = re.sub(r"(?<=[\w)']) \.(?=[a-z0-9A-Z])", ".", l)
                l = turn(l, dashed, fields)
            lines.append(l)
        if "\n".join(lines) != old:
            open(f, "w", encoding="utf-8").write("\n".join(lines))
    return 0


if __name__ == "__main__":
    raise SystemExit(main(sys.argv[1:]))
