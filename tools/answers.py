#!/usr/bin/env python3
"""Turns a crate's walks by hand (proofs/F/Proof.antt) into Invariants.antt and Answers.antt.

usage: python3 tools/answers.py NAMES.json          in the crate's folder, after rt check --generated FOLDER --old-names

NAMES.json has each goal's and each step's older and today's name. A path such as `c.before.before.entry.ensures` becomes
`c.entry-kind.ensures`. What it can't turn it says with 'left:'. A cycle of one function (a folder that begins
with +) wants its measure by hand; cycles of more functions are left as they are.
"""
import glob
import json
import os
import re
import sys

ID = r"[^\s(){};,.λ\[\]⌜⌝]+"


def norm(s):  # port.py and respell.py may have renamed a step as if it were a lemma
    return re.sub(r"_lem$", "", s).replace("_", "-").lower()


def defs(text):
    """The top-level items of a file: (name, signature, unfolding lines, clauses)."""
    head, items, cur = [], [], None
    for line in text.split("\n"):
        if line.startswith("use ") or line.startswith("--") or not line.strip():
            if cur is None or line.startswith("use "):
                if line.strip():
                    head.append(line)
                continue
            if line.startswith("--"):
                cur = None
                head.append(line) if False else items.append(("--", [line]))
                continue
            cur[1].append(line)
            continue
        m = re.match(r"^((?:abbrev |unfoldable |pub |private )*)(" + ID + r")\s*:\s", line)
        if m and not line.startswith(" "):
            cur = (m.group(2), [line])
            items.append(cur)
        elif cur is not None:
            cur[1].append(line)
        else:
            cur = ("?", [line])
            items.append(cur)
    return head, items


class Names:
    def __init__(self, d):
        self.d = d
        self.places = {p[0]: p for p in d["places"]}
        self.index = {p[0]: i for i, p in enumerate(d["places"])}
        self.needs = d["needs"]
        self.args = [(a.replace(" ", ""), b.replace(" ", "")) for a, b in d["args"]]

    def ancestors(self, p):
        while p is not None:
            yield p
            p = self.places[p][1]

    def step(self, goal_place, q, rest):
        """What `.f..` of place q is today, for a goal at goal_place: text after `c`, or a place, or None."""
        f, more = rest[0], rest[1:]
        if f == "before":
            parent = self.places[q][1]
            return ("place", parent, more) if parent else None
        if self.places[q][1] is None:
            if f in ("args", "requires", "pre", "ranges", "well_formed", "lifetimes"):
                return ("text", "." + ("requires" if f == "pre" else f), more)
            return None
        old, new = self.places[q][2]
        if norm(f) != norm(old):
            return None
        for a in self.ancestors(goal_place):
            arm = self.d["arms"][self.index[a]]
            if arm:
                best = None
                for sub, oldstep, path in arm[2]:
                    if norm(oldstep) == norm(old) and more[: len(path)] == path and (path or more):
                        if best is None or len(path) > len(best[1]):
                            best = (sub, path)
                if best:
                    return ("text", "." + arm[0] + "." + best[0], more[len(best[1]):])
            if a == q:
                break
        callee = self.places[q][3]
        if callee in self.d["params"] and len(more) > 1 and more[0] in ("auto", "new") and more[1].isdigit():
            more = [more[0], self.d["params"][callee][int(more[1])]] + more[2:]
        return ("text", "." + new, more)


def turn_body(n, place, text, said):
    env = {"c": place}
    dropped = []

    def resolve(m_text):
        parts = m_text.split(".")
        q, rest = env[parts[0]], parts[1:]
        if isinstance(q, tuple):  # a step that an arm names anew, under a name of the proof's own
            q, rest = q[0], list(q[1]) + rest
        while rest:
            r = n.step(place, q, rest)
            if r is None:  # today's walk has other steps in between: a step's name tells where it is
                r = next((s for p in n.ancestors(place) if rest[0] != "before" for s in [n.step(place, p, rest)] if s), None)
            if r is None and rest[0] == "before":
                return ("place", q)
            if r is None:
                said.append(f"{m_text}: no `{rest[0]}` at {q}")
                return None
            if r[0] == "place":
                q, rest = r[1], r[2]
                continue
            out = "c" + r[1] + "".join("." + x for x in r[2])
            for a, b in n.args:
                out = re.sub(re.escape("c" + a) + r"(?![\w-])", "c" + b, out)
            return ("text", out)
        return ("place", q)

    # sequential: go through the text, resolving paths and lets
    out, pos = "", 0
    token = re.compile(r"let (" + ID + r") = (" + ID + r"(?:\." + ID + r")*) in(\s+)|(?<![\w.'-])(" + ID + r")((?:\." + ID + r")*)")
    while True:
        m = token.search(text, pos)
        if not m:
            out += text[pos:]
            break
        out += text[pos:m.start()]
        pos = m.end()
        if m.group(1):
            head = m.group(2).split(".")[0]
            if head in env:
                r = resolve(m.group(2))
                if r and r[0] == "place":
                    env[m.group(1)] = r[1]
                    continue
                last = m.group(2).split(".")[-1]
                arms = [x for a in n.ancestors(place) for x in [n.d["arms"][n.index[a]]] if x]
                if any(norm(s[1]) == norm(last) for a in arms for s in a[2]):
                    env[m.group(1)] = (place, [last])
                    continue
                env.pop(m.group(1), None)
                out += f"let {m.group(1)} = {r[1] if r else m.group(2)} in{m.group(3)}"
            else:
                env.pop(m.group(1), None)
                out += m.group(0)
            continue
        head = m.group(4)
        if head in env and m.group(5):
            r = resolve(head + m.group(5))
            if r and r[0] == "text":
                out += r[1]
            elif r:
                said.append(f"{head}{m.group(5)}: a place by itself")
                out += m.group(0)
            else:
                out += m.group(0)
        else:
            if head in env and head != "c":
                said.append(f"{head}: a place by itself")
            out += m.group(0)
    return out


def main(argv):
    names = json.load(open(argv[0]))
    crate = os.path.basename(os.getcwd())
    # names of src/ keep their underscores
    source = set()
    for f in glob.glob("src/**/*.rt", recursive=True):
        source |= set(re.findall(r"\b([a-z]\w*_\w+)\s*:", open(f, encoding="utf-8").read()))
    dashed = {s.replace("_", "-"): s for s in source}
    for f in sorted(glob.glob("proofs/**/Proof.antt", recursive=True)):
        folder = os.path.dirname(f)
        mod = folder[len("proofs/"):].replace("/", ".")
        key = f"Rattle-{crate}-proofs.{mod}.Lts"
        cycle = "/+" in f
        if cycle:  # of one function: its measure is written by hand
            key += "-" + mod.split("+")[1]
        if key not in names:
            print(f"left: {f}: no {key}")
            continue
        n = Names(names[key])
        text = open(f, encoding="utf-8").read()
        if cycle:
            text = re.sub(r": \(t : ℕ\) → [\w-]+-lts\.Need-(\S+)[^\n]*", r": tie.Need-\1", text)
            text = re.sub(r"\.requires\.1(?!\d)", ".requires", text).replace(".requires.0", ".decreases")
        text = re.sub(r"\.([a-z]\w*(?:-\w+)+)(?![\w-])", lambda k: "." + dashed.get(k.group(1), k.group(1)), text)
        text = re.sub(r"(\.if\d*)\.taken\b", r"\1.true", text)
        text = re.sub(r"(\.if\d*)\.left\b", r"\1.false", text)
        # a condition `!x` is now told of x itself
        text = re.sub(r"not-(?:true|false) " + ID + r"(?:\." + ID + r")* (" + ID + r"(?:\." + ID + r")*\.(?:true|false))(?![\w.-])", r"\1", text)
        head, items = defs(text)
        said = []
        imports = [h for h in head if h.startswith("use ") and not re.search(r"\.(Statement\.\{|Tie|Reads|Kinds|Lts)\b|\{statement\}|borrow\.Fn", h)]
        comment = [h for h in head if h.startswith("--")][:1]
        answers, inv = [], []
        left = {norm(o): (o, new, n.d["asked_at"][i][0]) for i, (o, new) in enumerate(n.needs)}
        for name, lines in items:
            text = "\n".join(lines).rstrip()
            if name == "--":
                continue
            if name.endswith("_spec") or name.endswith("-spec") or (cycle and text.startswith("abbrev ")):
                continue
            m = re.search(r"tie\.(Need-([^\s]+)|(invariant-|decreases-)([^\s]+))", text.split("\n")[0])
            if not m:
                answers.append(text)
                continue
            if m.group(3):
                kind, loop = m.group(3), m.group(4)
                which = next((l for l, _ in zip(n.d["loops"], range(99)) if norm(l[0][0]) == norm(loop)), None)
                if which is None:
                    said.append(f"{name}: no loop {loop}")
                    continue
                ch = n.d["changed"][n.d["loops"].index(which)]
                vs = which[1]
                eq = next(i for i, l in enumerate(text.split("\n")) if l.startswith(name + " ") and "=" in l)
                body = "\n".join(text.split("\n")[eq:])
                params, _, rhs = body[len(name):].partition("=")
                params = params.split()
                olds = [v for v in vs] + [v for v, c in zip(vs, ch) if c]
                if len(params) != len(olds):
                    said.append(f"{name}: {params} for {vs} {ch}")
                    continue
                sub = {}
                for i, (p, v) in enumerate(zip(params, olds)):
                    sub[p] = ("l.initial." if i < len(vs) and ch[i] else "l.") + v
                rhs = re.sub(r"(?<![\w.'-])(" + ID + ")", lambda k: sub.get(k.group(1), k.group(1)), rhs)
                new = kind + which[0][1]
                unf = [l for l in text.split("\n")[1:eq] if l.startswith("unfolding")]
                inv.append("\n".join([f"abbrev pub {new} : goal.{new}"] + unf + [f"{new} l =" + rhs]))
                continue
            key2 = norm(m.group(2).replace("overflow-", "", 1) if m.group(2).startswith("overflow-") else m.group(2)).replace("slice-bounds-", "part-").replace("loop-holds", "loop-init")
            got = left.get(key2) or left.get(norm(m.group(2)))
            if not got:
                if not re.search(r"enum[-_](told|known)", m.group(2)):
                    said.append(f"{name}: no goal {m.group(2)} among {sorted(left)}")
                continue
            _, new, place = got
            L = text.split("\n")
            eq = next(i for i, l in enumerate(L) if i and (l.startswith(name + " ")))
            unf = [l for l in L[1:eq] if l.strip().startswith("unfolding")]
            body = "\n".join(L[eq:])
            mm = re.match(re.escape(name) + (r" (t c)( \S+)? =" if cycle else r" (\S+)( \S+)? ="), body)
            if not mm:
                said.append(f"{name}: odd clause {body[:80]}")
                continue
            rhs = body[mm.end():]
            if rhs.strip() == "search rules":
                continue
            if re.match(r"enum[-_](told|known)", new):
                continue
            rhs = turn_body(n, place, rhs, said)
            answers.append("\n".join([f"pub {new} : goal.{new}"] + unf + [f"{new} {mm.group(1)} =" + rhs]))
        path = f"Rattle.{crate}.proofs.{mod}"
        # a word of the file's own that an invariant cites stands with it
        words = []
        for a in list(answers):
            w = re.match(r"(?:abbrev |unfoldable )?(" + ID + r") :", a)
            if w and not a.startswith("pub ") and any(re.search(r"(?<![\w.'-])" + re.escape(w.group(1)) + r"(?![\w'-])", i) for i in inv):
                answers.remove(a)
                words.append(w.group(1))
                inv.insert(len(words) - 1, re.sub(r"^(abbrev |unfoldable |)", r"\1pub ", a))
        if inv:
            with open(os.path.join(folder, "Invariants.antt"), "w") as o:
                o.write("\n".join(comment + imports + [f"use {path}.Given as goal", ""]) + "\n" + "\n\n".join(inv) + "\n")
            comment = []
        if [a for a in answers if a.startswith("pub ")]:
            with open(os.path.join(folder, "Answers.antt"), "w") as o:
                o.write("\n".join(comment + imports + ([f"use {path}.Invariants.{{{', '.join(words)}}}"] if words else []) + [f"use {path}.Goals as goal", ""]) + "\n" + "\n\n".join(answers) + "\n")
        os.remove(f)
        print(f"{folder}: {len(inv)} for loops, {len(answers)} answers")
        for s in said:
            print(f"left: {folder}: {s}")
    return 0


if __name__ == "__main__":
    raise SystemExit(main(sys.argv[1:]))
