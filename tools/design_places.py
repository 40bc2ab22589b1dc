#!/usr/bin/env python3
"""Counts, in the src/ folders of a commit, the places of the eight points of docs/DESIGN-PASS.md: tools/design_places.py [COMMIT] [-v].

Where COMMIT is left out the working tree is counted. With -v each place is listed. It goes by the text of signatures and lines, and knows nothing of the
language: what it finds is read and judged in the page.
"""
import collections
import re
import subprocess
import sys


def files(commit):
    if commit is None:
        names = subprocess.run(["git", "ls-files", "crates/*/src/*.rt"], capture_output=True, text=True, check=True).stdout.split()
        return {name: open(name, encoding="utf-8").read() for name in names}
    listed = subprocess.run(["git", "ls-tree", "-r", "--name-only", commit, "crates"], capture_output=True, text=True, check=True).stdout.split()
    names = [name for name in listed if re.search(r"/src/.*\.rt$", name)]
    return {name: subprocess.run(["git", "show", f"{commit}:{name}"], capture_output=True, text=True, check=True).stdout for name in names}


def functions(text):
    """Each function's name, signature with its contract, and body."""
    for found in re.finditer(r"^( *)(?:pub(?:\(crate\))? )?(?:extern \"C\" )?fn (\w+)", text, re.M):
        indent = found.group(1)
        end = text.find(f"\n{indent}{{", found.start())
        one_line = text.find(" {\n", found.start())
        start_body = min(x for x in (end, one_line) if x >= 0) if max(end, one_line) >= 0 else len(text)
        close = text.find(f"\n{indent}}}", start_body)
        yield found.group(2), text[found.start():start_body], text[start_body:close]


def lines(all_files, pattern):
    return [f"{name}: {line.strip()}" for name, text in all_files.items() for line in text.splitlines() if re.search(pattern, line)]


def main():
    words = [w for w in sys.argv[1:] if w != "-v"]
    verbose = "-v" in sys.argv
    source = files(words[0] if words else None)
    every = [(name, f, sig, body) for name, text in source.items() for f, sig, body in functions(text)]
    out = collections.OrderedDict()

    out["1a own enums"] = lines(source, r"^ *(pub(\(crate\))? )?enum ")
    out["1b an answer beside a value"] = lines(source, r"pub answer:")
    out["1c arms on bare numbers"] = lines(source, r"^ +\d+ => ")
    out["1d a kind, rule, operation or answer held as a number"] = lines(source, r"\b(kind|operation|rule|number|answer): u(8|16|32|64)")
    out["1e functions that answer false for a refusal"] = [f"{n}: {f}" for n, f, sig, _ in every if re.match(r"do_|act$|store$", f) and "-> bool" in sig]

    by_size = r"(^|_)(one|two|four|eight|16|32|64|narrow|wide)(_|$)"
    out["2a functions named by a size"] = [f"{n}: {f}" for n, f, _, _ in every if re.search(by_size, f)]
    names = collections.defaultdict(list)
    for n, f, _, _ in every:
        if f not in ("main", "from", "try_from", "bytes", "number"):
            names[f].append(n)
    out["2b one name in two crates"] = [f"{f}: {', '.join(ns)}" for f, ns in names.items() if len({n.split('/')[1] for n in ns}) > 1]
    bodies = collections.defaultdict(list)
    for n, f, _, body in every:
        shape = re.sub(r"\w+", "w", re.sub(r"\s+", " ", re.sub(r"//.*", "", body)))
        if len(shape) > 40:
            bodies[shape].append(f"{n.split('/')[1]}::{f}")
    out["2c bodies of one shape"] = [", ".join(fs) for fs in bodies.values() if len(fs) > 1]
    out["2d one constant in two files"] = [
        f"{c}: {', '.join(ns)}" for c, ns in
        ((c, [n for n, t in source.items() if re.search(rf"const {c}:", t)]) for c in sorted({m for t in source.values() for m in re.findall(r"const ([A-Z_0-9]+):", t)}))
        if len(ns) > 1]

    out["3a while and loop"] = lines(source, r"^ +(while|loop) ")
    out["3b for over numbers"] = lines(source, r"^ +for .* in .*\.\.")

    out["4a a field taken out to compare"] = lines(source, r"\.0 (==|!=|<|<=) ")
    out["4b conversions by name"] = [f"{n}: {f}" for n, f, _, _ in every if re.match(r"(of_[a-z]+|width_bytes|width_of|is_width|start_width|known|wide(_\d+)?|vector_of|copy_vector|value_of)$", f)]
    out["4c minimum, difference or equality written out"] = [
        f"{n}: {f}" for n, f, _, body in every
        if re.search(r"if (\w+(\.\d)?) < (\w+) \{\s*(return )?(\1|0|\3)\b", body) and len(body) < 160]

    together = {
        "head and nodes": (r"\bhead: &", r"\bnodes: &"), "nodes and left inputs": (r"\bnodes: &", r"\blefts?: &"), "two lengths": (r"\bwork_len:", r"\btable_len:"),
        "three sections": (r"\bprologue: &", r"\bbody: &", r"\bepilogue: &"), "two windows": (r"\bwork: &", r"\btable: &"), "registers and work": (r"\bregisters: &", r"\bwork: &"),
        "text and place": (r"\btext: &", r"\b(at|place): u"), "section and row": (r"\bsection: &mut", r"\brow: u"),
    }
    for what, patterns in together.items():
        out[f"5a {what}"] = [f"{n}: {f}" for n, f, sig, _ in every if all(re.search(p, sig) for p in patterns)]
    facts = collections.defaultdict(list)
    for n, f, sig, _ in every:
        for clause in re.findall(r"requires[^{]*\{(.*)\}", sig):
            for part in re.split(r" × ", clause.strip()):
                facts[re.sub(r"[()]", "", part.strip()).split(" ")[0] if part.strip()[:1].isupper() else part.strip("() ")].append(f"{n.split('/')[1]}::{f}")
    out["5b facts in three contracts or more"] = [f"{fact}: {', '.join(fs)}" for fact, fs in facts.items() if len(fs) > 2]

    out["6 arrays of a fixed size in signatures"] = [f"{n}: {f}" for n, f, sig, _ in every if re.search(r"\[\w+; ?\w+\]", sig)]
    out["7 a chain of tests or a match on which step to run"] = [f"{n}: {f}" for n, f, _, body in every if len(re.findall(r"\bif (operation|kind|rule) ", body)) > 1 or re.search(r"match (kind|rule|operation)\b", body)]

    for what, places in out.items():
        print(f"{len(places):4}  {what}")
        if verbose:
            for place in places:
                print(f"        {place}")


main()
