#!/usr/bin/env python3
"""Respells this repository's own names in specs/, proofs/ and the clauses of src/: snake case for definitions, lemmas, fields and
constructors, camel case for what begins with a capital and is an alias of a variant.

usage: python3 tools/names.py [FOLDER]     once, after the kit's port.py, at the top of the repository

A name is the repository's own if a file of specs/ or proofs/ declares it. Names that Rattle makes (goals, steps, what Tie has) and the
library's are left alone, as are the text of code, strings and what must-fail edits say.
"""

import os
import re
import sys

TOKEN = re.compile(r"[^\s(){}\[\],;.\"`←]+")
DECLARED = re.compile(r"\s*(?:(?:unfoldable|abbrev|pub|data|record|ruleset|infixl?r?) )*([^\s:(){}\[\],;.]+)(?: [^:=]*?)? : (.*)")
ALIAS = re.compile(r"\bas ([^\s(){}\[\],;.]+)")
USE = re.compile(r"\s*(?:ghost )?(?:pub )?use ([^\s{};]+?)\.\{(.*)\}")
# spellings that would be those of two things
OTHERWISE = {
    "nodesOf": "nodes_of_forest",
}


def files(root):
    for folder, dirs, names in os.walk(os.path.join(root, "crates")):
        dirs[:] = sorted(d for d in dirs if d not in ("out", ".git"))
        for f in sorted(names):
            if f.endswith((".rt", ".antt")):
                yield os.path.join(folder, f)


def of_function(path):
    """Is it the proof of a function, proofs/F/..? There most names are those that Rattle makes."""
    return re.search(r"/proofs/.+/", path) is not None


def snake(name):
    if name in OTHERWISE:
        return OTHERWISE[name]
    if re.fullmatch(r"[A-Z]+(?:-[A-Z]+)*", name):
        return name.replace("-", "_")
    if name[0].isupper():
        return "".join(p[:1].upper() + p[1:] for p in name.split("-"))
    name = re.sub(r"(?<=[a-z])([A-Z])", lambda m: "_" + m.group(1).lower(), name)
    return name.replace("-", "_")


def main(root):
    ours = {d for d in os.listdir(os.path.join(root, "crates"))}
    text = {p: open(p, encoding="utf-8").read() for p in files(root)}

    def own_path(path):
        parts = path.split(".")
        return parts[0] == "Rattle" and len(parts) > 1 and parts[1] in ours

    declared, foreign = set(), {}
    for p, t in text.items():
        foreign[p] = set()
        for line in t.split("\n"):
            use = USE.match(line)
            if use and not own_path(use.group(1)):
                foreign[p] |= {n.strip().split(" as ")[-1] for n in use.group(2).split(",")}
            if use:
                declared |= {n for n in ALIAS.findall(use.group(2))}
            if not p.endswith(".antt"):
                continue
            d = DECLARED.match(line)
            if d and not (of_function(p) and re.match(r"(?:tie|goal|\w*-?tie|lts|array-lts)\.", d.group(2))):
                declared.add(d.group(1))
    turn = {}
    for n in sorted(declared):
        if re.fullmatch(r"[^\W\d][\w'-]*", n.replace("₀", "").replace("₁", "").replace("₂", "").replace("₃", "")) and snake(n) != n and not re.match(r".*-?(?:invariant|decreases)-loop|.*Inv-loop|loop-|returns-", n):
            turn[n] = snake(n)
    met = {}
    for n, m in turn.items():
        met.setdefault(m, []).append(n)
    for m, ns in sorted(met.items()):
        ns += [m] if m in declared else []
        if len(ns) > 1:
            print(f"names.py: {', '.join(ns)} fall together as {m}")
    changed = 0
    for p, t in text.items():
        out = []
        for line in t.split("\n"):
            code = p.endswith(".rt") and not re.search(r"ghost|requires|ensures|≡|→|^\s*//|λ", line)
            if code:
                out.append(line)
                continue
            use = USE.match(line)
            if use and not own_path(use.group(1)):
                out.append(re.sub(r"\bas ([^\s,}]+)", lambda m: "as " + turn.get(m.group(1), m.group(1)), line))
                continue
            mended, last = [], 0
            comment = re.search(r"(?:^|\s)(?:--|//)(?:\s|$)", line)
            for m in TOKEN.finditer(line):
                if comment and m.start() >= comment.start() and line[m.start() - 1 : m.start()] != "`":
                    continue
                word = m.group(0)
                if word not in turn or word in foreign[p]:
                    continue
                before = re.search(r"([\w.·-]+)\.$", line[: m.start()])
                if before and before.group(1).split(".")[0] in ("lib", "native", "mathlib", "borrow", "mir", "Prim", "tie"):
                    continue
                if before and before.group(1).startswith("Rattle.") and not own_path(before.group(1)):
                    continue
                mended.append(line[last : m.start()] + turn[word])
                last = m.end()
            out.append("".join(mended) + line[last:])
        new = "\n".join(out)
        if new != t:
            changed += 1
            with open(p, "w", encoding="utf-8") as f:
                f.write(new)
    print(f"names.py: {len(turn)} names, {changed} files")


if __name__ == "__main__":
    main(sys.argv[1] if len(sys.argv) > 1 else ".")
