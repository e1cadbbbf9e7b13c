#!/usr/bin/env python3
"""Spells the repository's own definitions, fields, constructors and lemmas in snake case: usage: snake_case.py [ROOT]

Run once, at the top of the repository, right after the toolchain's port.py. In each .rt and .antt file of crates/ a name with
a dash gets underscores, but for
- a name that the file imports from the toolchain, or names by its path there: the lemmas there keep their dashes,
- in a file Proof.antt, the names that the toolchain makes (goals, places, fields of places), and the file's own.
Strings stay, and comments but for names in backquotes. A label of a clause that would have the name of a word that its clauses
cite is renamed. What would fall together with another name of the same file is printed, and nothing is written then.
"""
import os
import re
import sys

LABELS = {"ensures scratch_after {": "ensures scratch_left {", "ensures slot_after {": "ensures slot_left {"}
NAME = re.compile(r"[^\W\d][\w'₀-₉]*(?:-[\w'₀-₉]+)+")
PATH = re.compile(r"(?<![\w.])(lib|borrow|mathlib|Prim|Rattle)\.(\w+)\.(?:[\w+-]+\.)*$")
IMPORT = re.compile(r"(?:^|\n)(?:pub )?(?:ghost )?use ([^;{\n]*)\.\{([^}]*)\}")


def files(root):
    for folder, dirs, names in os.walk(os.path.join(root, "crates")):
        dirs[:] = sorted(d for d in dirs if d != "out")
        for n in sorted(names):
            if n.endswith((".rt", ".antt")):
                yield os.path.join(folder, n)


def pieces(text, antt):
    """The text cut into (kind, piece), kind 'code', 'comment' or 'string'."""
    comment = r"(?:(?<=\s)|^)--[^\n]*" if antt else r"//[^\n]*"
    cut = re.compile(rf"(?P<comment>{comment})|(?P<string>b?\"(?:\\.|[^\"\\])*\")", re.M)
    at = 0
    for m in cut.finditer(text):
        if m.start() > at:
            yield "code", text[at:m.start()]
        yield m.lastgroup, m[0]
        at = m.end()
    yield "code", text[at:]


def imports(text, own):
    """The names that a file imports: from the repository's crates (own), or from the toolchain."""
    found = set()
    for m in IMPORT.finditer(text):
        crate = m[1].strip().split(".")
        mine = crate[0] == "Rattle" and len(crate) > 1 and crate[1] in own
        for item in m[2].split(","):
            for word in item.split(" as ")[:1]:
                found.add((mine, word.strip()))
    return {w for k, w in found if k}, {w for k, w in found if not k}


def defined(text):
    """The names with a dash that a file of specs/ or proofs/ gives something."""
    names = set()
    for m in re.finditer(r"(?m)^[ \t]*(?:abbrev |unfoldable |pub |data |record |module |ruleset )*([^\s:(){}]+(?: [^\s:(){}]+)*) :(?= |\n)", text):
        names.update(w for w in m[1].split() if NAME.fullmatch(w))
    return names


def main(root):
    own = {c for c in os.listdir(os.path.join(root, "crates"))}
    texts = {p: open(p, encoding="utf-8").read() for p in files(root)}
    ours = set()
    for p, t in texts.items():
        if p.endswith(".antt") and os.path.basename(p) != "Proof.antt":
            ours |= defined(t)
    functions = set()
    for p, t in texts.items():
        if p.endswith(".rt"):
            functions.update(re.findall(r"\bfn (\w+)", t))
    changed, clashes = {}, []
    for p, t in texts.items():
        mine, kit = imports(t, own)
        proof = os.path.basename(p) == "Proof.antt"
        code = "".join(x for k, x in pieces(t, p.endswith(".antt")) if k == "code")
        there = set(re.findall(r"[^\W\d][\w'₀-₉-]*", code))
        taken = set()

        def turn(m):
            w = m[0]
            new = w.replace("-", "_")
            path = PATH.search(m.string, 0, m.start())
            if path and (path[1] != "Rattle" or path[2] not in own):
                return w
            if w in kit and w not in mine:
                return w
            if proof and w not in mine and not (w.endswith("-spec") and new[: -len("_spec")] in functions):
                return w
            if new in there:
                taken.add((w, new))
            return new

        out = []
        for kind, x in pieces(t, p.endswith(".antt")):
            if kind == "code":
                x = NAME.sub(turn, x)
            elif kind == "comment":
                x = re.sub(r"`[^`]*`", lambda m: NAME.sub(lambda n: n[0].replace("-", "_") if n[0] in ours else n[0], m[0]), x)
            out.append(x)
        new = "".join(out)
        if p.endswith(".rt"):
            for a, b in LABELS.items():
                new = new.replace(a, b)
        clashes += [(p, a, b) for a, b in sorted(taken)]
        if new != t:
            changed[p] = new
    for p, a, b in clashes:
        print(f"{p}: {a} falls together with {b}")
    for p, t in changed.items():
        with open(p, "w", encoding="utf-8") as f:
            f.write(t)
    print(f"{len(changed)} files")
    return 0


if __name__ == "__main__":
    raise SystemExit(main(sys.argv[1] if len(sys.argv) > 1 else "."))
