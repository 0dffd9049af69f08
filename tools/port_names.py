#!/usr/bin/env python3
"""Spells the repository's own definitions and lemmas in snake case, and brings its edits to the ported text.

usage: python3 tools/port_names.py            at the top, once, right after the kit's port.py

A definition's name in camel case that begins with a small letter is spelt in snake case, wherever it stands in crates/ and in the
pages. Functions, types, modules, strings and what programs read and write keep their names. The edits of must-fail/ and wrong/ quote
lines of src/, specs/ and walks/, which port.py turned: an edit's lines are turned by the same rules, and each that then does not stand
once in its file is listed.
"""
import os
import re
import sys

ROOT = os.path.dirname(os.path.dirname(os.path.abspath(__file__)))

# Lemmas whose name a definition takes: a definition's name is the field's word, so the lemma gets the longer one.
FALLEN = {"no_bits": "bit_at-no_bits", "is_state": "is_state-numbers_of"}
FALLEN_IN = {"no_bits": ("arena/proofs", "layer/proofs", "layer_laws/proofs"), "is_state": ("surface/proofs/Exported.antt", "surface/proofs/NumberLaws.antt", "surface/proofs/FieldLaws.antt")}
CAMEL = re.compile(r"(?<![A-Za-z0-9_'])[a-z][a-z0-9]*(?:[A-Z][A-Za-z0-9]*)+(?![A-Za-z0-9_'])")
PAGES = ("README.md", "CONTRIBUTING.md", "docs/DECISIONS.md", "docs/DIFFERENCES.md", "docs/PROMISES.md", "docs/BENCHMARKS.md")


def snake(name):
    return re.sub(r"(?<=[a-z0-9])([A-Z])", lambda m: "_" + m.group(1).lower(), name)


def files(*endings):
    for folder, dirs, names in os.walk(os.path.join(ROOT, "crates")):
        dirs[:] = sorted(d for d in dirs if d != "out")
        for n in sorted(names):
            if n.endswith(endings):
                yield os.path.join(folder, n)


def read(path):
    with open(path, encoding="utf-8") as f:
        return f.read()


def write(path, text):
    with open(path, "w", encoding="utf-8") as f:
        f.write(text)


def in_code(path, text):
    """Without the strings, which keep their words."""
    if not path.endswith(".rt"):
        return CAMEL.sub(lambda m: own(m.group(0)), text)
    parts = re.split(r'("(?:[^"\\\n]|\\.)*")', text)
    return "".join(p if i % 2 else CAMEL.sub(lambda m: own(m.group(0)), p) for i, p in enumerate(parts))


OWN = set()


def own(name):
    return snake(name) if name in OWN else name


def collect():
    for p in files(".antt", ".rt"):
        t = read(p)
        for m in CAMEL.finditer(t):
            OWN.add(m.group(0))


def by_hand(line):
    """A quoted line in today's spelling."""
    line = re.sub(r"Rattle·\w+·specs\.specs", lambda m: "Rattle." + m.group(0)[7:].split("·")[0] + ".specs", line)
    line = re.sub(r"Rattle·(\w+)\.", r"Rattle.\1.", line)
    line = line.replace("the-variants", "TheVariants").replace("′", "'")
    line = re.sub(r"⌜ | ⌝", "", line)
    line = re.sub(r"λ r\. (.*?) }", lambda m: re.sub(r"\br\b", "result", m.group(1)) + " }", line)
    # (f x .a) is (f x).a, and (x .a) is x.a
    for _ in range(12):
        new = re.sub(r"\(([\w']+(?:\.[a-z_]\w*)*) \.([a-z_]\w*)\)", r"\1.\2", line)
        new = re.sub(r"\(([\w']+(?:\.[a-z_]\w*)*) \.([a-z_]\w*)(?= \.[a-z_])", r"(\1.\2", new)
        if new == line:
            break
        line = new
    for _ in range(12):
        new = re.sub(r"\(([^()]*(?:\((?:[^()]|\([^()]*\))*\)[^()]*)*) \.([a-z_]\w*)\)", lambda m: m.group(0) if re.search(r"[,;]", m.group(1)) else f"(({m.group(1)}).{m.group(2)})", line)
        if new == line:
            break
        line = new
    line = re.sub(r"(?<=[\w'\)]) \.(?=[a-z_]\w*)", ".", line)
    return line


def edits():
    left = 0
    for p in files(".edit"):
        crate = p[: re.search(r"/crates/[^/]+/", p).end()]
        target = None
        held = None
        out = []
        for line in read(p).split("\n"):
            word, _, rest = line.partition(" ")
            if word == "file:":
                target = rest.strip()
                path = os.path.join(crate, target)
                held = read(path) if os.path.exists(path) else None
            elif word in ("old:", "new:"):
                tries = [rest, in_code(target or "", rest)]
                if target and target.endswith(".antt"):
                    plain = CAMEL.sub(lambda m: "get_or" if m.group(0) == "getD" else snake(m.group(0)), rest)
                    turned = by_hand(plain)
                    tries = [turned, turned.replace("mathlib.Core.Bool.", ""), plain]
                    tries += [re.sub(r"\(\(([^()]*)\)\.(\w+)\)", r"(\1).\2", t) for t in tries]
                if word == "old:":
                    good = [i for i, t in enumerate(tries) if held is not None and held.count(t) == 1]
                    pick = good[0] if good else 0
                    if not good:
                        left += 1
                        print(f"left: {p}: {held.count(tries[0]) if held is not None else 'no file'}: {tries[0]}")
                rest = tries[pick]
                line = f"{word} {rest}"
            out.append(line)
        write(p, "\n".join(out))
    return left


def main():
    for p in files(".antt"):
        t = read(p)
        for old, new in FALLEN.items():
            if any(x in p for x in FALLEN_IN[old]):
                t = re.sub(rf"(?<![\w'·.-]){old}(?![\w'-])", new, t)
        write(p, t)
    collect()
    for p in files(".antt", ".rt", ".walk"):
        t = read(p)
        n = in_code(p, t)
        if n != t:
            write(p, n)
    for name in PAGES:
        p = os.path.join(ROOT, name)
        t = read(p)
        n = CAMEL.sub(lambda m: own(m.group(0)), t)
        if n != t:
            write(p, n)
    left = edits()
    print(f"port_names: {len(OWN)} names, {left} edits left by hand")
    return 0


if __name__ == "__main__":
    sys.exit(main())
