#!/usr/bin/env python3
"""Holds quotations against the papers in docs/specification: a quotation stands there word for word, but for what [..] leaves out.

Looked at are the comments of crates/*/specs, the left column of docs/PROMISES.md, and of README.md's table of the order. What
layer_laws/specs/documented quotes is of mimalloc.h, which is no paper of the customer's.

Usage: tools/quotations.py. It prints each quotation that is not found, and fails if there is one.
"""
import re
import sys
from pathlib import Path

ROOT = Path(__file__).resolve().parent.parent


def in_one_line(text):
    return re.sub(r"\s+", " ", text)


def papers():
    files = sorted((ROOT / "docs" / "specification").glob("0*.md"))
    return in_one_line(" ".join(re.sub(r"^> ?", "", f.read_text(), flags=re.M) for f in files))


def comments(text):
    """The comments of a definition file, lines of one comment joined."""
    whole = re.sub(r"\n *-- ", " ", re.sub(r"(?m)^ *(?!--)\S.*?(?=  -- |$)", "", text))
    return whole.split("\n")


def left_columns(text):
    return re.findall(r'(?m)^\| ("[^|]*") \|', text)


def sources():
    for file in sorted(ROOT.glob("crates/*/specs/**/*.antt")):
        if "documented" not in file.parts:
            yield file, comments(file.read_text())
    for name in ("docs/PROMISES.md", "README.md"):
        yield ROOT / name, left_columns((ROOT / name).read_text())


def main():
    said = papers()
    seen = missing = 0
    for file, texts in sources():
        for quotation in re.findall(r'"([^"]+)"', "\n".join(in_one_line(t) for t in texts)):
            seen += 1
            if not all(part.strip() in said for part in re.split(r"\[[^\]]*\]", quotation)):
                missing += 1
                print(f'{file.relative_to(ROOT)}: in no paper: "{quotation}"')
    print(f"quotations: {seen}, {missing} in no paper")
    return 1 if missing or not seen else 0


sys.exit(main())
