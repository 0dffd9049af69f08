#!/usr/bin/env python3
"""Tests how wrong_answers.py judges what the prover says, on answers that it gave, which tools/recorded has.

A file there begins with what the edit claimed (`fails:`), the prover's exit status (`status:`) and how the answer is to be judged
(`judged: taken`, or words of the fault). Then comes what the prover said, long lines cut.
"""
import sys
import tempfile
from pathlib import Path
from types import SimpleNamespace

sys.dont_write_bytecode = True
import wrong_answers

RECORDED = Path(__file__).resolve().parent / "recorded"


def read(path):
    """What a recorded file claims, and what the prover said."""
    head, _, said = path.read_text().partition("\n\n")
    return dict(line.split(": ", 1) for line in head.split("\n")), said


def judged(claims, said):
    """The first fault that the tool finds in the answer, or `taken`."""
    wrong, _, callers = claims["fails"].partition(";")
    wrong, callers = set(wrong.split()), set(callers.split())
    edit = SimpleNamespace(wrong=wrong, fails=lambda: wrong | callers)
    found = wrong_answers.faults(claims["crate"], [edit], int(claims["status"]), said)
    return found[0] if found else "taken"


def taken_as_edit(text):
    """Whether the tool takes this text for an edit."""
    with tempfile.TemporaryDirectory() as folder:
        path = Path(folder) / "crates" / "a" / "wrong" / "one.edit"
        path.parent.mkdir(parents=True)
        path.write_text(text)
        try:
            wrong_answers.Edit(path)
        except SystemExit:
            return False
        return True


EDITS = [
    ("file: src/lib.rt\nold: look(a, 1)\nnew: look(a, 2)\nfails: look\n", True),
    ("file: src/lib.rt\nold: look(a, 1)\nnew: look(a, 2)\n", False),
    ("fails: look\n", False),
]


# An answer, what the prover said of it in an edited code that calls its goal otherwise, and the answer under the goal's name now.
ANSWER = "pub returns-then-deadline-eq0 : goal.returns-then-deadline-eq0\nreturns-then-deadline-eq0 c = first c.if-deadline-eq0.true\n"
RENAMED = ANSWER.replace("eq0", "eq7")


def by_its_name():
    """What the tool makes of that answer."""
    _, said = read(RECORDED / "goal_of_another_name.log")
    with tempfile.TemporaryDirectory() as folder:
        path = Path(folder) / "proofs" / "arm" / "Answers.antt"
        path.parent.mkdir(parents=True)
        path.write_text(ANSWER)
        wrong_answers.tried_by_name(Path(folder), said)
        return path.read_text()


def main():
    bad = [] if by_its_name() == RENAMED else ["an answer does not get its goal's name"]
    paths = sorted(RECORDED.glob("*.log"))
    for path in paths:
        claims, said = read(path)
        found = judged(claims, said)
        if claims["judged"] not in found:
            bad.append(f"{path.name}: judged '{found}', and not '{claims['judged']}'")
    bad += [f"an edit is judged wrongly:\n{text}" for text, right in EDITS if taken_as_edit(text) != right]
    print("\n".join(bad), end="\n" if bad else "")
    if bad or not paths:
        sys.exit(1)
    print(f"the judging of wrong answers: {len(paths)} recorded answers and {len(EDITS)} edits judged as they should be")


if __name__ == "__main__":
    main()
