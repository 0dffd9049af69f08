#!/usr/bin/env python3
"""Tries wrong answers: edits in crates/NAME/wrong and crates/NAME/must-fail, which the prover must refuse for a fact.

An edit is written as a must-fail edit of `rt` is, with one line more, as `fails: look; lowest_run`: the functions that it
makes wrong, and after the semicolon those that are not proved then because they call one of these. `rt` gives each must-fail
edit a check of its own, and is content if anything of the crate is refused. Here edits that keep clear of
each other share a check, and the prover must refuse the functions that they name and no other, those that they make wrong for
facts of their own, and say nothing else: `shown` tells what is said of a fact from what shows nothing. A must-fail edit that
has no such line is left to `rt`, and counts for no function. A fact fails where two types or values differ, where a goal does not follow, and
where the search leaves a goal open that it closes in the crate as it stands. Least is shown by an answer that does not find an equation that
it goes by; how many are refused for no more than that is said at the end.

Two edits keep clear of each other if no function is made wrong by both, and none is made wrong by one and calls what the other
makes wrong: the prover looks at no function that calls one which is not proved.

A goal is named after what the code compares and computes there, so an edit of a condition may give it another name, and the answer
written for it has none then. The prover says how the goal is called now; the answer is tried on it, under that name. A name that is
still gone then shows nothing: the function must fail for a fact beside it.

A check starts from the crate as it was proved, where its out/ has that, and takes the modules that the edits leave alone from
there. Every public function of a crate with such edits must be made wrong by two or more.

Usage: wrong_answers.py [NAME...]. With no name, all crates that have such edits. What they stand on and library.sh
has not proved is proved first. target/wrong/NAME/K/log has what the prover said in a check. wrong_answers_test.py tests the
judging on recorded answers of the prover's.
"""
import difflib
import os
import re
import shutil
import subprocess
import sys
import tempfile
import time
from concurrent.futures import ThreadPoolExecutor
from pathlib import Path

ROOT = Path(__file__).resolve().parent.parent
WORK = ROOT / "target" / "wrong"

# What the prover has against a declaration: the file, the declaration, and what it says, with the lines below that belong to it.
ERROR = re.compile(r"^(\S+?):\d+:\d+: error: (?:`([^`]+)`: )?(.*(?:\n .*)*)", re.M)

# It looks no further where something that is cited has failed.
CITED = re.compile(r"(?:1 declaration|\d+ declarations) that depends? on `([^`]+)`|`([^`]+)` was not admitted ")

# What is to be proved does not follow from what is known, or is another thing than what is shown.
FACT = re.compile(
    r"(?:no proof of|the goal does not follow|the part `[^`]+` of the goal does not follow)|give a proof of that as the last"
    r"|does not hold \(this comparison|the two (?:types|values) (?:first differ|differ|are)|expected type `[^`]*`,? *\n? *but this has type"
)

# What is expected, where that is no fact but a place of the code: an answer is handed what is known at another place.
PLACE = re.compile(r"expected type `(?:goal\.|\S+\.(?:Goals|Given|Lts|Tie|Reads)\.)")

# An equation that the answer goes by is not found: no part of what a callee ensured, or of the goal, is the value that it speaks of, or
# the known equations do not join the two sides within the prover's bounds.
EQUATION = re.compile(r"`rw`: no occurrence of |`cc` met a bound of its own before the equations had joined ")

# A goal, or a fact of one, that is called otherwise in the edited code.
RENAMED = re.compile(r"has no (?:field )?`([^`]+)`")


class Edit:
    """What an edit changes, and the functions that are not proved then."""

    def __init__(self, path):
        self.label = path.stem
        self.crate = path.parent.parent
        self.changes = []
        self.wrong, self.callers = set(), set()
        file = old = None
        for line in path.read_text().split("\n"):
            key, _, rest = line.partition(":")
            rest = rest[1:] if rest.startswith(" ") else rest
            if key == "file":
                file = rest
            elif key == "old":
                old = rest
            elif key == "new":
                self.changes.append((file, old, rest))
            elif key == "fails":
                wrong, _, callers = rest.partition(";")
                self.wrong, self.callers = set(wrong.split()), set(callers.split())
        if not self.changes or not self.wrong:
            sys.exit(f"{path}: it needs a pair 'old:' and 'new:', and a line 'fails:'")

    def fails(self):
        return self.wrong | self.callers

    def clear_of(self, other):
        return not (self.wrong & other.wrong or self.wrong & other.callers or other.wrong & self.callers)


def make(crate, group):
    """Makes the edits of a group in this copy of their crate, each where the crate as it stands has its text."""
    places = {}
    for edit in group:
        for file, old, new in edit.changes:
            text = (crate / file).read_text()
            if text.count(old) != 1:
                raise ValueError(f"{edit.label}: its 'old:' text is in {file} {text.count(old)} times, and not once")
            places.setdefault(file, []).append((text.index(old), old, new))
    for file, found in places.items():
        text = (crate / file).read_text()
        end = len(text)
        for at, old, new in sorted(found, reverse=True):
            if at + len(old) > end:
                raise ValueError(f"two edits change the same text of {file}")
            text, end = text[:at] + new + text[at + len(old) :], at
        (crate / file).write_text(text)


def grouped(edits):
    """The edits in groups, in each of which any two keep clear of each other."""
    groups = []
    for edit in sorted(edits, key=lambda e: -len(e.fails())):
        group = next((g for g in groups if all(edit.clear_of(e) for e in g)), None)
        if group is None:
            groups.append([edit])
        else:
            group.append(edit)
    return groups


def public(name):
    """The public functions of a crate, as the prover calls them: a method by its type, and that by the module in which it stands. A
    conversion is named after both types and stands where it is written."""
    src = ROOT / "crates" / name / "src"
    texts = {}
    for path in sorted(src.rglob("*.rt")):
        module = path.relative_to(src).with_suffix("").parts
        texts["" if module == ("lib",) else "::".join(module) + "::"] = path.read_text()
    home = {kind: inside for inside, text in texts.items() for kind in re.findall(r"^pub (?:struct|enum) (\w+)", text, re.M)}
    for inside, text in texts.items():
        of = None
        for line in text.split("\n"):
            block = re.match(r"impl(?:<[^>]*>)? (\w+)(?:<[^>]*>)? \{", line)
            if block:
                of = block.group(1)
            elif line == "}":
                of = None
            made = re.match(r"impl (From|TryFrom)<(\w+)> for (\w+) \{", line)
            if made:
                trait, source, target = made.groups()
                yield f"{inside}{target[0].upper()}{target[1:]}{trait}{source}::{'from' if trait == 'From' else 'try_from'}"
            function = re.match(r' *pub (?:extern "C" )?fn (\w+)', line)
            if function:
                yield f"{home.get(of, inside)}{of}::{function.group(1)}" if of else inside + function.group(1)


def promises(name):
    """Whether the crate has public functions, and contracts."""
    texts = [path.read_text() for path in (ROOT / "crates" / name / "src").rglob("*.rt")]
    return any(public(name)) and any("ensures" in text for text in texts)


def own(name):
    """The edits of a crate that are tried here."""
    crate = ROOT / "crates" / name
    named = [path for path in (crate / "must-fail").glob("*.edit") if "\nfails:" in path.read_text()]
    return [Edit(path) for path in sorted([*(crate / "wrong").glob("*.edit"), *named])]


def too_few(name):
    """The public functions that fewer than two edits make wrong."""
    edits = own(name)
    if not edits:
        bare = promises(name) and not any((ROOT / "crates" / name / "must-fail").glob("*.edit"))
        return [f"{name} has public functions with a contract, and no edit"] if bare else []
    count = {function: sum(function in edit.wrong for edit in edits) for function in public(name)}
    return [f"{name}::{function} is made wrong by {n} edits, and not by two" for function, n in count.items() if n < 2]


def dependencies():
    """Each crate of crates.txt with what it stands on."""
    lines = (line.split("#")[0] for line in (ROOT / "crates.txt").read_text().split("\n"))
    pairs = (line.split(":") for line in lines if ":" in line)
    return {name.split()[0]: deps.split() for name, deps in pairs}


def statics():
    """The crates of crates.txt that are static libraries."""
    return re.findall(r"^(\w+) staticlib:", (ROOT / "crates.txt").read_text(), re.M)


class Prover:
    """The kit's prover, over the crates as their out/ has them."""

    def __init__(self):
        guide = subprocess.run(["rt", "doc"], capture_output=True, text=True, check=True).stdout
        self.kit = Path(guide.strip()).parent
        self.deps = dependencies()
        self.static = statics()

    def below(self, name):
        """The repository's crates that it stands on."""
        found = {}
        for dep in self.deps[name]:
            found |= self.below(dep) | {dep: None} if dep in self.deps else {}
        return found

    def check(self, name, crate):
        """Its exit status and what it says of the crate in this folder."""
        rlib = lambda dep: ROOT / "crates" / dep / "out" / "rlib"
        words = [self.kit / "bin" / "rattle", "check", "--crate-name", name, "src/lib.rt"]
        words += ["--extern", f"std={self.kit}/rlibs/std.rlib", "-L", f"dependency={self.kit}/rlibs"]
        for dep in self.deps[name]:
            words += ["--extern", f"{dep}={rlib(dep)}/{dep}.rlib" if dep in self.deps else f"{dep}={self.kit}/rlibs/{dep}.rlib"]
        for dep in self.below(name):
            words += ["-L", f"dependency={rlib(dep)}"]
        words += ["--antt-project", self.kit / "rattle" / "logic" / "antt-project.json"]
        words += ["--logic-built", self.kit / "logic_built", "--links", f"{name}=", "--incremental", "out/incremental"]
        words += ["--crate-type", "staticlib"] * (name in self.static)
        run = subprocess.run(words, cwd=crate, stdout=subprocess.PIPE, stderr=subprocess.STDOUT, text=True, check=False)
        return run.returncode, run.stdout


def verdicts(name, said):
    """What the prover says of each function of the crate that is not proved. A closure is none: the function in which it stands is."""
    found = re.findall(rf"^fn {name}::(\S+?): (.*)$", said, re.M)
    return {function: line for function, line in found if not function.startswith("fn::") and line not in ("proved", "proved where its callers give what it asks")}


def calls_refused(line):
    """Whether a function is not proved since it calls one that is not."""
    return re.search(r"(?:it calls|a call of) `[^`]+`, which (?:is not proved|has no proof)", line) is not None


def shown(reason):
    """What the prover's reason shows: a fact that fails, an equation that is not found, that something cited fails, or nothing."""
    if CITED.search(reason):
        return "cited"
    if EQUATION.search(reason):
        return "equation"
    return "fact" if FACT.search(reason) and not PLACE.search(reason) else "nothing"


def shown_of(name, function, said):
    """What the reasons show for which the function itself is refused; of a law that it cites, what is said of the law."""
    line = verdicts(name, said).get(function, "")
    found = {"fact"} if "`search` did not prove " in line else set()
    errors = ERROR.findall(said)
    own = f"./proofs/{function.replace('::', '/')}/"
    reasons, seen = [reason for at, _, reason in errors if at.startswith(own)], set()
    while reasons:
        reason = reasons.pop()
        found.add(shown(reason))
        law = CITED.search(reason)
        title = law and (law[1] or law[2])
        if law and title not in seen:
            seen.add(title)
            reasons += [more for at, other, more in errors if other == title and is_law(at)]
    return found


def is_renamed(file, reason):
    """Whether an answer names what the edited code calls otherwise."""
    return Path(file).name in ("Answers.antt", "Invariants.antt") and RENAMED.search(reason) is not None


def is_law(file):
    """Whether a file has laws that proofs cite, and is no function's own answers."""
    return file.startswith("./proofs/") and Path(file).name not in ("Answers.antt", "Invariants.antt", "Proof.antt")


def faults(name, group, status, said):
    """What is wrong with a check of these edits."""
    if status != 1 or not re.search("^logic=not-proved", said, re.M):
        return [f"the crate is not refused by the prover (status {status})"]
    unfit = [reason.split("\n")[0][:200] for at, _, reason in ERROR.findall(said) if shown(reason) == "nothing" and not is_renamed(at, reason)]
    if unfit:
        return [f"that shows nothing: {unfit[0]}"]
    lines = verdicts(name, said)
    named = set().union(*(edit.fails() for edit in group))
    found = [f"{function} is proved, and an edit names it" for function in sorted(named - set(lines))]
    found += [f"{function} is not proved, and no edit names it" for function in sorted(set(lines) - named)]
    for edit in group:
        for function in sorted(edit.wrong & set(lines)):
            if calls_refused(lines[function]) or not {"fact", "equation"} & shown_of(name, function, said):
                found.append(f"{function} is not refused for its own fact")
    return found


def by_equation(name, group, said):
    """How many functions the edits make wrong of which no more is said than that an equation is not found."""
    return sum("fact" not in shown_of(name, function, said) for edit in group for function in edit.wrong)


def tried_by_name(crate, said):
    """Gives each answer whose goal is called otherwise in the edited code its goal's name now. Says whether there was one."""
    turned = False
    names = {name.lstrip(".") for name in re.findall(r"`([^`\s]+)`|(?<=[ ,])(\.[\w-]+)", said) for name in name if name}
    for file in {at for at, _, _ in ERROR.findall(said)}:
        path = crate / file
        if path.name not in ("Answers.antt", "Invariants.antt") or not path.is_file():
            continue
        text = path.read_text()
        gone = {m[1] for at, _, reason in ERROR.findall(said) if at == file for m in RENAMED.finditer(reason)}
        for old in sorted(gone, key=len, reverse=True):
            new = most_alike(old, [name for name in names - gone if not re.search(whole(name), text)])
            if new:
                text = re.sub(whole(old), new, text)
                turned = True
        path.write_text(text)
    return turned


def whole(name):
    """The name and no longer one."""
    return rf"(?<![\w'-]){re.escape(name)}(?![\w'-])"


def most_alike(name, others):
    """The one that begins as the name does and is most like it."""
    kin = [other for other in others if other.split("-")[0] == name.split("-")[0]]
    found = difflib.get_close_matches(name, kin, n=1, cutoff=0.5)
    return found[0] if found else None


def try_group(prover, name, number, group):
    """Makes the group's edits in a copy of the crate, and says what is wrong with the prover's answer."""
    # Outside the checkout, in which `rt ci` takes no other code than the crates'.
    with tempfile.TemporaryDirectory() as folder:
        crate = Path(folder) / name
        for part in ("src", "specs", "proofs", "out/incremental"):
            if (ROOT / "crates" / name / part).is_dir():
                shutil.copytree(ROOT / "crates" / name / part, crate / part)
        try:
            make(crate, group)
        except ValueError as fault:
            return [str(fault)], 0
        status, said = prover.check(name, crate)
        for _ in range(4):
            if not tried_by_name(crate, said):
                break
            status, said = prover.check(name, crate)
    log = WORK / name / str(number) / "log"
    log.parent.mkdir(parents=True)
    log.write_text(said)
    return faults(name, group, status, said), by_equation(name, group, said)


def prove(names):
    """Proves crates and what they stand on."""
    for name in names:
        proving = subprocess.run(["rt", "check"], cwd=ROOT / "crates" / name, capture_output=True, text=True, check=False)
        if proving.returncode:
            sys.exit(proving.stdout + proving.stderr)


def main():
    prover = Prover()
    few = [line for n in sys.argv[1:] or prover.deps for line in too_few(n)]
    names = sys.argv[1:] or [n for n in prover.deps if own(n)]
    prove(names)
    shutil.rmtree(WORK, ignore_errors=True)
    began = time.time()
    groups = {n: grouped(own(n)) for n in names}
    # The dear crates stand last in crates.txt: begun first, they leave no processor idle at the end.
    tasks = [(n, k, g) for n in reversed(names) for k, g in enumerate(groups[n])]
    with ThreadPoolExecutor(len(os.sched_getaffinity(0))) as pool:
        answers = list(pool.map(lambda task: try_group(prover, *task), tasks))
    for (name, number, group), (found, _) in zip(tasks, answers):
        for fault in found:
            print(f"wrong answers of {name}, check {number} ({' '.join(e.label for e in group)}): {fault}")
    print("\n".join(few), end="\n" if few else "")
    if few or any(found for found, _ in answers):
        sys.exit(1)
    count = sum(len(group) for _, _, group in tasks)
    took = f"in {len(tasks)} checks ({time.time() - began:.0f} s)"
    least = sum(least for _, least in answers)
    print(f"{count} wrong answers of {len(names)} crates refused, each by the functions that it names, {took}")
    print(f"of {least} functions that they make wrong no more is said than that an equation is not found")


if __name__ == "__main__":
    main()
