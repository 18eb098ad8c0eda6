#!/usr/bin/env python3
"""Plants bugs in the sources, one at a time, and says what refuses each: the prover, else a test or a program's recorded output.

usage: planted_bugs.py [--list] [--only CRATE].. [--jobs N]

The bugs stand in planted_bugs.txt. Each is tried on a copy of the repository, first as a must-fail edit: the prover must
refuse its crate. Where that is still proved, the crate that a line `then:` names is proved over the bug, and else the tests
and the programs that stand on the crate are run over it, with no proof, against what they are recorded to print.
--list prints the bugs; --only takes the bugs of one crate; --jobs is how many crates are tried side by side, 1 or 2.
It ends with 1 where a bug cannot be tried.
"""
import argparse
import collections
import concurrent.futures
import os
import pathlib
import re
import shutil
import subprocess
import sys
import tempfile

ROOT = pathlib.Path(__file__).resolve().parent.parent
KINDS = ["comparison", "constant", "dropped write", "swapped argument", "missed case", "wrong field", "early return", "exchanged lines"]
PROVER, ABOVE, TEST, NOTHING, UNTRIED = "prover", "prover above", "test", "nothing", "not tried"


class Bug:
    def __init__(self, lines):
        self.crate = self.name = self.kind = self.file = self.then = ""
        self.pairs = []
        old = None
        for line in lines:
            key, _, text = line.partition(":")
            text = text[1:] if text.startswith(" ") else text
            if key == "edit":
                self.crate, _, self.name = text.partition("/")
            elif key in ("kind", "file", "then"):
                setattr(self, key, text)
            elif key == "old":
                old = text
            elif key == "new" and old:
                self.pairs.append((old, text))
                old = None
            else:
                sys.exit(f"planted_bugs.txt: a line that cannot be read: {line}")
        if self.kind not in KINDS or not self.pairs or not self.file.startswith("src/"):
            sys.exit(f"planted_bugs.txt: {self.crate}/{self.name} lacks a kind, a pair or a file of src/")

    def source(self, root):
        return root / "crates" / self.crate / self.file

    def planted(self, text):
        """Returns the text with the bug, or None where it cannot be planted."""
        was = text
        for old, new in self.pairs:
            if text.count(old) != 1:
                return None
            text = text.replace(old, new)
        return text if text != was else None

    def as_edit(self):
        return f"file: {self.file}\n" + "".join(f"old: {old}\nnew: {new}\n" for old, new in self.pairs)

    def function(self):
        """Returns the name of the function that the bug stands in, if it stands in one."""
        text = self.source(ROOT).read_text(encoding="utf-8")
        return function_at(text, text[: text.find(self.pairs[0][0])].count("\n") + 1)


def function_at(text, line):
    """Returns the name of the function around that line."""
    name = ""
    for at, row in enumerate(text.splitlines()[:line]):
        found = re.match(r"\s*(?:pub(?:\(crate\))? )?(?:const )?fn (\w+)", row)
        if found:
            name = found.group(1)
        elif row.startswith("}"):
            name = ""
    return name


def contract(crate, said):
    """Returns whose contract the prover's first words are about, and those words."""
    found = re.match(r"(?:note: )?(?:\./)?(\S+?):(\d+):\d+: (?:error: )?(.*)", said)
    if not found:
        return said
    path, line, words = found.groups()
    if path.startswith("src/"):
        name = function_at((ROOT / "crates" / crate / path).read_text(encoding="utf-8"), int(line))
    else:
        name = "::".join(path.removeprefix("proofs/").removesuffix(".antt").removesuffix("/Answers").split("/"))
    return f"the contract of {name or path}: {words}"


def read_bugs():
    text = pathlib.Path(__file__).with_suffix(".txt").read_text(encoding="utf-8")
    blocks = re.split(r"\n\s*\n", text)
    blocks = [[line for line in block.split("\n") if line.strip() and not line.startswith("#")] for block in blocks]
    return [Bug(block) for block in blocks if block]


def uses():
    """Returns, for each crate, all the crates that it is built from, in the order of crates.txt."""
    rows = (line.partition("#")[0].partition(":") for line in (ROOT / "crates.txt").read_text().splitlines())
    named = {name.strip(): below.split() for name, colon, below in rows if colon}

    def closure(name):
        return {name}.union(*(closure(it) for it in named.get(name, ())))

    return {name: closure(name) for name in named}


def run(words, folder, stdin=None):
    env = {**os.environ, "RT_JOBS": "1"}
    how = {"stdin": stdin} if stdin else {"stdin": subprocess.DEVNULL}
    return subprocess.run(["nice", *words], cwd=folder, stdout=subprocess.PIPE, stderr=subprocess.PIPE, env=env, **how)


def check(copy, crate):
    """Proves a crate of the copy as it stands, and returns the answer, with the prover's first words where it refuses."""
    ran = run(["rt", "check", "--jobs", "1"], copy / "crates" / crate)
    said = (ran.stdout + ran.stderr).decode(errors="replace").splitlines()
    # (each crate below that is built first has such a line too)
    ends = [row for row in said if row.startswith("logic=")]
    if ends and ends[-1].startswith("logic=proved"):
        return NOTHING, ""
    if not ends or any("error[" in row for row in said):
        return UNTRIED, " ".join(said[-4:])
    rows = [row for row in said if re.match(r"(note: )?\S+:\d+:\d+: ", row)]
    return PROVER, contract(crate, rows[0][:200]) if rows else "it is not proved"


def proofs_of(copy, crate, bugs):
    """Proves a crate over each of its bugs, and returns for each the answer, with the prover's first words."""
    answers = {}
    folder = copy / "crates" / crate / "must-fail"
    shutil.rmtree(folder, ignore_errors=True)
    folder.mkdir()
    for bug in bugs:
        (folder / f"{bug.name}.edit").write_text(bug.as_edit(), encoding="utf-8")
    ran = run(["rt", "must-fail", crate], copy)
    said = (ran.stdout + ran.stderr).decode(errors="replace")
    for bug in bugs:
        found = re.search(rf"must-fail {re.escape(crate)}/{re.escape(bug.name)}\.edit: (.*)", said)
        told = found.group(1) if found else said[-600:]
        if told.endswith("the first lines of what it said:"):
            told += "".join(f" {line}" for line in said[found.end() :].splitlines()[1:4])
        if "only because a proof file names" in told:
            answers[bug] = UNTRIED, "refused only for a name that a proof file has, which says nothing of a contract"
        elif told.startswith("refused"):
            answers[bug] = PROVER, contract(crate, told.partition("refused, as it must be")[2].lstrip(": "))
        elif told.startswith("NOT REFUSED"):
            answers[bug] = NOTHING, ""
        else:
            answers[bug] = UNTRIED, told
    return answers


def runs_of(copy):
    """Returns the runs of programs: the crate, its arguments, its input, and what it must print."""
    crates, examples = copy / "crates", copy / "examples"
    args = lambda name: (crates / name / "args").read_text().split() if (crates / name / "args").exists() else []
    own = [(name, args(name), crates / name / "stdin", crates / name / "stdout") for name in ("chart", "console", "replay")]
    read = [("console", ["--read"], it, it.with_suffix(".read.out")) for it in sorted(examples.glob("*.txt"))]
    frames = [("console", ["--frames", "--read"], examples / "pass.txt", examples / "pass.frames.out")]
    return own[:2] + read + frames + own[2:]


def tests_of(copy, bug, below):
    """Runs what stands on the crate, with no proof, and returns what refuses the bug, if anything does."""
    stands = lambda name: bug.crate in below[name]
    for name in ("names_checks", "reading_checks", "other_parts"):
        if stands(name) and run(["rt", "try", "--test"], copy / "crates" / name).returncode:
            return TEST, f"a test of {name}"
    for name, args, given, wanted in runs_of(copy):
        if not stands(name):
            continue
        data = [f"{it.name}={it}" for it in (copy / "crates" / name / "data").glob("*")]
        words = [word for it in data for word in ("--data", it)]
        with open(given if given.exists() else os.devnull, "rb") as it:
            ran = run(["rt", "try", "--seconds", "600", *words, "--", *args], copy / "crates" / name, it)
        if b"run=ended" not in ran.stderr:
            return UNTRIED, ran.stderr.decode(errors="replace")[-300:]
        if ran.stdout != wanted.read_bytes():
            return TEST, f"what {name} prints, which is in {wanted.relative_to(copy)}"
    return NOTHING, ""


def tested(room, bug, below):
    """Tries a bug beyond its crate's own proof, on a copy of its own."""
    copy = copied(room / f"{bug.crate}-{bug.name}")
    source = bug.source(copy)
    source.write_text(bug.planted(source.read_text(encoding="utf-8")), encoding="utf-8")
    answer, by = check(copy, bug.then) if bug.then else (NOTHING, "")
    if answer == PROVER:
        answer, by = ABOVE, f"in {bug.then}, {by}"
    if answer == NOTHING:
        answer, by = tests_of(copy, bug, below)
    shutil.rmtree(copy, ignore_errors=True)
    return answer, by


def tried(room, copy, crate, bugs, below):
    """Tries the bugs of a crate."""
    answers = proofs_of(copy, crate, bugs)
    for bug in bugs:
        if answers[bug][0] == NOTHING:
            answers[bug] = tested(room, bug, below)
        show(bug, *answers[bug])
    return answers


def copied(folder):
    return shutil.copytree(ROOT, folder, symlinks=True, ignore=shutil.ignore_patterns(".git", "__pycache__", "rt-work-*"))


def show(bug, answer, by):
    where = f"in {bug.function()}" if bug.function() else f"in {bug.file}"
    print(f"{bug.crate}/{bug.name} ({bug.kind}, {where}): {answer}{': ' + by if by else ''}", flush=True)


def totals(answers):
    print(f"\n{'kind':18} bugs  prover  test  nothing")
    rows = collections.Counter()
    for bug, (answer, _) in answers.items():
        rows[bug.kind, PROVER if answer == ABOVE else answer] += 1
    for kind in KINDS:
        counts = [rows[kind, answer] for answer in (PROVER, TEST, NOTHING, UNTRIED)]
        print(f"{kind:18} {sum(counts):4}  {counts[0]:6}  {counts[1]:4}  {counts[2]:7}" + (f"  not tried: {counts[3]}" if counts[3] else ""))
    counts = [sum(rows[kind, answer] for kind in KINDS) for answer in (PROVER, TEST, NOTHING, UNTRIED)]
    print(f"{'all':18} {sum(counts):4}  {counts[0]:6}  {counts[1]:4}  {counts[2]:7}" + (f"  not tried: {counts[3]}" if counts[3] else ""))
    return counts[3]


def main():
    words = argparse.ArgumentParser(description=__doc__, formatter_class=argparse.RawDescriptionHelpFormatter)
    words.add_argument("--list", action="store_true")
    words.add_argument("--only", action="append", metavar="CRATE")
    words.add_argument("--jobs", type=int, choices=[1, 2], default=2)
    asked = words.parse_args()
    bugs = [bug for bug in read_bugs() if not asked.only or bug.crate in asked.only]
    lost = [bug for bug in bugs if bug.planted(bug.source(ROOT).read_text(encoding="utf-8")) is None]
    for bug in lost:
        print(f"{bug.crate}/{bug.name}: cannot be planted: an old text does not stand once in {bug.file}")
    if lost:
        return 1
    if asked.list:
        for bug in bugs:
            print(f"{bug.crate}/{bug.name} ({bug.kind}, {bug.file} {bug.function()})")
        return 0
    below, answers = uses(), {}
    # (a crate above another first builds it, so they go in the order of crates.txt)
    crates = [crate for crate in below if any(bug.crate == crate for bug in bugs)]
    with tempfile.TemporaryDirectory(prefix="planted-bugs-") as name, concurrent.futures.ThreadPoolExecutor(asked.jobs) as pool:
        room = pathlib.Path(name)
        copy = copied(room / "copy")
        tries = [pool.submit(tried, room, copy, crate, [bug for bug in bugs if bug.crate == crate], below) for crate in crates]
        for it in tries:
            answers.update(it.result())
    return 1 if totals(answers) else 0


if __name__ == "__main__":
    sys.exit(main())
