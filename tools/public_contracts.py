#!/usr/bin/env python3
"""Fails where a public function of a library crate promises nothing, or asks something of its caller.

A conversion or printing by a trait of the library promises what its ghost member says.
"""
import pathlib
import re
import sys

GHOSTS = {"From": "from_gives", "TryFrom": "try_from_gives", "Display": "output"}

root = pathlib.Path(__file__).resolve().parent.parent / "crates"
bad = []
for crate in sorted(root.iterdir()):
    if not (crate / "src" / "lib.rt").exists():
        continue
    for source in sorted((crate / "src").rglob("*.rt")):
        text = source.read_text(encoding="utf-8").split("#[cfg(test)]")[0]
        lines = text.splitlines()
        in_trait = False
        for i, line in enumerate(lines):
            made = re.match(r"impl(?:<.*?>)? (?:\w+::)*(From|TryFrom|Display)\b.* for ", line)
            if made:
                body = "\n".join(lines[i:]).split("\n}")[0]
                if not re.search(rf"^\s*ghost {GHOSTS[made.group(1)]} = ", body, re.M):
                    bad.append(f"{source.relative_to(root.parent)}:{i + 1}: {line.rstrip(' {')} has no {GHOSTS[made.group(1)]}")
            if re.match(r"pub trait ", line):
                in_trait = True
            elif line.startswith("}"):
                in_trait = False
            found = re.match(r"\s*pub (?:const )?(?:extern \"C\" )?fn (\w+)", line)
            if not found and in_trait:
                found = re.match(r"\s*fn (\w+)", line)
            if not found:
                continue
            head = []
            for more in lines[i:]:
                head.append(more)
                if more.strip() == "{" or more.rstrip().endswith(";"):
                    break
                if len(head) == 1 and more.rstrip().endswith("{"):
                    break
            joined = "\n".join(head)
            where = f"{source.relative_to(root.parent)}:{i + 1}: {found.group(1)}"
            if not re.search(r"^\s*ensures\b", joined, re.M):
                bad.append(where + " has no ensures")
            if re.search(r"^\s*requires\b", joined, re.M):
                bad.append(where + " has a requires")
for row in bad:
    print(row)
print(f"public contracts: {len(bad)} faults")
sys.exit(1 if bad else 0)
