#!/usr/bin/env python3
"""Writes the fixed sample that the gate replays: crates/replay/stdin and stdout, and data/corrected.txt.

    tools/sample.py ORACLE

Each answer is the Rust's own where no listed difference applies, and the rule's where one does; data/corrected.txt
says for each such line its number, from 1, and which difference it is. Queries that the Rust does not have (reports,
frames, readers) stand in tools/sample_reports.txt with answers from the written formats; what a seat and the reader of
requests answer is the plain seat's (sample_seat.py).
"""
import pathlib
import random
import subprocess
import sys

import sample_seat
from expected import expected

ORACLE = sys.argv[1]
HERE = pathlib.Path(__file__).resolve().parent
CRATE = HERE.parent / "crates" / "replay"


def oracle(queries):
    done = subprocess.run([ORACLE], input="\n".join(queries) + "\n", capture_output=True, text=True, check=True)
    return done.stdout.splitlines()


def generated(*arguments):
    done = subprocess.run([ORACLE, "gen", *arguments], capture_output=True, text=True, check=True)
    return [line.split("\t")[0] for line in done.stdout.splitlines()]


def listed(what):
    return subprocess.run([ORACLE, "list", what], capture_output=True, text=True, check=True).stdout.split()


def hexed(text):
    return text.encode("utf-8").hex() or "-"


def queries():
    """Every verb, every key and place, and events from every tier."""
    keys, places = listed("keys"), listed("phys")
    words = [k for k in keys if ":" not in k] + [f"p:{p}" for p in places] + [f"n:{n}" for n in (0, 5, 9, 10, 255)] + [f"f:{n}" for n in range(0, 37)]
    words += ["r:0", "r:4294967295", "s:-", "s:6162", "s:c3a962"] + [f"c:{c:x}" for c in list(range(128)) + [0xC9, 0x178, 0x410, 0x1F600]]
    yield from generated("exhaustive", "alone", "slice=11/400")
    yield from generated("exhaustive", "raw", "slice=7/6000")
    yield from generated("exhaustive", "codes", "slice=5/6000")
    yield from generated("random", "2026", "4000")
    yield from generated("random-all", "2027", "2000")
    for verb in ("tophys", "ismod", "keystr"):
        yield from (f"{verb} {k}" for k in words)
    for verb in ("tokey", "isphysmod", "physstr"):
        yield from (f"{verb} {p}" for p in places)
    for verb in ("xterm", "nopos", "modstr"):
        yield from (f"{verb} {m}" for m in range(0, 8192, 62))
    yield from (f"ledstr {n}" for n in (0, 2, 4, 6))
    for verb in ("ctrl", "asciictl", "unshift"):
        yield from (f"{verb} {c:x}" for c in list(range(0x180)) + list(range(0x400, 0x460)) + [0x1E9E, 0x391, 0x1F600])
    yield from (f"kittycode {k} {p}" for k in words[:190:3] + ["Insert", "VolumeDown", "c:61"] for p in ("-", "Insert", "VolumeDown", "F13", "Keypad5", "A"))
    rng = random.Random(4)
    names = keys + [n for n in listed("physnames")] + [f"F{n}" for n in range(27)] + [f"Numpad{n}" for n in range(11)]
    names += ["F", "F+7", "F07", "F++7", "F-1", "F256", "F1x", "Numpad", "Numpad+3", "NumpadX", "Enter", "Return", "Delete", "Backspace", "Tab", "Escape", "", "é", "ab", "\ue000", "\uf8ff", "\uf900"]
    for verb in ("keyname", "physname"):
        yield from (f"{verb} {hexed(n)}" for n in names)
    lists = [" SHIFT | CTRL ", "SHIFT|CTRL", "ALT", "OPT|META", "CMD|WIN|SUPER", "LEADER", "NONE", "", "|", "shift", "\u00a0SHIFT\u3000|\u2003CTRL", "CTRL| \tFOO", "é|SHIFT", "SHIFT|é", "SHIFT CTRL"]
    yield from (f"mods {hexed(t)}" for t in lists)
    yield from (f"composed {hexed(t)}" for t in ["", "a", "ab", "é", "éa", "\ue000", "x" * 32, "x" * 33, "é" * 33, "😀" * 32])
    for verb in ("normshift", "normctrl", "resurface"):
        yield from (f"{verb} " + q.split(" ", 2)[2] for q in rng.sample(generated("random", "77", "4000"), 500))
        yield from (f"{verb} d {k} {m} 0 -" for k in ("c:61", "c:41", "c:1", "c:1b", "Control", "LeftShift") for m in (0, 2, 8, 10))
        yield from (f"{verb} d {k} 0 0 {r} 0 0 -" for k in ("Control", "Alt", "Shift", "c:61") for r in ("LeftControl", "RightControl", "LeftAlt", "RightAlt", "LeftShift", "RightShift", "p:LeftControl", "p:RightAlt", "p:RightShift"))


def main():
    asked = list(queries())
    lines, notes = [], []
    for query, theirs in zip(asked, oracle(asked)):
        answer, why = expected(query, theirs)
        lines.append(answer)
        if why:
            notes.append(f"{len(lines)} {why}")
    for row in (HERE / "sample_reports.txt").read_text(encoding="utf-8").splitlines():
        if row and not row.startswith("#"):
            query, answer = row.split("\t")
            asked.append(query)
            lines.append(answer)
    for query, answer in sample_seat.rows(sample_seat.events_in(asked), 3000, 2028):
        asked.append(query)
        lines.append(answer)
    (CRATE / "stdin").write_text("".join(q + "\n" for q in asked))
    (CRATE / "stdout").write_text("".join(a + "\n" for a in lines))
    (CRATE / "data").mkdir(exist_ok=True)
    (CRATE / "data" / "corrected.txt").write_text("".join(n + "\n" for n in notes))
    print(f"{len(lines)} lines, {len(notes)} by a rule")


main()
