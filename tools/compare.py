#!/usr/bin/env python3
"""Compares `replay` with the Rust itself, query by query, and explains every difference.

    tools/compare.py ORACLE REPLAY [--small]

ORACLE answers queries by running wezterm-input-types 0.1.0 unchanged, and generates vectors (`gen`); REPLAY is
crates/replay/out/replay, built by `rt run` in crates/replay. Each difference has to be explained by a correction of model.py or by
a listed difference; classes are counted, and what is unexplained is printed and makes the exit status 1.
"""
import collections
import itertools
import os
import random
import subprocess
import sys
import tempfile

from expected import WORDS, expected

ORACLE, REPLAY = sys.argv[1], sys.argv[2]
SMALL = "--small" in sys.argv
PARTS = 50 if SMALL else 1
counts = collections.Counter()
total = 0
unexplained = 0


def differing(queries, answers):
    """Runs REPLAY over a file of queries; yields what differs from a file of answers."""
    global total
    with open(queries, "rb") as given:
        ours = subprocess.Popen([REPLAY], stdin=given, stdout=subprocess.PIPE)
    with open(queries, "rb") as q, open(answers, "rb") as a:
        for line, theirs, mine in itertools.zip_longest(q, a, ours.stdout):
            total += 1
            if theirs != mine:
                yield line.decode().rstrip("\n"), (theirs or b"?").decode().rstrip("\n"), (mine or b"?").decode().rstrip("\n")
    if ours.wait() != 0:
        raise SystemExit("replay failed")


def report(kind, query, theirs, mine):
    global unexplained
    unexplained += 1
    if unexplained <= 20:
        print(f"UNEXPLAINED {kind}: {query}\n  the Rust {theirs}\n  replay   {mine}")


def settle(verb, query, theirs, mine):
    """Counts a difference that is expected, and reports one that is not."""
    wanted, why = expected(query, theirs)
    if wanted == mine:
        counts[f"{verb}: {why}"] += 1
    else:
        report(verb, query, theirs, mine)


def encodes(*arguments):
    with tempfile.TemporaryDirectory() as folder:
        pairs, queries, answers = (os.path.join(folder, n) for n in ("pairs", "queries", "answers"))
        with open(pairs, "wb") as out:
            subprocess.run([ORACLE, "gen", *arguments], stdout=out, stderr=subprocess.DEVNULL, check=True)
        subprocess.run(f"cut -f1 {pairs} > {queries}; cut -f2 {pairs} > {answers}", shell=True, check=True)
        for query, theirs, mine in differing(queries, answers):
            settle("encode", query, theirs, mine)


def ask(verb, queries):
    with tempfile.TemporaryDirectory() as folder:
        asked, answers = os.path.join(folder, "asked"), os.path.join(folder, "answers")
        with open(asked, "w") as out:
            out.writelines(q + "\n" for q in queries)
        with open(asked, "rb") as given, open(answers, "wb") as out:
            subprocess.run([ORACLE], stdin=given, stdout=out, check=True)
        for query, theirs, mine in differing(asked, answers):
            settle(verb, query, theirs, mine)


def listed(what):
    return subprocess.run([ORACLE, "list", what], capture_output=True, text=True, check=True).stdout.split()


def hexed(text):
    return text.encode("utf-8").hex() or "-"


def texts(seed, count):
    """Texts near names: names, changed names, and random ones."""
    rng = random.Random(seed)
    names = listed("keys") + listed("physnames") + list(WORDS) + [f"F{n}" for n in range(30)] + [f"Numpad{n}" for n in range(12)]
    names += ["F+7", "F07", "F++7", "F-1", "F256", "Numpad+3", "Numpad", "F", "f5", "Backspace", "Enter", "Return", "Delete", " SHIFT | CTRL "]
    signs = "F0123456789+|- \u00a0\u2003éÉabNUMPadctrlSHIFT\ue000\uf8ff😀"
    for _ in range(count):
        text = rng.choice(names)
        for _ in range(rng.choice((0, 0, 1, 1, 2, 3))):
            at = rng.randrange(len(text) + 1)
            text = text[:at] + rng.choice(signs) + text[at + rng.choice((0, 0, 1)):]
        if rng.random() < 0.2:
            text = "|".join(rng.choice((" ", "", "\u00a0", "\t")) + rng.choice(WORDS) + rng.choice((" ", "", "\u3000")) for _ in range(rng.randrange(1, 5)))
        if rng.random() < 0.05:
            text = "".join(rng.choice(signs) for _ in range(rng.randrange(40)))
        yield text


def main():
    encodes("exhaustive", "alone", *([f"slice=0/{PARTS}"] if SMALL else []))
    encodes("exhaustive", "codes", f"slice=3/{12 * PARTS}")
    encodes("exhaustive", "raw", f"slice=5/{13 * PARTS}")
    for seed in range(1, 6):
        encodes("random", str(seed), str(400000 // PARTS))
        encodes("random-all", str(seed + 100), str(100000 // PARTS))
    keys, places = listed("keys"), listed("phys")
    simple = [k for k in keys if ":" not in k] + [f"p:{p}" for p in places] + [f"n:{n}" for n in range(256)] + [f"f:{n}" for n in range(256)]
    simple += ["r:0", "r:77", "r:4294967295", "s:-", "s:6162", "s:c3a9", "s:c3a962"] + [f"c:{c:x}" for c in range(0, 0x500)] + ["c:e000", "c:1f600", "c:10ffff"]
    scalars = [c for c in range(0, 0x110000, PARTS) if not 0xD800 <= c <= 0xDFFF]
    ask("tophys", (f"tophys {k}" for k in simple))
    ask("ismod", (f"ismod {k}" for k in simple))
    ask("tokey", (f"tokey {p}" for p in places))
    ask("isphysmod", (f"isphysmod {p}" for p in places))
    ask("keystr", (f"keystr {k}" for k in simple))
    ask("physstr", (f"physstr {p}" for p in places))
    for verb in ("xterm", "nopos", "modstr"):
        ask(verb, (f"{verb} {m}" for m in range(0, 8192, 2)))
    ask("ledstr", (f"ledstr {n}" for n in (0, 2, 4, 6)))
    ask("ctrl", (f"ctrl {c:x}" for c in scalars))
    ask("asciictl", (f"asciictl {c:x}" for c in scalars))
    ask("unshift", (f"unshift {c:x}" for c in scalars))
    ask("kittycode", (f"kittycode {k} {p}" for k in simple[:300] + ["c:61", "n:5", "f:13", "f:25"] for p in places + ["-"]))
    ask("keyname", (f"keyname {hexed(t)}" for t in texts(1, 300000 // PARTS)))
    ask("keyname", (f"keyname {hexed(chr(c))}" for c in scalars[::7]))
    ask("physname", (f"physname {hexed(t)}" for t in texts(2, 200000 // PARTS)))
    ask("mods", (f"mods {hexed(t)}" for t in texts(3, 300000 // PARTS)))
    ask("composed", (f"composed {hexed(t * n)}" for t, n in zip(texts(4, 200000 // PARTS), itertools.cycle((1, 1, 2, 5)))))
    events = subprocess.run([ORACLE, "gen", "random", "77", str(200000 // PARTS)], capture_output=True, text=True, check=True).stdout
    for verb in ("normshift", "normctrl", "resurface"):
        ask(verb, (f"{verb} " + line.split("\t")[0].split(" ", 2)[2] for line in events.splitlines()))
    print(f"{total} queries, {sum(counts.values())} explained differences, {unexplained} unexplained")
    for why, n in sorted(counts.items(), key=lambda item: -item[1]):
        print(f"{n:9} {why}")
    sys.exit(1 if unexplained else 0)


main()
