#!/usr/bin/env python3
"""Runs the worked examples of the protocol's document through `replay`, and lists those that differ.

    tools/protocol_examples.py REPLAY

Each row has a query, the document's bytes, and for those that differ the reason. Exit status 1 where a row differs
without a reason, or has one and does not differ.
"""
import subprocess
import sys

ESC = "\x1b"
OLD = "keys that the document's legacy tables send in another way are sequences here"
CTRL_SHIFT = "a character with Ctrl goes the old way without settings, also with Shift"
ROWS = [
    ("Ctrl+Shift+a is 97, never 65", "encode 1 d c:41 10 0 -", f"{ESC}[97;6u", None),
    ("Ctrl+Cyrillic es has base 99", "encode 5 d c:441 8 0 c:441 8 0 C", f"{ESC}[1089::99;5u", None),
    ("a release ends its modifiers in :3", "encode 10 u c:61 0 0 -", f"{ESC}[97;1:3u", None),
    ("Shift+a with the text A", "encode 24 d c:41 2 0 -", f"{ESC}[97;2;65u", None),
    ("Option+a with the text å", "encode 24 d c:e5 0 0 c:e5 0 0 A", f"{ESC}[97;;229u", "the number is the character's base in the layout, and no layout has å on the key a"),
    ("Escape alone", "encode 0 d c:1b 0 0 -", ESC, None),
    ("Ctrl+Shift+Tab", "encode 1 d c:9 10 0 -", f"{ESC}[9;6u", None),
    ("Ctrl+Space", "encode 0 d c:20 8 0 -", "\0", OLD),
]
for name, flags in (("no settings", 0), ("disambiguated", 1)):
    for key, code, text in (("Enter", "d", "\r"), ("Backspace", "8", "\x7f"), ("Tab", "9", "\t")):
        ROWS.append((f"{key}, {name}", f"encode {flags} d c:{code} 0 0 -", text, None))
for low, high in (("i", "I"), ("3", "#"), (";", ":")):
    control = {"i": "\t", "3": ESC, ";": ";"}[low]
    for name, c, mods, text, why in (
        ("plain", low, 0, low, None),
        ("shift", high, 2, high, None),
        ("alt", low, 4, ESC + low, None),
        ("ctrl", low, 8, control, None),
        ("shift+alt", high, 6, ESC + high, None),
        ("alt+ctrl", low, 12, ESC + control, None),
        ("ctrl+shift", high, 10, f"{ESC}[{ord(low)};6u", CTRL_SHIFT),
    ):
        ROWS.append((f"{low}, {name}", f"encode 0 d c:{ord(c):x} {mods} 0 -", text, why))
C0 = {
    "Enter": ("d", "\r", "\r", f"{ESC}\r", "\r", "\r", f"{ESC}\r", f"{ESC}\r"),
    "Escape": ("1b", ESC, ESC, ESC + ESC, ESC, ESC, ESC + ESC, ESC + ESC),
    "Backspace": ("8", "\x7f", "\x08", f"{ESC}\x7f", "\x7f", "\x08", f"{ESC}\x7f", f"{ESC}\x08"),
    "Tab": ("9", "\t", "\t", f"{ESC}\t", f"{ESC}[Z", f"{ESC}[Z", f"{ESC}{ESC}[Z", f"{ESC}\t"),
    "Space": ("20", " ", "\0", f"{ESC} ", " ", "\0", f"{ESC} ", f"{ESC}\0"),
}
for key, (code, *columns) in C0.items():
    for name, mods, text in zip(("none", "ctrl", "alt", "shift", "ctrl+shift", "alt+shift", "ctrl+alt"), (0, 8, 4, 2, 10, 6, 12), columns):
        ROWS.append((f"{key}, {name}", f"encode 0 d c:{code} {mods} 0 -", text, OLD if mods else None))
TABLE = {"/": 31, "0": 48, "1": 49, "2": 0, "3": 27, "4": 28, "5": 29, "6": 30, "7": 31, "8": 127, "9": 57, "?": 127, "@": 0, "[": 27, "\\": 28, "]": 29, "^": 30, "_": 31, "~": 30}
TABLE.update({chr(97 + n): n + 1 for n in range(26)})
for c, code in TABLE.items():
    ROWS.append((f"ctrl and {c}", f"encode 0 d c:{ord(c):x} 8 0 -", chr(code), None))

done = subprocess.run([sys.argv[1]], input="".join(q + "\n" for _, q, _, _ in ROWS), capture_output=True, text=True, check=True)
bad = differ = 0
for (name, query, text, why), got in zip(ROWS, done.stdout.splitlines(), strict=True):
    same = got == text.encode().hex()
    if same == (why is not None):
        bad += 1
        print(f"AMISS {name}: {query}: the document {text!r}, here {bytes.fromhex(got)!r}")
    elif not same:
        differ += 1
        print(f"{name}: the document {text!r}, here {bytes.fromhex(got).decode()!r}: {why}")
print(f"{len(ROWS)} examples, {differ} differ as listed, {bad} amiss")
sys.exit(1 if bad else 0)
