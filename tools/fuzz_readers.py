#!/usr/bin/env python3
"""Feeds random and damaged bytes to both readers, and checks each answer by a slow reader of its own.

    tools/fuzz_readers.py REPLAY [COUNT] [SEED]

REPLAY is crates/replay/out/replay. The slow reader knows only how a report is written: it makes the reports whose shape fits
the first bytes, writes them, and compares. It shares nothing with the code that is compared.
"""
import random
import re
import struct
import subprocess
import sys

REPLAY = sys.argv[1]
COUNT = int(sys.argv[2]) if len(sys.argv) > 2 else 1000000
SEED = int(sys.argv[3]) if len(sys.argv) > 3 else 1
FINALS = "u~ABCDEFH"
TOP = 1114111


def scalar(n):
    return 0 <= n <= TOP and not 0xD800 <= n <= 0xDFFF


def valid(seq):
    number, shifted, base, total, _, final, text = seq
    if not (0 <= number <= TOP and 0 <= total <= 255 and len(text) <= 32 and all(map(scalar, text))):
        return False
    if any(c is not None and not 0 <= c <= TOP for c in (shifted, base)):
        return False
    if final != "u" and (shifted is not None or base is not None or text):
        return False
    return final in "u~" or number == 1


def kitty(seq):
    number, shifted, base, total, release, final, text = seq
    if (number, total, release, final) == (1, 0, False, "E"):
        return b"\x1b[E"
    out = f"\x1b[{number}"
    if base is not None:
        out += f":{'' if shifted is None else shifted}:{base}"
    elif shifted is not None:
        out += f":{shifted}"
    out += f";{total + 1}" + (":3" if release else "")
    if text:
        out += ";" + ":".join(map(str, text))
    return (out + final).encode()


def frame(seq):
    number, shifted, base, total, release, final, text = seq
    none = 0xFFFFFFFF
    body = struct.pack("<III", number, none if shifted is None else shifted, none if base is None else base)
    body += bytes([total, 3 if release else 1, ord(final), len(text)]) + b"".join(struct.pack("<I", c) for c in text)
    return struct.pack("<HH", len(body) + 2, 2) + body


def shown(seq):
    number, shifted, base, total, release, final, text = seq
    dash = lambda x: "-" if x is None else str(x)
    return f"seq {number} {dash(shifted)} {dash(base)} {total} {'release' if release else 'press'} {final} " + (":".join(map(str, text)) or "-")


def begins_number(digits, low, high):
    """Whether some number from low to high is written with these digits first."""
    if digits == "":
        return True
    if digits == "0" or digits[0] == "0":
        return digits == "0" and low == 0
    n = int(digits)
    while n <= high:
        if max(low, n) <= min(high, n):
            return True
        span_low, span_high = n, n
        while span_low <= high:
            if span_low <= high and span_high >= low:
                return True
            span_low, span_high = span_low * 10, span_high * 10 + 9
        return False
    return False


SEQUENCE = re.compile(rb"\x1b\[(\d+)(?::(\d*)(?::(\d+))?)?;(\d+)(:3)?(?:;(\d+(?::\d+)*))?([u~A-FH])")


def whole_kitty(given):
    """A clear report whose bytes begin the given ones, with its length."""
    if given[:3] == b"\x1b[E":
        return 3, shown((1, None, None, 0, False, "E", []))
    found = re.match(rb"\x1b\[\?(\d+)u", given)
    if found and int(found[1]) <= 31 and b"\x1b[?%du" % int(found[1]) == found[0]:
        return len(found[0]), f"answer {int(found[1])}"
    found = SEQUENCE.match(given)
    if found:
        text = [int(c) for c in found[6].split(b":")] if found[6] else []
        shifted = int(found[2]) if found[2] else None
        base = int(found[3]) if found[3] else None
        seq = (int(found[1]), shifted, base, int(found[4]) - 1, bool(found[5]), found[7].decode(), text)
        if valid(seq) and kitty(seq) == found[0]:
            return len(found[0]), shown(seq)
    for n in range(1, 5):
        try:
            c = given[:n].decode("utf-8")
        except UnicodeDecodeError:
            continue
        if len(c) == 1 and c != "\x1b":
            return n, f"text {ord(c):x}"
    return None


def part_kitty(given):
    """Whether the given bytes only begin some clear report."""
    if len(given) < 4 and given and given[0] >= 0x80:
        for filler in (0x80, 0xA0, 0x90, 0xBF, 0x8F, 0x9F):
            for n in range(len(given) + 1, 5):
                try:
                    if len((given + bytes([filler]) + b"\x80" * (n - len(given) - 1)).decode("utf-8")) == 1:
                        return True
                except UnicodeDecodeError:
                    pass
        return False
    try:
        s = given.decode("ascii")
    except UnicodeDecodeError:
        return False
    if "\x1b[".startswith(s):
        return True
    if not s.startswith("\x1b["):
        return False
    s = s[2:]
    if s[:1] == "?":
        return re.fullmatch(r"\d*", s[1:]) is not None and begins_number(s[1:], 0, 31)
    number, mark, s = re.fullmatch(r"(\d*)(\D?)(.*)", s, re.S).groups()
    if not mark:
        return begins_number(number, 0, TOP)
    if not number or not exact(number, 0, TOP):
        return False
    alternates = False
    if mark == ":":
        alternates = True
        shifted, mark, s = re.fullmatch(r"(\d*)(\D?)(.*)", s, re.S).groups()
        if not mark:
            return begins_number(shifted, 0, TOP)
        if shifted and not exact(shifted, 0, TOP):
            return False
        if mark == ":":
            base, mark, s = re.fullmatch(r"(\d*)(\D?)(.*)", s, re.S).groups()
            if not mark:
                return begins_number(base, 0, TOP)
            if not base or not exact(base, 0, TOP):
                return False
        elif not shifted:
            return False
    if mark != ";":
        return False
    total, mark, s = re.fullmatch(r"(\d*)(\D?)(.*)", s, re.S).groups()
    if not mark:
        return begins_number(total, 1, 256)
    if not total or not exact(total, 1, 256):
        return False
    if mark == ":":
        if not s:
            return True
        if s[0] != "3":
            return False
        s = s[1:]
        if not s:
            return True
        mark, s = s[0], s[1:]
    if mark != ";":
        return False
    codes = s.split(":")
    if len(codes) > 32 or any(not re.fullmatch(r"\d*", c) for c in codes):
        return False
    if any(not c or not exact(c, 0, TOP) or not scalar(int(c)) for c in codes[:-1]):
        return False
    last = codes[-1]
    return begins_scalar(last)


def exact(digits, low, high):
    return str(int(digits)) == digits and low <= int(digits) <= high


def begins_scalar(digits):
    if digits in ("", "0"):
        return True
    if digits[0] == "0":
        return False
    low = high = int(digits)
    while low <= TOP:
        if any(scalar(n) for n in (low, min(high, TOP), 0xD7FF if low <= 0xD7FF <= high else -1, 0xE000 if low <= 0xE000 <= high else -1)):
            return True
        low, high = low * 10, high * 10 + 9
    return False


def whole_frame(given):
    if len(given) < 4:
        return None
    size, kind = struct.unpack("<HH", given[:4])
    body = given[4 : 2 + size]
    if len(given) < 2 + size:
        return None
    if kind == 1 and size == 6:
        c = struct.unpack("<I", body)[0]
        return (8, f"text {c:x}") if scalar(c) and c != 27 else None
    if kind == 3 and size == 3:
        return (5, f"answer {body[0]}") if body[0] <= 31 else None
    if kind == 2 and size >= 18 and (size - 18) % 4 == 0 and (size - 18) // 4 <= 32:
        number, shifted, base = struct.unpack("<III", body[:12])
        shifted, base = (None if c == 0xFFFFFFFF else c for c in (shifted, base))
        if body[13] not in (1, 3) or chr(body[14]) not in FINALS or body[15] != (size - 18) // 4:
            return None
        text = [c for (c,) in struct.iter_unpack("<I", body[16:])]
        seq = (number, shifted, base, body[12], body[13] == 3, chr(body[14]), text)
        if valid(seq) and frame(seq) == given[: 2 + size]:
            return 2 + size, shown(seq)
    return None


def part_frame(given):
    """Whether some completion of the bytes is a frame: each field is tried with values that can stand there."""
    size, kind = given[:2], given[2:4]
    sizes = [s for s in [3, 6] + [18 + 4 * k for k in range(33)] if struct.pack("<H", s).startswith(size[:2]) and len(size) <= 2]
    for s in sizes:
        for k in ((3,) if s == 3 else (1,) if s == 6 else (2,)):
            head = struct.pack("<HH", s, k)
            if not head.startswith(given[:4]) or len(given) >= 2 + s:
                continue
            if completes(given[4:], s, k):
                return True
    return False


def le_begins(prefix, ok):
    """Whether some number with these low bytes first is allowed; ok answers for a list of candidates."""
    if len(prefix) == 4:
        return ok(struct.unpack("<I", prefix)[0])
    base = int.from_bytes(prefix, "little")
    step = 256 ** len(prefix)
    limits = [base + step * k for k in range(0, min(70000 // step + 2, 1200))]
    limits += [base + step * k for k in (TOP // step - 1, TOP // step)]
    return any(0 <= n <= 0xFFFFFFFF and ok(n) for n in limits)


def completes(body, s, k):
    if k == 3:
        return True
    if k == 1:
        return le_begins(body[:4], lambda c: scalar(c) and c != 27)
    fields = [body[0:4], body[4:8], body[8:12]]
    count = (s - 18) // 4
    code = lambda c: c <= TOP
    optional = lambda c: c <= TOP or c == 0xFFFFFFFF
    absent = lambda prefix: (b"\xff\xff\xff\xff").startswith(prefix)
    if not le_begins(fields[0], code):
        return False
    if len(body) > 4 and not (le_begins(fields[1], optional) or absent(fields[1])):
        return False
    if len(body) > 8 and not (le_begins(fields[2], optional) or absent(fields[2])):
        return False
    rest = body[12:]
    if len(rest) > 1 and rest[1] not in (1, 3):
        return False
    if len(rest) > 2:
        final = chr(rest[2])
        if final not in FINALS:
            return False
        number, shifted, base = (struct.unpack("<I", f)[0] for f in fields)
        if final != "u" and (count or shifted != 0xFFFFFFFF or base != 0xFFFFFFFF):
            return False
        if final not in "u~" and number != 1:
            return False
    if len(rest) > 3 and rest[3] != count:
        return False
    text = rest[4:]
    for at in range(0, len(text), 4):
        if not le_begins(text[at : at + 4], scalar):
            return False
    return True


def expected(dialect, given, room):
    whole, part = (whole_kitty, part_kitty) if dialect == "kitty" else (whole_frame, part_frame)
    found = whole(given)
    if found:
        length, report = found
        text = report.split(" ")[7] if report.startswith("seq") else "-"
        if text != "-" and len(text.split(":")) > room:
            return "declined 13 0"
        return f"ok {length} {report}"
    return "declined 11 0" if part(given) else "declined 12 0"


def some_sequence(rng):
    code = lambda: rng.choice((None, rng.randrange(128), rng.randrange(TOP + 1), TOP))
    text = [c for c in (rng.choice((97, 0x1F600, rng.randrange(TOP + 1))) for _ in range(rng.choice((0, 0, 1, 2, 5, 32)))) if scalar(c)]
    final = rng.choice(FINALS + "uuuu")
    number = rng.choice((0, 1, 1, 27, 97, 57404, rng.randrange(TOP + 1), TOP))
    if final != "u":
        return (number if final == "~" else 1, None, None, rng.randrange(256), rng.random() < 0.3, final, [])
    return (number, code(), code(), rng.choice((0, 1, 255, rng.randrange(256))), rng.random() < 0.3, final, text)


def some_bytes(rng, dialect):
    write = kitty if dialect == "kitty" else frame
    kind = rng.random()
    if kind < 0.6:
        given = write(some_sequence(rng))
    elif kind < 0.75:
        c = rng.choice((27, 97, 0xE9, 0x20AC, 0x1F600, 0xD7FF, 0xE000, TOP, rng.randrange(TOP + 1)))
        c = c if scalar(c) else 97
        given = chr(c).encode() if dialect == "kitty" else struct.pack("<HHI", 6, rng.choice((1, 1, 4)), c)
    elif kind < 0.85:
        n = rng.randrange(40)
        given = b"\x1b[?%du" % n if dialect == "kitty" else struct.pack("<HHB", 3, 3, n)
    else:
        given = bytes(rng.choice(b"\x1b[?:;0123456789u~AEH\xc3\xa9\xed\xa0\x80\xf0\x9f\x06\x00\x01\x12\x02\xff") for _ in range(rng.randrange(24)))
    given = bytearray(given + bytes(rng.randrange(256) for _ in range(rng.choice((0, 0, 3)))))
    for _ in range(rng.choice((0, 0, 0, 1, 1, 2))):
        way = rng.random()
        at = rng.randrange(len(given) + 1)
        if way < 0.3:
            del given[at:]
        elif way < 0.5 and at < len(given):
            del given[at]
        elif way < 0.75:
            given.insert(at, rng.choice(b"0193;:u~AE\x00\xff\x80\x1b["))
        elif at < len(given):
            given[at] = rng.choice((given[at] ^ 1, rng.randrange(256), 0, 255, 0x30, 0x3A))
    return bytes(given)


def main():
    rng = random.Random(SEED)
    asked, wanted = [], []
    bad = total = 0
    tally = {}

    def flush():
        nonlocal bad, total
        done = subprocess.run([REPLAY], input="".join(q + "\n" for q in asked), capture_output=True, text=True, check=True)
        for query, want, got in zip(asked, wanted, done.stdout.splitlines(), strict=True):
            total += 1
            tally[got.split(" ")[0] + (" " + got.split(" ")[1] if got.startswith("declined") else "")] = 1 + tally.get(got.split(" ")[0] + (" " + got.split(" ")[1] if got.startswith("declined") else ""), 0)
            if want != got:
                bad += 1
                if bad <= 20:
                    print(f"AMISS {query}\n  wanted {want}\n  got    {got}")
        asked.clear()
        wanted.clear()

    for _ in range(COUNT):
        dialect = rng.choice(("kitty", "frame"))
        given, room = some_bytes(rng, dialect), rng.choice((0, 1, 5, 31, 32, 40))
        asked.append(f"read {dialect} {given.hex() or '-'} {room}")
        wanted.append(expected(dialect, given, room))
        if len(asked) == 50000:
            flush()
    flush()
    print(f"{total} inputs, {bad} amiss; " + ", ".join(f"{k}: {v}" for k, v in sorted(tally.items())))
    sys.exit(1 if bad else 0)


main()
