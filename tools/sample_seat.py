#!/usr/bin/env python3
"""Sessions with a seat: queries, and the answers of the plain seat of model.py.

    tools/sample_seat.py LINES SEED             prints each query, a tab and its answer
    tools/sample_seat.py LINES SEED REPLAY      asks REPLAY, crates/replay/out/replay, and prints what it answers otherwise

The keys are the events of crates/replay/stdin, and some that are declined.
"""
import pathlib
import random
import subprocess
import sys

import model

STDIN = pathlib.Path(__file__).resolve().parent.parent / "crates" / "replay" / "stdin"
DIALECTS = {"kitty": model.kitty, "frame": model.frame}
LAYOUTS = {"us": model.unshift, "bare": lambda c: c}
KINDS = [(wire, dialect, layout) for wire in ("ring", "page") for dialect in DIALECTS for layout in LAYOUTS]
RING = 4096
# What is sent besides the events of the sample: text of each length, and each reason to decline one.
KEYS = (
    "d c:61 0 0 -", "d c:e9 0 0 -", "d c:20ac 0 0 -", "d c:1f600 0 0 -", "u c:61 0 0 -", "d c:41 2 0 -", "d c:42 10 0 c:42 10 0 B",
    "d c:1b 0 0 -", "d c:5b 4 0 -", "d f:5 0 0 -", "d UpArrow 2 0 -", "d c:416 2 0 c:416 2 0 K0", "d c:178 2 0 c:178 2 0 Y",
    "d s:f09f9880 0 0 c:31 0 0 Keypad1", "d s:" + "f48fbfbf" * 32 + " 30 6 c:31 30 6 Keypad1", "d s:" + "f48fbfbf" * 33 + " 0 0 -",
    "d c:e000 0 0 -", "d c:61 0 0 c:f8ff 0 0 -", "d f:0 0 0 -", "d f:36 0 0 -", "d n:10 0 0 -", "d c:61 1 0 -", "d c:61 8192 0 -",
    "d c:61 0 1 -", "d c:61 0 0 c:61 0 8 -", "d s:ff 0 0 -", "d s:61c3a9f0 0 0 -", "d c:61 0 0 s:c328 0 0 -",
    "d s:80 32768 0 -", "d c:e000 1 0 f:0 0 0 -", "d s:" + "c3a9" * 33 + "ff 0 0 -", "u s:" + "c3a9" * 40 + " 0 0 n:77 1 0 -",
)
NUMBERS = ("", "", "0", "1", "3", "7", "15", "31", "32", "255", "00", "007", "65534", "65535", "065535", "65536", "70000", "99999", "655350")
STRAY = (b"\x1b", b"\x1b[", b"\x1b\x1b", b"u", b"[", b";", b"a", b"\xff", b"\x00", b"\x1b[?1u", b"\x1b[>1;2u", b"\x1b[<-1u", b"\x1b[=1;2;3u", b"\x1b[1u", b"\x1b[> u")


class Model:
    """Answers each query as `replay` has to."""

    def __init__(self):
        self.seat = None
        self.requests = model.Requests()

    def answer(self, query):
        verb, _, rest = query.partition(" ")
        if verb == "request":
            ended = [self.requests.feed(byte) for byte in bytes.fromhex(rest.replace("-", ""))]
            return ",".join(filter(None, ended)) or "-"
        if verb == "open":
            return self.open(rest.split(" "))
        if verb == "frame":
            flags, event = rest.split(" ", 1)
            fault = model.refused(event.split(" "))
            report = None if fault else model.told(int(flags), event.split(" "))
            return "declined {} {}".format(*fault) if fault else "-" if report is None else model.frame(report).hex()
        if self.seat is None:
            return "bad seat"
        try:
            return self.call(verb, rest.split(" ") if rest else [])
        except model.Declined as why:
            return "declined {} {}".format(*why.args)

    def open(self, words):
        if len(words) != 3 or words[1] not in DIALECTS or words[2] not in LAYOUTS:
            return "bad words"
        page = words[0].startswith("page:")
        if not page and words[0] != "ring":
            return "bad words"
        size = words[0][5:]
        if page and not (size.isdigit() and int(size) <= 1048576):
            return "bad number"
        self.seat = model.Seat(int(size) if page else RING, DIALECTS[words[1]], LAYOUTS[words[2]])
        return "ok"

    def call(self, verb, words):
        if verb == "key":
            return str(self.seat.key(words))
        if len(words) != {"query": 0, "set": 2}.get(verb, 1):
            return "bad words"
        limit = {"push": 2**32 - 1, "set": 2**32 - 1, "drain": 65536}.get(verb, 2**64 - 1)
        if any(not word.isdigit() or int(word) > limit for word in words):
            return "bad number"
        result = getattr(self.seat, verb)(*map(int, words))
        if verb == "drain":
            return f"{len(result)} {result.hex() or '-'}"
        return "ok" if result is None else str(result)


def events_in(queries):
    """The well-formed events of those queries that encode one, by their words."""
    events = (query.split(" ", 2)[2] for query in queries if query.startswith("encode "))
    return [event for event in events if event[:2] in ("d ", "u ") and event.count(" ") in (4, 7)]


def some_request(rng):
    mark = rng.choice("><==?")
    if mark == "?":
        return b"\x1b[?u"
    mode = rng.choice(("", ";" + rng.choice(("", "1", "2", "3", "4") + NUMBERS))) if mark == "=" else ""
    return f"\x1b[{mark}{rng.choice(NUMBERS)}{mode}u".encode()


def requests(rng):
    """Lines for the reader of requests: whole ones, some cut short or with strange bytes, over one line or more."""
    given = b"".join(some_request(rng) for _ in range(rng.choice((1, 1, 1, 2, 5))))
    for _ in range(rng.choice((0, 0, 1, 2))):
        at = rng.randrange(len(given) + 1)
        given = given[:at] + rng.choice(STRAY + (bytes([rng.randrange(256)]),)) + given[at + rng.choice((0, 1)):]
    cuts = sorted(rng.randrange(len(given) + 1) for _ in range(rng.choice((0, 0, 1, 2))))
    for start, end in zip([0] + cuts, cuts + [len(given)]):
        yield f"request {given[start:end].hex() or '-'}"


def call(rng, events):
    """A call, also one that is declined."""
    flags = lambda: rng.choice((rng.randrange(32), rng.randrange(32), rng.randrange(32), rng.choice((32, 33, 64, 65535, 65536, 65537, 2**32 - 1, 2**32))))
    kind = rng.choices(("key", "query", "push", "pop", "set", "screen", "drain"), (44, 10, 12, 7, 12, 6, 9))[0]
    if kind == "key":
        return "key " + (rng.choice(KEYS) if rng.random() < 0.4 else rng.choice(events))
    if kind == "push":
        return f"push {flags()}"
    if kind == "set":
        return f"set {flags()} {rng.choice((1, 1, 2, 2, 3, 3, 0, 4, 65537, 2**32 - 1, 2**32))}"
    number = {
        "pop": (1, 1, 1, 2, 3, 7, 8, 9, 0, 0, 65536, 2**64 - 1, 2**64),
        "screen": (0, 0, 1, 1, 2, 256, 2**32, 2**64 - 1, 2**64),
        "drain": (0, 1, 2, 3, 5, 8, 13, 64, 500, 4096, 65536, 65537),
    }
    return kind if kind == "query" else f"{kind} {rng.choice(number[kind])}"


def between(rng, events):
    """A line that is no call: the seat stays as it is."""
    kind = rng.random()
    if kind < 0.7:
        yield from requests(rng)
    elif kind < 0.85:
        yield f"frame {rng.randrange(32)} {rng.choice(events)}"
    else:
        yield rng.choice(("open", "open ring", "open ring kitty", "open ring kitty us us", "open ring us kitty", "open rings kitty us", "open page kitty us", "open page: kitty us", "open page:x kitty us", "open page:1048577 frame bare", "open page:18446744073709551616 kitty us", "query 1", "push", "push x", "pop -1", "set 1", "set 1 2 3", "screen", "drain", "drain 1x"))


def opened(rng, kind, size=None):
    wire, dialect, layout = kind
    if wire == "page":
        wire = f"page:{rng.choice((0, 1, 2, 3, 4, 5, 7, 8, 12, 20, 40, 100, 600, 5000, 70000)) if size is None else size}"
    return f"open {wire} {dialect} {layout}"


def wandering(rng, events, kind):
    """Calls as they come."""
    yield opened(rng, kind)
    for _ in range(rng.choice((10, 30, 60))):
        if rng.random() < 0.12:
            yield from between(rng, events)
        else:
            yield call(rng, events)


def filling(rng, events, kind):
    """A page that the first reports fill to the last byte, or all but; then it is drained and used again."""
    _, dialect, layout = kind
    flags = rng.randrange(32)
    keys = [rng.choice(events) for _ in range(rng.randrange(1, 6))]
    plain = model.Seat(2**20, DIALECTS[dialect], LAYOUTS[layout])
    plain.push(flags)
    for event in keys:
        try:
            plain.key(event.split(" "))
        except model.Declined:
            pass
    yield opened(rng, ("page", dialect, layout), max(0, len(plain.waiting) - rng.choice((0, 0, 0, 1))))
    yield f"push {flags}"
    yield from (f"key {event}" for event in keys)
    yield rng.choice(("query", "key d c:61 0 0 -", "key u c:61 0 0 -"))
    room = rng.randrange(12)
    yield f"drain {room}"
    yield from (f"key {event}" for event in keys)
    yield f"drain {rng.choice((0, 4, 65536))}"
    yield "query"
    yield "drain 65536"


def brimming(rng, events, kind):
    """A wire filled until it declines, and drained in pieces, round its end more than once."""
    yield opened(rng, kind, 4096)
    yield "push 31"
    for room in (0, 3000, 4095, 1000):
        yield from rng.choices(("key " + KEYS[14], "key d c:1f600 0 0 -", "query"), (6, 1, 1), k=18)
        yield f"drain {room}"
        yield f"drain {rng.randrange(40)}"
    yield "drain 4096"
    yield "drain 4096"


def stacking(rng, _events, kind):
    """More settings than a stack holds, on one screen or both, and back."""
    yield opened(rng, kind, 600)
    for _ in range(rng.randrange(7, 24)):
        yield f"push {rng.randrange(32)}"
        if rng.random() < 0.1:
            yield f"screen {rng.randrange(2)}"
    for n in rng.choice(((1,) * 9, (3, 4, 1, 1), (7, 1), (8,), (6, 3), (9,))):
        yield "query"
        yield f"pop {n}"
    yield "query"
    yield "drain 600"
    yield f"screen {rng.randrange(2)}"
    yield "query"
    yield "drain 600"


def queries(events, lines, seed):
    """At least so many lines of sessions with every wire, dialect and layout."""
    rng = random.Random(seed)
    count = 0
    asked = ["key d c:61 0 0 -", "query", "push 1", "pop 1", "set 1 1", "screen 1", "drain 1", "open page:5 kitty", "query"]
    for turn in range(lines):
        kind = KINDS[turn % len(KINDS)]
        form = brimming if 8 <= turn % 400 < 12 else rng.choice((wandering, wandering, filling, stacking))
        asked += form(rng, events, kind)
        count += len(asked)
        yield from asked
        asked = []
        if count >= lines:
            return


def rows(events, lines, seed):
    plain = Model()
    return [(query, plain.answer(query)) for query in queries(events, lines, seed)]


def compare(replay, given):
    done = subprocess.run([replay], input="".join(q + "\n" for q, _ in given), capture_output=True, text=True, check=True)
    answers = done.stdout.splitlines()
    amiss = [(n, q, a, mine) for n, ((q, a), mine) in enumerate(zip(given, answers), 1) if a != mine]
    for n, query, answer, mine in amiss[:20]:
        print(f"{n}: {query}\n  the plain seat {answer}\n  replay         {mine}")
    print(f"{len(given)} lines, {len(answers)} answers, {len(amiss)} amiss")
    return 1 if amiss or len(answers) != len(given) else 0


def main():
    given = rows(events_in(STDIN.read_text().splitlines()), int(sys.argv[1]), int(sys.argv[2]))
    if len(sys.argv) > 3:
        sys.exit(compare(sys.argv[3], given))
    print("\n".join(f"{q}\t{a}" for q, a in given))


if __name__ == "__main__":
    main()
