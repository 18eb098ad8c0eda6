"""The rules of what a key tells, in Python, with each correction of the Rust as a switch; and a plain seat over them.

With no correction on, `answer` is meant to answer as wezterm-input-types 0.1.0 does; with all on, as this
repository does. It is used to explain differences, and stands apart from the code that is compared.
"""
import re
import struct

CORRECTIONS = (
    "escape-disambiguated",
    "all-keys-no-old-way",
    "escape-once",
    "volume-down",
    "delete-is-a-key",
    "entering-releases",
    "begin-sum",
    "begin-tilde",
    "shifted-needs-shift",
    "no-control-text",
    "insert-number",
    "backspace-base",
    "delete-base",
)
ALL = frozenset(CORRECTIONS)
ESC = "\x1b"

DIGITS = (57425, 57424, 57420, 57422, 57417, None, 57418, 57423, 57419, 57421)
PADS = {
    "KeypadDecimal": 57409, "KeypadDivide": 57410, "KeypadMultiply": 57411, "KeypadSubtract": 57412,
    "KeypadAdd": 57413, "KeypadEnter": 57414, "KeypadEquals": 57415, "KeypadDelete": 57426,
}
PLAIN_PLACES = {
    "Shift": "LeftShift", "LeftShift": "LeftShift", "RightShift": "RightShift", "Alt": "LeftAlt", "LeftAlt": "LeftAlt",
    "RightAlt": "RightAlt", "LeftWindows": "LeftWindows", "RightWindows": "RightWindows", "Control": "LeftControl",
    "LeftControl": "LeftControl", "RightControl": "RightControl", "CapsLock": "CapsLock", "PageUp": "PageUp",
    "PageDown": "PageDown", "Home": "Home", "End": "End", "LeftArrow": "LeftArrow", "RightArrow": "RightArrow",
    "UpArrow": "UpArrow", "DownArrow": "DownArrow", "Insert": "Insert", "Help": "Help", "Multiply": "KeypadMultiply",
    "Clear": "KeypadClear", "Decimal": "KeypadDecimal", "Divide": "KeypadDivide", "Add": "KeypadAdd",
    "Subtract": "KeypadSubtract", "NumLock": "NumLock", "VolumeUp": "VolumeUp", "VolumeDown": "VolumeDown",
    "VolumeMute": "VolumeMute",
}
MARKS = {
    "\\": "Backslash", ",": "Comma", "\x08": "Backspace", "\x7f": "Delete", "=": "Equal", "\x1b": "Escape",
    "`": "Grave", "\r": "Return", "[": "LeftBracket", "]": "RightBracket", "-": "Minus", ".": "Period",
    "'": "Quote", ";": "Semicolon", "/": "Slash", " ": "Space", "\t": "Tab",
}
CHAR_OF_PLACE = {v: k for k, v in MARKS.items()}
CHAR_OF_PLACE.update({"KeypadDelete": "\x7f", "KeypadEquals": "=", "KeypadEnter": "\r"})
CHAR_OF_PLACE.update({c.upper(): c for c in "abcdefghijklmnopqrstuvwxyz"})
CHAR_OF_PLACE.update({"K" + c: c for c in "0123456789"})
BY_KEY = {
    "Decimal": 57409, "Divide": 57410, "Multiply": 57411, "Subtract": 57412, "Add": 57413, "Separator": 57416,
    "ApplicationLeftArrow": 57417, "ApplicationRightArrow": 57418, "ApplicationUpArrow": 57419,
    "ApplicationDownArrow": 57420, "KeyPadHome": 57423, "KeyPadEnd": 57424, "KeyPadBegin": 57427,
    "KeyPadPageUp": 57421, "KeyPadPageDown": 57422, "MediaPlayPause": 57430, "MediaStop": 57432,
    "MediaNextTrack": 57435, "MediaPrevTrack": 57436, "VolumeUp": 57439, "VolumeMute": 57440, "LeftShift": 57441,
    "LeftControl": 57442, "LeftAlt": 57443, "LeftWindows": 57444, "RightShift": 57447, "RightControl": 57448,
    "RightAlt": 57449, "RightWindows": 57450,
}
BY_PLACE = {
    "Escape": 27, "Return": 13, "Tab": 9, "Backspace": 127, "CapsLock": 57358, "NumLock": 57360, "VolumeUp": 57439,
    "VolumeMute": 57440, "LeftShift": 57441, "LeftControl": 57442, "LeftAlt": 57443, "LeftWindows": 57444,
    "RightShift": 57447, "RightControl": 57448, "RightAlt": 57449, "RightWindows": 57450,
}
BY_PLACE.update({f"F{n}": 57363 + n for n in range(13, 25)})
BY_PLACE.update({f"Keypad{n}": 57399 + n for n in range(10)})
BY_PLACE.update({k: v for k, v in PADS.items() if k != "KeypadDelete"})
FUNCTIONS = (11, 12, 13, 14, 15, 17, 18, 19, 20, 21, 23, 24)
ARROWS = {"UpArrow": "A", "DownArrow": "B", "RightArrow": "C", "LeftArrow": "D", "Home": "H", "End": "F"}
UNSHIFT = dict(zip('!@#$%^&*()_+~{}|:"<>?', "1234567890-=`[]\\;',./"))


def ctrl_mapping(c):
    table = {"@": 0, "`": 0, " ": 0, "2": 0, "3": 27, "{": 27, "[": 27, "4": 28, "|": 28, "\\": 28, "5": 29,
             "}": 29, "]": 29, "6": 30, "~": 30, "^": 30, "7": 31, "/": 31, "_": 31, "8": 127, "?": 127}
    if c.isascii() and c.isalpha():
        return chr(ord(c.upper()) - 64)
    return chr(table[c]) if c in table else None


def unshift(c):
    if c in UNSHIFT:
        return UNSHIFT[c]
    n = ord(c)
    if n == 0x178:
        return "\xff"
    if 65 <= n <= 90 or (0xC0 <= n <= 0xDE and n != 0xD7) or 0x410 <= n <= 0x42F:
        return chr(n + 32)
    if 0x400 <= n <= 0x40F:
        return chr(n + 80)
    if n % 2 == 0 and (0x100 <= n <= 0x12E or 0x132 <= n <= 0x136 or 0x14A <= n <= 0x176):
        return chr(n + 1)
    if n % 2 == 1 and (0x139 <= n <= 0x147 or 0x179 <= n <= 0x17D):
        return chr(n + 1)
    return c


def key(word):
    """A key as a pair of kind and value."""
    if word[1:2] == ":":
        kind, rest = word[0], word[2:]
        if kind == "c":
            return ("char", chr(int(rest, 16)))
        if kind == "s":
            return ("text", "" if rest == "-" else bytes.fromhex(rest).decode("utf-8"))
        if kind == "p":
            return ("place", rest)
        return ({"r": "raw", "n": "numpad", "f": "function"}[kind], int(rest))
    return ("plain", word)


def to_phys(k):
    kind, v = k
    if kind == "char":
        if v in MARKS:
            return MARKS[v]
        if v.isascii() and v.isalpha():
            return v.upper()
        return "K" + v if v.isascii() and v.isdigit() else None
    if kind == "numpad":
        return f"Keypad{v}" if v <= 9 else None
    if kind == "function":
        return f"F{v}" if 1 <= v <= 20 else None
    if kind == "place":
        return v
    return PLAIN_PLACES.get(v) if kind == "plain" else None


def function_code(k, phys, on):
    kind, v = k
    if kind == "function" and 13 <= v <= 35:
        return 57363 + v
    if kind == "numpad":
        return 57399 + v
    if kind == "plain":
        if v == "Insert":
            return 2 if "insert-number" in on else 57425
        if v == "VolumeDown":
            return 57438 if "volume-down" in on else 57436
        if v in BY_KEY:
            return BY_KEY[v]
    if phys == "Insert":
        return 2 if "insert-number" in on else 57425
    if phys == "VolumeDown":
        return 57438 if "volume-down" in on else 57436
    return BY_PLACE.get(phys)


def told(flags, event, on=ALL, base_of=unshift):
    """The report that a key tells by these settings, from the words of its event; None for silence.

    A report is a text or an old report with what it holds, an answer with flags, or a sequence with its number,
    shifted and base code, modifier sum, whether it is a release, final, and text.
    """
    w = event
    down, k, mods, leds = w[0] == "d", key(w[1]), int(w[2]), int(w[3])
    raw = None if w[4] == "-" else (key(w[4]), int(w[5]), None if w[7] == "-" else w[7])
    kind, v = k
    dis, types, alts, everything, words = (flags & b for b in (1, 2, 4, 8, 16))
    if not down and not types:
        return None
    if kind == "char" and down and mods == 0 and not everything:
        if v == "\x08":
            return ("text", "\x7f")
        if v == "\x7f":
            if "delete-is-a-key" not in on:
                return ("text", "\x08")
        elif not (v == ESC and dis and "escape-disambiguated" in on):
            return ("text", v)
    reported = raw[1] if raw else mods
    total = 0
    for have, bit, weight in ((reported, 2, 1), (reported, 4, 2), (reported, 8, 4), (reported, 16, 8), (leds, 2, 64), (leds, 4, 128)):
        total += weight if have & bit else 0
    text = None
    if down and words:
        text = {"char": lambda: v, "numpad": lambda: chr(48 + v), "text": lambda: v}.get(kind, lambda: None)()
        if text is not None and "no-control-text" in on:
            text = "".join(c for c in text if not (ord(c) < 32 or 128 <= ord(c) <= 159)) or None

    def sequence(number, final, shifted=None, base=None, text=None, total=total):
        return ("sequence", number, shifted, base, total, not down, final, text)

    phys = (raw[2] if raw and raw[2] else None) or to_phys(k)
    lock = leds & 4
    if phys in PADS:
        return sequence(PADS[phys], "u", text=text)
    if phys and phys.startswith("Keypad") and phys != "KeypadClear":
        d = int(phys[6:])
        if lock:
            return sequence(57399 + d, "u", text=text)
        if d == 5:
            own = (1 if mods & 2 else 0) + (2 if mods & 4 else 0) + (4 if mods & 8 else 0)
            return sequence(1, "E", total=total if "begin-sum" in on else own)
        return sequence(DIGITS[d], "u", text=text)
    if kind == "plain" and v in ("Insert", "PageUp", "PageDown"):
        return sequence({"Insert": 2, "PageUp": 5, "PageDown": 6}[v], "~")
    if k == ("char", "\x7f"):
        return sequence(3, "~")
    if kind == "char":
        if "entering-releases" in on and not down and not everything and v in "\r\t\x08":
            return None
        old = (not alts and down and 33 <= ord(v) <= 126 and not (dis and mods & 12) and not mods & 16)
        if "all-keys-no-old-way" in on and everything:
            old = False
        if old:
            held = v
            if mods & 8:
                held = ctrl_mapping(v.upper()) or v.upper()
                if mods & 4 and "escape-once" not in on:
                    held = ESC + held
            return ("old" if mods & 4 else "text", held)
        c = "\x7f" if v == "\x08" else v
        n = base_of(c)
        base = CHAR_OF_PLACE.get(raw[2]) if raw and raw[2] else None
        if base == "\x08" and "backspace-base" in on:
            base = "\x7f"
        elif base == "\x7f" and raw[2] == "Delete" and "delete-base" in on:
            base = None
        if base == n or not alts:
            base = None
        shifted = alts and n != c and ("shifted-needs-shift" not in on or reported & 2)
        return sequence(ord(n), "u", ord(c) if shifted else None, ord(base) if base else None, text)
    if kind == "plain" and v in ARROWS:
        return sequence(1, ARROWS[v])
    if kind == "function" and 1 <= v <= 24:
        return sequence(FUNCTIONS[v - 1], "~") if v <= 12 else sequence(57363 + v, "u")
    code = function_code(raw[0], raw[2], on) if raw else None
    if code is None or not everything:
        return None
    if code == 2 or (code == 57427 and "begin-tilde" in on):
        return sequence(code, "~")
    return sequence(code, "u", text=text)


def kitty(report):
    """The bytes of a report for a terminal's program."""
    kind, *held = report
    if kind in ("text", "old"):
        return ((ESC if kind == "old" else "") + held[0]).encode("utf-8")
    if kind == "answer":
        return f"{ESC}[?{held[0]}u".encode()
    number, shifted, base, total, release, final, text = held
    if (number, total, release, final) == (1, 0, False, "E"):
        return f"{ESC}[E".encode()
    out = f"{ESC}[{number}"
    if shifted is not None or base is not None:
        out += ":" + ("" if shifted is None else str(shifted)) + ("" if base is None else f":{base}")
    out += f";{total + 1}" + (":3" if release else "")
    if text is not None:
        out += ";" + ":".join(str(ord(c)) for c in text)
    return (out + final).encode()


def frame(report):
    """The bytes of a report for a recorder."""
    kind, *held = report
    if kind in ("text", "old"):
        return struct.pack("<HHI", 6, 1 if kind == "text" else 4, ord(held[0]))
    if kind == "answer":
        return struct.pack("<HHB", 3, 3, held[0])
    number, shifted, base, total, release, final, text = held
    codes = [ord(c) for c in text or ""]
    body = struct.pack("<III", *(0xFFFFFFFF if code is None else code for code in (number, shifted, base)))
    body += bytes([total, 3 if release else 1, ord(final), len(codes)]) + struct.pack(f"<{len(codes)}I", *codes)
    return struct.pack("<HH", 2 + len(body), 2) + body


def answer(query, on=ALL):
    """What `encode FLAGS EVENT` answers."""
    words = query.split(" ")
    report = told(int(words[1]), words[2:], on)
    return "-" if report is None else kitty(report).hex()


def refused(event):
    """The number and the place of what is wrong with an event, from its words; None for a right one."""
    for word, mods, leds in [event[1:4]] + ([event[4:7]] if event[4] != "-" else []):
        text = bytes.fromhex(word[2:].replace("-", "")) if word.startswith("s:") else b""
        kind, v = (None, None) if text else key(word)
        if kind == "char" and 0xE000 <= ord(v) <= 0xF8FF:
            return 5, 0
        if (kind == "function" and not 1 <= v <= 35) or (kind == "numpad" and v > 9) or int(mods) & 0xE001 or int(leds) & 0xF9:
            return 6, 0
        try:
            characters = text.decode("utf-8")
        except UnicodeDecodeError as fault:
            return 1, fault.start
        if len(characters) > 32:
            return 7, len(characters[:32].encode())
    return None


class Declined(Exception):
    """A number and a place."""


class Seat:
    """The plain seat: its calls change nothing where they are declined."""

    def __init__(self, capacity, dialect, base_of):
        self.capacity, self.dialect, self.base_of = capacity, dialect, base_of
        self.rows, self.shown = ([0], [0]), 0
        self.waiting = b""

    @property
    def row(self):
        return self.rows[self.shown]

    def send(self, report):
        sent = self.dialect(report)
        if len(sent) > self.capacity - len(self.waiting):
            raise Declined(8, 0)
        self.waiting += sent
        return len(sent)

    def key(self, event):
        fault = refused(event)
        if fault:
            raise Declined(*fault)
        report = told(self.row[-1], event, base_of=self.base_of)
        return 0 if report is None else self.send(report)

    def query(self):
        return self.send(("answer", self.row[-1]))

    def push(self, flags):
        if flags > 31:
            raise Declined(9, 0)
        self.row.append(flags)
        del self.row[:-8]

    def pop(self, n):
        if n == 0:
            raise Declined(10, 0)
        self.row[:] = self.row[:-n] or [0]

    def set(self, flags, mode):
        if flags > 31:
            raise Declined(9, 0)
        if mode not in (1, 2, 3):
            raise Declined(10, 0)
        top = self.row[-1]
        self.row[-1] = {1: flags, 2: top | flags, 3: top & ~flags}[mode]

    def screen(self, number):
        if number > 1:
            raise Declined(10, 0)
        self.shown = number

    def drain(self, room):
        drained, self.waiting = self.waiting[:room], self.waiting[room:]
        return drained


REQUEST = re.compile(rb"\x1b\[(?:([><])(\d*)|(=)(\d*)(?:;(\d*))?|(\?))u")
BEGUN = re.compile(rb"\x1b(?:\[(?:[><](\d*)|=(\d*)(?:;(\d*))?|\?)?)?")


class Requests:
    """The reader of requests: it keeps the bytes of the one that is begun."""

    def __init__(self):
        self.begun = b""

    def feed(self, byte):
        """What the byte ends: a request or a misfit, in words, or None."""
        given, self.begun = self.begun + bytes([byte]), b""
        whole = REQUEST.fullmatch(given)
        if whole:
            mark, n, equal, flags, mode, _ = whole.groups()
            if equal:
                return f"set {int(flags or 0)} {int(mode or 1)}"
            return {b">": f"push {int(n or 0)}", b"<": f"pop {int(n or 1)}", None: "query"}[mark]
        part = BEGUN.fullmatch(given)
        if part and all(int(n or 0) <= 65535 for n in part.groups()):
            self.begun = given
            return None
        self.begun = b"\x1b" if byte == 0x1B else b""
        return "misfit"
