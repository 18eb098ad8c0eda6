"""What `replay` has to answer, given what the Rust answers: the rule decides where a listed difference applies."""
import model

def outside(query):
    """The refusal of an event outside the checked ranges, or None."""
    fault = model.refused(query.split(" ")[2:])
    return fault and f"declined {fault[0]} {fault[1]}"


def named_refusal(text):
    """The refusal of a text that is no key name."""
    for prefix in ("Numpad", "F"):
        if text.startswith(prefix) and (prefix == "Numpad" or len(text.encode()) > 1):
            digits = text[len(prefix):]
            digits = digits[1:] if digits[:1] == "+" else digits
            readable = digits and all(c in "0123456789" for c in digits) and int(digits) <= 255
            return f"declined {4 if readable else 3} {len(prefix)}"
    return "declined 5 0" if len(text) == 1 else "declined 2 0"


WHITE = "\t\n\x0b\x0c\r \x85\xa0\u1680" + "".join(map(chr, range(0x2000, 0x200B))) + "\u2028\u2029\u202f\u205f\u3000"
WORDS = ("SHIFT", "ALT", "OPT", "META", "CTRL", "SUPER", "CMD", "WIN", "LEADER", "NONE", "")


def listed_refusal(text):
    """The refusal of a text that is no list of modifiers."""
    at = 0
    for part in text.split("|"):
        if part.strip(WHITE) not in WORDS:
            return f"declined 2 {at + len(part.encode()) - len(part.lstrip(WHITE).encode())}"
        at += len(part.encode()) + 1
    return "?"


def stated(c):
    """The US layout says what its lower case is, or it has none."""
    return ord(c) < 0x180 or 0x400 <= ord(c) <= 0x45F


def is_private(text):
    return len(text) == 1 and 0xE000 <= ord(text) <= 0xF8FF


def encoded(query, theirs):
    refusal = outside(query)
    if refusal:
        return refusal, "refused: outside the ranges"
    full = model.answer(query)
    if full == theirs:
        return theirs, None
    if model.answer(query, frozenset()) == theirs:
        return full, " + ".join(c for c in model.CORRECTIONS if model.answer(query, model.ALL - {c}) != full) or "several corrections at once"
    kind, v = model.key(query.split(" ")[3])
    if kind == "char" and not stated(v):
        return full, "lower case outside the stated letters"
    return theirs, None


def expected(query, theirs):
    """The answer and why it differs from the Rust's, or None."""
    verb, _, rest = query.partition(" ")
    if verb == "encode":
        return encoded(query, theirs)
    if verb == "unshift":
        c = chr(int(rest, 16))
        own = f"{ord(c):x}"
        return (theirs, None) if stated(c) or own == theirs else (own, "lower case outside the stated letters")
    if verb == "kittycode":
        word, phys = rest.split(" ")
        code = model.function_code(model.key(word), None if phys == "-" else phys, model.ALL)
        mine = "none" if code is None else str(code)
        return (theirs, None) if mine == theirs else (mine, "volume-down" if code == 57438 else "insert-number")
    if verb in ("keystr", "physstr"):
        letter = rest[2:] if verb == "keystr" and rest.startswith("p:") else rest if verb == "physstr" else ""
        if len(letter) == 1:
            lower = bytes.fromhex(theirs).decode().lower().encode().hex()
            return lower, None if lower == theirs else "a physical letter has its lower-case name"
        return theirs, None
    if verb in ("keyname", "physname", "mods", "composed"):
        text = "" if rest == "-" else bytes.fromhex(rest).decode()
        if verb in ("keyname", "composed") and is_private(text):
            return "declined 5 0", "refused: outside the ranges"
        if verb == "composed" and len(text) > 32:
            return f"declined 7 {len(text[:32].encode())}", "refused: outside the ranges"
        if theirs.startswith("err"):
            by_verb = {"keyname": named_refusal, "physname": lambda _: "declined 2 0", "mods": listed_refusal}
            return by_verb[verb](text), "a refusal has a number and a place"
    return theirs, None
