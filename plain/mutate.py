"""Files with one line or a few bytes changed."""

import re

ODD = (b"\xff", b"\x00", b"\r", b"\t", b"\xc3\xa9", b"\xc3", b"\xe2\x82", b"~", b'"', b"/", b"//", b"?", b" ", b"\n",
       b"0", b"(", b")", b":", b"@", b"-", b"_", b"\xcc\x81", b"\xf0\x9d\x94\xb8")
NUMBERS = (b"0", b"1", b"2", b"3", b"00", b"01", b"9", b"63", b"64", b"65", b"99", b"100", b"4294967295", b"4294967296",
           b"18446744073709551616", b"-1", b"")
WORDS = (b"sort", b"con", b"form", b"rule", b"if", b"not", b"then", b"end", b"goal", b"plain", b"typed", b"prod", b"var",
         b"main", b"---", b"language", b"module", b"use", b"import", b"id", b"num", b"str", b"in", b"sub", b"out",
         b"sxcore", b"extension", b"to", b"!=", b'""', b'"a-b"', b'"//"', b'"1"', b"in:id", b"sub:Exp", b"id@5", b"Zz")


def by_line(rng, text):
    """A line that changed its place, or is twice there, or not there, or is there in place of another."""
    lines = text.split(b"\n")
    one, other = rng.randrange(len(lines)), rng.randrange(len(lines))
    what = rng.randrange(7)
    if what == 0:
        lines[one], lines[other] = lines[other], lines[one]
    elif what == 1:
        lines.pop(one)
    elif what == 2:
        lines.insert(other, lines[one])
    elif what == 3:
        lines.insert(other, lines.pop(one))
    elif what == 4:
        lines[one] = lines[other]
    elif what == 5:
        lines.insert(one, rng.choice((b"", b"// x", b"  // x", b"end", b"---", b"x", b" ", b"\r", b"rule R", b"// \xff")))
    else:
        return b"\n".join(lines[:one]) + (b"\n" if rng.random() < 0.5 and one else b"")
    return b"\n".join(lines)


def by_part(rng, text):
    """A line with a part changed, dropped, doubled or moved, or with a blank more or less."""
    lines = text.split(b"\n")
    at = rng.randrange(len(lines))
    parts = lines[at].split(b" ")
    one, other = rng.randrange(len(parts)), rng.randrange(len(parts))
    what = rng.randrange(8)
    if what == 0:
        parts[one], parts[other] = parts[other], parts[one]
    elif what == 1:
        parts.pop(one)
    elif what == 2:
        parts.insert(one, parts[other])
    elif what == 3:
        parts[one] = rng.choice(WORDS)
    elif what == 4:
        parts.insert(one, b"")
    elif what == 5:
        pool = re.findall(rb"[^\s]+", text) or [b"x"]
        parts[one] = rng.choice(pool)
    elif what == 6 and len(parts) > 1:
        one = rng.randrange(len(parts) - 1)
        parts[one:one + 2] = [parts[one] + parts[one + 1]]
    else:
        parts.append(rng.choice((b"", b"x", b"// x", b"\t", b"\r", b"0")))
    lines[at] = b" ".join(parts)
    return b"\n".join(lines)


def by_byte(rng, text):
    """A byte changed, dropped or put in; a number changed; the text cut."""
    at = rng.randrange(len(text) + 1)
    what = rng.randrange(6)
    if what == 0:
        return text[:at] + text[at + 1:]
    if what == 1:
        return text[:at] + rng.choice(ODD) + text[at:]
    if what == 2:
        return text[:at] + rng.choice(ODD) + text[at + 1:]
    if what == 3:
        return text[:at] + bytes([rng.randrange(256)]) + text[at + 1:]
    if what == 4:
        return text[:at]
    numbers = list(re.finditer(rb"[0-9]+", text))
    if not numbers:
        return text
    found = rng.choice(numbers)
    return text[:found.start()] + rng.choice(NUMBERS) + text[found.end():]


def changed(rng, text):
    """The text with one change, now and then with two."""
    for _ in range(1 if rng.random() < 0.85 else 2):
        text = rng.choice((by_line, by_part, by_part, by_byte, by_byte))(rng, text)
    return text
