"""Tokens: a text cut into words, numbers, strings, literals and metavariables."""

from lines import Stop

MOST = 10000
BLANKS = b" \t\n\r"
SYMBOLS = frozenset(b"!#$%&'()*+,-./:;<=>?@[\\]^`{|}")
QUOTE = ord('"')
TILDE = ord("~")


class Token:
    """A token: `literal`, `id`, `num`, `str` or `meta`; its text (that of a metavariable is its name); its places."""

    def __init__(self, mark, text, start, end):
        self.mark = mark
        self.text = text
        self.start = start
        self.end = end


class Defect(Exception):
    """The first defect of a text: what it is, and its place (None where no place is shown)."""

    def __init__(self, what, place):
        super().__init__(what)
        self.what = what
        self.place = place


def literal_shape(text):
    """`word`, `symbol` or `bad`."""
    try:
        shown = text.decode("utf-8")
    except UnicodeDecodeError:
        return "bad"
    if shown.isidentifier():
        return "word"
    if text and all(byte in SYMBOLS for byte in text) and b"//" not in text:
        return "symbol"
    return "bad"


def _character(text, at):
    """The character at the place, and the place behind it."""
    end = at + 1
    while end < len(text) and text[end] & 0xC0 == 0x80:
        end += 1
    return text[at:end].decode("utf-8"), end


def word_end(text, at):
    """The end of the longest word that begins at the place; the place itself where none does."""
    if at >= len(text):
        return at
    character, end = _character(text, at)
    if not character.isidentifier():
        return at
    while end < len(text):
        character, after = _character(text, end)
        if not ("a" + character).isidentifier():
            break
        end = after
    return end


def _longest_literal(text, at, symbols):
    """The longest literal of symbol characters that stands at the place, or None."""
    found = None
    for literal in symbols:
        if text.startswith(literal, at) and (found is None or len(literal) > len(found)):
            found = literal
    return found


def _piece(text, at, literals, symbols, metas):
    """The token that begins at the place."""
    byte = text[at]
    if byte == QUOTE:
        end = at + 1
        while end < len(text) and text[end] not in b'"\n':
            end += 1
        if end == len(text) or text[end] != QUOTE:
            raise Defect(b"string without end", at)
        return Token("str", text[at:end + 1], at, end + 1)
    if byte in b"0123456789":
        end = at
        while end < len(text) and text[end] in b"0123456789":
            end += 1
        return Token("num", text[at:end], at, end)
    if byte == TILDE:
        end = word_end(text, at + 1)
        if not metas or end == at + 1:
            raise Defect(b"bad token", at)
        return Token("meta", text[at + 1:end], at, end)
    if byte in SYMBOLS:
        literal = _longest_literal(text, at, symbols)
        if literal is None:
            raise Defect(b"bad token", at)
        return Token("literal", literal, at, at + len(literal))
    end = word_end(text, at)
    if end == at:
        raise Defect(b"bad token", at)
    word = text[at:end]
    return Token("literal" if word in literals else "id", word, at, end)


def cut(text, literals, metas, start=0):
    """The tokens of the text from a place on, or its first defect. Blanks and comments stand between tokens."""
    symbols = [literal for literal in literals if literal_shape(literal) == "symbol"]
    literals = frozenset(literals)
    found = []
    at = start
    while at < len(text):
        if text[at] in BLANKS:
            at += 1
        elif text.startswith(b"//", at):
            while at < len(text) and text[at] != 10:
                at += 1
        else:
            token = _piece(text, at, literals, symbols, metas)
            found.append(token)
            at = token.end
            if len(found) > MOST:
                raise Defect(b"more than %d tokens" % MOST, None)
    return found


def stem_of(name):
    """The stem of a metavariable: its name without the digits at its end."""
    return name.rstrip(b"0123456789")


def placed(defect, line_of):
    """The stop for a defect; the line and the column stand before it where it has a place."""
    if defect.place is None:
        return Stop(defect.what)
    return Stop(b"line %d column %d: %s" % (*line_of(defect.place), defect.what))
