"""Terms. Equal terms are one object, so that terms that double at each step stay small."""

from lines import Stop

DEEPEST = 1000
BIGGEST = 1000000
GREATEST = 2 ** 64 - 1
KINDS = (b"id", b"num", b"str")


class Term:
    """A node with a label and kids, a lexeme with a kind and a text, or a variable with a number."""

    __slots__ = ("what", "label", "kids", "kind", "text", "number", "depth", "size", "open")


_all = {}


def _made(key, what, depth, size, is_open):
    term = Term()
    term.what, term.depth, term.size, term.open = what, depth, size, is_open
    _all[key] = term
    return term


def node(label, kids):
    """The node; its depth is one more than that of its deepest kid, its size one more than the sum."""
    key = (label, tuple(kids))
    term = _all.get(key)
    if term is None:
        depth = size = 1
        is_open = False
        for kid in key[1]:
            depth = max(depth, 1 + kid.depth)
            size += kid.size
            is_open = is_open or kid.open
        term = _made(key, "node", depth, size, is_open)
        term.label, term.kids = label, key[1]
    return term


def lexeme(kind, text):
    """The lexeme of a kind (0 for id, 1 for num, 2 for str)."""
    key = ("lexeme", kind, text)
    term = _all.get(key)
    if term is None:
        term = _made(key, "lexeme", 1, 1, False)
        term.kind, term.text = kind, text
    return term


def variable(number):
    """The variable with this number."""
    key = ("variable", number)
    term = _all.get(key)
    if term is None:
        term = _made(key, "variable", 1, 1, True)
        term.number = number
    return term


def instance(term, binds):
    """The term with each variable replaced by what it is bound to."""
    if not term.open:
        return term
    if term.what == "variable":
        return binds[term.number]
    return node(term.label, [instance(kid, binds) for kid in term.kids])


def filled(term, binds, done):
    """The same; `done` has what is known under these bindings, so that a term that stands often is filled once."""
    if not term.open:
        return term
    if term.what == "variable":
        return binds[term.number]
    if term not in done:
        done[term] = node(term.label, [filled(kid, binds, done) for kid in term.kids])
    return done[term]


def matches(pattern, term, binds):
    """Whether an extension of the bindings makes the pattern's instance the term; `binds` is then so extended."""
    if not pattern.open:
        return pattern is term
    if pattern.what == "variable":
        if pattern.number in binds:
            return binds[pattern.number] is term
        binds[pattern.number] = term
        return True
    if term.what != "node" or term.label != pattern.label or len(term.kids) != len(pattern.kids):
        return False
    for one, other in zip(pattern.kids, term.kids):
        if not matches(one, other, binds):
            return False
    return True


def match_all(patterns, terms, binds):
    """The extension of the bindings by which the patterns' instances are the terms, or None."""
    more = dict(binds)
    for pattern, term in zip(patterns, terms):
        if not matches(pattern, term, more):
            return None
    return more


def too_deep(depth):
    """The stop for a depth over the limit."""
    return Stop(b"depth %d is over %d" % (depth, DEEPEST))


def too_big(size):
    """The stop for a term with too many nodes."""
    return Stop(b"a term has %d nodes, over %d" % (min(size, GREATEST), BIGGEST))


def measure(terms):
    """Stops at the first term that is too deep or too big; each is measured for depth and then for size."""
    for term in terms:
        if term.depth > DEEPEST:
            raise too_deep(term.depth)
        if term.size > BIGGEST:
            raise too_big(term.size)


def variables_of(term):
    """The numbers of the variables, in the order in which they stand."""
    if not term.open:
        return []
    if term.what == "variable":
        return [term.number]
    found = []
    for kid in term.kids:
        found.extend(variables_of(kid))
    return found


def has_sort(term, cons, sorts, sort):
    """Whether the term has the sort, with these constructors and these sorts of variables."""
    if term.what == "variable":
        return term.number < len(sorts) and sorts[term.number] == sort
    if term.what == "lexeme":
        return sort == ("lex", term.kind)
    if term.label >= len(cons):
        return False
    of, kids = cons[term.label]
    if of != sort or len(kids) != len(term.kids):
        return False
    return all(has_sort(kid, cons, sorts, wanted) for kid, wanted in zip(term.kids, kids))


def core_text(term):
    """The core text of a term."""
    pieces = []
    _write(term, pieces)
    return b"".join(pieces)


def _write(term, pieces):
    if term.what == "variable":
        pieces.append(b"?%d" % term.number)
    elif term.what == "lexeme":
        pieces.append(b"%c%d:%s" % (b"ins"[term.kind], len(term.text), term.text))
    else:
        pieces.append(b"(%d" % term.label)
        for kid in term.kids:
            pieces.append(b" ")
            _write(kid, pieces)
        pieces.append(b")")


class BadCore(Exception):
    """No core text stands at the place."""


def read_core(text, at):
    """The term whose core text stands at the place, the longest, and the place behind it."""
    first = text[at:at + 1]
    if first == b"(":
        label, at = _digits(text, at + 1, 2 ** 32 - 1)
        kids = []
        while text[at:at + 1] == b" ":
            kid, at = read_core(text, at + 1)
            kids.append(kid)
        if text[at:at + 1] != b")":
            raise BadCore()
        return node(label, kids), at + 1
    if first == b"?":
        number, at = _digits(text, at + 1, 63)
        return variable(number), at
    if first in (b"i", b"n", b"s"):
        length, at = _digits(text, at + 1, 65535)
        if length == 0 or text[at:at + 1] != b":" or at + 1 + length > len(text):
            raise BadCore()
        piece = text[at + 1:at + 1 + length]
        try:
            piece.decode("utf-8")
        except UnicodeDecodeError:
            raise BadCore()
        return lexeme(b"ins".index(first), piece), at + 1 + length
    raise BadCore()


def _digits(text, at, greatest):
    """The longest decimal number up to the greatest that stands at the place, without a leading zero."""
    if text[at:at + 1] == b"0":
        return 0, at + 1
    end = at
    while text[end:end + 1].isdigit() and int(text[at:end + 1]) <= greatest:
        end += 1
    if end == at:
        raise BadCore()
    return int(text[at:end]), end
