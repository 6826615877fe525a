"""Printed texts: terms in the notation of a grammar, goals, and readings as trees."""


def printed(grammar, names, term, least):
    """The tokens of a term: brackets stand round a node just where its level is below the least level asked for."""
    if term.what == "lexeme":
        return [term.text]
    if term.what == "variable":
        return [b"~" + names[term.number]]
    pieces = []
    _print_node(grammar, names, term, least, pieces)
    return pieces


def _print_node(grammar, names, term, least, pieces):
    production = grammar.productions[term.label]
    brackets = grammar.brackets_of(production.sort) if production.level < least else None
    if brackets:
        pieces.append(brackets[0])
    kids = iter(term.kids)
    for symbol in production.symbols:
        if symbol[0] == "literal":
            pieces.append(symbol[1])
            continue
        kid = next(kids)
        if kid.what == "node":
            _print_node(grammar, names, kid, symbol[2], pieces)
        else:
            pieces.extend(printed(grammar, names, kid, 0))
    if brackets:
        pieces.append(brackets[1])


def goal_text(grammar, production, places, names=()):
    """The symbols of a form; for each place its term at the place's least level, or `_`.

    `places` has for each place a term or None, `names` the names of the variables."""
    pieces = []
    rest = iter(places)
    for symbol in production.symbols:
        if symbol[0] == "literal":
            pieces.append(symbol[1])
            continue
        term = next(rest)
        if term is None:
            pieces.append(b"_")
        else:
            pieces.extend(printed(grammar, names, term, symbol[2] if symbol[0] == "part" else 0))
    return b" ".join(pieces)


def tree_text(grammar, reading, tokens):
    """A node is its label and its kids in `(` and `)` with `,` between; a bracket is `[`, the inner reading, `]`."""
    pieces = []
    _tree(grammar, reading, tokens, pieces)
    return b"".join(pieces)


def _tree(grammar, reading, tokens, pieces):
    if reading[0] == "lex":
        pieces.append(tokens[reading[1]].text)
    elif reading[0] == "var":
        pieces.append(b"~" + tokens[reading[1]].text)
    elif reading[0] == "bracket":
        pieces.append(b"[")
        _tree(grammar, reading[1], tokens, pieces)
        pieces.append(b"]")
    else:
        pieces.append(grammar.productions[reading[1]].label)
        for number, kid in enumerate(reading[2]):
            pieces.append(b"," if number else b"(")
            _tree(grammar, kid, tokens, pieces)
        if reading[2]:
            pieces.append(b")")

