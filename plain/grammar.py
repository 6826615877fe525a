"""Grammars: sorts, productions with levels, and when they are a grammar."""

from lines import Stop
from terms import KINDS
from tokens import literal_shape

# A symbol is ("literal", text), ("lex", kind) or ("part", name of a sort, least level).
# A sort is ("lex", kind), ("plain", number) or ("typed", number), with the number of its sort line.


class Production:
    """A label, the name of the result's sort, a level and symbols."""

    def __init__(self, label, sort, level, symbols):
        self.label = label
        self.sort = sort
        self.level = level
        self.symbols = symbols


class SortLine:
    """The name of a sort, whether it is typed, and its two brackets or None."""

    def __init__(self, name, typed, brackets):
        self.name = name
        self.typed = typed
        self.brackets = brackets


def parts_of(production):
    """The symbols that are no literals."""
    return [symbol for symbol in production.symbols if symbol[0] != "literal"]


class Grammar:
    """Sort lines and productions for which none of the seven refusals holds."""

    def __init__(self, sorts, productions):
        self.sorts = sorts
        self.productions = productions
        self.rows = None
        self.literals = _literals(sorts, productions)
        _check_names(self)
        self.by_name = {}
        for number, line in enumerate(sorts):
            self.by_name[line.name] = number
        _check_shapes(self)
        self.of_sort = {line.name: [] for line in sorts}
        for number, production in enumerate(productions):
            self.of_sort[production.sort].append(number)

    def sort_of_name(self, name):
        """The sort with this name."""
        number = self.by_name[name]
        return ("typed" if self.sorts[number].typed else "plain", number)

    def sort_of_symbol(self, symbol):
        """The sort of a symbol that is no literal."""
        return symbol if symbol[0] == "lex" else self.sort_of_name(symbol[1])

    def brackets_of(self, name):
        """The bracket pair of a sort, or None."""
        return self.sorts[self.by_name[name]].brackets

    def constructors(self):
        """For each label its sort and the sorts of its parts."""
        return [(self.sort_of_name(production.sort),
                 [self.sort_of_symbol(symbol) for symbol in parts_of(production)])
                for production in self.productions]


def _literals(sorts, productions):
    """The distinct literals, sort lines before productions; the first bad one stops."""
    found = {}
    for line in sorts:
        for bracket in line.brackets or ():
            found[bracket] = True
    for production in productions:
        for symbol in production.symbols:
            if symbol[0] == "literal":
                found[symbol[1]] = True
    for literal in found:
        if literal_shape(literal) == "bad":
            raise Stop(b"bad literal %s" % literal)
    return list(found)


def _check_names(grammar):
    """Sorts are named once; each sort that is named has a line; labels are named once."""
    names = set()
    for line in grammar.sorts:
        if line.name in names:
            raise Stop(b"sort %s stands twice" % line.name)
        names.add(line.name)
    for production in grammar.productions:
        for name in [production.sort] + [s[1] for s in production.symbols if s[0] == "part"]:
            if name not in names or name in KINDS:
                raise Stop(b"unknown sort %s" % name)
    labels = set()
    for production in grammar.productions:
        if production.label in labels:
            raise Stop(b"label %s stands twice" % production.label)
        labels.add(production.label)


def _check_shapes(grammar):
    """Plain productions have no typed part; brackets are there where levels ask for them; no sort derives itself."""
    typed = {line.name for line in grammar.sorts if line.typed}
    for production in grammar.productions:
        if production.sort not in typed:
            for symbol in production.symbols:
                if symbol[0] == "part" and symbol[1] in typed:
                    raise Stop(b"production %s has a typed part" % production.label)
    for line in grammar.sorts:
        if line.brackets is None and _asks_above(grammar, line.name):
            raise Stop(b"sort %s needs brackets" % line.name)
    steps = _steps(grammar)
    for line in grammar.sorts:
        if line.name in _reached(steps, line.name):
            raise Stop(b"sort %s is cyclic" % line.name)


def _asks_above(grammar, sort):
    """Whether some part asks for a least level of the sort above the level of some production of it."""
    levels = [production.level for production in grammar.productions if production.sort == sort]
    return any(symbol[0] == "part" and symbol[1] == sort and levels and symbol[2] > min(levels)
               for production in grammar.productions for symbol in production.symbols)


def _empty_sorts(grammar):
    """The sorts that derive the empty list, levels left aside."""
    empty = set()
    grown = True
    while grown:
        grown = False
        for production in grammar.productions:
            if production.sort not in empty and all(
                    symbol[0] == "part" and symbol[1] in empty for symbol in production.symbols):
                empty.add(production.sort)
                grown = True
    return empty


def _steps(grammar):
    """For each sort the sorts that a production of it has as a part beside which all else derives the empty list."""
    empty = _empty_sorts(grammar)
    steps = {line.name: set() for line in grammar.sorts}
    for production in grammar.productions:
        full = [symbol for symbol in production.symbols if not (symbol[0] == "part" and symbol[1] in empty)]
        for symbol in production.symbols:
            if symbol[0] == "part" and (not full or (len(full) == 1 and full[0] is symbol)):
                steps[production.sort].add(symbol[1])
    return steps


def _reached(steps, sort):
    """The sorts that can be reached from a sort in one step or more."""
    found = set()
    due = list(steps[sort])
    while due:
        name = due.pop()
        if name not in found:
            found.add(name)
            due.extend(steps[name])
    return found
