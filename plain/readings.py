"""Readings: items as the least set, all readings of a token list counted, and the only one."""

from lines import Stop
from printing import tree_text
from terms import DEEPEST, KINDS, lexeme, node, too_deep, variable
from tokens import stem_of

MOST_ITEMS = 2000000
BRACKET_LEVEL = 100
MOST_SHOWN = 200

# A reading is ("node", label, kids, from, to), ("bracket", inner, from, to), ("lex", place) or ("var", place).


class Rows:
    """The productions of a grammar and behind them a bracket pair for each sort that has one, as rows of symbols."""

    def __init__(self, grammar):
        self.symbols = [production.symbols for production in grammar.productions]
        self.sorts = [production.sort for production in grammar.productions]
        self.levels = [production.level for production in grammar.productions]
        for line in grammar.sorts:
            if line.brackets is not None:
                opening, closing = line.brackets
                self.symbols.append([("literal", opening), ("part", line.name, 0), ("literal", closing)])
                self.sorts.append(line.name)
                self.levels.append(BRACKET_LEVEL)
        self.productions = len(grammar.productions)
        self.of_sort = {line.name: [] for line in grammar.sorts}
        for row, sort in enumerate(self.sorts):
            self.of_sort[sort].append(row)
        self.first = []
        self.row_of = []
        for row, symbols in enumerate(self.symbols):
            self.first.append(len(self.row_of))
            self.row_of.extend([row] * (len(symbols) + 1))
        self.next = []
        for symbols in self.symbols:
            self.next.extend(list(symbols) + [None])


class Chart:
    """The least set of items (row, dot, origin, end) that starts with the rows of a sort at 0 and is closed under
    prediction, scanning and completion. A spot is a row with its dot."""

    def __init__(self, grammar, start, stems, tokens):
        if grammar.rows is None:
            grammar.rows = Rows(grammar)
        self.rows = grammar.rows
        self.tokens = tokens
        self.literals = [token.text if token.mark == "literal" else None for token in tokens] + [None]
        self.stems = stems
        self.items = [set() for _ in range(len(tokens) + 1)]
        self.count = 0
        self.due = [[] for _ in range(len(tokens) + 1)]
        self.waiting = [{} for _ in range(len(tokens) + 1)]
        self.complete = [{} for _ in range(len(tokens) + 1)]
        self.asked = [set() for _ in range(len(tokens) + 1)]
        self._predict(start, 0, 0)
        for end in range(len(tokens) + 1):
            due = self.due[end]
            while due:
                self._follow(end, *due.pop())
        self.reach = max(end for end in range(len(tokens) + 1) if self.items[end] or end == 0)

    def reads_one(self, symbol, place):
        """Whether the symbol reads the token at the place by that one token, also as a metavariable."""
        if place >= len(self.tokens):
            return False
        token = self.tokens[place]
        if symbol[0] == "literal":
            return token.mark == "literal" and token.text == symbol[1]
        name = KINDS[symbol[1]] if symbol[0] == "lex" else symbol[1]
        if token.mark == "meta":
            return self.stems[stem_of(token.text)] == name
        return symbol[0] == "lex" and token.mark == name.decode()

    def _add(self, end, spot, origin):
        """Adds an item that is new. From one before a literal that does not stand there nothing follows."""
        key = spot * (len(self.tokens) + 1) + origin
        if key not in self.items[end]:
            self.items[end].add(key)
            self.count += 1
            if self.count > MOST_ITEMS:
                raise Stop(b"parsing needs more than %d items" % MOST_ITEMS)
            symbol = self.rows.next[spot]
            if symbol is None or symbol[0] != "literal" or symbol[1] == self.literals[end]:
                self.due[end].append((spot, origin))

    def holds(self, row, dot, origin, end):
        """Whether the item holds."""
        return (self.rows.first[row] + dot) * (len(self.tokens) + 1) + origin in self.items[end]

    def _predict(self, sort, least, end):
        if (sort, least) not in self.asked[end]:
            self.asked[end].add((sort, least))
            for row in self.rows.of_sort[sort]:
                if self.rows.levels[row] >= least:
                    self._add(end, self.rows.first[row], end)

    def _follow(self, end, spot, origin):
        """What one item gives by the three rules, with the items that are there."""
        symbol = self.rows.next[spot]
        if symbol is None:
            row = self.rows.row_of[spot]
            sort, level = self.rows.sorts[row], self.rows.levels[row]
            self.complete[end].setdefault(sort, {}).setdefault(origin, []).append(row)
            for least, other, begun in list(self.waiting[origin].get(sort, ())):
                if level >= least:
                    self._add(end, other + 1, begun)
            return
        if symbol[0] == "part":
            self.waiting[end].setdefault(symbol[1], []).append((symbol[2], spot, origin))
            for row in self.complete[end].get(symbol[1], {}).get(end, ()):
                if self.rows.levels[row] >= symbol[2]:
                    self._add(end, spot + 1, origin)
            self._predict(symbol[1], symbol[2], end)
        if self.reads_one(symbol, end):
            self._add(end + 1, spot + 1, origin)


class Readings:
    """All readings of a part of the tokens as a sort at least a level, counted; with the greatest depth.

    At most `most` of them are built."""

    def __init__(self, chart, most):
        self.chart = chart
        self.most = most
        self.rows = chart.rows
        self.counts = {}
        self.built = {}

    def spans(self, sort, least, start, end):
        """The rows of the sort with at least the level that read just these tokens."""
        return [row for row in self.chart.complete[end].get(sort, {}).get(start, ())
                if self.rows.levels[row] >= least]

    def count(self, symbol, start, end):
        """How many readings a symbol that is no literal has of these tokens, and the greatest depth of one."""
        number = deepest = 0
        if end == start + 1 and self.chart.reads_one(symbol, start):
            number = deepest = 1
        if symbol[0] == "part":
            for row in self.spans(symbol[1], symbol[2], start, end):
                some, deep = self.count_row(row, start, end)
                number += some
                deepest = max(deepest, deep)
        return number, deepest

    def count_row(self, row, start, end):
        """The same of a production, or of a bracket pair, which counts as one level of depth too."""
        if (row, start, end) not in self.counts:
            number, deepest = self.count_front(row, len(self.rows.symbols[row]), start, end)
            self.counts[row, start, end] = (number, deepest + 1)
        return self.counts[row, start, end]

    def cuts(self, row, dot, start, end):
        """The places at which the last of the first `dot` symbols may begin, when they end at `end`."""
        symbol = self.rows.symbols[row][dot - 1]
        places = set()
        if end > start and self.chart.reads_one(symbol, end - 1):
            places.add(end - 1)
        if symbol[0] == "part":
            places.update(self.chart.complete[end].get(symbol[1], ()))
        return sorted(p for p in places if p >= start and self.chart.holds(row, dot - 1, start, p))

    def count_front(self, row, dot, start, end):
        """How often the first `dot` symbols of a row read these tokens, and the greatest depth of their kids."""
        if dot == 0:
            return (1, 0) if start == end else (0, 0)
        symbol = self.rows.symbols[row][dot - 1]
        number = deepest = 0
        for place in self.cuts(row, dot, start, end):
            last, last_deep = (1, 0) if symbol[0] == "literal" else self.count(symbol, place, end)
            if last:
                some, deep = self.count_front(row, dot - 1, start, place)
                number += some * last
                if some:
                    deepest = max(deepest, deep, last_deep)
        return number, deepest

    def build(self, symbol, start, end):
        """Some readings of a symbol that is no literal."""
        found = []
        if end == start + 1 and self.chart.reads_one(symbol, start):
            found.append(("var" if self.chart.tokens[start].mark == "meta" else "lex", start))
        if symbol[0] == "part":
            for row in self.spans(symbol[1], symbol[2], start, end):
                found.extend(self.build_row(row, start, end))
        return found[:self.most]

    def build_row(self, row, start, end):
        """Some readings by a production or a bracket pair."""
        if (row, start, end) not in self.built:
            rows = self.build_front(row, len(self.rows.symbols[row]), start, end)
            if row < self.rows.productions:
                self.built[row, start, end] = [("node", row, kids, start, end) for kids in rows]
            else:
                self.built[row, start, end] = [("bracket", kids[0], start, end) for kids in rows]
        return self.built[row, start, end]

    def build_front(self, row, dot, start, end):
        """Some lists of kids for the first `dot` symbols of a row."""
        if dot == 0:
            return [[]] if start == end else []
        symbol = self.rows.symbols[row][dot - 1]
        found = []
        for place in self.cuts(row, dot, start, end):
            if symbol[0] == "literal":
                found.extend(self.build_front(row, dot - 1, start, place))
            else:
                lasts = self.build(symbol, place, end)
                fronts = self.build_front(row, dot - 1, start, place) if lasts else []
                found.extend(front + [last] for front in fronts for last in lasts)
            if len(found) >= self.most:
                break
        return found[:self.most]


class NoReading(Exception):
    """The tokens have no reading; the greatest end of any item."""

    def __init__(self, place):
        super().__init__(place)
        self.place = place


class TwoReadings(Exception):
    """The tokens have two readings; their tree texts, in order."""

    number = 0
    texts = []

    def __init__(self, one, other):
        super().__init__(one, other)
        self.text = b"two readings: %s and %s" % (one, other)


def read_one(grammar, start, stems, tokens):
    """The only reading of all the tokens as the sort; `stems` has for each stem the name of its sort."""
    chart = Chart(grammar, start, stems, tokens)
    readings = Readings(chart, 2)
    whole = ("part", start, 0)
    number, deepest = readings.count(whole, 0, len(tokens))
    if number == 0:
        raise NoReading(chart.reach)
    if deepest > DEEPEST:
        raise too_deep(deepest)
    found = readings.build(whole, 0, len(tokens))
    if number > 1:
        every = Readings(chart, MOST_SHOWN).build(whole, 0, len(tokens)) if number <= MOST_SHOWN else []
        TwoReadings.number = number
        TwoReadings.texts = [tree_text(grammar, reading, tokens) for reading in every]
        raise TwoReadings(*sorted(tree_text(grammar, reading, tokens) for reading in found))
    return found[0]


def term_of(reading, tokens, names):
    """The term without brackets; names of metavariables that `names` lacks are added in order of standing."""
    if reading[0] == "bracket":
        return term_of(reading[1], tokens, names)
    if reading[0] == "node":
        return node(reading[1], [term_of(kid, tokens, names) for kid in reading[2]])
    token = tokens[reading[1]]
    if reading[0] == "lex":
        return lexeme(("id", "num", "str").index(token.mark), token.text)
    if token.text not in names:
        names.append(token.text)
    return variable(names.index(token.text))


def place_of(reading, path):
    """The first token of the part of the term at the path; brackets round that part do not belong to it."""
    while reading[0] == "bracket":
        reading = reading[1]
    if path:
        return place_of(reading[2][path[0]], path[1:])
    return reading[3] if reading[0] == "node" else reading[1]
