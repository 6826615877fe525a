"""Random languages and modules."""

from grammar import Grammar, Production, SortLine, parts_of
from language_files import Language
from lines import Stop
from make_rules import Signature, random_rules
from printing import printed
from rules import Form
from spoil import spoiled
from terms import KINDS, node
from walk import Walk

BRACKETS = ((b"(", b")"), (b"[", b"]"), (b"{", b"}"), (b"begin", b"end"), None)
LITERALS = (b"+", b"++", b"-", b"->", b"=", b"=>", b"==", b".", b"..", b"!", b"#", b"<", b"<>", b"*", b"&", b"|",
            b"let", b"in", b"if", b"then", b"else", b"fun", b"of", b"List", b"Int", b"Str", b"a", b"b", b"t", b"\\", b"/")
STEMS = {b"C": b"Env", b"T": b"Ty", b"e": b"Exp", b"x": b"id", b"n": b"num", b"s": b"str", b"k": b"Kind", b"q": b"Stm"}


def random_production(rng, label, sort, kids):
    """A production with these parts, literals between them, and levels that are good as a rule."""
    level = rng.choice((0, 10, 10, 20, 50, 90))
    symbols = []
    for at, kid in enumerate(kids):
        if rng.random() < (0.25 if at == 0 else 0.75):
            symbols.append(("literal", rng.choice(LITERALS)))
        if kid in KINDS:
            symbols.append(("lex", KINDS.index(kid)))
        else:
            least = rng.choice((0, level, level, min(99, level + 1), min(99, level + 1), 90))
            symbols.append(("part", kid, least))
    if not symbols or rng.random() < 0.25 or (len(symbols) == 1 and kids and rng.random() < 0.95):
        symbols.append(("literal", rng.choice(LITERALS)))
    if not kids and rng.random() < 0.04:
        symbols = []
    return Production(label, sort, level if kids else rng.choice((90, 90, 50)), symbols)


def random_grammar(rng):
    """Sort lines and productions: environments, types and expressions, and now and then one sort more."""
    pairs = [rng.choice(BRACKETS[:-1]) if rng.random() < 0.93 else None for _ in range(4)]
    sorts = [SortLine(b"Env", False, pairs[0]), SortLine(b"Ty", False, pairs[1]), SortLine(b"Exp", True, pairs[2])]
    plain, typed = [b"Ty"], [b"Exp"]
    if rng.random() < 0.2:
        sorts.append(SortLine(b"Kind", False, pairs[3]))
        plain.append(b"Kind")
    if rng.random() < 0.2:
        sorts.append(SortLine(b"Stm", True, pairs[3]))
        typed.append(b"Stm")
    rows = [Production(b"none", b"Env", 90, [("literal", b"[]")]),
            Production(b"bind", b"Env", 10, [("part", b"Env", 10), ("literal", b","), ("lex", 0), ("literal", b":"),
                                             ("part", b"Ty", 0)])]
    for sort in plain:
        for _ in range(rng.choice((1, 2))):
            rows.append(random_production(rng, b"p%d" % len(rows), sort, []))
        for _ in range(rng.randrange(3)):
            kids = [rng.choice(plain + [b"Ty", b"Ty", b"id"]) for _ in range(rng.choice((1, 2, 2)))]
            rows.append(random_production(rng, b"p%d" % len(rows), sort, kids))
    for sort in typed:
        rows.append(Production(b"p%d" % len(rows), sort, 90, [("lex", 1)]))
        if rng.random() < 0.8:
            rows.append(Production(b"p%d" % len(rows), sort, 90, [("lex", 0)]))
        for _ in range(rng.choice((1, 2, 3, 4))):
            kids = [rng.choice(typed * 3 + plain + list(KINDS)) for _ in range(rng.choice((0, 1, 2, 2, 3)))]
            rows.append(random_production(rng, b"p%d" % len(rows), sort, kids))
    for sort, literal in ((b"Exp", b"+"), (b"Ty", b"*")):
        if rng.random() < 0.2:
            rows.append(Production(b"sum" + sort, sort, 20, [("part", sort, rng.choice((0, 20))), ("literal", literal),
                                                             ("part", sort, rng.choice((0, 20, 21)))]))
    return sorts, rows


def symbol_text(symbol):
    """How a symbol is spelled."""
    if symbol[0] == "literal":
        return b'"%s"' % symbol[1]
    if symbol[0] == "lex":
        return KINDS[symbol[1]]
    return symbol[1] + (b"@%d" % symbol[2] if symbol[2] else b"")


def random_forms(rng, sorts):
    """Form lines as lists of literals and places: typing, lookup, and perhaps others."""
    forms = [(b"typing", [("in", ("part", b"Env", 0)), ("literal", b"|-"), ("sub", ("part", b"Exp", 0)),
                          ("literal", b":"), ("out", ("part", b"Ty", rng.choice((0, 0, 0, 90))))]),
             (b"lookup", [("in", ("part", b"Env", 0)), ("literal", b"@"), ("in", ("lex", 0)), ("literal", b":"),
                          ("out", ("part", b"Ty", 0))])]
    if any(line.name == b"Stm" for line in sorts):
        forms.append((b"doing", [("in", ("part", b"Env", 0)), ("literal", b"||-"), ("sub", ("part", b"Stm", 0))]
                      + ([("literal", b"::"), ("out", ("part", b"Ty", 0))] if rng.random() < 0.7 else [])))
    if rng.random() < 0.25:
        forms.append((b"like", [("in", ("part", b"Ty", 0)), ("literal", b"~~" if rng.random() < 0.02 else b"<:"),
                                (rng.choice(("in", "out")), ("part", b"Ty", rng.choice((0, 50))))]))
    return forms


class Draft:
    """A language in the making, with the lines of its file."""

    def __init__(self, rng):
        self.rng = rng
        self.sorts, self.rows = random_grammar(rng)
        self.form_lines = random_forms(rng, self.sorts)
        names = {line.name: ("typed" if line.typed else "plain", n) for n, line in enumerate(self.sorts)}
        self.names = names

        def sort_of(symbol):
            return ("lex", symbol[1]) if symbol[0] == "lex" else names[symbol[1]]

        cons = [(names[row.sort], [sort_of(symbol) for symbol in parts_of(row)]) for row in self.rows]
        forms = [Form(name, [(role, sort_of(symbol)) for role, symbol in symbols if role != "literal"])
                 for name, symbols in self.form_lines]
        self.signature = Signature(rng, cons, forms)
        try:
            self.grammar = Grammar(self.sorts, self.rows)
        except Stop:
            self.grammar = Grammar([SortLine(line.name, True, (b"(", b")")) for line in self.sorts],
                                   [Production(b"%d" % n, row.sort, row.level, [("literal", b"?")] + [
                                       s for s in row.symbols if s[0] != "literal"]) for n, row in enumerate(self.rows)])
        self.rules = self.lookup_rules() + random_rules(self.signature, 40)

    def lookup_rules(self):
        """The rules of looking a name up, as lines."""
        if self.rng.random() < 0.05:
            return []
        far = [b"~x != ~x1"] if self.rng.random() < 0.9 else []
        return [[b"rule L-Here", b"---", b"~C , ~x : ~T @ ~x : ~T", b"end"],
                [b"rule L-There"] + far + [b"~C @ ~x : ~T", b"---", b"~C , ~x1 : ~T1 @ ~x : ~T", b"end"]]

    def names_of(self, rule):
        """Names of metavariables by their sorts' stems."""
        stems = {self.names.get(sort, ("lex", KINDS.index(sort) if sort in KINDS else 9)): stem
                 for stem, sort in STEMS.items()}
        return [stems[sort] + (b"%d" % n if n else b"") for n, sort in enumerate(rule.sorts)]

    def line_of(self, it, names):
        """A judgement, or two lexemes apart, as it stands on a line of a rule."""
        if isinstance(it, tuple):
            return b" != ".join(b" ".join(printed(self.grammar, names, side, 0)) for side in it)
        terms, pieces = iter(it.places), []
        for role, symbol in self.form_lines[it.form][1]:
            if role == "literal":
                pieces.append(symbol)
            else:
                least = symbol[2] if symbol[0] == "part" else 0
                pieces.extend(printed(self.grammar, names, next(terms), least))
        return b" ".join(pieces)

    def rule_lines(self, rule):
        """The lines of a rule."""
        if isinstance(rule, list):
            return rule
        names = self.names_of(rule)
        return ([b"rule " + rule.name] + [self.line_of(it, names) for it in rule.premises]
                + [b"---", self.line_of(rule.conclusion, names), b"end"])

    def text(self):
        """The text of the language file."""
        lines = [b"sort %s %s" % (line.name, b"typed" if line.typed else b"plain")
                 + (b' "%s" "%s"' % line.brackets if line.brackets else b"") for line in self.sorts]
        lines += [b"prod %s %s %d :" % (row.label, row.sort, row.level)
                  + b"".join(b" " + symbol_text(symbol) for symbol in row.symbols) for row in self.rows]
        lines += [b"var %s : %s" % pair for pair in STEMS.items() if pair[1] in self.names or pair[1] in KINDS]
        for name, symbols in self.form_lines:
            lines.append(b"form %s :" % name + b"".join(
                b' "%s"' % s if role == "literal" else b" %s:%s" % (role.encode(), symbol_text(s))
                for role, s in symbols))
        lines.append(b"main typing none bind")
        if self.rng.random() < 0.1:
            self.rng.shuffle(lines)
        for rule in self.rules:
            lines += self.rule_lines(rule)
        return b"language L\n" + b"".join(line + b"\n" for line in lines)

    def body(self):
        """The tokens of a random module."""
        term = self.signature.term(self.names[b"Exp"], self.rng.randrange(6))
        if term is None:
            return None
        return term, self.bracketed(term, 0) if self.rng.random() < 0.3 else printed(self.grammar, [], term, 0)

    def bracketed(self, term, least):
        """The tokens of a term, with more brackets than are needed."""
        if term.what != "node":
            return [term.text]
        row, kids, pieces = self.grammar.productions[term.label], iter(term.kids), []
        for symbol in row.symbols:
            if symbol[0] == "literal":
                pieces.append(symbol[1])
            else:
                pieces.extend(self.bracketed(next(kids), symbol[2] if symbol[0] == "part" else 0))
        pair = self.grammar.brackets_of(row.sort)
        if pair and (row.level < least or self.rng.random() < 0.4):
            pieces = [pair[0]] + pieces + [pair[1]]
        return pieces


def is_read(text):
    """Whether the text states a language."""
    try:
        Language(b"L", text)
    except Stop:
        return False
    return True


def soup(rng, draft, pieces):
    """Tokens that are none of a printed term: random ones, or those of a term with some changed."""
    pool = [symbol[1] for row in draft.rows for symbol in row.symbols if symbol[0] == "literal"]
    pool += [bracket for line in draft.sorts for bracket in line.brackets or ()]
    pool += [b"x", b"y", b"1", b'"a"', b"~x", b'"', b"//", b"?", b"@", b"\xc3\xa9"]
    if rng.random() < 0.4:
        return [rng.choice(pool) for _ in range(rng.randrange(7))]
    pieces = list(pieces) or [b"1"]
    for _ in range(rng.choice((1, 1, 2, 3))):
        at = rng.randrange(len(pieces))
        what = rng.randrange(4)
        if what == 0 and len(pieces) > 1:
            pieces.pop(at)
        elif what == 1:
            pieces.insert(at, rng.choice(pool))
        elif what == 2:
            pieces[at] = rng.choice(pool)
        else:
            other = rng.randrange(len(pieces))
            pieces[at], pieces[other] = pieces[other], pieces[at]
    return pieces


def chosen_body(rng, draft, text):
    """A body, one with a derivation where such is found soon; and the tries of its walk (None, or -1: too many)."""
    try:
        language = Language(b"L", text)
    except Stop:
        language = None
    made, needed = (None, [b"1"]), None
    for _ in range(14):
        made = draft.body() or made
        needed = None
        if language is None or made[0] is None:
            break
        walk = Walk(language.rule_set, 4000)
        form = language.forms[language.main]
        try:
            found = walk.first(language.main, [made[0] if n == form.subject else node(0, []) for n in form.inputs])
            needed = walk.tries if found else None
        except Stop as stop:
            needed = -1 if b"tries" in stop.text else None
        if needed is not None or rng.random() < 0.15:
            break
    return made[1], needed


def module_input(rng):
    """Files, words and the tries needed: a language and a module."""
    from make_core import tries_option
    for _ in range(6):
        draft = Draft(rng)
        text = draft.text()
        if rng.random() < 0.15 or is_read(text):
            break
    if rng.random() < 0.16:
        text = spoiled(rng, text)
    pieces, needed = chosen_body(rng, draft, text)
    if rng.random() < 0.18:
        pieces, needed = soup(rng, draft, pieces), needed if needed == -1 else None
    gap = rng.choice((b" ", b" ", b" ", b"", b"\n", b"  ", b" // note\n"))
    lines = [b"module M", b"language L", b"---"]
    if rng.random() < 0.02:
        lines.insert(2, rng.choice((b"use A", b"import A", b"import a-b")))
    if rng.random() < 0.08:
        lines.insert(rng.randrange(3), rng.choice((b"", b"// note", b"\t")))
    body = gap.join(pieces) + rng.choice((b"\n", b"\n", b"", b" // end"))
    files = {b"L.lang": text, b"M.mod": b"\n".join(lines) + b"\n" + body}
    return files, [b"build"] + tries_option(rng, needed) + [b"M"], needed
