"""Core files: the rule set and the goal that their lines state, or the first bad line."""

from lines import Stop, is_blank, is_name, lines_of, notation
from rules import Form, Judgement, Rule, RuleSet
from terms import BadCore, DEEPEST, KINDS, core_text, has_sort, read_core, too_deep

WORDS = (b"sxcore", b"sort", b"con", b"form", b"rule", b"if", b"not", b"then", b"end", b"goal")
ROLES = (b"in", b"sub", b"out")
LEXICAL = {name: ("lex", kind) for kind, name in enumerate(KINDS)}


class Shape(Exception):
    """The parts of a line are not as the table says."""


def need(holds):
    """A bad shape where this does not hold."""
    if not holds:
        raise Shape()


class Problem:
    """What a core file states: a rule set, the goal's form and its inputs."""

    def __init__(self, rule_set, form, inputs):
        self.rule_set = rule_set
        self.form = form
        self.inputs = inputs

    def goal_text(self, form, inputs, got):
        """The form's name and each place after a blank: its core text, or `_` for an output that is not shown."""
        places = {}
        form = self.rule_set.forms[form]
        for n, term in zip(form.inputs, inputs):
            places[n] = core_text(term)
        for at, n in enumerate(form.outputs):
            places[n] = core_text(got[at]) if got is not None else b"_"
        return b" ".join([form.name] + [places[n] for n in range(len(form.places))])


def read_problem(text):
    """The problem that a core file states."""
    lines = lines_of(text)
    kept = [line for line in lines if not is_blank(line.content) and not line.content.startswith(b"//")]
    if not kept or kept[0].content != b"sxcore 1":
        raise Stop(b"line %d: head" % (kept[0].number if kept else len(lines) + 1))
    reader = Reader(kept)
    for line in kept[1:]:
        reader.read(line)
    if reader.open_line is not None:
        raise notation(reader.open_line, b"unfinished")
    if reader.goal is None:
        raise Stop(b"line %d: main" % (len(lines) + 1))
    rule_set = RuleSet(reader.cons, reader.forms, reader.rules, lambda rule, v: b"?%d" % v)
    return Problem(rule_set, *reader.goal)


class Reader:
    """The lines so far. `open_line` is the number of the open rule's line, or None."""

    def __init__(self, kept):
        self.sorts = dict(LEXICAL)
        self.seen_sorts = set()
        self.names = set()
        self.cons = []
        self.forms = []
        self.rules = []
        self.open_line = None
        self.open_rule = None
        self.goal = None
        for line in kept:
            self._declare(line)

    def _declare(self, line):
        """A sort may be used before its line; of two lines of one name the first counts."""
        parts = line.content.split(b" ")
        if parts[0] == b"sort" and len(parts) == 3 and is_name(parts[1]) and parts[2] in (b"plain", b"typed"):
            self.sorts.setdefault(parts[1], (parts[2].decode(), parts[1]))

    def read(self, line):
        """Judges one line: the first kind that fits a bad line stops."""
        if self.goal is not None:
            raise notation(line.number, b"order")
        word, _, rest = line.content.partition(b" ")
        if word not in WORDS:
            raise notation(line.number, b"directive")
        try:
            row = getattr(self, "row_" + word.decode())(line, rest)
        except (Shape, BadCore):
            raise notation(line.number, b"shape")
        if not self._in_order(word):
            raise notation(line.number, b"order")
        self._take(word, row, line)

    def _in_order(self, word):
        if word == b"sxcore":
            return False
        if self.open_rule is not None:
            concluded = self.open_rule.conclusion is not None
            return word == b"end" if concluded else word in (b"if", b"not", b"then")
        if word in (b"sort", b"con", b"form"):
            return not self.rules
        return word in (b"rule", b"goal")

    def _take(self, word, row, line):
        if word == b"con":
            self.names.add((word, row[0]))
            self.cons.append(row[1])
        elif word == b"form":
            self.names.add((word, row.name))
            self.forms.append(row)
        elif word == b"sort":
            self.seen_sorts.add(row)
        elif word == b"rule":
            self.open_rule, self.open_line = row, line.number
        elif word in (b"if", b"not"):
            self.open_rule.premises.append(row)
        elif word == b"then":
            self.open_rule.conclusion = row
        elif word == b"end":
            self.rules.append(self.open_rule)
            self.open_rule = self.open_line = None
        elif word == b"goal":
            self.goal = row

    def _sort(self, name):
        need(name in self.sorts)
        return self.sorts[name]

    def row_sxcore(self, line, rest):
        need(line.content == b"sxcore 1")

    def row_sort(self, line, rest):
        parts = rest.split(b" ")
        need(len(parts) == 2 and is_name(parts[0]) and parts[1] in (b"plain", b"typed"))
        need(parts[0] not in LEXICAL and parts[0] not in self.seen_sorts)
        return parts[0]

    def row_con(self, line, rest):
        parts = rest.split(b" ")
        need(len(parts) >= 2 and is_name(parts[0]) and (b"con", parts[0]) not in self.names)
        of = self._sort(parts[1])
        kids = [self._sort(part) for part in parts[2:]]
        need(of[0] != "lex" and (of[0] == "typed" or all(kid[0] != "typed" for kid in kids)))
        return parts[0], (of, kids)

    def row_form(self, line, rest):
        parts = rest.split(b" ")
        need(is_name(parts[0]) and (b"form", parts[0]) not in self.names)
        places = []
        for part in parts[1:]:
            role, colon, sort = part.partition(b":")
            need(role in ROLES and colon == b":")
            places.append((role.decode(), self._sort(sort)))
            need((role == b"sub") == (places[-1][1][0] == "typed"))
        need([role for role, _ in places].count("sub") <= 1)
        return Form(parts[0], places)

    def row_rule(self, line, rest):
        parts = rest.split(b" ")
        need(is_name(parts[0]))
        return Rule(parts[0], [self._sort(part) for part in parts[1:]], [], None)

    def _terms(self, rest, at, number):
        """So many core texts, each after a blank, up to the end of the line."""
        terms = []
        for _ in range(number):
            need(rest[at:at + 1] == b" ")
            term, at = read_core(rest, at + 1)
            if term.depth > DEEPEST:
                raise too_deep(term.depth)
            terms.append(term)
        need(at == len(rest))
        return terms

    def _form_of(self, rest):
        """The form that is named first, with its number."""
        name = rest.partition(b" ")[0]
        for number, form in enumerate(self.forms):
            if form.name == name:
                return number, form, len(name)
        raise Shape()

    def row_if(self, line, rest):
        number, form, at = self._form_of(rest)
        return Judgement(number, self._terms(rest, at, len(form.places)))

    row_then = row_if

    def row_not(self, line, rest):
        return tuple(self._terms(b" " + rest, 0, 2))

    def row_end(self, line, rest):
        need(line.content == b"end")

    def row_goal(self, line, rest):
        number, form, at = self._form_of(rest)
        need(form.subject is not None)
        terms = self._terms(rest, at, len(form.inputs))
        for n, term in zip(form.inputs, terms):
            need(not term.open and has_sort(term, self.cons, [], form.places[n][1]))
        return number, terms
