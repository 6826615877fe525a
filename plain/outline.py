"""Language files line by line, without a grammar: what they declare and which lines their rules have."""

from grammar import Production, SortLine, parts_of
from lines import Stop, is_name, is_stem, lines_of, notation, number_within, parts_of as parts_of_line
from terms import KINDS

WORDS = (b"language", b"sort", b"prod", b"var", b"form", b"main", b"rule", b"---", b"end")
ROLES = (b"in", b"sub", b"out")
MOST_LEVEL = 99


class Shape(Exception):
    """The parts of a line are not as the table says."""


def need(holds):
    """A bad shape where this does not hold."""
    if not holds:
        raise Shape()


def literal_of(part):
    """The text of a quoted literal, or None."""
    if len(part) >= 2 and part.startswith(b'"') and part.endswith(b'"') and b'"' not in part[1:-1]:
        return part[1:-1]
    return None


def sort_of(part):
    """A lexical kind, or the name of a sort, perhaps with `@` and a least level; as a symbol."""
    if part in KINDS:
        return ("lex", KINDS.index(part))
    name, mark, least = part.partition(b"@")
    level = number_within(least, 0, MOST_LEVEL) if mark else 0
    need(is_name(name) and level is not None)
    return ("part", name, level)


class FormLine:
    """A form: its name and its symbols, each a literal or a place with its role and its symbol."""

    def __init__(self, name, symbols):
        self.name = name
        self.symbols = symbols
        self.places = [symbol for symbol in symbols if symbol[0] != "literal"]


def spell(parts):
    """The row that a line spells; a bad shape where it spells none."""
    word, rest = parts[0], parts[1:]
    if word in (b"language", b"rule"):
        need(len(rest) == 1 and is_name(rest[0]))
        return rest[0]
    if word == b"sort":
        need(len(rest) in (2, 4) and is_name(rest[0]) and rest[0] not in KINDS and rest[1] in (b"plain", b"typed"))
        brackets = tuple(literal_of(part) for part in rest[2:])
        need(None not in brackets)
        return SortLine(rest[0], rest[1] == b"typed", brackets or None)
    if word == b"prod":
        need(len(rest) >= 4 and is_name(rest[0]) and is_name(rest[1]) and rest[3] == b":")
        level = number_within(rest[2], 0, MOST_LEVEL)
        need(level is not None)
        symbols = [("literal", literal_of(p)) if literal_of(p) is not None else sort_of(p) for p in rest[4:]]
        return Production(rest[0], rest[1], level, symbols)
    if word == b"var":
        need(len(rest) == 3 and is_stem(rest[0]) and rest[1] == b":" and is_name(rest[2]))
        return rest[0], rest[2]
    if word == b"form":
        need(len(rest) >= 2 and is_name(rest[0]) and rest[1] == b":")
        return FormLine(rest[0], [_form_symbol(part) for part in rest[2:]])
    if word == b"main":
        need(len(rest) == 3 and all(is_name(part) for part in rest))
        return tuple(rest)
    need(not rest)
    return word


def _form_symbol(part):
    literal = literal_of(part)
    if literal is not None:
        return ("literal", literal)
    role, colon, sort = part.partition(b":")
    need(role in ROLES and colon == b":")
    return (role.decode(), sort_of(sort))


class RuleLines:
    """A rule: its name, its line's number, its premise lines, its conclusion line, and the line of its body or None."""

    def __init__(self, name, number):
        self.name = name
        self.number = number
        self.premises = []
        self.conclusion = None
        self.body = None


def kept_lines(lines):
    """The lines that are not skipped, each with its parts."""
    kept = [(line, parts_of_line(line.content)) for line in lines]
    return [(line, parts) for line, parts in kept if parts and not parts[0].startswith(b"//")]


class Outline:
    """What the lines of a language file state; the first bad line stops."""

    def __init__(self, name, text):
        self.lines = lines_of(text)
        kept = kept_lines(self.lines)
        if not kept or kept[0][1] != [b"language", name]:
            raise Stop(b"line %d: head" % (kept[0][0].number if kept else len(self.lines) + 1))
        self.sorts, self.productions, self.stems, self.forms, self.rules = [], [], {}, [], []
        self.main = None
        self.known_sorts, self.known_forms, self.known_productions = {}, {}, {}
        self._declare(kept[1:])
        self._read(kept[1:])
        if self.main is None:
            raise Stop(b"line %d: main" % (len(self.lines) + 1))

    def _declare(self, kept):
        """What the lines before the first rule declare, whatever their order; of two of one name the first counts."""
        for _, parts in kept:
            try:
                row = spell(parts) if parts[0] in WORDS else None
            except Shape:
                continue
            if parts[0] == b"rule":
                return
            if parts[0] == b"sort":
                self.known_sorts.setdefault(row.name, "typed" if row.typed else "plain")
            elif parts[0] == b"form":
                self.known_forms.setdefault(row.name, row)
            elif parts[0] == b"prod":
                self.known_productions.setdefault(row.label, row)

    def _read(self, kept):
        """Judges line by line. Inside a rule lines are premises up to `---`; then come the conclusion and `end`."""
        rule, stage = None, "directive"
        for line, parts in kept:
            if stage == "premises" and parts != [b"---"]:
                rule.premises.append(line)
            elif stage == "premises":
                stage = "conclusion"
            elif stage == "conclusion":
                rule.conclusion = line
                stage = "end"
            else:
                row = self._directive(line, parts, stage)
                if parts[0] == b"rule":
                    rule, stage = RuleLines(row, line.number), "premises"
                elif parts[0] == b"end":
                    self.rules.append(rule)
                    rule, stage = None, "directive"
        if rule is not None:
            raise notation(rule.number, b"unfinished")

    def _directive(self, line, parts, stage):
        """The row of a line where a directive is due."""
        word = parts[0]
        if word not in WORDS:
            raise notation(line.number, b"directive")
        try:
            row = spell(parts)
            self._fit(word, row)
        except Shape:
            raise notation(line.number, b"shape")
        if not self._in_order(word, stage):
            raise notation(line.number, b"order")
        self._take(word, row, line)
        return row

    def _in_order(self, word, stage):
        if stage == "end":
            return word == b"end"
        if word in (b"language", b"---", b"end"):
            return False
        if word == b"rule":
            return True
        return not self.rules and not (word == b"main" and self.main is not None)

    def _kind(self, symbol):
        """`lex`, `plain`, `typed`, or None for a sort without a line."""
        return "lex" if symbol[0] == "lex" else self.known_sorts.get(symbol[1])

    def _fit(self, word, row):
        """The conditions of a row that join lines; a bad shape where one is broken."""
        if word == b"var":
            need(row[0] not in self.stems and (row[1] in KINDS or row[1] in self.known_sorts))
        if word == b"form":
            need(row.name not in [form.name for form in self.forms])
            need([role for role, _ in row.places].count("sub") <= 1)
            for role, symbol in row.places:
                kind = self._kind(symbol)
                need(kind is None or (role == "sub") == (kind == "typed"))

    def _take(self, word, row, line):
        if word == b"sort":
            self.sorts.append(row)
        elif word == b"prod":
            self.productions.append(row)
        elif word == b"var":
            self.stems[row[0]] = row[1]
        elif word == b"form":
            self.forms.append(row)
        elif word == b"main":
            self.main = row
            if not self._is_main(*row):
                raise notation(line.number, b"main")

    def _is_main(self, form, empty, add):
        """The form has an input, a subject and an output of a plain sort; the constructors make environments."""
        form = self.known_forms.get(form)
        empty = self.known_productions.get(empty)
        add = self.known_productions.get(add)
        if form is None or empty is None or add is None:
            return False
        if sorted(role for role, _ in form.places) != ["in", "out", "sub"]:
            return False
        places = dict(form.places)
        environment, signature = places["in"], places["out"]
        if environment[0] == "lex" or self._kind(signature) != "plain":
            return False
        if empty.sort != environment[1] or add.sort != environment[1] or parts_of(empty):
            return False
        return [symbol[:2] for symbol in parts_of(add)] == [environment[:2], ("lex", 0), signature[:2]]
