"""Extension files line by line, without a grammar: headers, what they declare, the lines of their rules."""

from grammar import parts_of
from lines import BLANKS, is_file_name, is_name, lines_of, notation
from outline import RuleLines, Shape, kept_lines, need, spell
from terms import KINDS
from tokens import stem_of

WORDS = (b"extension", b"language", b"use", b"prod", b"var", b"plain", b"rule", b"---", b"to", b"end")
RANKS = {b"use": 1, b"prod": 2, b"var": 2, b"plain": 3, b"rule": 4}


class ExtensionHeader:
    """The first lines of an extension file: its name, its language and the names that it uses."""

    def __init__(self, name, text):
        lines = lines_of(text)
        kept = kept_lines(lines)
        self.uses = []
        if not kept or kept[0][1] != [b"extension", name]:
            raise notation(_number(kept, 0, lines), b"head")
        if len(kept) < 2 or not _is_language(kept[1][1]):
            raise notation(_number(kept, 1, lines), b"head")
        self.language = kept[1][1][1]
        for line, parts in kept[2:]:
            if parts[0] != b"use":
                return
            try:
                self.uses.append(spell_use(parts, self.uses))
            except Shape:
                raise notation(line.number, b"shape")


def _number(kept, at, lines):
    """The number of a line that is not skipped, or 1 more than the number of lines where it is missing."""
    return kept[at][0].number if at < len(kept) else len(lines) + 1


def _is_language(parts):
    """Whether the parts are a `language` line."""
    return len(parts) == 2 and parts[0] == b"language" and is_name(parts[1])


def spell_use(parts, before):
    """The name that a `use` line spells, which none before it names."""
    need(len(parts) == 2 and is_file_name(parts[1]) and parts[1] not in before)
    return parts[1]


class PlainLines:
    """A plain pair: the label, the names of the parts, the number of its first line, and the body's line."""

    def __init__(self, label, names, number):
        self.label = label
        self.names = names
        self.number = number
        self.body = None


def declaring_row(parts):
    """The row that a line spells where it declares something, is the first of a plain pair or begins a rule; else a bad shape."""
    need(parts[0] in (b"prod", b"var", b"plain", b"rule"))
    if parts[0] != b"plain":
        return spell(parts)
    need(len(parts) > 1 and is_name(parts[1]) and all(stem_of(name) for name in parts[2:]))
    return parts[1:]


def body_start(line):
    """Where the body begins in a line whose first part is `to`; None where no blank stands behind it."""
    start = len(line.content) - len(line.content.lstrip(BLANKS)) + 2
    return start if start < len(line.content) else None


class ExtensionOutline:
    """What the lines of an extension file behind its first two state; the first bad line stops."""

    def __init__(self, text, language):
        self.language = language
        self.sorts = {line.name for line in language.grammar.sorts}
        self.uses, self.productions, self.stems, self.plains, self.rules = [], [], {}, [], []
        kept = kept_lines(lines_of(text))[2:]
        self.known_productions, self.known_stems = {}, dict(language.stems)
        self._declare(kept)
        self.rank = 1
        self._read(kept)

    def _declare(self, kept):
        """What the lines before the first rule declare, in any order; of two of one name the first counts. A line that spells no row
        declares nothing, nor does the body of a plain pair, which is the line behind one that spells a `plain` row."""
        is_body = False
        for _, parts in kept:
            if is_body:
                is_body = False
                continue
            try:
                row = declaring_row(parts)
            except Shape:
                continue
            if parts[0] == b"rule":
                return
            is_body = parts[0] == b"plain"
            if parts[0] == b"prod":
                self.known_productions.setdefault(row.label, row)
            elif parts[0] == b"var":
                self.known_stems.setdefault(*row)

    def _read(self, kept):
        """Judges line by line. Behind a `plain` line stands its body. Inside a rule lines are premises up to
        `---`; then come the conclusion, perhaps a body, and `end`."""
        pair, stage = None, "directive"
        for line, parts in kept:
            if stage == "premises" and parts != [b"---"]:
                pair.premises.append(line)
            elif stage == "premises":
                stage = "conclusion"
            elif stage == "conclusion":
                pair.conclusion = line
                stage = "body"
            elif stage == "plain":
                pair.body = line
                pair, stage = None, "directive"
            else:
                pair, stage = self._directive(line, parts, pair, stage)
        if pair is not None:
            raise notation(pair.number, b"unfinished")

    def _directive(self, line, parts, pair, stage):
        """Takes a line where a directive is due: the pair or rule that is then in work, and what is due."""
        word = parts[0]
        if word not in WORDS or (word == b"to" and body_start(line) is None):
            raise notation(line.number, b"directive")
        try:
            row = self._spell(word, parts)
        except Shape:
            raise notation(line.number, b"shape")
        if not self._in_order(word, stage):
            raise notation(line.number, b"order")
        if word == b"to":
            pair.body = (line, body_start(line))
            return pair, "end"
        if word == b"end":
            self.rules.append(pair)
            return None, "directive"
        self.rank = RANKS[word]
        return self._take(word, row, line)

    def _in_order(self, word, stage):
        """Whether the place of a line in the order has come and is not past."""
        if stage in ("body", "end"):
            return word == b"end" or (word == b"to" and stage == "body")
        return word in RANKS and RANKS[word] >= self.rank

    def _spell(self, word, parts):
        """The row that a line spells, with the conditions that join lines; or a bad shape."""
        if word == b"use":
            return spell_use(parts, self.uses)
        if word == b"extension":
            need(len(parts) == 2 and is_file_name(parts[1]))
            return parts[1]
        if word == b"plain":
            return self._spell_plain(parts[1:])
        if word == b"to":
            return None
        row = spell(parts)
        if word == b"var":
            need(row[0] not in self.language.stems and row[0] not in self.stems)
            need(row[1] in KINDS or row[1] in self.sorts)
        return row

    def _spell_plain(self, rest):
        """A new plain production's label, and for each part a name of its own of the part's sort."""
        need(rest and rest[0] in self.known_productions)
        production = self.known_productions[rest[0]]
        need(production.sort in self.sorts and not self._is_typed(production.sort))
        names, parts = rest[1:], parts_of(production)
        need(len(names) == len(parts) and len(set(names)) == len(names))
        for name, part in zip(names, parts):
            sort = KINDS[part[1]] if part[0] == "lex" else part[1]
            need(self.known_stems.get(stem_of(name)) == sort)
        return rest[0], names

    def _is_typed(self, sort):
        """Whether a sort of the language is typed."""
        return self.language.grammar.sort_of_name(sort)[0] == "typed"

    def _take(self, word, row, line):
        """Keeps a row: the plain pair or the rule that it begins, and what is due then."""
        if word == b"plain":
            self.plains.append(PlainLines(*row, line.number))
            return self.plains[-1], "plain"
        if word == b"rule":
            return RuleLines(row, line.number), "premises"
        if word == b"use":
            self.uses.append(row)
        elif word == b"prod":
            self.productions.append(row)
        else:
            self.stems[row[0]] = row[1]
        return None, "directive"
