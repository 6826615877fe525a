"""Extensions: those that names reach, read and accepted in order, and the command `check`."""

import outside
from acceptance import accept
from extension_files import ExtensionFile
from extension_outline import ExtensionHeader
from language_files import Language
from lines import Stop, of_file
from lowering import Lowering
from plain_tables import PlainTable
from rule_lines import goal_in_words

MOST = 256


class Extended:
    """A language with the extensions so far.

    It has the extended grammars, the base rules and then those of the extensions with the names of their
    variables, the plain table, the plain rules, the certificates by rule numbers, and in `files` the names and
    texts of the extensions in order."""

    def __init__(self, language, table):
        self.language = language
        self.grammar = language.grammar
        self.rule_grammar = language.rule_grammar
        self.rules = language.rule_set
        self.names = list(language.names)
        self.table = table
        self.plain = list(language.rule_set.rules)
        self.certificates = {}
        self.files = []

    def add(self, name, text, tries, nodes):
        """Reads an extension after those so far and accepts it; the number of its first rule."""
        added = ExtensionFile(text, self.language, self)
        first = len(self.rules.rules)
        accept(self, added, tries, nodes)
        self.grammar, self.rule_grammar, self.rules = added.grammar, added.rule_grammar, added.rules
        self.names.extend(added.new_names)
        self.files.append((name, text))
        return first

    def lower(self, derivation, nodes):
        """The base derivation that a derivation without givens is lowered to, with its judgement.

        NotLowered is raised where it passes the number of nodes or another limit."""
        lowering = Lowering(self.language.forms, self.rules.rules, self.certificates, self.table)
        return lowering.whole(derivation, nodes)

    def image(self, term):
        """The plain image of a term."""
        return self.table.image(term)

    def goal_text(self, form, inputs, got, names=()):
        """A goal in the notation of the extended language; outputs are those got, or `_`."""
        return goal_in_words(self.rule_grammar, len(self.grammar.productions), self.language.forms,
                             form, inputs, got, names)


class Uses:
    """Extensions walked depth first by their `use` lines, each once and after those that it uses.

    `file` is the file to blame for a cycle and for too many extensions."""

    def __init__(self, language_name, file):
        self.language_name = language_name
        self.file = file
        self.reached = {}
        self.order = []

    def walk(self, name, path, read=None):
        """Walks from a name used at the end of a path; `read` has its text and header if they are known."""
        if name in path:
            cycle = path[path.index(name):] + [name]
            raise Stop(b"cycle " + b" ".join(cycle), file=self.file)
        if name in self.reached:
            return
        text, header = read or read_extension(name)
        if header.language != self.language_name:
            raise Stop(b"written for language " + header.language, file=name + b".ext")
        if len(self.reached) == MOST:
            raise Stop(b"more than %d files" % MOST, file=self.file)
        self.reached[name] = text
        for used in header.uses:
            self.walk(used, path + [name])
        self.order.append(name)


def read_extension(name):
    """The text of an extension file and its header."""
    file = name + b".ext"
    text = outside.read_text(file)
    return text, of_file(file, ExtensionHeader, name, text)


def accepted(language, uses, tries, nodes):
    """The language with the extensions that were walked, and the number of the last one's first rule."""
    made, first = Extended(language, PlainTable(len(language.grammar.productions))), None
    for name in uses.order:
        first = of_file(name + b".ext", made.add, name, uses.reached[name], tries, nodes)
    return made, first


def extended(language, names, file, tries, nodes):
    """The language with the extensions that the names reach."""
    uses = Uses(language.name, file)
    for name in names:
        uses.walk(name, [])
    return accepted(language, uses, tries, nodes)[0]


def check(name, tries, nodes):
    """Accepts an extension after those that it uses: no files, and the certificates of its rules."""
    file = name + b".ext"
    text, header = read_extension(name)
    language_file = header.language + b".lang"
    language = of_file(language_file, Language, header.language, outside.read_text(language_file))
    uses = Uses(language.name, file)
    uses.walk(name, [], (text, header))
    made, first = accepted(language, uses, tries, nodes)
    added = range(first, len(made.rules.rules))
    shown = b"".join(certificate_line(made, number) for number in added)
    return [], shown + b"accepted %s: %d rules\n" % (name, len(added))


def certificate_line(made, number):
    """A rule's name and the entries of its certificate in preorder; givens are counted from 1."""
    entries, due = [], [made.certificates[number].derivation]
    while due:
        part = due.pop()
        if part.given is not None:
            entries.append(b"given %d" % (part.given + 1))
        else:
            entries.append(made.rules.rules[part.number].name)
            due.extend(reversed(part.kids))
    return b"%s: %s\n" % (made.rules.rules[number].name, b" ".join(entries))
