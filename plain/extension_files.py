"""Extension files: what an extension adds to the grammar, the rules and the plain desugarings before it."""

from extension_outline import ExtensionOutline
from grammar import Grammar
from lines import Stop
from rule_lines import Reader, goal_in_words, rule_grammar
from rules import RuleSet, subject_of


class ExtensionFile:
    """What an extension file states after the extensions that `before` stands for, or the first refusal.

    It has the extended grammars and rules, and of the new rules the bodies and the names of the variables.
    The plain table of `before` gets the new flat bodies."""

    def __init__(self, text, language, before):
        outline = ExtensionOutline(text, language)
        self.language = language
        self.first_label = len(before.grammar.productions)
        self.grammar = Grammar(before.grammar.sorts, before.grammar.productions + outline.productions)
        self.rule_grammar = rule_grammar(self.grammar, language.further)
        stems = {**language.stems, **outline.stems}
        reader = Reader(self.rule_grammar, len(self.grammar.productions), stems)
        plain_bodies = [self._plain_body(reader, lines) for lines in outline.plains]
        self._read_rules(reader, outline, before)
        self._add_plain_bodies(before.table, outline, plain_bodies)
        for at, lines in enumerate(outline.rules):
            self._need_body(self.new_rules[at], self.bodies[at], lines)

    def goal_text(self, form, inputs, got, names):
        """A goal in the notation of the extended language; outputs are those got, or `_`."""
        return goal_in_words(self.rule_grammar, len(self.grammar.productions), self.language.forms,
                             form, inputs, got, names)

    def _plain_body(self, reader, lines):
        """The plain body of a pair of lines; its variables are the parts by number."""
        label = self._label(lines.label)
        sort = self.grammar.productions[label].sort
        return label, reader.text(sort, lines.body, list(lines.names), only=lines.names)

    def _label(self, name):
        """The number of the new production with this label."""
        labels = [production.label for production in self.grammar.productions]
        return labels.index(name, self.first_label)

    def _read_rules(self, reader, outline, before):
        """The new rules with their bodies; together with the rules before they make a rule set."""
        self.new_rules, self.bodies, self.new_names = [], [], []
        for lines in outline.rules:
            rule, body, names = reader.rule(lines, self.language.forms)
            self.new_rules.append(rule)
            self.bodies.append(body)
            self.new_names.append(names)
        names = before.names + self.new_names
        forms, rules = self.language.forms, before.rules.rules + self.new_rules
        self.rules = RuleSet(self.rule_grammar.constructors(), forms, rules, lambda n, v: b"~" + names[n][v])

    def _add_plain_bodies(self, table, outline, bodies):
        """Each new plain constructor gets its flat body."""
        for lines, (label, body) in zip(outline.plains, bodies):
            table.add(label, len(lines.names), body, lambda n: self.grammar.productions[n].label,
                      lambda part, names=lines.names: names[part])
        for label, production in enumerate(self.grammar.productions[self.first_label:], self.first_label):
            if self.grammar.sort_of_name(production.sort)[0] == "plain" and label not in table.flat:
                raise Stop(b"production %s: no plain body" % production.label)

    def _need_body(self, rule, body, lines):
        """A body stands just where the conclusion has a subject, without typed syntax of this extension."""
        has_subject = subject_of(self.language.forms, rule.conclusion) is not None
        if has_subject and body is None:
            raise Stop(b"rule %s: no body" % rule.name)
        if not has_subject and lines.body is not None:
            raise Stop(b"rule %s: body without a subject" % rule.name)
        if has_subject and has_typed_from(self.grammar, body, self.first_label):
            raise Stop(b"rule %s: body uses extended syntax" % rule.name)


def has_typed_from(grammar, term, first):
    """Whether a typed constructor with this label or a later one stands in the term."""
    if term.what != "node":
        return False
    if term.label >= first and grammar.sort_of_name(grammar.productions[term.label].sort)[0] == "typed":
        return True
    return any(has_typed_from(grammar, kid, first) for kid in term.kids)
