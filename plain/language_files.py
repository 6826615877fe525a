"""Languages: the grammar, the forms and the rules that a language file states."""

from grammar import Grammar
from outline import Outline
from rule_lines import Reader, further_productions, goal_in_words, rule_grammar
from rules import Form, RuleSet


class Language:
    """A grammar, the grammar of rules, forms, rules and the main form."""

    def __init__(self, name, text):
        outline = Outline(name, text)
        self.name = name
        self.stems = outline.stems
        self.grammar = Grammar(outline.sorts, outline.productions)
        self.further = further_productions(outline.forms)
        self.rule_grammar = rule_grammar(self.grammar, self.further)
        self.forms = [Form(form.name, [(role, self.rule_grammar.sort_of_symbol(symbol))
                                       for role, symbol in form.places]) for form in outline.forms]
        reader = Reader(self.rule_grammar, len(self.grammar.productions), self.stems)
        rules, self.names = [], []
        for lines in outline.rules:
            rule, _, names = reader.rule(lines, self.forms)
            rules.append(rule)
            self.names.append(names)
        self.rule_set = RuleSet(self.rule_grammar.constructors(), self.forms, rules,
                                lambda rule, v: b"~" + self.names[rule][v])
        labels = [production.label for production in self.grammar.productions]
        self.main = [form.name for form in self.forms].index(outline.main[0])
        self.empty = labels.index(outline.main[1])
        self.add = labels.index(outline.main[2])

    def goal_text(self, form, inputs, got):
        """A goal in the notation of the language; outputs are those got, or `_`."""
        return goal_in_words(self.rule_grammar, len(self.grammar.productions), self.forms, form, inputs, got)
