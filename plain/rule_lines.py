"""Lines of rules, plain bodies and rule bodies, read by a grammar of rules."""

from grammar import Grammar, Production, SortLine
from lines import Stop, notation
from printing import goal_text
from readings import NoReading, TwoReadings, read_one, term_of
from rules import Judgement, Rule
from terms import KINDS
from tokens import Defect, cut, placed, stem_of

JUDGEMENT = b"a judgement"


def further_productions(form_lines):
    """The productions of the judgements: one for each form and one for each lexical kind."""
    further = []
    for form in form_lines:
        symbols = [symbol if symbol[0] == "literal" else symbol[1] for symbol in form.symbols]
        further.append(Production(b"form " + form.name, JUDGEMENT, 0, symbols))
    for kind, name in enumerate(KINDS):
        further.append(Production(b"apart " + name, JUDGEMENT, 0,
                                  [("lex", kind), ("literal", b"!="), ("lex", kind)]))
    return further


def rule_grammar(grammar, further):
    """The grammar with one sort more, the judgements, and with these productions behind its own."""
    return Grammar(grammar.sorts + [SortLine(JUDGEMENT, True, None)], grammar.productions + further)


class Reader:
    """Reads lines by a grammar of rules; `stems` has for each stem of metavariables the name of its sort."""

    def __init__(self, grammar, ordinary, stems):
        self.grammar = grammar
        self.ordinary = ordinary
        self.stems = stems

    def text(self, sort, line, names, start=0, only=None):
        """The term that a line from a place on is, as a sort; `names` gets the names that it lacks.

        Where `only` is given, no other names may stand there."""
        try:
            tokens = cut(line.content, self.grammar.literals, True, start)
        except Defect as defect:
            if defect.place is None:
                raise notation(line.number, defect.what)
            raise placed(defect, lambda place: (line.number, place + 1))
        for token in tokens:
            if token.mark == "meta" and not self._is_known(token.text, only):
                raise notation(line.number, b"variable")
        try:
            reading = read_one(self.grammar, sort, self.stems, tokens)
        except NoReading as none:
            place = tokens[none.place].start if none.place < len(tokens) else len(line.content)
            raise Stop(b"line %d column %d: no reading" % (line.number, place + 1))
        except TwoReadings as two:
            raise notation(line.number, two.text)
        except Stop as stop:
            raise notation(line.number, stop.text)
        return term_of(reading, tokens, names)

    def _is_known(self, name, only):
        """Whether a metavariable of this name may stand in the line."""
        return stem_of(name) in self.stems and (only is None or name in only)

    def judgement(self, line, names):
        """The judgement that a line of a rule is, or the two terms that it says to be apart."""
        whole = self.text(JUDGEMENT, line, names)
        form = whole.label - self.ordinary
        forms = len(self.grammar.productions) - self.ordinary - len(KINDS)
        return Judgement(form, list(whole.kids)) if form < forms else tuple(whole.kids)

    def rule(self, lines, forms):
        """The rule that the lines state, its body or None, and the names of its variables.

        The body of a conclusion without a subject is not read."""
        names = []
        premises = [self.judgement(line, names) for line in lines.premises]
        conclusion = self.judgement(lines.conclusion, names)
        if isinstance(conclusion, tuple):
            raise notation(lines.conclusion.number, b"shape")
        body, subject = None, forms[conclusion.form].subject
        if lines.body is not None and subject is not None:
            line, start = lines.body
            sort = self.grammar.sorts[forms[conclusion.form].places[subject][1][1]].name
            body = self.text(sort, line, names, start)
        sorts = [self.sort_of_stem(stem_of(name)) for name in names]
        return Rule(lines.name, sorts, premises, conclusion), body, names

    def sort_of_stem(self, stem):
        """The sort of the metavariables with this stem."""
        name = self.stems[stem]
        return ("lex", KINDS.index(name)) if name in KINDS else self.grammar.sort_of_name(name)


def goal_in_words(grammar, ordinary, forms, form, inputs, got, names=()):
    """A goal in the notation of a grammar of rules; outputs are those got, or `_`."""
    places = [None] * len(forms[form].places)
    for n, term in zip(forms[form].inputs, inputs):
        places[n] = term
    for at, n in enumerate(forms[form].outputs):
        places[n] = got[at] if got is not None else None
    return goal_text(grammar, grammar.productions[ordinary + form], places, names)
