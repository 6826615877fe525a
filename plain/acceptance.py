"""Acceptance: each rule of an extension is shown to be sound, with a base derivation as its certificate."""

from extension_files import has_typed_from
from lines import Stop
from lowering import Certificate, Lowering
from rules import Judgement, Rule, Rules
from terms import measure
from walk import Hypotheses, Walk, inputs_of, outputs_of, stuck


def of_rule(name, call, *given):
    """What the call answers; the rule's name stands before the text of a stop."""
    try:
        return call(*given)
    except Stop as stop:
        raise Stop(b"rule %s: %s" % (name, stop.text), status=stop.status)


class FlatRule:
    """A rule with plain images: its premises as hypotheses, the body or None, and the plain rule.

    The plain rule's subject keeps its typed syntax. The terms are measured."""

    def __init__(self, forms, table, rule, body):
        self.subject = forms[rule.conclusion.form].subject
        premises = [flat(table, premise) for premise in rule.premises]
        self.given = Hypotheses([premise for premise in premises if not isinstance(premise, tuple)],
                                [premise for premise in premises if isinstance(premise, tuple)])
        self.body = table.image(body) if body is not None else None
        self.plain = Rule(rule.name, rule.sorts, premises, flat(table, rule.conclusion))
        for judgement in self.given.holds:
            measure(judgement.places)
        places = self.plain.conclusion.places
        measure([term for n, term in enumerate(places) if n != self.subject])
        if self.subject is not None:
            measure([self.body, places[self.subject]])

    def conclusion(self, body):
        """The flat conclusion, with a body in the subject's place where it has one."""
        places = list(self.plain.conclusion.places)
        if self.subject is not None:
            places[self.subject] = body
        return Judgement(self.plain.conclusion.form, places)


def flat(table, it):
    """A judgement, or two terms that are to be apart, with plain images; typed syntax stays."""
    if isinstance(it, tuple):
        return tuple(table.image(side) for side in it)
    return Judgement(it.form, [table.image(term) for term in it.places])


def accept(before, added, tries, nodes):
    """Adds the plain rule and the certificate of each rule of an extension; the first refused one stops."""
    plain = list(before.plain)
    for rule, body, names in zip(added.new_rules, added.bodies, added.new_names):
        check = RuleCheck(before, added, plain, tries, nodes)
        certificate = of_rule(rule.name, check.certificate, rule, body, names)
        before.certificates[len(before.plain)] = certificate
        before.plain.append(check.flat.plain)


class RuleCheck:
    """Finds the certificate of one rule.

    It goes by the base rules. Where the body has extended typed syntax, the plain rules of the extensions
    before are taken too, and what is found is lowered."""

    def __init__(self, before, added, plain, tries, nodes):
        self.before = before
        self.added = added
        self.plain = Rules(before.language.forms, plain)
        self.tries = tries
        self.nodes = nodes

    def certificate(self, rule, body, names):
        """The certificate of a rule with a body or none, or a stop."""
        language = self.before.language
        self.flat = FlatRule(language.forms, self.before.table, rule, body)
        goal = self.flat.conclusion(self.flat.body)
        if body is None or not has_typed_from(self.added.grammar, body, len(language.grammar.productions)):
            return Certificate(goal, self._derivation(language.rule_set, goal, names))
        found = self._derivation(self.plain, goal, names)
        lowering = Lowering(language.forms, self.plain.rules, self.before.certificates, self.before.table,
                            self.flat.given)
        derivation, judgement = lowering.whole(found, self.nodes)
        return Certificate(judgement, derivation)

    def _derivation(self, rules, goal, names):
        """The first derivation of the goal from the flat premises, or a stop with the stuck goal."""
        form, given = rules.forms[goal.form], self.flat.given
        inputs, outputs = inputs_of(form, goal), outputs_of(form, goal)
        found = Walk(rules, self.tries, given).first(goal.form, inputs, wanted=outputs)
        if found is None:
            blame = stuck(rules, goal.form, inputs, given)
            raise Stop(blame.text(rules.rules, lambda *it: self.added.goal_text(*it, names)))
        return found[0]
