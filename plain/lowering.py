"""Lowering: derivations by extended rules become derivations by base rules."""

from lines import Stop
from rules import Judgement
from terms import filled, measure
from walk import DEEPEST, NOTHING, Derivation


class NotLowered(Stop):
    """A lowered derivation passes a limit: a status and a text, without a place."""


class Certificate:
    """The image of an extension rule: its flat conclusion and a base derivation from its flat premises."""

    def __init__(self, conclusion, derivation):
        self.conclusion = conclusion
        self.derivation = derivation
        self.used = givens_of(derivation)


def givens_of(derivation):
    """The numbers of the givens in a derivation; a part that stands often is looked at once."""
    found, seen, due = set(), set(), [derivation]
    while due:
        part = due.pop()
        if id(part) not in seen:
            seen.add(id(part))
            due.extend(part.kids)
            if part.given is not None:
                found.add(part.given)
    return found


class Lowering:
    """Lowers derivations by these rules; each rule that is not base has its certificate, by its number."""

    def __init__(self, forms, rules, certificates, table, given=NOTHING):
        self.forms = forms
        self.rules = rules
        self.certificates = certificates
        self.table = table
        self.given = given
        self.refused = None

    def whole(self, derivation, nodes):
        """The lowered derivation and its judgement, within the number of nodes and the limits."""
        lowered, judgement = self.lower(derivation)
        if lowered.nodes > nodes:
            raise NotLowered(b"rewriting needs more than %d nodes" % nodes, status=6)
        if lowered.depth > DEEPEST:
            raise NotLowered(b"rewritten derivation deeper than %d" % DEEPEST, status=6)
        if self.refused is not None:
            raise NotLowered(self.refused)
        return lowered, judgement

    def measure(self, terms):
        """Keeps the refusal of the first term measured that is too deep or too big."""
        if self.refused is None:
            try:
                measure(terms)
            except Stop as stop:
                self.refused = stop.text

    def lower(self, derivation):
        """The lowered derivation and its judgement, from the leaves up.

        A kid whose given stands nowhere in the certificate is left alone."""
        if derivation.given is not None:
            return derivation, self.given.holds[derivation.given]
        rule = self.rules[derivation.number]
        certificate = self.certificates.get(derivation.number)
        kids = [self.lower(kid) if certificate is None or at in certificate.used else None
                for at, kid in enumerate(derivation.kids)]
        binds = self.bindings(rule, derivation.binds, kids)
        kids = [kid[0] if kid is not None else None for kid in kids]
        if certificate is None:
            return self.base_node(derivation.number, kids, binds)
        judgement = instance_of(certificate.conclusion, binds)
        return Graft(self, binds, kids).of(certificate.derivation), judgement

    def bindings(self, rule, binds, kids):
        """What a rule's variables are bound to once the kids are lowered.

        A plain or lexical one has the plain image of its binding, a typed one the subject of the kid of the
        premise whose subject it is."""
        lowered = {}
        judgements = [premise for premise in rule.premises if not isinstance(premise, tuple)]
        for premise, kid in zip(judgements, kids):
            subject = self.forms[premise.form].subject
            if kid is not None and subject is not None:
                lowered[premise.places[subject].number] = kid[1].places[subject]
        for v, sort in enumerate(rule.sorts):
            if sort[0] != "typed":
                lowered[v] = self.table.image(binds[v])
        return lowered

    def base_node(self, number, kids, binds):
        """A base rule under the bindings, with its conclusion."""
        judgement = self.measure_node(number, binds)
        return Derivation(number, tuple(kids), binds), judgement

    def measure_node(self, number, binds):
        """Measures a base rule under bindings: the bindings in order and then the places of its conclusion."""
        rule = self.rules[number]
        judgement = instance_of(rule.conclusion, binds)
        self.measure([binds[v] for v in range(len(rule.sorts))] + judgement.places)
        return judgement


class Graft:
    """Parts of a certificate under bindings, with kids in the places of the givens; each part is made once."""

    def __init__(self, lowering, binds, kids):
        self.lowering = lowering
        self.binds = binds
        self.kids = kids
        self.filled = {}
        self.made = {}

    def of(self, part):
        """A part of the certificate; its nodes are measured in preorder."""
        if part.given is not None:
            return self.kids[part.given]
        if id(part) not in self.made:
            binds = {v: filled(term, self.binds, self.filled) for v, term in part.binds.items()}
            self.lowering.measure_node(part.number, binds)
            self.made[id(part)] = Derivation(part.number, tuple(self.of(kid) for kid in part.kids), binds)
        return self.made[id(part)]


def instance_of(judgement, binds):
    """The judgement with each variable replaced by what it is bound to."""
    done = {}
    return Judgement(judgement.form, [filled(term, binds, done) for term in judgement.places])
