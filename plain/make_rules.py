"""Random terms and rules over constructors and forms; most rules are disciplined and moded, some are not."""

from rules import Judgement, Rule
from terms import instance, lexeme, node, variable, variables_of

TEXTS = ((b"x", b"y", b"z", b"f"), (b"0", b"1", b"7"), (b'"a"', b'""', b'" and "'))


class Signature:
    """Constructors (each a sort with the sorts of its kids) and forms, as random things are made from them."""

    def __init__(self, rng, cons, forms):
        self.rng = rng
        self.cons = cons
        self.forms = forms

    def makers(self, sort):
        """The labels of a sort, those without kids of typed and plain sorts first."""
        labels = [n for n, (of, _) in enumerate(self.cons) if of == sort]
        return sorted(labels, key=lambda n: sum(kid[0] != "lex" for kid in self.cons[n][1]))

    def term(self, sort, depth, variables=()):
        """A random term of the sort with such variables (number, sort) in it; None where there is none."""
        fits = [v for v, of in variables if of == sort]
        if fits and (self.rng.random() < 0.6 or depth <= 0):
            return variable(self.rng.choice(fits))
        if sort[0] == "lex":
            return lexeme(sort[1], self.rng.choice(TEXTS[sort[1]]))
        labels = self.makers(sort)
        if not labels or depth < -6:
            return variable(self.rng.choice(fits)) if fits else None
        label = labels[0] if depth <= 0 else self.rng.choice(labels)
        kids = [self.term(kid, depth - 1, variables) for kid in self.cons[label][1]]
        return None if None in kids else node(label, kids)


class Maker:
    """One rule in the making: the sorts of its variables, those that are bound."""

    def __init__(self, signature):
        self.signature = signature
        self.rng = signature.rng
        self.sorts = []
        self.bound = []

    def fresh(self, sort):
        """A new variable."""
        self.sorts.append(sort)
        return variable(len(self.sorts) - 1)

    def over_bound(self, sort, depth=1):
        """A term over bound variables of plain and lexical sorts, or a fresh one where there is none."""
        ready = [(v, self.sorts[v]) for v in self.bound if self.sorts[v][0] != "typed"]
        if self.rng.random() < 0.005:
            return self.fresh(sort)
        term = self.signature.term(sort, depth, ready)
        return self.fresh(sort) if term is None else term

    def pattern(self, sort, depth):
        """A pattern with fresh variables, and bound ones now and then."""
        rng = self.rng
        labels = self.signature.makers(sort)
        if sort[0] == "lex":
            return self.fresh(sort) if rng.random() < 0.85 else lexeme(sort[1], rng.choice(TEXTS[sort[1]]))
        if depth > 0 and labels:
            label = rng.choice(labels)
            return node(label, [self.pattern(kid, depth - 1 if rng.random() < 0.3 else 0)
                                for kid in self.signature.cons[label][1]])
        fits = [v for v in self.bound if self.sorts[v] == sort and sort[0] != "typed"]
        return variable(rng.choice(fits)) if fits and rng.random() < 0.3 else self.fresh(sort)

    def bind(self, term):
        """The variables of the term are bound from now on."""
        self.bound.extend(v for v in variables_of(term) if v not in self.bound)

    def premise(self, form, subject):
        """A judgement of the form with this subject; its inputs are over what is bound, its outputs bind."""
        places = []
        for role, sort in self.signature.forms[form].places:
            if role == "sub":
                places.append(subject if subject is not None else self.over_bound(sort))
            elif role == "in":
                places.append(self.over_bound(sort))
            else:
                places.append(self.pattern(sort, 1 if self.rng.random() < 0.6 else 0))
        for (role, _), term in zip(self.signature.forms[form].places, places):
            if role == "out":
                self.bind(term)
        return Judgement(form, places)

    def conclusion(self, form, label):
        """The places of a conclusion: inputs are patterns, the one subject (or the first plain input) by the label."""
        places, used = [], False
        for role, sort in self.signature.forms[form].places:
            if role == "out":
                places.append(None)
            elif label is not None and not used and self.signature.cons[label][0] == sort:
                used = True
                places.append(node(label, [self.pattern(kid, int(self.rng.random() < 0.1))
                                           for kid in self.signature.cons[label][1]]))
            else:
                places.append(self.pattern(sort, int(self.rng.random() < 0.08)))
            if places[-1] is not None:
                self.bind(places[-1])
        return places

    def rule(self, name, form, label):
        """A rule that concludes the form."""
        rng, forms = self.rng, self.signature.forms
        places = self.conclusion(form, label)
        typed = [v for v in self.bound if self.sorts[v][0] == "typed"]
        due = [("subject", v) for v in typed]
        if rng.random() < 0.2:
            due.append(("other", None))
        if rng.random() < 0.15:
            due.append(("apart", None))
        rng.shuffle(due) if rng.random() < 0.3 else None
        premises = []
        for what, v in due:
            made = self.one_premise(form, what, v)
            if made is not None:
                premises.append(made)
        for at, (role, sort) in enumerate(forms[form].places):
            if role == "out":
                places[at] = self.over_bound(sort, rng.choice((0, 1, 1, 2)))
        rule = Rule(name, self.sorts, premises, Judgement(form, places))
        return self.spoiled(rule) if rng.random() < 0.04 else rule

    def one_premise(self, form, what, v):
        """A premise on a subject, one without a subject, or one that keeps two lexemes apart."""
        rng, forms = self.rng, self.signature.forms
        if what == "subject":
            fits = [n for n, f in enumerate(forms)
                    if f.subject is not None and f.places[f.subject][1] == self.sorts[v]]
            return self.premise(form if form in fits and rng.random() < 0.9 else rng.choice(fits),
                                variable(v)) if fits else None
        if what == "other":
            fits = [n for n, f in enumerate(forms) if f.subject is None]
            return self.premise(rng.choice(fits), None) if fits else None
        kinds = [self.sorts[v] for v in self.bound if self.sorts[v][0] == "lex"]
        if not kinds:
            return None
        kind = rng.choice(kinds)
        return (self.over_bound(kind), self.over_bound(kind))

    def spoiled(self, rule):
        """The rule with a premise less, one twice, one with another subject, or another conclusion."""
        what = self.rng.randrange(5)
        if what == 0 and rule.premises:
            rule.premises.pop(self.rng.randrange(len(rule.premises)))
        elif what == 1 and rule.premises:
            rule.premises.append(self.rng.choice(rule.premises))
        elif what == 2 and self.sorts:
            one, other = (self.rng.randrange(len(self.sorts)) for _ in range(2))
            binds = {v: variable(v) for v in range(len(self.sorts))}
            binds[one] = variable(other)
            rule.conclusion.places = [instance(term, binds) for term in rule.conclusion.places]
        elif what == 3:
            self.fresh(self.rng.choice(self.sorts) if self.sorts else ("lex", 0))
        elif rule.premises and not isinstance(rule.premises[0], tuple):
            form = self.signature.forms[rule.premises[0].form]
            if form.subject is not None:
                made = self.signature.term(form.places[form.subject][1], 1)
                rule.premises[0].places[form.subject] = made or variable(0)
        return rule


def random_rules(signature, most):
    """Rules for each form: for a form with a subject one for most constructors of its sort, and some more."""
    rng, rules = signature.rng, []
    for number, form in enumerate(signature.forms):
        sort = form.places[form.subject][1] if form.subject is not None else None
        if sort is None:
            plain = [of for role, of in form.places if role == "in" and of[0] == "plain"]
            sort = plain[0] if plain else None
        labels = signature.makers(sort) if sort else [None]
        for label in labels:
            for _ in range(rng.choice((0, 1, 1, 1, 1, 1, 1, 1, 2, 2))):
                name = b"R%d" % len(rules)
                rules.append(Maker(signature).rule(name, number, label))
    if rng.random() < 0.08 and signature.forms:
        rules.append(Maker(signature).rule(b"R%d" % len(rules), rng.randrange(len(signature.forms)), None))
    if rng.random() < 0.3:
        rng.shuffle(rules)
    if rules and rng.random() < 0.02:
        rules.append(rng.choice(rules))
    return rules[:most]
