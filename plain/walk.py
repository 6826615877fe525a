"""The walk that finds derivations in order, and the stuck goal of a goal that has none."""

from lines import Stop
from terms import instance, match_all, measure

DEEPEST = 3000


class Spent(Stop):
    """A budget of the walk is spent."""

    def __init__(self, text):
        super().__init__(text, status=6)


def inputs_of(form, judgement):
    """The terms in the places of the inputs, the subject among them."""
    return [judgement.places[n] for n in form.inputs]


def outputs_of(form, judgement):
    """The terms in the places of the outputs."""
    return [judgement.places[n] for n in form.outputs]


class Hypotheses:
    """What is given: judgements, and pairs of terms that are apart. Variables in them are constants."""

    def __init__(self, holds=(), pairs=()):
        self.holds = holds
        self.pairs = pairs


NOTHING = Hypotheses()


class Derivation(tuple):
    """A derivation as the pair of a rule's number and the derivations of its judgement premises.

    Beside the pair stand what the rule's variables are bound to, the number of nodes and the depth. A given has
    no rule: the pair is None and no derivations, and `given` says which of the judgements that hold it is."""

    def __new__(cls, number, kids, binds, given=None):
        """The derivation; the kids are derivations of this kind too."""
        made = super().__new__(cls, (number, kids))
        made.number, made.kids, made.binds, made.given = number, kids, binds, given
        made.nodes = 1 + sum(kid.nodes for kid in kids)
        made.depth = 1 + max((kid.depth for kid in kids), default=0)
        return made


def apart(sides, binds, given=NOTHING):
    """Whether the instances of two terms are a given pair, either way round, or different lexemes."""
    one, other = (instance(side, binds) for side in sides)
    if (one, other) in given.pairs or (other, one) in given.pairs:
        return True
    return one.what == other.what == "lexeme" and one is not other


def is_goal(of, judgement, form, inputs):
    """Whether a judgement has this form and these inputs."""
    return judgement.form == form and inputs_of(of, judgement) == inputs


class Walk:
    """The events of goals, read from the front: tries are counted, a stop ends the walk."""

    def __init__(self, rule_set, budget, given=NOTHING):
        self.forms = rule_set.forms
        self.rules = rule_set.rules
        self.budget = budget
        self.given = given
        self.tries = 0

    def one_try(self):
        """A try is counted before it is made."""
        if self.budget is not None and self.tries == self.budget:
            raise Spent(b"more than %d tries" % self.budget)
        self.tries += 1

    def derivations(self, form, inputs, depth):
        """The derivations of a goal in order, each with its outputs: candidate after candidate."""
        for number, judgement in enumerate(self.given.holds):
            self.one_try()
            if is_goal(self.forms[form], judgement, form, inputs):
                yield Derivation(None, (), {}, number), outputs_of(self.forms[form], judgement)
        for number, rule in enumerate(self.rules):
            self.one_try()
            if rule.conclusion.form == form:
                binds = match_all(inputs_of(self.forms[form], rule.conclusion), inputs, {})
                if binds is not None:
                    yield from self.rest(number, 0, binds, (), depth)

    def rest(self, number, at, binds, kids, depth):
        """What a rule gives from the premise `at` on, with derivations of the premises before."""
        rule = self.rules[number]
        if at == len(rule.premises):
            form = self.forms[rule.conclusion.form]
            outputs = [instance(term, binds) for term in outputs_of(form, rule.conclusion)]
            measure(outputs)
            yield Derivation(number, kids, binds), outputs
            return
        premise = rule.premises[at]
        if isinstance(premise, tuple):
            if apart(premise, binds, self.given):
                yield from self.rest(number, at + 1, binds, kids, depth)
            return
        form = self.forms[premise.form]
        inputs = self.goal_of(premise, binds, depth)
        for proof, outputs in self.derivations(premise.form, inputs, depth + 1):
            more = match_all(outputs_of(form, premise), outputs, binds)
            if more is not None:
                yield from self.rest(number, at + 1, more, kids + (proof,), depth)

    def goal_of(self, premise, binds, depth):
        """The inputs of a premise's goal: its instance is measured first, then its depth."""
        inputs = [instance(term, binds) for term in inputs_of(self.forms[premise.form], premise)]
        measure(inputs)
        if depth + 1 > DEEPEST:
            raise Spent(b"derivation deeper than %d" % DEEPEST)
        return inputs

    def first(self, form, inputs, depth=1, wanted=None):
        """The first derivation of a goal with its outputs, or the first with the wanted outputs, or None."""
        for proof, outputs in self.derivations(form, inputs, depth):
            if wanted is None or outputs == wanted:
                return proof, outputs
        return None


class Blame:
    """A stuck goal: form, inputs, the path of its subject, why it is stuck, and the outputs got (or None)."""

    def __init__(self, form, inputs, path, cause, rule=None, premise=None, got=None):
        self.form = form
        self.inputs = inputs
        self.path = path
        self.cause = cause
        self.rule = rule
        self.premise = premise
        self.got = got

    def text(self, rules, goal_text):
        """The text of the refusal; `goal_text` shows a form with its inputs and the outputs got."""
        goal = goal_text(self.form, self.inputs, self.got)
        if self.cause == "no rule":
            return b"no rule concludes " + goal
        if self.cause == "conclusion":
            return b"%s is not the stated conclusion" % goal
        name = rules[self.rule].name
        if self.cause == "equal":
            return b"%s: premise %d of %s does not hold" % (goal, self.premise, name)
        return b"%s is not what premise %d of %s asks for" % (goal, self.premise, name)


def paths_to(term, number):
    """The places of a variable in a term."""
    if term.what == "variable":
        return [()] if term.number == number else []
    if term.what == "lexeme":
        return []
    return [(n,) + path for n, kid in enumerate(term.kids) for path in paths_to(kid, number)]


def path_of(forms, rule, premise, path):
    """The path of a premise's goal: the place of its subject, or the path of the goal above where it has none."""
    of, conclusion = forms[premise.form].subject, forms[rule.conclusion.form].subject
    if of is None or conclusion is None:
        return path
    return path + paths_to(rule.conclusion.places[conclusion], premise.places[of].number)[0]


def stuck(rule_set, form, inputs, given=NOTHING):
    """The stuck goal of a goal without a derivation: from goal to goal, the first candidate whose inputs match and
    the first of its premises that fails under first derivations of the premises before.

    Where nothing fails, the outputs are not the wanted ones."""
    forms, rules = rule_set.forms, rule_set.rules
    path, depth = (), 1
    while True:
        for judgement in given.holds:
            if is_goal(forms[form], judgement, form, inputs):
                return Blame(form, inputs, path, "conclusion", got=outputs_of(forms[form], judgement))
        fits = [(n, match_all(inputs_of(forms[form], rule.conclusion), inputs, {}))
                for n, rule in enumerate(rules) if rule.conclusion.form == form]
        fits = [(n, binds) for n, binds in fits if binds is not None]
        if not fits:
            return Blame(form, inputs, path, "no rule")
        at, cause, goal, got = _first_failure(rule_set, *fits[0], depth, given)
        if cause == "conclusion":
            return Blame(form, inputs, path, cause, got=got)
        rule = rules[fits[0][0]]
        premise = rule.premises[at]
        if cause == "equal":
            return Blame(form, inputs, path, cause, fits[0][0], at + 1)
        path = path_of(forms, rule, premise, path)
        if cause == "mismatch":
            return Blame(premise.form, goal, path, cause, fits[0][0], at + 1, got)
        form, inputs, depth = premise.form, goal, depth + 1


def _first_failure(rule_set, number, binds, depth, given):
    """The first premise of a rule that fails: where, how, its goal's inputs, and the outputs got.

    Where none fails, the outputs that the rule concludes."""
    walk = Walk(rule_set, None, given)
    rule = rule_set.rules[number]
    for at, premise in enumerate(rule.premises):
        if isinstance(premise, tuple):
            if not apart(premise, binds, given):
                return at, "equal", None, None
            continue
        goal = walk.goal_of(premise, binds, depth)
        found = walk.first(premise.form, goal, depth + 1)
        if found is None:
            return at, "underivable", goal, None
        more = match_all(outputs_of(rule_set.forms[premise.form], premise), found[1], binds)
        if more is None:
            return at, "mismatch", goal, found[1]
        binds = more
    outputs = outputs_of(rule_set.forms[rule.conclusion.form], rule.conclusion)
    return None, "conclusion", None, [instance(term, binds) for term in outputs]


def preorder(proof):
    """The numbers of the rules of a derivation in preorder; None for a given."""
    numbers, due = [], [proof]
    while due:
        number, kids = due.pop()
        numbers.append(number)
        due.extend(reversed(kids))
    return numbers
