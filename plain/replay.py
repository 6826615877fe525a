"""The checker: a list of entries is gone through once, with no search."""

from lines import Stop
from terms import BIGGEST, DEEPEST, instance, match_all, too_big, too_deep
from walk import DEEPEST as DEEPEST_GOAL, apart, inputs_of, outputs_of


class Replay:
    """A derivation that is built in preorder by the entries of a list."""

    def __init__(self, rule_set, entries):
        self.forms = rule_set.forms
        self.rules = rule_set.rules
        self.entries = entries
        self.used = 0
        self.deep_goal = False
        self.made = []

    def run(self, form, inputs):
        """The outputs of the derivation of the goal whose list this is."""
        outputs = self.goal(form, inputs, 1)
        self.settle()
        if self.used < len(self.entries):
            raise Stop(b"entry %d is left over" % (self.used + 1))
        return outputs

    def wrong(self):
        """The last entry taken fits no derivation."""
        return Stop(b"entry %d fits no derivation" % self.used)

    def settle(self):
        """What else the last entry taken is refused for: a goal too deep, then a term too deep, then one too big."""
        if self.deep_goal:
            raise Stop(b"entry %d is deeper than %d" % (self.used, DEEPEST_GOAL))
        for term in self.made:
            if term.depth > DEEPEST:
                raise too_deep(term.depth)
        for term in self.made:
            if term.size > BIGGEST:
                raise too_big(term.size)
        self.made = []

    def goal(self, form, inputs, depth):
        """The outputs of a goal, by the entries from the next one on."""
        self.settle()
        if self.used == len(self.entries):
            raise Stop(b"list ends early")
        number = self.entries[self.used]
        self.used += 1
        self.deep_goal = depth > DEEPEST_GOAL
        if number is None or self.rules[number].conclusion.form != form:
            raise self.wrong()
        rule = self.rules[number]
        binds = match_all(inputs_of(self.forms[form], rule.conclusion), inputs, {})
        if binds is None:
            raise self.wrong()
        for premise in rule.premises:
            if isinstance(premise, tuple):
                if not apart(premise, binds):
                    raise self.wrong()
                continue
            goal = [instance(term, binds) for term in inputs_of(self.forms[premise.form], premise)]
            self.made.extend(goal)
            outputs = self.goal(premise.form, goal, depth + 1)
            binds = match_all(outputs_of(self.forms[premise.form], premise), outputs, binds)
            if binds is None:
                raise self.wrong()
        outputs = [instance(term, binds) for term in outputs_of(self.forms[form], rule.conclusion)]
        self.made.extend(outputs)
        return outputs
