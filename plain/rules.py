"""Forms, rules, when rules are a rule set, and derivation lists as text."""

from lines import Stop, lines_of, number_within
from terms import has_sort, variables_of

MOST_RULES = 4096
MOST_VARIABLES = 64
MOST_GIVEN = 2 ** 32


class Form:
    """A form of judgements: its name and its places, each with a role (`in`, `sub` or `out`) and a sort."""

    def __init__(self, name, places):
        self.name = name
        self.places = places
        self.inputs = [n for n, (role, _) in enumerate(places) if role != "out"]
        self.outputs = [n for n, (role, _) in enumerate(places) if role == "out"]
        subjects = [n for n, (role, _) in enumerate(places) if role == "sub"]
        self.subject = subjects[0] if subjects else None


class Judgement:
    """A form, by its number, with terms for all places."""

    def __init__(self, form, places):
        self.form = form
        self.places = places


class Rule:
    """A name, the sorts of the variables, premises (judgements, or pairs of terms that are to be apart), a conclusion."""

    def __init__(self, name, sorts, premises, conclusion):
        self.name = name
        self.sorts = sorts
        self.premises = premises
        self.conclusion = conclusion


class Rules:
    """Forms and rules, as the walk takes them."""

    def __init__(self, forms, rules):
        self.forms = forms
        self.rules = rules


class RuleSet(Rules):
    """Forms and rules that are well sorted, disciplined and moded. `shown` tells a variable of a rule by its number."""

    def __init__(self, cons, forms, rules, shown):
        super().__init__(forms, rules)
        if len(rules) > MOST_RULES:
            raise Stop(b"more than %d rules" % MOST_RULES)
        names = set()
        for number, rule in enumerate(rules):
            _check(cons, forms, rule, names, lambda v, number=number: shown(number, v))
            names.add(rule.name)


def _check(cons, forms, rule, names, shown):
    """The first breach of a rule stops."""
    if len(rule.sorts) > MOST_VARIABLES:
        raise Stop(b"rule %s: more than %d variables" % (rule.name, MOST_VARIABLES))
    if rule.name in names:
        raise Stop(b"rule %s stands twice" % rule.name)
    if not all(_well_sorted(cons, forms, rule, it) for it in rule.premises + [rule.conclusion]):
        raise Stop(b"rule %s: sorts differ" % rule.name)
    broken = _breach(forms, rule)
    if broken is not None:
        raise Stop(b"rule %s: part %d of the discipline at premise %d" % (rule.name, *broken))
    loose = _not_bound(forms, rule)
    if loose is not None:
        raise Stop(b"rule %s: %s is not bound" % (rule.name, shown(loose)))


def _well_sorted(cons, forms, rule, it):
    """A judgement has terms of its form's sorts; two terms that are to be apart have one lexical sort."""
    if isinstance(it, tuple):
        return any(all(has_sort(side, cons, rule.sorts, ("lex", kind)) for side in it) for kind in range(3))
    if it.form >= len(forms) or len(it.places) != len(forms[it.form].places):
        return False
    return all(has_sort(term, cons, rule.sorts, sort)
               for term, (_, sort) in zip(it.places, forms[it.form].places))


def subject_of(forms, it):
    """The subject of a judgement, or None."""
    if isinstance(it, tuple) or forms[it.form].subject is None:
        return None
    return it.places[forms[it.form].subject]


def _breach(forms, rule):
    """The first part of the discipline that is broken, and the first premise that breaks it."""
    subjects = [(n, subject_of(forms, it)) for n, it in enumerate(rule.premises, 1)]
    subjects = [(n, term) for n, term in subjects if term is not None]
    whole = subject_of(forms, rule.conclusion)
    standing = variables_of(whole) if whole is not None else []
    for n, term in subjects:
        if term.what != "variable":
            return 1, n
    for n, term in subjects:
        if standing.count(term.number) != 1:
            return 2, n
    for n, term in subjects:
        if any(other is term for before, other in subjects if before < n):
            return 3, n
    numbers = [term.number for _, term in subjects]
    for number in standing:
        if rule.sorts[number][0] == "typed" and numbers.count(number) != 1:
            return 4, 0
    return None


def _not_bound(forms, rule):
    """The first variable that is used before it is bound, or else the first that stands nowhere."""
    def of(it, places):
        return [v for n in places for v in variables_of(it.places[n])]

    conclusion = forms[rule.conclusion.form]
    bound = set(of(rule.conclusion, conclusion.inputs))
    for it in rule.premises:
        if isinstance(it, tuple):
            used, made = [v for side in it for v in variables_of(side)], []
        else:
            used, made = of(it, forms[it.form].inputs), of(it, forms[it.form].outputs)
        for v in used:
            if v not in bound:
                return v
        bound.update(made)
    for v in of(rule.conclusion, conclusion.outputs):
        if v not in bound:
            return v
    for v in range(len(rule.sorts)):
        if v not in bound:
            return v
    return None


def list_text(rules, numbers):
    """The text of a derivation's list."""
    return b"sxder 1\n" + b"".join(rules[number].name + b"\n" for number in numbers)


def read_list(rules, text):
    """The numbers of the rules in a list's text, None for a given; the first bad line stops."""
    number_of = {rule.name: number for number, rule in enumerate(rules)}
    lines = lines_of(text)
    if not lines or lines[0].content != b"sxder 1":
        raise Stop(b"line 1: bad entry")
    entries = []
    for line in lines[1:]:
        if line.content in number_of:
            entries.append(number_of[line.content])
        elif line.content.startswith(b"given ") and number_within(line.content[6:], 1, MOST_GIVEN) is not None:
            entries.append(None)
        else:
            raise Stop(b"line %d: bad entry" % line.number)
    return entries
