"""Random core files, and what `build --core` leaves of them, changed, for `verify --core`."""

from core_files import read_problem
from lines import Stop
from make_rules import Signature, random_rules
from rules import Form
from terms import KINDS, core_text, lexeme
from walk import Walk


def name_of(sort):
    """The name of a sort in a core file."""
    return KINDS[sort[1]] if sort[0] == "lex" else sort[1]


def random_signature(rng):
    """A few sorts, constructors and forms."""
    plain = [("plain", b"P%d" % n) for n in range(rng.choice((1, 1, 2, 3)))]
    typed = [("typed", b"E%d" % n) for n in range(rng.choice((1, 1, 1, 2)))]
    lexical = [("lex", kind) for kind in range(3)]
    cons = []
    for sort in plain:
        cons.append((sort, []))
        for _ in range(rng.randrange(3)):
            cons.append((sort, [rng.choice(plain + plain + lexical) for _ in range(rng.randrange(4))]))
    for sort in typed:
        cons.append((sort, [rng.choice(lexical)] if rng.random() < 0.5 else []))
        for _ in range(rng.choice((1, 2, 3))):
            cons.append((sort, [rng.choice(typed + typed + plain + lexical) for _ in range(rng.randrange(4))]))
    if rng.random() < 0.3:
        rng.shuffle(cons)
    forms = []
    subjects = typed if rng.random() < 0.9 else typed[:1]
    for n in range(len(subjects) + rng.choice((0, 0, 1, 2))):
        places = [("in", rng.choice(plain + lexical)) for _ in range(rng.randrange(3))]
        if n < len(subjects) or rng.random() < 0.3:
            sort = subjects[n] if n < len(subjects) else rng.choice(typed)
            places.insert(rng.randrange(len(places) + 1), ("sub", sort))
        places.extend(("out", rng.choice(plain + plain + lexical)) for _ in range(rng.choice((0, 1, 1, 1, 2))))
        if rng.random() < 0.15:
            rng.shuffle(places)
        forms.append(Form(b"f%d" % n, places))
    return Signature(rng, cons, forms), plain + typed


def judgement_text(forms, it):
    """A judgement as it stands on a line."""
    return b" ".join([forms[it.form].name] + [core_text(term) for term in it.places])


def rule_lines(forms, rule):
    """The lines of a rule."""
    lines = [b" ".join([b"rule", rule.name] + [name_of(sort) for sort in rule.sorts])]
    for it in rule.premises:
        if isinstance(it, tuple):
            lines.append(b"not " + b" ".join(core_text(side) for side in it))
        else:
            lines.append(b"if " + judgement_text(forms, it))
    return lines + [b"then " + judgement_text(forms, rule.conclusion), b"end"]


def file_of(rng, signature, sorts, rules, goal):
    """The text of a core file."""
    lines = [b"sort %s %s" % (name, kind.encode()) for kind, name in sorts]
    lines += [b" ".join([b"con", b"c%d" % n, name_of(of)] + [name_of(kid) for kid in kids])
              for n, (of, kids) in enumerate(signature.cons)]
    lines += [b" ".join([b"form", form.name] + [b"%s:%s" % (role.encode(), name_of(sort)) for role, sort in form.places])
              for form in signature.forms]
    for rule in rules:
        lines += rule_lines(signature.forms, rule)
    lines = [b"sxcore 1"] + lines + [goal]
    if rng.random() < 0.1:
        lines.insert(rng.randrange(len(lines) + 1), rng.choice((b"", b"// note", b" \t", b" // note")))
    end = rng.choice((b"\n", b"\n", b"\n", b"\n", b"\r\n"))
    return end.join(lines) + (end if rng.random() < 0.95 else b"")


def random_goal(rng, signature, depth):
    """A goal's line."""
    form = signature.forms[0]
    terms = [signature.term(form.places[n][1], depth) for n in form.inputs]
    if rng.random() < 0.01:
        terms.append(lexeme(0, b"x"))
    return None if None in terms else b" ".join([b"goal", form.name] + [core_text(term) for term in terms])


def tries_needed(text, most):
    """The tries of the goal's walk, or None where it stops; -1 where more than so many are needed."""
    try:
        problem = read_problem(text)
        walk = Walk(problem.rule_set, most)
        found = walk.first(problem.form, problem.inputs)
    except Stop as stop:
        return -1 if stop.status == 6 and b"tries" in stop.text else None
    return walk.tries if found else None


def tries_option(rng, needed):
    """Options with a budget: none, a small one, or one near what is needed."""
    if needed == -1:
        return [b"--tries=%d" % rng.choice((rng.randint(1, 30), rng.randint(1000, 3000)))]
    if rng.random() < 0.75:
        return []
    near = rng.randint(1, 30) if needed is None or rng.random() < 0.5 else max(1, needed + rng.choice((-1, 0, 1)))
    return [b"--tries=%d" % near]


def core_input(rng):
    """Files and words: a core file whose goal mostly has a derivation."""
    signature, sorts = random_signature(rng)
    rules = random_rules(signature, 40)
    text, needed = None, None
    for _ in range(12):
        goal = random_goal(rng, signature, rng.randrange(5)) or b"goal f0"
        text = file_of(rng, signature, sorts, rules, goal)
        needed = tries_needed(text, 5000)
        if (needed or 0) > 0 or rng.random() < 0.15:
            break
    options = [b"--core"] + tries_option(rng, needed)
    rng.shuffle(options)
    return {b"X.core": text}, [b"build"] + options + [b"X"], needed


def changed_list(rng, text):
    """A derivation list with an entry more, one less, another one, or two that changed places."""
    lines = text.split(b"\n")[:-1]
    at = rng.randrange(len(lines))
    what = rng.randrange(6)
    if what == 0:
        lines.pop(at)
    elif what == 1:
        lines.insert(at, rng.choice(lines))
    elif what == 2:
        lines[at] = rng.choice(lines)
    elif what == 3:
        lines.insert(at + 1, rng.choice((b"given 1", b"given 0", b"given 4294967296", b"given 4294967297", b"", b"T")))
    elif what == 4:
        lines[-1:] = []
    else:
        lines.append(lines[-1])
    return b"".join(line + b"\n" for line in lines)
