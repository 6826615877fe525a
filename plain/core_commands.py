"""`build --core` and `verify --core`."""

import outside
from core_files import read_problem
from lines import Stop, of_file
from replay import Replay
from rules import list_text, read_list
from terms import core_text
from walk import Walk, preorder, stuck


def problem_of(file):
    """What the core file states."""
    return of_file(file, read_problem, outside.read_text(file))


def subject_text(problem):
    """The core text of the goal's subject on a line."""
    form = problem.rule_set.forms[problem.form]
    return core_text(problem.inputs[form.inputs.index(form.subject)]) + b"\n"


def outputs_text(outputs):
    """Each output's core text on a line."""
    return b"".join(core_text(term) + b"\n" for term in outputs)


def build(name, tries):
    """Derives the goal of a core file; the three files and the line."""
    file = name + b".core"
    problem = problem_of(file)
    found = of_file(file, Walk(problem.rule_set, tries).first, problem.form, problem.inputs)
    if found is None:
        blame = stuck(problem.rule_set, problem.form, problem.inputs)
        raise Stop(blame.text(problem.rule_set.rules, problem.goal_text), file=file)
    numbers = preorder(found[0])
    files = [(name + b".base", subject_text(problem)),
             (name + b".der", list_text(problem.rule_set.rules, numbers)),
             (name + b".int", outputs_text(found[1]))]
    return files, b"built %s: %d nodes\n" % (name, len(numbers))


def need_same(file, wanted):
    """Stops where the file does not hold just these bytes."""
    if outside.read(file) != wanted:
        raise Stop(b"differs", file=file)


def verify(name):
    """Replays the three files of a core file."""
    problem = problem_of(name + b".core")
    need_same(name + b".base", subject_text(problem))
    file = name + b".der"
    entries = of_file(file, read_list, problem.rule_set.rules, outside.read(file, outside.LIST_LIMIT))
    outputs = of_file(file, Replay(problem.rule_set, entries).run, problem.form, problem.inputs)
    need_same(name + b".int", outputs_text(outputs))
    return [], b"verified %s: %d nodes\n" % (name, len(entries))
