"""The extensions of the examples, with random modules that use them, mostly changed a little."""

import os

from extension_outline import ExtensionHeader
from extensions import Extended
from language_files import Language
from lines import Stop
from lowering import NotLowered
from make_core import tries_option
from make_examples import EXAMPLES, read
from make_rules import Signature
from mutate import changed
from plain_tables import PlainTable
from printing import printed
from terms import node
from walk import Walk

FOLDERS = ("lam", "imp", "records", "query")
MOST = 2000


def files_of(folder):
    """The language and the extension files of a folder of examples; a refused extension is among them."""
    return {os.fsencode(name): read(folder, name) for name in sorted(os.listdir(os.path.join(EXAMPLES, folder)))
            if name.endswith((".lang", ".ext"))}


def name_of(file):
    """The name of a file without what follows its point."""
    return file.split(b".")[0]


def in_order(files, names):
    """The names and those that they use, each after those that it uses."""
    order = []
    for name in names:
        header = ExtensionHeader(name, files[name + b".ext"])
        order.extend(it for it in in_order(files, header.uses) + [name] if it not in order)
    return order


def extended(files, language, names):
    """The language with the extensions that the names reach."""
    made = Extended(language, PlainTable(len(language.grammar.productions)))
    for name in in_order(files, names):
        made.add(name, files[name + b".ext"], MOST, MOST)
    return made


class ExtendedSignature(Signature):
    """Constructors and forms where those that extensions add are taken more often."""

    def __init__(self, rng, made):
        super().__init__(rng, made.grammar.constructors(), made.language.forms)
        self.first = len(made.language.grammar.productions)

    def makers(self, sort):
        """The labels of a sort, those of extensions four times."""
        return [label for label in super().makers(sort) for _ in range(1 if label < self.first else 4)]


def random_body(rng, made):
    """A body in the extended language, with a derivation where one is found soon, and the tries of its walk."""
    language = made.language
    form = language.forms[language.main]
    signature = ExtendedSignature(rng, made)
    for _ in range(30):
        term = signature.term(form.places[form.subject][1], rng.choice((1, 2, 2, 3, 3)))
        walk = Walk(made.rules, MOST)
        try:
            found = walk.first(language.main, [term if n == form.subject else node(language.empty, [])
                                               for n in form.inputs])
        except Stop:
            continue
        if found and (has_label_from(term, signature.first) or rng.random() < 0.2) or rng.random() < 0.03:
            break
    return b" ".join(printed(made.grammar, [], term, 0)), walk.tries


def has_label_from(term, first):
    """Whether a constructor with this label or a later one stands in the term."""
    return term.what == "node" and (term.label >= first or any(has_label_from(kid, first) for kid in term.kids))


def module_of(name, language, uses, body):
    """The text of a module."""
    lines = [b"module " + name, b"language " + language] + [b"use " + it for it in uses] + [b"---", body]
    return b"".join(line + b"\n" for line in lines)


def nodes_option(rng):
    """Options with a budget of nodes: mostly none."""
    return [] if rng.random() < 0.7 else [b"--nodes=%d" % rng.choice((1, 2, 3, 5, 8, 20))]


def module_input(rng, files, language_name):
    """A random module that uses some of the extensions, and the words that build it."""
    language = Language(language_name, files[language_name + b".lang"])
    names = [name_of(file) for file in files if file.endswith(b".ext")]
    uses = rng.sample(names, rng.choice((1, 1, 2, 3)))
    try:
        body, tries = random_body(rng, extended(files, language, uses))
    except (Stop, NotLowered):
        body, tries = b"x", 1
    files[b"M.mod"] = module_of(b"M", language_name, uses, body)
    return [b"build"] + tries_option(rng, tries) + nodes_option(rng) + [b"M"]


def example_module(rng, folder, files):
    """A module of the examples without imports, and the words that build it."""
    modules = {os.fsencode(name): read(folder, name) for name in sorted(os.listdir(os.path.join(EXAMPLES, folder)))
               if name.endswith(".mod")}
    file = rng.choice([file for file in modules if b"\nimport " not in modules[file]])
    files[file] = modules[file]
    return [b"build"] + tries_option(rng, None) + nodes_option(rng) + [name_of(file)]


def extended_input(rng):
    """Files and steps: a module that uses extensions is built, or an extension is checked."""
    folder = rng.choice(FOLDERS)
    files = files_of(folder)
    language_name = next(name_of(file) for file in files if file.endswith(b".lang"))
    what = rng.random()
    if what < 0.45:
        words = module_input(rng, files, language_name)
    elif what < 0.7:
        words = example_module(rng, folder, files)
    else:
        name = rng.choice([name_of(file) for file in files if file.endswith(b".ext")])
        words = [b"check"] + tries_option(rng, None) + nodes_option(rng) + [name]
    if rng.random() < 0.6:
        file = rng.choice([file for file in files for _ in range(1 if file.endswith(b".lang") else 3)])
        files[file] = changed(rng, files[file])
    return files, [words]
