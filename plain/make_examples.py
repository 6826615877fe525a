"""The example files of the repository, with random modules, mostly changed a little."""

import os

from language_files import Language
from make_core import tries_option
from make_rules import Signature
from mutate import changed
from lines import Stop
from printing import printed
from terms import node
from walk import Walk

EXAMPLES = os.path.join(os.path.dirname(os.path.dirname(os.path.realpath(__file__))), "examples")


def read(*names):
    """The bytes of an example file."""
    with open(os.path.join(EXAMPLES, *names), "rb") as file:
        return file.read()


def random_module(rng, text):
    """A module over the language that this text states, with a derivation where one is found soon."""
    language = Language(b"Lam", text)
    form = language.forms[language.main]
    signature = Signature(rng, language.grammar.constructors(), language.forms)
    for _ in range(40):
        term = signature.term(form.places[form.subject][1], rng.choice((1, 2, 3, 3, 4)))
        walk = Walk(language.rule_set, 3000)
        try:
            found = walk.first(language.main, [term if n == form.subject else node(language.empty, [])
                                               for n in form.inputs])
        except Stop:
            continue
        if found or rng.random() < 0.03:
            break
    return b"module M\nlanguage Lam\n---\n" + b" ".join(printed(language.grammar, [], term, 0)) + b"\n", walk.tries


def example_input(rng):
    """Files and steps: an example, mostly with a change in one file."""
    if rng.random() < 0.4:
        name = rng.choice([name for name in sorted(os.listdir(os.path.join(EXAMPLES, "core"))) if name.endswith(".core")])
        files, options = {b"X.core": read("core", name)}, [b"--core"]
        end = [[b"verify", b"--core", b"X"]]
    else:
        text = read("lam", "Lam.lang")
        module, tries = random_module(rng, text)
        files, options, end = {b"Lam.lang": text, b"M.mod": module}, [], []
        options = tries_option(rng, tries)
    if rng.random() < 0.7:
        name = rng.choice(sorted(files))
        files[name] = changed(rng, files[name])
    return files, [[b"build"] + options + [b"X" if b"X.core" in files else b"M"]] + end
