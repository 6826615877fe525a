"""`build` and `compile`: modules are read, typed, lowered and printed."""

from auditors import named, show
from closure import Closure, module_alone
from environments import environment, extension_marks
from extensions import extended
from held_language import HeldLanguage, signature_sort, subject_sort
from interfaces import Interface, digest, interface_text, read_interface
from lines import Stop, of_file
from one_term import read_body
from prints import Print
from rules import list_text
from walk import Walk, preorder, stuck


class Compiled:
    """The three texts of a module, its base derivation, and how many nodes and tokens there are."""

    def __init__(self, base, derivation, interface, proof, nodes, source_tokens, base_tokens):
        self.base = base
        self.derivation = derivation
        self.interface = interface
        self.proof = proof
        self.nodes = nodes
        self.source_tokens = source_tokens
        self.base_tokens = base_tokens


class Compiler:
    """Compiles one module against the interfaces of its imports."""

    def __init__(self, module, held, more, imports, command):
        self.module = module
        self.held = held
        self.language = held.language
        self.more = more
        self.imports = imports
        self.command = command

    def run(self):
        """The environment is made, the body read and typed, its derivation lowered, the texts printed."""
        around = environment(self.held, self.more, self.imports)
        body = read_body(self.more.grammar, subject_sort(self.language), self.module.text,
                         self.module.header.body)
        proof, outputs = self._derive(around, body)
        base_proof, judgement = self.more.lower(proof, self.command.nodes)
        form = self.language.forms[self.language.main]
        base, base_tokens = self._base(judgement.places[form.subject])
        interface = self._interface(base, judgement.places[form.outputs[0]], outputs[0])
        numbers = preorder(base_proof)
        derivation = list_text(self.language.rule_set.rules, numbers)
        return Compiled(base, derivation, interface, base_proof, len(numbers), len(body.tokens), base_tokens)

    def _derive(self, around, body):
        """The first derivation of the body in the environment, with its outputs."""
        main = self.language.main
        form = self.language.forms[main]
        inputs = [body.term if n == form.subject else around for n in form.inputs]
        found = Walk(self.more.rules, self.command.tries).first(main, inputs)
        if found is None:
            blame = stuck(self.more.rules, main, inputs)
            shown = blame.text(self.more.rules.rules, self.more.goal_text)
            raise Stop(b"line %d column %d: %s" % (*body.place_of_path(blame.path), shown))
        return found

    def _base(self, subject):
        """The text of the base file and the number of its body's tokens."""
        print_of = Print(b"printed text", self.language.grammar, subject_sort(self.language), subject)
        lines = [b"module " + self.module.name, b"language " + self.language.name]
        lines.extend(b"import " + name for name in self.module.header.imports)
        text = b"".join(line + b"\n" for line in lines + [b"---", print_of.text])
        print_of.need_readable(len(text))
        return text, len(print_of.pieces)

    def _interface(self, base, output, stated):
        """The text of the interface, with the signature in the base language and as it is stated."""
        sort = signature_sort(self.language)
        print_of = Print(b"printed signature", self.language.grammar, sort, output)
        text = self._interface_text(base, [print_of.text])
        print_of.need_readable(len(text))
        self._need_no_captured(stated)
        print_stated = Print(b"printed stated signature", self.more.grammar, sort, stated)
        text = self._interface_text(base, [print_of.text, print_stated.text])
        print_stated.need_readable(len(text))
        return text

    def _interface_text(self, base, texts):
        marks = [(interface.module, interface.digest) for interface in self.imports]
        return interface_text(self.module.name, self.language.name, self.held.digest, extension_marks(self.more),
                              digest(base), marks, texts)

    def _need_no_captured(self, term):
        """Stops at the first name in a term that is a literal of the extended grammar."""
        if term.what == "lexeme" and term.kind == 0 and term.text in self.more.grammar.literals:
            raise Stop(b"stated signature has the literal %s as a name" % term.text)
        for kid in term.kids if term.what == "node" else ():
            self._need_no_captured(kid)


def treat(module, held, imports, command, auditors):
    """What a module compiles to; each auditor has seen its base derivation."""
    of_file(module.file, module.header.need_no_literal, held.language.grammar.literals)
    more = extended(held.language, module.header.uses, module.file, command.tries, command.nodes)
    compiled = of_file(module.file, Compiler(module, held, more, imports, command).run)
    of_file(module.file, show, auditors, held.language.rule_set.rules, compiled.proof)
    return compiled


def answer(compiled, auditors):
    """The files to be written and the lines to be said, for modules with what they compile to."""
    files, lines = [], []
    for module, it in compiled:
        files.append((module.name + b".base", it.base))
        files.append((module.name + b".der", it.derivation))
        files.append((module.name + b".int", it.interface))
        lines.append(b"built %s: %d nodes\n" % (module.name, it.nodes))
    lines.extend(auditor.text() + b"\n" for auditor in auditors)
    return files, b"".join(lines)


def build_closure(command, auditors):
    """Each module of the closure with what it compiles to, imports first."""
    modules = Closure(command.name).order
    held = HeldLanguage(modules[-1].header.language).read()
    interfaces, made = {}, []
    for module in modules:
        imports = [interfaces[name] for name in module.header.imports]
        compiled = treat(module, held, imports, command, auditors)
        interfaces[module.name] = Interface(module.name, compiled.interface)
        made.append((module, compiled))
    return made


def build(command):
    """The files of all modules of the closure, and the lines."""
    auditors = named(command.audits)
    return answer(build_closure(command, auditors), auditors)


def compile_one(command):
    """The files of one module against the interfaces of its imports, and the lines."""
    auditors = named(command.audits)
    module = of_file(command.name + b".mod", module_alone, command.name)
    held = HeldLanguage(module.header.language).read()
    imports = [read_interface(name) for name in module.header.imports]
    return answer([(module, treat(module, held, imports, command, auditors))], auditors)
