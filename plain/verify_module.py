"""`verify`: the three written files of a module are replayed, without a search and without extensions."""

import outside
from environments import environment
from headers import Header, bad_header
from held_language import HeldLanguage, subject_sort
from interfaces import digest, read_interface
from lines import of_file
from one_term import read_body
from printing import printed
from replay import Replay
from rules import read_list


def verify(name):
    """Replays the three files of a module."""
    interface = read_interface(name)
    file = name + b".base"
    text = outside.read_text(file)
    header = of_file(file, Header, name, text)
    of_file(file, need_fitting, header, interface)
    need_same(interface, b"base digest", interface.base_digest, digest(text))
    held = HeldLanguage(interface.language)
    need_same(interface, b"language digest", interface.language_digest, held.digest)
    imports = read_imports(interface)
    language = held.read().language
    of_file(file, header.need_no_literal, language.grammar.literals)
    around = of_file(file, environment, held, None, imports)
    body = of_file(file, read_body, language.grammar, subject_sort(language), text, header.body)
    entries, output = replayed(name, language, around, body.term)
    signature = b" ".join(printed(language.grammar, [], output, 0))
    need_same(interface, b"signature", interface.signature.content, signature)
    return [], b"verified %s: %d nodes\n" % (name, len(entries))


def need_same(interface, what, kept, found):
    """Stops where a value that an interface keeps is not the one found."""
    if kept != found:
        raise interface.differs(what, kept, found)


def need_fitting(header, interface):
    """Stops at the first line of a base file's header that does not fit the interface."""
    due = [name for name, _ in interface.imports]
    for number, word, rest in header.rows:
        if word == b"use" or (word == b"language" and rest != interface.language):
            raise bad_header(number)
        if word == b"import" and (not due or rest != due.pop(0)):
            raise bad_header(number)
    if due:
        raise bad_header(header.rows[-1][0])


def read_imports(interface):
    """The interfaces of the imports, whose digests an interface keeps."""
    imports = []
    for name, kept in interface.imports:
        imports.append(read_interface(name))
        need_same(interface, b"import %s digest" % name, kept, imports[-1].digest)
    return imports


def replayed(name, language, around, subject):
    """The entries of the list and the output of the derivation that it is."""
    file = name + b".der"
    text = outside.read(file, outside.LIST_LIMIT)
    entries = of_file(file, read_list, language.rule_set.rules, text)
    form = language.forms[language.main]
    inputs = [subject if n == form.subject else around for n in form.inputs]
    outputs = of_file(file, Replay(language.rule_set, entries).run, language.main, inputs)
    return entries, outputs[0]
