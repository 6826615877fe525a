"""The environment of a module: the names of its imports with the signatures that are seen."""

from held_language import signature_sort
from interfaces import digest
from lines import Stop, of_file
from one_term import read_line
from terms import DEEPEST, lexeme, node, too_deep


def environment(held, extended, imports):
    """The environment for these interfaces; stated signatures are seen only where `extended` is given."""
    term = node(held.language.empty, [])
    for interface in imports:
        signature = of_file(interface.file, seen_signature, held, extended, interface)
        term = node(held.language.add, [term, lexeme(0, interface.module), signature])
        if term.depth > DEEPEST:
            raise too_deep(term.depth)
    return term


def extension_marks(extended):
    """The names of the extensions of a module with the digests of their files."""
    return [(name, digest(text)) for name, text in extended.files]


def seen_signature(held, extended, interface):
    """The signature of an import: the stated one where the import has just the same extensions."""
    language = held.language
    if interface.language != language.name:
        raise Stop(b"language %s differs" % interface.language)
    if interface.language_digest != held.digest:
        raise interface.differs(b"language digest", interface.language_digest, held.digest)
    sort = signature_sort(language)
    signature = read_line(language.grammar, sort, interface.signature).term
    if extended is None or not interface.uses or interface.uses != extension_marks(extended):
        return signature
    stated = read_line(extended.grammar, sort, interface.stated).term
    if extended.image(stated) is not signature:
        raise interface.differs(b"stated signature", interface.signature.content, interface.stated.content)
    return stated
