"""The language of a module, with the digest of its file."""

import outside
from interfaces import digest
from language_files import Language
from lines import need_utf8, of_file


class HeldLanguage:
    """A language file: its bytes and their digest, and once it is read the language that it states."""

    def __init__(self, name):
        self.name = name
        self.file = name + b".lang"
        self.text = outside.read(self.file)
        self.digest = digest(self.text)
        self.language = None

    def read(self):
        """Reads the language; answers this."""
        of_file(self.file, need_utf8, self.text)
        self.language = of_file(self.file, Language, self.name, self.text)
        return self


def place_name(language, role):
    """The name of the sort of the main form's place with this role."""
    for of, (_, number) in language.forms[language.main].places:
        if of == role:
            return language.grammar.sorts[number].name


def subject_sort(language):
    """The name of the sort of modules."""
    return place_name(language, "sub")


def signature_sort(language):
    """The name of the sort of signatures."""
    return place_name(language, "out")
