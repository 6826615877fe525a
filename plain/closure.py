"""The modules that are reached from a module by `import` lines."""

import outside
from headers import Header
from lines import Stop, of_file

MOST_FILES = 256


class Module:
    """A module file: its name, its text and its header."""

    def __init__(self, name):
        self.name = name
        self.file = name + b".mod"
        self.text = outside.read_text(self.file)
        self.header = of_file(self.file, Header, name, self.text)


def too_many():
    """The stop at the file after the most."""
    return Stop(b"more than %d files" % MOST_FILES)


def cycle(names):
    """The stop at names that lead back to the first."""
    return Stop(b" ".join([b"cycle"] + names))


class Closure:
    """The modules reached from a root, walked depth first in the order of the lines.

    `order` has each after those that it imports."""

    def __init__(self, root):
        self.reached = set()
        self.path = []
        self.order = []
        of_file(root + b".mod", self._visit, root, None)

    def _visit(self, name, language):
        """Reads a module and all that it imports; its importer has the language."""
        module = Module(name)
        if language not in (None, module.header.language):
            raise Stop(b"language %s differs" % module.header.language, file=module.file)
        if len(self.reached) == MOST_FILES:
            raise too_many()
        self.reached.add(name)
        self.path.append(name)
        for other in module.header.imports:
            if other in self.path:
                raise cycle(self.path[self.path.index(other):] + [other])
            if other not in self.reached:
                self._visit(other, module.header.language)
        self.path.pop()
        self.order.append(module)


def module_alone(name):
    """A module whose imports are not read; it does not import itself and not too many."""
    module = Module(name)
    if name in module.header.imports:
        raise cycle([name, name])
    if len(module.header.imports) >= MOST_FILES:
        raise too_many()
    return module
