"""Headers of module files."""

from lines import Stop, is_blank, is_file_name, lines_of


def bad_header(number):
    """The stop at a line of a header or an interface that is not as it should be."""
    return Stop(b"line %d: bad header" % number)


class Header:
    """The header of a module file: its language, its `use` and `import` names, and where its body begins.

    `rows` has each line as its number, its word and its name; the last is that of `---`, without a name."""

    def __init__(self, name, text):
        self.language = None
        self.names = {b"use": [], b"import": []}
        self.rows = []
        lines = lines_of(text)
        due = "module"
        for line in lines:
            if is_blank(line.content) or line.content.startswith(b"//"):
                continue
            due = self._next(due, line.content, name)
            if due is None:
                raise bad_header(line.number)
            word, _, rest = line.content.partition(b" ")
            self.rows.append((line.number, word, rest))
            if due == "body":
                self.body = lines[line.number].start if line.number < len(lines) else len(text)
                return
        raise bad_header(len(lines) + 1)

    def _next(self, due, content, name):
        """What is due after a line: the language, then names, then the body; None after a bad line."""
        word, _, rest = content.partition(b" ")
        if due == "module":
            return "language" if content == b"module " + name else None
        if due == "language":
            self.language = rest
            return "use" if word == b"language" and is_file_name(rest) else None
        if content == b"---":
            return "body"
        if word not in self.names or not is_file_name(rest) or rest in self.names[word]:
            return None
        if word == b"use" and due == "import":
            return None
        self.names[word].append(rest)
        return word.decode()

    @property
    def uses(self):
        """The names of the extensions."""
        return self.names[b"use"]

    @property
    def imports(self):
        """The names of the imports."""
        return self.names[b"import"]

    def need_no_literal(self, literals):
        """Stops at the first import whose name is a literal of the language."""
        for number, word, rest in self.rows:
            if word == b"import" and rest in literals:
                raise bad_header(number)
