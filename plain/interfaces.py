"""Interfaces of modules: their texts, written and read, and digests."""

import hashlib
import re

import outside
from headers import bad_header
from lines import Stop, is_file_name, lines_of, number_within, of_file
from terms import GREATEST

DIGITS = re.compile(rb"[0-9a-f]{64}\Z")
VERSIONS = (1, 2)


def digest(text):
    """The digits of the SHA-256."""
    return hashlib.sha256(text).hexdigest().encode()


def interface_text(module, language, language_digest, uses, base_digest, imports, texts):
    """The text of an interface: `uses` and `imports` are names with digests, `texts` the last lines."""
    lines = [b"sxint 2", b"module " + module, b"language %s %s" % (language, language_digest)]
    lines.extend(b"use %s %s" % mark for mark in uses)
    lines.append(b"base " + base_digest)
    lines.extend(b"import %s %s" % mark for mark in imports)
    return b"".join(line + b"\n" for line in lines + [b"---"] + texts)


def read_mark(word, content):
    """The name and the digest behind a word, or None where the line has not this shape."""
    parts = content.split(b" ")
    if len(parts) != 3 or parts[0] != word or not is_file_name(parts[1]) or not DIGITS.match(parts[2]):
        return None
    return parts[1], parts[2]


class Interface:
    """What an interface states. `signature` and `stated` are lines of it, one line in the first version."""

    def __init__(self, name, text):
        self.file = name + b".int"
        self.digest = digest(text)
        self.module = name
        self.lines = lines_of(text)
        self.at = 0
        version = self._version()
        self._need(self._take() == b"module " + name)
        mark = read_mark(b"language", self._take())
        self._need(mark is not None)
        self.language, self.language_digest = mark
        self.uses = self._marks(b"use") if version == 2 else []
        word, _, self.base_digest = self._take().partition(b" ")
        self._need(word == b"base" and DIGITS.match(self.base_digest) is not None)
        self.imports = self._marks(b"import")
        self._need(self._take() == b"---")
        self._take()
        self.signature = self.lines[self.at - 1]
        if version == 2:
            self._take()
        self.stated = self.lines[self.at - 1]
        if self.at < len(self.lines):
            raise bad_header(self.at + 1)

    def _take(self):
        """The content of the next line."""
        if self.at == len(self.lines):
            raise bad_header(self.at + 1)
        self.at += 1
        return self.lines[self.at - 1].content

    def _need(self, holds):
        """The line taken last is bad where this does not hold."""
        if not holds:
            raise bad_header(self.at)

    def _version(self):
        word, _, rest = self._take().partition(b" ")
        number = number_within(rest, 0, GREATEST)
        self._need(word == b"sxint" and number is not None)
        if number not in VERSIONS:
            raise Stop(b"version %d" % number)
        return number

    def _marks(self, word):
        """The lines of a word: distinct names with their digests."""
        marks = []
        while self.at < len(self.lines) and self.lines[self.at].content.partition(b" ")[0] == word:
            mark = read_mark(word, self._take())
            self._need(mark is not None and mark[0] not in [name for name, _ in marks])
            marks.append(mark)
        return marks

    def differs(self, what, kept, found):
        """The stop at a value of this interface that is not the one found."""
        return Stop(b"%s kept %s, found %s" % (what, kept, found), file=self.file)


def read_interface(name):
    """The interface of a module, from its file."""
    file = name + b".int"
    return of_file(file, Interface, name, outside.read_text(file))
