"""Printed terms that are to be read again: within the limits, and in just one way."""

import outside
from lines import Stop
from printing import printed
from readings import TwoReadings, read_one
from tokens import MOST, cut


class Print:
    """The print of a term of a sort: what it is called, its tokens and its text."""

    def __init__(self, what, grammar, sort, term):
        self.what = what
        self.grammar = grammar
        self.sort = sort
        self.pieces = printed(grammar, [], term, 0)
        self.text = b" ".join(self.pieces)

    def need_readable(self, size):
        """The file has not more bytes than it may have, and the print has just one reading."""
        if size > outside.LIMIT:
            raise Stop(b"%s has %d bytes, over %d" % (self.what, size, outside.LIMIT))
        if len(self.pieces) > MOST:
            raise Stop(b"%s has %d tokens, over %d" % (self.what, len(self.pieces), MOST))
        tokens = cut(self.text, self.grammar.literals, False)
        try:
            read_one(self.grammar, self.sort, {}, tokens)
        except TwoReadings as two:
            raise Stop(b"%s has %s" % (self.what, two.text))
        except Stop as stop:
            words = stop.text.split(b" ")
            if words[0] == b"depth":
                raise Stop(b"%s has depth %s, over %s" % (self.what, words[1], words[4]))
            raise Stop(b"%s %s" % (self.what, stop.text.partition(b" ")[2]))
