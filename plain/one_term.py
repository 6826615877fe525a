"""Texts that are one term: bodies of modules and signatures."""

from lines import Stop, line_and_column
from readings import NoReading, TwoReadings, place_of, read_one, term_of
from tokens import Defect, cut, placed


class Text:
    """A text from a place on that was read in just one way as a sort: its tokens, its reading and its term.

    `line_of` tells the line and the column of a place."""

    def __init__(self, grammar, sort, text, start, line_of):
        self.line_of = line_of
        self.end = len(text)
        try:
            self.tokens = cut(text, grammar.literals, False, start)
            self.reading = read_one(grammar, sort, {}, self.tokens)
        except Defect as defect:
            raise placed(defect, line_of)
        except NoReading as none:
            raise Stop(b"line %d column %d: no reading" % self.place_of_token(none.place))
        except TwoReadings as two:
            raise Stop(two.text)
        self.term = term_of(self.reading, self.tokens, [])

    def place_of_token(self, number):
        """The line and the column of a token, or of the end behind the last one."""
        return self.line_of(self.tokens[number].start if number < len(self.tokens) else self.end)

    def place_of_path(self, path):
        """The line and the column of the part of the term at the path."""
        return self.place_of_token(place_of(self.reading, path))


def read_body(grammar, sort, text, start):
    """The body of a module file."""
    return Text(grammar, sort, text, start, lambda place: line_and_column(text, place))


def read_line(grammar, sort, line):
    """A line of an interface."""
    return Text(grammar, sort, line.content, 0, lambda place: (line.number, place + 1))
