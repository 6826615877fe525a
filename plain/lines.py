"""Texts that are read line by line: lines, names, numbers, and how a command is stopped."""

import re

BLANKS = b" \t\r"
NAME = re.compile(rb"[A-Za-z][A-Za-z0-9_-]{0,63}\Z")
STEM = re.compile(rb"[A-Za-z]{1,64}\Z")
FILE_NAME = re.compile(rb"[A-Za-z][A-Za-z0-9_]{0,63}\Z")
NUMBER = re.compile(rb"(0|[1-9][0-9]*)\Z")


class Stop(Exception):
    """A command is stopped: the status, the text of the printed line, and the file that it names."""

    def __init__(self, text, status=1, file=None):
        super().__init__(text)
        self.text = text
        self.status = status
        self.file = file


def of_file(file, call, *given):
    """What the call answers; a stop that names no file yet names this one."""
    try:
        return call(*given)
    except Stop as stop:
        if stop.file is None:
            stop.file = file
        raise


class Line:
    """A line: its number from 1, its bytes without the line's end, and where it begins in the text."""

    def __init__(self, number, content, start):
        self.number = number
        self.content = content
        self.start = start


def lines_of(text):
    """All lines. A line feed ends a line, with one carriage return before it; the last line may lack its line feed."""
    lines = []
    start = 0
    while start < len(text):
        feed = text.find(b"\n", start)
        if feed < 0:
            lines.append(Line(len(lines) + 1, text[start:], start))
            break
        content = text[start:feed]
        if content.endswith(b"\r"):
            content = content[:-1]
        lines.append(Line(len(lines) + 1, content, start))
        start = feed + 1
    return lines


def is_blank(content):
    """A line of blanks alone."""
    return content.strip(BLANKS) == b""


def parts_of(content):
    """The parts of a line that blanks separate."""
    return [part for part in re.split(rb"[ \t\r]+", content) if part]


def is_name(part):
    """An ASCII letter, then ASCII letters, digits, `_` or `-`; at most 64 bytes."""
    return NAME.match(part) is not None


def is_file_name(part):
    """A name of a module, a language or a core file: no `-` in it."""
    return FILE_NAME.match(part) is not None


def is_stem(part):
    """A stem of metavariables: ASCII letters, at most 64."""
    return STEM.match(part) is not None


def number_within(part, least, greatest):
    """The decimal number without sign and leading zero from least to greatest, or None."""
    if NUMBER.match(part) is None or len(part) > 20:
        return None
    number = int(part)
    return number if least <= number <= greatest else None


def need_utf8(text):
    """Stops with the number of bytes before the first that are not UTF-8."""
    try:
        text.decode("utf-8")
    except UnicodeDecodeError as error:
        raise Stop(b"not UTF-8 at byte %d" % error.start)


def notation(line, kind):
    """The stop at a bad line."""
    return Stop(b"line %d: %s" % (line, kind))


def line_and_column(text, place):
    """The line of a place, from 1, and 1 more than the number of bytes between the start of that line and the place."""
    before = text[:place]
    return before.count(b"\n") + 1, place - (before.rfind(b"\n") + 1) + 1
