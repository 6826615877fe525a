"""The outside: files of the current folder, standard output, printed lines."""

import errno
import os

from lines import Stop, need_utf8

LIMIT = 262144
LIST_LIMIT = 67108864

_held = None


def hold(files):
    """From now on these files are read, in place of those of the folder."""
    global _held
    _held = files


def read(file, limit=LIMIT):
    """The bytes of a file; it may not be there, be too long, or fail to be read."""
    if _held is not None:
        return _held[file]
    try:
        with open(file, "rb") as held:
            text = held.read(limit + 1)
    except OSError as error:
        if error.errno == errno.ENOENT:
            raise Stop(b"absent", file=file)
        raise Stop(b"read fault", status=3, file=file)
    if len(text) > limit:
        raise Stop(b"too long", file=file)
    return text


def read_text(file):
    """The bytes of a file that is UTF-8."""
    text = read(file)
    try:
        need_utf8(text)
    except Stop as stop:
        stop.file = file
        raise
    return text


def write(file, text):
    """Writes a file."""
    try:
        with open(file, "wb", buffering=0) as held:
            while text:
                text = text[held.write(text):]
    except OSError:
        raise Stop(b"write fault", status=4, file=file)


def say(text):
    """Writes on standard output; whether all of it was written."""
    try:
        while text:
            text = text[os.write(1, text):]
        return True
    except OSError:
        return False
