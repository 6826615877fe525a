"""The words of a command."""

from lines import Stop, is_file_name, number_within

MOST_TRIES = 1000000
MOST_NODES = 1000000
MOST_SAMPLE = 300

OPTIONS = {
    b"build": (b"--core", b"--tries", b"--nodes", b"--audit"),
    b"compile": (b"--tries", b"--nodes", b"--audit"),
    b"check": (b"--tries", b"--nodes"),
    b"verify": (b"--core",),
    b"sample": (),
}


def bad_word(place):
    """The stop at the first word after which no command can follow."""
    return Stop(b"word %d" % place, status=2, file=b"words")


class Audit:
    """An auditor that is asked for: its kind, its setting and the place of the option among the words."""

    def __init__(self, kind, setting, place):
        self.kind = kind
        self.setting = setting
        self.place = place


class Command:
    """What is to be done: the word of the command, its options, and the name or the number at its end."""

    def __init__(self, what, options):
        self.what = what.decode()
        self.options = options
        self.core = False
        self.budgets = {}
        self.audits = []
        self.name = None
        self.number = None

    @property
    def tries(self):
        """The most tries of a goal."""
        return self.budgets.get(b"--tries", MOST_TRIES)

    @property
    def nodes(self):
        """The most nodes of a derivation that is lowered."""
        return self.budgets.get(b"--nodes", MOST_NODES)

    def take_option(self, word, place):
        """Takes an option; whether a command can still follow."""
        option, _, rest = word.partition(b"=")
        if option not in self.options:
            return False
        if word == b"--core":
            fits = not (self.core or self.audits or b"--nodes" in self.budgets)
            self.core = True
            return fits
        if option == b"--tries":
            return self._take_budget(option, rest, MOST_TRIES)
        if option == b"--nodes":
            return not self.core and self._take_budget(option, rest, MOST_NODES)
        return option == b"--audit" and not self.core and self._take_audit(rest, place)

    def _take_budget(self, option, rest, most):
        number = number_within(rest, 1, most)
        if number is None or option in self.budgets:
            return False
        self.budgets[option] = number
        return True

    def _take_audit(self, rest, place):
        kind, colon, setting = rest.partition(b":")
        if not colon or kind in [audit.kind for audit in self.audits]:
            return False
        self.audits.append(Audit(kind, setting, place))
        return True

    def take_last(self, word):
        """Takes the word at the end; whether it is one."""
        if self.what == "sample":
            self.number = number_within(word, 1, MOST_SAMPLE)
            return self.number is not None
        self.name = word
        return is_file_name(word)


def read_words(words):
    """The command that the words spell: its word, options while a word begins with `--`, a last word."""
    if not words or words[0] not in OPTIONS:
        raise bad_word(1)
    command = Command(words[0], OPTIONS[words[0]])
    at = 1
    while at < len(words) and words[at].startswith(b"--"):
        if not command.take_option(words[at], at + 1):
            raise bad_word(at + 1)
        at += 1
    if at == len(words) or not command.take_last(words[at]):
        raise bad_word(at + 1)
    if at + 1 < len(words):
        raise bad_word(at + 2)
    return command
