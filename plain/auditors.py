"""Auditors: each sees every node of the derivations that are to be written, and may object."""

from lines import Stop, is_name, number_within
from words import bad_word

MOST_NAMES = 64
MOST_DEPTH = 3000
MOST_NODES = 1000000


def rule_names(setting):
    """The names of rules that a setting lists, or None."""
    names = setting.split(b",")
    return names if len(names) <= MOST_NAMES and all(is_name(name) for name in names) else None


class Deny:
    """Objects to nodes by some rules."""

    kind = b"deny"

    def set(self, setting):
        """Takes a setting; whether it is one."""
        self.names = rule_names(setting)
        return self.names is not None

    def see(self, rule, depth):
        """Sees a node; whether it may stand."""
        return rule not in self.names

    def text(self):
        """What is told at the end."""
        return b" ".join([self.kind] + self.names)


class Depth:
    """Objects to nodes that are too deep."""

    kind = b"depth"

    def set(self, setting):
        """Takes a setting; whether it is one."""
        self.most = number_within(setting, 1, MOST_DEPTH)
        self.greatest = 0
        return self.most is not None

    def see(self, rule, depth):
        """Sees a node; whether it may stand."""
        self.greatest = max(self.greatest, depth)
        return depth <= self.most

    def text(self):
        """What is told at the end."""
        return b"depth %d of %d" % (self.greatest, self.most)


class Nodes:
    """Objects to the first node that is one too many over all modules."""

    kind = b"nodes"

    def set(self, setting):
        """Takes a setting; whether it is one."""
        self.most = number_within(setting, 1, MOST_NODES)
        self.seen = 0
        return self.most is not None

    def see(self, rule, depth):
        """Sees a node; whether it may stand."""
        self.seen += 1
        return self.seen <= self.most

    def text(self):
        """What is told at the end."""
        return b"nodes %d of %d" % (self.seen, self.most)


class Tally:
    """Counts the nodes by some rules."""

    kind = b"tally"

    def set(self, setting):
        """Takes a setting; whether it is one."""
        names = rule_names(setting)
        if names is None or len(set(names)) < len(names):
            return False
        self.counts = {name: 0 for name in names}
        return True

    def see(self, rule, depth):
        """Sees a node; whether it may stand."""
        if rule in self.counts:
            self.counts[rule] += 1
        return True

    def text(self):
        """What is told at the end."""
        return b" ".join([self.kind] + [b"%s %d" % count for count in self.counts.items()])


def named(audits):
    """The auditors that the options name, set, in the order deny, depth, nodes, tally."""
    auditors = [Deny(), Depth(), Nodes(), Tally()]
    asked = []
    for audit in audits:
        found = [auditor for auditor in auditors if auditor.kind == audit.kind]
        if not found or not found[0].set(audit.setting):
            raise bad_word(audit.place)
        asked.append(audit.kind)
    return [auditor for auditor in auditors if auditor.kind in asked]


def show(auditors, rules, proof):
    """Shows each node in preorder, with its rule's name and its depth, to each auditor."""
    if not auditors:
        return
    due, number = [(proof, 1)], 0
    while due:
        (rule, kids), depth = due.pop()
        number += 1
        name = rules[rule].name
        for auditor in auditors:
            if not auditor.see(name, depth):
                raise Stop(b"%s objects to node %d, %s" % (auditor.kind, number, name))
        due.extend((kid, depth + 1) for kid in reversed(kids))
