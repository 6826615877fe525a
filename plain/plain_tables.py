"""Plain desugarings: flat bodies of plain constructors, and the plain images of terms."""

from lines import Stop
from terms import filled, measure, node


class PlainTable:
    """A flat body for each plain constructor that is not base; labels below `base` are base."""

    def __init__(self, base):
        self.base = base
        self.flat = {}
        self.images = {}

    def add(self, label, arity, body, label_name, part_name):
        """Adds a constructor's flat body, or stops. The last two tell the names of labels and of parts."""
        where = b"plain " + label_name(label)
        if label in self.flat:
            raise Stop(where + b" stands twice")
        later = self._first_later(body)
        if later is not None:
            raise Stop(b"%s: uses %s" % (where, label_name(later)))
        standing = variables_in(body)
        for part in range(arity):
            if part not in standing:
                raise Stop(b"%s: ~%s is not used" % (where, part_name(part)))
        image = self.image(body)
        try:
            measure([image])
        except Stop as stop:
            raise Stop(b"%s: %s" % (where, stop.text))
        self.flat[label] = image
        self.images = {}

    def _first_later(self, term):
        """The first label in preorder that is not base and has no flat body, or None."""
        if term.what != "node":
            return None
        if term.label >= self.base and term.label not in self.flat:
            return term.label
        for kid in term.kids:
            later = self._first_later(kid)
            if later is not None:
                return later
        return None

    def image(self, term):
        """The plain image: constructors with flat bodies become these with the images of their parts."""
        if term.what != "node":
            return term
        if term not in self.images:
            kids = [self.image(kid) for kid in term.kids]
            flat = self.flat.get(term.label)
            self.images[term] = node(term.label, kids) if flat is None else filled(flat, kids, {})
        return self.images[term]


def variables_in(term, seen=None):
    """The set of the numbers of the variables; a term that stands often is looked at once."""
    seen = set() if seen is None else seen
    if not term.open or term in seen:
        return set()
    seen.add(term)
    if term.what == "variable":
        return {term.number}
    return set().union(*(variables_in(kid, seen) for kid in term.kids))
