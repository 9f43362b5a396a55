"""Survivors, and Values under Rules: what rules come to over survivors, and which are too wide.

Two entries with one digest (`Collision`) are left out, since nobody knows any.
"""
from collections import Counter

from texts import require

ENTRY_LIMIT = 16384
FALSE, UNKNOWN, TRUE = 0, 1, 2
VERDICTS = {TRUE: "kept", FALSE: "broken", UNKNOWN: "unsettled"}
WIDTH_LIMIT = 268435456

class Survivors:
    """The survivors of given entries, by their numbers; `ancestors` are sets of numbers."""

    def __init__(self, given, limit=ENTRY_LIMIT):
        distinct = {entry.digest: entry for entry in given}
        require(len(distinct) <= limit, "TooMany")
        self.strays = sorted(digest for digest in distinct if is_stray(distinct[digest], distinct))
        left = [distinct[digest] for digest in distinct.keys() - set(self.strays)]
        self.entries = sorted(left, key=lambda entry: (entry.stamp, entry.digest))
        self.places = {entry.digest: place for place, entry in enumerate(self.entries)}
        self.parents = [[self.places[name] for name in entry.names if name in self.places]
                        for entry in self.entries]
        self.ancestors = {}
        for place, parents in enumerate(self.parents):
            self.ancestors[place] = set(parents).union(*[self.ancestors[one] for one in parents])

    def whole(self, ancestors):
        """The survivors that are whole, by the ancestors of some of them."""
        names_gap = {place for place, entry in enumerate(self.entries)
                     if len(self.parents[place]) < len(entry.names)}
        return {place for place, found in ancestors.items()
                if names_gap.isdisjoint(found | {place})}

    def forks(self):
        """The pairs of a machine and a number that several survivors have."""
        counts = Counter((entry.maker, entry.number) for entry in self.entries)
        return sorted(pair for pair, count in counts.items() if count > 1)

def is_stray(entry, distinct):
    return any(name in distinct and distinct[name].stamp >= entry.stamp for name in entry.names)

def gather(logs, limit=ENTRY_LIMIT):
    """The survivors of the kept records of logs."""
    return Survivors([record.entry for log in logs for record in log.kept], limit)

def outermost(last, values):
    """The value that is the nearest to `last`, the least or the greatest one."""
    nearest = TRUE - last
    for value in values:
        if value == last:
            return last
        nearest = UNKNOWN if value == UNKNOWN else nearest
    return nearest

class Judge:
    """Says what formulas come to over survivors, by the ancestors of all or of some of them.

    `bound` maps variables to the numbers of survivors.
    """

    def __init__(self, survivors, ancestors, roster):
        self.entries, self.roster = survivors.entries, roster
        self.ancestors, self.whole = ancestors, survivors.whole(ancestors)

    def of_kind(self, kind):
        return [place for place, entry in enumerate(self.entries) if kind in ("entry", entry.deed["kind"])]

    def value(self, formula, bound):
        head, *parts = formula
        if head in ("every", "some"):
            return outermost(FALSE if head == "every" else TRUE, self.instances(bound, *parts))
        if head in ("and", "or"):
            values = (self.value(part, bound) for part in parts)
            return outermost(FALSE if head == "and" else TRUE, values)
        if head == "not":
            return TRUE - self.value(parts[0], bound)
        if head == "implies":
            return self.value(("or", ("not", parts[0]), parts[1]), bound)
        if head == "before":
            first, second = bound[parts[0]], bound[parts[1]]
            unless = FALSE if second in self.whole else UNKNOWN
            return TRUE if first in self.ancestors.get(second, ()) else unless
        return TRUE if self.holds(head, parts, bound) else FALSE

    def instances(self, bound, variable, kind, before, formula):
        """The values of a quantifier's formula, and unknown where a lost entry may count."""
        for place in self.of_kind(kind):
            if before is None or place in self.ancestors.get(bound[before], ()):
                yield self.value(formula, {**bound, variable: place})
        if before is not None and bound[before] not in self.whole:
            yield UNKNOWN

    def holds(self, head, parts, bound):
        """Does a formula hold that the survivors decide?"""
        if head == "true":
            return True
        if head in ("=", "<"):
            first, second = [self.term(part, bound) for part in parts]
            return first == second if head == "=" else first < second
        entry = self.entries[bound[parts[0]]]
        if head == "is":
            return self.roster.machines[entry.maker].role == parts[1]
        if head == "kind":
            return parts[1] in ("entry", entry.deed["kind"])
        other = self.entries[bound[parts[1]]]
        if head == "next":
            return (entry.maker, entry.number + 1) == (other.maker, other.number)
        return entry is other

    def term(self, term, bound):
        if isinstance(term, int):
            return term
        entry, field = self.entries[bound[term[0]]], term[1]
        return entry.deed[field] if field in entry.deed else getattr(entry, field)

    def culprits(self, formula, bound):
        """The entries that the leading `every` of a broken rule stand for."""
        if formula[0] != "every" or formula[3] is not None:
            return []
        _, variable, kind, _, inside = formula
        instances = [{**bound, variable: place} for place in self.of_kind(kind)]
        first = next(one for one in instances if self.value(inside, one) == FALSE)
        return [self.entries[first[variable]]] + self.culprits(inside, first)

    def width(self, formula, around=1):
        """The greatest product of the numbers of survivors of quantifiers that nest."""
        if formula[0] in ("every", "some"):
            counted = around * len(self.of_kind(formula[2]))
            return max(counted, self.width(formula[4], counted))
        nests = formula[0] in ("and", "or", "not", "implies")
        return max([self.width(part, around) for part in formula[1:] if nests], default=0)

    def verdicts(self, rules):
        """The verdicts of rules, of which none may be too wide."""
        for place, rule in enumerate(rules):
            require(self.width(rule.formula) <= WIDTH_LIMIT, "TooWide", place)
        return [VERDICTS[self.value(rule.formula, {})] for rule in rules]
