"""Rules: their reader.

A formula is a tuple of its head and its parts. Those of a quantifier are the variable, the kind,
the variable after `before` or None, and the formula inside.
"""
import pathlib
import re
from collections import namedtuple

from entries import LATER_DEEDS
from texts import read_decimal, require

RULES_LIMIT = 256
PART_LIMIT = 64
QUANTIFIER_LIMIT = 4
PARENTHESIS_LIMIT = 32

FIELDS = {word: ["maker", "number"] + [field for field in fields if field != "how"]
          for word, fields in LATER_DEEDS.items()}
FIELDS.update({"entry": ["maker", "number"], "forced": FIELDS["override"]})
SORTS = {"maker": "machine", "booth": "machine", "number": "count", "session": "session",
         "ballot": "ballot"}
# The parts of the formulas that have a fixed number of them, and the other heads.
PARTS = {"not": ["formula"], "implies": ["formula", "formula"], "same": ["variable", "variable"],
         "before": ["variable", "variable"], "next": ["variable", "variable"],
         "is": ["variable", "role"], "kind": ["variable", "kind"]}
HEADS = [*PARTS, "every", "some", "and", "or", "=", "<"]

# What separates tokens, and a token, which is empty at the end and before any other byte.
TOKEN = re.compile(rb"[ \t\n\r]*([()]|[!-'*-~]+|)")
RULE_NAME = re.compile("[A-Za-z0-9]{1,16}")
VARIABLE = re.compile("[a-z]")
TERM = re.compile(r"([a-z])\.(.*)")

Rule = namedtuple("Rule", "name formula")

class RulesReader:
    """Stands at a token, which is empty at the end of the text; goes on once nothing is wrong."""

    def __init__(self, octets):
        self.octets, self.place, self.token, self.end = octets, 0, "", 0
        self.bound, self.open = {}, 0
        self.advance()

    def require(self, good, cause):
        require(good, cause, self.place)

    def advance(self):
        self.open += (self.token == "(") - (self.token == ")")
        found = TOKEN.match(self.octets, self.end)
        self.place, self.end = found.span(1)
        self.token = found.group(1).decode()
        self.require(self.token or self.end == len(self.octets), "Token")

    def take(self, *tokens):
        """Go on from the token at hand, which has to be one of these; it."""
        token = self.token
        self.require(token in tokens, "Shape")
        self.advance()
        return token

    def read_rule(self, names):
        self.take("(")
        self.take("rule")
        self.require(RULE_NAME.fullmatch(self.token), "Shape")
        self.require(self.token not in names, "SameName")
        rule = Rule(self.take(self.token), self.read_formula())
        self.take(")")
        return rule

    def read_formula(self):
        if self.token == "true":
            return (self.take("true"),)
        self.require(self.token != "(" or self.open < PARENTHESIS_LIMIT, "TooDeep")
        self.take("(")
        nests = self.token in ("every", "some")
        self.require(not nests or len(self.bound) < QUANTIFIER_LIMIT, "TooDeep")
        head = self.take(*HEADS)
        if nests:
            parts = self.read_quantifier()
        elif head in ("and", "or"):
            parts = self.read_formulas()
        elif head in ("=", "<"):
            parts = self.read_terms(SORTS.values() if head == "=" else ["count", "session"])
        else:
            parts = [getattr(self, "read_" + part)() for part in PARTS[head]]
        self.take(")")
        return (head, *parts)

    def read_quantifier(self):
        variable = self.token
        self.require(VARIABLE.fullmatch(variable), "Shape")
        self.require(variable not in self.bound, "SameName")
        self.advance()
        kind, before = self.read_kind(), None
        if self.token == "before":
            self.advance()
            before = self.read_variable()
        self.bound[variable] = kind
        formula = self.read_formula()
        del self.bound[variable]
        return variable, kind, before, formula

    def read_formulas(self):
        parts = [self.read_formula()]
        while self.token != ")":
            self.require(len(parts) < PART_LIMIT, "Shape")
            parts.append(self.read_formula())
        return parts

    def read_variable(self):
        self.require(VARIABLE.fullmatch(self.token), "Shape")
        self.require(self.token in self.bound, "Unbound")
        return self.take(self.token)

    def read_role(self):
        return self.take("supervisor", "booth")

    def read_kind(self):
        self.require(self.token not in ("(", ")", ""), "Shape")
        self.require(self.token in FIELDS, "UnknownKind")
        return self.take(self.token)

    def read_terms(self, sorts):
        first, sort = self.read_term(sorts)
        return first, self.read_term([sort])[0]

    def read_term(self, sorts):
        """A term, a number or a pair of a variable and a field; and its sort, one of these."""
        term, sort = read_decimal(self.token), "count"
        if term is None:
            found = TERM.fullmatch(self.token)
            self.require(found, "Shape")
            variable, field = term = found.groups()
            self.require(variable in self.bound, "Unbound")
            self.require(field in FIELDS[self.bound[variable]], "WrongField")
            sort = SORTS[field]
        self.require(sort in sorts, "WrongField")
        self.advance()
        return term, sort

def read_rules(octets):
    reader, found = RulesReader(octets), []
    while reader.token or not found:
        reader.require(len(found) < RULES_LIMIT, "Shape")
        found.append(reader.read_rule([rule.name for rule in found]))
    return found

# The standard rules as the document has them.
STANDARD_TEXT = pathlib.Path(__file__).with_name("standard.rules").read_bytes()
STANDARD = read_rules(STANDARD_TEXT)
