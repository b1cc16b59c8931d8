"""Hits counted by Python's Unicode tables and nothing of zebraidx: what the manual says of rules and attributes, tried on each record.

It knows what bench/queries asks, and no more: no diagnostics, and no structure 107, whose numbers a register gives.
"""
import operator
import re
import unicodedata
from dataclasses import dataclass, field

from made import BEFORE_CODE, fields_of

ORDERS = {1: operator.lt, 2: operator.le, 3: operator.eq, 4: operator.ge, 5: operator.gt, 6: operator.ne}
USE, RELATION, POSITION, STRUCTURE, TRUNCATION, COMPLETENESS = range(1, 7)
DEFAULTS = {USE: 1016, RELATION: 3, POSITION: 3, STRUCTURE: 1, TRUNCATION: 100, COMPLETENESS: 1}


def folded(text):
    """NFD, default case folding, NFD, without the combining marks U+0300 to U+036F."""
    text = unicodedata.normalize("NFD", unicodedata.normalize("NFD", text).casefold())
    return "".join(it for it in text if not "\u0300" <= it <= "\u036f")


def words(text, also=""):
    return "".join(it if it in also or unicodedata.category(it)[0] in "LMN" else " " for it in folded(text)).split()


def numbers(text):
    return [int(it) for it in re.findall("[0-9]+", text) if len(it) <= 18]


@dataclass
class Unit:
    """A subfield or a control field: its targets, its words and its numbers."""

    targets: set
    words: list
    numbers: list


class Rules:
    """The targets of subfields, and the indexes of use attributes."""

    def __init__(self, text):
        lines = [it.split() for it in text.splitlines() if it and not it.startswith("#")]
        self.uses = {int(it[1]): it[2] for it in lines if it[0] == "att"}
        self.elements = [(it[1], self.read(it[2])) for it in lines if it[0] == "melm"]
        [self.everywhere] = [self.read(it[1]) for it in lines if it[0] == "all"]

    @staticmethod
    def read(targets):
        return {tuple(it.split(":")) if ":" in it else (it, "w") for it in targets.split(",")}

    def unit(self, tag, code, text):
        fitting = [targets for pattern, targets in self.elements if pattern in (tag, f"{tag}${code}")]
        targets = set(fitting[0]) if fitting else set()
        return Unit(targets if tag.startswith("00") else targets | self.everywhere, words(text), numbers(text))

    def units(self, fields):
        for tag, text in fields:
            if tag.startswith("00"):
                yield self.unit(tag, None, text)
            else:
                yield from (self.unit(tag, it[0], it[1:]) for it in text.split(BEFORE_CODE)[1:] if it)

    def records(self, path):
        """The units of each kept record: of several with one identifier the last counts."""
        kept = {next(text for tag, text in it if tag == "001").strip(" "): it for it in map(list, fields_of(path.read_bytes()))}
        return [list(self.units(it)) for it in kept.values()]


@dataclass
class Term:
    text: str
    attributes: dict = field(default_factory=dict)

    def patterns(self):
        """A pattern for each word, where truncation puts stars."""
        cut, found = self.attributes[TRUNCATION], words(self.text, "#" if self.attributes[TRUNCATION] == 101 else "")
        if cut == 101:
            return [".*".join(map(re.escape, it.split("#"))) for it in found]
        is_each = self.attributes[STRUCTURE] in (6, 105)
        for place, word in enumerate(found):
            before = ".*" if cut in (2, 3) and (is_each or place == 0) else ""
            after = ".*" if cut in (1, 3) and (is_each or place == len(found) - 1) else ""
            found[place] = before + re.escape(word) + after
        return found

    def register(self):
        return "n" if self.attributes[STRUCTURE] == 109 else "p" if self.attributes[COMPLETENESS] in (2, 3) else "w"

    def entries(self, units):
        """The entries of its register, to be compared with the term."""
        if self.register() == "n":
            return [it for unit in units for it in unit.numbers]
        texts = [[" ".join(it.words)] if it.words else [] for it in units] if self.register() == "p" else [it.words for it in units]
        return [it.encode() for entries in texts for it in entries]

    def holds(self, rules, record):
        units = [it for it in record if (rules.uses[self.attributes[USE]], self.register()) in it.targets]
        relation, structure, patterns = self.attributes[RELATION], self.attributes[STRUCTURE], self.patterns()
        if relation == 103:
            return bool(self.entries(units))
        if self.register() == "n":
            return any(ORDERS[relation](it, int(self.text)) for it in self.entries(units))
        if not patterns:
            return False
        if relation != 3:
            return any(ORDERS[relation](it, " ".join(words(self.text)).encode()) for it in self.entries(units))
        if self.register() == "p":
            return any(re.fullmatch(" ".join(patterns), it.decode()) for it in self.entries(units))
        if structure in (6, 105):
            among = [any(re.fullmatch(pattern, it) for unit in units for it in unit.words) for pattern in patterns]
            return all(among) if structure == 6 else any(among)
        return any(self.stands(patterns, it.words) for it in units)

    def stands(self, patterns, found):
        """Whether a stretch of the words matches, the first one where the position says so."""
        starts = range(1 if self.attributes[POSITION] in (1, 2) else len(found))
        stretches = [found[it : it + len(patterns)] for it in starts]
        return any(len(it) == len(patterns) and all(map(re.fullmatch, patterns, it)) for it in stretches)


@dataclass
class Near:
    """`@prox`: its distance, whether the left word has to stand first, its relation, and its two terms."""

    distance: int
    is_ordered: bool
    relation: int
    left: Term
    right: Term

    def holds(self, rules, record):
        [one], [other] = self.left.patterns(), self.right.patterns()
        units = [it for it in record if (rules.uses[self.left.attributes[USE]], "w") in it.targets]
        return any(self.is_near(places(one, it.words), places(other, it.words)) for it in units)

    def is_near(self, ones, others):
        pairs = [(one, other) for one in ones for other in others if one < other or (other < one and not self.is_ordered)]
        return any(ORDERS[self.relation](abs(one - other), self.distance) for one, other in pairs)


def places(pattern, found):
    return [place for place, it in enumerate(found) if re.fullmatch(pattern, it)]


@dataclass
class Both:
    """`@and`, `@or` and `@not`."""

    operation: str
    left: object
    right: object

    def holds(self, rules, record):
        one, other = self.left.holds(rules, record), self.right.holds(rules, record)
        return {"@and": one and other, "@or": one or other, "@not": one and not other}[self.operation]


def read(asked, attributes):
    """The tree of a query, whose words are taken from the front."""
    word, is_quoted = asked.pop(0)
    if is_quoted or not word.startswith("@"):
        return Term(word, attributes)
    if word == "@attr":
        kind, value = map(int, asked.pop(0)[0].split("="))
        return read(asked, {**attributes, kind: value})
    if word == "@prox":
        _, distance, ordered, relation, _, _ = (asked.pop(0)[0] for _ in range(6))
        return Near(int(distance), ordered == "1", int(relation), read(asked, attributes), read(asked, attributes))
    return Both(word, read(asked, attributes), read(asked, attributes))


def tree(query):
    found = re.finditer(r'"([^"]*)"|(\S+)', query)
    return read([(it[2], False) if it[1] is None else (it[1], True) for it in found], DEFAULTS)


def of_file(rules, path):
    """The rules of a text, and the records of a file under them."""
    read_rules = Rules(rules)
    return read_rules, read_rules.records(path)


def hits(rules, records, query):
    """How many of the records the query holds on."""
    asked = tree(query)
    return sum(asked.holds(rules, it) for it in records)
