"""What is done by lot to the leaves of a register's file, with harm and without."""
import image
from leaves import FIRST_KEY, LEAF_BYTES, Malformed, key_of, read_leaf, spelled_leaf

WORDS = (b"", b"a", b"dick", b"moby", b"mobyx", b"zebra", "é".encode(), b"n" * 300)
BLOCK_BYTES = (b"", b"\0", b"\1\1", b"\1\1\1", b"\1\2\1", b"\0\1\1", b"\xff" * 9 + b"\1\1\1", b"\1" * 3000)


class Leaf:
    """A leaf's row, under its rowid, with its entries."""

    def __init__(self, number, row):
        self.number, self.row, self.entries = number, row, read_leaf(row["data"])

    def register(self):
        return self.row["db"], self.row["idx"], self.row["reg"]

    def key(self):
        return self.row["term"], self.row["block"]

    def last(self):
        """The key of its last entry, or its own one."""
        return key_of(self.entries[-1]) if self.entries else self.key()


class LeafRows:
    """The leaves of a register's file that can be read, as they come."""

    def __init__(self, register):
        self.register, self.random = register, register.random

    def leaves(self):
        """All of them, in the order of their keys."""
        found = []
        for number, row in self.register.rows("blocks").items():
            try:
                found.append(Leaf(number, row))
            except Malformed:
                continue
        return sorted(found, key=lambda it: (it.register(), it.key()))

    def one(self, least=1):
        """One that has so many entries, or None."""
        found = [it for it in self.leaves() if len(it.entries) >= least]
        return self.random.choice(found) if found else None

    def neighbours(self):
        """Two of one register that follow one another, or None."""
        leaves = self.leaves()
        found = [pair for pair in zip(leaves, leaves[1:]) if pair[0].register() == pair[1].register()]
        return self.random.choice(found) if found else None

    def set(self, leaf, entries):
        self.register.turn("blocks", leaf.number, {**leaf.row, "data": spelled_leaf(entries)})

    def put(self, leaf, key, entries):
        """A leaf more of the register of this one."""
        self.register.put("blocks", {**leaf.row, "term": key[0], "block": key[1], "data": spelled_leaf(entries)})

    def take(self, leaf):
        self.register.run("DELETE FROM blocks WHERE rowid = ?", leaf.number)

    # Without harm.

    def part(self):
        """A leaf is parted into two, or into more, which may have one entry each."""
        leaf = self.one(least=2)
        if leaf:
            places = sorted(self.random.sample(range(1, len(leaf.entries)), self.random.randint(1, min(4, len(leaf.entries) - 1))))
            self.set(leaf, leaf.entries[: places[0]])
            for at, to in zip(places, [*places[1:], len(leaf.entries)]):
                self.put(leaf, key_of(leaf.entries[at]), leaf.entries[at:to])

    def add_empty(self):
        """A leaf without an entry where none stands, behind all entries of another one."""
        leaf = self.one(least=0)
        if leaf:
            term, block = leaf.last()
            keys = [it.key() for it in self.leaves() if it.register() == leaf.register()]
            new = self.random.choice(((term, block + 1), (term, block + 2**40), (term + b"\0", 0)))
            later = [it for it in keys if it > leaf.key()]
            if new not in keys and (not later or new < min(later)):
                self.put(leaf, new, [])

    def add_unused(self):
        """A leaf without an entry of a register or a database that there isn't."""
        register = self.random.choice(((1, 900, 1), (2**40, 0, 0), (-7, 2, 2)))
        self.register.put("blocks", {**dict(zip(("db", "idx", "reg"), register)), "term": FIRST_KEY[0], "block": FIRST_KEY[1], "data": b""})

    def join(self):
        """Two leaves become one, where it isn't too long."""
        pair = self.neighbours()
        if pair:
            entries = [*pair[0].entries, *pair[1].entries]
            if len(entries) < 2 or len(spelled_leaf(entries)) <= LEAF_BYTES:
                self.set(pair[0], entries)
                self.take(pair[1])

    # With harm, mostly.

    def join_all(self):
        """All leaves of a register become one, however long it is."""
        leaf = self.one()
        if leaf:
            all_ = [it for it in self.leaves() if it.register() == leaf.register()]
            for it in all_[1:]:
                self.take(it)
            self.set(all_[0], sorted(entry for it in all_ for entry in it.entries))

    def swap(self):
        """Two leaves have each other's bytes."""
        pair = self.neighbours() or (self.one(), self.one())
        if pair[0]:
            self.set(pair[0], pair[1].entries)
            self.set(pair[1], pair[0].entries)

    def move(self):
        """An entry stands in another leaf, also as well."""
        leaf, other = self.one(), self.one(least=0)
        if leaf:
            entry = self.random.choice(leaf.entries)
            if self.random.random() < 0.7:
                self.set(leaf, [it for it in leaf.entries if it != entry])
            if other.number != leaf.number:
                self.set(other, sorted([*(it for it in other.entries if key_of(it) != key_of(entry)), entry]))

    def take_first(self):
        """The first leaf of a register is gone."""
        leaf = self.one(least=0)
        if leaf:
            self.take(min((it for it in self.leaves() if it.register() == leaf.register()), key=Leaf.key))

    def change_entry(self):
        """A term, a block, a number of records or the bytes of an entry are others."""
        leaf = self.one()
        if leaf:
            at = self.random.randrange(len(leaf.entries))
            entry = list(leaf.entries[at])
            column = self.random.randrange(4)
            others = (WORDS, (0, 1, 2, 255, 2**56 - 1), (1, 2, 256, entry[2] + 1), (*BLOCK_BYTES, entry[3] * 2, entry[3][:-1]))
            entry[column] = self.random.choice(others[column])
            rest = [it for it in leaf.entries if it != leaf.entries[at] and key_of(it) != tuple(entry[:2])]
            self.set(leaf, sorted([*rest, tuple(entry)]))

    def spell_otherwise(self):
        """Entries in another order, or a number outside its range, which no leaf has."""
        leaf = self.one(least=2)
        if leaf:
            entries = list(leaf.entries)
            at = self.random.randrange(len(entries))
            kind = self.random.randrange(3)
            if kind == 0:
                self.random.shuffle(entries)
            else:
                wrong = {1: (2, self.random.choice((0, 257, 2**64))), 2: (1, self.random.choice((2**56, 2**64)))}[kind]
                entries[at] = (*entries[at][: wrong[0]], wrong[1], *entries[at][wrong[0] + 1 :])
            self.set(leaf, entries)

    def take_entry(self):
        leaf = self.one()
        if leaf:
            self.set(leaf, self.random.sample(leaf.entries, len(leaf.entries) - 1))

    def add_entry(self):
        """An entry more in a leaf, or another one in the place of one."""
        leaf = self.one(least=0)
        if leaf:
            places = sorted({tuple(self.random.choice((1, 2, 3, 200)) for _ in range(3)) for _ in range(self.random.randint(1, 3))})
            entry = (self.random.choice(WORDS), 0, len({it[0] for it in places}), image.spelled(0, places))
            self.set(leaf, sorted([*(it for it in leaf.entries if key_of(it) != key_of(entry)), entry]))

    def give_another_key(self):
        """A leaf's own key is that of one of its entries, or the least, or above all."""
        leaf = self.one()
        if leaf:
            key = self.random.choice((*map(key_of, leaf.entries), FIRST_KEY, (b"zz", 0), (leaf.row["term"], leaf.row["block"] + 1)))
            self.register.turn("blocks", leaf.number, {**leaf.row, "term": key[0], "block": key[1]})

    HARMLESS = {part: 5, add_empty: 2, add_unused: 0.5, join: 3}
    HARMFUL = {join_all: 1, swap: 3, move: 4, take_first: 3, change_entry: 6, spell_otherwise: 3, take_entry: 3, add_entry: 4, give_another_key: 3}
