"""Registers drawn by lot: a profile, records, and what is done to the rows of the tables, with harm and without."""
import random
import string

import image
from leaf_harms import LeafRows
from rows import record
from stories import Drawn
from tables import TABLES

# Each has an index of words and whole texts for 4, one of numbers for 31, and one of words for 1016.
PROFILES = (
    "identifier 001; att 4 Title; att 31 Date; att 1016 Any; melm 245$a Title:w,Title:p; melm 245 Title:w; melm 260$c Date:n; all Any:w",
    "identifier 035$a; att 31 Any; att 4 Any; att 1016 Any; melm 245 Any:p,Any:n,Any:w; all Any:w",
    "identifier 001; att 1016 All; att 4 A-b; att 31 A-b; all All:w; melm 260 A-b:n; melm 245$a A-b:p,A-b:w,All:n; melm 001 A-b:p",
)
WORDS = "moby dick whale or the Moby MOBY a b2 1851 c1851 007 00 123456789012345678 1234567890123456789 - , . x/y".split()
# Identifiers of kept records, and of others.
KEPT, OTHERS = tuple(string.ascii_lowercase), ("new1", "new2")
NUMBERS = (1, 2, 3, 4, 5, 127, 128, 129, 130, 254, 255, 256, 257, 258, 383, 384, 511, 512, 65535, 65536, 2**24, 999_999_998, image.GREATEST)
IDS = (-(2**63), -1, 0, 1, 2, 255, 257, 2**31, 10**12, 2**63 - 10**6)
EDGES = (-1, 0, 1, 2, 255, 256, 257, 999_999_999, 10**9, 2**31, 2**32, 2**63 - 1, -(2**63))
TEXTS = (b"", b"\0", b"a\0b", b"\xff", b"moby\xc3", "é".encode(), b"moby", b"Moby", b"moby ", b"moby dick", b"1851",
         b"000000000000001851", b"a", b"zz", b"n" * 64, b"n" * 65, b"x" * 300, b"x" * 70_000, b"Default", b"Other", b"third", b"-", b"a b",
         b"x\n", b"%s", b"'")
META = (b"version", b"profile", b"identifier", b"Version", b"more", b"", b"\xff", b"version\0")
VALUES = (b"1", b"1", b"2", b"2", b"3", b"x", b"", b"02", b"2 ", b"2\0", b"\xff", b"001", b"035$a", b"y" * 70_000)
# The greatest number of 64 bits, and blocks that are cut, don't rise, have a number 0, one of more than 64 bits, one without an end, one that
# isn't the shortest, or one of the next block.
LAST = b"\xff" * 9 + b"\1"
SPELLINGS = (b"", b"\0", b"\1\1", b"\1\1\1\0\0\0", b"\0\1\1", b"\xff" * 9 + b"\2\1\1", LAST + b"\1\1", b"\x80" * 20, b"\1\1\x81\0",
             b"\1" + LAST * 2, b"\1\1" + LAST + b"\0\0\1", b"\x80\2\1\1", b"\1" * 3000, b"\xff" * 300)


class Register:
    """Rows of a register's file, read and written as they come, by lot. The version is that in which it is made anew."""

    def __init__(self, seed, profile, connection, version):
        self.random, self.profile, self.connection, self.version = random.Random(f"rows {seed}"), profile, connection, version
        self.drawn = Drawn(f"bytes {seed}")
        connection.text_factory = bytes
        self.columns = {it: self.columns_of(it) for it in TABLES}

    def columns_of(self, table):
        """The columns of a table, each with its type."""
        return {name.decode(): kind.decode() for _, name, kind, *_ in self.connection.execute(f"PRAGMA table_info({table})")}

    def rows(self, table):
        """The rows of a table by their rowids, each by its columns."""
        names = self.columns[table]
        found = self.connection.execute(f"SELECT rowid, * FROM {table} ORDER BY rowid")
        return {number: dict(zip(names, row)) for number, *row in found}

    def tables(self):
        return {it: sorted(tuple(row.values()) for row in self.rows(it).values()) for it in TABLES}

    def values(self, table):
        return ["CAST(? AS TEXT)" if kind == "TEXT" else "?" for kind in self.columns[table].values()]

    def put(self, table, row, number=None):
        """A row under this rowid, or under the next one, in place of those that have one of its keys."""
        names = ", ".join(["rowid", *row][number is None :])
        values = ", ".join(["?", *self.values(table)][number is None :])
        self.connection.execute(f"INSERT OR REPLACE INTO {table} ({names}) VALUES ({values})", [number, *row.values()][number is None :])

    def turn(self, table, number, row):
        """The row of this rowid into this one, in place of those that have one of its keys."""
        changes = ", ".join(f"{name} = {value}" for name, value in zip(row, self.values(table)))
        self.connection.execute(f"UPDATE OR REPLACE {table} SET {changes} WHERE rowid = ?", (*row.values(), number))

    def run(self, statement, *values):
        self.connection.execute(statement, values)

    def one(self, table):
        """One row, or none where there is none."""
        rows = list(self.rows(table).items())
        return self.random.choice(rows) if rows else (None, None)

    def write(self, tables):
        """All rows anew."""
        for table, rows in tables.items():
            self.run(f"DELETE FROM {table}")
            self.random.shuffle(rows)
            for row in rows:
                self.put(table, dict(zip(self.columns[table], row)))

    def value(self, table, column, old):
        """A value of a column in place of another, or of none."""
        draw, is_number = self.random, self.columns[table][column] == "INTEGER"
        old = old if old is not None else 0 if is_number else b""
        other = draw.choice([row[column] for row in self.rows(table).values()] or [old])
        if is_number:
            near = max(-(2**63), min(2**63 - 1, old + draw.choice((-1, 1, 256))))
            return draw.choice((draw.choice(EDGES), other, near))
        if column == "name" and table == "meta":
            return draw.choice(META)
        if column == "value":
            return draw.choice((*VALUES, old[:-1], old + b"att 21 Any\n"))
        if column == "data":
            return draw.choice((draw.choice(SPELLINGS), other, old[:-1], old * 2, self.drawn.harmed(old or b"\1\1\1")))
        if column == "bytes":
            return draw.choice((b"", other, old[:-1], self.drawn.harmed(old), self.drawn.harmed(old)))
        return draw.choice((draw.choice(TEXTS), other, old + b"a", old[:-1], old.upper()))


class Harmless:
    """What harms no register; each of these is drawn alone."""

    def __init__(self, register):
        self.register, self.random, self.leaves = register, register.random, LeafRows(register)

    def nothing(self):
        pass

    def raise_lasts(self):
        for number, row in self.register.rows("databases").items():
            last = self.random.choice([it for it in (*NUMBERS, row["last"]) if it >= row["last"]])
            self.register.run("UPDATE databases SET last = ? WHERE id = ?", last, number)

    def put_back(self):
        """Rows are taken out, and put in again in another order, under rowids from another number on."""
        table = self.random.choice(TABLES)
        rows = list(self.register.rows(table).values())
        start = None if table == "databases" else self.random.choice((None, -(2**63), -3, 0, 2**31, 2**62))
        self.register.run(f"DELETE FROM {table}")
        self.random.shuffle(rows)
        for at, row in enumerate(rows):
            self.register.put(table, row, None if start is None else start + at)

    def give_another_id(self):
        """A database has another id in all tables."""
        old, _ = self.register.one("databases")
        new = self.random.choice(IDS)
        if old is not None and new not in self.register.rows("databases"):
            self.register.run("UPDATE databases SET id = ? WHERE id = ?", new, old)
            for table in ("records", "postings", "blocks", "dict"):
                self.register.run(f"UPDATE {table} SET db = ? WHERE db = ?", new, old)

    def add_databases(self):
        for name in self.random.sample((b"third", b"-", b"x.y", b"n" * 64, b"default"), self.random.randint(1, 3)):
            last = self.random.choice((0, *NUMBERS))
            self.register.run("INSERT OR IGNORE INTO databases (name, last) VALUES (CAST(? AS TEXT), ?)", name, last)

    def remake(self, version=None):
        """Records have other numbers, and all rows are made anew, in another version where one is given."""
        tables = self.register.tables()
        databases, records = [], []
        for db, name, _ in tables["databases"]:
            kept = [it for it in tables["records"] if it[0] == db]
            numbers = self.random.sample(NUMBERS, len(kept)) if len(kept) <= len(NUMBERS) else [it[1] for it in kept]
            records += [(db, number, *it[2:]) for number, it in zip(numbers, kept)]
            databases.append((db, name, max([*numbers, self.random.choice((0, *NUMBERS))])))
        self.register.write(image.image(self.register.profile, databases, records, version or self.register.version))

    def be_of_another_version(self):
        """The rows are those of a register of another version: the first, or where this is the last, the one before it."""
        others = [it for it in image.VERSIONS if it < self.register.version]
        self.remake(self.random.choice(others))

    def change_leaves(self):
        """What harms no leaves, some times over, where the register is in leaves now."""
        if (b"version", image.LEAVES) in self.register.tables()["meta"]:
            kinds = LeafRows.HARMLESS
            for kind in self.random.choices(list(kinds), list(kinds.values()), k=self.random.randint(1, 6)):
                kind(self.leaves)

    def draw(self):
        kinds = (self.nothing, self.raise_lasts, self.put_back, self.give_another_id, self.add_databases, self.remake, self.be_of_another_version)
        weights = (3, 2, 4, 3, 2, 8, 2)
        for kind in self.random.choices(kinds, weights, k=self.random.randint(1, 3)):
            kind()
        if self.register.version == image.LEAVES:
            self.change_leaves()


class Harmful:
    """What harms most registers."""

    def __init__(self, register):
        self.register, self.random, self.leaves = register, register.random, LeafRows(register)

    def table(self):
        return self.random.choices(TABLES, weights=(3, 5, 8, 2, 8, 7))[0]

    def change_leaves(self):
        """One of what harms most leaves."""
        kinds = LeafRows.HARMFUL
        self.random.choices(list(kinds), list(kinds.values()))[0](self.leaves)

    def alter(self):
        """One column, or two, of a row."""
        table = self.table()
        number, row = self.register.one(table)
        if row:
            for column in self.random.choices(list(row), k=self.random.choice((1, 1, 2))):
                row[column] = self.register.value(table, column, row[column])
            self.register.turn(table, number, row)

    def double(self):
        """A row once more, under another key."""
        table = self.table()
        _, row = self.register.one(table)
        if row:
            column = self.random.choice(list(row)[: len(row) - 1])
            self.register.put(table, {**row, column: self.register.value(table, column, row[column])})

    def add(self):
        """A row, each column by itself."""
        table = self.table()
        self.register.put(table, {column: self.register.value(table, column, None) for column in self.register.columns[table]})

    def take(self):
        table = self.table()
        number, _ = self.register.one(table)
        if number is not None:
            self.register.run(f"DELETE FROM {table} WHERE rowid = ?", number)

    def empty(self):
        self.register.run(f"DELETE FROM {self.table()}")

    def post(self):
        """A posting more of a word, or another list of it, in `blocks` and `dict` alike."""
        _, row = self.register.one("dict")
        if row is None:
            return
        if self.random.random() < 0.4:
            row["term"] = self.register.value("dict", "term", row["term"])
        places = sorted({tuple(self.random.choice((1, 2, 3, 200)) for _ in range(3)) for _ in range(self.random.randint(1, 3))})
        row["records"] = len({it[0] for it in places})
        self.register.put("dict", row)
        key = {it: row[it] for it in ("db", "idx", "reg", "term")}
        self.register.put("blocks", {**key, "block": 0, "data": image.spelled(0, places)})

    def take_word(self):
        """A word out of `blocks` and `dict`."""
        _, row = self.register.one("dict")
        for table in ("blocks", "dict") if row else ():
            statement = f"DELETE FROM {table} WHERE db = ? AND idx = ? AND reg = ? AND term = CAST(? AS TEXT)"
            self.register.run(statement, *list(row.values())[:4])

    def exchange(self):
        """One column of two rows of a table that keeps no key by it."""
        columns = (("records", "bytes"), ("blocks", "data"), ("databases", "last"), ("dict", "records"), ("meta", "value"))
        table, column = self.random.choice(columns)
        (one, row), (other, second) = self.register.one(table), self.register.one(table)
        if row:
            self.register.turn(table, one, {**row, column: second[column]})
            self.register.turn(table, other, {**second, column: row[column]})

    def be_of_both(self):
        """The rows of another version too, of all records or of some."""
        tables = self.register.tables()
        kept = [it for it in tables["records"] if image.fields(it[3]) is not None]
        kept = self.random.sample(kept, self.random.randint(0, len(kept)))
        version = image.PLAIN if tables["blocks"] else self.register.version
        if self.register.version == image.LEAVES and self.random.random() < 0.5:
            version = image.PACKED
        made = image.image(self.register.profile, tables["databases"], kept, version)
        for table in ("postings", "blocks", "dict"):
            for row in made[table]:
                self.register.put(table, dict(zip(self.register.columns[table], row)))
        if self.random.random() < 0.5:
            self.register.run("UPDATE meta SET value = CAST(? AS TEXT) WHERE name = 'version'", version)

    def reach_the_last_rowid(self):
        """The last rowid of a table is the greatest."""
        table = self.random.choice([it for it in TABLES if it != "databases"])
        number = 2**63 - self.random.choice((1, 1, 2, 3))
        self.register.run(f"UPDATE {table} SET rowid = ? WHERE rowid = (SELECT max(rowid) FROM {table})", number)

    def draw(self):
        rows = (self.alter, self.double, self.add, self.take, self.empty)
        several = (self.post, self.take_word, self.exchange, self.be_of_both, self.reach_the_last_rowid)
        weights = (12, 5, 5, 4, 0.5, 4, 2, 3, 2, 0.7, 30 if self.register.version == image.LEAVES else 0)
        for kind in self.random.choices((*rows, *several, self.change_leaves), weights, k=self.random.choice((1, 1, 1, 2, 3, 6))):
            kind()


class Made:
    """What a register is made of, the same for the same seed."""

    def __init__(self, seed):
        self.random = random.Random(f"made {seed}")
        self.profile = image.Profile(self.random.choice(PROFILES).replace("; ", "\n") + "\n")
        few = [[self.record(it) for it in self.random.sample(KEPT[:9], self.random.randint(0, most))] for most in (6, 3, 3, 2)]
        many = [self.record(it) for it in KEPT] if self.random.random() < 0.1 else []
        # Records of the first database, of the second, changes of the first, and what goes from it.
        self.first, self.second, self.changes, self.gone = [*many, *few[0]], *few[1:]
        self.known = [self.record(it) for it in self.random.sample(KEPT[:9], 2)]
        self.new = [self.record(it) for it in OTHERS]

    def text(self):
        most = self.random.choices((0, 1, 3, 8, 150), weights=(5, 5, 5, 10, 0.2))[0]
        return " ".join(self.random.choices(WORDS, k=self.random.randint(0, most)))

    def record(self, ident):
        """A record of a few fields under this identifier."""
        lines = [f"001 {ident}", f"035   |a{ident}"]
        for tag in self.random.choices(("245", "245", "260", "100"), k=self.random.randint(0, 4)):
            number = self.random.choices((0, 1, 2, 3, 70), weights=(3, 5, 5, 5, 0.2))[0]
            subfields = [f"|{self.random.choice('abc')}{self.text()}" for _ in range(number)]
            lines.append(f"{tag} 10{''.join(subfields)[:9000]}")
        return record(lines)
