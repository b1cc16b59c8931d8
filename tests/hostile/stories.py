"""Scripts drawn by lot: a profile, and commands over a few records that are inserted, replaced, deleted and asked for."""
import random
import re
from dataclasses import dataclass

END_OF_FIELD, END_OF_RECORD, CODE = b"\x1e", b"\x1d", b"\x1f"
PROFILES = (
    "att 4 Title\natt 1016 Any\natt 31 Date\nmelm 245$a Title:w,Title:p\nmelm 245 Title\nmelm 260$c Date:n,Date\nall Any",
    "att 1 Name\natt 1016 Name\nmelm 100 Name:p,Name\nmelm 700$a Name",
    "att 1016 Any\natt 4 Any\natt 31 Any\nall Any:p,Any:n,Any",
)
WORDS = "a moby dick whale café CAFE\u0301 İstanbul ﬁn straße 1851 007 00 123456789012345678 1234567890123456789 北京 x٣ \u0301 - ,".split()
TAGS = (b"100", b"245", b"245", b"260", b"700", b"999")
NAMES = ("Default", "Default", "Default", "b.2", "-")
# What stands in the place of an attribute's value: kept values, others, names.
VALUES = {
    1: ("4", "31", "1016", "title", "any", "9999", "1"),
    2: ("1", "2", "3", "4", "5", "103", "6"),
    3: ("1", "2", "3", "4"),
    4: ("1", "2", "6", "105", "107", "109", "3"),
    5: ("1", "2", "3", "100", "101", "102"),
    6: ("1", "2", "3", "4"),
    7: ("1",),
}


@dataclass(frozen=True)
class Line:
    """A line of a script, and whether it asks alone."""

    text: bytes
    asks: bool = False


class Drawn:
    """Draws a story's parts, the same ones for the same seed."""

    def __init__(self, seed):
        self.random = random.Random(seed)

    def profile(self):
        rule = self.random.choice(("001", "001", "999$a"))
        return f"store books.db\nidentifier {rule}\n{self.random.choice(PROFILES)}\n".encode()

    def words(self, most):
        return " ".join(self.random.choices(WORDS, k=self.random.randint(0, most)))

    def record(self):
        """A record of a few fields, whose identifier is one of few."""
        ident = self.random.choice("abcdef").encode()
        fields = [(b"001", ident), (b"999", b"  " + CODE + b"a" + ident)]
        for tag in self.random.choices(TAGS, k=self.random.randint(0, 4)):
            parts = [self.random.choice("abc") + self.words(5) for _ in range(self.random.randint(1, 3))]
            fields.append((tag, b"10" + b"".join(CODE + part.encode() for part in parts)))
        directory, body = b"", b""
        for tag, text in fields:
            directory += b"%s%04d%05d" % (tag, len(text) + 1, len(body))
            body += text + END_OF_FIELD
        base = 25 + len(directory)
        leader = b"%05dnam a22%05d a 4500" % (base + len(body) + 1, base)
        return leader + directory + END_OF_FIELD + body + END_OF_RECORD

    def harmed(self, text):
        """The text with a few bytes changed, taken out, put in or said twice."""
        text = bytearray(text)
        for _ in range(self.random.randint(1, 3)):
            at, length = self.random.randint(0, len(text)), self.random.choice((0, 1, 1, 2, 12))
            put = self.random.choice((b"", bytes([self.random.randrange(256)]), b"0", b"9", b"\n", b" ", bytes(text[at : at + 12])))
            text[at : at + length] = put
        return bytes(text)

    def file(self):
        between = self.random.choice((b"", b"", b"\r\n", b" \n"))
        text = between.join(self.record() for _ in range(self.random.randint(0, 3)))
        return self.harmed(text) if self.random.random() < 0.15 else text

    def term(self):
        attributes = self.random.choices(list(VALUES), weights=(5, 2, 1, 2, 2, 1, 0.2), k=self.random.choice((0, 1, 1, 2, 3)))
        said = "".join(f"@attr {it}={self.random.choice(VALUES[it])} " for it in attributes)
        words = re.sub(r'(["\\])', r"\\\1", self.words(3))
        return said + self.random.choice((f'"{words}"', self.random.choice(WORDS), "wh", "0"))

    def query(self, depth=2):
        if depth and self.random.random() < 0.35:
            operator = self.random.choice(("@and", "@or", "@not", f"@prox 0 {self.random.randint(0, 4)} {self.random.randint(0, 1)} 2 k 2"))
            return f"{operator} {self.query(depth - 1)} {self.query(depth - 1)}"
        return self.term()

    def command(self):
        name = self.random.choice(NAMES)
        kind = self.random.choices(("update", "delete", "adelete", "find", "scan", "stat", "dump", "create", "drop", "init", "reindex"),
                                   weights=(30, 8, 8, 30, 12, 4, 2, 2, 1, 0.5, 2))[0]
        if kind in ("update", "delete", "adelete"):
            return Line(f"{kind} {name} hex:{self.file().hex()}".encode())
        if kind == "find":
            return Line(f"find {name} {self.query()}".encode(), asks=True)
        if kind == "scan":
            number = self.random.randint(1, 9)
            return Line(f"scan {name} {number} {self.random.randint(1, number)} {self.term()}".encode(), asks=True)
        if kind in ("init", "reindex"):
            return Line(kind.encode())
        return Line(f"{kind} {name}".encode(), asks=kind in ("stat", "dump"))

    def commands(self):
        first = [] if self.random.random() < 0.03 else [Line(b"init")]
        return first + [self.command() for _ in range(self.random.randint(1, 25))]
