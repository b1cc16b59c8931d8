"""MARC 21 records, made from the bibliographic examples of Debian's package idzebra-2.0-examples: the same ones each time.

A made record has the fields of one of the examples, with an identifier and a word of its own, other words, other years, and notes up
to some 1.5 kB. A word's frequency falls with its rank, as in a language; the examples' own words are the most frequent ones.
"""
import collections
import gzip
import itertools
import pathlib
import random
import re
import subprocess

EXAMPLES = pathlib.Path("/usr/share/doc/idzebra-2.0/examples")
SYLLABLES = [a + b + c for a in "bdfgklmnprstvw" for b in "aeiou" for c in ["", "n", "r", "s", "l"]]
VOCABULARY = 30_000
SEED = 5
WORD = re.compile("(?:[^\\W\\d_]|[\u0300-\u036f])+")
YEAR = re.compile("[12][0-9]{3}")
END_OF_FIELD, END_OF_RECORD, BEFORE_CODE = "\x1e", "\x1d", "\x1f"


def fields_of(file):
    """The fields of each record of a file, as pairs of tag and text."""
    for record in file.split(END_OF_RECORD.encode())[:-1]:
        record = record.lstrip(b"\r\n ")
        base = int(record[12:17])
        entries = [record[at : at + 12] for at in range(24, base - 1, 12)]
        data = record[base:]
        yield [(it[:3].decode(), data[int(it[7:]) : int(it[7:]) + int(it[3:7]) - 1].decode()) for it in entries]


def record_of(fields):
    """The ISO 2709 record of these fields."""
    directory, body = b"", b""
    for tag, text in fields:
        text = (text + END_OF_FIELD).encode()
        directory += b"%s%04d%05d" % (tag.encode(), len(text), len(body))
        body += text
    base = 24 + len(directory) + 1
    return b"%05dnam a22%05d a 4500%s\x1e%s\x1d" % (base + len(body) + 1, base, directory, body)


def write(path, records):
    path.write_bytes(b"".join(record_of(it) for it in records))
    return path


def converted(*words):
    return subprocess.run(["yaz-marcdump", "-o", "marc", *words], stdout=subprocess.PIPE, check=True).stdout


def examples(folder):
    """The examples as UTF-8, by the tools of yaz: 23 records of books in MARC-8, and 43 of operas in MARCXML.

    A 24th is left out: it is Danish MARC, whose 001 has subfields, and no identifier here.
    """
    marc8, xml = folder / "sample.mrc", folder / "operas.xml"
    marc8.write_bytes(gzip.decompress((EXAMPLES / "marc21/sample-marc.gz").read_bytes()))
    xml.write_bytes(gzip.decompress((EXAMPLES / "marcxml/collection-opera-43.xml.gz").read_bytes()))
    files = converted("-f", "MARC-8", "-t", "UTF-8", "-l", "9=97", str(marc8)), converted("-i", "marcxml", str(xml))
    records = [it for file in files for it in fields_of(file)]
    return [it for it in records if not any(tag == "001" and BEFORE_CODE in text for tag, text in it)]


class Maker:
    """Makes records, numbered from 1."""

    def __init__(self, templates):
        self.random = random.Random(SEED)
        self.templates = templates
        texts = [it[1:] for fields in templates for tag, text in fields if "100" <= tag < "800" for it in text.split(BEFORE_CODE)[1:]]
        known = [word for word, _ in collections.Counter(WORD.findall(" ".join(texts))).most_common()]
        made = ("".join(self.random.choices(SYLLABLES, k=self.random.choice([1, 2, 2, 3, 3, 4]))) for _ in itertools.count())
        more = itertools.islice(made, VOCABULARY - len(known))
        self.words = [*known, *more]
        self.weights = list(itertools.accumulate(1 / (rank + 3) for rank in range(VOCABULARY)))

    def word(self, _found):
        return self.random.choices(self.words, cum_weights=self.weights)[0]

    def text(self, count):
        return " ".join(self.random.choices(self.words, cum_weights=self.weights, k=count))

    def year(self, _found):
        return str(self.random.randrange(1800, 2020))

    def subfield(self, tag, code, text):
        """Other years, and other words but in a date, where letters belong to the year."""
        is_date = (tag, code) == ("260", "c")
        return code + YEAR.sub(self.year, text if is_date else WORD.sub(self.word, text))

    def field(self, tag, text):
        """A control field as it is, and another one with its own indicators and codes and with other texts."""
        start, *subfields = text.split(BEFORE_CODE)
        return tag, BEFORE_CODE.join([start, *(self.subfield(tag, it[:1], it[1:]) for it in subfields)])

    def fields(self, number):
        template = self.random.choice(self.templates)
        made = [("001", f"made{number:07d}")]
        made += [self.field(tag, text) for tag, text in template if tag != "001"]
        made.append(("500", f"  {BEFORE_CODE}aOwn word: {own_word(number)}"))
        size, wanted = len(record_of(made)), self.random.randrange(900, 1_700)
        while size < wanted:
            note = f"  {BEFORE_CODE}a{self.text(min(60, 1 + (wanted - size) // 8))}."
            made.append(("500", note))
            size += len(note.encode()) + 13
        return made


def own_word(number):
    """A word that only this record has: letters and digits, which are one word for both programs."""
    return f"own{number}"


class Made:
    """The files of a run: all records, every tenth of them changed, and another tenth of them to be taken out."""

    def __init__(self, folder, number):
        maker = Maker(examples(folder))
        self.fields = [maker.fields(it) for it in range(1, number + 1)]
        changed = [[*it, ("650", f" 0{BEFORE_CODE}a{maker.text(3)}{BEFORE_CODE}x{maker.text(2)}")] for it in self.fields[::10]]
        self.words = maker.words
        self.rare = [own_word(it) for it in range(3, 8)]
        self.all = write(folder / "all.mrc", self.fields)
        self.changed = write(folder / "changed.mrc", changed)
        self.taken = write(folder / "taken.mrc", self.fields[5::10])

