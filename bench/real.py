"""Real records: all MARC 21 of Debian's idzebra-2.0-examples, made ISO 2709 in UTF-8 by yaz, under the rules of examples/marc21.cfg.

They are 128. So many as are asked for are these in turn, each under an identifier of its own.
"""
import collections
import gzip
import itertools
import pathlib
import random

from made import BEFORE_CODE, EXAMPLES, SEED, WORD, converted, examples, fields_of, write

PROFILE = pathlib.Path(__file__).resolve().parent.parent / "examples/marc21.cfg"
# What a profile says and the rules of both programs don't.
OWN_LINES = ("store ", "identifier ")


def rules():
    """The lines of the profile but for those of the store and of the identifier, which is 001 here too."""
    return "".join(f"{it}\n" for it in PROFILE.read_text(encoding="utf-8").splitlines() if not it.startswith(OWN_LINES))


def collections_below(folder):
    """The bytes of all collections, one behind the other, in the order of their names."""
    for path in sorted((EXAMPLES / "marcxml").glob("collection-*.xml*")):
        xml = folder / path.name.removesuffix(".gz")
        xml.write_bytes(gzip.decompress(path.read_bytes()) if path.suffix == ".gz" else path.read_bytes())
        yield converted("-i", "marcxml", str(xml))


def texts_of(fields):
    """The texts of the subfields of data fields."""
    return [it[1:] for tag, text in fields if not tag.startswith("00") for it in text.split(BEFORE_CODE)[1:]]


def ranked_words(records):
    """Words of ASCII letters, which are one word for both programs, by how many records have them: the most frequent first."""
    found = collections.Counter(word for it in records for word in {word.lower() for word in WORD.findall(" ".join(texts_of(it))) if word.isascii()})
    return [word for word, _ in sorted(found.items(), key=lambda it: (-it[1], it[0]))]


def read_all(folder):
    """The fields of each record: those of books and operas as made records have them, and those of the other collections."""
    found = {}
    for fields in examples(folder) + [it for file in collections_below(folder) for it in fields_of(file)]:
        # The operas are a collection too; of several with one identifier the last counts.
        found[next(text for tag, text in fields if tag == "001").strip()] = fields
    return list(found.values())


def as_number(fields, number):
    """The record under an identifier of its own."""
    return [(tag, f"real{number:07d}" if tag == "001" else text) for tag, text in fields]


class Real:
    """The files of a run, as `made.Made` has them: all records, every tenth of them changed, and another tenth of them to be taken out."""

    def __init__(self, folder, number):
        found = read_all(folder)
        self.fields = [as_number(fields, it) for it, fields in enumerate(itertools.islice(itertools.cycle(found), number), 1)]
        self.all = write(folder / "all.mrc", self.fields)
        self.words = ranked_words(self.fields)
        self.rare = self.words[-5:]
        drawn = random.Random(SEED)
        changed = [[*it, ("650", f" 0{BEFORE_CODE}a{' '.join(drawn.choices(self.words, k=3))}")] for it in self.fields[::10]]
        self.changed = write(folder / "changed.mrc", changed)
        self.taken = write(folder / "taken.mrc", self.fields[5::10])
