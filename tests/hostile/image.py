"""What the tables of a register have to be, told by Python from its kept records and nothing of zebraidx.

A table is the sorted list of its rows, in which texts and blobs are bytes.
"""
import functools
import itertools
import pathlib
import re
import sys

sys.dont_write_bytecode = True
ROOT = pathlib.Path(__file__).resolve().parents[2]
sys.path += [str(ROOT / "bench"), str(ROOT / "tests/words")]
from counted import Rules
from leaves import are_leaves, leaf_rows, spelled_number

END_OF_FIELD, END_OF_RECORD, CODE = b"\x1e", b"\x1d", b"\x1f"
# What a leader says at these places, where it says a digit.
LEADER = {10: b"2", 11: b"2", 20: b"4", 21: b"5", 22: b"0"}
DATABASE = re.compile(rb"[A-Za-z0-9_.-]{1,64}")
CONTROL = re.compile("[\0-\x1f\x7f-\x9f]")
GREATEST = 999_999_999
# The versions of registers: a row for each posting, blocks of postings, and leaves of blocks.
VERSIONS = PLAIN, PACKED, LEAVES = b"1", b"2", b"3"


def fields(record):
    """The fields of a record, each its tag and its bytes without their end; None where these bytes are no record."""
    if len(record) < 26 or not record[:5].isdigit() or int(record[:5]) != len(record) or record[-1:] != END_OF_RECORD:
        return None
    if any(record[at : at + 1].isdigit() and record[at : at + 1] != it for at, it in LEADER.items()) or not record[12:17].isdigit():
        return None
    base = int(record[12:17])
    if not 25 <= base < len(record) or record[base - 1 : base] != END_OF_FIELD or (base - 25) % 12:
        return None
    found = [field(record[at : at + 12], record[base:-1]) for at in range(24, base - 1, 12)]
    return None if None in found else found


def field(entry, data):
    """The tag and the bytes of one entry of the directory."""
    if not entry[:3].isalnum() or not entry[3:].isdigit():
        return None
    length, start = int(entry[3:7]), int(entry[7:])
    if not length or start + length > len(data) or data[start + length - 1 : start + length] != END_OF_FIELD:
        return None
    return entry[:3].decode(), data[start : start + length - 1]


def units(found):
    """The units of the fields from the first on: the tag, the code, and the text."""
    for tag, data in found:
        if tag.startswith("00"):
            yield tag, None, data.decode(errors="replace")
        else:
            yield from ((tag, chr(it[0]), it[1:].decode(errors="replace")) for it in data.split(CODE)[1:] if it)


class Profile:
    """A profile in its canonical form."""

    def __init__(self, text):
        lines = [it.split() for it in text.splitlines()]
        self.text, self.rules = text.encode(), Rules(text)
        [self.pattern] = [it[1] for it in lines if it[0] == "identifier"]
        targets = [target for it in lines if it[0] in ("melm", "all") for target in it[-1].split(",")]
        # The pairs of index and register in the order of the index's first naming and of `w`, `p`, `n`.
        self.names = list(dict.fromkeys(it.partition(":")[0] for it in targets))
        self.targets = sorted({(self.names.index(it[:-2]), "wpn".index(it[-1])) for it in targets})

    def identifier(self, record):
        """What the record is kept under, or None; also where it is no record."""
        fitting = [text for tag, code, text in units(fields(record) or []) if self.pattern in (tag, f"{tag}${code}")]
        text = fitting[0].strip(" ") if fitting else ""
        return text.encode() if text and len(text.encode()) <= 255 and not CONTROL.search(text) else None

    @functools.cache
    def units(self, record):
        """Each unit of the record, with its targets, words and numbers."""
        return [self.rules.unit(*it) for it in units(fields(record))]

    @functools.cache
    def occurrences(self, record):
        """Each index, register, term, unit and place of the record, in order."""
        found = set()
        for seq, unit in enumerate(self.units(record), 1):
            terms = {"w": unit.words, "p": [" ".join(unit.words)] * bool(unit.words), "n": [f"{it:018}" for it in unit.numbers]}
            for name, letter in unit.targets:
                key = self.names.index(name), "wpn".index(letter)
                found |= {(*key, term.encode(), seq, pos) for pos, term in enumerate(terms[letter], 1)}
        return sorted(found)

    def texts(self, version):
        return [(b"identifier", self.pattern.encode()), (b"profile", self.text), (b"version", version)]


def spelled(block, postings):
    """The bytes of a block for these postings, which rise."""
    data, last = b"", (256 * block, 0, 0)
    for at, (sysno, seq, pos) in enumerate(postings):
        is_same = at > 0 and sysno == last[0]
        from_seq = last[1] if is_same else 0
        from_pos = last[2] if is_same and seq == from_seq else 0
        data += spelled_number(sysno - last[0]) + spelled_number(seq - from_seq) + spelled_number(pos - from_pos)
        last = sysno, seq, pos
    return data


def blocks_of(postings):
    """The blocks for the rows of `postings`: each its key, its number, how many records it has, and its bytes."""
    blocks = []
    for key, rows in itertools.groupby(sorted(postings), key=lambda it: it[:4]):
        for block, part in itertools.groupby([it[4:] for it in rows], key=lambda it: it[0] // 256):
            places = list(part)
            blocks.append((*key, block, len({it[0] for it in places}), spelled(block, places)))
    return blocks


def packed(blocks):
    """The rows of `blocks` and of `dict` for these blocks."""
    terms = [(*key, sum(it[5] for it in each)) for key, each in itertools.groupby(blocks, key=lambda it: it[:4])]
    return [(*it[:5], it[6]) for it in blocks], terms


def are_kept(profile, databases, records):
    """Whether a register has these rows of databases and of records."""
    lasts = {db: last for db, _, last in databases}
    return all(DATABASE.fullmatch(name) and 0 <= last <= GREATEST for _, name, last in databases) and all(
        db in lasts and 1 <= sysno <= lasts[db] and profile.identifier(record) == ident for db, sysno, ident, record in records
    )


def postings_of(profile, records):
    """The rows of `postings` for these records."""
    return sorted((db, *it[:3], sysno, *it[3:]) for db, sysno, _, record in records for it in profile.occurrences(record))


def registers_of(postings, version):
    """The rows of `postings`, `blocks` and `dict` of a register with these postings; of several, where there are leaves, the fullest ones."""
    if version == PLAIN:
        return postings, [], []
    blocks = blocks_of(postings)
    return ([], leaf_rows(blocks), []) if version == LEAVES else ([], *packed(blocks))


def image(profile, databases, records, version=PACKED):
    """The tables of a register with these databases and records."""
    postings, blocks, terms = registers_of(postings_of(profile, records), version)
    return {
        "meta": profile.texts(version),
        "databases": sorted(databases),
        "records": sorted(records),
        "postings": postings,
        "blocks": blocks,
        "dict": terms,
    }


def is_image(profile, tables, version=PACKED):
    """Whether the tables are those of a register."""
    lists = tables["databases"], tables["records"]
    if not are_kept(profile, *lists):
        return False
    made = image(profile, *lists, version)
    if version != LEAVES:
        return tables == made
    beside = [it for it in made if it != "blocks"]
    return all(tables[it] == made[it] for it in beside) and are_leaves(tables["blocks"], blocks_of(postings_of(profile, lists[1])))
