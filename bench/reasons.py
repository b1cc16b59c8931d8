"""The reasons for which hits differ from Zebra's, each shown by a few records and one query.

docs/ZEBRA.md explains each of them, and bench/queries names them by the same words.
"""
from dataclasses import dataclass

import made
from programs import Ours, Zebra


@dataclass
class Reason:
    """A reason, the fields of some records, a query, and how many of them it finds here and in Zebra."""

    name: str
    records: list
    query: str
    here: int
    zebra: int


def field(tag, *texts):
    """A field whose subfields, a and on, have these texts."""
    return tag, "  " + "".join(f"{made.BEFORE_CODE}{code}{text}" for code, text in zip("abc", texts))


def subjects(first, last):
    """As many subjects of one word each."""
    return [field("650", f"x{it:05}") for it in range(first, last)]


# Zebra takes 10,000 terms for one that stands for many, as they come in their order.
BOUND = 10_000
REASONS = [
    Reason("marks", [[field("500", "Ai\u0308da")]], "@attr 1=1016 aida", 1, 0),
    Reason("marks", [[field("500", "ola\u0300")], [field("500", "ola")]], "@attr 1=1016 @attr 5=101 o#a", 2, 1),
    Reason("numbers", [[field("260", "", "", "1971.")], [field("260", "", "", "1971")]], "@attr 1=31 @attr 4=109 1971", 2, 1),
    Reason("places", [[field("500", "sound", "recording")]], "@attr 1=1016 @prox 0 3 0 2 k 2 sound recording", 0, 1),
    Reason("cuts", [[field("245", "off the")], [field("245", "of the")]], '@attr 1=4 @attr 5=1 "of th"', 1, 2),
    Reason(
        "bound",
        [subjects(0, BOUND // 3), subjects(BOUND // 3, 2 * BOUND // 3), subjects(2 * BOUND // 3, BOUND), [field("650", "z")]],
        '@attr 1=21 @attr 6=2 @attr 2=4 "music"',
        4,
        3,
    ),
]


def shown(program, rules, folder):
    """For each reason its name, its query, the hits in both programs, and whether they are those that it says."""
    for number, it in enumerate(REASONS):
        records = [[("001", f"made{place}"), *fields] for place, fields in enumerate(it.records, 1)]
        file = made.write(folder / f"reason{number}.mrc", records)
        ours, zebra = Ours(program, rules, folder / f"ours{number}"), Zebra(rules, folder / f"zebra{number}")
        for each in (ours, zebra):
            each.change("update", file)
        server = zebra.session()
        found = [*ours.hits([it.query]), *server.hits([it.query])]
        server.close()
        yield it.name, it.query, *found, found == [it.here, it.zebra]
