"""Trials of tests/hostile/image.py and leaves.py: records, blocks, leaves and tables that were worked out by hand."""
import image
import leaves
from rows import record

PROFILE = """identifier 001
att 4 Title
att 31 Date
att 1016 Any
melm 245$a Title:w,Title:p
melm 245 Title:w
melm 260$c Date:n
all Any:w
"""
MOBY = record(["001 a1", "245 10|aMoby Dick :|bor, the whale /", "260   |cc1851."])
CAFE = record(["001 b2", "245 00|aCafe%cc%81"])
MOBY_TITLE = [(b"dick", 2, 2), (b"moby", 2, 1), (b"or", 3, 1), (b"the", 3, 2), (b"whale", 3, 3)]
MOBY_OCCURS = [
    *((0, 0, *it) for it in MOBY_TITLE),
    (0, 1, b"moby dick", 2, 1),
    (1, 2, b"000000000000001851", 4, 1),
    (2, 0, b"c1851", 4, 1),
    *((2, 0, *it) for it in MOBY_TITLE),
]
# A block, its postings, and its bytes.
BLOCKS = [
    (0, [(1, 2, 2)], "010202"),
    (0, [(1, 2, 2), (1, 3, 1)], "010202000101"),
    (0, [(1, 2, 2), (1, 2, 3)], "010202000001"),
    (0, [(1, 2, 2), (255, 1, 1)], "010202fe010101"),
    (1, [(256, 2, 2)], "000202"),
    (1, [(256, 2, 2), (256, 300, 1)], "00020200aa0201"),
]
# A leaf, each entry its term, its block, its records and its block's bytes, and the leaf's bytes.
LEAVES = [
    ([], ""),
    ([(b"dick", 0, 1, b"\1\2\2"), (b"moby", 0, 1, b"\1\2\1")], "00046469636b000103010202" "00046d6f6279000103010201"),
    ([(b"dick", 0, 1, b"\1\2\2"), (b"dock", 0, 1, b"\1\2\2")], "00046469636b000103010202" "01036f636b000103010202"),
    ([(b"dick", 0, 1, b"\xff\1\2\2"), (b"dick", 300, 2, b"\0\2\2\1\2\2")], "00046469636b000104ff010202" "0400ac020206000202010202"),
]
# Bytes that are no leaf: cut, a byte shared with none, a shared byte said again, terms and blocks that don't rise, a term that is no text, no
# record, more than 256, a number that could be shorter, and one of more than 64 bits.
NO_LEAVES = [
    "00046469636b0001030102",
    "01036469630001030102",
    "00046469636b00010301020200046f636b64000103010202" "0004646f636b000103010202",
    "00046d6f627900010302010100046469636b000103010202",
    "00046469636b010103010202" "0400000103010202",
    "00046469ff6b000103010202",
    "00046469636b000003010202",
    "00046469636b00810203010202",
    "00046469636b8000010301 0202".replace(" ", ""),
    "00046469636bffffffffffffffffff020103010202",
]
# Bytes in place of others in Moby Dick, and whether a record comes of it.
CHANGED = [
    (b" 4500", b"     ", True),
    (b" a22", b" a32", False),
    (b" a22", b" a 2", True),
    (b"260001100036", b"260001200036", False),
    (b"260001100036", b"246003300003", True),
    (b"260001100036", b"26-001100036", False),
    (b"260001100036", b"260000000036", False),
    (b"00109nam", b"00108nam", False),
    (b"2200061", b"2200060", False),
    (b"c1851.\x1e", b"c1851. ", False),
    (b"\x1e\x1d", b"\x1e ", False),
]


def is_malformed(data):
    try:
        return leaves.read_leaf(data) is None
    except leaves.Malformed:
        return True


def trials():
    """What isn't as it was worked out."""
    profile = image.Profile(PROFILE)
    for block, postings, data in BLOCKS:
        yield data, image.spelled(block, postings).hex() == data
    for entries, data in LEAVES:
        yield data, leaves.spelled_leaf(entries).hex() == data and leaves.read_leaf(bytes.fromhex(data)) == entries
    for data in NO_LEAVES:
        yield f"no leaf {data}", is_malformed(bytes.fromhex(data))
    for old, new, is_record in CHANGED:
        yield new, MOBY.count(old) == 1 and (image.fields(MOBY.replace(old, new)) is not None) == is_record
    yield "a record without a field", image.fields(b"00026nam a2200025 a 4500\x1e\x1d") == []
    yield "no identifier", profile.identifier(b"00026nam a2200025 a 4500\x1e\x1d") is None
    yield "identifiers", [profile.identifier(it) for it in (MOBY, CAFE)] == [b"a1", b"b2"]
    yield "Moby Dick", profile.occurrences(MOBY) == MOBY_OCCURS
    yield "Café", profile.occurrences(CAFE) == [(0, 0, b"cafe", 2, 1), (0, 1, b"cafe", 2, 1), (2, 0, b"cafe", 2, 1)]
    # Two entries of the directory name one field: its words stand in two units each, and those of 246 are no title's.
    twice = profile.occurrences(MOBY.replace(b"260001100036", b"246003300003"))
    yield "one field twice", [sum(it[:2] == key for it in twice) for key in ((0, 0), (0, 1), (1, 2), (2, 0))] == [5, 1, 0, 10]
    one = image.Profile("identifier 001\natt 1016 Any\nmelm 245$a Any:w\nall Any:w\n")
    yield "a target twice", len(one.occurrences(MOBY)) == 6
    yield from tables(profile)
    yield from tables_of_leaves(profile)


def tables(profile):
    """Trials of whole tables."""
    made = image.image(profile, [(7, b"Default", 1)], [(7, 1, b"a1", MOBY)])
    yield "rows", [len(it) for it in made.values()] == [3, 1, 1, 0, 13, 13]
    yield "a word of the title", (7, 0, 0, b"moby", 0, b"\1\2\1") in made["blocks"] and (7, 0, 0, b"moby", 1) in made["dict"]
    yield "a year's word", (7, 2, 0, b"c1851", 0, b"\1\4\1") in made["blocks"]
    plain = image.image(profile, [(7, b"Default", 1)], [(7, 1, b"a1", MOBY)], image.PLAIN)
    yield "plain rows", [len(it) for it in plain.values()] == [3, 1, 1, 13, 0, 0] and (7, 0, 0, b"moby", 1, 2, 1) in plain["postings"]
    both = image.image(profile, [(1, b"x", 256)], [(1, 255, b"a1", MOBY), (1, 256, b"b1", MOBY)])
    yield "two blocks", [it for it in both["blocks"] if it[3] == b"moby dick"] == [
        (1, 0, 1, b"moby dick", 0, b"\xff\1\2\1"),
        (1, 0, 1, b"moby dick", 1, b"\0\2\1"),
    ] and (1, 0, 1, b"moby dick", 2) in both["dict"]
    yield "an image", image.is_image(profile, made) and not image.is_image(profile, plain) and image.is_image(profile, plain, image.PLAIN)
    yield "a wrong identifier", not image.is_image(profile, both)
    for last, is_sound in ((0, False), (1, True), (image.GREATEST, True), (image.GREATEST + 1, False)):
        yield f"last {last}", image.are_kept(profile, [(7, b"x", last)], [(7, 1, b"a1", MOBY)]) == is_sound
    for name, is_sound in ((b"-", True), (b"n" * 64, True), (b"n" * 65, False), (b"a b", False), (b"", False), (b"x\n", False)):
        yield f"name {name}", image.are_kept(profile, [(7, name, 1)], []) == is_sound


def tables_of_leaves(profile):
    """Trials of whole tables of leaves, whose rows of titles' words are changed."""
    lists = [(7, b"Default", 1)], [(7, 1, b"a1", MOBY)]
    made = image.image(profile, *lists, image.LEAVES)
    yield "rows of leaves", [len(it) for it in made.values()] == [3, 1, 1, 0, 4, 0]
    title, rest = made["blocks"][0], made["blocks"][1:]
    yield "a leaf", title[:5] == (7, 0, 0, b"", 0) and title[5].startswith(bytes.fromhex("00046469636b000103010202" "00046d6f6279000103010201"))
    entries = leaves.read_leaf(title[5])
    first, second = leaves.spelled_leaf(entries[:2]), leaves.spelled_leaf(entries[2:])
    other = leaves.spelled_leaf([entries[0], (b"moby", 0, 2, entries[1][3]), *entries[2:]])
    for rows, is_sound in (
        ([(b"", 0, title[5])], True),
        ([(b"", 0, first), (b"or", 0, second)], True),
        ([(b"", 0, first), (b"moby", 1, b""), (b"n", 7, second)], True),
        ([(b"", 0, title[5]), (b"zz", 0, b"")], True),
        ([], False),
        ([(b"", 0, second), (b"or", 0, first)], False),
        ([(b"or", 0, second)], False),
        ([(b"", 0, title[5]), (b"or", 0, b"")], False),
        ([(b"", 0, first), (b"p", 0, second)], False),
        ([(b"a", 0, title[5])], False),
        ([(b"", 1, title[5])], False),
        ([(b"", 0, title[5]), (b"zz", -1, b"")], False),
        ([(b"", 0, title[5]), (b"\xff", 0, b"")], False),
        ([(b"", 0, title[5][:-1])], False),
        ([(b"", 0, other)], False),
    ):
        blocks = sorted([*((7, 0, 0, *it) for it in rows), *rest])
        yield f"leaves {rows}", image.is_image(profile, {**made, "blocks": blocks}, image.LEAVES) == is_sound
    yield from greater_leaves()


def greater_leaves():
    """Trials of leaves of several entries at and above their greatest length."""
    # The first entry takes seven bytes beside its block's, and the second one six.
    entries = [(b"a", 0, 1, b"\0" * 2984), (b"b", 0, 1, b"")]
    blocks = [(7, 0, 0, *it) for it in entries]
    yield "at most 3,000 bytes", len(leaves.spelled_leaf(entries)) == 2997 and len(leaves.cut(entries)) == 1
    longer = [(b"a", 0, 1, b"\0" * 2988), (b"b", 0, 1, b"")]
    yield "more than 3,000", len(leaves.spelled_leaf(longer)) == 3001 and len(leaves.cut(longer)) == 2
    yield "several", leaves.are_leaves([(7, 0, 0, b"", 0, leaves.spelled_leaf(entries))], blocks)
    longer_blocks = [(7, 0, 0, *it) for it in longer]
    yield "too long", not leaves.are_leaves([(7, 0, 0, b"", 0, leaves.spelled_leaf(longer))], longer_blocks)
    yield "parted", leaves.are_leaves(leaves.leaf_rows(longer_blocks), longer_blocks)
    yield "one alone", leaves.are_leaves([(7, 0, 0, b"", 0, leaves.spelled_leaf([(b"a", 0, 1, b"\0" * 9000)]))], [(7, 0, 0, b"a", 0, 1, b"\0" * 9000)])


def failures():
    return [what for what, is_so in trials() if not is_so]


if __name__ == "__main__":
    print(failures())
