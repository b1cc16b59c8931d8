"""Trials of tools/claims.py: rows that cite what is there, and rows that cite something in vain; quotes of code, right and wrong."""
import claims

CODE = "pub fn find()\n    ensures found { Yes }\n    ensures { Yes }\n{\n}\n\npub fn numbers_stay()\n    ensures { Yes }\n{}\n"
OTHER = "pub fn scan()\n    ensures scanned { Yes }\n{\n}\n"
FILES = {"src/find.rt": claims.clauses_in(CODE), "src/scan.rt": claims.clauses_in(OTHER)}
SPECS = {"specs/Finding.antt": {"FindDoes", "honest"}}
EDIT = "[one](../crates/a/edits/one.edit)"
FIND, SPEC = "[find.rt](src/find.rt)", "[Finding.antt](specs/Finding.antt)"

# A clause, its files and the last cell, where all is there.
SOUND = [
    ("`found` of `find`", FIND, EDIT),
    ("of `Session::find`", FIND, "-"),
    ("law `numbers_stay`", FIND, "-"),
    ("`found` of `find`, through `FindDoes`", f"{FIND}, {SPEC}", EDIT),
    ("`found`, field `honest`, of `find` (`FindDoes`)", f"{FIND}, {SPEC}", EDIT),
    ("`found` of `find`; `scanned` of `scan`", f"{FIND}, [scan.rt](src/scan.rt)", EDIT),
    ("`found` of each call", FIND, "-"),
]
# What is said of those where something isn't.
WRONG = [
    ("`sought` of `find`", FIND, EDIT, "find has no clause sought"),
    ("`found` of `seek`", FIND, EDIT, "there is no function seek"),
    ("`scanned` of `scan`", FIND, EDIT, "no file that the row links has the function scan"),
    ("`found` of `find`, through `FindDoes`", FIND, EDIT, "no file that the row links has the definition FindDoes"),
    ("`found` of `find`, through `Seeks`", f"{FIND}, {SPEC}", EDIT, "no file that the row links has the definition Seeks"),
    ("`found`, field `lost`, of `find`", f"{FIND}, {SPEC}", EDIT, "no file that the row links has the definition lost"),
    ("`sought` of each call", FIND, EDIT, "no file that the row links has the clause sought"),
    ("above", FIND, EDIT, "a claim without a clause: it finds"),
    ("`found` of `find`", SPEC, EDIT, "a claim without a file of src/: it finds"),
    ("law `numbers_stay`", FIND, EDIT, "an edit of a law: ../crates/a/edits/one.edit"),
    ("`found` of `find`", FIND, "one", "neither an edit nor a hyphen: one"),
]
# Blocks of code below a link to CODE, and how many pieces of each it hasn't so.
QUOTED = [
    ("pub fn find()\n    ensures found { Yes }\n", 0),
    ("pub fn find()\nensures found { Yes }\n..\npub fn numbers_stay()\n", 0),
    ("pub fn find()\n    ensures { Yes }\n", 1),
    ("pub fn find(\n", 1),
    ("pub fn find()\n    ensures found { Yes }\n    ensures { Yes }\n{\n", 1),
    ("pub fn numbers_stay()\n..\npub fn find()\n", 1),
    ("pub fn find() \n    ensures found { No }\n..\npub fn seek()\n", 2),
]
NUMBER = len(SOUND) + len(WRONG) + 2 + len(QUOTED) + 1


def page(*rows):
    """A table of claims with these rows."""
    lines = [f"| it finds | {clause} | {file} | none | {edit} |" for clause, file, edit in rows]
    return "\n".join(["A page.", "", claims.HEADS[0], "|---|---|---|---|---|", *lines, "", "| another | table |"])


def said(*rows):
    """What is said of the rows, in their order."""
    found = []
    for cells in claims.rows(page(*rows)):
        links = [link for cell in cells[1:3] for link in claims.LINK.findall(cell)]
        linked = {it: FILES[it] for it in links if it in FILES}
        defined = set().union(*(SPECS.get(it, set()) for it in links))
        found += claims.wrong(cells, claims.in_any(FILES), linked, defined)
    return found


def misquoted(block, link="[find.rt](src/find.rt)"):
    """What is said of a page with this block of code below a link."""
    return [*claims.misquoted(f"A page. From {link}:\n\n```rust\n{block}```\n", {"src/find.rt": CODE}.get)]


def failed():
    """The trials that come out wrong."""
    yield from [f"quoted: {block!r}, {misquoted(block)}" for block, number in QUOTED if len(misquoted(block)) != number]
    yield from ["a quote without a file is taken"] * (len(misquoted(QUOTED[0][0], "nowhere")) != 1)
    yield from [f"refused: the row of {row[0]}, {said(row)}" for row in SOUND if said(row)]
    yield from [f"not refused: the row of {clause} by {why!r}" for clause, file, edit, why in WRONG if why not in said((clause, file, edit))]
    yield from ["a row of the same clause and file isn't read as the one above"] * bool(said(SOUND[3], ("the same", "the same", "-")))
    yield from ["a row below one of another clause is read as that"] * (len(said(WRONG[0][:3], ("the same", "the same", "-"))) < 2 * len(said(WRONG[0][:3])))
