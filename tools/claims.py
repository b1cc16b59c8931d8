"""The tables of claims of README.md and docs/PROOF.md: what a row cites has to be there, and where the row links it. And what docs/CALLING.md quotes.

A row names a clause with its function, a file of src/ that has both, the definitions that the clause goes through, with their files of
specs/, and an edit. "the same" in the place of a clause or of a file is that of the row above, with what stands behind it.

A quoted block of code stands in its file as it is quoted, but for the lines' indentation. A line `..` in it says that lines are left out.
"""
import collections
import re

from repository import EDIT_FOLDERS, EDIT_NAME

HEADS = ("| claim | clause | file | premise | edit that it refuses |", "| sentence | clause and file | definition and file |")
LINK = re.compile(r"\[[^\]]*\]\(([^)#:\s]+)(?:#[^)]*)?\)")
# A function's head, up to its body or its end.
FUNCTION = re.compile(r"^[ ]*(?:pub(?:\([a-z]+\))? )?(?:const )?fn (\w+)(.*?)(?=^[ ]*(?:pub(?:\([a-z]+\))? )?(?:const )?fn |\Z)", re.M | re.S)
EDIT = re.compile(r"\.\./crates/\w+/(?:%s)/%s" % ("|".join(EDIT_FOLDERS), EDIT_NAME.pattern))


def clauses_in(text):
    """The functions of a file of src/, each with the names of its clauses, a law's too; "" is a clause without a name."""
    found = collections.defaultdict(set)
    for name, body in FUNCTION.findall(text):
        found[name] |= {"", *re.findall(r"ensures (\w+) \{", body)}
    return found


def in_any(files):
    """The functions of all these files, each with its clauses."""
    known = collections.defaultdict(set)
    for functions in files.values():
        for name, clauses in functions.items():
            known[name] |= clauses
    return known


def rows(text):
    """The rows of a page's tables of claims, each as its cells."""
    above = None
    for line in text.splitlines():
        if line in HEADS:
            above = []
        elif above is None or not line.startswith("|"):
            above = None
        elif not line.startswith("|---"):
            cells = [it.strip() for it in re.split(r"(?<!\\)\|", line)[1:-1]]
            above = [cell.replace("the same", over, 1) if cell.startswith("the same") else cell for cell, over in zip(cells, above or cells)]
            yield above


def cited(cell):
    """The clauses and the functions of each part of a cell like "`value`, `work` of `hits`; law `numbers_stay`"; "" is a clause without a name."""
    for part in re.sub(r"\([^)]*\)|\[[^\]]*\]|, field `\w+`", "", cell).split(";"):
        names, _, functions = re.sub(r" through (?:`\w+`(?:, | and )?)+", "", part).replace("law ", "of ").partition("of ")
        is_of_any = "each call" in functions
        asked = [] if is_of_any else [it.split("::")[-1] for it in re.findall(r"`([\w:]+)`", functions)]
        if is_of_any or asked:
            yield re.findall(r"`(\w+)`", part if is_of_any else names) or [""], asked


def definitions(cell):
    """The definitions that the clauses of a cell go through, those in parentheses, and the fields that it names."""
    plain = LINK.sub("", cell)
    listed = [*re.findall(r" through ((?:`\w+`(?:, | and )?)+)", plain), *re.findall(r"\(([^)]*)\)", plain), *re.findall(r"field `\w+`", plain)]
    return [name for it in listed for name in re.findall(r"`(\w+)`", it)]


def wrong(cells, known, linked, defined):
    """What a row cites in vain, by the functions of all files, those of the files of src/ that it links, and the definitions of its files of specs/."""
    parts, here = [*cited(cells[1])], in_any(linked)
    yield from [f"a claim without a clause: {cells[0]}"] * (not parts)
    yield from [f"a claim without a file of src/: {cells[0]}"] * (not linked)
    asked_clauses = set()
    for clauses, functions in parts:
        asked_clauses |= {clause for it in functions for clause in known.get(it, ())}
        yield from [f"there is no function {it}" for it in functions if it not in known]
        have = {clause for it in functions for clause in known.get(it, ())}
        yield from [f"{' and '.join(functions)} has no clause {it}" for it in clauses if functions and it not in have]
        absent = [it for it in functions if it not in here]
        yield from [f"no file that the row links has the function {it}" for it in absent]
        have = {clause for it in functions or here for clause in here.get(it, ())}
        yield from [f"no file that the row links has the clause {it}" for it in clauses if not absent and it not in have]
    yield from [f"no file that the row links has the definition {it}" for it in definitions(cells[1]) if it not in defined | asked_clauses]
    yield from wrong_edit(cells)


def wrong_edit(cells):
    """Why a claim's last cell names no edit that its proof refuses; a law's row has a hyphen, and the table of README.md has no such cell."""
    if len(cells) < 5:
        return
    edit, *more = LINK.findall(cells[4]) or [None]
    if not (edit and not more and EDIT.fullmatch(edit) or cells[4] == "-"):
        yield f"neither an edit nor a hyphen: {cells[4]}"
    if edit and cells[1].startswith("law ") and ";" not in cells[1]:
        yield f"an edit of a law: {edit}"


# A block of Rattle's code, with what stands above it on the page up to the block before.
QUOTE = re.compile(r"(.*?)^```rust\n(.*?)^```$", re.M | re.S)


def without_indent(text):
    """The lines of a text without the blanks at their ends, with a line's end before and behind each."""
    return "\n" + "".join(f"{line.strip()}\n" for line in text.splitlines())


def quotes(text):
    """The blocks of code of a page, each with the last file of src/ that is linked above it, and with its pieces."""
    for above, block in QUOTE.findall(text):
        files = [it for it in LINK.findall(above) if it.endswith(".rt")]
        yield (files or [None])[-1], re.split(r"^\s*\.\.\n", block, flags=re.M)


def misquoted(text, read):
    """What a page quotes and its files don't have so; `read` gives the text of a file that the page links."""
    for link, pieces in quotes(text):
        if link is None:
            yield f"a block of code without a file above it: {pieces[0].splitlines()[0]}"
            continue
        code, at = without_indent(read(link)), 0
        for piece in pieces:
            found = code.find(without_indent(piece), at)
            if piece.count("{") != piece.count("}"):
                yield f"a clause or a body is cut: {piece.splitlines()[0]}"
            elif found < 0:
                yield f"it isn't in {link}, or not behind the piece before: {piece.splitlines()[0]}"
            else:
                at = found + len(without_indent(piece)) - 1
