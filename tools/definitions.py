#!/usr/bin/env python3
"""What docs/DEFINITIONS.md has from the sources: how much there is to read, in which order, and by what each definition is named.

usage: tools/definitions.py [--write]     prints the page as it has to be, or writes it; tools/quick compares it

Each definition in a file of specs/ that isn't `Private` has its row by the comment right over it, which is its sentence. One without such a
comment is a piece of what stands beside it, and has none. Neighbours in a file with short sentences share a row, their sentences in the order of
their names. Written by hand are only what stands before the written part, and the heads of the sections and what stands right below them.

The order is that of who begins at the headline, and reads on with what each definition names: file by file as they are met, each from its first
line to its last. Definitions that aren't met so stand in the section of their crate. All lines of what is met are counted. A field of a record
is no way to its file: the record's own name is.

The last cell names exported functions and types whose clauses cite one of a row's definitions. Where only laws cite one, or none does, it names a
function from whose clauses it is reached, and the definition that names it on the way.
"""
import collections
import pathlib
import re
import sys

sys.dont_write_bytecode = True
import public_clauses
from repository import ROOT, load_rt, read_crates

PAGE = ROOT / "docs/DEFINITIONS.md"
# Where a reader of README's four sentences begins: what a list of commands does, one command, what a refused one changes, and what a crash leaves.
HEADLINE = (
    ("zeb_engine", "Headline", "Headline"),
    ("zeb_engine", "Works", "ServesCommand"),
    ("zeb_register", "Calls", "ChangesNothing"),
    ("zeb_engine", "Crashes", "Endures"),
)
# What may be read alone.
ALONE = {
    "what a find answers": ("zeb_engine", "Steps", "FoundFrom"),
    "what becomes of the records of files": ("zeb_engine", "Steps", "TakesFiles"),
    "which tables stand for what is held": ("zeb_image", "Image", "IsImage"),
}
# Whose clauses are all that is said of the program.
PROGRAM = "zeb_program: run"
# How long the sentences of neighbours in one row are together at most.
JOINED = 170
# What the definitions of a crate say: of the subject, or of this program's own parts.
SUBJECT = {
    "zeb_query": "which query a text is, and what it asks for: PQF and Bib-1",
    "zeb_search": "on which records a query holds: Bib-1",
    "zeb_profile": "profiles: the Zebra manual, abstract syntaxes",
    "zeb_marc": "records and their units: ISO 2709",
    "zeb_text": "words, numbers, folding and patterns: Unicode",
    "zeb_extract": "identifiers, and what a record is found by",
    "zeb_analysis": "what `-s update` shows",
}
OWN = {
    "zeb_engine": "steps of commands, and that they are served",
    "zeb_image": "what a register holds, and which tables stand for it",
    "zeb_change": "what becomes of the records of files; kept records",
    "zeb_register": "the six tables, and the contents of registers",
    "zeb_blocks": "the bytes of blocks",
    "zeb_leaf": "the bytes of leaves",
    "zeb_keys": "the order of keys",
    "zeb_program": "what is written, by lines and by words",
    "zeb_words": "which command words name",
    "zeb_paths": "what paths tell",
}
# Those that are named first, where more name a definition than are told.
FIRST = ("run", "Session::run_all", "Session::command", "Session::update_from", "Session::adopt")
MOST_NAMED = 3
# The files of laws and of worked examples.
LAWS = re.compile(r"(laws|examples|worked)\w*\.rt$")
HEAD = ("definition", "what it says", "file", "named by")
BEGIN, END = "<!-- written by tools/definitions.py -->\n", "<!-- to here -->\n"


def rows(text, known):
    """The rows of the page: the crate, the definitions, the file of its specs/, and what names them."""
    section = None
    for line in text.splitlines():
        head = re.match(r"## (\w+):", line)
        section = head[1] if head and head[1] in known else section
        cells = re.split(r"(?<!\\)\|", line)
        if len(cells) == 6 and cells[1].strip() not in ("definition", "---"):
            # a row of the written part has its crate before its file
            before, _, file = cells[3].strip().rpartition("/")
            if (before or section) in known:
                yield before or section, re.findall(r"`([^`]+)`", cells[1]), [file], re.findall(r"`([\w:]+)`", cells[4])


def lines_of(text):
    """The lines of a file of specs/, each with the head of a definition that it is, and with the head of the record or the type that it stands in."""
    of, depth = None, 0
    for line in text.splitlines():
        inside = len(line) - len(line.lstrip())
        of = of if not line.strip() or inside > depth else None
        head = None if of else public_clauses.DEFINED.match(line)
        head = None if head and head[2] == "use" else head
        yield line, head, of
        if head:
            of, depth = head if {"data", "record"} & {*head[1].split()} else None, inside


def fields_in(text):
    """The fields of the records of a file of specs/, but for names that a definition has too."""
    parts = [public_clauses.PART.match(line) for line, _, of in lines_of(text) if of and "record" in of[1].split()]
    return {name for part in parts if part for name in part[1].split()} - {head[2] for _, head, _ in lines_of(text) if head}


class Specs:
    """The files of all specs/, by their crate and their name: which definition names which others."""

    def __init__(self, code):
        texts = {(crate, path.split("/")[-1][:-5]): text for crate, files in code.items() for path, text in files.items() if path.endswith(".antt")}
        self.items, self.known = {place: public_clauses.items(text) for place, text in texts.items()}, {}
        self.passed_on = {place: public_clauses.imports(text, "pub") for place, text in texts.items()}
        self.fields = {place: fields_in(text) for place, text in texts.items()}
        self.here = {
            place: {name: (*place, name) for names, _ in self.items[place] for name in names} | public_clauses.imports(text) for place, text in texts.items()
        }

    def named_by(self, definition):
        """The definitions that this one names, in its order."""
        if definition not in self.known:
            self.known[definition] = [*dict.fromkeys(self.names_of(definition))]
        return self.known[definition]

    def names_of(self, definition):
        """The same, read from its text."""
        crate, file, name = definition
        place = (crate, file)
        yield from filter(None, [self.passed_on.get(place, {}).get(name)])
        for names, text in self.items.get(place, ()):
            for first, second in public_clauses.words_of(text, self.here[place]) if name in names else ():
                at, its_file, its_name = self.here[place].get(first) or ("", "", "")
                its_name = its_name or second
                if (at, its_file) in self.items and its_name not in self.fields[at, its_file]:
                    yield at, its_file, its_name

    def met_from(self, *first):
        """These definitions, each with what is met behind it before the next one: all that one names, before what these name."""
        met = {}
        for start in first:
            work = [start] * (start not in met)
            met |= dict.fromkeys(work)
            for definition in work:
                new = [it for it in self.named_by(definition) if it not in met]
                met |= dict.fromkeys(new)
                work += new
        return [*met]

    def sizes(self, definitions):
        """How many of these stand in each file, in the order in which the files are met, with their lines of code; a module has all its lines."""
        found, seen = {}, set()
        for crate, file, name in definitions:
            for number, (names, text) in enumerate(self.items.get((crate, file), ())):
                if name in names and (crate, file, number, name) not in seen:
                    is_new = (crate, file, number) not in seen
                    seen |= {(crate, file, number), (crate, file, number, name)}
                    of, lines = found.get((crate, file), (0, 0))
                    own = public_clauses.defined_in(text)[name] == name
                    found[crate, file] = of + own, lines + is_new * len([it for it in text.splitlines() if it.strip()])
        return found


def sentences_in(text):
    """The definitions of a file with a comment right over them, in their order, each with that as one line."""
    found, above = {}, []
    for line, head, _ in lines_of(text):
        if head and above:
            found[head[2]] = " ".join(above).removesuffix(".")
        said = line.strip()
        above = [*above, said[3:]] if said.startswith("-- ") and not said.startswith("-- --") else []
    return found


def added(sizes):
    """All these sizes together."""
    return tuple(map(sum, zip(*sizes))) or (0, 0)


def table(head, lines):
    """A table of a page."""
    return [f"| {' | '.join(head)} |", f"|{'---|' * len(head)}", *(f"| {' | '.join(map(str, it))} |" for it in lines), ""]


def how_much(specs, met, of_run):
    """How many definitions there are from the headline down, and from the program's clauses down, and how many lines they have."""
    sizes, all_sizes = specs.sizes(met), specs.sizes(of_run)

    def of(crate, among):
        return added(it for place, it in among.items() if place[0] == crate)

    def lines_for(word, crates):
        yield from ([word, f"`{it}`", said, *of(it, sizes), of(it, all_sizes)[1]] for it, said in crates.items() if any(of(it, all_sizes)))

    others = dict.fromkeys((it for it, _ in all_sizes if it not in SUBJECT | OWN), "")
    alone = [f"- {said} (`{it[2]}`): {added(specs.sizes(specs.met_from(it)).values())[1]:,}" for said, it in ALONE.items()]
    (number, lines), subject = added(sizes.values()), sum(of(it, sizes)[1] for it in SUBJECT)
    to_run, lines_to_run = added(all_sizes.values())
    return [
        "## How much there is to read",
        "",
        f"From the headline ({', '.join(f'`{it[2]}`' for it in HEADLINE)}) down a reader has to believe {number:,} definitions.",
        f"They have {lines:,} lines of code. Of these lines {subject:,} are the subject itself: what records, profiles and queries mean, whatever program",
        f"answers them. The other {lines - subject:,} are this program's own. Who believes each clause of the program's `run` too has read {to_run:,} definitions",
        f"with {lines_to_run:,} lines. Types of the code and definitions of the kit's libraries aren't counted, nor are comments and imports.",
        "",
        "Read alone, each of these takes so many lines, some of them the same:",
        "",
        *alone,
        "",
        *table(
            ("part", "crate", "what it has", "definitions", "lines", "lines for `run`"),
            [*lines_for("subject", SUBJECT), *lines_for("its own", OWN | others)],
        ),
    ]


def part_of(specs, met, of_run, paths, first):
    """The first part that is written; `paths` are those of the files, and `first` the rows of what is met."""
    lines = how_much(specs, met, of_run)
    lines += ["## Reading order", "", "Who begins at the headline, and reads on with what each definition names, meets these files in this order.", ""]
    sizes = specs.sizes(met)
    lines += table(("file", "definitions", "lines"), [(f"[{'/'.join(it)}](../{paths[it].relative_to(ROOT)})", *size) for it, size in sizes.items()])
    lines += ["## From the headline down", "", "The definitions of these files that are met, in the order in which they stand there.", ""]
    lines += table(HEAD, [(names, said, f"{crate}/{file}", by) for crate, file, names, said, by in first])
    return BEGIN + "\n".join(lines) + END


def joined(said):
    """Definitions with their sentences, in the rows in which they stand: neighbours in a file whose sentences are short, and each one sentence."""
    found = []
    for definition, sentence in said:
        last = found[-1] if found else None
        is_plain = not re.search(r"; |\. ", sentence)
        if last and last[2] and is_plain and last[0][0][:2] == definition[:2] and sum(map(len, [*last[1], sentence])) <= JOINED:
            last[0].append(definition)
            last[1].append(sentence)
        else:
            found.append(([definition], [sentence], is_plain))
    return [(definitions, "; ".join(sentences)) for definitions, sentences, _ in found]


def rows_of(said, naming):
    """The rows of definitions with their sentences: the crate, the file, and the cells."""
    for definitions, sentence in joined(said):
        names = ", ".join(f"`{it[2]}`" for it in definitions)
        yield *definitions[0][:2], names, sentence.replace("|", "\\|"), naming.of(definitions)


def sections_of(text, left):
    """What stands behind the first part: the sections of the crates, each with the rows that are left for it, which are taken out of them."""
    for head, crate, below in re.findall(r"^(## (\w+):[^\n]*\n)(.*?)(?=^## |\Z)", text, re.M | re.S):
        by_hand = "\n".join(it for it in below.splitlines() if not it.startswith("|")).strip()
        yield "\n".join([head, *([by_hand, ""] if by_hand else []), *table(HEAD, left.pop(crate, ()))])


def told(names):
    """The first of some names, and how many more there are."""
    different = [*dict.fromkeys(names)]
    more = len(different) - MOST_NAMED
    return ", ".join(f"`{it}`" for it in different[:MOST_NAMED]) + (f" and {more} more" if more > 0 else "")


def laws_in(code):
    """The functions that are laws and worked examples, by the files that they stand in."""
    texts = [text for files in code.values() for path, text in files.items() if LAWS.search(path)]
    return {name for text in texts for name in re.findall(r"\bfn (\w+)", text)}


class Naming:
    """By what definitions are named: clauses of exported functions and types that cite them, or what such a clause cites leads to them."""

    def __init__(self, code, specs):
        self.functions, self.laws = collections.defaultdict(list), laws_in(code)
        for definition, of in public_clauses.cited(code):
            self.functions[definition].append(of.partition(": ")[2])
        # a function from which each definition is reached, and what names it on the way: a law only where there is no other
        self.reached = {}
        for by in (self.calls, lambda it: self.functions[it]):
            cited = {it: min(by(it), key=self.rank) for it in [*self.functions] if it not in self.reached and by(it)}
            self.reached |= {it: (name, None) for it, name in sorted(cited.items(), key=lambda it: (self.rank(it[1]), it))}
            work = [*self.reached]
            for definition in work:
                new = [it for it in specs.named_by(definition) if it not in self.reached]
                self.reached |= {it: (self.reached[definition][0], definition[2]) for it in new}
                work += new

    def calls(self, definition):
        """The functions and types that cite it, without laws."""
        return [it for it in self.functions.get(definition, ()) if it not in self.laws]

    def rank(self, name):
        """Where a function stands among others: those of the program and of the session first, then calls, types, and laws."""
        kind = 3 if name in self.laws else 2 if name[0].isupper() and "::" not in name else 1
        return (0, FIRST.index(name)) if name in FIRST else (kind, 0)

    def of(self, definitions):
        """The cell of a row of these."""
        cited = sorted((name for it in definitions for name in self.functions.get(it, ())), key=self.rank)
        by, through = min((self.reached[it] for it in definitions), key=lambda it: self.rank(it[0]))
        if through and all(it in self.laws for it in cited):
            return "; ".join([f"`{by}`, through `{through}`", *([told(cited)] if cited else [])])
        return told(cited or [by])


def as_it_has_to_be(page, code, folders):
    """The page by its sources, and the crates that have rows and no section."""
    specs = Specs(code)
    naming = Naming(code, specs)
    met = specs.met_from(*HEADLINE)
    of_run = specs.met_from(*met, *dict.fromkeys(it for it, of in public_clauses.cited(code) if of == PROGRAM))
    paths = {(crate, path.stem): path for crate, folder in folders.items() for path in sorted((folder / "specs").rglob("*.antt"))}
    files = [it for it in dict.fromkeys(it[:2] for it in [*of_run, *naming.reached]) if it in paths and not it[1].startswith("Private")]
    said = [((*it, name), sentence) for it in files for name, sentence in sentences_in(paths[it].read_text(encoding="utf-8")).items()]
    first, left = {*met}, collections.defaultdict(list)
    for crate, file, *cells, by in rows_of([it for it in said if it[0] in naming.reached and it[0] not in first], naming):
        left[crate].append((*cells, file, by))
    part = part_of(specs, met, of_run, paths, rows_of([it for it in said if it[0] in naming.reached and it[0] in first], naming))
    sections = "\n".join(sections_of(page.partition(END)[2], left)).rstrip("\n") + "\n"
    return f"{page.partition(BEGIN)[0]}{part}\n{sections}", [*left]


def wrong(code, folders):
    """Why the page isn't as it has to be."""
    page = PAGE.read_text(encoding="utf-8")
    if BEGIN not in page or END not in page.partition(BEGIN)[2]:
        return [f"it has no part between {BEGIN.strip()} and {END.strip()}"]
    wanted, without = as_it_has_to_be(page, code, folders)
    if without:
        return [f"it has no section for {it}" for it in without]
    return [] if wanted == page else ["run tools/definitions.py --write", *(f"it has {old}" for old, new in zip(page.splitlines(), wanted.splitlines()) if old != new)]


def code_of(rt, crates):
    """The texts of all crates, without comments and strings."""
    return {it.name: {str(pathlib.Path(path).relative_to(it.folder)): text for path, text in rt.rtlib.blanked(str(it.folder)).items()} for it in crates}


def main():
    crates = read_crates()
    wanted, _ = as_it_has_to_be(PAGE.read_text(encoding="utf-8"), code_of(load_rt(), crates), {it.name: it.folder for it in crates})
    if sys.argv[1:] == ["--write"]:
        PAGE.write_text(wanted, encoding="utf-8")
    elif sys.argv[1:]:
        sys.exit(__doc__)
    else:
        print(wanted, end="")


if __name__ == "__main__":
    main()
