"""What the clauses of exported functions cite, which tools/quick compares with the rows of docs/DEFINITIONS.md, and what they reach through
others: what they don't reach stands in files Private.

Clauses are premises, promises and the ghost members of types: of what `lib.rt` exports, in whatever module it stands. Texts are read without
comments and strings, as `rt fmt` lays them out: what stands in an item is deeper than its head. What isn't seen: that a clause gives a name of
a definition to something else, which then counts as cited.
"""
import re

from by_hand import closed

IMPORT = re.compile(r"^ *((?:ghost |pub )*)use Rattle\.(\w+)\.specs\.([\w.]+?)(?:\.\{([^}]*)\}| as (\w+))?;?$", re.M)
EXPORT = re.compile(r"^pub use ([^;]+);|^pub mod (\w+);", re.M)
# The head of an item, or what a clause begins with.
MARK = re.compile(
    r"^( *)(pub(?:\([a-z]+\))? )?(?:const |unsafe )*(fn|struct|enum|trait|impl)\b"
    r"|(?:\b(?:requires|ensures)\b\*? ?\w*|\bghost \w+ ?[:=]) ?(?=\{)",
    re.M,
)
PUBLIC_ITEM = re.compile(r"^pub (?:const |unsafe )*(?:fn|struct|enum|trait) (\w+)", re.M)
NAME = re.compile(r"(?<![\w.])[^\W\d]\w*(?:\.\w+)?")
DEFINED = re.compile(r" *((?:(?:abbrev|unfoldable|opaque|pub|data|record) +)+)([^\s:(){},]+)")
PART = re.compile(r" +(?:pub +)?((?:[^\s:(){},=]+ +)+):")


def defined_in(text):
    """The definitions of a file of specs/, with their cases and fields, each with the definition that it belongs to."""
    found, of, depth = {}, None, 0
    for line in text.splitlines():
        inside = len(line) - len(line.lstrip())
        of = of if not line.strip() or inside > depth else None
        head = None if of else DEFINED.match(line)
        if head:
            found[head[2]] = head[2]
            of, depth = head[2] if re.search("data|record", head[1]) else None, inside
        elif of and PART.match(line):
            found |= dict.fromkeys(PART.match(line)[1].split(), of)
    return found


def names(listed):
    """The names of a list with commas, each with the one that it has here."""
    return [(it.split()[0].split("::")[-1], it.split()[-1]) for it in listed.split(",") if it.strip()]


def imports(text, word=""):
    """The names by which a text can cite definitions, each with its crate, its file and its name there; "" is the name of a whole file."""
    found = {}
    for words, crate, file, listed, alias in IMPORT.findall(text):
        stem = file.split(".")[-1]
        for name, here in names(listed) if listed else [("", alias or stem)]:
            found |= {here: (crate, stem, name)} if word in words and not file.startswith("declared.") else {}
    return found


def exported(sources):
    """The names that a crate exports, by the texts of its src/."""
    found, public = set(), ["src/lib.rt"]
    for file in public:
        text = sources.get(file, "")
        found |= {*PUBLIC_ITEM.findall(text)}
        for listed, module in EXPORT.findall(text):
            found |= {name for name, _ in names(re.sub(r".*\{|\}", "", listed))}
            public += [f"src/{module}.rt"] * bool(module)
    return found


class Head:
    """The head of an item: its name, which of an `impl` is that of its type, and whether it is public."""

    def __init__(self, text, mark):
        rest = re.match(r"[^{;]*", text[mark.end() :])[0].strip()
        rest = rest[closed(rest, 0, "<", ">") :] if rest.startswith("<") else rest
        _, is_of_trait, of = rest.rpartition(" for ") if mark[3] == "impl" else ("", "", rest)
        self.kind, self.is_public = mark[3], mark[2] == "pub "
        self.name = re.match(r"[&\s]*(?:'\w+ +)?(?:mut +)?(?:\w+::)*(\w*)", of)[1]
        # no function in it has to be public by its own word
        self.shows_all = bool(is_of_trait) or mark[3] == "trait"


def public_clauses(text, public):
    """The clauses that a caller sees where a crate exports these names, each with what it is of."""
    top, function = None, None
    for mark in MARK.finditer(text):
        if mark[3]:
            head = Head(text, mark)
            top, function = (top, head) if mark[1] else (head, None)
            continue
        of = None if mark[0].startswith("ghost") else function
        is_seen = top.is_public if top.kind == "fn" else not of or top.shows_all or of.is_public
        if is_seen and top.name in public:
            yield "::".join([top.name, *([of.name] if of else [])]), text[mark.end() : closed(text, mark.end())]


def cited(code):
    """Each definition that a clause of an exported function cites, as its crate, file and name, with that function; by the texts of crates."""
    specs = {(crate, path.split("/")[-1][:-5]): text for crate, files in code.items() for path, text in files.items() if path.endswith(".antt")}
    defined = {place: defined_in(text) for place, text in specs.items()}
    passed_on = {place: imports(text, "pub") for place, text in specs.items()}
    for crate, files in code.items():
        sources = {path: text for path, text in files.items() if path.startswith("src/")}
        public = exported(sources)
        for text in sources.values():
            here = imports(text)
            for of, clause in public_clauses(text, public):
                for first, _, second in [it.partition(".") for it in NAME.findall(clause)]:
                    at, file, name = here.get(first, ("", "", ""))
                    name = name or second
                    at, file, name = passed_on.get((at, file), {}).get(name, (at, file, name))
                    if name in defined.get((at, file), ()):
                        yield (at, file, defined[at, file][name]), f"{crate}: {of}"


def items(text):
    """The definitions of a file of specs/, one item each, a `module` with all that it has: the names that it defines, and its text."""
    plain = re.sub(r"--.*|^(?:pub )?use .*|^infix.*", "", text, flags=re.M)
    return [(set(defined_in(it)), it) for it in re.split(r"^(?=(?:abbrev|unfoldable|opaque|pub|data|record|module)\b)", plain, flags=re.M)]


def words_of(text, known):
    """Those of the known names that a text has, each with what stands behind its dot; an operator by its signs."""
    yield from (it.partition(".")[::2] for it in NAME.findall(text))
    yield from ((it, "") for it in known if "◌" in it and all(sign in text for sign in it.split("◌")))


def unreached(code):
    """The definitions that no clause of an exported function reaches, neither itself nor through others, in files that aren't `Private`."""
    specs = {(crate, path.split("/")[-1][:-5]): text for crate, files in code.items() for path, text in files.items() if path.endswith(".antt")}
    split, passed_on = {place: items(text) for place, text in specs.items()}, {place: imports(text, "pub") for place, text in specs.items()}
    here = {place: {name: (*place, name) for names, _ in split[place] for name in names} | imports(text) for place, text in specs.items()}
    work, reached = [it for it, _ in cited(code)], set()
    while work:
        crate, file, name = work.pop()
        place, *further = (crate, file), passed_on.get((crate, file), {}).get(name)
        work += filter(None, further)
        for number, (names, text) in enumerate(split.get(place, ())):
            if name in names and (place, number) not in reached:
                reached.add((place, number))
                found = [(here[place].get(first), second) for first, second in words_of(text, here[place])]
                work += [(at, its_file, its_name or second) for (at, its_file, its_name), second in (it for it in found if it[0])]
    public = [place for place in sorted(specs) if place[1] != "Lib" and not place[1].startswith("Private")]
    left = [(place, names) for place in public for number, (names, _) in enumerate(split[place]) if names and (place, number) not in reached]
    return [f"{'/'.join(place)}: {', '.join(sorted(names))}" for place, names in left]


def wrong(code, rows):
    """What has no row among these, and what stands in a file `Private`: each with one that cites it."""
    found = {}
    for definition, by in cited(code):
        found.setdefault(definition, by)
    said = {it: f"{'/'.join(it[:2])}: {it[2]}, which {by} cites" for it, by in sorted(found.items())}
    is_private = {it: it[1].startswith("Private") for it in said}
    return [said[it] for it in said if not is_private[it] and it not in rows], [said[it] for it in said if is_private[it]]
