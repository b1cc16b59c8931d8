"""What proof files take from the proofs of other crates, where a lemma that was renamed or taken away is missed only once the crate above is proved; and
lemmas that nothing cites."""
import re
from collections import Counter

TAKES = re.compile(r"^(?:pub )?use Rattle\.(\w+)\.proofs\.([\w.]+?)\.\{([^{}]*)\}", re.M)
PASSES_ON = re.compile(r"^(?:unfoldable )?pub use [^\n{]*\{([^{}]*)\}", re.M)
DECLARES = re.compile(r"(?:(?:abbrev|unfoldable|opaque|infix\w* \d+) +)*pub +(?:(?:abbrev|data|record|ruleset) +)*([^\s:(){}]+)")
OPENS = re.compile(r"(?:abbrev |pub )*(data|record|module)\b")
DECLARED = re.compile(r"^( *)" + DECLARES.pattern, re.M)
BELOW_A_TYPE = re.compile(r"(?:pub )?([^\s:(){}]+) *:")
# An import, or a comment, of either language.
NOT_CITING = re.compile(r"^ *(?:(?:(?:unfoldable|pub|ghost) )*use [^;\n]*(?:;|$)|--.*|//.*)", re.M)
RENAMED = re.compile(r"([^\s{},]+) as ")
WORD = re.compile(r"[^\s(){}\[\],;.:]+")
BEGINS = re.compile(r"^( *)(?:(?:abbrev|unfoldable|opaque|pub|data|record) +)*([^\s(){}\[\],;.]+)", re.M)


def names_of(listed):
    """What a list in braces names, and how those who take it call it."""
    return [tuple(part.strip() for part in it.split(" as ")) for it in listed.split(",") if it.strip()]


def declared(text):
    """The names that a proof file has for others: those declared `pub`, also in a module with parameters, constructors and fields of types, and what it passes on."""
    found, within = set(), []
    for line in text.splitlines():
        said = line.lstrip(" ")
        if not said or said.startswith("--"):
            continue
        indent = len(line) - len(said)
        while within and within[-1][0] >= indent:
            within.pop()
        public, member, opens = DECLARES.match(said), BELOW_A_TYPE.match(said), OPENS.match(said)
        if public:
            found.add(public[1])
        elif member and within and within[-1][1] != "module":
            found.add(member[1])
        if opens:
            within.append((indent, opens[1]))
    return found.union(*({it[-1] for it in names_of(listed)} for listed in PASSES_ON.findall(text)))


def missed(crates):
    """Each name that a crate's proofs take from a file of another crate's that hasn't got it."""
    files = {(it.name, ".".join(path.relative_to(it.folder / "proofs").with_suffix("").parts)): path for it in crates for path in (it.folder / "proofs").rglob("*.antt")}
    known = {}
    for (crate, _), path in files.items():
        for other, module, listed in TAKES.findall(path.read_text(encoding="utf-8")):
            if other == crate or (other, module) not in files:
                continue
            if (other, module) not in known:
                known[other, module] = declared(files[other, module].read_text(encoding="utf-8"))
            yield from [(path, f"{it[0]} of {other}/{module}") for it in names_of(listed) if it[0] not in known[other, module]]


def uncited(texts):
    """Of these texts by their paths, each name that a proof file has for others and that only imports and the lines which define it have. A
    lemma is missed where it cites itself, and where anything else has its name."""
    cited = Counter(name for text in texts.values() for name in WORD.findall(NOT_CITING.sub("", text)))
    # a name under which an import takes it is another one, which may be cited
    cited.update(name for text in texts.values() for line in NOT_CITING.findall(text) for name in RENAMED.findall(line))
    for path, text in texts.items():
        if path.suffix == ".antt" and path.parent.name == "proofs" and path.name != "Cited.antt":
            # what defines a name begins as far to the right as what declares it
            begun = Counter(BEGINS.findall(text))
            yield from [(path, name) for indent, name in sorted({*DECLARED.findall(text)}) if cited[name] == begun[indent, name]]
