"""What commands are answered over tables, told by Python: wholly where these are a register's, else as far as the manual says."""
import bisect
import collections
import functools
import itertools
import re
from dataclasses import dataclass

import image
from counted import USE, tree, words

OK = b"ok\n"
NOT_BEGUN = b"zebraidx: register not initialised\n"
OTHER_FORMAT = b"zebraidx: register has another format\n"
OTHER_PROFILE = b"zebraidx: profile differs from the register's\n"
OTHER_RULE = b"zebraidx: identifier rule differs\n"
DAMAGED = b"zebraidx: register damaged\n"
EXISTS = b"zebraidx: database exists\n"
FULL = b"zebraidx: database full\n"
STORE = b"zebraidx: store fault\n"
NO_DATABASE = b"zebraidx: diagnostic 235 at 0: %s\n"
UNKNOWN = b"zebraidx: file 1 record %d: unknown identifier\n"
COUNTS = b"inserted %d updated %d deleted %d\n"
# What an accepted command is answered with, whatever the tables hold.
FORMS = {
    "find": rb"hits [0-9]+\n(?:[0-9]+ .*\n)?",
    "scan": rb"(?:.* [0-9]+\n)?",
    "stat": rb"records [0-9]+\nlast [0-9]+\n(?:[A-Za-z-]+:[wpn] [0-9]+ [0-9]+\n)+",
    "dump": rb".*",
    "create": OK,
    "drop": OK,
    **dict.fromkeys(("update", "delete", "adelete"), rb"inserted [0-9]+ updated [0-9]+ deleted [0-9]+\n"),
}
OF_ALL = ("init", "check", "reindex", "upgrade")
# So many hits are shown, and so many terms from this place on.
SHOWN, NUMBER, POSITION = 20, 9, 4


@dataclass(frozen=True)
class Command:
    """A command, the database that it names, and its query or the records of its file, which has this name."""

    kind: str
    name: str = "Default"
    query: str = ""
    file: str = ""
    records: tuple = ()
    # Whether a register in leaves is asked for, which words can, and no line.
    leaves: bool = False

    def words(self):
        """The words of a command that changes something."""
        named = [self.name] if self.kind in ("create", "drop") else []
        return [*(["-d", self.name] if self.file else []), self.kind, *["--leaves"] * self.leaves, *named, *([self.file] if self.file else [])]

    def line(self):
        """Its line in a batch, if it can be one."""
        name = "" if self.kind in OF_ALL else self.name
        shown = f"{NUMBER} {POSITION}" if self.kind == "scan" else ""
        return " ".join(it for it in (self.kind, "--leaves" * self.leaves, name, shown, self.query, self.file) if it).encode()


def is_readable(text):
    try:
        return text.decode() is not None
    except UnicodeDecodeError:
        return False


# ---- by the kept records of a register


def found(profile, kept, query):
    """A find's answer."""
    by_number = re.fullmatch("@attr 4=107 ([0-9]+)", query)
    asked = None if by_number else tree(query)
    hits = []
    for sysno, (ident, record) in sorted(kept.items()):
        if sysno == int(by_number[1]) if by_number else asked.holds(profile.rules, profile.units(record)):
            hits.append(b"%d %s\n" % (sysno, ident))
    return b"hits %d\n" % len(hits) + b"".join(hits[:SHOWN])


def terms_of(profile, kept, key):
    """The terms of a register, with the number of records that have each."""
    of_each = ({it[2] for it in profile.occurrences(record) if it[:2] == key} for _, record in kept.values())
    return sorted(collections.Counter(itertools.chain(*of_each)).items())


def scanned(profile, kept, query):
    """A scan's answer."""
    asked = tree(query)
    register = asked.register()
    start = f"{int(asked.text):018}" if register == "n" else " ".join(words(asked.text))
    terms = terms_of(profile, kept, (profile.names.index(profile.rules.uses[asked.attributes[USE]]), "wpn".index(register)))
    at = bisect.bisect_left(terms, (start.encode(),))
    shown = terms[max(0, at - POSITION + 1) : at + NUMBER - POSITION + 1]
    return b"".join(b"%s %d\n" % (b"%d" % int(term) if register == "n" else term, count) for term, count in shown)


def counted(profile, last, kept):
    """A stat's answer."""
    lines = [b"records %d\nlast %d\n" % (len(kept), last)]
    for index, register in profile.targets:
        occurs = [it[2] for _, record in kept.values() for it in profile.occurrences(record) if it[:2] == (index, register)]
        lines.append(b"%s:%s %d %d\n" % (profile.names[index].encode(), b"wpn"[register : register + 1], len(set(occurs)), len(occurs)))
    return b"".join(lines)


def analysed(profile, records):
    """The answer of an update that only shows what the records of one file are found by."""
    lines = []
    for nth, record in enumerate(records, 1):
        lines.append(b"record 1 %d %s\n" % (nth, profile.identifier(record)))
        for index, register, term, seq, pos in profile.occurrences(record):
            key = profile.names[index].encode(), b"wpn"[register : register + 1]
            lines.append(b"%s:%s %d %d %s\n" % (*key, seq, pos, b"%d" % int(term) if register == 2 else term))
    return b"".join(lines)


# ---- changes of a register, each an answer with what is held then


def updated(profile, old, command):
    last, kept = old.get(command.name.encode(), (0, {}))
    kept, counts = dict(kept), [0, 0, 0]
    for record in command.records:
        ident = profile.identifier(record)
        elder = [sysno for sysno, it in kept.items() if it[0] == ident]
        if not elder and last >= image.GREATEST:
            return FULL, old
        last += not elder
        kept[elder[0] if elder else last] = ident, record
        counts[1 if elder else 0] += 1
    return COUNTS % tuple(counts), {**old, command.name.encode(): (last, kept)}


def deleted(profile, old, command):
    last, kept = old[command.name.encode()]
    kept, count = dict(kept), 0
    for nth, record in enumerate(command.records, 1):
        elder = [sysno for sysno, it in kept.items() if it[0] == profile.identifier(record)]
        if not elder and command.kind == "delete":
            return UNKNOWN % nth, old
        for sysno in elder:
            del kept[sysno]
            count += 1
    return COUNTS % (0, 0, count), {**old, command.name.encode(): (last, kept)}


def answered(profile, old, command):
    """What a command is answered over a register that holds this, and what is held then."""
    name = command.name.encode()
    if command.kind == "update":
        return updated(profile, old, command)
    if command.kind == "create":
        return (EXISTS, old) if name in old else (OK, {**old, name: (0, {})})
    if name not in old:
        return NO_DATABASE % name, old
    if command.kind == "drop":
        return OK, {it: kept for it, kept in old.items() if it != name}
    if command.kind in ("delete", "adelete"):
        return deleted(profile, old, command)
    last, kept = old[name]
    return {
        "find": lambda: found(profile, kept, command.query),
        "scan": lambda: scanned(profile, kept, command.query),
        "stat": lambda: counted(profile, last, kept),
        "dump": lambda: b"".join(record for _, (_, record) in sorted(kept.items())),
    }[command.kind](), old


# ---- any command over any tables


class Tables:
    """A register's tables, and the profile under which they are asked."""

    def __init__(self, profile, rows):
        self.profile, self.rows, self.texts = profile, rows, dict(rows["meta"])
        # The version by which the program goes: that of leaves where it is kept.
        self.version = image.LEAVES if self.texts.get(b"version") == image.LEAVES else image.PACKED

    @functools.cached_property
    def is_image(self):
        return image.is_image(self.profile, self.rows, self.version)

    def goal(self, command):
        """The version that an init or an upgrade has for its goal."""
        return image.LEAVES if command.leaves else self.version

    @functools.cached_property
    def held(self):
        """The last number and the kept records of each database: the identifier and the bytes of each number."""
        records = collections.defaultdict(dict)
        for db, sysno, ident, record in self.rows["records"]:
            records[db][sysno] = ident, record
        return {name: (last, records[db]) for db, name, last in self.rows["databases"]}

    def unready(self, version=None):
        """How the texts refuse a command that goes by this version, or by the program's."""
        version = version or self.version
        return self.refused_by(b"version", version, OTHER_FORMAT) or self.refused_by(b"profile", self.profile.text, OTHER_PROFILE)

    def refused_by(self, name, wanted, otherwise):
        """How the text of this name refuses a command that wants another one, or None."""
        if name not in self.texts:
            return NOT_BEGUN if name == b"version" else otherwise
        if not is_readable(self.texts[name]):
            return DAMAGED
        return None if self.texts[name] == wanted else otherwise

    def checked(self):
        return self.unready() or (OK if self.is_image else DAMAGED)

    def upgraded(self, command):
        goal, kept = self.goal(command), self.texts.get(b"version")
        earlier = [it for it in image.VERSIONS if it < goal]
        if kept not in earlier:
            return self.unready(goal) or OK
        return self.unready(kept) or (OK if image.is_image(self.profile, self.rows, kept) else DAMAGED)

    def reindexed(self):
        """The answers that a reindex may give: two where all records are sound, but a row of the lists can't be read."""
        rule = self.profile.pattern.encode()
        refused = self.refused_by(b"version", self.version, OTHER_FORMAT) or self.refused_by(b"identifier", rule, OTHER_RULE)
        databases = self.rows["databases"]
        kept = [it for it in self.rows["records"] if it[0] in {db for db, _, _ in databases}]
        if refused or not all(sysno < 0 or self.is_sound(sysno, ident, record) for _, sysno, ident, record in kept):
            return {refused or DAMAGED}
        numbers = [last for _, _, last in databases] + [sysno for _, sysno, _, _ in kept]
        are_readable = min(numbers, default=0) >= 0 and all(is_readable(name) for _, name, _ in databases)
        return {OK} if are_readable else {OK, DAMAGED}

    def is_sound(self, sysno, ident, record):
        return 1 <= sysno <= image.GREATEST and self.profile.identifier(record) == ident

    def is_told(self, command, answer):
        """Whether a command that asks or changes may be answered so."""
        if command.kind == "reindex":
            return answer in self.reindexed()
        if command.kind in OF_ALL:
            return answer == {"init": lambda: OK, "check": self.checked, "upgrade": lambda: self.upgraded(command)}[command.kind]()
        if self.unready():
            return answer == self.unready()
        if self.is_image:
            return answer == answered(self.profile, self.held, command)[0]
        return self.is_told_of_any(command, answer)

    def is_told_of_any(self, command, answer):
        """The same of a command over one database, whatever the tables hold."""
        name = command.name.encode()
        is_there, (last, kept) = name in self.held, self.held.get(name, (0, {}))
        if command.records and not all(sysno < 0 or 1 <= sysno <= last for sysno in kept):
            return answer == DAMAGED
        if answer == DAMAGED or answer in refusals(command, is_there, last):
            return True
        is_accepted = command.kind == "update" or is_there == (command.kind != "create")
        if not is_accepted or not re.fullmatch(FORMS[command.kind], answer, re.S):
            return False
        if command.kind == "find":
            return are_kept(kept, answer)
        if command.kind == "dump":
            return answer == b"".join(record for sysno, (_, record) in sorted(kept.items()) if sysno >= 0)
        return command.kind != "stat" or answer.startswith(b"records %d\nlast %d\n" % (len(kept), last))


def are_kept(kept, answer):
    """Whether the hits that are shown are kept records in the order of their numbers, and no more than there are or are shown."""
    first, _, shown = answer.partition(b"\n")
    count = 0
    for sysno, (ident, _) in sorted(kept.items()):
        line = b"%d %s\n" % (sysno, ident)
        if shown.startswith(line):
            shown, count = shown[len(line) :], count + 1
    return not shown and count == min(SHOWN, int(first.split()[1]))


def refusals(command, is_there, last):
    """How a command over one database with this last number may be refused, beside for damage."""
    if command.kind == "update":
        return {FULL} if last + len(command.records) > image.GREATEST else set()
    if command.kind == "create":
        return {EXISTS} if is_there else set()
    if not is_there:
        return {NO_DATABASE % command.name.encode()}
    return {UNKNOWN % nth for nth in range(1, len(command.records) + 1)} if command.kind == "delete" else set()
