"""Failures of the memory, of the store or of a read that code makes by hand, which tools/quick refuses.

Contracts allow such a failure wherever a call takes memory or reaches the store, so a body that answers one for no reason meets any of
them. It has to come from a call that failed: by `?`, by a conversion of what only such a call gives, or by an arm that passes it on.
The program's status of a failure is one too, by its name or as the number 3, and a growth that asks for more than any memory has: of a growth
by a count that isn't the length of something this can't tell, so it is named here too. A function that is named here is known by its text,
so that neither what it asks before it fails nor how often it does may change unseen. What isn't seen: a call that is made so that it fails,
as a statement without a sense; and a status that is reckoned, as a sum, or named anew.
"""
import collections
import hashlib
import re

# What a failure is called, and of what it is one: variants of the crates' and the kit's faults, and the values without a path.
VARIANTS = {"Memory": "memory", "OutOfMemory": "memory", "Store": "store"}
VALUES = {"AllocError": "memory", "AllocFailed": "memory", "OpenFailed": "store", "ReadFailed": "read", "Status::Failed": "status"}
# What only a call that failed gives, by what its conversion may make of it.
OF_CALLS = {"AllocError": "memory", "AllocFailed<T>": "memory", "Error": "store", "sqlite::Error": "store"}
# What is called so and is no failure: a line of a profile.
NO_FAILURE = "Directive::Store"
# Where one is made by hand, by file: in which functions and constants, each once for each time, and why. Behind each name stands what its
# text without clauses and spaces adds up to. Where that differs, look again at what it fails for, and write the new sum.
MADE_BY_HAND = {
    "crates/zeb_marc/src/sources.rt": (["passed_on d701f525", "read a600243e"], "a read that failed for a reader, and each later one, as clauses say"),
    "crates/zeb_marc/src/stream.rt": (["new 509c503c"], "no failure: as many bytes as the longest record has"),
    "crates/zeb_profile/src/faults.rt": (["MEMORY 1437066d"], "the one value that all conversions give"),
    "crates/zeb_query/src/diagnostics.rt": (["about 3fe5f62c"], "an addinfo that there is no memory for"),
    "crates/zeb_register/src/values.rt": (["stored f5d121b9"], "a number that no column stores"),
    "crates/zeb_register/src/record_parts.rt": (["parted_at d47f688b"], "no failure: room for as many postings as there are, and four more"),
    "crates/zeb_register/src/checked_changes.rt": (["check_numbers b9ddc21a", "check_place 773bf948"], "a number or a place that no row has"),
    "crates/zeb_leaf/src/merging.rt": (["merge 813182fa"], "no failure: room for as many entries as there are, and one for each change"),
    "crates/zeb_leaf/src/writing.rt": (["new ecb0e233"], "no failure: room for as many bytes as a full leaf has"),
    "crates/zeb_leaves/src/near_terms.rt": (["terms_beside e4ea2284"], "so many leaves that no memory holds them"),
    "crates/zeb_leaf/src/counting.rt": (["records_with a8dcde23"], "more records than a number counts"),
    "crates/zeb_leaves/src/agreeing_tables.rt": (["others_are_empty 127595d1"], "more ids than there are numbers"),
    "crates/zeb_leaves/src/agreeing_walk.rt": (["leaves_walked 4dd2d323"], "more rows than there are numbers"),
    "crates/zeb_change/src/key_notes.rt": (
        ["note 96b8ec5b", "read b39c3b08", "read b39c3b08"],
        "more changes of a key than a number counts; and no failure: room for as many as there are",
    ),
    "crates/zeb_image/src/rebuilding.rt": (["database_post 34e78b1f"], "more turns than there are numbers"),
    "crates/zeb_engine/src/session.rt": (["run_all 8bd74e81"], "no room for the answers"),
    "crates/zeb_engine/src/tables.rt": (["check_tables 9fb18e69"], "a store with other tables, and no other store, as a clause says"),
    "crates/zeb_words/src/words.rt": (
        ["help b4ddabc2", "help b4ddabc2", "usage_of 6076825b", "usage_of 6076825b", "refused 80da8d72"],
        "the want of memory that the parser names, and of its texts",
    ),
    "crates/zeb_paths/src/disk.rt": (
        ["store 4482489c", "read_in d2857c0c", "read 3d041ec4", "closed_by f541a0bd"],
        "whatever fails as a store is opened, a read of a file that isn't opened, or behind one that failed, and the want of memory of a close, as a clause says",
    ),
    "crates/zeb_paths/src/opening.rt": (
        ["CANNOT_OPEN dedddd4e", "NO_MEMORY 5c3cca9c", "NO_MEMORY 5c3cca9c", "open_files 298fb469", "error_of 6621bb3c", "error_of 6621bb3c", "error_of 6621bb3c", "options_for d3264fc1"],
        "files that aren't opened, as a clause says; a path that isn't one of a file for SQLite; and no random number",
    ),
    "crates/zeb_paths/src/shelf.rt": (["read 47e3c23b", "store faf67884"], "a file that fails when it is read, and a shelf without a store under the path, or one that fails"),
    "crates/zeb_program/src/analyses.rt": (["number_behind 60ec3b10"], "more files than a number counts"),
    "crates/zeb_program/src/command_line.rt": (["refuse_words c50b24e8"], "the status of words that memory ran out for"),
    "crates/zeb_program/src/faults.rt": (["tell 440384c5"], "the status of a path that can't be read, as a clause says"),
    "crates/zeb_program/src/failures.rt": (
        ["store_cause fe7555f0", "tell_closed bb50253d", "tell_left cff5998f"],
        "no failure, a cause; and the status of a register that wasn't closed whole, as clauses say",
    ),
    "crates/zeb_program/src/memory.rt": (["open_in_memory ce0a36a4", "open_in_memory ce0a36a4"], "whatever fails as a store is opened"),
    "crates/zeb_program/src/opening.rt": (["unopened 635eec66", "kept_layout 2342966f"], "an open that failed, as a clause says; and what a look is refused for by no call"),
    "crates/zeb_program/src/program.rt": (["tell_starved 63d4a1ef", "finish c2331064", "run_script 70d7831f"], "the status of want of memory, of a failed write, of an input that is no text"),
    "crates/zeb_program/src/shell.rt": (
        ["tell_input 29146d99", "run_shell_lines 9bf77771", "run_shell_lines 9bf77771"],
        "the status of an input that can't be read on and of a failed write, as clauses say; and more lines than there are numbers",
    ),
    "crates/zeb_program/src/statuses.rt": (["code 347a2f2f", "of_refusal 38553881", "of_profile 90a15a5f"], "the numbers of the statuses, and the statuses of a refusal and of a profile's fault"),
    "crates/zebraidx/src/main.rt": (["main b220bb15"], "an outside that failed"),
    "crates/small_catalogue/src/lib.rt": (["open cb1c9c16"], "an open that failed"),
}

GHOST = re.compile(r"\bghost\s+use\b[^;]*;|\b(?:requires|ensures)\b\*?\s*(?:\w+\s*)?(?=\{)|\bghost\s+\w+\s*[:=]\s*(?=\{)")
USE = re.compile(r"\buse\b[^;]*;")
# A failure under another name, or what an enum has under none.
HIDING_USE = re.compile(rf"\b[A-Z]\w*\s*::|\b(?:{'|'.join([*VARIANTS, *VALUES])}|Error|Status)\s+as\b|\bas\s+(?:Directive|{'|'.join(VALUES)})\b")
# What would make one unseen: a macro, an attribute that makes it of something else, and code that only calls itself a test.
HIDING = re.compile(r"\bmacro_rules\b|#\[from\]|#\[default\]\s*\w+|(?:#\[cfg\(test\)\]\s*)?\bmod\s+tests\b")
CONVERSION = re.compile(r"^impl(?:<[^{}]*?>)? From<([^{}]*)> for .*?^\}", re.M | re.S)
CONSTANT = re.compile(r"\b(?:const|static)\s+(?!fn\b)(?:mut\s+)?(\w+)\s*:")
FUNCTION = re.compile(r"\bfn\s+(\w+)")
# A pattern is followed by another one, by its arm, by its guard or by what is matched; a type by the end of a list of types, or of parameters
# and the type that is answered.
PATTERN_ENDS = re.compile(r"\s*(?:\([\w\s,:.]*\)|\{[\w\s,:.]*\})?[\s)]*(?:\||=|if\b)")
TYPE_ENDS = re.compile(r"\s*,?\s*(?:>|\)\s*->)")
# An arm that has only one failure, up to the failure that it gives.
PASSES = re.compile(r"[{,}]\s*(?:[\w:]+\(\s*)*(?:(?:\w+::)+|(?=AllocError))(\w+)[\s)]*=>\s*\{?\s*(?:return\s+)?(?:[\w:]+\(\s*)*&?$")
# A growth, and a list that is written with its length; and a count that is the length of something, or a small number.
GROWTH = re.compile(r"\b(?:try_)?(?:with_capacity|reserve|resize)(?:_\w+)?(?=\()|\bvec!(?=\[in\b[^;{}\]]*;[^;{}\]]*;)")
SMALL = re.compile(r"(?:\w+\.)*\w+\.len\(\)|\d{1,7}")
# A type of so many elements that one of it is such a growth.
GREAT_ARRAY = re.compile(r";\s*(?:\d[\d_]{7,}|0x[\da-fA-F_]+|[^;\[\]{}()]*(?:<<|MAX)[^;\[\]{}()]*)\]")
# The status of a failure, as a number: of the program's crates.
NUMERAL = re.compile(r"(?<![\w.])3(?![\w.])")
STATUS_CRATES = ("crates/zeb_program/", "crates/zebraidx/")


def closed(text, at, opening="{", closing="}"):
    """Where the bracket that opens there is closed, just behind."""
    depth = 0
    for found in re.finditer(re.escape(opening) + "|" + re.escape(closing), text[at:]):
        depth += 1 if found[0] == opening else -1
        if depth == 0:
            return at + found.end()
    return len(text)


def run_of(text):
    """The text without what only proofs see."""
    kept, at = [], 0
    for ghost in GHOST.finditer(text):
        if ghost.start() >= at:
            kept.append(text[at : ghost.start()])
            at = ghost.end() if ghost[0].endswith(";") else closed(text, ghost.end())
    return "".join([*kept, text[at:]])


def without_patterns(text):
    """The text without the patterns of `matches!`."""
    for found in reversed([*re.finditer(r"\bmatches!\s*\(", text)]):
        end = closed(text, found.end() - 1, "(", ")")
        text = text[: found.end()] + text[found.end() : end].partition(",")[0] + ")" + text[end:]
    return text


def constants_of(text):
    """The constants of a text, each with where it begins and ends."""
    for found in CONSTANT.finditer(text):
        depth = 0
        for mark in re.finditer(r"[\[({;\])}]", text[found.end() :]):
            depth += (mark[0] in "[({") - (mark[0] in "])}")
            if depth == 0 and mark[0] == ";":
                yield found[1], found.start(), found.end() + mark.start()
                break


def sum_of(text):
    """What a text without its spaces adds up to, in eight letters and digits."""
    return hashlib.sha256("".join(text.split()).encode()).hexdigest()[:8]


class Reader:
    """Finds the failures that are made by hand, where these constants are failures too."""

    def __init__(self, constants=None):
        self.kinds = VARIANTS | VALUES | (constants or {})
        values = "|".join(it for it in self.kinds if it not in VARIANTS)
        self.failure = re.compile(rf"::\s*(?:r#)?({'|'.join(VARIANTS)})\b|\b({values})\b|\bError\s*::\s*([A-Z]\w*)")

    def constants_in(self, text):
        """The constants that have failures in them, and of what they are one."""
        return {name: self.kind_of(it) for name, begin, end in constants_of(text) for it in self.failure.finditer(text, begin, end)}

    def kind_of(self, found):
        """Of what it is a failure; sqlite's errors become failures of the store."""
        return self.kinds.get(found[found.lastindex], "store") if found.lastindex else "memory"

    def made_in(self, text, is_program=False):
        """Each failure that the code makes: in which function or constant, with what its text adds up to, and the words."""
        hidden = [it[0] for it in USE.finditer(text) if HIDING_USE.search(it[0])]
        hidden += [it[0] for it in HIDING.finditer(text) if not it[0].startswith("#[cfg")]
        yield from [("another name", " ".join(it.split())) for it in hidden]
        text = without_patterns(USE.sub("", text))
        constants = list(constants_of(text))
        for start, end in sorted([*self.named_in(text), *growths_in(text), *(numerals_in(text) if is_program else [])]):
            yield place_of(text, start, constants), " ".join(text[start:end].split())

    def named_in(self, text):
        """Where a failure is made by its name."""
        conversions = [(it.start(), it.end(), OF_CALLS.get(it[1].strip())) for it in CONVERSION.finditer(text)]
        for found in self.failure.finditer(text):
            kind = self.kind_of(found)
            start = found.start() - len(re.search(r"(?:\w+\s*::\s*)*\w*$", text[max(found.start() - 200, 0) : found.start()])[0])
            is_converted = any(begin <= start < end and of == kind for begin, end, of in conversions)
            if not is_converted and not self.is_no_value(text, start, found.end(), kind):
                yield start, found.end()

    def is_no_value(self, text, start, end, kind):
        """Whether the words are a pattern, a type, a side of a comparison, or what an arm passes on; or declare their name."""
        name, before, behind = "".join(text[start:end].split()), text[max(start - 300, 0) : start], text[end : end + 300]
        passed = PASSES.search(before)
        return bool(
            name == NO_FAILURE
            or PATTERN_ENDS.match(behind)
            or TYPE_ENDS.match(behind)
            or name == "AllocFailed" and behind.lstrip().startswith("<")
            or name.endswith("::Memory") and behind.lstrip().startswith("::")
            or before.rstrip().endswith(("<", "==", "!=", ": &mut"))
            or re.search(r"\b(?:const|static|struct)\s+$", before)
            or (name in VALUES or name == "Self::Store") and before.rstrip().endswith(":") and behind.lstrip().startswith(")")
            or passed and self.kinds.get(passed[1]) == kind
        )


def growths_in(text):
    """Where memory is asked for by a count that isn't the length of something."""
    for found in GROWTH.finditer(text):
        end = closed(text, found.end(), "(", ")") if found[0] != "vec!" else closed(text, found.end(), "[", "]")
        count = text[found.end() + 1 : end - 1].strip().rstrip(",")
        counted = count.rpartition(";")[2] if found[0] == "vec!" else count.rpartition(",")[2]
        if not SMALL.fullmatch(counted.strip()):
            yield found.start(), end
    yield from [(it.start(), it.end()) for it in GREAT_ARRAY.finditer(text)]


def numerals_in(text):
    """Where the program's status of a failure stands as a number."""
    constants = [(begin, end) for _, begin, end in constants_of(text)]
    return [(it.start(), it.end()) for it in NUMERAL.finditer(text) if not any(begin <= it.start() < end for begin, end in constants)]


def place_of(text, start, constants):
    """The innermost constant or function around this place, with what its text adds up to."""
    for name, begin, end in constants:
        if begin <= start < end:
            return f"{name} {sum_of(text[begin:end])}"
    for found in reversed([*FUNCTION.finditer(text, 0, start)]):
        end = closed(text, text.index("{", found.start()))
        if start < end:
            return f"{found[1]} {sum_of(text[found.start():end])}"
    return "no function"


def made_by_hand(texts):
    """What is made by hand and not named above, or the other way round; of files' texts without comments and strings, by their names."""
    codes = {name: run_of(text) for name, text in texts.items()}
    plain, constants = Reader(), {}
    for code in codes.values():
        constants |= plain.constants_in(code)
    reader = Reader(constants)
    for name, code in codes.items():
        made = list(reader.made_in(code, name.startswith(STATUS_CRATES)))
        allowed = collections.Counter(MADE_BY_HAND.get(name, ([], ""))[0])
        have = collections.Counter(place for place, _ in made)
        yield from [f"{name}: {words} in {place}" for place, words in made if have[place] > allowed[place]]
        yield from [f"{name}: {place} makes none any more" for place in allowed if have[place] < allowed[place]]
    yield from [f"{name} isn't there any more" for name in MADE_BY_HAND if name not in codes]
