"""Trials of tools/definitions.py: what is met from a headline on, in which order, how many lines that is, and where rows go."""
import definitions

SPECS = {
    "zeb_engine": {
        "specs/Headline.antt": "use Rattle.zeb_engine.specs.Works.{Runs}\n\nabbrev pub Headline : Type 0\nHeadline = Runs\n",
        "specs/Works.antt": """\
use Rattle.below.specs.Parts.{Deep, Case, Beside}

abbrev pub Runs : Type 0
Runs = Step Deep answers

abbrev pub Step : Type 0
Step = Case

pub record Turns : Type 0 where
  pub answers : Beside
""",
    },
    "below": {
        "specs/Parts.antt": """\
abbrev pub Deep : Type 0
Deep = Last

pub data Cases : Type 0 where
  Case : Cases

abbrev pub Last : Type 0
Last = Deep

abbrev pub Beside : Type 0
Beside = Last
"""
    },
}
# A function and a law whose clauses cite definitions, and a page of these.
CODE = {
    "a": {
        "src/lib.rt": "mod calls;\nmod laws;\n\npub use calls::call;\npub use laws::it_stays;\n",
        "src/calls.rt": "ghost use Rattle.a.specs.Words.{IsSaid};\n\npub fn call() -> u8\n    ensures { IsSaid result }\n{\n    1\n}",
        "src/laws.rt": "ghost use Rattle.a.specs.Words.{IsSaid};\n\npub fn it_stays()\n    ensures { IsSaid 1 }\n{}",
        "specs/Words.antt": "abbrev pub IsSaid : ℕ → Type 0\nIsSaid n = n ≡ one\n\nabbrev pub one : ℕ\none = 1\n\nabbrev pub two : ℕ\ntwo = 2\n",
    }
}
ROWS = "## a: words\n\n| definition | what it says | file | named by |\n|---|---|---|---|\n"
PAGE = ROWS + "| `IsSaid`, `one` | it is one; 1 | Words | `call`, through `one` |\n| `two` | a \\| b | c/Words | `old` |\n"
# The head of a section, with text and rows that are no more.
SECTIONS = "## a: words\n\nText.\n\n| definition |\n|---|\n| `gone` |\n\n## b: nothing\n\n| definition |\n"
COMMENTED = """\
-- ---- a part

-- first
-- of two lines
abbrev pub one : ℕ
one = 1

-- far above

abbrev pub three : ℕ
three = 3

-- a record
pub record Turn : Type 0 where
  -- no definition
  pub one : ℕ
  pub other : ℕ

module _ (n : ℕ) where
  -- A kind.
  pub data Kind : Type 0 where
    -- a case
    Case : Kind

-- passed on
pub use Rattle.a.specs.Words.{one}
"""
# Sentences of definitions: two that share a row, one with parts, one of another file, and one that is too long.
SHORT, PARTS, OTHER, LONG = (("a", "Words", "one"), "1"), (("a", "Words", "two"), "2; or 3"), (("a", "More", "four"), "4"), (("a", "More", "five"), "5" * definitions.JOINED)
HEAD = definitions.HEADLINE[0]
SIZES = definitions.Specs(SPECS)
MET = SIZES.met_from(HEAD)
NAMING = definitions.Naming(CODE, definitions.Specs(CODE))
IS_SAID, ONE = ("a", "Words", "IsSaid"), ("a", "Words", "one")
LAW_ALONE = CODE["a"] | {"src/calls.rt": ""}
# What is wanted and what is found, each with its name.
TRIALS = [
    ("what is met, in its order", MET, [
        HEAD, *[("zeb_engine", "Works", it) for it in ("Runs", "Step")], *[("below", "Parts", it) for it in ("Deep", "Case", "Last", "Cases")],
    ]),
    ("what is met from another one, behind that", SIZES.met_from(HEAD, ("below", "Parts", "Beside"))[-2:], [("below", "Parts", "Cases"), ("below", "Parts", "Beside")]),
    ("sizes", SIZES.sizes(MET), {("zeb_engine", "Headline"): (1, 2), ("zeb_engine", "Works"): (2, 4), ("below", "Parts"): (3, 6)}),
    ("sizes together", definitions.added([(1, 2), (2, 4)]), (3, 6)),
    ("no sizes", definitions.added([]), (0, 0)),
    ("fields, but for names of definitions", definitions.fields_in(COMMENTED), {"other"}),
    ("sentences of definitions", definitions.sentences_in(COMMENTED), {"one": "first of two lines", "Turn": "a record", "Kind": "A kind"}),
    ("sentences in one row", definitions.joined([SHORT, SHORT, PARTS, SHORT, OTHER, LONG]), [
        ([SHORT[0], SHORT[0]], "1; 1"), ([PARTS[0]], "2; or 3"), ([SHORT[0]], "1"), ([OTHER[0]], "4"), ([LONG[0]], LONG[1]),
    ]),
    ("rows", [*definitions.rows_of([(IS_SAID, "it is one"), (ONE, "1 | 1")], NAMING)], [("a", "Words", "`IsSaid`, `one`", "it is one; 1 \\| 1", "`call`, `it_stays`")]),
    ("sections", [*definitions.sections_of(SECTIONS, {"a": [("`new`", "is new", "Words", "`call`")]})], [
        "## a: words\n\nText.\n\n| definition | what it says | file | named by |\n|---|---|---|---|\n| `new` | is new | Words | `call` |\n",
        "## b: nothing\n\n| definition | what it says | file | named by |\n|---|---|---|---|\n",
    ]),
    ("rows of the page", [*definitions.rows(PAGE, {"a", "c"})], [("a", ["IsSaid", "one"], ["Words"], ["call", "one"]), ("c", ["two"], ["Words"], ["old"])]),
    ("rows of no crate", [*definitions.rows(PAGE, {"b"})], []),
    ("what a definition is named by", [NAMING.of([it]) for it in (IS_SAID, ONE)], ["`call`, `it_stays`", "`call`, through `IsSaid`"]),
    ("what only a law cites", definitions.Naming({"a": LAW_ALONE}, definitions.Specs({"a": LAW_ALONE})).of([IS_SAID]), "`it_stays`"),
    ("what clauses reach", [it for _, _, it in NAMING.reached], ["IsSaid", "one"]),
    ("more names than are told", definitions.told(["a", "b", "a", "c", "d", "e"]), "`a`, `b`, `c` and 2 more"),
]
NUMBER = len(TRIALS)


def failed():
    """The trials that come out wrong."""
    yield from [f"of {name}: {found}, and not {wanted}" for name, found, wanted in TRIALS if found != wanted or [*found] != [*wanted]]
