"""Trials of tools/public_clauses.py: clauses that cite a definition, each in another way, and words that are no such clause."""
import public_clauses

LIB = "mod inner;\npub mod open;\n\npub use crate::deep::inner::{\n    Shown, call,\n};\npub use inner::Told as Said;\n"
IMPORTS = """\
ghost use Rattle.a.specs.Words.{IsSaid, yes, IsLong as IsWide};
ghost use Rattle.a.specs.Words as words;
ghost use Rattle.a.specs.Passed.{passed};
ghost use Rattle.a.specs.PrivateSteps.{step};
ghost use Rattle.a.specs.PrivateLeads.{lead};
ghost use Rattle.a.specs.declared.inner.Shown.{Shown};

"""
SPECS = {
    "specs/Words.antt": """\
abbrev pub IsSaid : ℕ → Type 0
IsSaid n = n ≡ 1

pub data Answer : Type 0 where
  yes no : Answer

module _ (n : ℕ) where
  pub record IsLong : Type 0 where
    pub long : n ≡ n

  abbrev pub IsShort : ℕ → Type 0
  IsShort m = m ≡ n
""",
    "specs/Passed.antt": "pub use Rattle.b.specs.Parts.{passed}\n",
    "specs/PrivateLeads.antt": "use Rattle.a.specs.Words.{IsSaid}\n\nabbrev pub lead : ℕ → Type 0\nlead = IsSaid\n",
    "specs/PrivateSteps.antt": "abbrev pub step : ℕ\nstep = 1\n",
}
BELOW = {"specs/Parts.antt": "abbrev pub passed : ℕ\npassed = 1\n"}

# How a definition is cited, by which code, and which definition.
CITED = [
    ("by a promise", "pub fn call() -> u8\n    ensures { IsSaid result }\n{\n    1\n}", "IsSaid"),
    ("by one of two", "pub fn call() -> u8\n    ensures one { result ≡ 1 }\n    ensures two { IsSaid result }\n{\n    1\n}", "IsSaid"),
    ("by a premise", "pub fn call(n: u8)\n    requires { IsSaid n }\n{\n}", "IsSaid"),
    ("by an assertion", "pub fn call(n: u8)\n    requires* room { ⌜ IsSaid n ⌝ }\n{\n}", "IsSaid"),
    ("behind an inner bracket", "pub fn call() -> u8\n    ensures { record { 0 = 1 } ≡ result → IsSaid 1 }\n{\n    1\n}", "IsSaid"),
    ("by its case", "pub fn call() -> u8\n    ensures { result ≡ yes }\n{\n    1\n}", "Answer"),
    ("under another name", "pub fn call() -> u8\n    ensures { IsWide result }\n{\n    1\n}", "IsLong"),
    ("by its file", "pub fn call() -> u8\n    ensures { words.IsShort 1 result }\n{\n    1\n}", "IsShort"),
    ("through another file", "pub fn call() -> u8\n    ensures { result ≡ passed }\n{\n    1\n}", "passed"),
    ("of a method", "impl Shown {\n    pub fn tell(&self) -> u8\n        ensures { IsSaid result }\n    {\n        1\n    }\n}", "IsSaid"),
    ("of a type with parameters", "impl<'a, T: Into<u8>> Shown<'a, T> {\n    pub fn tell() -> u8\n        ensures { IsSaid result }\n    {\n        1\n    }\n}", "IsSaid"),
    ("of a trait's method", "impl From<u8> for &'a Shown {\n    fn from(n: u8) -> Shown\n        ensures { IsSaid n }\n    {\n        Shown(n)\n    }\n}", "IsSaid"),
    ("of a trait", "pub trait Told {\n    fn tell(&self) -> u8\n        ensures { IsSaid result };\n}", "IsSaid"),
    ("by a ghost member", "impl Model for Shown {\n    fn own() -> u8 {\n        1\n    }\n\n    ghost view = { λ it. IsSaid it.0 };\n}", "IsSaid"),
    ("by a ghost member beside methods", "impl Shown {\n    fn own() -> u8 {\n        1\n    }\n\n    ghost kept = { IsSaid 1 };\n}", "IsSaid"),
    ("by what a field keeps", "pub struct Shown {\n    n: u8,\n    ghost kept: { IsSaid n },\n}", "IsSaid"),
    ("though its file is private", "pub fn call() -> u8\n    ensures { result ≡ step }\n{\n    1\n}", "step"),
]

# What cites none, and such code.
PLAIN = [
    ("a private function", "fn call() -> u8\n    ensures { IsSaid result }\n{\n    1\n}"),
    ("a function of the crate", "pub(crate) fn call() -> u8\n    ensures { IsSaid result }\n{\n    1\n}"),
    ("a function that isn't exported", "pub fn other() -> u8\n    ensures { IsSaid result }\n{\n    1\n}"),
    ("a private method", "impl Shown {\n    pub fn tell() {\n    }\n\n    fn own() -> u8\n        ensures { IsSaid result }\n    {\n        1\n    }\n}"),
    ("a function behind a type", "impl Shown {\n    pub fn tell() {\n    }\n}\n\nfn own() -> u8\n    ensures { IsSaid result }\n{\n    1\n}"),
    ("a method of a private type", "impl Hidden {\n    pub fn tell() -> u8\n        ensures { IsSaid result }\n    {\n        1\n    }\n}"),
    ("a body", "pub fn call() -> u8\n    ensures { result ≡ 1 }\n{\n    IsSaid(1)\n}"),
    ("a field of that name", "pub fn call() -> u8\n    ensures { result.kept.yes ≡ 1 }\n{\n    1\n}"),
    ("a type of the code", "pub fn call() -> u8\n    ensures { result ≡ Shown 1 }\n{\n    1\n}"),
]
# Of all that is public in a public module.
OPEN = "pub fn any() -> u8\n    ensures { IsSaid result }\n{\n    1\n}"
# What no clause reaches beside this one, by the files of these definitions.
LEFT = [
    ("by a promise", CITED[0][1], ["a/Words: Answer, no, yes", "a/Words: IsLong, IsShort, long", "b/Parts: passed"]),
    ("through another file", CITED[8][1], ["a/Words: IsSaid", "a/Words: Answer, no, yes", "a/Words: IsLong, IsShort, long"]),
    ("through a definition", "pub fn call() -> u8\n    ensures { result ≡ lead }\n{\n    1\n}", ["a/Words: Answer, no, yes", "a/Words: IsLong, IsShort, long", "b/Parts: passed"]),
]
NUMBER = len(CITED) + len(PLAIN) + len(LEFT) + 4


def code_with(text, file="inner"):
    """The texts of two crates, where this one stands in a file of the first one's src/."""
    return {"a": SPECS | {"src/lib.rt": LIB, f"src/{file}.rt": IMPORTS + text}, "b": BELOW}


def cited(*given):
    """The definitions that are cited, in the order of their names."""
    return sorted({it[2] for it, _ in public_clauses.cited(code_with(*given))})


def failed():
    """The trials that come out wrong."""
    yield from [f"not found: a definition that is cited {how}" for how, text, name in CITED if cited(text) != [name]]
    yield from [f"found where none is cited: {what}" for what, text in PLAIN if cited(text)]
    yield from ["not found: a definition that a public module cites"] * (cited(OPEN, "open") != ["IsSaid"])
    yield from [f"not as told: what no clause reaches beside one that cites {how}" for how, text, left in LEFT if public_clauses.unreached(code_with(text)) != left]
    found = [public_clauses.wrong(code_with(text), rows) for text, rows in [(CITED[0][1], ()), (CITED[0][1], {("a", "Words", "IsSaid")}), (CITED[-1][1], ())]]
    counts = [(len(without), len(private)) for without, private in found]
    yield from ["a row that lacks, one that is there, and a private file are told as " + str(counts)] * (counts != [(1, 0), (0, 0), (0, 1)])
