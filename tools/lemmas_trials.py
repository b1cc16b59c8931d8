"""Trials of tools/lemmas.py: texts that cite a lemma, each in another way, and texts that don't."""
import pathlib

import lemmas

LEMMA = "pub told : ℕ → ℕ\ntold zero = zero\ntold (suc n) = n\n"
WITHIN = "module _ (n : ℕ) where\n  pub told : n ≡ n\n  told = refl\n"
ANSWERS, SOURCE, WORDS = "proofs/call/Answers.antt", "src/lib.rt", "proofs/Words.antt"

# How a lemma is cited, and by which text of which file.
CITED = [
    ("by an answer", ANSWERS, "returns g c = told 1\n"),
    ("at the beginning of a line", ANSWERS, "returns g c =\n    told 1\n"),
    ("under another name", ANSWERS, "use Rattle.a.proofs.Words.{told as said}\n\nreturns g c = said 1\n"),
    ("as a field", ANSWERS, "returns g c = words.told\n"),
    ("by a function's tactic", SOURCE, "#[tactic(auto, using(crate::proofs::Words::told))]\nfn call() {}\n"),
    ("by another lemma of its file", WORDS, LEMMA + "\npub other : ℕ\nother = told 2\n"),
    ("by another lemma of its file, at the beginning of a line", WORDS, LEMMA + "\npub other : ℕ\nother =\n    told 2\n"),
]

# What cites none, and such a text.
PLAIN = [
    ("another word", ANSWERS, "returns g c = untold 1\n"),
    ("an import", ANSWERS, "use Rattle.a.proofs.Words.{told}\n"),
    ("what passes names on", "proofs/Cited.antt", "pub use Rattle.a.proofs.Words.{told}\n"),
    ("a comment", ANSWERS, "-- by told\nreturns g c = 1\n"),
    ("a comment of the code", SOURCE, "// told\nfn call() {}\n"),
    ("the lemma in a module", WORDS, WITHIN),
]
NUMBER = len(CITED) + len(PLAIN)


def told(file, text):
    """Whether the lemma is told as one that nothing cites where this text stands in a file."""
    texts = {WORDS: LEMMA, file: text}
    return "told" in [name for _, name in lemmas.uncited({pathlib.PurePath(path): it for path, it in texts.items()})]


def failed():
    """The trials that come out wrong."""
    yield from [f"told as a lemma that nothing cites: one that is cited {how}" for how, *given in CITED if told(*given)]
    yield from [f"not told as a lemma that nothing cites: one beside {what}" for what, *given in PLAIN if not told(*given)]
