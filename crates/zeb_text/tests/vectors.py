#!/usr/bin/env python3
"""Prints the rows of `READINGS` in crates/vectors/src/texts/samples.rt: texts, and by Python's own tables what each folds to, its words and
its numbers. In a row an LF is `%0a`.

A text is folded (NFD, full case folding, NFD, the marks U+0300 to U+036F dropped), its words are the longest runs of
letters, marks and numbers in the folded text, and its numbers are the longest runs of ASCII digits in the text itself, but
those of more than 18 digits. Only characters that were assigned before Unicode 13 are used, so any later table agrees.
"""
import re
import unicodedata

TEXTS = [
    # accents, composed and decomposed, one and several
    "CAF\u00c9", "cafe\u0301", "na\u00efve r\u00e9sum\u00e9", "\u212bngstr\u00f6m", "a\u0301\u0300b", "\u1edb", "o\u031b\u0301",
    # marks alone, marks that stay, marks out of their order, marks parted by U+034F
    "\u0301", "\u0301\u0300 \u0301", "e\u20dd", "\u05d0\u05b7\u05d1", "\u0e44\u0e17\u0e22", "a\u0315\u0300\u05ae\u05bfb",
    "a\u0591\u034f\u05b0", "a\u0591\u05b0",
    # case folding that lengthens, and letters of more than two cases
    "Stra\u00dfe", "STRASSE", "\u1e9e", "\ufb03x", "\u0531\u0587", "\u0130stanbul", "\u0130", "\u0131", "\u01c5 \u01c4 \u01c6",
    "\u039f\u0394\u039f\u03a3 \u03bf\u03b4\u03bf\u03c2", "\u1fb3 \u03b1\u0345", "\u13a0 \uab70",
    # scripts without case
    "\ud55c\uae00", "\u1112\u1161\u11ab\u1100\u1173\u11af", "\u4e2d\u6587", "\uf900",
    # digits and numbers of other scripts, and runs of ASCII digits
    "\u0661\u0662\u0663 \u00bd \u2167", "\u0967\u0968 12\u096912", "1851 c1851", "c1851, 007, 1234567890123456789",
    "123456789012345678 1234567890123456789 999999999999999999", "000000000000000000 0000000000000000000", "1\u03012",
    # emoji, separators, nothing
    "x\U0001f600y", "1\U0001f4692", "\U0001f469\u200d\U0001f680\ufe0f", "", " ,;:!? ", "\u00a0\u2003\u3000", "_x_",
    "or, the whale /", "don't stop-start", "tab\tnew\nline", "A#b",
]


def fold(text):
    key = unicodedata.normalize("NFD", unicodedata.normalize("NFD", text).casefold())
    return "".join(c for c in key if not 0x300 <= ord(c) <= 0x36F)


def words(text):
    found, run = [], ""
    for c in fold(text):
        if unicodedata.category(c)[0] in "LMN":
            run += c
        else:
            found.append(run)
            run = ""
    return [word for word in found + [run] if word]


def numbers(text):
    return [int(run) for run in re.findall("[0-9]+", text) if len(run) <= 18]


def rust(text):
    escaped = (c if 32 <= ord(c) < 127 and c not in '"\\' else "\\u{%x}" % ord(c) for c in text.replace("\n", "%0a"))
    return "".join(escaped)


if __name__ == "__main__":
    for text in TEXTS:
        columns = [fold(text), ",".join(words(text)), ",".join("%d" % n for n in numbers(text))]
        print("read %s -> %s" % (rust(text), rust("|".join(columns))))
