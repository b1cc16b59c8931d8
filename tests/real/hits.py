#!/usr/bin/env python3
"""Queries over the records of a MARCXML file and their hits, counted by Python's own Unicode tables and nothing of zebraidx.

usage: tests/real/hits.py FILE        a line for each query: hits, a tab, the query

A record is told by its 001; of several with one 001 the last counts. Words are the runs of letters, marks and numbers of each
subfield's folded text. The words asked for are spread over all words of the file, from the rarest to the most frequent.
"""
import sys
import unicodedata
import xml.etree.ElementTree as tree

NAME = "{http://www.loc.gov/MARC21/slim}"
ASKED = 20


def folded(text):
    """NFD, default case folding, NFD, without the combining marks U+0300 to U+036F."""
    text = unicodedata.normalize("NFD", unicodedata.normalize("NFD", text).casefold())
    return "".join(it for it in text if not "\u0300" <= it <= "\u036f")


def words(text):
    return "".join(it if unicodedata.category(it)[0] in "LMN" else " " for it in folded(text)).split()


def main():
    records = {}
    for record in tree.parse(sys.argv[1]).iter(NAME + "record"):
        ident = next(it.text for it in record.iter(NAME + "controlfield") if it.get("tag") == "001")
        fields = record.iter(NAME + "datafield")
        records[ident.strip(" ")] = [words(it.text or "") for field in fields for it in field.iter(NAME + "subfield")]
    of_words = {}
    for ident, subfields in records.items():
        for word in {word for subfield in subfields for word in subfield}:
            of_words.setdefault(word, set()).add(ident)
    ranked = sorted(of_words, key=lambda word: (len(of_words[word]), word))
    step = max(1, (len(ranked) - 1) // (ASKED - 1))
    asked = ranked[::-step][:ASKED]
    for word, other in zip(asked, asked[1:] + asked[:1]):
        print(len(of_words[word]), f'"{word}"', sep="\t")
        print(len(of_words[word] & of_words[other]), f'@and "{word}" "{other}"', sep="\t")
        begun = set().union(*(of_words[it] for it in of_words if it.startswith(word[:2])))
        print(len(begun), f'@attr 5=1 "{word[:2]}"', sep="\t")
        print(len(of_words[other] - of_words[word]), f'@not "{other}" "{word}"', sep="\t")


if __name__ == "__main__":
    main()
