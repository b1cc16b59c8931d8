#!/usr/bin/env python3
"""Names of a `ghost use` that no clause, invariant or ghost member of the file has.

usage: tools/ghost_uses.py FILE..      takes them out of these files
"""
import pathlib
import re
import sys

IMPORT = re.compile(r"\bghost use ([^;]*);")
# What a contract is written in: clauses, ghost fields and members of traits.
OPENING = re.compile(r"\b(?:requires|ensures)\b\*?[^{;=]*\{|\bghost (?!use\b)[\w ]+[:=][^{;]*\{")
COMMENT = re.compile(r"//[^\n]*")


def braced(text, start):
    """The text from behind an opening brace to the one that closes it."""
    depth = 1
    for at in range(start, len(text)):
        depth += {"{": 1, "}": -1}.get(text[at], 0)
        if depth == 0:
            return text[start:at]
    return text[start:]


def items_of(path):
    """What an import names."""
    if "{" not in path:
        return [re.split(r"\.(?=[^.]*$)", path)[-1]]
    return [it.strip() for it in path[path.index("{") + 1 : path.rindex("}")].split(",") if it.strip()]


def called(item):
    """An imported name as the clauses of the file have it."""
    return re.split(r"\bas\b", item)[-1].strip()


def is_used(name, said):
    if "◌" in name:
        return all(part in said for part in name.split("◌") if part)
    return re.search(rf"(?<![\w'-]){re.escape(name)}(?![\w'-])", said) is not None


def unused(text):
    """The names that a file's text imports for its clauses and does not use there."""
    text = COMMENT.sub("", text)
    said = "\n".join(braced(text, it.end()) for it in OPENING.finditer(text))
    return [name for it in IMPORT.finditer(text) for name in map(called, items_of(it[1])) if not is_used(name, said)]


def without(text):
    """The text without these names."""
    names = unused(text)

    def kept(line):
        before, path = line[1], line[2]
        items = [it for it in items_of(path) if called(it) not in names]
        if len(items) == len(items_of(path)):
            return line[0]
        return f"{before}ghost use {path[:path.index('{')]}{{{', '.join(items)}}};\n" if items else ""

    return re.sub(r"([ ]*)\bghost use ([^;]*);\n", kept, text) if names else text


if __name__ == "__main__":
    for path in map(pathlib.Path, sys.argv[1:]):
        path.write_text(without(path.read_text(encoding="utf-8")), encoding="utf-8")
