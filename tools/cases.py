#!/usr/bin/env python3
"""Where the cases of an older commit's tests stand today: in which row or test, or nowhere.

usage: tools/cases.py [--all] COMMIT      --all: each case with its place, and not only those that aren't found whole

A case is an input with its answer: a row of a .rows file, a line with an arrow in a text of a test in Rattle, and a tuple, a call or an assertion
there with two texts or numbers. Of a text of several lines, which is a script, each line is one. What is compared are words, runs of letters and
digits: first all of a case, as they follow one another; then all but one, in any order; then those of the input alone, as the answer may be told in
another form. So a case is found whatever calls it, and what stands today may say more. Names of constants stand for their texts, but those of whole
records and profiles, which rows write in another way. Run it once tests have been put into another form, and go through what isn't found whole.
"""
import collections
import re
import subprocess
import sys
import urllib.parse

sys.dont_write_bytecode = True
from repository import ROOT

TOKEN = re.compile(
    r"""//[^\n]*|(?P<text>b?r(?P<marks>\#*)".*?"(?P=marks)|b?"(?:\\.|[^"\\])*")|b?'(?:\\(?:u\{\w+\}|x\w\w|.)|[^'\\])'|\w+!?|\s+|.""", re.S
)
ESCAPE = re.compile(r"\\(?:u\{(\w+)\}|x(\w\w)|(\n\s*|.))", re.S)
PLAIN = {"n": "\n", "t": "\t", "r": "\r", "0": "\0"}
CONSTANT = re.compile(r"""\b(?:const|static) (\w+)[^=;]*=\s*(b?r?\#*"(?:\\.|[^"\\])*"\#*);""")
ARROW = re.compile(r" [-=]> ?(?!.* [-=]> )")
# What one form of a case has and another leaves out, and the names that stand for a command or an answer.
SILENT = set("zebraidx plan query hits hex find page Default d first count number position sql alter work execute".split())
NAMED = {it: it.lower() for it in "Init Check Reindex Upgrade Create Drop Update Delete Adelete Scan Stat Dump Analyse".split()} | {"Store": "refused"}

# The words of the input, all of them, and the text. What answers a line of a script is somewhere among what answers the whole.
Case = collections.namedtuple("Case", "place asked whole shown of_script")


def words(text):
    """The words that are compared: without files, and without the status before an answer."""
    text = re.sub(r"( [-=]> )[0-3]: ", r"\1", re.sub(r"hex:\S+|\S+\.mrc|<[A-Z]+>", " ", urllib.parse.unquote(text)))
    return [NAMED.get(it, it) for it in re.findall(r"[^\W_]+", text) if it not in SILENT]


def unescaped(match):
    return chr(int(match[1] or match[2], 16)) if match[1] or match[2] else PLAIN.get(match[3], match[3].strip())


def literal(token):
    """The text of a literal, behind a quotation mark, as no name has."""
    inner = token[token.index('"') + 1 : token.rindex('"')]
    return '"' + (inner if token.lstrip("b").startswith("r") else ESCAPE.sub(unescaped, inner))


def tree(text):
    """A file's tokens: names, texts, and a list for what stands in brackets, behind its line and the bracket with the name before it."""
    stack = [[0, ""]]
    for match in TOKEN.finditer(text):
        token, above = match[0], stack[-1]
        if token in "([{":
            stack.append([text.count("\n", 0, match.start()) + 1, token + (above[-1] if isinstance(above[-1], str) else "")])
            above.append(stack[-1])
        elif token in ")]}":
            stack.pop()
        elif not token.isspace() and not token.startswith("//"):
            above.append(literal(token) if match["text"] else token)
    return stack[0]


def said(group, constants):
    """What tokens say: texts and numbers, and the texts that names stand for."""
    for it in group[2:]:
        if isinstance(it, list):
            yield from said(it, constants)
        elif it.startswith('"'):
            yield re.sub(r"\{(\w+)\}", lambda name: constants.get(name[1], ""), it[1:])
        elif it in constants or it in NAMED or re.fullmatch(r"\d\w*|true|false", it):
            yield constants.get(it) or NAMED.get(it) or re.sub(r"_|(u8|u32|u64|usize)$", "", it)


def tuples(group, constants):
    """The innermost tuples, calls and assertions that say something, each as its line and what it says."""
    inner = [it for item in group[2:] if isinstance(item, list) for it in tuples(item, constants)]
    name, texts = group[1][1:], list(said(group, constants))
    is_one = group[1].startswith("(") and "," in group and not name[:1].isupper() and len(texts) > bool(re.match(r"\w", name))
    return inner or ([(group[0], texts)] if is_one else [])


def case(place, text, of_script=False):
    arrow = ARROW.search(text)
    return Case(place, words(text[: arrow.start()] if arrow else text), words(text), text, of_script)


def cases_of(name, text, constants):
    """The cases of a file."""
    if name.endswith(".rows"):
        return [case(f"{name}:{at}", line) for at, line in enumerate(text.split("\n"), 1) if re.match(r"  [^#].* [-=]> ", line)]
    root = tree(text)
    found = [case(name, it) for text in said(root, {}) for it in text.split("\n") if ARROW.search(it) or it.startswith(("do ", "with "))]
    for line, texts in tuples(root, constants):
        place, first, answer = f"{name}:{line}", texts[0], "\n".join(texts[1:])
        if first.count("\n") > 1 and re.search("[a-z]", answer) and not re.match(r"\s*(store|identifier|melm|att|all) ", first):
            found += [case(place, f"{it} -> {answer}", True) for it in first.split("\n")]
        else:
            found.append(case(place, f"{' '.join(texts[:-1])} -> {texts[-1]}"))
    return [it for it in found if it.whole]


def cases_at(commit):
    """All cases of a commit, or, where that is none, of the files as they stand. Crates whose names don't begin with zeb are of tests."""
    git = lambda *it: subprocess.run(["git", *it], cwd=ROOT, capture_output=True, text=True, check=True).stdout
    listing = ["ls-tree", "-r", "--name-only", commit] if commit else ["ls-files", "-co", "--exclude-standard"]
    names = [it for it in git(*listing, "crates", "tests/words").split("\n") if commit or (ROOT / it).is_file()]
    names = [it for it in names if it.endswith(".rows") or re.match(r"crates/(?!zeb).*/src/.*\.rt$", it)]
    texts = {it: git("show", f"{commit}:{it}") if commit else (ROOT / it).read_text(encoding="utf-8") for it in names}
    constants = {m[1]: literal(m[2])[1:] for text in texts.values() for m in CONSTANT.finditer(text)}
    constants = {name: text for name, text in constants.items() if text.count("\n") < 2 and not re.match(r"\d{5}", text)}
    return [it for name, text in texts.items() for it in cases_of(name, text, constants)]


def is_in_order(few, many):
    rest = iter(many)
    return all(it in rest for it in few)


def standing(old, today, places):
    """How a case stands today, and where; `places` has the cases of today with a word."""
    wanted = old.asked if old.of_script else old.whole
    for it in min((places[word] for word in wanted), key=len, default=[]):
        if is_in_order(wanted, it.whole) and not (old.of_script and set(it.whole) - set(old.whole)):
            return "in a row" if ".rows:" in it.place else "in a test", it.place
    for it in sum(sorted((places[word] for word in set(old.whole)), key=len)[:2], []):
        if len(old.whole) > 2 and (collections.Counter(old.whole) - collections.Counter(it.whole)).total() < 2:
            return "but for a word", it.place
    for it in today:
        if len(old.asked) > 1 and is_in_order(old.asked, it.asked):
            return "with another answer", it.place
    return "nowhere", ""


if __name__ == "__main__":
    *options, commit = sys.argv[1:]
    today, places, counts = cases_at(None), collections.defaultdict(list), collections.Counter()
    for it in today:
        for word in set(it.whole):
            places[word].append(it)
    for old in cases_at(commit):
        how, place = standing(old, today, places)
        counts[how] += 1
        if "--all" in options or how not in ("in a row", "in a test"):
            print(f"{old.place}: {old.shown[:160]!r} {how} {place}".rstrip())
    print(*(f"{number} {how}" for how, number in counts.most_common()), f"{counts.total()} cases in all", sep=", ")
