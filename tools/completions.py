"""What the completions of shells offer and what the manual's first tables name, beside what the program takes.

Each is a set of pairs: where a word stands (`""` in front of the command, behind an option with a value, behind a command), and what may stand
there: an option, a command, or `A_FILE`. The program's own are read off its source, the manual's off its tables, and zsh's off the file;
bash's are what its function answers.
"""
import re
import shlex
import subprocess
import tempfile

from repository import ROOT

A_FILE = "a file"
PROGRAM = "crates/zeb_words/src/program.rt"
FUNCTION = re.compile(r"^(?:pub\(crate\) )?fn (\w+)<'a>\((.*?)^}", re.M | re.S)
COMMAND = re.compile(r'\b(plain|with_plain|founding|naming|changing)\((?:\s*made,)?\s*alloc,\s*"(\w+)",\s*"([^"]*)"')
# Options of a command, and those of the program with a value and without one.
NUMBER = re.compile(r'\bnumber\(\s*alloc,\s*"(\w+)"')
VALUED = re.compile(r'\boption\(\s*alloc,\s*"\w+",\s*\'(\w)\',\s*"(\w+)"')
# The function whose flag the commands of `founding` take.
LAYOUT = "leaves"
FLAG = re.compile(r"\.(short|long)\(['\"](\w+)['\"]\)")


def read(name):
    return (ROOT / name).read_text(encoding="utf-8")


def program_takes():
    """What the program's source declares, and the text of each command."""
    # The parser's own.
    taken, texts = {("", "--help")}, {}
    founding, layouts = set(), set()
    for function, body in FUNCTION.findall(read(PROGRAM)):
        commands = COMMAND.findall(body)
        founding |= {name for kind, name, _ in commands if kind == "founding"}
        for kind, name, text in commands:
            texts[name] = text
            taken |= {("", name)} | ({(name, A_FILE)} if kind == "changing" else set())
        taken |= {(commands[0][1], f"--{it}") for it in NUMBER.findall(body)}
        for letter, value in VALUED.findall(body):
            taken |= {("", f"-{letter}")} | ({(f"-{letter}", A_FILE)} if value == "FILE" else set())
        flags = {f"-{name}" if kind == "short" else f"--{name}" for kind, name in FLAG.findall(body)}
        if function == LAYOUT:
            layouts |= flags
        else:
            taken |= {("", it) for it in flags}
    return taken | {(name, it) for name in founding for it in layouts}, texts


def table(text, head):
    """The first cells of a table's rows."""
    rows = text.partition(f"\n{head}")[2].partition("\n\n")[0].splitlines()[2:]
    return [it.split("|")[1] for it in rows]


def manual_names():
    """What the manual's tables of options and commands name."""
    text, named = read("docs/MANUAL.md"), set()
    for cell in table(text, "| option | meaning |"):
        for option, value in re.findall(r"`(--?\w+)(?: (\w+))?`", cell):
            named |= {("", option)} | ({(option, A_FILE)} if value == "FILE" else set())
    for cell in table(text, "| command | what it does |"):
        for name, rest in re.findall(r"`(\w+)([^`]*)`", cell):
            named |= {("", name), *[(name, it) for it in re.findall(r"--\w+", rest)]}
            named |= {(name, A_FILE)} if "PATH" in rest else set()
    return named


BASH = """
source "$1" || exit
offers() {
  local where=$1
  COMP_WORDS=(zebraidx $before "${@:2}" '') COMPREPLY=()
  COMP_CWORD=$((${#COMP_WORDS[@]} - 1))
  _zebraidx
  printf '%s\\n' "${COMPREPLY[@]/#/$where$'\\t'}"
}
before=$2
shift 2
offers ''
for word in -c -d "$@"; do offers "$word" "$word"; done
for command in update delete adelete; do offers "$command" "$command" file; done
"""


def bash_offers(commands, before):
    """What bash's function answers in a folder with one file, behind these words."""
    with tempfile.TemporaryDirectory() as folder:
        open(f"{folder}/file", "w").close()
        words = ["bash", "-c", BASH, "bash", str(ROOT / "completions/zebraidx.bash"), before, *commands]
        ran = subprocess.run(words, cwd=folder, capture_output=True, text=True)
    found = [tuple(it.split("\t")) for it in ran.stdout.splitlines() if it.strip()]
    return {(where, A_FILE if it == "file" else it) for where, it in found}


def zsh_offers():
    """What the file for zsh declares, and the text of each command."""
    head, _, cases = read("completions/_zebraidx").partition("case $words[1] in")
    declared = [it.partition(":") for it in shlex.split(head.partition("commands=(")[2].partition("\n)")[0])]
    offered = {("", name) for name, _, _ in declared}
    for option, rest in re.findall(r"'(--?\w+)\[[^]]*\]([^']*)'", head):
        offered |= {("", option)} | ({(option, A_FILE)} if rest.endswith(":_files") else set())
    for names, what in re.findall(r"^  ([\w |]+)\) (.*) ;;$", cases, re.M):
        options = re.findall(r"'(--\w+)\[", what)
        offered |= {(name, it) for name in names.split(" | ") for it in [*options, *[A_FILE] * (what == "_files")]}
    return offered, {name: text for name, _, text in declared}


def told(pairs):
    """The pairs in words."""
    return ", ".join(f"{what} behind {where}" if where else what for where, what in sorted(pairs))


def wrong():
    """Where one of them offers or names anything else than the program takes."""
    taken, texts = program_takes()
    in_zsh, zsh_texts = zsh_offers()
    each = {
        "completions/zebraidx.bash": bash_offers(sorted(texts), ""),
        "completions/zebraidx.bash, behind options,": bash_offers(sorted(texts), "-c file -s -d find"),
        "completions/_zebraidx": in_zsh,
        "docs/MANUAL.md": manual_names(),
    }
    for who, offered in each.items():
        yield from [f"{who} lacks {told(taken - offered)}"] * (not taken <= offered)
        yield from [f"{who} has {told(offered - taken)}"] * (not offered <= taken)
    yield from [f"completions/_zebraidx says of {it}: {zsh_texts[it]}" for it in sorted(texts) if zsh_texts.get(it, texts[it]) != texts[it]]
