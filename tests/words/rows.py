"""What the scripts of rows in this folder share: a file of rows, the folders it describes, and what the program answers there.

A file of rows is plain text, in which `%0a` stands for a byte that can't be typed. Lines that begin with `#` say nothing. It has these heads,
each with lines below it that begin with two spaces:

    folder NAME          an empty folder begins; what follows is about it, up to the next one
    profile FILE         the lines of a profile
    file FILE [A B]      the fields of a record, of several where an empty line stands between; `|` stands for the byte before a subfield's
                         code. With two numbers there is a record for each from A to B, which stands for `<n>`
    bytes FILE           the bytes of a file
    rows SUBJECT         commands and what they are answered with, one after the other

A row is `COMMAND => ANSWER`. The query of a find or a scan is the rest of the command, as it stands. The answer's lines are divided by `; `,
and `nothing` is none; `1: TEXT` is the status 1 with the line `zebraidx: TEXT`; `bytes of FILE FILE` are those. A find whose answer doesn't begin
with `hits` lists all its hits.
"""
import argparse
import concurrent.futures
import dataclasses
import itertools
import pathlib
import re
import subprocess
import sys
import tempfile
import urllib.parse

sys.dont_write_bytecode = True
ROOT = pathlib.Path(__file__).resolve().parents[2]
END_OF_FIELD, END_OF_RECORD, CODE = b"\x1e", b"\x1d", b"\x1f"
HEADS = ("folder", "profile", "file", "bytes", "rows")
# Those whose lines are a file's.
WRITTEN = ("profile", "file", "bytes")


def bytes_of(text):
    """The bytes that a text of the file stands for."""
    return urllib.parse.unquote_to_bytes(text)


def record(lines):
    """The record of these lines, each a tag, a space, and the field."""
    directory, body = b"", b""
    for line in lines:
        field = bytes_of(line[4:].replace("|", "%1f")) + END_OF_FIELD
        directory += b"%s%04d%05d" % (line[:3].encode(), len(field), len(body))
        body += field
    base = 25 + len(directory)
    return b"%05dnam a22%05d a 4500" % (base + len(body) + 1, base) + directory + END_OF_FIELD + body + END_OF_RECORD


def records(lines, numbers):
    """The records of these lines, divided by empty ones."""
    texts = [it.splitlines() for it in "\n".join(lines).split("\n\n")]
    if numbers:
        first, last = map(int, numbers)
        texts = [[line.replace("<n>", str(n)) for line in text] for text in texts for n in range(first, last + 1)]
    return b"".join(record(it) for it in texts)


@dataclasses.dataclass(frozen=True)
class Row:
    """A command and what it is answered with."""

    place: str
    command: str
    answer: str

    def words(self):
        """The words of the command."""
        query = re.fullmatch(r"((?:-\S+ \S+ )*(?:find|scan)(?: --\S+ \S+)*(?: --)?)(?: (.*))?", self.command, re.S)
        plain, last = (query[1], [] if query[2] is None else [query[2]]) if query else (self.command, [])
        return [bytes_of(it) for it in [*plain.split(" "), *last]]

    def wanted(self, folder):
        """The status, the output and the fault's line."""
        refused = re.fullmatch(r"([1-3]): (.*)", self.answer, re.S)
        if refused:
            return int(refused[1]), b"", b"zebraidx: " + bytes_of(refused[2]) + b"\n"
        if self.answer.startswith("bytes of "):
            return 0, b"".join((folder / it).read_bytes() for it in self.answer.removeprefix("bytes of ").split()), b""
        lines = [] if self.answer == "nothing" else self.answer.split("; ")
        if b"find" in self.words() and not self.answer.startswith("hits "):
            lines = [f"hits {len(lines)}", *lines]
        return 0, b"".join(bytes_of(it) + b"\n" for it in lines), b""

    def differs(self, program, folder):
        """What the program answers, where that isn't what is wanted."""
        ran = subprocess.run([program, *self.words()], cwd=folder, stdin=subprocess.DEVNULL, capture_output=True)
        # Below `bad usage` the parser says why, in words of its own, and below a fault stands its cause: tests/words/causes looks at these.
        lines = ran.stderr.splitlines(keepends=True)
        fault = b"".join(it for it in lines[: 1 if ran.returncode == 2 else None] if not re.match(rb"zebraidx: (cause: |register is |file [0-9]+ is )", it))
        if (ran.returncode, ran.stdout, fault) == self.wanted(folder):
            return None
        return f"{self.place}: {self.command[:200]}\n  wanted {self.answer[:300]}\n  status {ran.returncode}, {ran.stdout[:300]!r} {ran.stderr[:300]!r}"


def row_of(place, text):
    """The row of a line."""
    command, arrow, answer = text.rpartition(" => ")
    if not arrow:
        sys.exit(f"{place}: no row: {text}")
    return Row(place, command, answer)


@dataclasses.dataclass
class Part:
    """A head of the file, with what stands behind it and below it; each line with its place."""

    place: str
    head: str
    rest: str
    lines: list


def parts_of(path, heads=HEADS):
    """The parts of a file of rows."""
    found = []
    for number, line in enumerate(path.read_text(encoding="utf-8").split("\n"), 1):
        place = f"{path.name}:{number}"
        head, _, rest = line.partition(" ")
        if line.startswith("  # ") and found[-1].head not in WRITTEN:
            continue
        if line.startswith("  "):
            found[-1].lines.append((place, line[2:]))
        elif head in heads:
            found.append(Part(place, head, rest, []))
        elif not line and found and found[-1].head == "file":
            found[-1].lines.append((place, ""))
        elif line and not line.startswith("#"):
            sys.exit(f"{place}: no head: {line}")
    return found


def folders_of(parts):
    """The parts by folders, each a list whose first names it."""
    starts = [at for at, it in enumerate(parts) if it.head == "folder"]
    return [parts[at:to] for at, to in zip(starts, [*starts[1:], len(parts)])]


def write(part, folder):
    """Writes the file of a part."""
    name, *numbers = part.rest.split()
    lines = [text for _, text in part.lines]
    while lines and not lines[-1]:
        lines.pop()
    if part.head == "profile":
        (folder / name).write_bytes(b"".join(bytes_of(it) + b"\n" for it in lines))
    elif part.head == "file":
        (folder / name).write_bytes(records(lines, numbers))
    else:
        (folder / name).write_bytes(b"".join(bytes_of(it) for it in lines))


def in_leaves(folders):
    """The same folders, whose registers are begun in leaves."""
    for part in itertools.chain(*folders):
        if part.head == "rows":
            part.lines = [(place, re.sub(r"^((?:-\S+ \S+ )*init) =>", r"\1 --leaves =>", text)) for place, text in part.lines]
    return folders


def run_all(usage, folders, run):
    """Runs `run(program, folder, given)` for each of `folders` in an empty folder of its own, side by side; it gives how many rows passed and
    what differs. Prints both, and gives the process's status."""
    parser = argparse.ArgumentParser(usage=usage)
    parser.add_argument("--program", default=ROOT / "bin/zebraidx", type=pathlib.Path)
    parser.add_argument("--leaves", action="store_true")
    given = parser.parse_args()
    program, folders = given.program.resolve(), in_leaves(folders) if given.leaves else folders
    with tempfile.TemporaryDirectory(prefix="zebraidx-rows-") as name, concurrent.futures.ThreadPoolExecutor() as threads:
        places = [pathlib.Path(name) / str(at) for at in range(len(folders))]
        for it in places:
            it.mkdir()
        results = list(threads.map(run, [program] * len(folders), places, folders))
    differing = [it for _, found in results for it in found]
    print(*differing, sep="\n", end="\n" * bool(differing), file=sys.stderr)
    print(f"{sum(passed for passed, _ in results)} passed, {len(differing)} failed")
    return 1 if differing else 0
