"""What the scripts of this folder share: the crates of crates.txt, their edits, and the toolchain's command rt."""
import importlib.machinery
import importlib.util
import os
import pathlib
import re
import shutil
import sys

sys.dont_write_bytecode = True
ROOT = pathlib.Path(__file__).resolve().parent.parent
# The folders of a crate that a check reads.
PARTS = ("src", "specs", "proofs")
# The edits that the gate tries, and those that `make edits` tries.
EDIT_FOLDERS = ("must-fail", "edits")
EDIT_NAME = re.compile(r"[A-Za-z0-9_-][A-Za-z0-9_.-]*\.edit")


class Crate:
    """A line of crates.txt: a crate, and the crates of this repository that it names."""

    def __init__(self, name, named):
        self.name = name
        self.named = named
        self.folder = ROOT / "crates" / name

    def below(self):
        """The crates that this one stands on, each after those that it stands on itself."""
        found = []
        for it in self.named:
            found += [each for each in [*it.below(), it] if each not in found]
        return found

    def edits(self, folder):
        """The edits of must-fail/ or of edits/."""
        return sorted((self.folder / folder).glob("*.edit"))

    def files(self):
        """The files that a check of the crate reads."""
        found = [it for part in PARTS for it in sorted((self.folder / part).rglob("*"))]
        return [it for it in found if it.suffix in (".rt", ".antt")]


def read_crates():
    """The crates of crates.txt, in its order."""
    lines = (ROOT / "crates.txt").read_text(encoding="utf-8").splitlines()
    listed = [it.partition("#")[0].partition(":") for it in lines if it.partition("#")[0].strip()]
    named = {head.split()[0]: deps.split() for head, _, deps in listed}
    made = {}

    def make(name):
        if name not in made:
            made[name] = Crate(name, [make(it) for it in named[name] if it in named])
        return made[name]

    return [make(it) for it in named]


def by_level(crates):
    """The crates, each after those that it stands on, and else in the order of crates.txt."""
    return sorted(crates, key=lambda it: len(it.below()))


def failures(said):
    """The lines of a log that say why a crate isn't proved, or else its last ones."""
    told = r"error|not proved|no proof|NOT PROVED|not in the layout"
    return [it for it in said if re.search(told, it) and not it.rstrip().endswith(": proved")] or said[-20:]


def path_of_rt():
    """Where the toolchain's command is."""
    found = shutil.which("rt")
    if not found:
        sys.exit("the Rattle toolchain's command rt is not on the PATH")
    return os.path.realpath(found)


def load_rt():
    """The toolchain's command as a module, for the tests of texts that it makes before any proof."""
    loader = importlib.machinery.SourceFileLoader("rt", path_of_rt())
    made = importlib.util.module_from_spec(importlib.util.spec_from_loader("rt", loader))
    sys.modules["rt"] = made
    loader.exec_module(made)
    return made


def keeps_beside(rt):
    """Whether this toolchain keeps what `rt ci` proved beside itself, for the next run: older kits have no part that does."""
    return hasattr(rt, "Kept") and rt.Kept([]).at is not None


def inside(path):
    """A path as it stands below the top of the repository."""
    return os.path.relpath(path, ROOT)
