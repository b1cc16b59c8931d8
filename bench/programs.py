"""This program and Zebra, each with its settings from the same rules, run and asked as their users do."""
import pathlib
import re
import shutil
import subprocess
import sys
import tempfile
import threading
import time
from dataclasses import dataclass

from made import EXAMPLES

# What has to be there, and the packages that bring it.
TIME = "/usr/bin/time"
PACKAGES = {TIME: "time", "zebraidx-2.0": "idzebra-2.0", "yaz-client": "yaz", "yaz-marcdump": "yaz"}
# Seconds between two looks at the size of what a command writes beside the register.
LOOKS = 0.02
# How often a line is asked in one session.
REPEATS = 200
# The database of both.
NAME = "Default"


def install():
    """The packages that aren't there."""
    absent = {package for command, package in PACKAGES.items() if not shutil.which(command)}
    absent |= set() if EXAMPLES.is_dir() else {"idzebra-2.0-examples"}
    if absent:
        print(f"installing {' '.join(sorted(absent))}", file=sys.stderr)
        subprocess.run(["apt-get", "update", "-qq"], check=True, stdout=sys.stderr)
        subprocess.run(["apt-get", "install", "-y", "-qq", *sorted(absent)], check=True, stdout=sys.stderr)


@dataclass
class Ran:
    """What a command took: seconds by the clock and of the processor, peak memory and greatest size beside, in bytes."""

    clock: float = 0.0
    processor: float = 0.0
    memory: int = 0
    beside: int = 0
    said: str = ""

    def then(self, other):
        return Ran(
            self.clock + other.clock,
            self.processor + other.processor,
            max(self.memory, other.memory),
            max(self.beside, other.beside),
            self.said + other.said,
        )


def size_below(*paths):
    """The size of all files at and below the paths, as far as they are there."""
    total = 0
    for path in paths:
        for file in [path, *path.rglob("*")]:
            try:
                total += file.stat().st_size if file.is_file() else 0
            except FileNotFoundError:
                pass
    return total


def ran(words, folder, beside=(), given=""):
    """Runs the words in the folder; a status other than 0 ends all."""
    with tempfile.TemporaryFile("w+") as to, tempfile.TemporaryFile("w+") as lines, tempfile.NamedTemporaryFile("r") as usage:
        lines.write(given)
        lines.seek(0)
        through, most = threading.Event(), [0]

        def look():
            while not through.wait(LOOKS):
                most[0] = max(most[0], size_below(*beside))

        looking = threading.Thread(target=look, daemon=True)
        looking.start()
        start = time.monotonic()
        # A process of its own size begins the command, since the memory of what begins it would count as the command's.
        timed = [TIME, "-o", usage.name, "-f", "%M %U %S", *map(str, words)]
        status = subprocess.run(timed, cwd=folder, stdin=lines, stdout=to, stderr=subprocess.STDOUT, check=False).returncode
        clock = time.monotonic() - start
        through.set()
        looking.join()
        most[0] = max(most[0], size_below(*beside))
        to.seek(0)
        said = to.read()
        if status:
            raise SystemExit(f"{' '.join(map(str, words))}: status {status}\n{said[-2000:]}")
        memory, user, system = usage.read().split()[-3:]
    return Ran(clock, float(user) + float(system), 1024 * int(memory), most[0], said)


def find_here(query):
    return f"find {NAME} {query}"


def scan_here(query):
    return f"scan {NAME} 20 1 {query}"


class Ours:
    """This program over a register on disk, in packed blocks or in leaves."""

    def __init__(self, program, rules, folder, leaves=False):
        folder.mkdir()
        self.folder, self.program = folder, program
        self.file, self.log = folder / "made.db", folder / "made.db-wal"
        (folder / "zebra.cfg").write_text("store made.db\nidentifier 001\n" + rules, encoding="utf-8")
        self.flags = ["--leaves"] if leaves else []
        self.begin()

    def is_in_leaves(self):
        return bool(self.flags)

    def begin(self):
        """A register without records, in a new file."""
        for it in (self.file, self.log):
            it.unlink(missing_ok=True)
        self.run("init", *self.flags)

    def run(self, *words):
        return ran([self.program, *words], self.folder, [self.log])

    def change(self, what, file):
        return self.run(what, file)

    def stat(self):
        return self.run("stat")

    def register(self):
        return size_below(self.file)

    def batch(self, lines):
        return ran([self.program, "batch"], self.folder, given="".join(it + "\n" for it in lines))

    def hits(self, queries):
        """For each query its hits, or what was answered in their place."""
        lines = "".join(f"{find_here(it)}\n" for it in queries)
        answers = ran(["sh", "-c", '"$0" batch || true', self.program], self.folder, given=lines).said
        found = re.findall(r"^(?:hits (\d+)|zebraidx: (.*))$", answers, re.M)
        return [int(number) if number else why for number, why in found]

    def opening(self):
        """What a session without a line takes: the least of three."""
        return min((self.batch([]) for _ in range(3)), key=lambda it: it.processor)

    def find(self):
        """What a find by words takes, a run of its own: the least of three."""
        return min((self.run("find", "@attr 1=4 the") for _ in range(3)), key=lambda it: it.clock)

    def session(self):
        return Shell(self.program, self.folder)


def processor_of(process):
    """The processor's seconds that a process of one thread has taken."""
    return int(pathlib.Path(f"/proc/{process.pid}/schedstat").read_text(encoding="utf-8").split()[0]) / 1e9


class Shell:
    """A session of this program over pipes."""

    # No command: its answer is the end of the answers to the lines before it.
    LAST = "last"

    def __init__(self, program, folder):
        self.process = subprocess.Popen([program, "shell"], cwd=folder, stdin=subprocess.PIPE, stdout=subprocess.PIPE, text=True)
        # Waits for the register to be open.
        self.asked([])

    def asked(self, lines):
        """Asks all lines, and reads their answers meanwhile, since a pipe holds few."""
        text = "".join(it + "\n" for it in [*lines, self.LAST])
        writing = threading.Thread(target=lambda: (self.process.stdin.write(text), self.process.stdin.flush()), daemon=True)
        writing.start()
        while not (line := self.process.stdout.readline()).startswith("zebraidx: bad line"):
            if not line:
                raise SystemExit("the shell ended")
        writing.join()

    def seconds(self, lines):
        """The mean processor seconds of a line."""
        before = processor_of(self.process)
        self.asked(lines * REPEATS)
        return (processor_of(self.process) - before) / (REPEATS * len(lines))

    def close(self):
        self.process.stdin.close()
        self.process.wait()


SETTINGS = """profilePath: {folder}:/usr/share/idzebra-2.0/tab
attset: made.att
recordType: grs.marcxml.made
recordId: (bib1,{identifier})
register: {folder}/register:20G
lockDir: {folder}/lock
keyTmpDir: {folder}/keys
setTmpDir: {folder}/sets
encoding: UTF-8
storeKeys: 1
storeData: 1
"""


ABS = "encoding utf-8\nname made\nattset made.att\nesetname F @\nmarc usmarc.mar\nxpath disable\n"


def with_target(targets, target):
    """The targets and one more, where it isn't among them: Zebra would index the same twice."""
    return targets if target in targets.split(",") else f"{targets},{target}"


def index_of_identifier(rules):
    """The index that has the field 001."""
    [targets] = [it.split()[2] for it in rules.splitlines() if it.startswith("melm 001 ")]
    return targets.split(",")[0]


def as_zebra_has_them(rules):
    """The lines of an .att and of an .abs file that mean what the profile's lines do.

    Zebra's own line `all` goes to control fields too, and only to what a melm line matches. So its targets are added here to each line
    of a data field, and a last line has those of every other subfield.
    """
    lines = [it.split() for it in rules.splitlines() if it and not it.startswith("#")]
    [everywhere] = [it[1] for it in lines if it[0] == "all"]
    elements = [[*it[:2], it[2] if it[1].startswith("00") else with_target(it[2], everywhere)] for it in lines if it[0] == "melm"]
    elements.append(["xelm", "/*/datafield/subfield", everywhere])
    uses = [it for it in lines if it[0] == "att"]
    return ["".join(" ".join(it) + "\n" for it in some) for some in (uses, elements)]


class Zebra:
    """Zebra over its register; with a shadow register an update is one and its commit."""

    def __init__(self, rules, folder, shadow=False):
        self.folder, self.shadow = folder, shadow
        folder.mkdir()
        settings = SETTINGS.format(folder=folder, identifier=index_of_identifier(rules)) + (f"shadow: {folder}/shadow:20G\n" if shadow else "")
        (folder / "zebra.cfg").write_text(settings, encoding="utf-8")
        uses, elements = as_zebra_has_them(rules)
        (folder / "made.att").write_text("name made\nreference Bib-1\n" + uses, encoding="utf-8")
        (folder / "made.abs").write_text(ABS + elements, encoding="utf-8")
        self.begin()

    def begin(self):
        """A register without records, in new folders."""
        for it in ("register", "lock", "keys", "sets", "shadow"):
            shutil.rmtree(self.folder / it, ignore_errors=True)
            (self.folder / it).mkdir()
        self.run("init")

    def run(self, *words):
        beside = [self.folder / it for it in ("keys", "shadow")]
        return ran(["zebraidx-2.0", "-v", "none", "-f", "0", "-c", "zebra.cfg", *words], self.folder, beside)

    def change(self, what, file):
        changed = self.run(what, file)
        return changed.then(self.run("commit")) if self.shadow else changed

    def stat(self):
        return self.run("stat")

    def register(self):
        return size_below(self.folder / "register")

    def session(self):
        return Server(self.folder)


class Server:
    """A zebrasrv, and sessions with it by yaz-client."""

    def __init__(self, folder):
        self.socket = folder / "socket"
        self.socket.unlink(missing_ok=True)
        words = ["zebrasrv-2.0", "-S", "-v", "none", "-c", "zebra.cfg", f"unix:{self.socket}"]
        self.server = subprocess.Popen(words, cwd=folder, stdout=subprocess.DEVNULL, stderr=subprocess.DEVNULL)
        while not self.socket.exists():
            if self.server.poll() is not None:
                raise SystemExit("zebrasrv doesn't start")
            time.sleep(0.01)

    def asked(self, lines):
        """What yaz-client writes on each line, over a new session."""
        with tempfile.NamedTemporaryFile("w", encoding="utf-8") as file:
            file.write("".join(it + "\n" for it in [f"open unix:{self.socket}", f"base {NAME}", *lines, "quit"]))
            file.flush()
            said = subprocess.run(["yaz-client", "-f", file.name], stdout=subprocess.PIPE, stderr=subprocess.STDOUT, check=True).stdout
        parts = re.split(r"^Elapsed: (\d+\.\d+)$", said.decode(errors="replace"), flags=re.M)
        answers = list(zip(parts[2:-1:2], map(float, parts[3::2])))
        if len(answers) != len(lines):
            raise SystemExit(f"yaz-client answered {len(answers)} of {len(lines)} lines\n{said[-2000:]}")
        return answers

    def hits(self, queries):
        answers = [answer for answer, _ in self.asked([f"find {it}" for it in queries])]
        return [hits_of(it) for it in answers]

    def seconds(self, lines):
        """The mean seconds of a line in one session: of the server's processor, and by yaz-client's clock, which has both programs in it."""
        before = processor_of(self.server)
        answers = self.asked(lines * REPEATS)
        processor = processor_of(self.server) - before
        return processor / len(answers), sum(seconds for _, seconds in answers) / len(answers)

    def opening(self):
        """Seconds from the connection to the answer of a first find."""
        start = time.monotonic()
        self.asked(["find @attr 1=4 the"])
        return time.monotonic() - start

    def memory(self):
        status = pathlib.Path(f"/proc/{self.server.pid}/status").read_text(encoding="utf-8")
        return 1024 * int(re.search(r"VmHWM:\s+(\d+)", status)[1])

    def close(self):
        """Ends the server, which now and then doesn't hear the first signal."""
        self.server.terminate()
        try:
            self.server.wait(2)
        except subprocess.TimeoutExpired:
            self.server.kill()
            self.server.wait()


def hits_of(answer):
    why = re.search(r"Diagnostic message\(s\) from database:\s*(.*)", answer) or re.search(r"\[(\d+)\] (.*)", answer)
    number = re.search(r"^Number of hits: (\d+)", answer, re.M)
    return why[1] if why and not (number and int(number[1])) else int(number[1]) if number else answer.strip()[-100:]
