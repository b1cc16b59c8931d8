"""Runs of the built program that end in time, and the answers of the lines that it is given."""
import subprocess

SECONDS = 10
# What a line that is no command is answered with parts the answers from each other.
MARK = b"?"


class Failed(Exception):
    """A rule that didn't hold."""


def run(program, words=(), given=b"", folder=None):
    """The status of a run, and what it wrote to the output and to standard error."""
    try:
        ran = subprocess.run([program, *words], input=given, cwd=folder, capture_output=True, timeout=SECONDS)
    except subprocess.TimeoutExpired:
        raise Failed(f"it took more than {SECONDS} seconds") from None
    return ran.returncode, ran.stdout, ran.stderr


def marked(texts):
    """Lines of these texts, each with a mark behind it."""
    return b"".join(it + b"\n" + MARK + b"\n" for it in texts)


def answers(said, texts, before=0):
    """What is said to each of the marked lines, which stand behind so many others."""
    found = []
    for number, text in enumerate(texts, 1):
        answer, mark, said = said.partition(b"zebraidx: bad line %d\n" % (before + 2 * number))
        if not mark:
            raise Failed(f"no answer ends behind {text[:80]}")
        found.append(answer)
    return found


def is_refused(answer):
    return answer.startswith(b"zebraidx: ")
