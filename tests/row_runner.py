"""What the tests of rows share: where rows are, and how one is run."""
import functools
import os
import subprocess
import sys
from pathlib import Path

TOP = Path(__file__).resolve().parent.parent
ROWS = TOP / "tests" / "rows"
CRATES = TOP / "crates"


def runner(name):
    """A proved program of a crate; it is proved and built where it isn't there yet. Its name in capitals may name another one."""
    named = os.environ.get(name.upper())
    if named:
        return named
    program = CRATES / name / "out" / name
    if not program.exists():
        print(f"proving and building {name}, which takes some minutes", file=sys.stderr, flush=True)
        for words in (["rt", "check"], ["rt", "run"]):
            subprocess.run(words, cwd=CRATES / name, stdin=subprocess.DEVNULL, stdout=subprocess.DEVNULL, check=False)
    if not program.exists():
        sys.exit(f"{name} could not be built")
    return str(program)


@functools.cache
def row_runner():
    return runner("row_runner")


def run_row(text, step=4096):
    """What is written of a row, and what failed, if anything did."""
    ran = subprocess.run([row_runner(), str(step)], input=text.encode(), capture_output=True)
    said = ran.stderr.decode(errors="replace").strip()
    fault = f"status {ran.returncode}{': ' + said if said else ''}" if ran.returncode else None
    return ran.stdout.decode(errors="replace"), fault


def served(text, words, script, kind="run"):
    """Adds a run with these words and this input to a row."""
    lines = "".join(f"> {line}\n" if line else ">\n" for line in script.splitlines())
    return f"{text}{' '.join([kind, *words])}\n{lines}"


def ends(text):
    """How the runs of a written row ended: of each what it put, and the numbers of its last line by their names."""
    put = ""
    for line in text.split("\n"):
        if line.startswith("< "):
            put += line[2:] + "\n"
        elif line.startswith("<~ "):
            put += line[3:]
        elif line.startswith("= status "):
            words = line[2:].split()
            yield put, {name: int(value) for name, value in zip(words[0:8:2], words[1:8:2])}, words[8:]
            put = ""


def sections(path):
    """The parts of a file, each with the words of its head line and its lines behind `> ` or `< `."""
    found = []
    for line in path.read_text().splitlines():
        if line[:1] in (">", "<"):
            found[-1][1].append(line[2:])
        elif line and not line.startswith("#"):
            found.append((line.split(), []))
    return found


def text_of(lines):
    return "".join(f"{line}\n" for line in lines)


class Course:
    """A script with its replies, what a new run asks, and what it is answered once so many lines were done."""

    def __init__(self, path):
        self.marks, self.calls, self.counts = [], {}, {}
        for words, lines in sections(path):
            if words[0] == "after":
                self.marks.append((int(words[1]), int(words[3]), int(words[5]), text_of(lines)))
            elif words[0] == "calls":
                self.calls = dict(zip(words[1::2], map(int, words[2::2])))
            elif words[0] == "counts":
                self.counts = dict(zip(words[1::2], map(int, words[2::2])))
            else:
                setattr(self, words[0], text_of(lines))
