"""Calls of the built program on the system, as strace shows them: what tests/calls and tests/power share."""
import os
import re
import shutil
import subprocess
import tempfile
from pathlib import Path

TOP = Path(__file__).resolve().parent.parent
BUILT = TOP / "crates" / "sdbt" / "out" / "sdbt"
PAGE = 4128

# A file system in memory, where there is one: there a sync takes no time, which helps where it is the calls that are looked at.
QUICK = "/dev/shm" if os.access("/dev/shm", os.W_OK) else None

# Calls on memory and time.
MEMORY = {"mmap", "munmap", "mremap", "brk", "madvise", "exit_group", "rt_sigaction", "clock_gettime", "futex", "ioctl"}

# What only looks at a file, by its name or by a descriptor.
LOOKING = re.compile(r"^(statx|newfstatat|stat|lstat|fstat)$")

# What names another file or changes one, wherever it is called.
NAMING = re.compile(r"^(statx$|newfstatat$|stat$|lstat$|open|creat|truncate|link|symlink|mkdir|mknod|rmdir|chmod|chown|rename|unlink|utime|setxattr|mount|connect|bind|fchmod|fchown|pwrite|writev|sendfile|copy_file|fallocate|memfd)")


def can_trace():
    """Whether strace is there, and may look."""
    return shutil.which("strace") and not subprocess.run(["strace", "-o", "/dev/null", "true"], capture_output=True).returncode


class Call:
    """A call, its number among those of its name, the file that it is on and what it answered."""

    def __init__(self, line, counts, names):
        found = re.match(r"(?:\d+ +)?(\w+)\((.*)\) += (-?\w+|\?)", line)
        self.name, self.words, answer = found.groups()
        self.answer = int(answer, 0) if answer != "?" else 0
        counts[self.name] = counts.get(self.name, 0) + 1
        self.number = counts[self.name]
        # A look at a descriptor names the empty path.
        self.paths = [it for it in re.findall(r'(?:^|, )"((?:[^"\\]|\\.)*)"', self.words) if it] if NAMING.match(self.name) else []
        self.looks = bool(LOOKING.match(self.name))
        descriptor = re.match(r"(\d+)(?:<([^>]*)>|(?=[,)]|$))", self.words) if self.name not in MEMORY else None
        self.descriptor = int(descriptor[1]) if descriptor else None
        path = self.paths[0] if self.paths else descriptor and descriptor[2] or ""
        if self.paths and (within := re.match(r"(?:AT_FDCWD|\d+)<([^>]*)>", self.words)):
            path = os.path.join(within[1], path)
        named = names.get(os.path.realpath(path) if path.startswith("/") else path, "another")
        self.kind = {0: "input", 1: "output", 2: "errors"}.get(None if self.paths else self.descriptor) or named
        self.text = line


def traced(words, script, cell, folder, more=(), shown=256):
    """The calls of a run, of whose bytes so many are shown, its outcome, and the place of the first call on its source of keys or its folders."""
    names = {str(folder / "media"): "media", str(folder): "folder", str(folder / "ledger"): "ledger", "/dev/urandom": "urandom"}
    names |= {str(cell): "cell", str(cell / "root"): "root", str(cell / "root.new"): "root.new"}
    with tempfile.NamedTemporaryFile("r") as trace:
        strace = ["strace", "-f", "-y", "-s", str(shown), "-o", trace.name, BUILT, "--root", cell, folder, *words]
        ran = subprocess.run(strace, input=script.encode(), capture_output=True)
        calls, counts = [], {}
        for line in trace:
            if re.match(r"(?:\d+ +)?\w+\(.*\) += ", line):
                calls.append(Call(line.rstrip("\n"), counts, names | dict(more)))
    first = next((n for n, call in enumerate(calls) if call.kind in ("urandom", "cell", "folder")), len(calls))
    return calls, ran, first


def bytes_of(call):
    """The bytes that a call shows, as strace spells them."""
    text = re.search(r'"((?:[^"\\]|\\.)*)"', call.words)[1]
    return text.encode("latin-1").decode("unicode_escape").encode("latin-1")


def folders(room):
    cell, folder = Path(room, "cell").resolve(), Path(room, "folder").resolve()
    cell.mkdir(), folder.mkdir()
    return cell, folder
