#!/usr/bin/env python3
"""A false TPM behind a pseudo terminal: what the built program makes of replies that no TPM gives.

usage: tests/false_tpm.py [PROGRAM]    crates/sdbt/out/sdbt, or this one
       tests/false_tpm.py --kill SOCKET PID NTH WHEN PROGRAM FOLDER

Each run has one reply spoilt, that of a command of this number: 0 asks what the index is, 1 reads
it as the folder is opened, and the later ones serve the script. A run has to end with status 1 at
the first two and with 5 at the later ones, with the medium as it was, but for pages behind its end,
and with no more memory than other runs. The status is 0 where all is as it should be.

With --kill the script on standard input is served over the true TPM at a socket, whose process is
killed at the command of a number: `before` it is sent, or `after` it was, with no reply. The
program's replies are put, and its status is the status here; 64 where so many commands were not
sent.
"""
import os
import select
import shutil
import signal
import socket
import struct
import subprocess
import sys
import tempfile
import threading
import time
import tty
from concurrent.futures import ThreadPoolExecutor

INDEX = 0x1500020
SESSION = bytes.fromhex("0000010000")
# What a run may take in all, in KiB.
MEMORY = 65536
SCRIPT = b"mount\nwrite 3 6869\ncommit\n"
CODES = (0x18B, 0x14A, 0x101, 0x100, 0x148, 0x149, 0x98E, 0x9A2, 0x920, 0x921, 0x922, 1, 0xFFFFFFFF)


def message(tag, code, body):
    return struct.pack(">HII", tag, 10 + len(body), code) + body


def refusal(code):
    return message(0x8001, code, b"")


class Tpm:
    """An index of 128 bytes, which answers as a TPM does."""

    def __init__(self, held=None, attributes=0x2040004, size=128):
        self.held, self.attributes, self.size = held, attributes, size

    def answer(self, command):
        code = struct.unpack(">I", command[6:10])[0]
        if code == 0x169:
            area = struct.pack(">IHIHH", INDEX, 11, self.attributes, 0, self.size)
            name = b"\0\x0b" + bytes(32)
            return message(0x8001, 0, struct.pack(">H", len(area)) + area + struct.pack(">H", len(name)) + name)
        if code == 0x14E:
            return refusal(0x14A) if self.held is None else data(self.held)
        self.held = command[33:161]
        return message(0x8002, 0, bytes(4) + SESSION)


def data(bytes_):
    return message(0x8002, 0, struct.pack(">IH", len(bytes_) + 2, len(bytes_)) + bytes_ + SESSION)


class Gone(Exception):
    """The TPM was killed."""


class Killed:
    """The TPM at a socket, which is killed at a command."""

    def __init__(self, path, pid, at, is_before):
        self.pid, self.at, self.is_before, self.count = pid, at, is_before, 0
        self.socket = socket.socket(socket.AF_UNIX)
        self.socket.connect(path)

    def kill(self):
        os.kill(self.pid, signal.SIGKILL)
        raise Gone

    def answer(self, command):
        number, self.count = self.count, self.count + 1
        if number == self.at and self.is_before:
            self.kill()
        self.socket.sendall(command)
        reply = self.socket.recv(4096)
        if number == self.at:
            self.kill()
        return reply


class Run:
    """A run of a program, with the reply to the command of this number spoilt. A spoiler gives bytes, and whether the
    file ends behind them."""

    def __init__(self, program, folder, tpm, script, at=None, spoil=None):
        self.commands = []
        master, slave = os.openpty()
        tty.setraw(slave)
        word = f"tpm:{INDEX:#x}@{os.ttyname(slave)}"
        with tempfile.TemporaryFile() as given, tempfile.TemporaryFile() as out, tempfile.TemporaryFile() as err:
            given.write(script)
            given.seek(0)
            program = subprocess.Popen([program, "--root", word, folder], stdin=given, stdout=out, stderr=err)
            os.close(slave)
            self.serve(master, tpm, at, spoil, program)
            _, status, usage = os.wait4(program.pid, 0)
            program.returncode = self.status = os.waitstatus_to_exitcode(status)
            self.memory = usage.ru_maxrss
            out.seek(0)
            err.seek(0)
            self.out, self.err = out.read().decode(), err.read().decode()

    def serve(self, master, tpm, at, spoil, program):
        seen = b""
        while True:
            ready, _, _ = select.select([master], [], [], 10)
            try:
                more = os.read(master, 4096) if ready else b""
            except OSError:
                # The program has not opened the file yet, or has closed it.
                if os.waitid(os.P_PID, program.pid, os.WEXITED | os.WNOHANG | os.WNOWAIT):
                    break
                time.sleep(0.001)
                continue
            if not more:
                program.kill()
                break
            seen += more
            while len(seen) >= 10 and len(seen) >= struct.unpack(">I", seen[2:6])[0]:
                size = struct.unpack(">I", seen[2:6])[0]
                command, seen = seen[:size], seen[size:]
                number = len(self.commands)
                self.commands.append(command)
                try:
                    reply, ends = tpm.answer(command), False
                except Gone:
                    reply, ends = b"", True
                if number == at:
                    reply, ends = spoil(reply)
                os.write(master, reply)
                if ends:
                    os.close(master)
                    return
        os.close(master)


def spoilers(reply):
    """Names of what can be wrong with a reply, and how it is made so."""
    yield "silence", lambda it: (b"", True)
    for end in range(1, len(reply)):
        yield f"cut at {end}", lambda it, end=end: (it[:end], True)
    for size in (0, 9, len(reply) - 1, 4097, 2**32 - 1):
        yield f"size {size}", lambda it, size=size: (it[:2] + struct.pack(">I", size) + it[6:], True)
    yield "a byte more", lambda it: (it + b"\0", False)
    yield "a byte more, and its size", lambda it: (it[:2] + struct.pack(">I", len(it) + 1) + it[6:] + b"\0", False)
    yield "4,096 zeros", lambda it: (bytes(4096), False)
    for tag in (0, 0x8001, 0x8002, 0x8003):
        if struct.pack(">H", tag) != reply[:2]:
            yield f"tag {tag:#x}", lambda it, tag=tag: (struct.pack(">H", tag) + it[2:], False)
    for code in CODES:
        if refusal(code) != reply:
            yield f"code {code:#x}", lambda it, code=code: (refusal(code), False)
    yield "a code, and what is behind it", lambda it: (message(0x8002, 0x922, it[10:] or b"\0"), False)
    for name, other in (
        ("64 bytes of data", data(bytes(64))),
        ("129 bytes of data", data(bytes(129))),
        ("other data", data(bytes([5]) * 128)),
        ("that it was written", message(0x8002, 0, bytes(4) + SESSION)),
    ):
        yield name, lambda it, other=other: (other, False)
    yield "another index", lambda it: (it.replace(struct.pack(">I", INDEX), struct.pack(">I", INDEX + 1)), False)


def kinds(commands):
    """What each command is for: `public`, `open`, `load`, `write` or `back`."""
    codes = [struct.unpack(">I", it[6:10])[0] for it in commands]
    names = {0x169: "public", 0x137: "write"}
    for number, code in enumerate(codes):
        read = "open" if number == 1 else "back" if codes[number - 1] == 0x137 else "load"
        yield names.get(code, read)


def wanted(kind, name):
    """With which statuses a run may end where the reply to a command of this kind is spoilt so."""
    if kind in ("open", "load") and name in ("code 0x14a", "other data"):
        # A reply of a TPM all the same: there is no device, or another root record, which the device refuses.
        return (0, 8)
    return (1,) if kind in ("public", "open") else (5,)


class Trials:
    """Runs of a program over copies of a device, side by side, and what went wrong in them."""

    def __init__(self, program, work):
        self.program, self.work, self.base = program, work, os.path.join(work, "base")
        self.failed = self.tried = 0
        self.telling = threading.Lock()

    def wrong(self, what):
        with self.telling:
            self.failed += 1
            print(f"false_tpm: {what}", file=sys.stderr)

    def begin(self):
        """A device, the commands of a commit on it, and what its index holds before."""
        os.mkdir(self.base)
        tpm = Tpm()
        first = Run(self.program, self.base, tpm, b"format 8 64\n")
        if (first.status, first.out) != (0, "formatted\n"):
            self.wrong(f"format: {first.status} {first.out!r} {first.err!r}")
        self.held = tpm.held
        honest = Run(self.program, shutil.copytree(self.base, os.path.join(self.work, "honest")), Tpm(self.held), SCRIPT)
        if (honest.status, honest.out) != (0, "mounted 0\nok\ncommitted 1\n"):
            self.wrong(f"commit: {honest.status} {honest.out!r} {honest.err!r}")
        with open(os.path.join(self.base, "media"), "rb") as it:
            self.media = it.read()
        return honest.commands

    def tasks(self):
        """What is tried: each reply of a commit spoilt in each way, and indices in which no root record can stand."""
        commands = self.begin()
        for number, kind in enumerate(kinds(commands)):
            answers = Tpm(self.held)
            for command in commands[: number + 1]:
                reply = answers.answer(command)
            for name, spoil in spoilers(reply):
                yield self.spoilt, (number, kind, reply, name, spoil)
        for bit in (11, 13, 14, 15, 26, 27, 28, 31, 4, 5, 6, 7):
            yield self.other_index, (0x2040004 | 1 << bit, 128)
        for attributes, size in ((0x2040000, 128), (0x2000004, 128), (0x2040004, 64), (0x2040004, 129), (0x2040004, 0)):
            yield self.other_index, (attributes, size)

    def spoilt(self, number, kind, reply, name, spoil):
        folder = os.path.join(tempfile.mkdtemp(dir=self.work), "folder")
        run = Run(self.program, shutil.copytree(self.base, folder), Tpm(self.held), SCRIPT, number, spoil)
        with open(os.path.join(folder, "media"), "rb") as it:
            now = it.read()
        shutil.rmtree(os.path.dirname(folder))
        what = f"reply {number} ({kind}), {name}"
        if spoil(reply)[0] != reply and run.status not in wanted(kind, name):
            self.wrong(f"{what}: status {run.status}, {run.out!r}, {run.err!r}")
        if run.status == 1 and (now != self.media or run.out):
            self.wrong(f"{what}: the medium or the output is another one")
        if not now.startswith(self.media):
            self.wrong(f"{what}: pages are other ones")
        if run.status == 5 and name.startswith("code") and name[5:] != "0x14a" and name[5:] not in run.err:
            self.wrong(f"{what}: the code isn't told: {run.err!r}")
        if run.memory > MEMORY:
            self.wrong(f"{what}: {run.memory} KiB")
        if len(run.commands) > number + 1 and run.status in (1, 5):
            self.wrong(f"{what}: another command was sent")

    def other_index(self, attributes, size):
        folder = os.path.join(tempfile.mkdtemp(dir=self.work), "folder")
        run = Run(self.program, shutil.copytree(self.base, folder), Tpm(self.held, attributes, size), SCRIPT)
        if run.status != 1 or len(run.commands) != 1:
            self.wrong(f"attributes {attributes:#x}, {size} bytes: {run.status}")

    def do(self, task):
        what, words = task
        try:
            what(*words)
        except Exception as error:
            self.wrong(f"{words[0]}: {error!r}")
        with self.telling:
            self.tried += 1


def spoil_all(program):
    # What is answered is looked at, and not what a disk keeps: so the folders are in memory, where they can be.
    work = tempfile.mkdtemp(dir="/dev/shm" if os.access("/dev/shm", os.W_OK) else None)
    trials = Trials(program, work)
    with ThreadPoolExecutor(2 * (os.cpu_count() or 1)) as pool:
        list(pool.map(trials.do, trials.tasks()))
    shutil.rmtree(work)
    print(f"false_tpm: {trials.tried} replies, {trials.failed} failed" if trials.failed else f"false_tpm: passed, {trials.tried} replies")
    return 1 if trials.failed else 0


def kill(path, pid, at, when, program, folder):
    run = Run(program, folder, Killed(path, int(pid), int(at), when == "before"), sys.stdin.buffer.read())
    print(run.out, end="")
    print(run.err, end="", file=sys.stderr)
    return run.status if len(run.commands) > int(at) else 64


if __name__ == "__main__":
    if sys.argv[1:2] == ["--kill"]:
        sys.exit(kill(*sys.argv[2:]))
    sys.exit(spoil_all(*sys.argv[1:] or ["crates/sdbt/out/sdbt"]))
