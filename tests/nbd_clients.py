"""The clients of NBD that others wrote, each as its package has it, on the built program: tests/nbd
runs these parts. A part whose client isn't installed says so, names the package of Debian that has
it, and is left out.
"""
import contextlib, os, random, shutil, signal, socket, subprocess, tempfile, threading, time

BLOCK, BLOCKS = 4096, 1024
SIZE = BLOCKS * BLOCK


class Stand:
    """What the parts work with: the two programs, a folder for what they make, and what to call where something isn't as wanted."""

    def __init__(self, sdbt, server, room, check):
        self.sdbt, self.server, self.room, self.check = sdbt, server, room, check

    def script(self, folder, text, *words):
        return subprocess.run([self.sdbt, folder, *words], input=text.encode(), capture_output=True, timeout=120).stdout.decode()

    def device(self):
        folder = tempfile.mkdtemp(dir=self.room)
        self.check(f"{folder}: format", "formatted\n", self.script(folder, f"format {BLOCKS} 64\n"))
        return folder

    def image(self, seed, count=SIZE):
        path = f"{self.room}/image-{seed}"
        with open(path, "wb") as file:
            file.write(random.Random(seed).randbytes(count))
            file.truncate(SIZE)
        return path

    def program(self, *words):
        """What a client writes to standard output; it has to end with status 0."""
        ran = subprocess.run(words, stdin=subprocess.DEVNULL, capture_output=True, text=True, timeout=120, check=False, env=PLAIN)
        self.check(f"{' '.join(words)}: status", (0, ""), (ran.returncode, ran.stderr if ran.returncode else ""))
        return ran.stdout

    def holds(self, what, folder, wanted):
        """The device in the folder has these bytes in its first blocks, as the other program reads them."""
        count = -(-len(wanted) // BLOCK)
        said = self.script(folder, "mount\n" + "".join(f"read {n}\n" for n in range(count))).split("\n")[1:-1]
        parts = (wanted[n * BLOCK : (n + 1) * BLOCK].rstrip(b"\0").hex() for n in range(count))
        self.check(f"{what}: blocks", [f"data {part or '-'}" for part in parts], said)

    def same_file(self, what, one, other):
        with open(one, "rb") as first, open(other, "rb") as second:
            self.check(what, True, first.read() == second.read())

    @contextlib.contextmanager
    def served(self, folder, statuses=None):
        """The address of a socket whose clients the server has one after the other, each as its standard input and output."""
        statuses = [] if statuses is None else statuses
        path = f"{folder}.socket"
        with socket.socket(socket.AF_UNIX) as listening:
            listening.bind(path)
            listening.listen()
            listening.settimeout(0.1)
            ended = threading.Event()

            def serve():
                while not ended.is_set():
                    with contextlib.suppress(TimeoutError):
                        with listening.accept()[0] as client:
                            client.setblocking(True)
                            server = subprocess.Popen([self.server, "nbd", folder], stdin=client, stdout=client, stderr=subprocess.DEVNULL)
                        statuses.append(server.wait())

            serving = threading.Thread(target=serve)
            serving.start()
            try:
                yield f"nbd+unix:///?socket={path}"
            finally:
                ended.set()
                serving.join()

    @contextlib.contextmanager
    def running(self, words, path):
        """Runs a program until the part is done with it, which waits for a file that it makes."""
        program = subprocess.Popen(words, stdin=subprocess.DEVNULL, stdout=subprocess.DEVNULL, stderr=subprocess.DEVNULL)
        try:
            until = time.monotonic() + 20
            while not os.path.exists(path) and program.poll() is None and time.monotonic() < until:
                time.sleep(0.05)
            yield program
        finally:
            if program.poll() is None:
                program.send_signal(signal.SIGTERM)
            program.wait(60)


# The system's own Python, and its programs, before any other: nbdsh takes the first python3 that it finds.
PLAIN = {**os.environ, "PATH": f"/usr/bin:/usr/sbin:/bin:/sbin:{os.environ.get('PATH', '')}", "LC_ALL": "C"}


def nbdinfo(stand):
    with stand.served(stand.device()) as uri:
        stand.check("nbdinfo: size", f"{SIZE}\n", stand.program("nbdinfo", "--size", uri))
        said = stand.program("nbdinfo", uri)
        for line in (f"export-size: {SIZE} (4M)", "can_flush: true", "can_trim: true", "can_multi_conn: false", "is_read_only: false"):
            stand.check(f"nbdinfo: {line}", True, line in said)


def nbdcopy(stand):
    folder, statuses = stand.device(), []
    image, back = stand.image(1), f"{stand.room}/back"
    with stand.served(folder, statuses) as uri:
        stand.program("nbdcopy", "--flush", image, uri)
        stand.program("nbdcopy", uri, back)
        stand.same_file("nbdcopy: there and back", image, back)
    stand.check("nbdcopy: statuses", [0, 0], statuses)
    folder, image = stand.device(), stand.image(2, 100 * BLOCK)
    with stand.served(folder) as uri:
        stand.program("nbdcopy", "--flush", "--destination-is-zero", image, uri)
        stand.program("nbdcopy", uri, back)
        stand.same_file("nbdcopy: an image with a hole", image, back)
    with open(image, "rb") as file:
        stand.holds("nbdcopy", folder, file.read(102 * BLOCK))


def nbdsh(stand):
    """What is written, trimmed and flushed is gone for whoever takes the folder, and is there in a copy of it from before."""
    folder = stand.device()
    connect = f"h.connect_command({[stand.server, 'nbd', folder]!r})"
    write = "h.pwrite(b'kept' * 1024, 0); h.pwrite(b'lost' * 1024, 3 * 4096); h.flush()"
    said = stand.program("nbdsh", "-c", connect, "-c", "print(h.get_size())", "-c", write, "-c", "h.shutdown()")
    stand.check("nbdsh: size", f"{SIZE}\n", said)
    shutil.copytree(folder, f"{folder}.before")
    trim = "h.trim(4096, 3 * 4096); h.flush(); print(bytes(h.pread(8, 3 * 4096)), bytes(h.pread(8, 4092)))"
    said = stand.program("nbdsh", "-c", connect, "-c", trim, "-c", "h.shutdown()")
    stand.check("nbdsh: trimmed", f"{bytes(8)!r} {b'kept' + bytes(4)!r}\n", said)
    for where, is_there in ((folder, False), (f"{folder}.before", True)):
        seized = stand.script(where, "", "seize")
        stand.check(f"nbdsh: block 0 in {where}", True, " block 0\n" in seized)
        stand.check(f"nbdsh: block 3 in {where}", is_there, " block 3\n" in seized)
    # What was not flushed is dropped where a client ends without a disconnect, and a refused request changes nothing.
    refused = f"""
h.set_strict_mode(0)
try:
    h.pread(2, {SIZE} - 1)
    print('done')
except nbd.Error as error:
    print(error.errno)
h.pwrite(b'late', 0)
"""
    said = stand.program("nbdsh", "-c", connect, "-c", refused)
    stand.check("nbdsh: past the end", "EINVAL\n", said)
    stand.holds("nbdsh", folder, b"kept" * 1024)


def qemu_io(stand):
    folder = stand.device()
    steps = ["write -P 0x5a 0 64k", "read -P 0x5a 0 64k", "write -P 0x33 1000k 7k", "read -P 0x33 1000k 7k", "discard 8k 16k", "flush", "read -P 0 8k 16k"]
    steps += ["read -P 0x5a 0 8k", "read -P 0x5a 24k 40k", "write -P 0x11 512 512", "read -P 0x5a 0 512", "read -P 0x11 512 512", "read -P 0x5a 1k 7k"]
    with stand.served(folder) as uri:
        said = stand.program("qemu-io", "-f", "raw", *(word for step in steps for word in ("-c", step)), uri)
        stand.check("qemu-io: verified", False, "failed" in said)
        again = stand.program("qemu-io", "-f", "raw", "-c", "read -P 0x33 1000k 7k", "-c", "read -P 0 8k 16k", uri)
        stand.check("qemu-io: verified again", False, "failed" in again)
    stand.holds("qemu-io", folder, b"\x5a" * 512 + b"\x11" * 512 + b"\x5a" * 7168 + bytes(16384) + b"\x5a" * 40960)


def qemu_img(stand):
    folder, image = stand.device(), stand.image(3, 1000000)
    with stand.served(folder) as uri:
        stand.check("qemu-img: size", True, f"({SIZE} bytes)" in stand.program("qemu-img", "info", "-f", "raw", uri))
        stand.program("qemu-img", "convert", "-n", "--target-is-zero", "-f", "raw", "-O", "raw", image, uri)
        stand.check("qemu-img: compared", "Images are identical.\n", stand.program("qemu-img", "compare", "-f", "raw", "-F", "raw", image, uri))
        pages = os.stat(f"{folder}/media").st_size // 4128
        stand.check(f"qemu-img: {pages} pages for the blocks that aren't zeros", True, pages < 300)
        stand.program("qemu-img", "convert", "-f", "raw", "-O", "raw", uri, f"{stand.room}/converted")
        stand.same_file("qemu-img: there and back", image, f"{stand.room}/converted")


def fio(stand):
    folder, statuses = stand.device(), []
    job = ["--name=job", "--ioengine=nbd", "--rw=randwrite", "--bs=4k", "--size=1M", "--io_size=2M", "--iodepth=8", "--verify=crc32c", "--verify_fatal=1", "--end_fsync=1"]
    with stand.served(folder, statuses) as uri:
        said = stand.program("fio", *job, f"--uri={uri}", f"--aux-path={stand.room}")
        stand.check("fio: errors", True, "err= 0" in said)
        # The blocks are the device's once the run has ended, since it flushed at its end.
        stand.program("fio", *job, "--verify_only=1", f"--uri={uri}", f"--aux-path={stand.room}")
    # It ends without a disconnect.
    stand.check("fio: statuses", True, set(statuses) <= {0, 3, 4})


def nbdfuse(stand):
    """The device as a file: what was synced stays, and what wasn't does not, since the program ends without a disconnect."""
    folder, mount = stand.device(), tempfile.mkdtemp(dir=stand.room)
    with stand.running(["nbdfuse", f"{mount}/disk", "--command", stand.server, "nbd", folder], f"{mount}/disk") as program:
        if program.poll() is not None:
            return "nothing can be mounted here"
        try:
            stand.check("nbdfuse: size", SIZE, os.stat(f"{mount}/disk").st_size)
            with open(f"{mount}/disk", "r+b", buffering=0) as disk:
                disk.write(b"synced")
                os.fsync(disk.fileno())
                os.pwrite(disk.fileno(), b"not synced", BLOCK)
                stand.check("nbdfuse: reads", b"not synced", os.pread(disk.fileno(), 10, BLOCK))
        finally:
            subprocess.run(["fusermount3", "-u", mount] if shutil.which("fusermount3") else ["umount", mount], check=False)
            program.wait(60)
    stand.holds("nbdfuse", folder, b"synced" + bytes(2 * BLOCK - 6))
    return None


def behind(stand, what, words, path):
    """A front that has the server as its child hands over one client after another; the server keeps what the first one left to its disconnect."""
    with stand.running(words, path):
        for wanted, put in ((bytes(5), b"first"), (b"first", b"other")):
            with socket.socket(socket.AF_UNIX) as client:
                client.settimeout(60)
                client.connect(path)
                client.sendall(bytes([0, 0, 0, 3]) + b"IHAVEOPT" + bytes([0, 0, 0, 1, 0, 0, 0, 0]))
                taking = client.makefile("rb")
                stand.check(f"{what}: greeting", b"NBDMAGICIHAVEOPT\0\3" + SIZE.to_bytes(8, "big") + b"\0\x25", taking.read(28))
                head = b"\x25\x60\x95\x13\0\0\0"
                client.sendall(head + b"\0" + bytes(16) + b"\0\0\0\5" + head + b"\1" + bytes(16) + b"\0\0\0\5" + put + head + b"\2" + bytes(20))
                done = b"\x67\x44\x66\x98" + bytes(12)
                stand.check(f"{what}: replies, and its end", done + wanted + done, taking.read())


def socat(stand):
    folder = stand.device()
    path = f"{folder}.front"
    behind(stand, "socat", ["socat", f"UNIX-LISTEN:{path},fork,max-children=1,mode=600", f"EXEC:{stand.server} nbd {folder},nofork"], path)
    stand.holds("socat", folder, b"other")


def systemd(stand):
    folder = stand.device()
    path = f"{folder}.front"
    behind(stand, "systemd-socket-activate", ["systemd-socket-activate", "-l", path, "--accept", "--inetd", stand.server, "nbd", folder], path)
    stand.holds("systemd-socket-activate", folder, b"other")


def nbdkit(stand):
    """A server in front of ours has what ours doesn't offer, here a write that is kept at once."""
    folder = stand.device()
    tried = 'qemu-io -f raw -c "write -f -P 7 4096 4096" -c "read -P 7 4096 4096" "$uri"'
    with stand.served(folder) as uri:
        sizes = ["blocksize-minimum=4096", "blocksize-preferred=4096", "blocksize-maximum=32M"]
        front = ["nbdkit", "-U", "-", "--filter=blocksize-policy", "--filter=fua", "nbd", f"socket={uri.partition('=')[2]}", "shared=true", *sizes]
        said = stand.program(*front, "fuamode=emulate", "--run", tried)
        stand.check("nbdkit: verified", False, "failed" in said)
    stand.holds("nbdkit", folder, bytes(BLOCK) + b"\7" * BLOCK)


def nbd_client(stand):
    """The handshake alone: the part of the kernel isn't tried."""
    if os.path.exists("/sys/module/nbd"):
        return "the kernel here would take the device"
    with stand.served(stand.device()) as uri:
        ran = subprocess.run(["nbd-client", "-unix", uri.partition("=")[2], "/dev/nbd0", "-b", "4096"], capture_output=True, text=True, timeout=60, env=PLAIN, check=False)
        stand.check("nbd-client: size", True, "size = 4MB" in ran.stdout + ran.stderr)
    return None


def has_module(name):
    return subprocess.run(["python3", "-c", f"import {name}"], env=PLAIN, stderr=subprocess.DEVNULL, check=False).returncode == 0


PARTS = [
    (nbdinfo, ["nbdinfo"], "libnbd-bin"),
    (nbdcopy, ["nbdcopy"], "libnbd-bin"),
    (nbdfuse, ["nbdfuse"], "libnbd-bin"),
    (nbdsh, ["nbdsh"], "python3-libnbd and libnbd-bin"),
    (qemu_io, ["qemu-io"], "qemu-utils"),
    (qemu_img, ["qemu-img"], "qemu-utils"),
    (fio, ["fio"], "fio"),
    (socat, ["socat"], "socat"),
    (systemd, ["systemd-socket-activate"], "systemd"),
    (nbdkit, ["nbdkit", "qemu-io"], "nbdkit and qemu-utils"),
    (nbd_client, ["nbd-client"], "nbd-client"),
]


def try_client(stand, part, programs, package):
    """Tries a client, and says where it is left out."""
    if not all(shutil.which(program, path=PLAIN["PATH"]) for program in programs) or (part is nbdsh and not has_module("nbd")):
        left_out = f"it isn't installed: Debian's package {package}"
    else:
        left_out = part(stand)
    if left_out:
        print(f"nbd: {programs[0]} is left out, {left_out}")


def clients(sdbt, server, room, check):
    """A name and a task for each client."""
    stand = Stand(sdbt, server, room, check)
    for part, programs, package in PARTS:
        yield programs[0], lambda words=(part, programs, package): try_client(stand, *words)
