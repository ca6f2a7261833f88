"""Arrays in folders of their own, the program that serves one, and what its images hold by docs/FORMATS.md alone."""
import os
import re
import shutil
import struct
import subprocess
import tempfile
import threading
import time
import traceback
from dataclasses import dataclass

from children import CHILDREN
from images import HEADER_END, TAG_BYTES, slot_bytes
from nbd_client import Client

ARRAY = bytes.fromhex("00112233445566778899aabbccddeeff")
RECOVER = "--recover"
SETTINGS = "array.toml"
# What an installed program is started by.
LAUNCHER = os.path.join(os.path.dirname(os.path.dirname(os.path.abspath(__file__))), "flasharr")
LISTENING = re.compile(r"listening (127\.0\.0\.1):(\d{1,5})")
FAULT = re.compile(r"fault die (\d+) cause ([1-7]) round (\d+)")
PLACES = re.compile(r"page (\d+) seq (\d+)( hole)? at ((?:\d+:\d+ ?)+)")
# How long the program may take to begin, to end, and to heal an array, in seconds.
START, END, HEAL = 20, 20, 20


class Wrong(Exception):
    """What is not as it is wanted."""


def ensure(holds, said):
    if not holds:
        raise Wrong(said)


def equal(found, wanted, what):
    if found != wanted:
        shown = [repr(it)[:300] for it in (found, wanted)]
        raise Wrong(f"{what} is {shown[0]}, and wanted is {shown[1]}")


def same_bytes(found, wanted, what):
    """Asks that bytes are the wanted ones, and tells where they differ first."""
    if found != wanted:
        at = next((i for i, (a, b) in enumerate(zip(found, wanted)) if a != b), min(len(found), len(wanted)))
        raise Wrong(f"{what}: {len(found)} bytes, wanted {len(wanted)}; at {at} stands {found[at:at + 16].hex()}, "
                    f"and wanted is {wanted[at:at + 16].hex()}")


def wait_until(holds, seconds):
    """Whether a test held before so many seconds had passed."""
    end = time.monotonic() + seconds
    while not holds():
        if time.monotonic() > end:
            return False
        time.sleep(0.02)
    return True


@dataclass(frozen=True)
class Geometry:
    dies: int = 4
    spares: int = 0
    blocks: int = 16
    slots: int = 8
    pages: int = 64
    page_bytes: int = 512

    @property
    def size(self):
        return self.pages * self.page_bytes

    @property
    def slot_bytes(self):
        return self.page_bytes + TAG_BYTES


class Array:
    """The settings and images of an array in a folder, and the program that works on them."""

    def __init__(self, program, folder, geometry=Geometry(), *, sessions=16, copies=2, port=0, export="disk", formatted=True,
                 settings=True):
        self.program, self.folder, self.geometry, self.copies = program, folder, geometry, copies
        self.servers = []
        if settings:
            self.put_settings(sessions, port, export)
        if formatted:
            self.wanted(f"formatted {geometry.dies} images\n", "format")

    def put_settings(self, sessions, port, export):
        geometry, copies = self.geometry, self.copies
        names = ", ".join(f'"d{die}.img"' for die in range(geometry.dies))
        self.put(SETTINGS, f'array = "{ARRAY.hex()}"\nimages = [{names}]\ndies = {geometry.dies}\nspares = {geometry.spares}\n'
                 f'blocks = {geometry.blocks}\nslots = {geometry.slots}\npage_bytes = {geometry.page_bytes}\n'
                 f'pages = {geometry.pages}\ncopies = {copies}\nwindow_rounds = 8\nlisten = "127.0.0.1:{port}"\n'
                 f'export = "{export}"\nsessions = {sessions}\n')

    def path(self, name):
        return os.path.join(self.folder, name)

    def put(self, name, text):
        with open(self.path(name), "w", encoding="ascii") as out:
            out.write(text)

    def image(self, die):
        return self.path(f"d{die}.img")

    def run_words(self, *words, stdin=subprocess.DEVNULL):
        """The status and the output of the program, which is to end by itself."""
        status, output = CHILDREN.run([self.program, *words], 60, cwd=self.folder, stdin=stdin, stderr=subprocess.PIPE)
        return status, output.decode("utf-8", "backslashreplace")

    def run(self, command, *words):
        """The status and the output of a command on the settings."""
        return self.run_words(command, SETTINGS, *words)

    def wanted(self, text, command, *words, status=0):
        equal(self.run(command, *words), (status, text), f"what {' '.join((command, *words))} ends with and prints")

    def check(self, *words):
        """What `check` tells as numbers: dies, live, spare, epoch, whether it is clean, written and thin."""
        status, text = self.run("check", *words)
        form = r"dies (\d+) live (\d+) spare (\d+)\nepoch (\d+) (clean|unclean)\nwritten (\d+) thin (\d+)\n"
        found = re.fullmatch(form, text)
        ensure(found and status == 0, f"check ends with {status} and prints {text!r}")
        names = ("dies", "live", "spare", "epoch", "clean", "written", "thin")
        told = {name: int(it) if it.isdigit() else it == "clean" for name, it in zip(names, found.groups())}
        return told

    def checked(self, **numbers):
        """Asks that `check` tells these numbers, and a clean array."""
        told = self.check()
        wanted = {"clean": True, **numbers}
        equal({name: told[name] for name in wanted}, wanted, "what check tells")
        return told

    def dump(self):
        """For each written page its sequence number, its kind and its places, as `dump` prints them."""
        status, text = self.run("dump")
        equal(status, 0, f"the status of dump, which printed {text[:100]!r}")
        pages = {}
        for line in text.splitlines():
            found = PLACES.fullmatch(line)
            ensure(found, f"dump prints {line!r}")
            page, seq, hole, places = found.groups()
            pages[int(page)] = (int(seq), int(bool(hole)), [tuple(map(int, it.split(":"))) for it in places.split()])
        return pages

    def take_away(self, die):
        """Cuts a die's image behind its header, so that each read of a slot of it fails, or finds what is no slot's."""
        os.truncate(self.image(die), HEADER_END)

    def has_copies_of(self, content, version=2):
        """Asks that each page that was written stands in the images as often as it is to, each time with this content, in slots of
        this version."""
        size, page_bytes = self.geometry.slot_bytes, self.geometry.page_bytes
        pages = self.dump()
        images = {}
        live = self.check()["live"]
        for page, (seq, kind, places) in pages.items():
            payload = content[page * page_bytes:(page + 1) * page_bytes]
            equal(len(places), min(self.copies, live), f"the number of copies of page {page}")
            for die, slot in places:
                if die not in images:
                    with open(self.image(die), "rb") as it:
                        images[die] = it.read()
                at = HEADER_END + slot * size
                same_bytes(images[die][at:at + size], slot_bytes(page, seq, die, slot, payload, version=version, kind=kind),
                           f"page {page} at die {die}, slot {slot}")
        for page in set(range(self.geometry.pages)) - set(pages):
            same_bytes(content[page * page_bytes:(page + 1) * page_bytes], bytes(page_bytes), f"page {page}, never written")

    def standing(self):
        """How many dies are live by the headers of the greatest epoch, and how many pages are thin, as the images stand now."""
        live, thin = self.thin_pages()
        return live, len(thin)

    def thin_pages(self):
        """How many dies are live by the headers of the greatest epoch, and the pages that are thin, each with its sequence number.

        Digests are not looked at: it is for waiting while the program writes to the images, and `check` has the last word.
        """
        images = {}
        masks = {0: 0}
        for die in range(self.geometry.dies):
            with open(self.image(die), "rb") as it:
                images[die] = it.read()
            epoch, mask = struct.unpack(">QQ", images[die][48:64])
            masks[epoch] = mask
        mask = masks[max(masks)]
        live = [die for die in images if mask >> die & 1]
        copies = {}
        for die in live:
            for page, seq in self.tags(images[die], die):
                best, dies = copies.get(page, (0, set()))
                copies[page] = (seq, {die}) if seq > best else (best, dies | {die} if seq == best else dies)
        most = min(self.copies, len(live))
        return len(live), {page: seq for page, (seq, dies) in copies.items() if len(dies) < most}

    def tags(self, image, die):
        """The page and the sequence number of each slot whose tag names this die and this slot."""
        size, page_bytes = self.geometry.slot_bytes, self.geometry.page_bytes
        for slot in range((len(image) - HEADER_END) // size):
            at = HEADER_END + slot * size + page_bytes
            letters, _, page, seq, place = struct.unpack(">4sI3Q", image[at:at + 32])
            if letters in (b"SLT1", b"SLT2") and place == die << 32 | slot and page < self.geometry.pages:
                yield page, seq

    def heals(self, live):
        """Waits until so many dies are live and no page is thin. What came of it is for `check` to tell."""
        wait_until(lambda: self.standing() == (live, 0), HEAL)

    def serve(self, *words, env=None):
        server = Server(self, self.program, words, env=env)
        self.servers.append(server)
        return server.started()

    def serve_below_launcher(self, stdin=subprocess.PIPE):
        return self.start_below_launcher(stdin).started()

    def start_below_launcher(self, stdin=subprocess.PIPE):
        """The server as an installed `flasharr` starts it, in a group of its own."""
        command = self.path("installed/bin/flasharr")
        if not os.path.exists(command):
            os.makedirs(os.path.dirname(command))
            os.mkdir(self.path("installed/libexec"))
            shutil.copy(LAUNCHER, command)
            os.symlink(self.program, self.path("installed/libexec/flasharr"))
        server = Server(self, command, (), stdin=stdin, in_group=True)
        self.servers.append(server)
        return server


class Server:
    """The program while it serves an array. What it prints is collected as it comes."""

    def __init__(self, array, command, words, *, stdin=subprocess.PIPE, in_group=False, env=None):
        self.process = CHILDREN.start([command, "serve", SETTINGS, *words], cwd=array.folder, in_group=in_group, stdin=stdin,
                                      stdout=subprocess.PIPE, stderr=subprocess.PIPE, bufsize=0, env=env)
        self.output, self.errors = [], []
        self.address = None
        self.readers = [threading.Thread(target=self.collect, args=it, daemon=True)
                        for it in ((self.process.stdout, self.output), (self.process.stderr, self.errors))]
        for reader in self.readers:
            reader.start()

    @staticmethod
    def collect(stream, lines):
        for line in open(stream.fileno(), "rb", closefd=False):
            lines.append(line.decode("utf-8", "backslashreplace").rstrip("\n"))

    def __enter__(self):
        return self

    def __exit__(self, *_):
        self.kill()

    def started(self):
        """Waits for the line `listening ADDRESS`."""
        wait_until(lambda: self.output or self.process.poll() is not None, START)
        found = LISTENING.fullmatch(self.output[0]) if self.output else None
        if not found:
            self.kill()
            raise Wrong(f"the first line is {self.output[:1]}, and wanted is 'listening ADDRESS'; on standard error: {self.errors[-3:]}")
        self.address = found.group(1), int(found.group(2))
        return self

    def client(self, **how):
        """A client that is in transmission."""
        made = Client(self.address, **how)
        try:
            return made.go()
        except BaseException:
            made.close()
            raise

    def says(self, line):
        self.process.stdin.write(f"{line}\n".encode())

    def is_told(self, words):
        """Whether a line of standard error has these words."""
        return any(re.search(rf"\b{words}\b", line) for line in list(self.errors))

    def end(self, seconds=END):
        """Ends the input, waits for the program's end, and gives its status and the lines behind the first."""
        self.process.stdin.close()
        return self.ended(seconds)

    def ended(self, seconds=END):
        """Waits for the program's end, and gives its status and the lines behind the first."""
        try:
            status = self.process.wait(seconds)
        except subprocess.TimeoutExpired:
            raise Wrong(f"had not ended after {seconds} seconds; printed: {self.output[-5:]}") from None
        for reader in self.readers:
            reader.join(END)
        odd = [line for line in self.errors if not line.startswith("flasharr: ")]
        ensure(not odd, f"lines on standard error do not begin with 'flasharr: ': {odd[:3]}")
        return status, self.output[1:]

    def stop(self, seconds=END, *, faults=()):
        """Stops the server, which is to close clean. `faults` are the dies of which it is to tell a fault."""
        self.says("stop")
        status, lines = self.end(seconds)
        told = [FAULT.fullmatch(line) for line in lines[:-1]]
        ensure(lines[-1:] == ["closed clean"] and all(told) and status == 0, f"ended with {status} and printed {lines}")
        equal(sorted({int(it.group(1)) for it in told}), sorted(faults), f"the dies of {lines[:-1]}")
        return lines

    def kill(self):
        """Ends the program as a loss of power does, where it has not ended."""
        if self.process.poll() is None or self.process.in_group:
            CHILDREN.kill(self.process)
        self.process.wait()
        if self.process.stdin and not self.process.stdin.closed:
            try:
                self.process.stdin.close()
            except OSError:
                pass
        for reader in self.readers:
            reader.join(END)
        self.process.stdout.close()
        self.process.stderr.close()


OWN_FILES = os.path.abspath(__file__), os.path.join(os.path.dirname(os.path.abspath(__file__)), "nbd_client.py")


def unclean_word(program, folder):
    """The word by which an array is served that was not closed: `--recover` where the program has it."""
    array = Array(program, folder, formatted=False)
    return RECOVER if RECOVER in array.run_words("serve", "--help")[1] else "--unclean"


def fault_of(program, function):
    """Runs a case, and gives the lines that say how it failed, none where it passed.

    A case is a function of `make`, which makes an array in a folder of its own, as Array(program, folder, ..) does. Whatever comes
    of it, the servers that it started are ended.
    """
    arrays = []

    with tempfile.TemporaryDirectory(dir=CHILDREN.folder) as top:
        def make(*geometry, **how):
            folder = os.path.join(top, str(len(arrays)))
            os.mkdir(folder)
            arrays.append(Array(program, folder, *geometry, **how))
            return arrays[-1]

        try:
            function(make)
        except Exception as error:
            said = [line for array in arrays for server in array.servers for line in server.errors[-4:]]
            return [f"{type(error).__name__}: {error}", *place_of(error), *(f"standard error: {line[:200]}" for line in said)]
        finally:
            for array in arrays:
                for server in array.servers:
                    server.kill()
    return []


def place_of(error):
    """The line of a case at which an error came."""
    tests = os.path.dirname(OWN_FILES[0])
    for frame in reversed(traceback.extract_tb(error.__traceback__)):
        path = os.path.abspath(frame.filename)
        if path.startswith(tests) and path not in OWN_FILES:
            return [f"at {os.path.relpath(path, tests)}:{frame.lineno}: {frame.line}"]
    return []
