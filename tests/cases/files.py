"""Image files under the laboratory: the bytes that calls of an image leave in its file, those that are around them, and files that
lose bytes while they are open. Files are written and compared from docs/FORMATS.md alone. Arrays are mounted whose images refuse
each call and whose memory is refused in turn, and no byte of a file changes.
"""
import os
import tempfile

from cases import Case, Talk
from images import ERASED, HEADER_END, header_bytes, image_bytes, slot_bytes
from lab import Lab

PROGRAM = "flasharr_lab"
# The number of the laboratory's arrays.
ARRAY = b"\x07" * 16
# Four dies in use, of 16 blocks of 8 slots, with 64 pages of 512 bytes; and of 4 blocks of 4 slots, with 8 pages.
FOUR = (4, 0, 16, 8, 64)
SMALL = (4, 0, 4, 4, 8)
SLOT = 576
FILE = HEADER_END + 128 * SLOT
# What a file is filled with before a call.
OLD = b"\x77"
NO_MEMORY = "refused: no memory"


def images(geometry, old=False):
    """The line that makes the images of an array."""
    dies, spares, blocks, slots, pages = geometry
    return f"images{' old' if old else ''} dies {dies} spares {spares} blocks {blocks} slots {slots} bytes 512 pages {pages}"


class Desk:
    """A laboratory over files of a folder, and what was wrong so far."""

    def __init__(self, lab, folder):
        self.lab, self.folder, self.faults = lab, folder, []

    def ask(self, line, wanted):
        answer = self.lab.ask(line)
        self.same(answer, wanted, line)
        return answer

    def same(self, found, wanted, what):
        if found != wanted:
            self.faults.append(f"{what}: wanted {wanted!r}, and it was {found!r}"[:600])

    def path(self, name):
        return os.path.join(self.folder, name)

    def read(self, name):
        with open(self.path(name), "rb") as it:
            return it.read()

    def has(self, name, wanted):
        """Asks for a file's bytes."""
        found = self.read(name)
        if found != wanted:
            at = next((i for i, (a, b) in enumerate(zip(found, wanted)) if a != b), min(len(found), len(wanted)))
            self.faults.append(f"{name} has {len(found)} bytes, and wanted are {len(wanted)}; they differ first at byte {at}")

    def refill(self, name, content):
        """Gives a file other bytes. Whoever has it open has them too."""
        with open(self.path(name), "r+b") as out:
            out.truncate(0)
            out.write(content)

    def writes(self):
        """How many writes the laboratory has made, as the system counts them. None where it does not tell."""
        try:
            with open(f"/proc/{self.lab.process.pid}/io", encoding="ascii") as counts:
                return next(int(line.split()[1]) for line in counts if line.startswith("syscw:"))
        except OSError:
            return None


def case(name, play):
    """A case of calls over files."""
    def faults(program):
        with tempfile.TemporaryDirectory(prefix="flasharr-case-") as folder:
            with open(os.path.join(folder, "bare"), "wb") as out:
                out.write(OLD * 100_000)
            # The signal of a file that is to be longer than it may be is ignored.
            with Lab(program, folder, restore_signals=False) as lab:
                desk = Desk(lab, folder)
                play(desk)
            return desk.faults
    return Case(name, [Talk(faults)], program=PROGRAM)


def page_of(number):
    """The page of a number below 256."""
    return bytes([number]) * 512


def over(content, *parts):
    """Bytes with others in their place, each with its offset."""
    for at, part in parts:
        content = content[:at] + part + content[at + len(part):]
    return content


def slot_at(number):
    return HEADER_END + number * SLOT


def new_files(desk):
    """What is formatted has its header and erased slots. A file that is there is emptied, and what is only made has zeros."""
    desk.ask(images(FOUR), "made")
    for die in range(4):
        desk.has(f"die-{die}", image_bytes(header_bytes(die, FOUR, ARRAY, mask=15), 128))
    desk.ask("bare", "made")
    desk.has("bare", bytes(FILE))


def new_files_of_format_1(desk):
    desk.ask(images(FOUR, old=True), "made")
    for die in range(4):
        desk.has(f"die-{die}", image_bytes(header_bytes(die, FOUR, ARRAY, form=1, mask=15), 128))


def around_a_program(desk):
    """Slot 17 begins at byte 13,888, and the last one ends with the image."""
    desk.ask(images(FOUR), "made")
    desk.refill("die-3", OLD * 78_000)
    desk.ask("put 3 17 5 7 90", "written")
    desk.ask("put 3 127 6 8 51", "written")
    written = ((13_888, slot_bytes(5, 7, 3, 17, page_of(90))), (77_248, slot_bytes(6, 8, 3, 127, page_of(51))))
    desk.has("die-3", over(OLD * 78_000, *written))
    desk.ask("slot 3 17", "page 5 seq 7 of 90")
    # The same in version 1, over what stands there.
    desk.ask("old slot 3 17 5 7 90", "written")
    desk.has("die-3", over(OLD * 78_000, *written, (13_888, slot_bytes(5, 7, 3, 17, page_of(90), version=1))))


def around_an_erase_and_a_header(desk):
    desk.ask(images(FOUR), "made")
    desk.ask("bare", "made")
    desk.refill("bare", OLD * 78_000)
    desk.ask("bare erase 2 1", "done")
    desk.has("bare", over(OLD * 78_000, (13_312, ERASED * 4_608)))
    desk.refill("die-0", OLD * 78_000)
    header = header_bytes(0, FOUR, ARRAY, epoch=9, mask=3, clean=False)
    desk.ask(f"write header 0 {header.hex()}", "written")
    desk.has("die-0", over(OLD * 78_000, (0, header)))
    desk.ask("header 0", "format 2 epoch 9 live 0 1 not clean")
    desk.ask("read header 0", f"header {header.hex()}")


def one_write_each(desk):
    """Each call that writes is one write of the file. One more is the laboratory's answer."""
    desk.ask(images(FOUR), "made")
    desk.ask("bare", "made")
    header = header_bytes(0, FOUR, ARRAY, epoch=2, mask=15)
    for line, answer, writes in (("nothing", "nothing", 1), ("put 0 17 5 7 90", "written", 2), ("bare erase 2 1", "done", 2),
                                 (f"write header 0 {header.hex()}", "written", 2), ("bare read 0 1", "done", 1)):
        before = desk.writes()
        desk.ask(line, answer)
        after = desk.writes()
        if before is not None:
            desk.same(after - before, writes, f"writes of {line[:20]}")


def files_that_lose_bytes(desk):
    """A byte of slot 2 is missing, then one of the header, then all. What is there is read, and what is not is refused and counted."""
    whole = image_bytes(header_bytes(0, FOUR, ARRAY, mask=15), 128, {1: slot_bytes(5, 7, 0, 1, page_of(90))})
    desk.ask(images(FOUR), "made")
    desk.refill("die-0", whole[:slot_at(3) - 1])
    for line, answer in (("slot 0 1", "page 5 seq 7 of 90"), ("slot 0 2", "refused: a slot could not be read"),
                         ("slot 0 127", "refused: a slot could not be read"), ("header 0", "format 2 epoch 1 live 0 1 2 3 clean"),
                         ("faults", "faults 2 2 0 0 0 0 0 0 0 0 0 0")):
        desk.ask(line, answer)
    for length, faults in ((111, 3), (0, 4)):
        desk.refill("die-0", whole[:length])
        desk.ask("header 0", "refused: the header could not be read")
        desk.ask("faults", f"faults {faults} {faults} 0 0 0 0 0 0 0 0 0 0")
    desk.refill("die-0", whole[:112])
    desk.ask("header 0", "format 2 epoch 1 live 0 1 2 3 clean")
    desk.ask("slot 0 0", "refused: a slot could not be read")
    desk.refill("die-0", whole)
    desk.ask("slot 0 2", "erased")


def greatest_numbers(desk):
    """Die 63 has the greatest page, in the greatest write, of 4,096 bytes, in both versions."""
    desk.ask("images dies 64 spares 0 blocks 4 slots 4 bytes 4096 pages 8", "made")
    page, seq, payload = 2 ** 20 - 1, 2 ** 62 - 1, b"\xff" * 4096
    desk.ask(f"put 63 15 {page} {seq} 255", "written")
    desk.ask(f"old slot 63 14 {page} {seq} 255", "written")
    slots = {15: slot_bytes(page, seq, 63, 15, payload), 14: slot_bytes(page, seq, 63, 14, payload, version=1)}
    header = header_bytes(63, (64, 0, 4, 4, 8), ARRAY, page_bytes=4096, mask=2 ** 64 - 1)
    desk.has("die-63", image_bytes(header, 16, slots, page_bytes=4096))
    desk.ask("slot 63 15", f"page {page} seq {seq} of 255")


def sealed_by_jobs(desk):
    """A page and a hole as an array writes them on two dies, byte by byte: the payload of both copies is hashed once."""
    desk.ask("images dies 2 spares 0 blocks 4 slots 4 bytes 512 pages 8", "made")
    desk.ask("mount 2", "mounted live 0 1")
    desk.ask("solo 1", "store")
    desk.ask("store fill 0 512 9", "done")
    desk.ask("store hole 512 512", "done")
    shape = (2, 0, 4, 4, 8)
    for die in range(2):
        slots = {0: slot_bytes(0, 1, die, 0, page_of(9)), 1: slot_bytes(1, 2, die, 1, bytes(512), kind=1)}
        desk.has(f"die-{die}", image_bytes(header_bytes(die, shape, ARRAY, epoch=2, mask=3, clean=False), 16, slots))


# ---- mounting

def contents():
    """The images of eight pages: dies 0 and 2 have headers of format 1, die 0 slots of version 1 and die 1 the same pages in version
    2. Page 7 became a hole then, on dies 2 and 3."""
    zeros = bytes(512)
    slots = {0: {page: slot_bytes(page, page + 1, 0, page, zeros, version=1) for page in range(8)},
             1: {page: slot_bytes(page, page + 1, 1, page, zeros) for page in range(8)},
             2: {0: slot_bytes(7, 9, 2, 0, zeros, kind=1)}, 3: {5: slot_bytes(7, 9, 3, 5, zeros, kind=1)}}
    return [image_bytes(header_bytes(die, SMALL, ARRAY, form=1 + die % 2, mask=15), 16, slots[die]) for die in range(4)]


def mounted(out=None):
    """What is told of the mounted array, of which one die may be out."""
    live = [die for die in range(4) if die != out]
    mask = sum(1 << die for die in live)
    pages = [f"{page + 1}:{mask & 3}" for page in range(7)] + [f"9h:{mask & 12}"]
    return f"mounted live {' '.join(map(str, live))} map {' '.join(pages)}"


def with_contents(desk, play):
    """Plays with the images of the eight pages, whose files do not change."""
    made = contents()
    desk.ask(images(SMALL), "made")
    for die, content in enumerate(made):
        desk.refill(f"die-{die}", content)
    play(desk)
    for die, content in enumerate(made):
        desk.has(f"die-{die}", content)


def each_read_refused(desk):
    """The header of an image of sixteen slots is read once, and then each slot. Where a read is refused the image is to blame,
    whether the dies are read one by one or side by side; an array that is mounted all the same is without its die."""
    desk.ask("try mount 2", mounted())
    for die in range(4):
        for call in range(1, 18):
            for line, answer in (("scan 2", f"refused: image fault {die}"), ("scan together 2", f"refused: image fault {die}"),
                                 ("try mount 2", f"refused: image fault {die}"), ("try mount unclean 2", mounted(die))):
                desk.ask(f"arm {die} {call}", "armed")
                desk.ask(line, answer)
            # An array of which no die may be missed: a header that cannot be read is that of no die.
            desk.ask(f"arm {die} {call}", "armed")
            desk.ask("try recover 2", "refused: unclean" if call == 1 else f"refused: image fault {die}")
        for line, answer in (("scan 2", "scanned 8"), ("scan together 2", "scanned 8"), ("try mount 2", mounted()),
                             ("try recover 2", mounted())):
            desk.ask(f"arm {die} 18", "armed")
            desk.ask(line, answer)
        desk.ask(f"arm {die} 0", "armed")
    desk.ask("scan unclean 2", "scanned 8")


def each_request_refused(desk):
    """Each request for memory is refused alone, and then all of more than a given number of bytes."""
    for line in ("try mount 2", "try recover 2"):
        for number in range(1, 1_000):
            desk.ask(f"heap refuse {number}", "heap")
            answer = desk.lab.ask(line)
            if answer != NO_MEMORY:
                break
        desk.same(answer, mounted(), "an array that is mounted at last")
        desk.same(number > 20, True, "whether more than 20 requests were refused")
        for most in (0, 64, 512, 4_096):
            desk.ask(f"heap full {most}", "heap")
            desk.ask(line, NO_MEMORY)
        desk.ask("heap open", "heap")
        desk.ask(line, mounted())


def cases():
    plain = (new_files, new_files_of_format_1, around_a_program, around_an_erase_and_a_header, one_write_each, files_that_lose_bytes,
             greatest_numbers, sealed_by_jobs)
    yield from (case(play.__name__, play) for play in plain)
    for play in (each_read_refused, each_request_refused):
        yield case(f"mounting/{play.__name__}", lambda desk, play=play: with_contents(desk, play))
