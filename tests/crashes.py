"""What a loss of power may leave of images, and what is mounted of it, by docs/FORMATS.md alone.

The calls on the images are known by a log (tests/call_log.c). At any moment each sector of 512 bytes has the contents that it may be found
with: the one that it had at the last accepted sync of its image, and each one that it was given since by a call that had begun. A cut
chooses one of these for each sector, whatever it chooses for others.
"""
import hashlib
import os
import struct
from dataclasses import dataclass, field

from images import HEADER_END, TAG_BYTES
from numbered import number_of

SECTOR = 512
HEADER = struct.Struct(">8s8I3Q16s32s")
TAG = struct.Struct(">4sI3Q32s")
RECORD = struct.Struct("<I4B3Qq")
WRITE, ERASE, SYNC, REFUSED = range(4)
KINDS = {WRITE: "a write", ERASE: "an erase", SYNC: "a sync", REFUSED: "a refused call"}


@dataclass
class Record:
    """The beginning or the end of a call, and where it stands in the log."""
    at: int
    kind: int
    die: int
    is_end: bool
    call: int
    offset: int
    count: int
    result: int
    data: bytes

    def __str__(self):
        return f"{'the end' if self.is_end else 'the beginning'} of {KINDS[self.kind]} of die {self.die} (byte {self.at} of the log)"


def records(path, since):
    """The records of a log that stand at a place or behind it, and where the log ends."""
    with open(path, "rb") as log:
        log.seek(since)
        text = log.read()
    found, at = [], 0
    while at + RECORD.size <= len(text):
        length, kind, die, is_end, _, call, offset, count, result = RECORD.unpack_from(text, at)
        behind = at + RECORD.size + length
        if behind > len(text):
            break
        data = text[at + RECORD.size:behind]
        if kind == ERASE and not is_end:
            data = b"\xff" * count
        found.append(Record(since + at, kind, die, bool(is_end), call, offset, count, result, data))
        at = behind
    return found, since + at


@dataclass(frozen=True)
class Slot:
    """A good slot of a page: its sequence number, whether it is a hole, and the number of its write."""
    page: int
    seq: int
    kind: int
    number: object


@dataclass(frozen=True)
class Header:
    die: int
    is_clean: bool
    is_spare: bool
    epoch: int
    mask: int


class Reader:
    """Reads slots and headers of an array's images. What was read once is kept."""

    def __init__(self, geometry):
        self.geometry = geometry
        self.slot_bytes = geometry.page_bytes + TAG_BYTES
        self.erased = b"\xff" * self.slot_bytes
        self.slots_read, self.headers_read = {}, {}

    def slot(self, die, slot, data):
        """The slot, or None where it is erased, bad, or another's."""
        if data == self.erased:
            return None
        key = die, slot, data
        if key not in self.slots_read:
            if len(self.slots_read) > 200_000:
                self.slots_read.clear()
            self.slots_read[key] = self.read_slot(die, slot, data)
        return self.slots_read[key]

    def read_slot(self, die, slot, data):
        size = self.geometry.page_bytes
        letters, kind, page, seq, place, digest = TAG.unpack_from(data, size)
        if letters != b"SLT2" or kind > 1 or place != die << 32 | slot or page >= self.geometry.pages or not 1 <= seq < 1 << 62:
            return None
        if hashlib.sha256(data[:-32]).digest() != digest:
            return None
        return Slot(page, seq, kind, number_of(data[:size], page))

    def header(self, data):
        """The header, or None where the bytes are none."""
        if data not in self.headers_read:
            self.headers_read[data] = self.read_header(data)
        return self.headers_read[data]

    def read_header(self, data):
        letters, form, die, dies, spares, blocks, slots, page_bytes, marks, pages, epoch, mask, _, digest = HEADER.unpack_from(data)
        its = self.geometry
        if letters != b"FLSHARR1" or form != 2 or hashlib.sha256(data[:80]).digest() != digest:
            return None
        if (dies, spares, blocks, slots, page_bytes, pages) != (its.dies, its.spares, its.blocks, its.slots, its.page_bytes, its.pages):
            return None
        return Header(die, bool(marks & 1), bool(marks & 2), epoch, mask)


@dataclass
class Version:
    """The bytes of a sector from a call on. The first one of a sector is durable."""
    data: bytes
    stamp: int = 0
    call: object = None
    kind: int = WRITE


class Disk:
    """An image: what it holds by all calls that have begun, and what else each of its sectors may be found with."""

    def __init__(self, reader, die, data):
        self.reader, self.die = reader, die
        self.data = bytearray(data)
        self.stamp = 0
        self.under_way = set()
        self.syncs = {}
        self.versions = {}
        # The calls since the last sync that wrote a slot, by the slot's number.
        self.writers = {}
        size = reader.slot_bytes
        count = reader.geometry.blocks * reader.geometry.slots
        self.slots = [reader.slot(die, at, bytes(self.data[HEADER_END + at * size:HEADER_END + (at + 1) * size])) for at in range(count)]
        self.of_page = {}
        for at, slot in enumerate(self.slots):
            if slot:
                self.of_page.setdefault(slot.page, set()).add(at)

    def sector(self, number):
        return bytes(self.data[number * SECTOR:(number + 1) * SECTOR])

    def slots_in(self, offset, count):
        """The numbers of the slots that have bytes in a range."""
        size = self.reader.slot_bytes
        first = max(0, (offset - HEADER_END) // size)
        past = -(-(offset + count - HEADER_END) // size)
        return range(first, max(first, min(past, len(self.slots))))

    def write_begins(self, call, kind, offset, data):
        """A call writes these bytes. Gives the pages that had a slot there."""
        self.stamp += 1
        self.under_way.add(call)
        sectors = range(offset // SECTOR, -(-(offset + len(data)) // SECTOR))
        for number in sectors:
            if number not in self.versions:
                self.versions[number] = [Version(self.sector(number))]
        self.data[offset:offset + len(data)] = data
        for number in sectors:
            self.versions[number].append(Version(self.sector(number), self.stamp, call, kind))
        pages = set()
        size = self.reader.slot_bytes
        for at in self.slots_in(offset, len(data)):
            self.writers.setdefault(at, []).append((self.stamp, call))
            old = self.slots[at]
            if old:
                self.of_page[old.page].discard(at)
                pages.add(old.page)
            begin = HEADER_END + at * size
            new = self.slots[at] = self.reader.slot(self.die, at, bytes(self.data[begin:begin + size]))
            if new:
                self.of_page.setdefault(new.page, set()).add(at)
        return pages

    def write_ends(self, call):
        self.under_way.discard(call)

    def sync_begins(self, call):
        self.syncs[call] = self.stamp, frozenset(self.under_way)

    def sync_ends(self, call):
        """An accepted sync makes durable what the calls wrote that had ended before it began."""
        mark, open_calls = self.syncs.pop(call)

        def is_durable(stamp, writer):
            return stamp <= mark and writer not in open_calls

        for number in list(self.versions):
            found = self.versions[number]
            last = max(at for at, it in enumerate(found) if is_durable(it.stamp, it.call))
            if last == len(found) - 1:
                del self.versions[number]
            else:
                self.versions[number] = [Version(found[last].data), *found[last + 1:]]
        for at in list(self.writers):
            left = [it for it in self.writers[at] if not is_durable(*it)]
            if left:
                self.writers[at] = left
            else:
                del self.writers[at]

    def was_killed(self, data):
        """The process that made the calls is gone. Those that had not ended have done what is found in the image, and nothing more."""
        self.under_way.clear()
        self.syncs.clear()
        for number in list(self.versions):
            found = bytes(data[number * SECTOR:(number + 1) * SECTOR])
            if found != self.sector(number):
                self.stamp += 1
                self.write_begins(None, WRITE, number * SECTOR, found)
                self.write_ends(None)

    def is_settled(self, slot):
        """Whether a slot is found as it is, whatever is lost."""
        return slot not in self.writers

    def slot_of(self, at, chosen):
        """A slot as a choice of sectors leaves it."""
        size = self.reader.slot_bytes
        begin, past = HEADER_END + at * size, HEADER_END + (at + 1) * size
        parts = []
        for number in range(begin // SECTOR, -(-past // SECTOR)):
            first, last = max(begin, number * SECTOR), min(past, (number + 1) * SECTOR)
            data = chosen.get(number)
            parts.append(bytes(self.data[first:last]) if data is None else data[first - number * SECTOR:last - number * SECTOR])
        return self.reader.slot(self.die, at, b"".join(parts))

    def slots_of(self, chosen):
        """All slots as a choice of sectors leaves them."""
        if not self.writers:
            return self.slots
        slots = list(self.slots)
        for at in self.writers:
            slots[at] = self.slot_of(at, chosen)
        return slots

    def header_of(self, chosen):
        return self.reader.header(bytes(chosen.get(0) or self.sector(0))[:HEADER.size])

    def bytes_of(self, chosen):
        """The image as a choice of sectors leaves it."""
        data = bytearray(self.data)
        for number, found in chosen.items():
            data[number * SECTOR:number * SECTOR + len(found)] = found
        return bytes(data)


# ---- choices: for each sector that has several contents one of them

def each_by_itself(disks, rng):
    """Each sector keeps any of its contents."""
    return {die: {number: rng.choice(found).data for number, found in disk.versions.items()} for die, disk in disks.items()}


def each_call(disks, share, erase_share, rng):
    """Each call has reached the disk as a whole or not at all, by a share of those that write and one of those that erase."""
    landed = {}

    def is_there(die, version):
        if version.stamp == 0:
            return True
        key = die, version.stamp
        if key not in landed:
            landed[key] = rng.random() < (erase_share if version.kind == ERASE else share)
        return landed[key]

    return {die: {number: next(it.data for it in reversed(found) if is_there(die, it)) for number, found in disk.versions.items()}
            for die, disk in disks.items()}


def each_disk(disks, rng):
    """Each disk keeps all of it or nothing, whatever others keep."""
    chosen = {}
    for die, disk in disks.items():
        place = -1 if rng.random() < 0.5 else 0
        chosen[die] = {number: found[place].data for number, found in disk.versions.items()}
    return chosen


def any_choice(disks, rng):
    kind = rng.random()
    if kind < 0.35:
        return each_by_itself(disks, rng)
    if kind < 0.5:
        return each_disk(disks, rng)
    if kind < 0.75:
        return each_call(disks, 0.3, 0.9, rng)
    share = rng.choice([0.1, 0.5, 0.9])
    return each_call(disks, share, share, rng)


# ---- mounting

@dataclass
class Mounted:
    """What is mounted of images: the refusal of `--recover` if there is one, and of each page the slot with the greatest number."""
    refusal: object = None
    epoch: int = 0
    is_clean: bool = False
    live: list = field(default_factory=list)
    spares: list = field(default_factory=list)
    pages: dict = field(default_factory=dict)
    places: dict = field(default_factory=dict)


def mounted(disks, chosen, *, copies, with_places=False):
    """What `--unclean` mounts of these disks, by a choice of sectors, and whether `--recover` would refuse it."""
    headers = {die: disk.header_of(chosen.get(die, {})) for die, disk in disks.items()}
    its = Mounted()
    if any(it is None for it in headers.values()):
        its.refusal = "a header is none"
    headers = {die: it for die, it in headers.items() if it}
    its.epoch = max((it.epoch for it in headers.values()), default=0)
    masks = {it.mask for it in headers.values() if it.epoch == its.epoch}
    if len(masks) > 1:
        its.refusal = "two headers of the greatest epoch have other masks"
        return its
    mask = masks.pop() if masks else 0
    geometry = next(iter(disks.values())).reader.geometry
    members = [die for die in range(geometry.dies) if mask >> die & 1]
    missing = [die for die in members if die not in headers]
    its.live = [die for die in members if die in headers and not headers[die].is_spare]
    its.is_clean = len(its.live) == len(members) and all(headers[die].is_clean and headers[die].epoch == its.epoch for die in members)
    slots = {die: disks[die].slots_of(chosen.get(die, {})) for die in headers if die in its.live or headers[die].is_spare}
    its.spares = [die for die in slots if headers[die].is_spare and is_erased(disks[die], chosen.get(die, {}))]
    if missing:
        its.refusal = f"die {missing[0]} is missing"
    elif any(headers[die].is_spare and die not in its.spares for die in members):
        its.refusal = "a die of the mask is a spare whose slots are not erased"
    elif geometry.dies - len(members) - sum(die not in members for die in its.spares) >= copies:
        its.refusal = "as many dies are out as a page has copies"
    if not its.live:
        its.refusal = "no die is live"
    for die in its.live:
        pages = its.pages
        for slot in slots[die]:
            if slot and (slot.page not in pages or pages[slot.page].seq < slot.seq):
                pages[slot.page] = slot
    if with_places:
        for die in its.live:
            for at, slot in enumerate(slots[die]):
                if slot and its.pages[slot.page].seq == slot.seq and its.pages[slot.page].kind == slot.kind:
                    its.places.setdefault(slot.page, {}).setdefault(die, at)
    return its


def is_erased(disk, chosen):
    data = disk.bytes_of(chosen) if chosen else disk.data
    end = HEADER_END + len(disk.slots) * disk.reader.slot_bytes
    return data[HEADER_END:end].count(0xff) == end - HEADER_END


def lines_of(its, geometry, copies):
    """What `check` and `dump` print of what is mounted."""
    most = min(copies, len(its.live))
    thin = sum(len(places) < most for places in its.places.values())
    check = (f"dies {geometry.dies} live {len(its.live)} spare {len(its.spares)}\nepoch {its.epoch} "
             f"{'clean' if its.is_clean else 'unclean'}\nwritten {len(its.pages)} thin {thin}\n")
    dump = "".join(f"page {page} seq {its.pages[page].seq}{' hole' if its.pages[page].kind else ''} at "
                   + " ".join(f"{die}:{at}" for die, at in sorted(its.places[page].items())) + "\n" for page in sorted(its.pages))
    return check, dump


def read_image(path):
    with open(path, "rb") as image:
        return image.read()


def write_images(array, disks, chosen):
    """Writes the images that a cut left. Those of other dies are removed."""
    for die in range(array.geometry.dies):
        if die in disks:
            with open(array.image(die), "wb") as image:
                image.write(disks[die].bytes_of(chosen.get(die, {})))
        elif os.path.exists(array.image(die)):
            os.remove(array.image(die))
