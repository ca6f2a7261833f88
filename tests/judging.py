"""Cuts of power along a log of calls, each mounted by the second reader of tests/crashes.py and compared with what was flushed."""
from dataclasses import dataclass

from asking import flushes_in_order
from crashes import ERASE, REFUSED, SYNC, WRITE, Disk, any_choice, each_by_itself, mounted, read_image, records
from images import HEADER_END

# How many choices of sectors are tried to have a page lost that is at stake.
TRIES = 8
# How many cuts may be aimed at pages one behind the other. In the long run half of all cuts may.
MOST_AIMED = 60


@dataclass(frozen=True)
class Loss:
    """What is wrong with what is mounted behind a cut."""
    what: str
    place: str
    kept: tuple
    live: int

    def __str__(self):
        images = "all images" if len(self.kept) == self.live else f"the images of dies {', '.join(map(str, self.kept))}"
        return f"{self.what}; power was cut at {self.place}, and mounted are {images}"


@dataclass
class Counts:
    """What a judge has seen: calls of images, moments at which a page was at stake on a die, and on all dies, and pages that were lost with
    a die; of its cuts all, those where a page was at stake, those with images missing, those that lost something, those of these that had
    all images, and the pages that they compared."""
    calls: int = 0
    at_stake: int = 0
    on_none: int = 0
    gone: int = 0
    cuts: int = 0
    aimed: int = 0
    partial: int = 0
    losing: int = 0
    losing_whole: int = 0
    compared: int = 0


class Judge:
    """Follows a log of calls, and cuts the power along it.

    A page has a floor, the number of what was flushed of it last. It may not be mounted with a lower one. Where the images of all dies that
    serve are there each page with a floor has to be mounted. Where some of them are missing this is asked of the pages that a die holds
    whose image is there: one that had the page programmed with the floor or a greater number, and has begun another job behind that.
    """

    def __init__(self, array, reader, rng, *, is_recovering, sample):
        self.array, self.reader, self.rng, self.is_recovering = array, reader, rng, is_recovering
        self.geometry, self.copies, self.sample = array.geometry, array.copies, sample
        self.floors = [0] * self.geometry.pages
        self.lost_up_to = [0] * self.geometry.pages
        self.refused = set()
        self.counts = Counts()
        self.losses = []
        self.at = 0
        self.due, self.due_aimed = 0.0, float(MOST_AIMED)
        self.last = "the beginning"
        self.forget_disks()

    # ---- lives

    def forget_disks(self):
        """The images are durable as they stand."""
        self.disks = {die: Disk(self.reader, die, read_image(self.array.image(die))) for die in range(self.geometry.dies)}
        # For each die the slots whose programs are done, those that are to be seen done at the die's next job, and those of this life.
        self.done = {die: set(range(len(disk.slots))) for die, disk in self.disks.items()}
        self.ended = {die: {} for die in self.disks}
        self.begun = {die: set() for die in self.disks}
        # The dies and pages, and the pages on all dies, for which the power was cut since the last sync.
        self.at_stake, self.on_none = set(), set()
        self.written = {(slot.page, slot.seq): (slot.number, slot.kind)
                        for disk in self.disks.values() for slot in disk.slots if slot}

    def server_was_killed(self):
        """The server that made the calls is gone, and the images are what the system has of them."""
        for die, disk in self.disks.items():
            disk.was_killed(read_image(self.array.image(die)))
            self.ended[die], self.begun[die] = {}, set()

    def newest(self):
        """What is mounted where nothing is lost."""
        return mounted(self.disks, {}, copies=self.copies).pages

    def serving(self):
        return {die: disk for die, disk in self.disks.items() if die not in self.refused}

    def all_is_promised(self, numbers):
        """From here on each page that was mounted is to outlast what comes."""
        for die, disk in self.disks.items():
            self.done[die].update(at for at in range(len(disk.slots)) if at not in self.begun[die])
        self.raise_floors(numbers)

    # ---- one life

    def follow(self, log, served, asks, cuts):
        """Goes through the records of a life up to the log's end, and cuts the power so often along them. From a place of the log on the
        array was served, and so what had been mounted is promised."""
        found, end = records(log, self.at)
        programs = self.programs_of(found)
        mounted_numbers = {page: slot.seq for page, slot in self.newest().items()}
        floors = sorted(self.flushed(asks, programs), key=lambda it: it[0])
        self.judge_asks(asks, programs)
        next_floor = 0
        share = cuts / max(1, len(found))
        for record in found:
            if mounted_numbers is not None and served <= record.at:
                self.all_is_promised(mounted_numbers)
                mounted_numbers = None
            while next_floor < len(floors) and floors[next_floor][0] <= record.at:
                self.raise_floors(floors[next_floor][1])
                next_floor += 1
            self.follow_record(record)
            self.due += share
            self.due_aimed = min(MOST_AIMED, self.due_aimed + share / 2)
            while self.due >= 1:
                self.cut_anyhow()
        for _, numbers in floors[next_floor:]:
            self.raise_floors(numbers)
        # What is left of the last share is a whole cut.
        while self.due > 0.001:
            self.cut_anyhow()
        self.at = end

    def programs_of(self, found):
        """Where each page's number was programmed first, and what with: (page, seq) to (place, number of the write, kind)."""
        programs = {}
        for record in found:
            if record.kind == WRITE and not record.is_end and record.count == self.reader.slot_bytes:
                slot = self.reader.slot(record.die, (record.offset - HEADER_END) // self.reader.slot_bytes, record.data)
                if slot and (slot.page, slot.seq) not in programs:
                    programs[slot.page, slot.seq] = record.at, slot.number, slot.kind
        return programs

    def flushed(self, asks, programs):
        """The floors that follow from what was asked for: from which place of the log on, and which."""
        numbers, zeros = {}, {}
        for (page, seq), (at, number, kind) in sorted(programs.items(), key=lambda it: it[1][0]):
            if number:
                numbers[page, number] = min(seq, numbers.get((page, number), seq))
            else:
                zeros.setdefault(page, []).append((at, seq))

        def floor_of(ask, page, number):
            if number:
                return numbers.get((page, number), 0)
            return min((seq for at, seq in zeros.get(page, ()) if ask.since <= at < ask.until), default=0)

        self.seq_of = {}
        for ask in asks:
            if ask.is_answered:
                self.seq_of[ask] = {page: floor_of(ask, page, number) for page, number in enumerate(ask.numbers, ask.first)}
        for flush, answered in flushes_in_order(asks):
            found = {}
            for ask in answered:
                for page, seq in self.seq_of[ask].items():
                    found[page] = max(seq, found.get(page, 0))
            yield flush.until, found
        for ask in asks:
            if ask.is_durable and ask.is_answered:
                yield ask.until, self.seq_of[ask]

    def judge_asks(self, asks, programs):
        """Each answered write was programmed, nothing is programmed that nobody wrote, and numbers rise with the order of the answers."""
        wrote, zeroed = set(), set()
        for ask in asks:
            for page, number in enumerate(ask.numbers, ask.first):
                (wrote if number else zeroed).add((page, number))
                if number and ask.is_answered and not self.seq_of[ask][page]:
                    self.lose(f"page {page}: write {number} was answered and never programmed", "any call", ())
        for (page, seq), (at, number, kind) in programs.items():
            if (page, seq) not in self.written and (page, number) not in (zeroed if kind or number == 0 else wrote):
                self.lose(f"page {page}: number {seq} has what nobody wrote", f"byte {at} of the log", ())
            self.written.setdefault((page, seq), (number, kind))
        by_page = {}
        for ask, seqs in self.seq_of.items():
            for page, seq in seqs.items():
                if seq:
                    by_page.setdefault(page, []).append((ask.began, ask.ended, seq))
        for page, found in by_page.items():
            ends = sorted(found, key=lambda it: it[1])
            at = highest = 0
            for began, _, seq in sorted(found):
                while at < len(ends) and ends[at][1] < began:
                    highest = max(highest, ends[at][2])
                    at += 1
                if seq < highest:
                    self.lose(f"page {page}: a later write has number {seq}, and an earlier one {highest}", "any call", ())

    def raise_floors(self, numbers):
        for page, seq in numbers.items():
            if seq > max(self.floors[page], self.lost_up_to[page]):
                self.floors[page] = seq
                self.look(page)

    # ---- records

    def follow_record(self, record):
        disk = self.disks[record.die]
        self.last = str(record)
        if not record.is_end:
            self.counts.calls += 1
            if record.kind != SYNC:
                self.see_done(record.die)
        if record.kind in (WRITE, ERASE):
            slots = disk.slots_in(record.offset, record.count)
            if record.is_end:
                disk.write_ends(record.call)
                for at in slots:
                    if record.kind == WRITE and record.result == record.count and disk.slots[at]:
                        self.ended[record.die][at] = None
            else:
                self.done[record.die].difference_update(slots)
                self.begun[record.die].update(slots)
                for at in slots:
                    self.ended[record.die].pop(at, None)
                pages = disk.write_begins(record.call, record.kind, record.offset, record.data)
                for page in pages:
                    self.look_at(record.die, page)
        elif record.kind == SYNC:
            if not record.is_end:
                disk.sync_begins(record.call)
            elif record.result == 0:
                disk.sync_ends(record.call)
                self.at_stake = {it for it in self.at_stake if it[0] != record.die}
                self.on_none.clear()
        elif record.kind == REFUSED and record.die not in self.refused:
            self.goes_out(record.die)

    def see_done(self, die):
        """A die begins another job, so what it programmed before is done."""
        if self.ended[die]:
            done = self.ended[die]
            self.ended[die] = {}
            self.done[die].update(done)
            for at in done:
                if self.disks[die].slots[at]:
                    self.look_at(die, self.disks[die].slots[at].page)

    def goes_out(self, die):
        """A die's first call was refused. A page that no other die holds is lost, and nothing is promised of it before it is written."""
        self.refused.add(die)
        for page, floor in enumerate(self.floors):
            if floor and not any(self.holds(other, page) for other in self.serving()):
                self.counts.gone += 1
                self.floors[page] = 0
                slots = [disk.slots[at] for disk in self.disks.values() for at in disk.of_page.get(page, ())]
                self.lost_up_to[page] = max((slot.seq for slot in slots), default=0)

    def holds(self, die, page):
        disk = self.disks[die]
        return any(at in self.done[die] and disk.slots[at].seq >= self.floors[page] for at in disk.of_page.get(page, ()))

    def is_safe(self, die, page):
        """Whether a die has a page with its floor, or a greater number, in a slot that is found as it is whatever is lost."""
        disk = self.disks[die]
        return any(disk.is_settled(at) and disk.slots[at].seq >= self.floors[page] for at in disk.of_page.get(page, ()))

    # ---- cuts

    def look(self, page):
        for die in self.serving():
            self.look_at(die, page)

    def look_at(self, die, page):
        """Cuts the power where something changed on a die and a page is at stake: once for each page until a die's next sync."""
        if not self.floors[page] or die in self.refused:
            return
        if page not in self.on_none and not any(self.is_safe(it, page) for it in self.serving()):
            self.on_none.add(page)
            self.counts.on_none += 1
            self.aim(list(self.disks), 1)
        if (die, page) not in self.at_stake and self.holds(die, page) and not self.is_safe(die, page):
            self.at_stake.add((die, page))
            self.counts.at_stake += 1
            # Some of these cuts are kept back for the pages that no die has for sure.
            self.aim([it for it in self.disks if it in self.refused or not self.is_safe(it, page)], MOST_AIMED / 2)

    def aim(self, kept, least):
        """Cuts the power until something is lost, where there are enough cuts left for that."""
        for _ in range(TRIES):
            if self.due_aimed < least:
                break
            self.due_aimed -= 1
            self.counts.aimed += 1
            if self.cut(kept, each_by_itself(self.disks, self.rng)):
                break

    def cut_anyhow(self):
        chance = self.rng.random()
        kept = list(self.disks)
        if chance < 0.25:
            kept.remove(self.rng.choice(kept))
        elif chance < 0.4:
            kept = sorted(self.rng.sample(kept, self.rng.randint(1, len(kept))))
        elif chance < 0.55:
            kept = [it for it in kept if it not in self.refused]
        self.cut(kept, any_choice(self.disks, self.rng))

    def cut(self, kept, chosen):
        """Cuts the power now, with these images left. Whether something is lost."""
        self.counts.cuts += 1
        self.due -= 1
        is_whole = all(die in kept for die in self.serving())
        self.counts.partial += not is_whole
        disks = {die: self.disks[die] for die in kept}
        its = mounted(disks, chosen, copies=self.copies)
        said = self.fault_of(its, kept, is_whole)
        if said:
            self.counts.losing_whole += is_whole
            self.lose(said, self.last, tuple(kept))
        self.sample(self, disks, chosen)
        return bool(said)

    def lose(self, said, place, kept):
        self.counts.losing += 1
        if len(self.losses) < 1000:
            self.losses.append(Loss(said, place, kept, len(self.disks)))

    def fault_of(self, its, kept, is_whole):
        for page, floor in enumerate(self.floors):
            if not floor:
                continue
            if not is_whole and not any(die not in self.refused and self.holds(die, page) for die in kept):
                continue
            self.counts.compared += 1
            slot = its.pages.get(page)
            if slot is None or slot.seq < floor:
                return (f"page {page} was flushed with number {floor}, and is mounted "
                        + (f"with number {slot.seq}" if slot else "with no copy"))
        for page, slot in its.pages.items():
            if self.written.get((page, slot.seq)) != (slot.number, slot.kind):
                return f"page {page} is mounted with number {slot.seq} and write {slot.number}, which no write of that number had"
        if self.is_recovering and len(kept) == len(self.disks) and its.refusal:
            return f"--recover would refuse, since {its.refusal}"
        if is_whole and its.is_clean:
            if {page: slot.seq for page, slot in self.newest().items()} != {page: slot.seq for page, slot in its.pages.items()}:
                return "what is mounted is clean, and is not what was closed"
        return None
