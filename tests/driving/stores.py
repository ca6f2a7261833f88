"""Drives stores of one thread over arrays whose images fail and lie and whose memory is refused, in an order that a seed settles, and
judges each answer (docs/SOLO.md).
"""
from collections import namedtuple
from random import Random

from driving.chance import Chance
from driving.store_calls import PAGE_BYTES, Call, draw_bytes
from driving.store_judge import Judge, Way
from lab import Lab

# The most lives of an array, the most turns of a life, and the most calls of a turn.
MOST_LIVES = 5
MOST_TURNS = 60
MOST_CALLS = 6
BLOCK_SLOTS = 4
# An array has fewer pages than its dies have room for, by less than this.
MOST_PAGES_LEFT = 4
# An array has one of these, at random: once in that number of turns an image is armed.
ARMED_EVERY = (4, 12, 40, 120)
# Its first call to its last of these is refused, or once in three times one of its reads gives wrong bytes.
MOST_COUNT = 24
LIES_EVERY = 3
# Windows have one round in every second store, and 1 to 64 in the others.
NARROW_EVERY = 2
MOST_ROUNDS = 64
FORCED_EVERY = 4
KINDS = ["read"] * 4 + ["write"] * 6 + ["zero", "hole"] + ["trim"] * 2 + ["flush"] * 2

# In every twelfth turn requests for memory are refused. In every fourth of these turns they are refused while the store is made too, where
# they ask for more than a random number of bytes.
STARVED_EVERY = 12
EARLY_EVERY = 4
MOST_EARLY_SIZE = 32_768
# In the others they are refused once the store is made: a single one of the next eight, or all, or those that ask for more than a random
# number of bytes.
SINGLE_EVERY = 64
MOST_SINGLE = 8
ALL_EVERY = 5
MOST_SIZE = 4096


class Shape(namedtuple("Shape", "dies spares blocks pages")):
    """The dies of an array, spares among them, the blocks of each, and the pages."""

    def room(self):
        """How many slots there are for copies of its pages."""
        return (self.dies - self.spares) * (self.blocks - 2) * BLOCK_SLOTS

    def has_room(self, copies):
        """Whether each page may have this number of copies."""
        return copies <= self.dies - self.spares and copies * self.pages <= self.room()

    def line(self):
        """The line that makes its images."""
        return (f"images dies {self.dies} spares {self.spares} blocks {self.blocks} slots {BLOCK_SLOTS} bytes {PAGE_BYTES} "
                f"pages {self.pages}")


class Driver(Judge):
    """Arrays, one after the other, each formatted, and then mounted, used and closed some times."""

    def __init__(self, lab, seed, calls):
        super().__init__(lab)
        chance = Chance(seed)
        self.below, self.one_in = chance.below, chance.one_in
        self.bytes, self.calls = Random(seed), calls
        self.shape, self.armed_every = None, 1

    def run(self):
        """Drives arrays until there were enough calls."""
        while self.counts["calls"] < self.calls and self.begin_array():
            self.live_on()

    def begin_array(self):
        """Formats the images of a new array. False where there are none."""
        self.shape, self.copies = self.draw_shape()
        self.armed_every = ARMED_EVERY[self.below(len(ARMED_EVERY))]
        answer = self.lab.ask(self.shape.line())
        if answer != "made":
            self.differ("no images are made", answer)
            return False
        self.count("array")
        self.begin(self.shape.pages)
        return True

    def draw_shape(self):
        """A shape with pages near the limit, and how many copies a page has."""
        dies = 2 + self.below(5)
        spares = self.below(min(dies - 2, 2) + 1)
        blocks = 4 + self.below(3)
        copies = min(self.draw_copies(), dies - spares)
        room = Shape(dies, spares, blocks, 0).room()
        most = room // (3 if copies == 3 or self.one_in(4) else 2)
        return Shape(dies, spares, blocks, most - self.below(MOST_PAGES_LEFT)), copies

    def draw_copies(self):
        return 2 + self.below(2)

    def live_on(self):
        """The lives of an array, each but the last closed behind it."""
        for _ in range(MOST_LIVES):
            if not self.mount():
                return
            self.live()
            if not self.close():
                return
            copies = self.draw_copies()
            if copies != self.copies and self.shape.has_room(copies):
                self.count("mount with other copies")
                self.copies = copies

    def live(self):
        """A life of an array, from the look at all pages behind its mounting to another one. No image is armed then."""
        turns = self.below(MOST_TURNS)
        self.look_at_all()
        for _ in range(turns):
            if self.counts["calls"] >= self.calls:
                break
            self.turn(self.draw_turn())
        self.lab.ask_all(f"rig {place} 0 0" for place in range(self.shape.dies))
        for place in range(self.shape.dies):
            self.view.faults.begin_anew(place)
        self.judge_overwrites()
        self.look_at_all()

    def draw_turn(self):
        """How the store of a turn is made. Its calls are drawn, unless one that found no memory is to be made again."""
        armed, rounds = self.draw_arming(), self.draw_rounds()
        if self.agenda:
            return Way(rounds, armed=armed)
        self.agenda = [self.draw_call() for _ in range(1 + self.below(MOST_CALLS))]
        if not self.one_in(STARVED_EVERY):
            return Way(rounds, armed=armed)
        if self.one_in(EARLY_EVERY):
            return Way(rounds, b"heap full %d\n" % self.below(MOST_EARLY_SIZE), early=True, armed=armed)
        return Way(rounds, self.draw_heap(), armed=armed)

    def draw_heap(self):
        """The line by which requests for memory are refused once a store is made."""
        if self.one_in(SINGLE_EVERY):
            return b"heap refuse %d\n" % (1 + self.below(MOST_SINGLE))
        return b"heap full %d\n" % (0 if self.one_in(ALL_EVERY) else self.below(MOST_SIZE))

    def draw_rounds(self):
        return 1 if self.one_in(NARROW_EVERY) else 1 + self.below(MOST_ROUNDS)

    def draw_arming(self):
        """The line that arms an image, now and then. Its image forgets what it told before."""
        if not self.one_in(self.armed_every):
            return []
        place, count = self.below(self.shape.dies), 1 + self.below(MOST_COUNT)
        self.view.faults.begin_anew(place)
        if self.one_in(LIES_EVERY):
            return [b"rig %d 0 %d\n" % (place, count)]
        return [b"rig %d %d 0\n" % (place, count)]

    def draw_call(self):
        """A call of the store."""
        kind = KINDS[self.below(len(KINDS))]
        if kind == "flush":
            return Call(kind)
        offset, length = self.draw_range()
        fua = kind != "read" and self.one_in(FORCED_EVERY)
        return Call(kind, offset, length, fua, draw_bytes(self.bytes, length) if kind == "write" else b"")

    def draw_range(self):
        """A range: some whole pages, or any bytes of one page or of some, or any range."""
        size = len(self.plain)
        way, first = self.below(8), self.below(self.shape.pages) * PAGE_BYTES
        if way < 3:
            offset, length = first, PAGE_BYTES
        elif way < 5:
            offset, length = first, self.below(8) * PAGE_BYTES
        elif way < 6:
            offset, length = first + self.below(PAGE_BYTES), self.below(PAGE_BYTES)
        else:
            offset, length = self.below(size), self.below(8 * PAGE_BYTES if way < 7 else size)
        return offset, min(length, size - offset)


def drive(program, seed, calls):
    """Makes at least this number of calls, in an order that the seed settles. How often each thing came, by its name, and what differs."""
    with Lab(program) as lab:
        driver = Driver(lab, seed, calls)
        driver.run()
    return driver.counts, driver.differences
