"""What is kept beside one array."""
from dataclasses import dataclass, field

BLOCKS, SLOTS, PAGE_BYTES, SPARES = 6, 4, 512, 1
FEWEST_DIES, MOST_DIES = 4, 5
# An array has pages for all the room of its dies, or at most MOST_PAGES_LEFT fewer.
MOST_PAGES_LEFT = 2
# One array of two copies in ROOMY_EVERY has room for three.
ROOMY_EVERY = 4
# One array in FEW_NUMBERS_EVERY begins where FEW_NUMBERS sequence numbers are left, or fewer.
FEW_NUMBERS_EVERY, FEW_NUMBERS = 8, 200
MAX_SEQUENCE = (1 << 62) - 1


@dataclass(frozen=True)
class Shape:
    """What an array begins with."""
    dies: int
    pages: int
    copies: int
    # The last sequence number that was given, where few are left, and else 0.
    last: int


def draw_copies(chance):
    return 2 if chance.one_in(2) else 3


def room_of(dies):
    """The slots that current copies may take."""
    return (dies - SPARES) * (BLOCKS - 2) * SLOTS


def draw_shape(chance):
    """A shape with pages near the limit."""
    dies = FEWEST_DIES + chance.below(MOST_DIES - FEWEST_DIES + 1)
    copies = draw_copies(chance)
    most = room_of(dies) // (3 if chance.one_in(ROOMY_EVERY) else copies)
    pages = most - chance.below(MOST_PAGES_LEFT + 1)
    last = MAX_SEQUENCE - chance.below(FEW_NUMBERS) if chance.one_in(FEW_NUMBERS_EVERY) else 0
    return Shape(dies, pages, copies, last)


@dataclass(frozen=True)
class Version:
    """A write of a page: its sequence number, 0 where it was never written, and the number that the page is full of."""
    sequence: int = 0
    is_hole: bool = False
    content: int = 0


@dataclass
class Claim:
    """An open claim, with the write that is reserved under it, and the dies that have programmed it."""
    page: int
    reserved: Version = None
    programmed: set = field(default_factory=set)


@dataclass
class Batch:
    """An open batch, with the version of each page that it is to answer, in the order of its list."""
    number: int
    dues: dict
    is_for_copy: bool


@dataclass
class Flush:
    """A flush, with the dies that were live when it began, and those of them that it waits for, by their syncs."""
    number: int
    dies: frozenset
    waiting: set


class Life:
    """What is kept beside an array: its images, what is under way, and the plain array."""

    def __init__(self, shape, fault_every):
        self.dies, self.pages = shape.dies, shape.pages
        # An image is armed in one step of this number.
        self.fault_every = fault_every
        self.images = shape.dies
        # The plain array: what the disk would be with no dies.
        self.versions = [Version()] * shape.pages
        self.begin((), (), 0)

    def begin(self, live, places, this_round):
        """Begins a life: these dies are live, the images of the dies stand at these places, and nothing is under way."""
        self.live, self.places, self.round = set(live), tuple(places), this_round
        self.claims, self.batches, self.flushes = [], [], []
        # The job that each die is at.
        self.jobs = [None] * self.dies
        # The page of the copy under way, and the write that is copied, and None where no copy is under way.
        self.copy = None
        # The last sequence number that is known to be given.
        self.last = max((version.sequence for version in self.versions), default=0)
        # The batch and the page that a round of a die is booked for, by both. Bookings that were released are left here.
        self.booked = {}

    def place_of(self, die):
        """Where a die's image stands, and None where it has none."""
        return self.places[die] if die < len(self.places) else None

    def version(self, page):
        return self.versions[page]

    def batch(self, number):
        """The open batch of a number, or None."""
        return next((batch for batch in self.batches if batch.number == number), None)


def copies_fit(copies, dies, pages):
    """Whether the dies in use have room for this number of copies of each page."""
    return copies <= dies - SPARES and copies * pages <= room_of(dies)


def is_lost(word, live):
    """Whether a page was written that none of these dies holds, by its word in a look at the map."""
    sequence, _, mask = word.partition(":")
    return sequence != "0" and not any(int(mask) >> die & 1 for die in live)


def lowest_lost(words, live):
    """The lowest page that none of these dies holds, by the words of a look at the map. None where each is held."""
    return next((page for page, word in enumerate(words) if is_lost(word, live)), None)
