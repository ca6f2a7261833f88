"""Plays one script of calls of a store of one thread again and again, each time with one thing that goes wrong: each call of each image in
turn, each request for memory, each read that may give wrong bytes (docs/SOLO.md).

usage: python3 -m driving.script PROGRAM     in the folder tests. PROGRAM is flasharr_lab
"""
import itertools
import sys
from collections import namedtuple
from random import Random

from driving.store_calls import PAGE_BYTES, Call, bits, draw_bytes
from driving.store_judge import HEAP, Faults, Judge, Way, thin_in
from lab import Lab

DIES = 4
PAGES = 8
COPIES = 2
SMALL = f"images dies {DIES} spares 0 blocks 4 slots 4 bytes {PAGE_BYTES} pages {PAGES}"
# The die that is lost, and the step at which it is.
LOST_DIE, LOST_STEP = 1, 8
STEPS = 9
# A call is made so often at most.
TIMES = 3
# The larger array, how many pages of it are read, and the die that gives wrong bytes.
LARGE_PAGES, READ_PAGES, LYING_DIE = 64, 8, 1
LARGE = f"images dies {DIES} spares 0 blocks 16 slots 8 bytes {PAGE_BYTES} pages {LARGE_PAGES}"

# What goes wrong in a run: which call of a die's image is refused, which of its reads of a slot gives wrong bytes, and which request for
# memory is refused, each from 1, and 0 for none; and whether a call that was refused memory is made again at once, by the same store.
Trial = namedtuple("Trial", "die call read request at_once", defaults=(0, 0, 0, 0, False))
NOTHING = Trial()


def write_call(seed, first, pages):
    """A write of some pages from one on."""
    length = pages * PAGE_BYTES
    return Call("write", first * PAGE_BYTES, length, data=draw_bytes(Random(seed), length))


def call_at(step):
    """The call of a step, from 1."""
    everything = 0, PAGES * PAGE_BYTES
    return {
        1: write_call(1, 0, PAGES), 2: write_call(2, 1, PAGES - 1), 3: write_call(3, 6, 1), 4: write_call(4, 6, 1),
        5: Call("trim", 3 * PAGE_BYTES, PAGE_BYTES), 6: write_call(6, 3, 1), 7: Call("read", *everything), 8: Call("read", *everything),
        9: Call("flush"),
    }[step]


class Player(Judge):
    """Plays the script."""

    def __init__(self, lab):
        super().__init__(lab)
        self.copies, self.trial = COPIES, NOTHING

    def is_counted(self):
        """Whether a request for memory is refused."""
        return self.trial.request > 0

    def make_images(self, line, pages):
        """Formats the images of an array with this number of pages."""
        answer = self.lab.ask(line)
        if answer != "made":
            self.differ("no images are made", answer)
        self.begin(pages)

    def play(self, trial):
        """Plays the script, and says whether what was to go wrong went wrong."""
        self.trial = trial
        self.make_images(SMALL, PAGES)
        self.lab.ask_all([f"rig {trial.die} {trial.call} {trial.read}", f"heap refuse {trial.request}"])
        self.made = self.refusals = 0
        if self.mount_at(0):
            self.use_all()
            if self.close() and self.mount_at(STEPS + 1):
                self.look_last()
        faults, heap, _ = self.lab.ask_all(["faults", "heap", "heap open"])
        self.note_refusals([heap])
        self.judge_overwrites()
        told = Faults(faults)
        return self.refusals > 0 or told.burnt[trial.die] != "0" or told.lied >> trial.die & 1 == 1

    def mount_at(self, step):
        """Mounts the array, and again where that was refused."""
        if self.mount(self.is_counted()):
            return True
        if self.trial == NOTHING:
            self.differ("an array is not mounted where nothing fails")
        if self.mount(self.is_counted()):
            return True
        self.differ("an array is not mounted a second time", step)
        return False

    def use_all(self):
        """The calls of the script, and the loss of a die between them."""
        for step in range(1, STEPS + 1):
            if step == LOST_STEP:
                self.lab.ask(f"arm {LOST_DIE} 1")
            self.use_once(step)
            if self.trial == NOTHING:
                self.judge_step(step)

    def use_once(self, step):
        """The call of a step, which is made again where memory was refused."""
        self.agenda = [call_at(step)]
        for _ in range(TIMES):
            if self.agenda:
                self.turn(Way(1, counted=self.is_counted(), at_once=self.trial.at_once))
        if self.agenda:
            self.differ("a call is not answered", step)

    def judge_step(self, step):
        """Where nothing fails: what the collector did, and that nothing is lost or thin once a die is out."""
        live = bits(0, DIES) & ~(1 << LOST_DIE) if step >= LOST_STEP else bits(0, DIES)
        if self.view.live != live or self.view.lost:
            self.differ("a die or a page is lost", step, self.view.live, self.view.lost)
        if thin_in(self.view.pages, self.view.asked(COPIES)):
            self.differ("a page is thin where nothing fails", step, self.view.pages)
        # Die 2 has erased its block 0, and die 0 has not moved its slot 0. Then this one has, and erased its block 0.
        room = {3: (2, 7, 0), 4: (0, 6, 9)}.get(step)
        if room and (self.room_of(room[0]), self.first_slot()) != room[1:]:
            self.differ("the collector did something else", step, self.view.rooms, self.first_slot())

    def room_of(self, die):
        """The room of a die that is live."""
        return int(self.view.rooms[die].rstrip("vwjb"))

    def first_slot(self):
        """The slot of page 0 on die 0, or None."""
        words = self.lab.ask("page 0").split(" at ")
        return dict(tuple(map(int, place.split())) for place in words[1:]).get(0)

    def look_last(self):
        """Looks at the array that was closed and mounted again, and at all its pages. Where no image fails none is lost."""
        trial = self.trial
        if trial == NOTHING and thin_in(self.view.pages, self.view.asked(COPIES)):
            self.differ("a page is thin in the end", self.view.pages)
        if not trial.call and not trial.read and self.lost:
            self.differ("a page is lost in the end", trial.request, self.lost)
        self.look_at_all(self.is_counted())

    def fail_each(self):
        """The first call of an image is refused, then its second, and so on up to one that it does not make; so for each die."""
        self.play(NOTHING)
        return 1 + sum(self.up_to_one(die=die, name="call") for die in range(DIES))

    def lie_each(self):
        """The first read of a slot of an image gives wrong bytes, then its second, and so on; so for each die. Before that it does on a
        larger array."""
        self.read_wrong()
        return 1 + sum(self.up_to_one(die=die, name="read") for die in range(DIES))

    def up_to_one(self, die, name):
        """The runs in which each call of a die's image goes wrong, up to one that is not made. How many there are."""
        for number in itertools.count(1):
            if not self.play(Trial(die, **{name: number})):
                return number

    def refuse_each(self):
        """The first request for memory is refused, then the second, and so on up to one that is not made. A call that it was refused for
        is made again by a store of the array as it is then, and in a second run at once by the same store."""
        for request in itertools.count(1):
            came = self.play(Trial(request=request))
            if not (self.play(Trial(request=request, at_once=True)) and came):
                return 2 * request

    def begin_larger(self):
        """The larger array, eight pages of which are written."""
        self.trial = NOTHING
        self.make_images(LARGE, LARGE_PAGES)
        self.mount_at(0)
        self.agenda = [write_call(1, 0, READ_PAGES)]
        self.turn(Way(1))

    def read_wrong(self):
        """Eight pages are read of which the first on one die has wrong bytes: the answer is right, and that die alone is out."""
        self.begin_larger()
        self.lab.ask(f"lie {LYING_DIE} 1")
        self.view.faults.begin_anew(LYING_DIE)
        self.agenda = [Call("read", 0, READ_PAGES * PAGE_BYTES)]
        self.turn(Way(1))
        if self.view.live != bits(0, DIES) & ~(1 << LYING_DIE):
            self.differ("wrong bytes do not take the die out", self.view.live)

    def requests_of_a_read(self):
        """How many requests for memory a store makes for a read of one page, the answer's own among them, once each of the page's dies was
        read from. A die's first read makes what is kept from then on."""
        self.begin_larger()
        self.lab.ask("heap open")
        self.made = self.refusals = 0
        self.agenda = [Call("read", 0, PAGE_BYTES)] * (COPIES + 1)
        self.turn(Way(1, counted=True))
        return self.requests


# The kinds of runs, by their names.
KINDS = {
    "each_image_call_fails": Player.fail_each, "each_growth_refused": Player.refuse_each, "wrong_bytes_take_the_die_out": Player.lie_each,
}


def play_all(program, kind):
    """Plays the script with each thing of a kind that may go wrong. How many runs there were, and what differs."""
    with Lab(program) as lab:
        player = Player(lab)
        return KINDS[kind](player), player.differences


def requests_of_a_read(program):
    """How many requests for memory a read of one page makes, and what differs."""
    with Lab(program) as lab:
        player = Player(lab)
        return player.requests_of_a_read(), player.differences


def main():
    if len(sys.argv) != 2:
        sys.exit(__doc__.strip())
    all_differences = []
    for kind in KINDS:
        runs, differences = play_all(sys.argv[1], kind)
        print(f"{kind}: {'wrong' if differences else 'right'}, {runs} runs", flush=True)
        all_differences += differences
    requests, differences = requests_of_a_read(sys.argv[1])
    print(f"requests for memory by a read of a page {requests}")
    all_differences += differences
    print("".join(f"    {difference}\n" for difference in all_differences), end="")
    return 1 if all_differences else 0


if __name__ == "__main__":
    sys.exit(main())
