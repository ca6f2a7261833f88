"""The arrays whose calls bench/core times, without images: all pages are written, and random ones again and again, some are read, and the
collector works. Then a die goes out, and the spare comes in.
"""
import itertools
import random
import statistics
from collections import Counter, defaultdict

from timed import PAGE_BYTES, expect, fail, split_times

NAMES = (
    "clock", "claim", "reserve", "take_program", "done_program", "commit", "release", "write", "abandon", "admit_1", "admit_64",
    "admit_1024", "plan_1024", "replan_1", "replan_64", "replan_1024", "results", "end_batch_1", "end_batch_64", "end_batch_1024",
    "take_read", "done_read", "window", "advance", "take_nothing", "take_move", "done_move", "take_erase", "done_erase", "next_thin",
    "flush_begin", "flush_state", "take_sync", "done_sync", "fold", "done_fault", "spare_in", "take_header", "done_header", "find_thin",
    "reserve_copy", "commit_copy",
)
# What a line is timed as, by its first words. A Take and a Done are timed as those of their job.
TIMED = {
    "claim": "claim", "reserve": "reserve", "commit": "commit", "commit copy": "commit_copy", "release": "release", "abandon": "abandon",
    "window": "window", "advance": "advance", "results": "results", "flush begin": "flush_begin", "flush state": "flush_state",
    "fold": "fold", "spare in": "spare_in", "copy": "reserve_copy", "admit": "admit_", "replan": "replan_", "end": "end_batch_",
    "plan": "plan_", "next thin": "next_thin", "take": "take_", "done": "done_",
}
COPIES, BLOCK_SLOTS = 2, 32
# A die has a sixteenth more blocks than the pages fill, and three more.
SLACK, MORE_BLOCKS = 16, 3
SEED = 7
# Each page is of this number.
NUMBER = 90
# How many turns are timed. The lines of some turns go out together, so that few of them find the program at rest.
TURNS, TOGETHER = 16_384, 16
# The most times that are kept of anything: the first ones.
MOST = 20_000
# The history is folded once it has this many entries.
FOLDED = 4096
WINDOW_ROUNDS = 16
# How many rounds pass at once while a die has no room, and how often something is waited for at most.
WAIT_ROUNDS, MOST_WAITS = 8, 1024
# How many pages are filled by lines that go out together.
PIECE = 1024
# The die that goes out, and how many copies are made behind it.
LOST, LATE_COPIES = 0, 2048


def dies_of(pages):
    """How many dies an array with this number of pages has in use, where that is not given."""
    return 4 if pages < 20_000 else 16 if pages < 200_000 else 63


def bookings(plans):
    """The dies that are booked in each round by plans, as Replan answers them."""
    booked = defaultdict(list)
    for plan in plans:
        for place in plan.split(" place ")[1:]:
            _, die, number = place.split()[:3]
            booked[int(number)].append(int(die))
    return booked


def first_words(line):
    """A line's words up to its first number."""
    return " ".join(itertools.takewhile(lambda word: not word.isdigit(), line.split(" ", 3)[:3]))


class Array:
    """An array, what its dies are at by the last look, and how long its calls took."""

    def __init__(self, lab, pages, dies):
        self.lab, self.pages, self.in_use = lab, pages, dies or dies_of(pages)
        full = COPIES * pages // self.in_use // BLOCK_SLOTS
        self.blocks = full + full // SLACK + MORE_BLOCKS
        self.random = random.Random(SEED)
        self.times, self.is_timed = {name: [] for name in NAMES}, False
        self.dies, self.jobs, self.entries = [], {}, 0
        # How many pages each batch has that was admitted, how many flushes were begun, and the current round.
        self.batches, self.flushes, self.round = [], 0, 1

    def slots(self):
        return (self.in_use + 1) * self.blocks * BLOCK_SLOTS

    # Filling.

    def bytes_used(self):
        """How many bytes of the heap of arrays are in use."""
        return int(self.lab.ask("heap").split()[-1])

    def begin(self, blocks, pages):
        """Makes an array with these numbers of blocks and pages. The headers of all its dies are written."""
        shape = f"dies {self.in_use + 1} spares 1 blocks {blocks} slots {BLOCK_SLOTS} bytes {PAGE_BYTES} pages {pages}"
        expect(self.lab, f"{shape} copies {COPIES} epoch 1 last 0", "made")
        self.ask(["work"])

    def buffer_bytes(self):
        """How many bytes the laboratory has beside an array in which a page was written."""
        self.begin(4, 1)
        self.ask([*self.write_lines(0, 1), "leave"])
        return self.bytes_used()

    def make(self):
        """Makes the array, writes all its pages, and gives the bytes that it has then."""
        beside = self.buffer_bytes()
        self.begin(self.blocks, self.pages)
        for first in range(0, self.pages, PIECE):
            past = min(first + PIECE, self.pages)
            lines = [line for page in range(first, past) for line in self.write_lines(page, 1)]
            self.ask([*lines, *self.fold_lines(past - first)])
        return self.bytes_used() - beside

    def write_lines(self, page, works):
        """The lines that write a page, while each die does this number of jobs."""
        return [f"claim {page}", f"reserve {page} {NUMBER}", *["work"] * works, f"commit {page}", f"release {page}"]

    def fold_lines(self, entries):
        """The line that folds the history, where it has enough entries with these."""
        self.entries += entries
        if self.entries < FOLDED:
            return []
        self.entries = 0
        return ["fold"]

    # Lines and their times.

    def ask(self, lines):
        """Does what lines ask for, and looks at the dies behind them. Nothing is timed, and no write may wait for its programs."""
        answers = self.lab.ask_all([*lines, "dies"])
        for line, answer in zip(lines, answers):
            if line.startswith("commit") and not answer.startswith("seq"):
                fail(f"{line}: {answer}")
            self.note_round(line, answer)
        self.dies = answers[-1].split()[1:]

    def note_round(self, line, answer):
        """Keeps the current round, which Advance answers."""
        if line == "advance" and answer.startswith("round"):
            self.round = int(answer.split()[1])

    def time(self, lines, front=()):
        """The answer to each line and its nanoseconds, which are kept unless it was refused. The lines in front are not timed. Behind all
        lines the dies are looked at."""
        *told, dies = self.lab.ask_all([*front, *(f"time 1 {line}" for line in lines), "dies"])[len(front):]
        self.dies = dies.split()[1:]
        found = []
        for line, answer in zip(lines, told):
            (nanoseconds,), last = split_times(answer)
            found.append((last, nanoseconds))
            self.note_round(line, last)
            if not last.startswith(("refused", "stranger", "unsound")):
                self.note(self.name_of(line, last), nanoseconds)
        return found

    def note(self, name, nanoseconds):
        """Keeps a time, once turns are timed and while there are not too many of it."""
        if self.is_timed and len(self.times[name]) < MOST:
            self.times[name].append(nanoseconds)

    def name_of(self, line, answer):
        """What a line is timed as that was answered so. A Take and a Done are those of their job."""
        name = TIMED[first_words(line)]
        if name in ("take_", "done_"):
            return self.job_name(name, line.split(), answer.split()[0])
        if name == "next_thin":
            return "next_thin" if answer == "none is thin" else "find_thin"
        if name in ("admit_", "plan_"):
            count = len(line.split()) - 1
            if name == "admit_":
                self.batches.append(count)
            return f"{name}{count if count < 1000 else 1024}"
        if name in ("replan_", "end_batch_"):
            count = self.batches[int(line.split()[1])]
            return f"{name}{count if count < 1000 else 1024}"
        return name

    def job_name(self, name, words, answer):
        """What a Take or a Done is timed as."""
        die = words[1]
        if name == "done_":
            job = self.jobs.pop(die)
            return "done_fault" if words[2] == "fault" else f"done_{job}"
        if answer == "no":
            return "take_nothing"
        self.jobs[die] = answer
        return f"take_{answer}"

    def time_clock(self):
        """The clock is looked at twice, again and again."""
        self.times["clock"] = split_times(self.lab.ask(f"time {TURNS} nothing"))[0]

    def clock(self):
        """What two looks at the clock take, by the median."""
        return statistics.median_high(self.times["clock"])

    # What dies do.

    def room(self, die):
        return int(self.dies[die].rstrip("vwjb")) if self.dies[die] != "out" else 0

    def window_lines(self):
        """The lines by which each die that wants a window and has none gets one."""
        return [f"window {die} {WINDOW_ROUNDS}" for die, word in enumerate(self.dies) if "v" in word and "w" not in word]

    def live_dies(self):
        """The dies that are live."""
        return [die for die, word in enumerate(self.dies) if word != "out"]

    def busy_dies(self):
        """The dies that have a window, or get one."""
        return [die for die, word in enumerate(self.dies) if "v" in word or "w" in word]

    def job_lines(self, dies, how="ok"):
        """The lines by which each of these dies that has work does one job. It ends so, which is well where it is no read."""
        return [line for die in dies for line in (f"take {die}", f"done {die} {how}")]

    def round_lines(self, dies):
        """The lines by which a round passes and these dies then do a job."""
        return ["advance", *self.job_lines(dies)]

    def homes(self, page):
        """The dies that are to have the copies of a page, as long as they have room."""
        first = page % self.in_use
        return first, (first + 1 + page // self.in_use % (self.in_use - 1)) % self.in_use

    def draw_pages(self, count):
        """Random pages. Their dies have room for the copies: before that those that want a window get one and work in it."""
        pages = [self.random.randrange(self.pages) for _ in range(count)]
        wanted = Counter(die for page in pages for die in self.homes(page))
        for _ in range(MOST_WAITS):
            # The collector takes room too where it moves pages, one in each round.
            if all(self.room(die) >= more + count for die, more in wanted.items()):
                return pages
            self.time([*self.window_lines(), *self.round_lines(self.busy_dies())])
            self.ask(["advance", "work"] * WAIT_ROUNDS)
        return fail(f"no room for {count} pages: {' '.join(self.dies)}")

    # Turns.

    def run(self):
        """Pages are written again, a quarter of them before anything is timed."""
        self.time_clock()
        for _ in range(self.pages // 4 // TOGETHER):
            pages = self.draw_pages(TOGETHER)
            self.ask([*self.window_lines(), *self.turn_lines(pages), *self.fold_lines(len(pages))])
        self.is_timed = True
        for number in range(TURNS // TOGETHER):
            self.turns(number % 4 == 0)
        self.replace()

    def turn_lines(self, pages):
        """The lines of turns that are not timed: in each a round passes, and a page is written."""
        return [line for page in pages for line in ("advance", "work", *self.write_lines(page, 2))]

    def turns(self, has_large):
        """Some turns. In each a random page is written again, and a round passes in which windows are kept. Then batches of one page and
        one of some are read together, and now and then one of many alone."""
        first_page, *pages = self.draw_pages(1 + TOGETHER)
        busy = self.busy_dies()
        turns = [line for page in pages for line in (*self.round_lines(busy), *self.page_lines(page))]
        first, batches = len(self.batches), [self.draw_batch(count) for count in (1, 1, 1, 1, 64)]
        lines = [*self.window_lines(), *turns, *self.other_lines(), *self.fold_lines(len(pages))]
        admits = [line for at, batch in enumerate(batches, first) for line in (f"admit {batch}", f"replan {at}")]
        # One turn more has the program at work when the first of these lines comes.
        found = self.time([*lines, *admits], self.turn_lines([first_page]))
        self.settle(lines, found)
        self.read_out(range(first, len(self.batches)), [plan for plan, _ in found[len(lines) + 1::2]])
        if has_large:
            batch, at = self.draw_batch(min(self.pages, 1024)), len(self.batches)
            found = self.time([f"plan {batch}", f"admit {batch}", f"replan {at}"])
            self.read_out(range(at, len(self.batches)), [found[-1][0]])

    def page_lines(self, page):
        """The eight lines that write a page."""
        jobs = [line for die in self.homes(page) for line in (f"take {die}", f"done {die} ok")]
        return [f"claim {page}", f"reserve {page} {NUMBER}", *jobs, f"commit {page}", f"release {page}"]

    def other_lines(self):
        """The lines of a flush, of the next thin page, of writes that are given up, and of a die that is asked for work."""
        self.flushes += 1
        lines = ["flush begin", *self.job_lines(self.live_dies()), f"flush state {self.flushes}", "next thin"]
        for page in (self.random.randrange(self.pages) for _ in range(2)):
            lines += [f"claim {page}", f"reserve {page} {NUMBER}", f"abandon {page}", f"release {page}"]
        return [*lines, f"take {self.random.choice(self.live_dies())}"]

    def settle(self, lines, found):
        """Times each write whole that took eight calls, with no other job between them. Ends each that waits for its programs."""
        for at, line in enumerate(lines):
            if not line.startswith("commit"):
                continue
            eight = found[at - 6:at + 2]
            if all(eight[take][0].startswith("program") for take in (2, 4)):
                self.note("write", sum(nanoseconds for _, nanoseconds in eight) - 7 * self.clock())
            answer = found[at][0]
            while answer.startswith("refused"):
                more = self.time([*self.job_lines(self.live_dies()), *lines[at:at + 2]])
                answer = more[-2][0]

    def draw_batch(self, count):
        """Random pages in words, rising: one of each part of all pages."""
        part = self.pages // count
        return " ".join(str(at * part + self.random.randrange(part)) for at in range(count))

    def read_out(self, batches, plans):
        """Rounds pass until all reads of these batches have ended, which have these plans."""
        booked = bookings(plans)
        lines = []
        for number in range(self.round, max(booked, default=self.round) + 1):
            others = [die for die in self.busy_dies() if die not in booked[number]]
            lines += [*self.job_lines(booked[number], f"data {NUMBER}"), *self.job_lines(others), "advance"]
        ends = [line for batch in batches for line in (f"results {batch}", f"end {batch}")]
        for _ in range(MOST_WAITS):
            found = self.time([*self.window_lines(), *lines, *ends])
            self.entries += sum(answer.startswith("read") for answer, _ in found)
            if all(answer != "waiting" for answer, _ in found[len(found) - len(ends)::2]):
                return
            # A job was another one than was thought. It is ended now, and another round passes.
            self.time([f"done {die} {f'data {NUMBER}' if job == 'read' else 'ok'}" for die, job in list(self.jobs.items())])
            lines = [*self.job_lines(self.live_dies(), f"data {NUMBER}"), "advance"]
        fail(f"batches wait: {' '.join(self.dies)}")

    # A die that goes out.

    def replace(self):
        """A die goes out at its sync, the spare comes in, and some pages that are thin then get one more copy."""
        found = self.time(["flush begin", f"take {LOST}", f"done {LOST} fault", f"spare in {self.in_use}"])
        if found[1][0] == "no job":
            return
        self.time(self.job_lines(self.live_dies()))
        self.time([*self.window_lines(), *self.round_lines(self.busy_dies())])
        thin = self.time(["next thin"])[0][0]
        for _ in range(LATE_COPIES):
            if not thin.startswith("page"):
                return
            thin = self.copy(thin)

    def copy(self, thin):
        """A thin page gets one more copy. Both it and the next one are as `next thin` is answered."""
        _, page, _, die = thin.split()
        look = f"page {page}"
        seq = self.lab.ask(look).split()[3]
        lines = [f"copy {page} {seq} {NUMBER}", *self.job_lines([die]), "commit copy", "next thin"]
        # The second look has the program at work when the first of these lines comes.
        return self.time(lines, [look])[-1][0]
