"""The jobs that dies take, and what each is compared with as it is taken and as it ends well."""
from driving.life import Version

# What stands behind the words of a program that is synced before it ends.
LASTING = " lasting"


class Job:
    """A job that a die has taken, by its words: of those kinds that nothing is kept of."""

    def __init__(self, words):
        self.words = words

    def end_well(self, desk, life, die, answer):
        """Compares the answer of its end, and keeps what came of it."""


class Read(Job):
    """A read: its page, the page's last write at the Take, and the batch for which the die is booked in this round."""

    def __init__(self, words, page, due, batch):
        super().__init__(words)
        self.page, self.due, self.batch = page, due, batch

    def end_well(self, desk, life, die, answer):
        if answer != f"done data {self.due.content}":
            desk.differ(f"{self.words}: {answer}, and the page is full of {self.due.content}")
        batch = life.batch(self.batch)
        if batch and self.page in batch.dues:
            batch.dues[self.page] = self.due


class Program(Job):
    """A program: its page, and the write that is reserved or copied."""

    def __init__(self, words, page, write):
        super().__init__(words)
        self.page, self.write = page, write

    def end_well(self, desk, life, die, answer):
        for claim in life.claims:
            if claim.page == self.page and claim.reserved == self.write:
                claim.programmed.add(die)


class Sync(Job):
    """A sync: the flushes that were begun at the Take."""

    def __init__(self, words, flushes):
        super().__init__(words)
        self.flushes = flushes

    def end_well(self, desk, life, die, answer):
        for flush in self.flushes:
            flush.waiting.discard(die)


def job_of(desk, life, die, words):
    """The job of these words, which a die has taken."""
    if words.startswith("read "):
        return read_of(desk, life, die, words)
    if words.startswith("program "):
        return program_of(desk, life, die, words)
    return Sync(words, tuple(life.flushes)) if words == "sync" else Job(words)


def read_of(desk, life, die, words):
    """A read, which is of the page for which the die is booked in this round, and of that page's last write."""
    page, sequence = (int(words.split()[at]) for at in (2, 4))
    due = life.version(page)
    if due.sequence != sequence:
        desk.differ(f"die {die} in round {life.round}: {words}, and the last write of the page is {due.sequence}")
    batch, booked_page = life.booked.get((life.round, die), (None, None))
    if booked_page != page:
        desk.differ(f"die {die} in round {life.round}: {words}, and booked is page {booked_page}")
    return Read(words, page, due, batch)


def program_of(desk, life, die, words):
    """A program, which is of a write that is reserved, or of the copy under way."""
    parts = words.removesuffix(LASTING).split()
    page, write = int(parts[2]), Version(int(parts[4]), parts[5] == "hole", int(parts[-1]))
    reserved = [(claim.page, claim.reserved) for claim in life.claims]
    if (page, write) not in [*reserved, life.copy]:
        desk.differ(f"die {die}: {words}, and reserved are {reserved}, and the copy under way is {life.copy}")
    return Program(words, page, write)


def judge_lasting(desk, die, words, shown):
    """Compares whether a program is lasting with the pages' last writes and holders at its Take: so it is where its page was written before
    and the die does not hold it."""
    last, _, holders = shown.split()[1 + int(words.split()[2])].partition(":")
    if words.endswith(LASTING) != (last != "0" and not int(holders) >> die & 1):
        desk.differ(f"die {die}: {words}, and the page's last write is {last}, with holders {holders}")
