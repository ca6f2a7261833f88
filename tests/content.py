"""What a disk may give while clients write ranges of it that overlap.

Each page of a write is written at one moment between the request and its answer, and each page of a read is read at one such moment.
So what a write brings may be seen from its beginning on, until another write of the same bytes is answered that began after the answer
to this one. What a read gives of one page is of one moment. Nothing is said of several pages at once.
"""
import threading
import time
from dataclasses import dataclass

BEFORE, AFTER = float("-inf"), float("inf")


@dataclass(eq=False)
class Write:
    """Bytes that are written from an offset on. It began at one time, and was answered at another."""
    first: int
    data: bytes
    began: float
    ended: float = AFTER

    @property
    def past(self):
        return self.first + len(self.data)

    def has(self, first, past):
        """Whether each of these bytes is written."""
        return self.first <= first and past <= self.past

    def part(self, first, past):
        return self.data[first - self.first:past - self.first]

    def last_moment(self, others):
        """The last moment at which these bytes may be there, where the others write the same ones."""
        return min((it.ended for it in others if it.began > self.ended), default=AFTER)


@dataclass(eq=False)
class Read:
    """A read from an offset on, and when it began."""
    first: int
    began: float


class Content:
    """What is known of the bytes of a disk. Each page has the writes of it that may still be seen."""

    def __init__(self, start, page_bytes):
        self.page_bytes = page_bytes
        self.pages = [[Write(at, start[at:at + page_bytes], BEFORE, BEFORE)] for at in range(0, len(start), page_bytes)]
        self.reads = set()
        self.lock = threading.Lock()

    def parts(self, first, past):
        """Each page of a range, with what of the range is in it."""
        for page in range(first // self.page_bytes, -(-past // self.page_bytes)):
            yield page, max(first, page * self.page_bytes), min(past, (page + 1) * self.page_bytes)

    def write(self, first, data):
        """A write that begins now. It is to be told before its request is sent."""
        with self.lock:
            made = Write(first, data, time.monotonic())
            for page, _, _ in self.parts(first, made.past):
                self.pages[page].append(made)
        return made

    def wrote(self, write):
        """A write was answered."""
        with self.lock:
            write.ended = time.monotonic()
            oldest = min((it.began for it in self.reads), default=AFTER)
            for page, first, past in self.parts(write.first, write.past):
                self.forget(page, oldest)

    def forget(self, page, oldest):
        """Leaves out the writes of a page that no read may see, if it begins at this time or later."""
        begin, end = page * self.page_bytes, (page + 1) * self.page_bytes
        writes = self.pages[page]
        self.pages[page] = [it for it in writes if not any(
            over.began > it.ended and over.ended < oldest and over.has(max(begin, it.first), min(end, it.past)) for over in writes)]

    def read(self, first):
        """A read that begins now. It is to be told before its request is sent."""
        with self.lock:
            made = Read(first, time.monotonic())
            self.reads.add(made)
        return made

    def fault_of(self, read, data):
        """What is wrong with what a read gave, in words, if anything is."""
        with self.lock:
            ended = time.monotonic()
            self.reads.remove(read)
            for page, first, past in self.parts(read.first, read.first + len(data)):
                fault = self.fault_in(page, first, data[first - read.first:past - read.first], read.began, ended)
                if fault:
                    return f"page {page}, {fault}"
        return None

    def fault_in(self, page, first, data, began, ended):
        """What is wrong with what was read of one page between two times, from an offset on."""
        past = first + len(data)
        writes = [it for it in self.pages[page] if it.first < past and first < it.past]
        ends = {at for it in writes for at in (it.first, it.past) if first < at < past}
        cuts = sorted({first, past} | ends)
        since, until = began, ended
        for at, end in zip(cuts, cuts[1:]):
            found = data[at - first:end - first]
            there = [it for it in writes if it.has(at, end)]
            spans = [(it.began, it.last_moment(there)) for it in there if it.part(at, end) == found]
            fitting = [span for span in spans if span[0] <= until and since <= span[1]]
            if not fitting:
                return f"{end - at} bytes from {at} on, {found[:16].hex()}: {self.words(spans, began)}"
            # The page was read at one moment, which is in one of these spans for each part of it.
            since, until = max(since, min(span[0] for span in fitting)), min(until, max(span[1] for span in fitting))
        return None

    @staticmethod
    def words(spans, began):
        """Why a read that began at this time may not give bytes that were there in these spans of time."""
        if not spans:
            return "nobody wrote them there"
        last = max(span[1] for span in spans)
        if last < began:
            return f"they were overwritten {began - last:.6f} seconds before the read began"
        return "they were not there at the moment of the bytes before them in this page"
