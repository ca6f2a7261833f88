"""Clients that write and read the same pages at once, and which values each page may have then.

A write may be seen from its beginning on. It may not be seen any more by a read that began after the answer to another write of the
page, if that one began after the answer to this one. This holds page by page: nothing is said of several pages at once.
"""
import random
import threading
import time
from dataclasses import dataclass, field

from servers import Wrong, ensure

BEFORE, AFTER = float("-inf"), float("inf")


@dataclass
class Seen:
    """What is known of a page: each value with when its writes began and ended, and what was read of it and when."""
    writes: dict = field(default_factory=dict)
    reads: list = field(default_factory=list)

    def fault(self):
        """A read that gave what it may not give, in words."""
        spans = [span for found in self.writes.values() for span in found]
        for began, ended, value, client in self.reads:
            found = self.writes.get(value)
            if found is None:
                return f"client {client} read what nobody wrote, {value[:16].hex()}"
            if not any(self.may_be_seen(span, spans, began, ended) for span in found):
                return f"client {client} read an older value, {value[:16].hex()}"
        return None

    @staticmethod
    def may_be_seen(span, spans, began, ended):
        return span[0] < ended and not any(other[0] > span[1] and other[1] < began for other in spans)


class Workload:
    """So many clients of a server, each with as many requests, on pages that they share."""

    def __init__(self, server, geometry, clients, requests, *, seed=1, most_pages=8, start=None):
        self.server, self.geometry, self.requests, self.most_pages = server, geometry, requests, most_pages
        zeros = bytes(geometry.page_bytes)
        start = start or bytes(geometry.size)
        self.seen = [Seen({self.page_of(start, page): [(BEFORE, BEFORE)]}) for page in range(geometry.pages)]
        self.zeros = zeros
        self.lock = threading.Lock()
        self.faults = []
        self.done = 0
        self.threads = [threading.Thread(target=self.works, args=(number, random.Random(f"{seed} {number}")), daemon=True)
                        for number in range(clients)]

    def page_of(self, content, page):
        return content[page * self.geometry.page_bytes:(page + 1) * self.geometry.page_bytes]

    def works(self, number, rng):
        try:
            with self.server.client() as client:
                for _ in range(self.requests):
                    self.makes_one(client, number, rng)
                    self.done += 1
        except Exception as error:
            self.faults.append(f"client {number}: {type(error).__name__}: {error}")

    def makes_one(self, client, number, rng):
        page_bytes = self.geometry.page_bytes
        first = rng.randrange(self.geometry.pages)
        count = min(rng.randint(1, self.most_pages), self.geometry.pages - first)
        offset, length = first * page_bytes, count * page_bytes
        kind = rng.random()
        if kind < 0.6:
            data = rng.randbytes(length)
            began = time.monotonic()
            client.write(offset, data)
            self.wrote(first, [self.page_of(data, at) for at in range(count)], began)
        elif kind < 0.7:
            began = time.monotonic()
            rng.choice([client.zero, client.trim])(offset, length)
            self.wrote(first, [self.zeros] * count, began)
        elif kind < 0.72:
            client.flush()
        else:
            began = time.monotonic()
            self.was_read(first, client.read(offset, length), began, number)

    def wrote(self, first, values, began):
        ended = time.monotonic()
        with self.lock:
            for page, value in enumerate(values, first):
                self.seen[page].writes.setdefault(value, []).append((began, ended))

    def was_read(self, first, data, began, number):
        ended = time.monotonic()
        with self.lock:
            for at in range(len(data) // self.geometry.page_bytes):
                self.seen[first + at].reads.append((began, ended, self.page_of(data, at), number))

    def begin(self):
        for thread in self.threads:
            thread.start()
        return self

    def is_at(self, share):
        """Whether this share of the requests was made, from 0 to 1, or a client failed."""
        return bool(self.faults) or self.done >= share * self.requests * len(self.threads)

    def end(self, seconds=40):
        """Takes the clients in, reads the whole disk, and asks that each read gave what it may give. Gives the content."""
        until = time.monotonic() + seconds
        for thread in self.threads:
            thread.join(max(0, until - time.monotonic()))
        ensure(not any(thread.is_alive() for thread in self.threads), f"clients had not ended after {seconds} seconds")
        ensure(not self.faults, "; ".join(self.faults[:3]))
        with self.server.client() as client:
            began = time.monotonic()
            content = client.read(0, self.geometry.size)
            self.was_read(0, content, began, "at the end")
        for page, seen in enumerate(self.seen):
            fault = seen.fault()
            if fault:
                raise Wrong(f"page {page}: {fault}")
        return content
