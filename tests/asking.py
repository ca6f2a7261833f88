"""Clients that write, trim, read and flush numbered pages, and what a page may be afterwards.

A write of a page may be there from when it was asked for until another one is answered that was asked for behind its own answer.
"""
import random
import threading
import time
from dataclasses import dataclass

from nbd_client import FLUSH, FUA, NO_HOLE, READ, TRIM, WRITE, WRITE_ZEROES, Closed, Refused
from numbered import Numbers, number_of, numbered_pages

BEFORE, AFTER = float("-inf"), float("inf")
NAMES = {READ: "READ", WRITE: "WRITE", FLUSH: "FLUSH", TRIM: "TRIM", WRITE_ZEROES: "WRITE_ZEROES"}


@dataclass(frozen=True)
class Mix:
    """What clients ask for: the weights of the commands, the share of those with FUA, and the greatest number of pages of a request."""
    write: int = 60
    trim: int = 6
    zeroes: int = 4
    read: int = 25
    flush: float = 5
    fua: float = 0.05
    most: int = 4

    def command(self, rng):
        kinds = {WRITE: self.write, TRIM: self.trim, WRITE_ZEROES: self.zeroes, READ: self.read, FLUSH: self.flush}
        return rng.choices(list(kinds), kinds.values())[0]

    def pages(self, pages, rng):
        """The first page of a request, and how many it has."""
        count = rng.randint(1, self.most)
        return rng.randrange(pages - count + 1), count


@dataclass(eq=False)
class Ask:
    """A request for pages, or a FLUSH. The numbers are those of its writes, a page each, 0 for zeros. It began and was answered at two
    times, and at two places of the log of calls, where there is one."""
    command: int
    first: int = 0
    numbers: tuple = ()
    is_durable: bool = False
    began: float = BEFORE
    since: int = 0
    ended: float = AFTER
    until: object = None

    @property
    def is_answered(self):
        return self.ended != AFTER


class Clients:
    """Clients at work until they are stopped, or until their server is gone."""

    def __init__(self, server, geometry, mix, numbers, count, seed, *, place=lambda: 0, pause=0.0):
        self.server, self.geometry, self.mix, self.numbers, self.place, self.pause = server, geometry, mix, numbers, place, pause
        self.asks = []
        self.refused = {}
        self.faults = []
        self.is_ending = False
        self.threads = [threading.Thread(target=self.works, args=(number, random.Random(f"{seed} {number}")), daemon=True)
                        for number in range(count)]
        for thread in self.threads:
            thread.start()

    def works(self, number, rng):
        try:
            with self.server.client(seconds=60) as client:
                while not self.is_ending:
                    self.asks_once(client, rng)
                    if self.pause and rng.random() < 0.1:
                        time.sleep(rng.random() * self.pause)
        except (Closed, ConnectionError, OSError):
            if not self.is_ending:
                self.faults.append(f"client {number} was left by its server")
        except Exception as error:
            self.faults.append(f"client {number}: {type(error).__name__}: {error}")

    def asks_once(self, client, rng):
        size = self.geometry.page_bytes
        command = self.mix.command(rng)
        first, count = (0, 0) if command == FLUSH else self.mix.pages(self.geometry.pages, rng)
        flags = FUA if command not in (READ, FLUSH) and rng.random() < self.mix.fua else 0
        if command == WRITE_ZEROES and rng.random() < 0.5:
            flags |= NO_HOLE
        numbers = {WRITE: lambda: tuple(self.numbers.take(count)), TRIM: lambda: (0,) * count, WRITE_ZEROES: lambda: (0,) * count}
        ask = Ask(command, first, numbers.get(command, tuple)(), bool(flags & FUA))
        data = numbered_pages(first, ask.numbers, size) if command == WRITE else b""
        ask.since, ask.began = self.place(), time.monotonic()
        if command != READ:
            self.asks.append(ask)
        try:
            found = client.done(command, first * size, count * size, data, flags)
        except Refused as error:
            key = NAMES[command], error.args[0]
            self.refused[key] = self.refused.get(key, 0) + 1
            return
        ask.ended, ask.until = time.monotonic(), self.place()
        for page in range(first, first + count) if command == READ else ():
            part = found[(page - first) * size:(page - first + 1) * size]
            if number_of(part, page) is None:
                self.faults.append(f"page {page} was read as {part[:24].hex()}, which nobody wrote")

    def written(self):
        return sum(len(it.numbers) for it in list(self.asks) if it.is_answered)

    def leave(self):
        """Ends the clients: each once its request is answered, or its connection closed."""
        self.is_ending = True

    def join(self, seconds=60):
        until = time.monotonic() + seconds
        for thread in self.threads:
            thread.join(max(0, until - time.monotonic()))
        if any(thread.is_alive() for thread in self.threads):
            self.faults.append(f"clients had not ended after {seconds} seconds")


def flushes_in_order(asks):
    """The answered flushes by the times at which they began. For each of them `answered` has the asks that it was to make durable."""
    writes = sorted((it for it in asks if it.command != FLUSH and it.is_answered), key=lambda it: it.ended)
    at = 0
    for flush in sorted((it for it in asks if it.command == FLUSH and it.is_answered), key=lambda it: it.began):
        begin = at
        while at < len(writes) and writes[at].ended < flush.began:
            at += 1
        yield flush, writes[begin:at]


class Standing:
    """Which numbers a page may have once all clients have ended."""

    def __init__(self, numbers, asks):
        self.writes = [[(BEFORE, BEFORE, number)] for number in numbers]
        self.flushed = list(numbers)
        for ask in asks:
            for page, number in enumerate(ask.numbers, ask.first):
                self.writes[page].append((ask.began, ask.ended, number))
        self.durable = [BEFORE] * len(numbers)
        for flush, answered in flushes_in_order(asks):
            for ask in answered:
                for page, _ in enumerate(ask.numbers, ask.first):
                    self.durable[page] = max(self.durable[page], ask.began)
        for ask in asks:
            if ask.is_durable and ask.is_answered:
                for page, _ in enumerate(ask.numbers, ask.first):
                    self.durable[page] = max(self.durable[page], ask.began)

    def may_be(self, page):
        """The numbers that a page may have: no other write of it began behind the answer and was answered too."""
        writes = self.writes[page]
        last = max((began for began, ended, _ in writes if ended != AFTER), default=BEFORE)
        return {number for began, ended, number in writes if not last > ended}

    def outlasts_flush(self, page, number):
        """Whether a number is that of the flushed write of a page, or of one that may have come behind it."""
        return any(found == number and not self.durable[page] > ended for _, ended, found in self.writes[page])
