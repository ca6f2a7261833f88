"""Signals: each closes the array clean as the line `stop` does, sent to the launcher alone or to its whole group, while a client works."""
import os
import random
import signal
import subprocess
import threading

from nbd_client import Client, Closed, READ
from serve_cases import case
from servers import Geometry, ensure, equal, wait_until

LARGER = Geometry(blocks=16, slots=16, pages=192)
LARGE = Geometry(blocks=8, slots=32, pages=256, page_bytes=4096)
SOON = 10


class Writer:
    """A client that writes one page after the other until its connection ends, and what each page may hold then."""

    def __init__(self, server, geometry):
        self.server, self.geometry = server, geometry
        self.pages = {}
        self.known = set()
        self.answered = 0
        self.fault = None
        self.thread = threading.Thread(target=self.work, daemon=True)
        self.thread.start()

    def work(self):
        rng = random.Random(7)
        try:
            with self.server.client() as client:
                while True:
                    page, data = rng.randrange(self.geometry.pages), rng.randbytes(self.geometry.page_bytes)
                    before = self.pages.get(page, [bytes(self.geometry.page_bytes)])
                    self.pages[page] = [*before[-1:], data]
                    client.write(page * self.geometry.page_bytes, data)
                    self.pages[page] = [data]
                    self.known.add(page)
                    self.answered += 1
        except (Closed, OSError):
            pass
        except Exception as error:
            self.fault = f"{type(error).__name__}: {error}"

    def end(self):
        self.thread.join(SOON)
        ensure(not self.thread.is_alive(), "the client had not ended")
        ensure(self.fault is None, f"the client: {self.fault}")

    def is_kept_by(self, content):
        """Asks that each page has the bytes whose write was answered last, or those of the write that was not answered."""
        size = self.geometry.page_bytes
        for page, values in self.pages.items():
            ensure(content[page * size:(page + 1) * size] in values, f"page {page} has none of the bytes that were written last")


def stopped_by(make, send, stdin=subprocess.PIPE):
    """An array that is served below the launcher, written to, and stopped by a signal. What was answered is there at the next start."""
    array = make(LARGER)
    with array.serve_below_launcher(stdin) as server:
        writer = Writer(server, LARGER)
        ensure(wait_until(lambda: writer.answered >= 100 or writer.fault, SOON), f"only {writer.answered} writes were answered")
        send(server.process.pid)
        equal(server.ended(SOON), (0, ["closed clean"]), "how it ends")
        writer.end()
    written = array.checked(live=4, thin=0)["written"]
    ensure(len(writer.known) <= written <= len(writer.pages), f"{written} pages are written, and {len(writer.known)} were answered")
    with array.serve() as server:
        with server.client() as client:
            writer.is_kept_by(client.read(0, LARGER.size))
        server.stop()


@case
def terminate(make):
    stopped_by(make, lambda pid: os.kill(pid, signal.SIGTERM))


@case
def terminate_the_group(make):
    stopped_by(make, lambda pid: os.killpg(pid, signal.SIGTERM))


@case
def interrupt(make):
    stopped_by(make, lambda pid: os.kill(pid, signal.SIGINT))


@case
def interrupt_the_group(make):
    stopped_by(make, lambda pid: os.killpg(pid, signal.SIGINT))


@case
def hang_up(make):
    stopped_by(make, lambda pid: os.kill(pid, signal.SIGHUP))


@case
def hang_up_the_group(make):
    stopped_by(make, lambda pid: os.killpg(pid, signal.SIGHUP))


@case
def the_null_device_as_input(make):
    """It ends at once, and stops nothing. A signal does."""
    stopped_by(make, lambda pid: os.kill(pid, signal.SIGTERM), subprocess.DEVNULL)


@case
def the_null_device_and_the_group(make):
    stopped_by(make, lambda pid: os.killpg(pid, signal.SIGTERM), subprocess.DEVNULL)


@case
def the_same_signal_again(make):
    """SIGTERM and SIGHUP may come as often as they like."""
    def send(pid):
        for number in (signal.SIGTERM, signal.SIGHUP) * 3:
            os.killpg(pid, number)
    stopped_by(make, send)


@case
def a_second_interrupt_kills(make):
    """A server that is kept from its end by a client that takes no reply is killed by a second SIGINT."""
    array = make(LARGE)
    with array.serve_below_launcher() as server:
        with server.client() as client:
            client.write(0, b"x" * LARGE.size)
        with Client(server.address, receive_buffer=4096).go() as client:
            for _ in range(40):
                client.begin(READ, 0, LARGE.size)
            wait_until(lambda: False, 1)
            os.killpg(server.process.pid, signal.SIGINT)
            ensure(wait_until(lambda: server.is_told("a second SIGINT"), SOON), f"the first is not told: {server.errors}")
            os.killpg(server.process.pid, signal.SIGINT)
            equal(server.ended(SOON), (137, []), "how it ends")
            ensure(server.is_told("killed"), f"the second is not told: {server.errors}")
    array.wanted("mount: 5 unclean\n", "check", status=1)
    equal(array.check("--unclean")["written"], LARGE.pages, "the number of pages that are written")


@case
def lines_and_the_end_of_input(make):
    """Both go on to the program as they come."""
    array = make()
    with array.serve_below_launcher() as server:
        server.says("other words")
        server.says("stop")
        equal(server.ended(SOON), (0, ["closed clean"]), "how it ends behind the line")
    with array.serve_below_launcher() as server:
        equal(server.end(SOON), (0, ["closed clean"]), "how it ends behind its input")


@case
def a_refusal_ends_the_launcher(make):
    """The status is the program's own, while the input stays open."""
    array = make()
    with open(array.image(1), "r+b") as it:
        it.write(b"X")
    with array.start_below_launcher() as server:
        equal(server.process.wait(SOON), 1, "the status")
        ensure(wait_until(lambda: server.output == ["mount: 1 header bad"], 1), f"printed: {server.output}")
