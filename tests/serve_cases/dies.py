"""Dies that fail while clients work, spares that come in, and pages that are lost."""
import os
import re
import time

from nbd_client import EIO, READ, WRITE
from serve_cases import case
from serve_cases.workload import Workload
from servers import FAULT, Geometry, ensure, equal, same_bytes, wait_until

LARGER = Geometry(blocks=16, slots=16, pages=192)
WITH_A_SPARE = Geometry(dies=5, spares=1, blocks=16, slots=16, pages=192)
# As many pages as it takes for a look at the array, of five a second, to find some with too few copies.
TAKES_LONG = Geometry(dies=5, spares=1, blocks=64, slots=256, pages=16384)
# Few enough pages that they have their copies again before the next look at the array.
FEW_PAGES = 8
HEALED = "all pages have their copies again"


def reads_until_out(array, server, content, die):
    """Reads the whole disk until the server tells that the die is out, and a while longer; each read is to be right."""
    end = time.monotonic() + 15
    with server.client() as client:
        while not server.is_told(f"die {die} went out") and time.monotonic() < end:
            same_bytes(client.read(0, array.geometry.size), content, "the disk while a die fails")
        ensure(server.is_told(f"die {die} went out"), f"'die {die} went out' is not told, though its image is cut: {server.errors}")
        same_bytes(client.read(0, array.geometry.size), content, "the disk without the die")


@case
def what_has_its_copies_again_is_told(make):
    for geometry, written in ((WITH_A_SPARE, FEW_PAGES), (WITH_A_SPARE, WITH_A_SPARE.pages), (TAKES_LONG, TAKES_LONG.pages)):
        tells_when_it_is_healed(make(geometry), written)


def tells_when_it_is_healed(array, written):
    """Writes that number of pages and loses a die for which a spare comes in. That all pages have their copies again is told behind it, and not
    before."""
    size, page_bytes = array.geometry.size, array.geometry.page_bytes
    data = os.urandom(written * page_bytes)
    content = data + bytes(size - len(data))
    with array.serve() as server:
        with server.client() as client:
            for offset in range(0, len(data), 1 << 20):
                client.write(offset, data[offset:offset + (1 << 20)])
        ensure(not server.is_told(HEALED), f"told before a die was lost: {server.errors}")
        array.take_away(1)
        reads_until_out(array, server, content, 1)
        ensure(wait_until(lambda: server.is_told(HEALED), 60), f"not told that all pages have their copies again: {server.errors}")
        server.stop(faults=[1])
    array.checked(dies=5, live=4, spare=0, written=written, thin=0)
    array.has_copies_of(content)


@case
def one_fails_while_nobody_writes(make):
    array = make(LARGER)
    content = os.urandom(LARGER.size)
    with array.serve() as server:
        with server.client() as client:
            client.write(0, content)
        array.take_away(1)
        reads_until_out(array, server, content, 1)
        array.heals(3)
        lines = server.stop(faults=[1])
        equal(FAULT.fullmatch(lines[0]).group(2), "1", f"the cause in {lines[0]!r}")
    array.checked(dies=4, live=3, spare=0, written=192, thin=0)
    array.has_copies_of(content)
    with array.serve() as server:
        with server.client() as client:
            same_bytes(client.read(0, LARGER.size), content, "the disk after a restart")
        server.stop()


@case
def one_fails_while_clients_work(make):
    array = make(LARGER)
    start = os.urandom(LARGER.size)
    with array.serve() as server:
        with server.client() as client:
            client.write(0, start)
        work = Workload(server, LARGER, 8, 150, seed=4, start=start).begin()
        wait_until(lambda: work.is_at(0.3), 20)
        array.take_away(2)
        content = work.end()
        reads_until_out(array, server, content, 2)
        array.heals(3)
        server.stop(faults=[2])
    array.checked(dies=4, live=3, spare=0, written=192, thin=0)
    array.has_copies_of(content)


@case
def a_spare_comes_in(make):
    array = make(WITH_A_SPARE)
    start = os.urandom(WITH_A_SPARE.size)
    with array.serve() as server:
        with server.client() as client:
            client.write(0, start)
        equal(array.standing()[0], 4, "the number of live dies before")
        work = Workload(server, WITH_A_SPARE, 8, 150, seed=5, start=start).begin()
        wait_until(lambda: work.is_at(0.3), 20)
        array.take_away(0)
        content = work.end()
        reads_until_out(array, server, content, 0)
        ensure(wait_until(lambda: server.is_told("die 4 came in"), 15), f"nothing is told of the spare, die 4: {server.errors}")
        array.heals(4)
        server.stop(faults=[0])
    array.checked(dies=5, live=4, spare=0, written=192, thin=0)
    array.has_copies_of(content)
    with array.serve() as server:
        with server.client() as client:
            same_bytes(client.read(0, WITH_A_SPARE.size), content, "the disk after a restart")
        server.stop()
    array.checked(dies=5, live=4, spare=0, thin=0)


@case
def a_die_is_replaced(make):
    """A die goes out, the server is stopped, its image is made anew as a spare's, and comes in at the next start."""
    array = make(LARGER)
    content = os.urandom(LARGER.size)
    with array.serve() as server:
        with server.client() as client:
            client.write(0, content)
        array.take_away(3)
        reads_until_out(array, server, content, 3)
        server.stop(faults=[3])
    array.wanted("formatted 1 images\n", "format", "--die", "3")
    array.checked(dies=4, live=3, spare=1)
    with array.serve() as server:
        with server.client() as client:
            same_bytes(client.read(0, LARGER.size), content, "the disk as the spare comes in")
        array.heals(4)
        server.stop()
    array.checked(dies=4, live=4, spare=0, written=192, thin=0)
    array.has_copies_of(content)


@case
def two_fail_one_after_the_other(make):
    array = make(LARGER)
    content = os.urandom(LARGER.size)
    with array.serve() as server:
        with server.client() as client:
            client.write(0, content)
        for die, live in (0, 3), (3, 2):
            array.take_away(die)
            reads_until_out(array, server, content, die)
            array.heals(live)
        server.stop(faults=[0, 3])
    array.checked(dies=4, live=2, spare=0, written=192, thin=0)
    array.has_copies_of(content)


@case
def pages_that_are_lost(make):
    """Two dies fail at once. A page is right or answered EIO, and a whole write of it makes it good again."""
    array = make(LARGER)
    content = bytearray(os.urandom(LARGER.size))
    with array.serve() as server:
        with server.client() as client:
            client.write(0, content)
            array.take_away(1)
            array.take_away(2)
            lost = []
            for page in range(LARGER.pages):
                error, data = client.request(READ, page * 512, 512)
                if error:
                    equal(error, EIO, f"the error of page {page}")
                    lost.append(page)
                else:
                    same_bytes(data, bytes(content[page * 512:page * 512 + 512]), f"page {page}")
            ensure(0 < len(lost) < LARGER.pages, f"{len(lost)} pages are lost")
            equal(client.request(WRITE, lost[0] * 512 + 1, 3, b"abc"), (EIO, b""), "the answer to a write of a part of a lost page")
            for page in lost:
                data = os.urandom(512)
                client.write(page * 512, data)
                content[page * 512:page * 512 + 512] = data
            same_bytes(client.read(0, LARGER.size), bytes(content), "the disk that was written again")
        array.heals(2)
        server.stop(faults=[1, 2])
    array.checked(dies=4, live=2, spare=0, written=192, thin=0)
    array.has_copies_of(bytes(content))


@case
def lost_pages_are_noted(make):
    """Two dies fail at once. The pages that are lost stand in the file beside the settings as they are answered, and a server that is killed
    then does not start with --recover."""
    array = make(LARGER)
    noted = array.path("array.toml.lost")
    with array.serve("--recover") as server:
        with server.client() as client:
            client.write(0, os.urandom(LARGER.size))
            client.flush()
            equal(pages_in(noted), [], "the pages that are noted before any is lost")
            array.take_away(1)
            array.take_away(2)
            lost = []
            for page in range(LARGER.pages):
                error, _ = client.request(READ, page * 512, 512)
                if error:
                    lost.append(page)
                    ensure(page in pages_in(noted), f"page {page} is answered as lost, and not noted")
            ensure(lost, "no page is lost")
            equal(sorted(set(pages_in(noted))), lost, "the pages that are noted")
        server.kill()
    array.wanted("mount: 5 unclean\n", "serve", "--recover", status=1)
    os.remove(noted)
    # As many dies are out as there are copies.
    array.wanted("mount: 5 unclean\n", "serve", "--recover", status=1)


def pages_in(path):
    """The pages that a file of lost pages names."""
    if not os.path.exists(path):
        return []
    with open(path, encoding="ascii") as it:
        ranges = [re.fullmatch(r"pages (\d+) to (\d+)\n", line).groups() for line in it]
    return [page for first, last in ranges for page in range(int(first), int(last) + 1)]


@case
def all_fail(make):
    """Where no die is left a READ is answered EIO, and the server ends, and not as closed clean."""
    array = make()
    with array.serve() as server:
        with server.client() as client:
            client.write(0, os.urandom(array.geometry.size))
            for die in range(4):
                array.take_away(die)
            for page in range(64):
                client.request(READ, page * 512, 512)
            equal(client.request(READ, 0, 512), (EIO, b""), "the answer to a READ of a lost page")
        server.says("stop")
        status, lines = server.end()
        equal(status, 1, "the status")
        ensure(lines[-1].startswith("closed unclean: ") and all(FAULT.fullmatch(line) for line in lines[:-1]), f"printed: {lines}")
