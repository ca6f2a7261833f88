"""What the threads of a server do beside one another. A library counts and holds calls of images (tests/call_log.c), so that a case shows
what runs side by side and does not rest on time: a call is held for ten seconds at most, and then the case is late and fails. Only those cases
rest on time that show that who waits is woken, and that of writes beside a die that hangs while it collects.

Sessions of the server make jobs of dies while they wait. So where one is held in a call of a die's image, the workers of the other dies
make theirs."""
import os
import time
from concurrent.futures import ThreadPoolExecutor
from threading import Barrier

from call_log import ALL, LYING, MEMORY_REFUSALS, READ_NANOSECONDS
from nbd_client import NO_HOLE, READ, WRITE
from serve_cases import case
from serve_cases.looks import ANYWHERE, document, looks_at
from serve_cases.watched import LIMIT, User, Watched, written
from servers import FAULT, Geometry, ensure, equal, same_bytes, wait_until

TWO, THREE, FOUR = (Geometry(dies=dies) for dies in (2, 3, 4))
# Four dies of 16 slots each, for 8 pages.
SMALL = Geometry(dies=4, blocks=4, slots=4, pages=8)
# The pages that are written before many of the cases begin.
FIRST = range(8)
# How many calls are made in turn: a write and a read of page 3, and a hundred others.
CALLS = 102
# By how many writes of one page its dies run full there, where nothing is erased, and how many are made behind these.
FULL, MORE = 8, 6
# Four dies of 128 slots each, of which the pages' copies take three quarters.
NEARLY_FULL = Geometry(dies=4, blocks=8, slots=16, pages=188)
# The same dies, of which they take a quarter.
ROOMY = Geometry(dies=4, blocks=8, slots=16, pages=64)
# How many clients ask for these pages, how many requests each makes, how often that is tried, and how long a request takes at least that is not
# woken, in seconds.
CLIENTS, REQUESTS, TRIES, LOOKS_AGAIN = 8, 200, 5, 0.09
# How many of these requests may take so long, where other work holds them up.
MOST_LATE = CLIENTS * REQUESTS // 40
# How many requests each makes where all begin at once, how many pages one that reads is of, and how many of these may take so long.
BURSTS, PAGES_READ = 50, 16
MOST_LATE_OF_BURSTS = CLIENTS * BURSTS // 40
# How long reads of slots take, in microseconds, where who waits for one is woken about when a request's first sleep ends; by how many clients and
# how often they are asked for, and how many of these requests may take as long as one that is not woken.
AS_A_SLEEP_ENDS, READERS, READ_BURSTS = (19_500, 19_700, 19_900, 20_200), 4, 12
MOST_LATE_READS = len(AS_A_SLEEP_ENDS) * READERS * READ_BURSTS // 40
# Four dies of 256 slots each, of which the pages' copies take two thirds; how many writes are made before a die hangs, how many beside that,
# how long each of these may take, in seconds, and how often that is tried. A worker that is not woken looks again behind a second.
COLLECTING = Geometry(dies=4, blocks=8, slots=32, pages=340)
WRITES_BEFORE, WRITES_BESIDE, SOON, HANGS = 800, 3, 0.5, 3
# The die that hangs there.
HUNG = 3


def drawn(number):
    """A number that looks drawn, the same each time."""
    low = (1 << 64) - 1
    mixed = (number + 1) * 0x9E3779B97F4A7C15 & low
    mixed = (mixed ^ mixed >> 30) * 0xBF58476D1CE4E5B9 & low
    return (mixed ^ mixed >> 27) >> 4


def make_call(number, client, plain):
    """Makes the call of a number, of whole pages or of parts, of the disk and of a plain store."""
    seed = drawn(number)
    if number < 2:
        offset, length, kind, seed = 3 * 512, 512, (2, 0)[number], 0
    elif seed % 4 == 0:
        offset, length, kind = seed // 4 % 60 * 512, (seed // 256 % 4 + 1) * 512, seed // 1024 % 5
    else:
        offset, length, kind = seed // 4 % 30_000, seed // 131_072 % 2_000 + 1, seed // 1024 % 5
    if kind < 2:
        same_bytes(client.read(offset, length), plain[offset:offset + length], f"call {number}, a read of {length} bytes at {offset}")
    elif kind < 4:
        plain[offset:offset + length] = bytes((at * 7 + seed) % 251 for at in range(length))
        client.write(offset, plain[offset:offset + length])
    else:
        plain[offset:offset + length] = bytes(length)
        client.zero(offset, length, NO_HOLE)


@case
def two_sessions_read_back(make):
    """Two clients make calls in turn, and each is answered as a plain store answers it."""
    plain = bytearray(THREE.size)
    with make(THREE).serve() as server:
        with server.client() as one, server.client() as other:
            for number in range(CALLS):
                make_call(number, (one, other)[number % 2], plain)
        server.stop()


@case
def two_dies_read_in_one_round(make):
    """A read of two pages on two dies is at both dies at once, whichever is first: each read of a die waits for that of the other. Calls
    before it were quick, so the session takes both. It is in one of them, and the worker of the other's die in the other."""
    watched = Watched(make(TWO))
    with watched.serve() as server:
        with User(server, TWO) as user:
            user.write(0)
            user.write(1)
            user.reads(0, 2)
            watched.log.shut(reads=ALL, enough=2)
            user.reads(0, 2)
        watched.in_time()
        server.stop()


@case
def admit_page_by_page(make):
    """A read of nine pages, of which three were written, is at all dies at once, whichever they are. The session is in the call of one
    die at most, so two workers are in those of theirs at once."""
    for pages in (1, 2, 6), (0, 2, 7), (0, 5, 8), (0, 3, 5):
        watched = Watched(make(THREE))
        with watched.serve() as server:
            with User(server, THREE) as user:
                for page in pages:
                    user.write(page)
                user.reads(0, 9)
                watched.log.shut(reads=ALL, enough=3)
                user.reads(0, 9)
            watched.in_time()
            server.stop()


@case
def slow_image_holds_up_its_die_alone(make):
    """A session reads from three dies, behind calls that were quick, and the image of the last becomes slow. Another session writes page 0
    meanwhile, which is on the two other dies."""
    write_beside_slow(make, THREE, {2})


@case
def slow_images_hold_up_their_dies_alone(make):
    """The same with four dies, of which two become slow. The session is in the call of one of these at most, so a worker is in that of the
    other."""
    write_beside_slow(make, FOUR, {2, 3})


def write_beside_slow(make, geometry, slow):
    """Has one client read while the images of some dies are slow, and another write page 0 meanwhile, which is on dies 0 and 1."""
    watched = Watched(written(make(geometry), 8))
    equal(dies_of(watched.array, 0), {0, 1}, "the dies of page 0")
    with watched.serve() as server:
        with User(server, geometry, FIRST) as reader, User(server, geometry, FIRST) as writer:
            reader.reads(0, 8)
            watched.log.shut(reads=sum(1 << die for die in slow))
            cookie = reader.client.begin(READ, 0, 8 * 512)
            watched.await_begun(len(slow))
            writer.write(0)
            watched.in_time()
            watched.log.open()
            equal(reader.client.end(cookie, 8 * 512), (0, reader.content(0, 8)), "the answer to the read that was held up")
        server.stop()


@case
def flush_without_sync(make):
    """A flush syncs each image, behind no write too."""
    watched = Watched(make(THREE))
    with watched.serve() as server:
        with server.client() as client:
            place = watched.log.place()
            client.flush()
            equal(watched.synced(place), {0, 1, 2}, "the dies that were synced before a flush was answered")
        server.stop()


@case
def workers_collect_and_rebuild(make):
    """The rebuilder gives each page of a die that is missing another copy, and the collector makes room for many writes of one page."""
    rebuild(make)
    collect(make)


def rebuild(make):
    """Die 1 is missing, which has four pages: four programs give them their copies."""
    watched = Watched(written(make(SMALL), 8))
    image, away = watched.array.image(1), watched.array.path("away")
    os.rename(image, away)
    with watched.serve("--unclean") as server:
        watched.await_programs(4)
        os.rename(away, image)
        server.stop()
    watched.array.checked(dies=4, live=3, written=8, thin=0)


def collect(make):
    """Each write is answered before ten seconds have passed, so there was room for both of its copies by then. The writes take more slots
    than all dies have, so some of these were erased meanwhile."""
    watched = Watched(written(make(SMALL), 8))
    with watched.serve() as server:
        with User(server, SMALL, FIRST, seconds=LIMIT) as user:
            write_often(user, 40)
            ensure(watched.erases, "nothing was erased")
            user.reads(0, 8)
        server.stop()


@case
def who_waits_for_room_is_woken(make):
    """Clients write pages of an array that is nearly full, so many writes wait for dies that collect. Whoever waits looks again a tenth of a
    second after that began, so a write that is not woken as a die has room takes that long. Other work may hold up writes as long, so it is
    tried more than once."""
    few_are_late(make, NEARLY_FULL, count_late_writes, MOST_LATE)


@case
def who_waits_for_programs_is_woken(make):
    """Clients write pages at once, and dies program those of several clients one behind the other."""
    few_are_late_at_once(make, lambda user, page: user.write(page))


@case
def who_waits_for_reads_is_woken(make):
    """Clients read pages at once, and dies read those of several clients in a round."""
    few_are_late_at_once(make, lambda user, page: user.reads(page % (ROOMY.pages - PAGES_READ), PAGES_READ))


@case
def who_waits_for_a_claim_is_woken(make):
    """Clients write one page at once, which one of them at a time has claimed."""
    few_are_late_at_once(make, lambda user, page: user.write(0))


@case
def who_waits_for_a_flush_is_woken(make):
    """Clients write pages at once, and flush, which waits for the dies' syncs."""
    few_are_late_at_once(make, write_and_flush)


@case
def who_is_woken_as_a_first_sleep_ends_goes_on(make):
    """Clients read pages of two dies at once, half of them behind the reads of others, which take as long as a request sleeps before it has the
    dies' workers look. Whoever is woken just as that sleep ends does not sleep on until it looks again."""
    watched = Watched(written(make(TWO), len(FIRST)))
    together = Barrier(READERS, timeout=LIMIT)
    with watched.serve() as server, ThreadPoolExecutor(READERS) as pool:
        for _ in range(TRIES):
            late = 0
            for microseconds in AS_A_SLEEP_ENDS:
                watched.log.put(READ_NANOSECONDS, 1000 * microseconds)
                late += sum(pool.map(lambda number: count_late_reads(server, number, together), range(READERS)))
            if late <= MOST_LATE_READS:
                break
        server.stop()
    ensure(late <= MOST_LATE_READS, f"{late} reads took {LOOKS_AGAIN} seconds and more, where {MOST_LATE_READS} may, and too many each time before")


def count_late_reads(server, number, together):
    """How many reads of a page took as long as one that is not woken, of those of the client of this number, each of which all clients begin at
    once."""
    with User(server, TWO, FIRST) as user:
        return count_late_of_bursts(READ_BURSTS, together, lambda burst: user.reads((number + burst) % len(FIRST), 1))


def write_and_flush(user, page):
    """Writes a page, and flushes."""
    user.write(page)
    user.client.flush()


def few_are_late_at_once(make, ask):
    """Has all clients ask for a page each at once, again and again. Nobody asks for more until each has its answer, so nothing else wakes
    whoever is not woken for what it waits for."""
    together = Barrier(CLIENTS, timeout=LIMIT)
    few_are_late(make, ROOMY, lambda server, number: count_late_at_once(server, number, ask, together), MOST_LATE_OF_BURSTS)


def few_are_late(make, geometry, count, most):
    """Has clients ask for pages of an array, each of which counts its late answers, until few are."""
    with written(make(geometry), geometry.pages).serve() as server:
        with ThreadPoolExecutor(CLIENTS) as pool:
            for _ in range(TRIES):
                late = sum(pool.map(lambda number: count(server, number), range(CLIENTS)))
                if late <= most:
                    break
        server.stop()
    ensure(late <= most, f"{late} requests took {LOOKS_AGAIN} seconds and more, where {most} may, and too many each time before")


def count_late_writes(server, number):
    """How many writes took as long as one that is not woken, of those of the client of this number. It ends once these are many for one client."""
    late = 0
    with User(server, NEARLY_FULL) as user:
        for write in range(REQUESTS):
            late += is_late(lambda: user.write((7 * number + 13 * write) % NEARLY_FULL.pages))
            if late > MOST_LATE // 4:
                break
    return late


def count_late_at_once(server, number, ask, together):
    """How many requests took as long, of those of the client of this number, each of which all clients begin at once."""
    with User(server, ROOMY, range(ROOMY.pages)) as user:
        return count_late_of_bursts(BURSTS, together, lambda burst: ask(user, (7 * number + 13 * burst) % ROOMY.pages))


def count_late_of_bursts(bursts, together, ask):
    """How many of a client's requests took as long, one for each burst, which it begins as all others begin theirs."""
    late = 0
    for burst in range(bursts):
        together.wait()
        late += is_late(lambda: ask(burst))
    return late


def is_late(ask):
    """Whether a request takes as long as one that is not woken."""
    began = time.monotonic()
    ask()
    return time.monotonic() - began >= LOOKS_AGAIN


@case
def hung_image_holds_up_no_write_to_dies_that_collect(make):
    """All dies collect, and one hangs as a slot of it is read that is to be moved. Writes of pages on the others, whose collector may be in
    that call, do not wait until their workers look again."""
    watched = Watched(written(make(COLLECTING), COLLECTING.pages))
    dies = {page: {die for die, _ in copies[2]} for page, copies in watched.array.dump().items()}
    spoiled = [page for page in dies if HUNG in dies[page]]
    for _ in range(HANGS):
        with watched.serve(*ANYWHERE) as server, ThreadPoolExecutor(1) as pool:
            write_pages(server, [13 * write % COLLECTING.pages for write in range(WRITES_BEFORE)])
            watched.log.shut(reads=1 << HUNG)
            spoils = pool.submit(write_pages, server, spoiled)
            watched.await_begun(1)
            roomy = dies_with_room(server)
            took = write_pages(server, [page for page in dies if dies[page] <= roomy - {HUNG}][:WRITES_BESIDE])
            watched.in_time()
            watched.log.open()
            spoils.result()
            server.stop()
        ensure(max(took, default=0) < SOON, f"writes of pages that the hung die does not have took {took} seconds")


def write_pages(server, pages):
    """How long a write of each of these pages takes, one behind the other, in seconds."""
    took = []
    with User(server, COLLECTING, seconds=2 * LIMIT) as user:
        for page in pages:
            began = time.monotonic()
            user.write(page)
            took.append(time.monotonic() - began)
    return took


def dies_with_room(server):
    """The dies that have a slot for each of the writes, beside a block that is kept for moves."""
    told = document(looks_at(server))["table"]
    return {it["die"] for it in told if it["erased"] >= COLLECTING.slots + WRITES_BESIDE}


@case
def writes_end_without_windows(make):
    """Two dies run full by writes of one page, and no window is to be had, since the collector is refused memory: the next writes go to
    other dies, and do not wait."""
    watched = Watched(written(make(SMALL), 8), refuses_memory=True)
    homes = dies_of(watched.array, 6)
    with watched.serve() as server:
        watched.log.refuse_memory(collector(SMALL))
        with User(server, SMALL, FIRST, seconds=LIMIT) as user:
            write_often(user, FULL)
            ensure(wait_until(lambda: watched.log.number(MEMORY_REFUSALS), LIMIT), "late: no window was refused")
            write_often(user, MORE)
            equal(watched.erases, 0, "the number of erases without a window")
            user.reads(0, 8)
        server.stop()
    equal(homes & dies_of(watched.array, 6), set(), "the dies of page 6 that it was on before")


@case
def writes_have_windows(make):
    """The writes of `writes_end_without_windows` want windows: blocks are erased where memory is not refused."""
    watched = Watched(written(make(SMALL), 8), refuses_memory=True)
    with watched.serve() as server:
        with User(server, SMALL, FIRST, seconds=LIMIT) as user:
            write_often(user, FULL + MORE)
            ensure(wait_until(lambda: watched.erases, LIMIT), "late: nothing was erased")
            user.reads(0, 8)
        equal(watched.log.number(MEMORY_REFUSALS), 0, "how often memory was refused")
        server.stop()


def collector(geometry):
    """The number of the collector's thread, which is made behind a worker of each die, once no other thread is left but the main one."""
    return geometry.dies + 1


def write_often(user, times):
    """Writes page 6 as often as that."""
    for _ in range(times):
        user.write(6)


def dies_of(array, page):
    """The dies that a page is on."""
    return {die for die, _ in array.dump()[page][2]}


@case
def vanished_client_leaves_nothing(make):
    """Clients that vanish before a reply, or inside a request, while calls of images are held, leave nothing open: a request that came
    whole is done, the other is not, each end is told, and the two sessions serve others."""
    watched = Watched(written(make(THREE, sessions=2), 8))
    with watched.serve("--verbose") as server:
        watched.log.shut(reads=ALL, programs=ALL)
        reader, writer = server.client(), server.client()
        reader.begin(READ, 0, 3 * 512)
        cookie = writer.begin(WRITE, 9 * 512, 512, b"\x11" * 512)
        writer.begin(WRITE, 10 * 512, 512, b"\x22" * 100)
        writer.end_output()
        watched.await_begun(2)
        reader.reset()
        watched.in_time()
        watched.log.open()
        equal(writer.end(cookie), (0, b""), "the answer to the write of page 9")
        equal(writer.rest(), b"", "what comes behind it")
        writer.close()
        for end in "(reading from|writing to) the client has failed", "the connection has ended":
            ensure(wait_until(lambda: server.is_told(end), LIMIT), f"late: of no client is told that {end}: {server.errors}")
        with User(server, THREE, FIRST) as one, User(server, THREE, FIRST) as other:
            one.reads(0, 9)
            same_bytes(other.client.read(9 * 512, 1024), b"\x11" * 512 + bytes(512), "pages 9 and 10")
        server.stop()
    watched.array.checked(written=9, thin=0)


@case
def wrong_bytes_take_the_die_out(make):
    """A die whose image gives wrong bytes once goes out, and what is read is right."""
    watched = Watched(written(make(FOUR), 8))
    with watched.serve() as server:
        watched.log.lie(1)
        with User(server, FOUR, FIRST) as user:
            user.reads(0, 8)
        equal(watched.log.number(LYING), 0, "the dies that have not given wrong bytes yet")
        lines = server.stop(faults=[1])
    equal([FAULT.fullmatch(line).group(2) for line in lines[:-1]], ["7"], "the causes of the faults")
