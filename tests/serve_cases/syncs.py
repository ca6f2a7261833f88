"""What the server syncs, as a library sees it that looks at its calls of images (tests/call_log.c). No clause can tell that a sync which is
noted was made."""
import subprocess
from itertools import takewhile

from call_log import SYNC_NANOSECONDS, CallLog, compiled
from children import CHILDREN
from crashes import ERASE, REFUSED, SYNC, WRITE, records
from images import ERASED, HEADER_END, header_bytes
from nbd_client import FUA
from serve_cases import case
from serve_cases.watched import Watched
from servers import ARRAY, SETTINGS, Geometry, ensure, equal, same_bytes

DIES = 4
SMALL = Geometry(dies=DIES, blocks=8, slots=8, pages=60)
ALL = set(range(DIES))
# How many flushes are looked at, and how long each sync takes, in nanoseconds.
FLUSHES, LONG_SYNC = 3, 400_000_000


def rewrites(client, times):
    for number in range(times):
        for page in range(SMALL.pages):
            client.write(page * SMALL.page_bytes, bytes([number + 1]) * SMALL.page_bytes)


@case
def each_start_syncs_each_image_first(make):
    watched = Watched(make(SMALL))
    for words in (), ("--recover",):
        place = watched.log.place()
        with watched.serve(*words) as server:
            equal(watched.synced(place), ALL, f"the dies that were synced before the server listened, with {words}")
            for die, calls in watched.by_die(place).items():
                equal(calls[0].kind, SYNC, f"the first call of die {die}'s image that is no read, with {words}")
            server.stop()


@case
def a_flush_syncs_each_live_die(make):
    watched = Watched(make(SMALL))
    with watched.serve() as server:
        with server.client() as client:
            for flags in (0, FUA):
                client.write(0, bytes([flags + 1]) * SMALL.page_bytes)
                place = watched.log.place()
                if flags:
                    client.write(SMALL.page_bytes, b"x", flags)
                else:
                    client.flush()
                equal(watched.synced(place), ALL, f"the dies that were synced before a {'write with FUA' if flags else 'flush'} was answered")
        server.stop()


@case
def a_flush_is_at_all_dies_at_once(make):
    """The dies are synced side by side, also where the calls before were so quick that a session would take the jobs of several. No die
    collects meanwhile."""
    watched = Watched(make(SMALL))
    with watched.serve() as server:
        with server.client() as client:
            watched.log.put(SYNC_NANOSECONDS, LONG_SYNC)
            for number in range(FLUSHES):
                for page in range(DIES):
                    client.write(page * SMALL.page_bytes, bytes([number + 1]) * SMALL.page_bytes)
                place = watched.log.place()
                client.flush()
                began = [it.die for it in takewhile(lambda it: not it.is_end, (it for it in watched.records(place) if it.kind == SYNC))]
                equal(set(began), ALL, f"the dies whose syncs began before one ended, in flush {number}")
            watched.log.put(SYNC_NANOSECONDS, 0)
        server.stop()


@case
def a_header_is_synced_before_anything_else(make):
    watched = Watched(make(SMALL))
    with watched.serve() as server:
        with server.client() as client:
            rewrites(client, 1)
        server.stop()
    for die, calls in watched.by_die().items():
        headers = [at for at, it in enumerate(calls) if it.kind == WRITE and it.offset == 0]
        ensure(headers, f"no header of die {die} is written")
        for at in headers:
            equal([it.kind for it in calls[at + 1:at + 2]], [SYNC], f"the kind of the call of die {die} behind a header")


@case
def an_erase_comes_right_behind_a_sync(make):
    watched = Watched(make(SMALL))
    with watched.serve() as server:
        with server.client() as client:
            rewrites(client, 6)
        server.stop()
    erases = 0
    for die, calls in watched.by_die().items():
        for before, it in zip(calls, calls[1:]):
            if it.kind == ERASE:
                erases += 1
                equal(before.kind, SYNC, f"the kind of the call of die {die} before an erase")
    ensure(erases >= DIES, f"there were {erases} erases")


# The writes and syncs by which an image of four blocks is formatted, and what is told where one of them is refused.
FORMATTING = [*[(ERASE, "a block could not be erased")] * 4, (WRITE, "the header could not be written"), (SYNC, "the header could not be written"),
              (SYNC, "the image could not be synced")]
TINY = Geometry(dies=2, blocks=4, slots=4, pages=8)


def formatted_in_part(die, calls):
    """The bytes of a die's image behind the first `calls` of them."""
    block = TINY.slots * TINY.slot_bytes
    header = header_bytes(die, (TINY.dies, TINY.spares, TINY.blocks, TINY.slots, TINY.pages), ARRAY, mask=3)
    erased = ERASED * (block * min(calls, TINY.blocks)) + bytes(block * max(0, TINY.blocks - calls))
    return (header if calls > TINY.blocks else b"").ljust(HEADER_END, b"\0") + erased


@case
def each_call_of_format_is_refused_in_turn(make):
    """It is told which image refused what. The images before it are whole, and of those behind it no call is made."""
    array = make(TINY, formatted=False)
    log = CallLog(compiled(array.folder), array.folder)
    for number in range(1, 2 * len(FORMATTING) + 2):
        die, call = divmod(number - 1, len(FORMATTING))
        log.refuse_call(number)
        place = log.place()
        status, told = CHILDREN.run([array.program, "format", SETTINGS], 60, cwd=array.folder, env=log.environment(), stderr=subprocess.STDOUT)
        if die < TINY.dies:
            wanted = (1, f"flasharr: d{die}.img: {FORMATTING[call][1]}: look at its disk, and format it again\nformat: image {die}\n".encode())
        else:
            wanted = (0, b"formatted 2 images\n")
        equal((status, told), wanted, f"what format ends with and prints, with call {number} refused")
        for other in range(TINY.dies):
            done = len(FORMATTING) if other < die else call if other == die else 0
            with open(array.image(other), "rb") as it:
                same_bytes(it.read(), formatted_in_part(other, done), f"the image of die {other}, with call {number} refused")
        made = [(it.die, it.kind) for it in records(log.path, place)[0] if it.is_end]
        due = [(other, kind) for other in range(TINY.dies) for kind, _ in FORMATTING][:number - 1]
        equal(made, due + [(die, REFUSED)] * (die < TINY.dies), f"the writes and syncs, with call {number} refused")
