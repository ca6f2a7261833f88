"""The same bytes by one client of `serve` and by `talk --array`, each over an array of its own."""
import os
import random
import re

from nbd_client import DISC, FLUSH, FUA, GO, NO_HOLE, READ, TRIM, WRITE, WRITE_ZEROES, Client, go_data, option_bytes, request_bytes
from serve_cases import case
from servers import SETTINGS, Geometry, ensure, equal, same_bytes

# How the connection ends where the client disconnects.
DISCONNECTED = 1
LARGER = Geometry(blocks=16, slots=16, pages=192, page_bytes=1024)


def client_bytes(*requests):
    """All that a client says: its flags, GO, these requests, and that it goes."""
    said = [b"\0\0\0\3", option_bytes(GO, go_data())]
    for cookie, (command, offset, length, data, flags) in enumerate(requests):
        said.append(request_bytes(command, offset, length, flags=flags, cookie=cookie) + data)
    return b"".join([*said, request_bytes(DISC)])


def some_requests(rng, disk, page_bytes, count):
    """Requests of each kind, some of which are refused. What they leave is put into the disk."""
    for _ in range(count):
        offset = rng.randrange(len(disk))
        length = min(rng.choice([1, 100, page_bytes, 5 * page_bytes, 20 * page_bytes]), len(disk) - offset)
        if rng.random() < 0.5:
            offset -= offset % page_bytes
        flags, end = rng.choice([0, 0, FUA]), offset + length
        kind = rng.choice([READ, READ, WRITE, WRITE, WRITE, WRITE_ZEROES, TRIM, FLUSH, None])
        if kind is None:
            yield rng.choice([READ, TRIM, WRITE_ZEROES]), len(disk) - 1, 2, b"", 0
            continue
        data = rng.randbytes(length) if kind == WRITE else b""
        if kind == WRITE_ZEROES:
            flags |= rng.choice([0, NO_HOLE])
        if kind in (WRITE, WRITE_ZEROES):
            disk[offset:end] = data or bytes(length)
        if kind == TRIM:
            first, last = -(-offset // page_bytes) * page_bytes, end // page_bytes * page_bytes
            disk[first:max(first, last)] = bytes(max(0, last - first))
        yield kind, offset, length, data, flags
    yield READ, 0, len(disk), b"", 0


def said_by_server(array, said):
    """All that the server says to one client."""
    with array.serve() as server:
        with Client(server.address) as client:
            client.send(said)
            heard = client.rest()
        server.stop()
    return heard


def said_by_talk(array, said, *flags):
    """The same by `talk --array`."""
    array.put("said.hex", said.hex())
    with open(array.path("said.hex"), "rb") as lines:
        status, text = array.run_words("talk", "--array", SETTINGS, *flags, stdin=lines)
    equal(status, 0, f"the status of talk, which printed {text[-200:]!r}")
    found = re.fullmatch(r"([0-9a-f]*)\nend (\d)\nclosed clean\n", text)
    ensure(found, f"talk ends with {text[-200:]!r}")
    equal(int(found.group(2)), DISCONNECTED, "how the connection ended")
    return bytes.fromhex(found.group(1))


def both(make, geometry, copies, seed):
    """Two arrays that a client has worked on, one of them by each, and what stands on them."""
    served, talked = make(geometry, copies=copies), make(geometry, copies=copies)
    disk = bytearray(geometry.size)
    said = client_bytes(*some_requests(random.Random(seed), disk, geometry.page_bytes, 60))
    heard = said_by_server(served, said)
    same_bytes(said_by_talk(talked, said), heard, "what talk says")
    # The same pages are written and the same are holes, and each copy has the same content. Their numbers and places are free, as the server
    # writes the pages of one request side by side.
    kinds = [{page: kind for page, (_, kind, _) in array.dump().items()} for array in (talked, served)]
    equal(kinds[0], kinds[1], "which pages of talk's array are written, and which of them are holes")
    for array in (served, talked):
        array.checked(live=4, thin=0)
        array.has_copies_of(bytes(disk))
    return served, talked, bytes(disk)


@case
def the_same_bytes(make):
    both(make, Geometry(), 2, 1)
    both(make, LARGER, 2, 2)


@case
def the_same_bytes_at_three_copies(make):
    both(make, Geometry(), 3, 3)


@case
def a_wrong_byte_in_an_image(make):
    """A byte of a page's slot is changed on one of its dies, in each of the arrays. Both give the right data, and make the copy anew."""
    served, talked, disk = both(make, Geometry(), 2, 4)
    for array in (served, talked):
        page, (_, _, places) = sorted(array.dump().items())[0]
        die, slot = places[0]
        with open(array.image(die), "r+b") as image:
            at = 4096 + slot * array.geometry.slot_bytes + 7
            image.seek(at)
            byte = image.read(1)[0]
            image.seek(at)
            image.write(bytes([byte ^ 0x40]))
        equal(len(array.dump()[page][2]), 1, f"the number of copies of page {page} that are left")
    said = client_bytes((FLUSH, 0, 0, b"", 0), (READ, 0, len(disk), b"", 0))
    heard = said_by_server(served, said)
    same_bytes(heard[-len(disk):], disk, "the disk by serve")
    same_bytes(said_by_talk(talked, said), heard, "what talk says")
    for array in (served, talked):
        array.checked(live=4)
        array.has_copies_of(disk)


@case
def what_talk_wrote_is_served(make):
    """An array goes from one to the other and back."""
    array = make()
    page, other = os.urandom(512), os.urandom(512)
    said_by_talk(array, client_bytes((WRITE, 512, 512, page, 0)))
    with array.serve() as server:
        with server.client() as client:
            same_bytes(client.read(512, 512), page, "page 1 by serve")
            client.write(0, other)
        # While one process has the images another one is refused them.
        array.put("said.hex", client_bytes((READ, 0, 512, b"", 0)).hex())
        with open(array.path("said.hex"), "rb") as lines:
            equal(array.run_words("talk", "--array", SETTINGS, stdin=lines), (1, "mount: 7 image fault\n"), "talk while the array is served")
        server.stop()
    heard = said_by_talk(array, client_bytes((READ, 0, 1024, b"", 0)))
    same_bytes(heard[-1024:], other + page, "pages 0 and 1 by talk")
