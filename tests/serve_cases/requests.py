"""Requests of one client: their effect, their errors, and the order of replies."""
import os
import random

from nbd_client import EINVAL, ENOSPC, FLUSH, FUA, MAX_LENGTH, NO_HOLE, READ, TRIM, WRITE, WRITE_ZEROES, request_bytes
from serve_cases import case
from servers import Geometry, equal, same_bytes

SIZE = 64 * 512


@case
def written_and_read_back(make):
    array = make()
    content = os.urandom(SIZE)
    with array.serve() as server:
        with server.client() as client:
            same_bytes(client.read(0, SIZE), bytes(SIZE), "a new disk")
            client.write(0, content)
            same_bytes(client.read(0, SIZE), content, "the disk")
            client.write(SIZE - 512, content[:512])
            same_bytes(client.read(SIZE - 512, 512), content[:512], "the last page")
        with server.client() as client:
            same_bytes(client.read(0, SIZE), content[:-512] + content[:512], "the disk, to another client")
        server.stop()


@case
def serve_over_loopback(make):
    """One client writes a page, reads it back and disconnects; then comes the stop. What the server prints, and what `check` tells, are exact."""
    array = make(sessions=4)
    page, data = 3 * 512, b"\x5a" * 512
    with array.serve() as server:
        with server.client() as client:
            client.write(page, data)
            same_bytes(client.read(page, 512), data, "the page")
        server.says("stop")
        equal(server.end(), (0, ["closed clean"]), "how it ends")
    array.wanted("dies 4 live 4 spare 0\nepoch 2 clean\nwritten 1 thin 0\n", "check")


@case
def any_offset_and_any_length(make):
    """A thousand requests of one client, of any offset and length, beside a plain disk."""
    array = make()
    disk = bytearray(SIZE)
    rng = random.Random(1)
    with array.serve() as server:
        with server.client() as client:
            for step in range(1000):
                offset = rng.randrange(SIZE)
                length = min(rng.choice([1, 7, 511, 512, 513, 1024, 5000]), SIZE - offset)
                end = offset + length
                flags = FUA if rng.random() < 0.05 else 0
                kind = rng.random()
                if kind < 0.45:
                    data = rng.randbytes(length)
                    client.write(offset, data, flags)
                    disk[offset:end] = data
                elif kind < 0.55:
                    client.zero(offset, length, flags | rng.choice([0, NO_HOLE]))
                    disk[offset:end] = bytes(length)
                elif kind < 0.65:
                    client.trim(offset, length, flags)
                    first, last = -(-offset // 512) * 512, end // 512 * 512
                    if first < last:
                        disk[first:last] = bytes(last - first)
                elif kind < 0.68:
                    client.flush()
                else:
                    same_bytes(client.read(offset, length), bytes(disk[offset:end]), f"request {step}, {length} bytes at {offset}")
            same_bytes(client.read(0, SIZE), bytes(disk), "the disk at the end")
        server.stop()
    array.checked(live=4, thin=0)
    array.has_copies_of(bytes(disk))


@case
def holes_stand_in_the_images(make):
    array = make()
    with array.serve() as server:
        with server.client() as client:
            client.write(0, b"\x11" * 2048)
            client.trim(100, 1000)
            client.zero(1024, 512)
            client.zero(1536, 512, NO_HOLE)
            same_bytes(client.read(0, 2048), b"\x11" * 512 + bytes(1536), "the first four pages")
        server.stop()
    equal([array.dump()[page][1] for page in range(4)], [0, 1, 1, 0], "which of the first four pages are holes")
    array.has_copies_of(b"\x11" * 512 + bytes(SIZE - 512))


@case
def what_is_refused(make):
    with make().serve() as server:
        with server.client() as client:
            client.write(SIZE - 512, b"\x77" * 512)
            for request, error in [
                    ((READ, SIZE - 1, 2), EINVAL), ((READ, SIZE, 1), EINVAL), ((READ, 2 ** 64 - 1, 1), EINVAL),
                    ((READ, 2 ** 64 - 512, 512), EINVAL), ((READ, 0, MAX_LENGTH + 1), EINVAL),
                    ((WRITE, SIZE - 511, 512, b"\x88" * 512), ENOSPC), ((WRITE, SIZE, 1, b"x"), ENOSPC),
                    ((WRITE, 2 ** 64 - 1, 2, b"xy"), ENOSPC), ((WRITE, 0, MAX_LENGTH + 1, bytes(MAX_LENGTH + 1)), EINVAL),
                    ((TRIM, SIZE - 1, 2), EINVAL), ((WRITE_ZEROES, SIZE - 511, 512), ENOSPC),
                    ((5, 0, 512), EINVAL), ((7, 0, 512), EINVAL), ((65_535, 0, 0), EINVAL),
                    ((READ, 0, 512, b"", NO_HOLE), EINVAL), ((WRITE, 0, 3, b"abc", 4), EINVAL), ((TRIM, 0, 512, b"", NO_HOLE), EINVAL),
                    ((FLUSH, 0, 0, b"", NO_HOLE), EINVAL),
                    ((READ, 0, 0), 0), ((READ, SIZE, 0), 0), ((WRITE, SIZE + 5, 0), 0), ((TRIM, 1, 0), 0), ((WRITE_ZEROES, 0, 0), 0),
                    ((FLUSH, 7, 9), 0), ((FLUSH, 0, 0, b"", FUA), 0)]:
                equal(client.request(*request), (error, b""), f"the answer to {str(request)[:80]}")
            equal(client.request(READ, 0, 3, flags=FUA), (0, bytes(3)), "the answer to a READ with FUA")
            same_bytes(client.read(0, SIZE), bytes(SIZE - 512) + b"\x77" * 512, "the disk")
        server.stop()


@case
def many_requests_before_a_reply_is_read(make):
    """Replies come in the order of the requests, and each request sees the ones before it."""
    with make().serve() as server:
        with server.client() as client:
            cookies = []
            for step in range(200):
                page = step % 8
                cookies.append((client.begin(WRITE, page * 512, 512, bytes([step]) * 512), None))
                cookies.append((client.begin(READ, page * 512 + 100, 3), bytes([step]) * 3))
                if step % 40 == 0:
                    cookies.append((client.begin(FLUSH), None))
            for cookie, data in cookies:
                equal(client.end(cookie, len(data or b"")), (0, data or b""), f"the answer to request {cookie}")
        server.stop()


@case
def replies_come_before_the_next_request_is_whole(make):
    """Requests come in one piece with the half of another: all that came whole are answered, and the half when the rest has come."""
    array = make()
    with array.serve() as server:
        with server.client() as client:
            page = os.urandom(512)
            requests = [request_bytes(WRITE, 512 * at, 512, cookie=at + 1) + page for at in range(24)]
            requests += [request_bytes(READ, 512 * at, 512, cookie=at + 101) for at in range(24)]
            last = request_bytes(WRITE, 0, 512, cookie=201) + page
            for cut in (1, 28, 100):
                client.send(b"".join(requests) + last[:cut])
                for at in range(24):
                    equal(client.end(at + 1), (0, b""), f"the answer to WRITE {at}")
                for at in range(24):
                    equal(client.end(at + 101, 512), (0, page), f"the answer to READ {at}")
                client.send(last[cut:])
                equal(client.end(201), (0, b""), "the answer to the last WRITE")
        server.stop()


@case
def a_disk_of_a_mebibyte_at_once(make):
    array = make(Geometry(blocks=8, slots=32, pages=256, page_bytes=4096))
    content = os.urandom(1 << 20)
    with array.serve() as server:
        with server.client() as client:
            for turn in range(3):
                client.write(0, content[turn:] + content[:turn], FUA)
                same_bytes(client.read(0, 1 << 20), content[turn:] + content[:turn], "the disk")
        server.stop()
    array.checked(written=256, thin=0)
    array.has_copies_of(content[2:] + content[:2])


@case
def a_wrong_magic_number_closes(make):
    """What comes before it is done, and it is answered by nothing."""
    with make().serve() as server:
        for magic in 0x25609514, 0, 0x67446698:
            with server.client() as client:
                client.send(request_bytes(WRITE, 0, 1, cookie=1) + bytes([magic & 0xff])
                            + request_bytes(READ, 0, 1, cookie=2, magic=magic))
                equal(client.end(1), (0, b""), "the answer to the WRITE before")
                equal(client.rest(), b"", f"what the server says behind the magic number {magic:08x}")
            with server.client() as client:
                equal(client.read(0, 1), bytes([magic & 0xff]), "the byte that was written")
        server.stop()


@case
def cookies_are_repeated(make):
    with make().serve() as server:
        with server.client() as client:
            for cookie in 0, 2 ** 64 - 1, 0x6744669867446698:
                client.send(request_bytes(READ, 5, 2, cookie=cookie))
                equal(client.end(cookie, 2), (0, bytes(2)), f"the answer to cookie {cookie:x}")
        server.stop()
