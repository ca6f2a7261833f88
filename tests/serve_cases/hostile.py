"""Clients that send garbage, stop in the middle, or vanish. The others are served, and the server can be stopped."""
import os
import random
import time

from nbd_client import Client, GO, READ, WRITE, go_data, option_bytes, request_bytes
from serve_cases import case
from servers import Geometry, ensure, equal, same_bytes

LARGE = Geometry(blocks=8, slots=32, pages=256, page_bytes=4096)
LEAVE = Client.close, Client.reset


def is_served(server, content, what):
    """Asks that another client reads this content."""
    with server.client() as client:
        same_bytes(client.read(0, len(content)), content, f"the disk after {what}")


def filled(server, size):
    content = os.urandom(size)
    with server.client() as client:
        client.write(0, content)
    return content


@case
def garbage(make):
    """Random bytes in place of the client's flags, of an option and of a request."""
    array = make()
    rng = random.Random(3)
    with array.serve() as server:
        content = filled(server, array.geometry.size)
        for step in range(60):
            with Client(server.address) as client:
                if step % 3 == 0:
                    client.receive(18)
                elif step % 3 == 1:
                    client.greet()
                else:
                    client.go()
                try:
                    client.send(rng.randbytes(rng.randint(4, 3000)))
                except OSError:
                    pass
                LEAVE[step % 2](client)
        is_served(server, content, "garbage")
        server.stop()
    array.checked(live=4, written=64, thin=0)


@case
def half_messages(make):
    """A handshake and a request that are cut after each of their bytes."""
    array = make()
    whole = b"\0\0\0\3" + option_bytes(GO, go_data(b"disk")) + request_bytes(READ, 0, 512)
    with array.serve() as server:
        content = filled(server, array.geometry.size)
        for cut in range(len(whole)):
            client = Client(server.address)
            client.receive(18)
            client.send(whole[:cut])
            LEAVE[cut % 2](client)
        is_served(server, content, "half messages")
        server.stop()


@case
def clients_that_vanish_inside_data(make):
    """Each page has its old bytes or those of the WRITE that was cut, and can be written again."""
    array = make(LARGE)
    with array.serve() as server:
        content = filled(server, LARGE.size)
        data = os.urandom(LARGE.size)
        for step, cut in enumerate([0, 1, 511, 4096, 65_536, 500_000, len(data) - 1]):
            client = server.client()
            client.send(request_bytes(WRITE, 0, len(data)) + data[:cut])
            time.sleep(0.02)
            LEAVE[step % 2](client)
        with server.client() as client:
            found = client.read(0, LARGE.size)
            for at in range(0, LARGE.size, 4096):
                ensure(found[at:at + 4096] in (content[at:at + 4096], data[at:at + 4096]),
                       f"page {at // 4096} has neither its old bytes nor those of the WRITE that was cut")
            same_bytes(found[-4096:], content[-4096:], "the last page, of which no byte too many was sent")
            client.write(0, data)
            same_bytes(client.read(0, LARGE.size), data, "the disk that was written again")
        array.heals(4)
        server.stop()
    array.checked(live=4, written=256, thin=0)
    array.has_copies_of(data)


@case
def clients_that_vanish_before_their_reply(make):
    array = make(LARGE)
    with array.serve() as server:
        content = filled(server, LARGE.size)
        for step in range(12):
            client = Client(server.address, receive_buffer=4096).go()
            for _ in range(1 + step):
                client.begin(READ, 0, LARGE.size)
            if step % 3 == 0:
                client.end(1, 1000)
            time.sleep(0.02)
            LEAVE[step % 2](client)
        is_served(server, content, "clients that did not read their replies")
        server.stop()
    array.checked(live=4, written=256, thin=0)


@case
def slow_clients_hold_up_nobody(make):
    """Fifteen clients in the middle of a request, or that do not read their replies, and one that works."""
    array = make(LARGE)
    with array.serve() as server:
        content = filled(server, LARGE.size)
        slow = []
        for step in range(15):
            client = Client(server.address, receive_buffer=4096).go()
            if step % 3 == 0:
                client.send(request_bytes(WRITE, 0, 4096) + b"half")
            elif step % 3 == 1:
                client.send(request_bytes(READ, 0, 1)[:20])
            else:
                for _ in range(20):
                    client.begin(READ, 0, LARGE.size)
            slow.append(client)
        began = time.monotonic()
        is_served(server, content, "slow clients came")
        with server.client() as client:
            client.write(0, content[::-1])
            client.flush()
            same_bytes(client.read(0, LARGE.size), content[::-1], "the disk")
        took = time.monotonic() - began
        ensure(took < 10, f"a client beside slow ones took {took:.1f} seconds")
        for client in slow:
            client.close()
        server.stop()
    array.checked(live=4, written=256, thin=0)


@case
def a_request_in_pieces(make):
    """A request and its data a few bytes at a time, with waits between."""
    with make().serve() as server:
        with server.client() as client:
            whole = request_bytes(WRITE, 510, 4, cookie=9) + b"wxyz" + request_bytes(READ, 509, 6, cookie=10)
            for at in range(0, len(whole), 5):
                client.send(whole[at:at + 5])
                time.sleep(0.01)
            equal(client.end(9), (0, b""), "the answer to the WRITE")
            equal(client.end(10, 6), (0, b"\0wxyz\0"), "the answer to the READ")
        server.stop()
