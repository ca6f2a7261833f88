"""The stop: by the line or by the end of input, with clients that stay, and soon."""
import os
import time

from nbd_client import Client, GO, READ, WRITE, go_data, option_bytes, request_bytes
from serve_cases import case
from servers import Geometry, ensure, equal, same_bytes

LARGE = Geometry(blocks=8, slots=32, pages=256, page_bytes=4096)
SOON = 5


@case
def at_the_line(make):
    array = make()
    with array.serve() as server:
        server.stop(SOON)
    array.checked(dies=4, live=4, spare=0, written=0, thin=0)


@case
def at_the_end_of_input(make):
    array = make()
    with array.serve() as server:
        with server.client() as client:
            client.write(0, b"x")
        equal(server.end(SOON), (0, ["closed clean"]), "how it ends")
    array.checked(live=4, written=1, thin=0)


@case
def at_a_line_without_its_end(make):
    with make().serve() as server:
        server.process.stdin.write(b"stop")
        equal(server.end(SOON), (0, ["closed clean"]), "how it ends")


@case
def other_lines_mean_nothing(make):
    with make().serve() as server:
        for line in "", "stopp", "Stop", " stop", "stop now", "x" * 100_000:
            server.says(line)
        time.sleep(0.3)
        equal(server.process.poll(), None, "the status after lines that mean nothing")
        with server.client() as client:
            equal(client.read(0, 1), b"\0", "the first byte")
        server.stop(SOON)


@case
def the_line_while_the_input_stays_open(make):
    with make().serve() as server:
        server.says("stop")
        equal(server.process.wait(SOON), 0, "the status")


@case
def with_clients_that_stay(make):
    """Idle, in the handshake, in the middle of a header and of data: each is sent away."""
    array = make()
    with array.serve() as server:
        idle = server.client()
        idle.write(512, b"kept" * 128)
        silent, options, header, data = [Client(server.address) for _ in range(4)]
        options.greet().send(option_bytes(GO, go_data(b"disk"))[:11])
        header.go().send(request_bytes(READ, 0, 512)[:13])
        data.go().send(request_bytes(WRITE, 0, 1024) + b"half")
        silent.receive(18)
        began = time.monotonic()
        server.stop(SOON)
        ensure(time.monotonic() - began < SOON, "the stop took too long")
        for name, client in (("idle", idle), ("silent", silent), ("options", options), ("header", header), ("data", data)):
            equal(client.rest(), b"", f"what the client '{name}' is told at the stop")
            client.close()
    array.checked(live=4, written=1, thin=0)
    array.has_copies_of(bytes(512) + b"kept" * 128 + bytes(62 * 512))


@case
def with_clients_that_do_not_read(make):
    array = make(LARGE)
    content = os.urandom(LARGE.size)
    with array.serve() as server:
        with server.client() as client:
            client.write(0, content)
        clients = [Client(server.address, receive_buffer=4096).go() for _ in range(4)]
        for client in clients:
            for _ in range(40):
                client.begin(READ, 0, LARGE.size)
        time.sleep(1)
        server.stop(SOON)
        for client in clients:
            client.close()
    array.checked(live=4, written=256, thin=0)
    array.has_copies_of(content)


@case
def with_clients_that_work(make):
    """What was answered before the stop is on the images; the request in flight is done or not."""
    array = make()
    with array.serve() as server:
        clients = [server.client() for _ in range(8)]
        written = {}
        for step in range(64):
            data = os.urandom(512)
            clients[step % 8].write(step * 512, data)
            written[step] = data
        late = {}
        for number, client in enumerate(clients):
            late[number] = os.urandom(512)
            client.begin(WRITE, number * 512, 512, late[number])
        server.stop(SOON)
        for client in clients:
            client.close()
    array.checked(live=4, written=64, thin=0)
    with array.serve() as server:
        with server.client() as client:
            for page, data in written.items():
                found = client.read(page * 512, 512)
                ensure(found in (data, late.get(page)), f"page {page} has neither of the bytes that were written")
        server.stop(SOON)


@case
def a_client_that_connects_again(make):
    """A client that lost its connection by a stop goes on at the next start, at the same address."""
    array = make()
    for turn in range(3):
        with array.serve() as server:
            with server.client() as client:
                if turn:
                    same_bytes(client.read(0, 512), bytes([turn]) * 512, "page 0")
                client.write(0, bytes([turn + 1]) * 512)
                server.stop(SOON)
