"""Many clients at once: what they see of each other, and how many there may be."""
import random
import threading
import time

from nbd_client import Client, Closed, FUA
from serve_cases import case
from serve_cases.workload import Workload
from servers import Geometry, ensure, equal, same_bytes, wait_until

LARGER = Geometry(blocks=16, slots=16, pages=256)


@case
def sixteen_clients_on_the_same_pages(make):
    array = make(LARGER)
    with array.serve() as server:
        content = Workload(server, LARGER, 16, 60).begin().end()
        array.heals(4)
        server.stop()
    array.checked(live=4, thin=0)
    array.has_copies_of(content)


@case
def sixteen_clients_on_one_page(make):
    array = make()
    with array.serve() as server:
        content = Workload(server, Geometry(pages=1), 16, 60, seed=2, most_pages=1).begin().end()
        array.heals(4)
        server.stop()
    array.checked(live=4, written=1, thin=0)
    array.has_copies_of(content + bytes(63 * 512))


@case
def parts_of_a_page_of_several_clients(make):
    """Each client owns 64 bytes of every page. Writes of the others in the same pages never change them."""
    array = make()
    wanted = [bytearray(512 * 64) for _ in range(8)]
    faults = []

    def works(number):
        rng = random.Random(number)
        try:
            with server.client() as client:
                for _ in range(120):
                    at = rng.randrange(16) * 512 + number * 64
                    start = rng.randrange(64)
                    data = rng.randbytes(rng.randint(1, 64 - start))
                    client.write(at + start, data, FUA if rng.random() < 0.05 else 0)
                    wanted[number][at + start:at + start + len(data)] = data
                    same_bytes(client.read(at, 64), bytes(wanted[number][at:at + 64]), f"the part of client {number} at {at}")
        except Exception as error:
            faults.append(f"client {number}: {error}")

    with array.serve() as server:
        threads = [threading.Thread(target=works, args=(number,), daemon=True) for number in range(8)]
        for thread in threads:
            thread.start()
        for thread in threads:
            thread.join(40)
        ensure(not any(thread.is_alive() for thread in threads), "clients had not ended after 40 seconds")
        ensure(not faults, "; ".join(faults[:3]))
        content = bytes(map(max, zip(*wanted)))
        with server.client() as client:
            same_bytes(client.read(0, 64 * 512), content, "the disk")
        array.heals(4)
        server.stop()
    array.checked(thin=0)
    array.has_copies_of(content)


@case
def what_one_client_wrote_another_reads(make):
    """CAN_MULTI_CONN: behind the answer to a write each client sees it, and a flush of one is a flush for all."""
    with make().serve() as server:
        clients = [server.client() for _ in range(16)]
        for step in range(64):
            data = bytes([step + 1]) * 512
            clients[step % 16].write(step * 512, data)
            clients[(step + 1) % 16].flush()
            same_bytes(clients[(step + 7) % 16].read(step * 512, 512), data, f"page {step}")
        for client in clients:
            client.leave()
        server.stop()


@case
def one_client_more_than_sessions(make):
    """It is closed without a greeting, with a line on standard error, and the others are served meanwhile."""
    with make(sessions=2).serve() as server:
        with server.client() as one, server.client() as other:
            before = len(server.errors)
            began = time.monotonic()
            with Client(server.address) as third:
                one.write(0, b"x" * 512)
                equal(third.rest(), b"", "what the third client is told")
            took = time.monotonic() - began
            ensure(2 < took < 12, f"the third client was closed after {took:.1f} seconds, and wanted are about five")
            ensure(wait_until(lambda: len(server.errors) > before, 5), "nothing was said of it on standard error")
            same_bytes(other.read(0, 512), b"x" * 512, "page 0")
        with server.client() as client:
            same_bytes(client.read(0, 512), b"x" * 512, "page 0, to a client that came later")
        server.stop()


@case
def a_client_that_comes_as_another_leaves(make):
    with make(sessions=1).serve() as server:
        for leave in Client.leave, Client.close, Client.reset:
            client = server.client()
            with Client(server.address) as next_client:
                time.sleep(0.7)
                leave(client)
                next_client.go()
                equal(next_client.read(0, 1), b"\0", "the first byte")
                next_client.leave()
        server.stop()


@case
def clients_that_come_and_go(make):
    """A hundred and fifty connections one after the other, left in each way, leave each session free."""
    with make(sessions=4).serve() as server:
        for step in range(150):
            try:
                client = server.client()
                client.write(step % 64 * 512, bytes([step % 251]) * 512)
            except Closed as error:
                raise ValueError(f"connection {step}: {error}") from error
            (Client.leave, Client.close, Client.reset)[step % 3](client)
        clients = [server.client() for _ in range(4)]
        for client in clients:
            equal(client.read(63 * 512, 1), bytes([127]), "the first byte of page 63")
            client.close()
        server.stop()
