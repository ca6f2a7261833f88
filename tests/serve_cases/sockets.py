"""How often the server calls the sockets of its clients, as a library sees it that lets no call move more than a million bytes
(tests/socket_calls.c). No clause tells how often a stream is called."""
import struct

from call_log import SOCKET_READS, SOCKET_WRITES, CallLog, compiled
from nbd_client import EINVAL, ENOSPC, MAX_LENGTH, READ, SIMPLE_MAGIC, WRITE, request_bytes
from serve_cases import case
from servers import Geometry, ensure, equal, same_bytes

# An array of 32 MiB, which the longest request takes whole.
LONGEST = Geometry(blocks=34, slots=128, pages=8192, page_bytes=4096)
# The most bytes of a reply that are held until the client has nothing more to say.
HELD = 65_536


class Counted:
    """An array that is served while the calls of its sockets are counted."""

    def __init__(self, array):
        self.array = array
        self.log = CallLog(compiled(array.folder, counts_sockets=True), array.folder, is_logged=False)

    def serve(self):
        return self.array.serve(env=self.log.environment())

    def calls(self, work):
        """How many reads and writes of sockets there are in a piece of work."""
        before = [self.log.number(which) for which in (SOCKET_READS, SOCKET_WRITES)]
        work()
        return [self.log.number(which) - count for which, count in zip((SOCKET_READS, SOCKET_WRITES), before)]


def reply_bytes(cookie, error=0, data=b""):
    return struct.pack(">IIQ", SIMPLE_MAGIC, error, cookie) + data


def asks(client, said, wanted, what):
    """A piece of work: a client says these bytes, and is answered those."""
    def work():
        client.send(said)
        same_bytes(client.receive(len(wanted)), wanted, what)
    return work


@case
def a_reply_and_its_data_by_one_call(make):
    """The greeting and the answer to GO are a call each, and so is a reply with its data: one that is held, and one that is too long."""
    counted = Counted(make(LONGEST))
    with counted.serve() as server:
        clients = []
        equal(counted.calls(lambda: clients.append(server.client()))[1], 2, "how many writes there are for the handshake")
        with clients[0] as client:
            content = bytes(range(251)) * 523
            client.write(0, content[:2 * HELD])
            for length in (1, 512, HELD // 2, HELD - 1, HELD, 2 * HELD):
                said, wanted = request_bytes(READ, 0, length, cookie=7), reply_bytes(7, data=content[:length])
                work = asks(client, said, wanted, f"a reply with {length} bytes")
                equal(counted.calls(work)[1], 1, f"how many writes there are for a reply with {length} bytes")
            client.leave()
        server.stop()


@case
def the_longest_read_and_write(make):
    """The data of the longest WRITE are read by calls of a million bytes or so, and so are those of the longest READ written."""
    counted = Counted(make(LONGEST))
    data = b"".join(struct.pack(">Q", number) for number in range(MAX_LENGTH // 8))
    with counted.serve() as server:
        with server.client(seconds=120) as client:
            said = request_bytes(WRITE, 0, MAX_LENGTH, cookie=1) + data
            reads, writes = counted.calls(asks(client, said, reply_bytes(1), "the reply to a WRITE"))
            ensure(33 <= reads < 50 and writes == 1, f"there are {reads} reads and {writes} writes for the longest WRITE")
            said = request_bytes(READ, 0, MAX_LENGTH, cookie=2)
            reads, writes = counted.calls(asks(client, said, reply_bytes(2, data=data), "the longest READ"))
            ensure(reads == 1 and 33 <= writes < 50, f"there are {reads} reads and {writes} writes for the longest READ")
            client.leave()
        server.stop()


@case
def the_data_of_refused_writes(make):
    """The data of a WRITE that is refused are dropped by few reads, 64 KiB at a time, and the next request is answered: one that reaches
    past the end, and one that has a byte more than a WRITE may have."""
    counted = Counted(make())
    end = counted.array.geometry.size - 512
    with counted.serve() as server:
        for offset, length, error, most in (end, 1_000_000, ENOSPC, 40), (0, MAX_LENGTH + 1, EINVAL, 540):
            with server.client(seconds=60) as client:
                said = request_bytes(WRITE, offset, length, cookie=1) + b"\x11" * length + request_bytes(READ, 0, 1, cookie=2)
                wanted = reply_bytes(1, error) + reply_bytes(2, data=b"\0")
                work = asks(client, said, wanted, f"the replies to a WRITE of {length} bytes, and to a READ")
                reads = counted.calls(work)[0]
                ensure(length >> 16 <= reads < most, f"there are {reads} reads for a WRITE of {length} bytes that is refused")
                client.leave()
        server.stop()
