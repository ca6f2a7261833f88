"""The handshake over a socket: the greeting, each option, and what closes the connection."""
import struct

from nbd_client import (ABORT, ACK, Client, Closed, ERR_INVALID, ERR_UNKNOWN, ERR_UNSUP, EXPORT_NAME, GO, INFO, INFORMATION,
                        INFO_BLOCK_SIZE, INFO_EXPORT, INFO_NAME, LIST, SERVER, STARTTLS, STRUCTURED_REPLY, TRANSMISSION_FLAGS,
                        go_data, option_bytes)
from serve_cases import case
from servers import equal

SIZE = 64 * 512
EXPORT = INFORMATION, struct.pack(">HQH", INFO_EXPORT, SIZE, TRANSMISSION_FLAGS)
NAME = INFORMATION, struct.pack(">H", INFO_NAME) + b"disk"
BLOCKS = INFORMATION, struct.pack(">HIII", INFO_BLOCK_SIZE, 1, 4096, 33_554_432)
DONE = ACK, b""


@case
def info_list_and_go(make):
    with make().serve() as server:
        with Client(server.address) as client:
            client.greet()
            equal(client.ask(INFO, go_data()), [EXPORT, DONE], "the answer to INFO")
            equal(client.ask(INFO, go_data(b"disk", INFO_BLOCK_SIZE, INFO_NAME, 77, INFO_NAME)), [EXPORT, NAME, BLOCKS, DONE],
                  "the answer to INFO that asks for all")
            equal(client.ask(INFO, go_data(b"other")), [(ERR_UNKNOWN, b"")], "the answer to INFO of another name")
            equal(client.ask(INFO, b"\0\0"), [(ERR_INVALID, b"")], "the answer to INFO that is cut")
            equal(client.ask(LIST), [(SERVER, b"\0\0\0\4disk"), DONE], "the answer to LIST")
            equal(client.ask(LIST, b"x"), [(ERR_INVALID, b"")], "the answer to LIST with data")
            for option in STARTTLS, STRUCTURED_REPLY, 99:
                equal(client.ask(option), [(ERR_UNSUP, b"")], f"the answer to option {option}")
            equal(client.ask(GO, go_data(b"other")), [(ERR_UNKNOWN, b"")], "the answer to GO of another name")
            client.going(client.ask(GO, go_data(b"disk")))
            equal(client.read(0, 512), bytes(512), "page 0")
        server.stop()


@case
def export_name(make):
    with make().serve() as server:
        for name in b"", b"disk":
            for flags in 0, 1, 2, 3:
                with Client(server.address) as client:
                    client.export_name(name, flags)
                    equal((client.size, client.flags), (SIZE, TRANSMISSION_FLAGS), "size and flags")
                    equal(client.read(512, 3), bytes(3), "the first bytes of page 1")
        server.stop()


@case
def options_that_end_the_connection(make):
    """Another name for EXPORT_NAME, and ABORT, behind which nothing is said."""
    with make().serve() as server:
        for data, told in (option_bytes(EXPORT_NAME, b"other"), 0), (option_bytes(ABORT, b"bye"), 20):
            with Client(server.address) as client:
                client.greet()
                client.send(data)
                equal(len(client.rest()), told, f"the number of bytes behind {data!r}")
        server.client().leave()
        server.stop()


@case
def messages_that_close(make):
    """Flags that nobody knows, another magic number, and more data than an option may have."""
    with make().serve() as server:
        for flags, data in ((4, b""), (0x80000003, b""), (3, option_bytes(LIST, magic=b"IHAVEOPS")),
                            (3, b"IHAVEOPT" + struct.pack(">II", LIST, 65_537))):
            with Client(server.address) as client:
                client.greet(flags)
                client.send(data)
                equal(client.rest(), b"", f"what the server says behind flags {flags} and {data!r}")
        server.client().leave()
        server.stop()


@case
def a_handshake_byte_by_byte(make):
    with make().serve() as server:
        with Client(server.address) as client:
            equal(client.receive(18)[-2:], b"\0\3", "the server's flags")
            for byte in struct.pack(">I", 3) + option_bytes(LIST) + option_bytes(GO, go_data(b"disk")):
                client.send(bytes([byte]))
            replies = [client.option_reply() for _ in range(4)]
            equal([it[:2] for it in replies], [(LIST, SERVER), (LIST, ACK), (GO, INFORMATION), (GO, ACK)], "the replies")
            equal(client.read(0, 1), b"\0", "the first byte")
        server.stop()


@case
def a_client_that_comes_and_says_nothing(make):
    with make().serve() as server:
        for _ in range(3):
            Client(server.address).close()
        with Client(server.address) as client:
            client.receive(18)
        with Client(server.address) as client:
            client.greet()
            client.send(option_bytes(GO, go_data(b"disk"))[:9])
        server.client().leave()
        server.stop()


@case
def a_closed_connection_is_told_from_a_reply(make):
    """This client itself: where the server closes, it says so, and takes nothing for an answer."""
    with make().serve() as server:
        with server.client() as client:
            server.stop()
            try:
                client.read(0, 512)
            except (Closed, OSError):
                return
            raise ValueError("a READ was answered behind the stop")
