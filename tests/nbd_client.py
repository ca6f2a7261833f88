"""A small NBD client over a socket, written from docs/FORMATS.md: fixed newstyle negotiation and simple replies."""
import socket
import struct

GREETING = b"NBDMAGICIHAVEOPT\0\3"
OPTION_MAGIC = b"IHAVEOPT"
REPLY_MAGIC = 0x0003E889045565A9
REQUEST_MAGIC, SIMPLE_MAGIC = 0x25609513, 0x67446698

EXPORT_NAME, ABORT, LIST, STARTTLS, INFO, GO, STRUCTURED_REPLY = 1, 2, 3, 5, 6, 7, 8
ACK, SERVER, INFORMATION = 1, 2, 3
ERR_UNSUP, ERR_INVALID, ERR_UNKNOWN = 0x80000001, 0x80000003, 0x80000006
INFO_EXPORT, INFO_NAME, INFO_BLOCK_SIZE = 0, 1, 3
READ, WRITE, DISC, FLUSH, TRIM, WRITE_ZEROES = 0, 1, 2, 3, 4, 6
FUA, NO_HOLE = 1, 2
EIO, EINVAL, ENOSPC = 5, 22, 28
MAX_LENGTH = 33_554_432
TRANSMISSION_FLAGS = 0x016D


class Closed(Exception):
    """The server closed the connection where bytes were awaited."""


class Refused(Exception):
    """A request was answered with an error, by its number."""


def request_bytes(command, offset=0, length=0, *, flags=0, cookie=1, magic=REQUEST_MAGIC):
    return struct.pack(">IHHQQI", magic, flags, command, cookie, offset, length)


def option_bytes(option, data=b"", *, magic=OPTION_MAGIC):
    return magic + struct.pack(">II", option, len(data)) + data


def go_data(name=b"", *kinds):
    return struct.pack(">I", len(name)) + name + struct.pack(f">H{len(kinds)}H", len(kinds), *kinds)


class Client:
    """A connection. It is in transmission once `go` or `export_name` returned. No wait is longer than `seconds`."""

    def __init__(self, address, *, seconds=20, receive_buffer=None):
        self.socket = socket.socket(socket.AF_INET, socket.SOCK_STREAM)
        self.socket.settimeout(seconds)
        if receive_buffer:
            self.socket.setsockopt(socket.SOL_SOCKET, socket.SO_RCVBUF, receive_buffer)
        try:
            self.socket.connect(address)
            self.socket.setsockopt(socket.IPPROTO_TCP, socket.TCP_NODELAY, 1)
        except OSError:
            self.socket.close()
            raise
        self.cookie = 0
        self.size = self.flags = None

    def __enter__(self):
        return self

    def __exit__(self, *_):
        self.close()

    def close(self):
        self.socket.close()

    def reset(self):
        """Closes the connection by a reset, as where the client's machine forgot it."""
        self.socket.setsockopt(socket.SOL_SOCKET, socket.SO_LINGER, struct.pack("ii", 1, 0))
        self.socket.close()

    # ---- bytes

    def send(self, data):
        self.socket.sendall(data)

    def receive(self, count):
        data = bytearray()
        while len(data) < count:
            try:
                part = self.socket.recv(min(count - len(data), 1 << 20))
            except ConnectionError:
                part = b""
            if not part:
                raise Closed(f"closed by the server after {len(data)} of {count} bytes")
            data += part
        return bytes(data)

    def numbers(self, form):
        return struct.unpack(form, self.receive(struct.calcsize(form)))

    def rest(self):
        """All bytes up to the end of the connection."""
        data = b""
        while True:
            try:
                part = self.socket.recv(1 << 16)
            except ConnectionError:
                return data
            if not part:
                return data
            data += part

    # ---- handshake

    def greet(self, flags=3):
        greeting = self.receive(len(GREETING))
        if greeting != GREETING:
            raise ValueError(f"the greeting is {greeting.hex()}")
        self.send(struct.pack(">I", flags))
        return self

    def option_reply(self):
        """The option, the type and the data of the next reply."""
        magic, option, kind, length = self.numbers(">QIII")
        if magic != REPLY_MAGIC:
            raise ValueError(f"the magic of a reply to an option is {magic:016x}")
        return option, kind, self.receive(length)

    def ask(self, option, data=b""):
        """The types and data of all replies to an option, up to the first that is neither SERVER nor INFO."""
        self.send(option_bytes(option, data))
        replies = []
        while not replies or replies[-1][0] in (SERVER, INFORMATION):
            of, kind, told = self.option_reply()
            if of != option:
                raise ValueError(f"a reply to option {of}, and {option} was asked")
            replies.append((kind, told))
        return replies

    def go(self, name=b"", *kinds):
        """The handshake up to transmission, by GO."""
        self.greet()
        return self.going(self.ask(GO, go_data(name, *kinds)))

    def going(self, replies):
        if replies[-1] != (ACK, b""):
            raise ValueError(f"GO was answered {replies}")
        _, self.size, self.flags = struct.unpack(">HQH", replies[0][1])
        return self

    def export_name(self, name=b"", flags=3):
        """The handshake up to transmission, by EXPORT_NAME. The zeros behind the answer are looked at where they are due."""
        self.greet(flags)
        self.send(option_bytes(EXPORT_NAME, name))
        self.size, self.flags = self.numbers(">QH")
        if not flags & 2 and self.receive(124) != bytes(124):
            raise ValueError("the 124 bytes behind the answer to EXPORT_NAME are not zeros")
        return self

    # ---- transmission

    def begin(self, command, offset=0, length=0, data=b"", flags=0):
        """Sends a request, and gives its cookie."""
        self.cookie += 1
        self.send(request_bytes(command, offset, length, flags=flags, cookie=self.cookie) + data)
        return self.cookie

    def end(self, cookie, count=0):
        """The error and the data of the next reply, which is to be that of this cookie."""
        magic, error, found = self.numbers(">IIQ")
        if magic != SIMPLE_MAGIC or found != cookie:
            raise ValueError(f"a reply with magic {magic:08x} and cookie {found}, and wanted is cookie {cookie}")
        return error, b"" if error else self.receive(count)

    def request(self, command, offset=0, length=0, data=b"", flags=0):
        """The error and the data of the reply to a request."""
        return self.end(self.begin(command, offset, length, data, flags), length if command == READ else 0)

    def done(self, *request, **more):
        """The data of a request's reply, which is to have no error."""
        error, data = self.request(*request, **more)
        if error:
            raise Refused(error)
        return data

    def read(self, offset, length):
        return self.done(READ, offset, length)

    def write(self, offset, data, flags=0):
        self.done(WRITE, offset, len(data), data, flags)

    def zero(self, offset, length, flags=0):
        self.done(WRITE_ZEROES, offset, length, flags=flags)

    def trim(self, offset, length, flags=0):
        self.done(TRIM, offset, length, flags=flags)

    def flush(self):
        self.done(FLUSH)

    def end_output(self):
        """Sends no more. What the server says still comes."""
        self.socket.shutdown(socket.SHUT_WR)

    def leave(self):
        self.send(request_bytes(DISC))
        self.close()
