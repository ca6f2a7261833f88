"""The calls of a block store, and the plain store that their answers are compared with, which is a bytearray."""

PAGE_BYTES = 512


def bits(first, past):
    """The bits from one number to before another."""
    return (1 << past) - (1 << first) if first < past else 0


def numbers_in(mask):
    """The numbers of the bits of a mask, rising."""
    return [number for number in range(mask.bit_length()) if mask >> number & 1]


def count_bits(mask):
    """How many bits a mask has."""
    return bin(mask).count("1")


def draw_bytes(random, length):
    """Random bytes."""
    return random.getrandbits(8 * length).to_bytes(length, "little") if length else b""


def page_read(page):
    """The line that reads a page."""
    return b"store read %d %d\n" % (page * PAGE_BYTES, PAGE_BYTES)


class Call:
    """A call of a block store. Its kind is the word of its line: read, write, zero, hole, trim or flush.

    `met` are the pages that it meets, and `whole` those that lie wholly in its range. Both are masks: bit n stands for page n.
    """

    __slots__ = ("kind", "offset", "length", "fua", "data", "met", "whole")

    def __init__(self, kind, offset=0, length=0, fua=False, data=b""):
        self.kind, self.offset, self.length, self.fua, self.data = kind, offset, length, fua, data
        end = offset + length
        self.met = self.whole = 0
        if kind != "flush":
            self.whole = bits(-(-offset // PAGE_BYTES), end // PAGE_BYTES)
            self.met = bits(offset // PAGE_BYTES, -(-end // PAGE_BYTES)) if length and kind != "trim" else self.whole

    def is_put(self):
        """Whether it changes bytes."""
        return self.kind not in ("read", "flush")

    def line(self):
        """The line that has the laboratory make it."""
        if self.kind == "flush":
            return b"store flush\n"
        forced = "fua " if self.fua else ""
        last = self.data.hex() if self.kind == "write" else self.length
        return f"store {self.kind} {forced}{self.offset} {last}\n".encode()

    def put(self, plain):
        """Makes it of a plain store."""
        if self.kind == "write":
            plain[self.offset:self.offset + self.length] = self.data
        elif self.kind == "trim":
            # A trim leaves a page as it is that it covers in part.
            first, past = -(-self.offset // PAGE_BYTES), (self.offset + self.length) // PAGE_BYTES
            if first < past:
                plain[first * PAGE_BYTES:past * PAGE_BYTES] = bytes((past - first) * PAGE_BYTES)
        elif self.is_put():
            plain[self.offset:self.offset + self.length] = bytes(self.length)
