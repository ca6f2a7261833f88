"""Pages whose bytes tell which write they are of: the page's number, the number of the write, and a digest of both over and over."""
import functools
import hashlib
import itertools
import struct

NUMBERS = struct.Struct(">2Q")


@functools.lru_cache(maxsize=1 << 14)
def numbered_page(page, number, page_bytes):
    """The bytes that a write of this number gives a page. The number 0 stands for zeros, which no write of a number has."""
    if number == 0:
        return bytes(page_bytes)
    head = NUMBERS.pack(page, number)
    digest = hashlib.sha256(head).digest()
    return (head + digest * (page_bytes // len(digest)))[:page_bytes]


def numbered_pages(first, numbers, page_bytes):
    """The bytes of pages one behind the other, each with the number of its write."""
    return b"".join(numbered_page(page, number, page_bytes) for page, number in enumerate(numbers, first))


def number_of(data, page):
    """The number of the write that gave a page these bytes, and None where no write did."""
    found, number = NUMBERS.unpack_from(data)
    if number and found != page or data != numbered_page(page, number, len(data)):
        return None
    return number


class Numbers:
    """Numbers for writes, from 1 on. No number is given twice, whatever thread asks."""

    def __init__(self):
        self.left = itertools.count(1)

    def take(self, count):
        return [next(self.left) for _ in range(count)]
