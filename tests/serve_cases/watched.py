"""Arrays whose calls of images a library looks at while they are served (tests/call_log.c), and users who write whole pages of them."""
from call_log import BEGUN, ERASES, IS_LATE, PROGRAMS, CallLog, compiled
from crashes import SYNC, records
from servers import ensure, equal, same_bytes, wait_until

# How long a call of an image is held at most, and how long a case waits for one, in seconds.
LIMIT = 10


class Watched:
    """An array of which each call on its images is recorded while it is served."""

    def __init__(self, array, *, refuses_memory=False):
        self.array = array
        self.log = CallLog(compiled(array.folder, refuses_memory=refuses_memory), array.folder)

    def serve(self, *words):
        return self.array.serve(*words, env=self.log.environment())

    def records(self, since=0):
        return records(self.log.path, since)[0]

    def synced(self, since=0):
        """The dies whose images were synced since a place of the log."""
        return {it.die for it in self.records(since) if it.kind == SYNC and it.is_end and it.result == 0}

    def by_die(self, since=0):
        """The calls of each die's image since a place of the log, in their order."""
        dies = range(self.array.geometry.dies)
        return {die: [it for it in self.records(since) if it.die == die and not it.is_end] for die in dies}

    @property
    def erases(self):
        return self.log.number(ERASES)

    def await_begun(self, count):
        """Waits until `count` calls that are held have begun."""
        in_time = wait_until(lambda: self.log.number(BEGUN) >= count, LIMIT)
        ensure(in_time, f"late: {self.log.number(BEGUN)} of {count} calls have begun")

    def await_programs(self, count):
        """Waits until `count` programs have ended."""
        in_time = wait_until(lambda: self.log.number(PROGRAMS) >= count, LIMIT)
        ensure(in_time, f"late: {self.log.number(PROGRAMS)} of {count} programs have ended")

    def in_time(self):
        """Asks that no call was held in vain."""
        ensure(not self.log.number(IS_LATE), "late: a call was held for ten seconds in vain")


class User:
    """A client that writes whole pages, and knows which were written."""

    def __init__(self, server, geometry, written=(), **how):
        self.client = server.client(**how)
        self.page_bytes = geometry.page_bytes
        self.written = set(written)

    def __enter__(self):
        return self

    def __exit__(self, *_):
        self.client.close()

    def content(self, first, count):
        """What pages hold: zeros, or a byte of their own over and over."""
        return b"".join(bytes([page % 64 | 0x40 if page in self.written else 0]) * self.page_bytes for page in range(first, first + count))

    def write(self, page):
        self.written.add(page)
        self.client.write(page * self.page_bytes, self.content(page, 1))

    def reads(self, first, count):
        """Reads pages by one READ, which is to be answered right."""
        found = self.client.read(first * self.page_bytes, count * self.page_bytes)
        same_bytes(found, self.content(first, count), f"{count} pages from page {first} on")


def written(array, count):
    """The array, once its first pages were written, each by a WRITE of its own, and it was closed."""
    with array.serve() as server:
        with User(server, array.geometry) as user:
            for page in range(count):
                user.write(page)
        server.stop()
    equal(array.checked(thin=0)["written"], count, "how many pages were written")
    return array
