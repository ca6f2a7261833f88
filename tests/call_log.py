"""The library of tests/call_log.c, and the numbers that it has in common with a test."""
import mmap
import os
import shutil
import struct
import subprocess
import sys

HERE = os.path.dirname(os.path.abspath(__file__))
# The numbers of tests/call_control.h, in their order.
(REFUSED, SYNC_NANOSECONDS, READ_NANOSECONDS, SYNCS, WRITES, ERASES, PROGRAMS, IS_SHUT, HELD_READS, HELD_PROGRAMS, ENOUGH, BEGUN, IS_LATE,
 LYING, THREAD_WITHOUT_MEMORY, MEMORY_REFUSALS, DUE, MEMORY_DUE, SOCKET_READS, SOCKET_WRITES) = range(20)
CONTROL_BYTES = 4096
# All dies, and more calls than ever begin.
ALL = NEVER = (1 << 64) - 1


def compiled(folder, *, refuses_memory=False, counts_sockets=False):
    """The path of the library, which `cc` makes in a folder. One that can refuse memory is before each request for memory too, and one that
    counts the calls of sockets is before these."""
    if not shutil.which("cc"):
        sys.exit(f"{os.path.basename(sys.argv[0])}: it needs cc, a compiler of C: apt-get install gcc libc6-dev")
    path = os.path.join(folder, "call_log.so")
    sources = ["call_log.c", *(["refused_memory.c"] if refuses_memory else []), *(["socket_calls.c"] if counts_sockets else [])]
    words = ["cc", "-O2", "-Wall", "-Wextra", "-shared", "-fPIC", "-o", path]
    subprocess.run([*words, *(os.path.join(HERE, it) for it in sources)], check=True)
    return path


class CallLog:
    """The log of one server's calls and its control, in a folder. Without a log the calls are counted alone."""

    def __init__(self, library, folder, *, is_logged=True):
        self.library = library
        self.path = os.path.join(folder, "calls.log") if is_logged else None
        self.control_path = os.path.join(folder, "calls.control")
        with open(self.control_path, "wb") as control:
            control.truncate(CONTROL_BYTES)
        with open(self.control_path, "r+b") as control:
            self.numbers = mmap.mmap(control.fileno(), CONTROL_BYTES)
        if is_logged:
            self.log = os.open(self.path, os.O_RDONLY | os.O_CREAT, 0o600)

    def environment(self):
        """The environment of a program whose calls are looked at."""
        added = {"LD_PRELOAD": self.library, "CALL_CONTROL": self.control_path}
        if self.path:
            added["CALL_LOG"] = self.path
        return {**os.environ, **added}

    def place(self):
        """Where the log ends now."""
        return os.fstat(self.log).st_size

    def number(self, which):
        return struct.unpack_from("<Q", self.numbers, 8 * which)[0]

    def put(self, which, number):
        struct.pack_into("<Q", self.numbers, 8 * which, number)

    def refuse(self, die):
        """From now on each call of a die's image is refused."""
        self.put(REFUSED, self.number(REFUSED) | 1 << die)

    def shut(self, *, reads=0, programs=0, enough=NEVER):
        """Shuts the gate: from now on reads of slots of these dies, and programs of those, are held until `enough` calls have begun."""
        for which, number in (BEGUN, 0), (HELD_READS, reads), (HELD_PROGRAMS, programs), (ENOUGH, enough), (IS_SHUT, 1):
            self.put(which, number)

    def open(self):
        """Opens the gate, for the calls that are held too."""
        self.put(IS_SHUT, 0)

    def lie(self, die):
        """The next read of a slot of the die hands out wrong bytes."""
        self.put(LYING, 1 << die)

    def refuse_memory(self, thread):
        """From now on the thread of this number is refused memory: the least number that no other thread had as it was made."""
        self.put(THREAD_WITHOUT_MEMORY, thread)

    def refuse_call(self, number):
        """The write or sync of this number from now on, the first being 1, is refused; with 0 none is."""
        self.put(DUE, number)

    def refuse_request(self, number):
        """The request for memory of this number from now on, the first being 1, is refused; with 0 none is."""
        self.put(MEMORY_DUE, number)

    def close(self):
        self.numbers.close()
        if self.path:
            os.close(self.log)
