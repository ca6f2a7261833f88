"""Commands whose standard input fails behind its first bytes, and whose standard output takes some bytes and fails then."""
import resource
import socket
import struct
import subprocess
import tempfile

from cases import Case, Talk

LIMIT = 60

# A command, its input, and what it prints where its output takes that. Its status then would be another one, or the same.
OUTPUTS = [
    ("talk", "talk", "", "4e42444d4147494349484156454f50540003\nend 4\n"),
    ("plan", "plan", "batch\nend\n", "rounds 0\nend\n"),
    ("verify", "verify", "batch\nend\nrounds 1\nend", "refused 6 last round differs\n"),
    ("a_faulty_text", "verify", "batch", "text: line 2\n"),
]

# What is read before the input fails, and what it would go on with.
FRONT, BEHIND = b"batch\ne", b"nd\nrounds 0\nend"


def short_output(command, text, room):
    """What a command prints to a file that takes `room` bytes, what it says on standard error, and its status. The system refuses to write
    behind these bytes, and the signal that it sends is ignored."""
    with tempfile.TemporaryFile() as out:
        words = {"stdin": subprocess.PIPE, "stdout": out, "stderr": subprocess.PIPE, "restore_signals": False}
        with subprocess.Popen(command, **words) as process:
            # It has begun, and waits for its input.
            resource.prlimit(process.pid, resource.RLIMIT_FSIZE, (room, room))
            _, errors = process.communicate(text.encode(), LIMIT)
        out.seek(0)
        return out.read(), errors, process.returncode


def output_talk(command, text, told):
    """The output takes none of its bytes, some, all but one, and all."""
    def faults(program):
        found = []
        for room in (0, 1, 5, len(told) - 1):
            printed, errors, status = short_output([program, command], text, room)
            if (printed, errors, status) != (told[:room].encode(), b"", 1):
                found.append(f"room for {room}: it ends with {status}, printed {printed!r} and said {errors!r}")
        printed, errors, _ = short_output([program, command], text, len(told))
        return found if (printed, errors) == (told.encode(), b"") else [*found, f"printed {printed!r} and said {errors!r}"]
    return Talk(faults)


def failing_input():
    """A socket from which the first bytes are read, and then an error: who was to send has sent these and broken the connection."""
    with socket.create_server(("127.0.0.1", 0)) as listener:
        sender = socket.create_connection(listener.getsockname())
        receiver, _ = listener.accept()
    sender.sendall(FRONT)
    sender.setsockopt(socket.SOL_SOCKET, socket.SO_LINGER, struct.pack("ii", 1, 0))
    sender.close()
    return receiver


def input_talk(command):
    """The input fails behind its first bytes. It does not end there, and what was read is not looked at."""
    told = (f"{command}: cannot read\n".encode(), b"", 1)

    def faults(program):
        with failing_input() as source:
            done = subprocess.run([program, command], stdin=source, capture_output=True, timeout=LIMIT)
        found = (done.stdout, done.stderr, done.returncode)
        return [] if found == told else [f"it printed {found[0]!r}, said {found[1]!r} and ended with {found[2]}; wanted is {told}"]
    return Talk(faults)


def cases():
    for name, command, text, told in OUTPUTS:
        yield Case(f"output_of_{name}_fails", [output_talk(command, text, told)])
    for command in ("talk", "plan", "verify"):
        yield Case(f"input_of_{command}_fails", [input_talk(command)])
