"""The laboratory as a process: lines go to it, and answers come back (docs/LAB.md)."""
import subprocess
from contextlib import suppress

# The bytes of lines that go out before their answers are read. Neither pipe fills up by so few.
PIECE = 16_384


class Ended(Exception):
    """The laboratory ended where an answer was awaited."""


class Lab:
    """A laboratory that runs. Each line that it is asked has one line of an answer."""

    def __init__(self, program, folder=None, **how):
        words = [program] if folder is None else [program, folder]
        self.process = subprocess.Popen(words, stdin=subprocess.PIPE, stdout=subprocess.PIPE, **how)
        self.input, self.output = self.process.stdin, self.process.stdout

    def __enter__(self):
        return self

    def __exit__(self, *_):
        self.close()

    def ask(self, line):
        """The answer to a line."""
        return self.exchange([line.encode() + b"\n"])[0]

    def ask_all(self, lines):
        """The answers to lines that do not depend on them, in their order."""
        found, piece, size = [], [], 0
        for line in lines:
            piece.append(line.encode() + b"\n")
            size += len(piece[-1])
            if size >= PIECE:
                found += self.exchange(piece)
                piece, size = [], 0
        return found + self.exchange(piece)

    def exchange(self, piece):
        # Where the laboratory has ended, no answer comes, and that is told.
        with suppress(BrokenPipeError):
            self.input.write(b"".join(piece))
            self.input.flush()
        return [self.answer() for _ in piece]

    def answer(self):
        line = self.output.readline()
        if not line.endswith(b"\n"):
            raise Ended(f"the laboratory ended with status {self.process.wait()}, and said {line!r}")
        return line[:-1].decode()

    def close(self):
        """Ends the laboratory, and gives its status."""
        with suppress(BrokenPipeError):
            self.input.close()
        self.output.close()
        return self.process.wait()
