"""What the scripts here have in common: the laboratory that they measure by (docs/LAB.md), and the times that it tells."""
import os
import shutil
import subprocess
import sys

TOP = os.path.dirname(os.path.dirname(os.path.abspath(__file__)))
sys.path[:0] = [os.path.join(TOP, "tests"), os.path.join(TOP, "launch")]

from crates import processors
from lab import Lab

PROGRAM = "flasharr_lab"
PAGE_BYTES = 4096
# A slot has a page and its tag, and its digest is of all but its own bytes.
SLOT_BYTES = PAGE_BYTES + 64
HASHED_BYTES = SLOT_BYTES - 32


def fail(words):
    """Ends the script, whose name goes before these words."""
    sys.exit(f"{os.path.relpath(sys.argv[0], TOP)}: {words}")


def program_path(processor=None):
    """The path of the program, which is proved and built first where that is due."""
    env = {**os.environ, "FLASHARR_CPU": processor} if processor else None
    words = [os.path.join(TOP, "launch", "built"), PROGRAM]
    asked = subprocess.run(words, stdout=subprocess.PIPE, env=env, universal_newlines=True)
    if asked.returncode:
        fail(f"{PROGRAM} is not built")
    return asked.stdout.strip()


def programs(given, folder):
    """The programs to measure, by their names: the one that is given, or else one for each processor, which is put into a folder."""
    if given:
        return {os.path.basename(given): given}
    found = {}
    for processor in processors():
        found[processor] = os.path.join(folder, processor)
        shutil.copy(program_path(processor), found[processor])
    return found


def split_times(answer):
    """The nanoseconds in front of an answer to a line of `time`, and what is behind them."""
    took, _, last = answer.partition(" then ")
    return [int(word) for word in took.split()[1:]], last


def time_line(lab, line, wanted):
    """The nanoseconds of what a line does, whose answer begins with the wanted words."""
    (nanoseconds,), last = split_times(lab.ask(f"time 1 {line}"))
    if not last.startswith(wanted):
        fail(f"{line}: {last}")
    return nanoseconds


def expect(lab, line, wanted):
    """Does what a line asks for, whose answer begins with the wanted words."""
    answer = lab.ask(line)
    if not answer.startswith(wanted):
        fail(f"{line}: {answer}")
    return answer


def in_hundredths(number, of):
    """A number in hundredths of another, which are cut off."""
    hundredths = 100 * number // of
    return f"{hundredths // 100}.{hundredths % 100:02d}"


