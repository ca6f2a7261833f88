"""The repository's crates, by crates.txt, and the processes that check them."""
import os
import re

TICKS = os.sysconf("SC_CLK_TCK")
# What a processor has that runs programs for x86-64-v3.
V3_FLAGS = {"avx2", "bmi1", "bmi2", "fma", "movbe", "abm", "f16c"}


def processors():
    """The processors that programs are built for and that this machine has, the best one last."""
    with open("/proc/cpuinfo", encoding="ascii", errors="replace") as info:
        flags = next((line.split() for line in info if line.startswith("flags")), [])
    return ["x86-64-v2", "x86-64-v3"] if V3_FLAGS <= {*flags} else ["x86-64-v2"]


def crate_rows(top):
    """For each crate its line of crates.txt and the names that it lists, in the file's order."""
    rows = {}
    with open(os.path.join(top, "crates.txt"), encoding="utf-8") as lines:
        for line in lines:
            line = line.partition("#")[0].strip()
            head, found, rest = line.partition(":")
            if found:
                rows[head.split()[0]] = line, rest.split()
    return rows


def crates_below(top):
    """For each crate the crates of the repository that it lists."""
    rows = crate_rows(top)
    return {name: [below for below in rest if below in rows] for name, (_, rest) in rows.items()}


def closure(needs, crate):
    """A crate with all that it stands on, lowest first."""
    found = {}

    def visit(name):
        if name not in found:
            for below in needs[name]:
                visit(below)
            found[name] = True

    visit(crate)
    return list(found)


def seen(pid):
    """The parent of a process, when it began, and its processor time in seconds."""
    with open(f"/proc/{pid}/stat", encoding="utf-8", errors="replace") as stat:
        fields = stat.read().rsplit(")", 1)[1].split()
    return int(fields[1]), fields[19], (int(fields[11]) + int(fields[12])) / TICKS


def memory_of(pid):
    """The bytes of memory that a process holds, with its share of what it holds together with others."""
    with open(f"/proc/{pid}/smaps_rollup", encoding="ascii") as rollup:
        return next((int(line.split()[1]) << 10 for line in rollup if line.startswith("Pss:")), 0)


def peak_of(pid):
    """The most bytes of memory that a process has held by now, as the system noted it."""
    with open(f"/proc/{pid}/status", encoding="ascii", errors="replace") as status:
        return next((int(line.split()[1]) << 10 for line in status if line.startswith("VmHWM:")), 0)


def part_of(pid):
    """The crate that a process checks, and what of it: its proofs, an edit or its tests. Others check no crate."""
    with open(f"/proc/{pid}/cmdline", encoding="utf-8", errors="replace") as cmdline:
        words = cmdline.read().split("\0")
    if "--crate-name" not in words:
        return "others", "proofs"
    crate = words[words.index("--crate-name") + 1]
    if re.search(r"/rt-edit-", os.readlink(f"/proc/{pid}/cwd")):
        return crate, "edits"
    return crate, "tests" if "--test" in words else "proofs"


def descendants(root):
    """The processes below a first one: for each its id, when it began, and its processor time in seconds."""
    alive = {}
    for pid in filter(str.isdigit, os.listdir("/proc")):
        try:
            alive[int(pid)] = seen(pid)
        except OSError:
            pass
    found = []
    for pid, (_, began, spent) in alive.items():
        at = pid
        while at not in (root, 0, 1) and at in alive:
            at = alive[at][0]
        if at == root and pid != root:
            found.append((pid, began, spent))
    return found


def crates_at_work(root):
    """The crates that the processes below a first one check, by name."""
    found = set()
    for pid, _, _ in descendants(root):
        try:
            found.add(part_of(pid)[0])
        except OSError:
            pass
    return sorted(found - {"others"})
