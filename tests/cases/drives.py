"""Whole arrays over images that fail and that lie, mounted, closed and mounted again, in an order that a seed settles. Each page that is
answered is compared with a plain array, and each certificate and each clean mark is checked. These cases look whether all came that can
come in a run.
"""
from cases import Case, Talk
from driving.arrays import drive

PROGRAM = "flasharr_lab"
EVENTS = 100_000
# By each of these all lines come that are neither of those below.
SEEDS = (3, 4)

# What no run comes to: a calendar of a million closed rounds, and numbers of rounds and flushes at their ends.
NEVER = {
    "admit refused: calendar full", "admit refused: no rounds left", "replan refused: calendar full", "replan refused: no rounds left",
    "advance refused: no round left", "flush begin refused: no flush left",
}

# What comes so seldom that a run may be without it.
SELDOM = {
    "claim refused: out of memory", "reserve refused: out of memory", "replan refused: out of memory", "window refused: out of memory",
    "reserve copy refused: out of memory", "commit copy refused: failed", "done fault: header", "close refused: no die live",
}


def driven(seed):
    """Arrays are driven by a seed, and nothing differs."""
    def faults(program):
        counts, differences = drive(program, seed, EVENTS)
        missing = [name for name, count in counts.items() if count == 0 and name not in NEVER | SELDOM | {"differences"}]
        return differences + [f"this never came: {name}" for name in missing]
    return Talk(faults)


def cases():
    return [Case(f"seed_{seed}", [driven(seed)], long=True, program=PROGRAM) for seed in SEEDS]
