"""Stores of one thread, over arrays whose images fail and lie and whose memory is refused: one script in which each call fails in turn,
and drives in an order that a seed settles. Each answer is compared with a plain store (docs/SOLO.md). A case looks whether the script
had as many runs as it has calls, or whether all came in a drive that can come.
"""
from cases import Case, Talk
from driving.script import KINDS, play_all, requests_of_a_read
from driving.stores import drive

PROGRAM = "flasharr_lab"
# The runs of the script, by what goes wrong in each.
RUNS = {"each_image_call_fails": 229, "each_growth_refused": 584, "wrong_bytes_take_the_die_out": 146}
# The requests for memory of a read of one page.
REQUESTS = 1
CALLS = 20_000
SEEDS = (1, 2)

# What need not come: a counter never ends here, few refused calls put anything, and an array seldom loses all dies before it is written.
SELDOM = {
    "refused: a counter at its end", "refused call that put a part", "refused call that put all", "close refused: no die live",
}


def script_talk(kind):
    """The script is played with each thing of this kind that may go wrong, and nothing differs."""
    def faults(program):
        runs, differences = play_all(program, kind)
        return differences if runs == RUNS[kind] else [*differences, f"there were {runs} runs, and not {RUNS[kind]}"]
    return Talk(faults)


def read_talk():
    """A read of a page makes one request for memory."""
    def faults(program):
        requests, differences = requests_of_a_read(program)
        return differences if requests == REQUESTS else [*differences, f"a read made {requests} requests for memory"]
    return Talk(faults)


def drive_talk(seed):
    """Stores are driven by a seed, and nothing differs."""
    def faults(program):
        counts, differences = drive(program, seed, CALLS)
        missing = [name for name, count in counts.items() if count == 0 and name not in SELDOM | {"differences"}]
        return [*differences, f"these never came: {', '.join(missing)}"] if missing else differences
    return Talk(faults)


def cases():
    for kind in KINDS:
        yield Case(kind, [script_talk(kind)], program=PROGRAM, long=True)
    yield Case("requests_of_a_read", [read_talk()], program=PROGRAM)
    for seed in SEEDS:
        yield Case(f"seed_{seed}", [drive_talk(seed)], program=PROGRAM, long=True)
