"""The kinds of events, and what each of their answers counts as."""
from itertools import groupby

MEMORY = {"out of memory": "out of memory"}
ROOM = {"too few dies have room": "no room", "no die is live": "no die", "no sequence number is left": "no number left", **MEMORY}
PLAN = {"a page is lost": "lost page", "a calendar is full": "calendar full", "no rounds are left": "no rounds left", **MEMORY}


class Kind:
    """A kind of event. Each accepted answer counts as something by how it begins, and each refusal by its reason."""

    def __init__(self, name, accepted, refused=None, requests=1):
        self.name = name
        self.accepted = list(accepted.items())
        self.refused = [(f"refused: {reason}", f"{name} refused: {short}") for reason, short in (refused or {}).items()]
        # How many requests for memory such an event makes that may be refused alone. With 0 it is not watched.
        self.requests = requests

    def name_of(self, answer):
        """What an answer counts as, and None where this kind of event has no such answer."""
        if answer.endswith(" stranger"):
            return None
        for begin, name in self.refused if answer.startswith("refused") else self.accepted:
            if answer.startswith(begin):
                return name
        return None


CLAIM = Kind("claim", {"claim ": "claim"}, {"the page is claimed": "claimed", **MEMORY}, requests=4)
RELEASE = Kind("release", {"released": "release"})
RESERVE = Kind("reserve", {"seq ": "reserve data"}, ROOM)
RESERVE_HOLE = Kind("reserve", {"seq ": "reserve a hole"}, ROOM)
RESERVE_FEWER = Kind("reserve", {"seq ": "reserve on fewer dies"}, ROOM)
COMMIT = Kind("commit", {"seq ": "commit"}, {"a program is pending": "pending", "no copy was programmed": "failed"})
ABANDON = Kind("abandon", {"abandoned": "abandon"}, {"a program is in flight": "pending", "a copy was programmed": "programmed"})
ADMIT = Kind("admit", {"batch ": "admit"}, PLAN, requests=12)
REPLAN = Kind("replan", {"rounds ": "replan"}, PLAN, requests=12)
END = Kind("end batch", {"pages ": "end batch"})
TAKE = Kind("take", {
    "header ": "take header", "move ": "take move", "erase ": "take erase", "read ": "take read", "program ": "take program",
    "sync": "take sync", "no job": "take nothing",
}, requests=0)
DONE = Kind("done", {
    "done ok": "done well", "done data ": "done well", "done fault read": "done fault: read slot",
    "done fault program": "done fault: program", "done fault erase": "done fault: erase block", "done fault header": "done fault: header",
    "done fault sync": "done fault: sync", "done other ": "done read of another slot", "done erased": "done read of another slot",
    "done bad": "done read of another slot", "done wrong": "done wrong move",
})
WINDOW = Kind("window", {"round ": "window"}, {"the die takes no window": "busy", "the die has a window": "has one", **MEMORY})
ADVANCE = Kind("advance", {"round ": "advance"}, {
    "a job of this round is pending": "pending", "nothing is booked": "idle", "no round is left": "no round left",
})
SPARE_IN = Kind("spare in", {"in": "spare in"}, {"the die is no spare": "no spare"})
COPY = Kind("reserve copy", {"reserved": "reserve copy"}, {
    "the page wants no such copy": "gone", "no die has room for a copy": "no room", "a copy is under way": "busy", **MEMORY,
})
COMMIT_COPY = Kind("commit copy", {"current": "commit copy: current", "late": "commit copy: late"}, {
    "the copy is pending": "pending", "the copy failed": "failed",
})
FLUSH_BEGIN = Kind("flush begin", {"flush ": "flush begin"}, {"no flush is left": "no flush left"})
FLUSH_STATE = Kind("flush state", {
    "waiting": "flush state: waiting", "synced": "flush state: synced", "no die": "flush state: no die",
})
FOLD = Kind("fold", {"folded": "fold"})
STRANGER = Kind("stranger", {"stranger": "stranger"})

EVENTS = (
    CLAIM, RELEASE, RESERVE, RESERVE_HOLE, RESERVE_FEWER, COMMIT, ABANDON, ADMIT, REPLAN, END, TAKE, DONE, WINDOW, ADVANCE, SPARE_IN, COPY,
    COMMIT_COPY, FLUSH_BEGIN, FLUSH_STATE, FOLD, STRANGER,
)

# What is counted besides events.
MOUNTS = "mount", "mount of an unclean array", "mount refused: image fault", "mount refused: out of memory"
CLOSES = "close", "close without a die that refuses", "close refused: busy", "close refused: lost page", "close refused: no die live"
SUMS = "events", "arrays", "lasting programs", "certificates", "pages compared", "differences"


def names_of(kinds):
    """What answers of these kinds count as, those that were accepted before those that were refused."""
    kinds = list(kinds)
    accepted = [name for kind in kinds for _, name in kind.accepted]
    return accepted + [name for kind in kinds for _, name in kind.refused]


def all_names():
    """All that is counted, in the order in which it is printed."""
    names = [name for _, kinds in groupby(EVENTS, lambda kind: kind.name) for name in names_of(kinds)]
    return list(dict.fromkeys([*names, *MOUNTS, *CLOSES, *SUMS]))
