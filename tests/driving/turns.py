"""Rounds, flushes, the history, and events whose conditions do not hold."""
from functools import partial

from driving.kinds import ADVANCE, FLUSH_BEGIN, FLUSH_STATE, FOLD, STRANGER
from driving.life import Flush

# The most flushes of which it is asked how they stand.
MOST_FLUSHES = 4
# A number that no claim and no batch has.
NO_NUMBER = (1 << 64) - 1
# The number of no die, and one more than the most rounds of a window.
NO_DIE, LONG_WINDOW = 64, 65


def advance(desk, life):
    """Asks for the next round."""
    desk.event(ADVANCE, "advance", partial(rise, desk, life))


def rise(desk, life, answer):
    life.round += 1
    if answer != f"round {life.round}":
        desk.differ(f"advance: {answer}, and not round {life.round}")


def flush(desk, life):
    """Begins a flush, or asks how one stands."""
    if len(life.flushes) < MOST_FLUSHES and desk.chance.one_in(3):
        desk.event(FLUSH_BEGIN, "flush begin", partial(keep_flush, life))
    elif life.flushes:
        asked = life.flushes[desk.chance.below(len(life.flushes))]
        desk.event(FLUSH_STATE, f"flush state {asked.number}", partial(judge_flush, desk, life, asked))


def keep_flush(life, answer):
    life.flushes.append(Flush(int(answer.split()[1]), frozenset(life.live), set(life.live)))


def judge_flush(desk, life, asked, state):
    """Compares how a flush stands with the syncs that were ended since it began, and forgets one that is over."""
    if not asked.dies & life.live:
        wanted = "no die"
    else:
        wanted = "waiting" if asked.waiting & life.live else "synced"
    if state != wanted:
        desk.differ(f"flush {asked.number}: {state}, and not {wanted}, of dies {sorted(asked.dies)} and live {sorted(life.live)}")
    if state != "waiting":
        life.flushes.remove(asked)


def fold(desk):
    """Folds the history."""
    desk.event(FOLD, "fold")


def make_stranger(desk, life):
    """Makes an event whose condition does not hold."""
    page = desk.chance.below(life.pages)
    lines = [
        f"claim {life.pages}", f"release {NO_NUMBER}", f"commit {NO_NUMBER}", f"abandon {NO_NUMBER}", f"reserve hole {NO_NUMBER}",
        f"admit {page} {page}", f"admit {page} {life.pages}", f"replan {NO_NUMBER}", f"end {NO_NUMBER}", f"window 0 {LONG_WINDOW}",
        f"take {NO_DIE}", f"done {NO_DIE} erased",
    ]
    lines += [line for claim in life.claims for line in strangers_of(claim)]
    lines += [f"done {die} ok" for die in range(life.dies) if not life.jobs[die]]
    desk.event(STRANGER, lines[desk.chance.below(len(lines))])


def strangers_of(claim):
    """Events of a claim whose conditions do not hold as it stands."""
    if claim.reserved:
        return [f"release {claim.page}", f"reserve {claim.page} 1", f"reserve hole {claim.page}", f"reserve fewer {claim.page} 1"]
    return [f"commit {claim.page}", f"abandon {claim.page}"]
