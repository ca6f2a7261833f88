"""Clients that write pages and make holes."""
from functools import partial

from driving.jobs import Program
from driving.kinds import ABANDON, CLAIM, COMMIT, RELEASE, RESERVE, RESERVE_FEWER, RESERVE_HOLE
from driving.life import Claim, Version

# The most claims that are open.
MOST_CLAIMS = 5


def write(desk, life):
    """Makes a step of a client that writes: it claims a page, or goes on with one that is claimed."""
    chance = desk.chance
    if len(life.claims) < MOST_CLAIMS and chance.one_in(4):
        page = chance.below(life.pages)
        desk.event(CLAIM, f"claim {page}", partial(open_claim, desk, life, page), partial(judge_claimed, desk, life, page))
    elif life.claims:
        claim = life.claims[chance.below(len(life.claims))]
        if claim.reserved or chance.one_in(3):
            end_claim(desk, life, claim)
        else:
            reserve(desk, life, claim)


def open_claim(desk, life, page, answer):
    if any(claim.page == page for claim in life.claims):
        desk.differ(f"claim {page}: {answer}, and the page is claimed")
    life.claims.append(Claim(page))


def judge_claimed(desk, life, page, refusal):
    if "claimed" in refusal and not any(claim.page == page for claim in life.claims):
        desk.differ(f"claim {page}: {refusal}, and the page is not claimed")


def end_claim(desk, life, claim):
    """Goes on towards the end of a claim: commits what is reserved under it or, less often, gives it up, and then releases the claim."""
    if not claim.reserved:
        desk.event(RELEASE, f"release {claim.page}", lambda _: life.claims.remove(claim))
    elif desk.chance.one_in(10):
        desk.event(ABANDON, f"abandon {claim.page}", lambda _: hold(claim))
    else:
        desk.event(COMMIT, f"commit {claim.page}", partial(commit, desk, life, claim))


def reserve(desk, life, claim):
    """Reserves a page or a hole under a claim."""
    wish = desk.chance.below(8)
    if wish == 0:
        kind, number, line = RESERVE_HOLE, 0, f"reserve hole {claim.page}"
    else:
        number = desk.next_number()
        kind, words = (RESERVE_FEWER, "reserve fewer") if wish == 1 else (RESERVE, "reserve")
        line = f"{words} {claim.page} {number}"
    desk.event(kind, line, partial(open_write, desk, life, claim, wish == 0, number))


def open_write(desk, life, claim, is_hole, number, answer):
    """Keeps a write that was reserved, with a sequence number that none had before."""
    sequence = int(answer.split()[1])
    if sequence <= life.last:
        desk.differ(f"under the claim of page {claim.page}: {answer}, and {life.last} was given")
    life.last = sequence
    hold(claim, Version(sequence, is_hole, number))


def hold(claim, reserved=None):
    """Keeps what is reserved under a claim now. No die has programmed it."""
    claim.reserved, claim.programmed = reserved, set()


def commit(desk, life, claim, answer):
    """Writes what was reserved under a claim into the plain array. The live dies that programmed it hold the page, and no other die."""
    version = claim.reserved
    if answer != f"seq {version.sequence}" or version.sequence <= life.version(claim.page).sequence:
        desk.differ(f"commit {claim.page}: {answer}, and reserved was {version}, over {life.version(claim.page)}")
    if any(isinstance(job, Program) and job.write == version for job in life.jobs):
        desk.differ(f"commit {claim.page}: {answer}, and a program of it is in flight")
    life.versions[claim.page] = version
    desk.post(f"page {claim.page}", partial(judge_holders, desk, version, claim.programmed & life.live))
    hold(claim)


def judge_holders(desk, version, dies, shown):
    """Compares the dies that hold a page once it was committed with those that programmed it."""
    words = shown.split()
    holders = [int(words[at + 1]) for at, word in enumerate(words) if word == "at"]
    if holders != sorted(dies) or f" seq {version.sequence} " not in shown:
        desk.differ(f"{shown}, and programmed was {version} by the dies {sorted(dies)}")
