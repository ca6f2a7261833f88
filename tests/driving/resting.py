"""An array that comes to rest: what is open is brought to its end."""
from driving.dies import end_job, work
from driving.readers import admit, commit_copy, end, replan
from driving.turns import advance
from driving.writers import end_claim

# The turns that the last batches have to be answered, and the last claims to be released.
SETTLING_TURNS, RESTING_TURNS = 2000, 4000
# The pages that are asked for, each by a batch of its own, before these batches are settled.
PAGES_AT_ONCE = 8


def rest(desk, life):
    """Brings an array to rest: each claim is released, the copy under way ends, each batch is answered, and each die ends its job."""
    settle(desk, life)
    for _ in range(RESTING_TURNS):
        if not life.claims and not life.copy:
            for die in range(life.dies):
                end_job(desk, life, die)
            desk.send()
            return
        turn(desk, life)
        if life.copy:
            commit_copy(desk, life)
        if life.claims:
            end_claim(desk, life, life.claims[0])
        desk.send()
    desk.differ(f"claims are not released: {life.claims}, and the copy under way is {life.copy}")


def settle(desk, life):
    """Goes on until each open batch is answered or, where a page of it is lost, ended."""
    desk.send()
    for _ in range(SETTLING_TURNS):
        if not life.batches:
            desk.send()
            return
        turn(desk, life)
        first = life.batches[0]
        state = desk.ask(f"results {first.number}")
        if state == "ready":
            end(desk, life, first, True)
        elif state == "torn":
            replan(desk, life, first)
            desk.send()
    desk.differ(f"batches are not answered: {life.batches}")


def turn(desk, life):
    """Lets each die end its job or take one, and the round rise, if it may."""
    for die in range(life.dies):
        work(desk, life, die)
    advance(desk, life)


def look_at_all(desk, life):
    """Reads each page that is not lost, some at a time."""
    for page in range(life.pages):
        admit(desk, life, [page])
        if page % PAGES_AT_ONCE == 0:
            settle(desk, life)
    settle(desk, life)
