"""The dies: jobs that are taken, made and ended, windows of the collector, and spares that come in."""
from functools import partial

from driving.jobs import LASTING, job_of, judge_lasting
from driving.kinds import DONE, SPARE_IN, TAKE, WINDOW

# The most rounds of a window that is asked for.
MOST_ROUNDS = 6
# One die in NEEDLESS_EVERY that wants no window is asked to take one.
NEEDLESS_EVERY = 16
# An image that is armed refuses one of its next MOST_CALLS calls. One in WRONG_EVERY gives wrong bytes at a read of a slot instead.
MOST_CALLS, WRONG_EVERY = 12, 3
# Before one Take in MAPPED_EVERY events it is looked where the copies of all pages are.
MAPPED_EVERY = 8
# The jobs that wrong bytes end, by what their end counts as.
WRONG = {"done read of another slot": "read ", "done wrong move": "move "}


def arm(desk, life, die):
    """Arms the image of a die: one of its next calls fails, or one of its next reads gives wrong bytes."""
    call = desk.chance.below(MOST_CALLS) + 1
    word = "lie" if desk.chance.one_in(WRONG_EVERY) else "arm"
    if life.place_of(die) is not None:
        desk.expect(f"{word} {life.place_of(die)} {call}", "armed")


def work(desk, life, die):
    """A die ends its job, or takes one."""
    if life.jobs[die]:
        end_job(desk, life, die)
    else:
        seen = []
        if desk.counts["events"] % MAPPED_EVERY == 0:
            desk.post("map", seen.append)
        desk.event(TAKE, f"take {die}", partial(take, desk, life, die, seen))


def take(desk, life, die, seen, words):
    """Keeps the job that a die has taken, if it has taken one."""
    if words == "no job":
        return
    life.jobs[die] = job_of(desk, life, die, words)
    if words.startswith("program "):
        desk.counts["lasting programs"] += words.endswith(LASTING)
        for shown in seen:
            judge_lasting(desk, die, words, shown)
    if die not in life.live:
        desk.differ(f"die {die} is out, and takes a job: {words}")


def end_job(desk, life, die):
    """Lets a die make the calls of its job and end it, if it has one."""
    job, life.jobs[die] = life.jobs[die], None
    if job:
        desk.event(DONE, f"run {die}", partial(land, desk, life, die, job))
        desk.post(f"die {die}", partial(judge_die, desk, life, die, job))


def land(desk, life, die, job, answer):
    """Handles how a job ended. A die goes out at a fault, at a wrong read and at a wrong move, and at nothing else."""
    name = DONE.name_of(answer)
    if name == "done well":
        job.end_well(desk, life, die, answer)
        return
    life.live.discard(die)
    if not job.words.startswith(WRONG.get(name, "")):
        desk.differ(f"{job.words}: {answer}")
    desk.post("faults", partial(judge_image, desk, life.place_of(die), name, job))


def judge_image(desk, place, name, job, faults):
    """Looks whether an image did what its die went out for: it refused a call, or it gave wrong bytes."""
    refused, _, has_lied = faults.split()[1 + 3 * place:4 + 3 * place]
    if (has_lied if name in WRONG else refused) == "0":
        desk.differ(f"{name}, at {job.words}, and of the image at {place}: {faults}")


def judge_die(desk, life, die, job, shown):
    """Compares whether a die is live behind its job."""
    if shown.startswith(f"die {die} live") != (die in life.live):
        desk.differ(f"behind its job, {job.words}: {shown}")


def collect(desk, life, die):
    """Asks for a window of a die, if it wants one."""
    wants = "wants a window" in desk.ask(f"die {die}")
    if wants or desk.chance.one_in(NEEDLESS_EVERY):
        desk.event(WINDOW, f"window {die} {desk.chance.below(MOST_ROUNDS) + 1}")


def bring_in(desk, life, die):
    """Brings a die in, if it is a spare."""
    desk.event(SPARE_IN, f"spare in {die}", lambda _: life.live.add(die))
