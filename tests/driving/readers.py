"""Clients that read batches, and the rebuilder, which reads a page to give it one more copy."""
from functools import partial

from driving.desk import COPY_FAILED
from driving.kinds import ADMIT, COMMIT_COPY, COPY, END, REPLAN
from driving.life import Batch

# The most batches that are open, and the most pages of one.
MOST_BATCHES, MOST_PAGES = 4, 8
# One batch in RASH_EVERY is ended or planned anew though it waits, and one in GIVEN_UP_EVERY is ended where it is torn.
RASH_EVERY, GIVEN_UP_EVERY = 64, 8
# One copy in LATE_EVERY is asked for with an older sequence number than the page has.
LATE_EVERY = 16


def read(desk, life):
    """Asks for a batch of some pages, if not too many are open."""
    if len(life.batches) < MOST_BATCHES:
        count = desk.chance.below(MOST_PAGES) + 1
        admit(desk, life, list(dict.fromkeys(desk.chance.below(life.pages) for _ in range(count))))


def admit(desk, life, pages, is_for_copy=False):
    """Asks for a batch of these pages."""
    line = "admit " + " ".join(map(str, pages))
    desk.event(ADMIT, line, partial(open_batch, desk, life, line, pages, is_for_copy), partial(judge_lost, desk))


def open_batch(desk, life, line, pages, is_for_copy, answer):
    """Keeps a batch that was admitted. Its plan is of the pages that have data."""
    _, number, *plan = answer.split()
    batch = Batch(int(number), {page: life.version(page) for page in pages}, is_for_copy)
    life.batches.append(batch)
    planned = judge_plan(desk, life, batch, line, plan)
    if sorted(planned) != sorted(page for page, version in batch.dues.items() if version.sequence and not version.is_hole):
        desk.differ(f"{line}: {answer}, which plans other pages than those with data")


def judge_plan(desk, life, batch, line, words):
    """Judges the certificate of a plan, and keeps what is booked. Gives the pages of the plan."""
    desk.count("certificates")
    pages = []
    if words[0] != "rounds" or words[2:4] != ["least", words[1]]:
        desk.differ(f"{line}: {' '.join(words)}")
        return pages
    at = 4
    while words[at:at + 1] == ["place"]:
        page, die, round_of_read = map(int, words[at + 1:at + 4])
        pages.append(page)
        life.booked[round_of_read, die] = batch.number, page
        at += 4
    if not set(pages) <= set(batch.dues) or len(set(pages)) != len(pages):
        desk.differ(f"{line}: {' '.join(words)}, which plans pages of no batch")
    return pages


def judge_lost(desk, refusal):
    """Looks at a page that is refused as lost: no die holds it."""
    if refusal.startswith("refused: a page is lost"):
        desk.post(f"page {refusal.split()[-1]}", partial(judge_no_holder, desk))


def judge_no_holder(desk, shown):
    if " at " in shown or " seq " not in shown:
        desk.differ(f"a page is refused as lost: {shown}")


def go_on_reading(desk, life):
    """Goes on with an open batch of a client as it stands."""
    if not life.batches:
        return
    batch = life.batches[desk.chance.below(len(life.batches))]
    if batch.is_for_copy:
        return
    state = desk.ask(f"results {batch.number}")
    if state == "ready":
        end(desk, life, batch, True)
    elif desk.chance.one_in(GIVEN_UP_EVERY if state == "torn" else RASH_EVERY):
        end(desk, life, batch, False)
    elif state == "torn" or desk.chance.one_in(RASH_EVERY):
        replan(desk, life, batch)


def replan(desk, life, batch):
    """Plans a batch anew, and ends it where a page of it is lost."""
    line = f"replan {batch.number}"
    then = lambda answer: judge_plan(desk, life, batch, line, answer.split())
    desk.event(REPLAN, line, then, partial(end_lost, desk, life, batch))


def end_lost(desk, life, batch, refusal):
    if refusal.startswith("refused: a page is lost"):
        judge_lost(desk, refusal)
        end(desk, life, batch, False)


def end(desk, life, batch, is_whole, then=None):
    """Ends a batch, and compares what it answers. A whole batch answers each of its pages."""
    life.batches.remove(batch)
    desk.event(END, f"end {batch.number}", partial(compare, desk, batch, is_whole, then))


def compare(desk, batch, is_whole, then, answer):
    """Compares the answers of a batch with what is due, and gives them to `then`."""
    words = answer.split()
    answers = [(int(page), content) for page, content in zip(words[3::4], words[5::4])]
    desk.counts["pages compared"] += len(answers)
    pages = [page for page, _ in answers]
    if len(words) != 2 + 4 * int(words[1]) or (is_whole and pages != list(batch.dues)):
        desk.differ(f"end {batch.number}: {answer}, and its pages are {list(batch.dues)}")
    for page, content in answers:
        due = batch.dues.get(page)
        if due is None or content != str(due.content):
            desk.differ(f"end {batch.number}: page {page} of {content}, and due is {due}")
    if then:
        then(answers)


def rebuild(desk, life):
    """Makes a step of the rebuilder: it ends the copy under way, reads the next thin page, or asks for a copy of the one that it read."""
    if life.copy and not desk.chance.one_in(3):
        commit_copy(desk, life)
        return
    batch = next((batch for batch in life.batches if batch.is_for_copy), None)
    if batch:
        state = desk.ask(f"results {batch.number}")
        if state != "waiting":
            end(desk, life, batch, state == "ready", partial(copy_last, desk, life, batch))
        return
    thin = desk.ask("next thin")
    if thin != "none is thin":
        admit(desk, life, [int(thin.split()[1])], is_for_copy=True)


def copy_last(desk, life, batch, answers):
    """Asks for one more copy of the last page that was answered. That of a hole has zeros, whatever bytes are given."""
    if not answers:
        return
    page, content = answers[-1]
    due = batch.dues.get(page)
    if not due or not due.sequence or not content.isdigit():
        return
    number = desk.next_number() if due.is_hole else content
    sequence = due.sequence - desk.chance.one_in(LATE_EVERY)
    desk.event(COPY, f"copy {page} {sequence} {number}", partial(open_copy, desk, life, page, sequence))


def open_copy(desk, life, page, sequence, answer):
    """Keeps the copy that was reserved, which is one of the page's last write."""
    life.copy = page, life.version(page)
    if sequence != life.version(page).sequence:
        desk.differ(f"copy {page} {sequence}: {answer}, and its last write is {life.version(page)}")


def commit_copy(desk, life):
    """Ends the copy under way, if it was programmed. A copy that failed is under way no longer."""
    desk.event(COMMIT_COPY, "commit copy", partial(close_copy, desk, life), partial(lose_copy, life))


def close_copy(desk, life, answer):
    """Compares how the copy under way ended: it is current where the page was not written since."""
    page, version = life.copy
    if answer != ("current" if version == life.version(page) else "late"):
        desk.differ(f"commit copy: {answer}, of page {page} and {version}, and its last write is {life.version(page)}")
    life.copy = None


def lose_copy(life, refusal):
    if refusal == COPY_FAILED:
        life.copy = None
