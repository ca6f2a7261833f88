"""What a run keeps from its first array to its last, and the way to the laboratory."""
from functools import partial

from driving.chance import Chance
from driving.kinds import all_names

# The most differences that are told one by one.
MOST_TOLD = 20
# Of SHARES events, WATCHED are watched: what the array shows is looked at before and behind each of them. STARVED of these find no memory,
# and INTERRUPTED of them are refused one request for it, an early one more often.
SHARES, WATCHED, STARVED, INTERRUPTED = 512, 64, 4, 4
# A page of a smaller number than this has that number in each byte, and any other page has the eight bytes of its number over and over.
FIRST_NUMBER = 256
OUT_OF_MEMORY = "refused: out of memory"
# The one refusal that changes something: no copy is under way then.
COPY_FAILED = "refused: the copy failed"


class Desk:
    """The laboratory, the source of all choices, and what was counted."""

    def __init__(self, lab, seed):
        self.lab = lab
        self.chance = Chance(seed)
        self.counts = dict.fromkeys(all_names(), 0)
        self.differences = []
        self.last_number = FIRST_NUMBER - 1
        # Lines that were not sent yet, each with what is done with its answer.
        self.posted = []

    def next_number(self):
        """A number for a page that no page was written with."""
        self.last_number += 1
        return self.last_number

    def count(self, name):
        self.counts[name] += 1

    def goes_on(self, events):
        """Whether fewer events than this are made, and not too much differs."""
        return self.counts["events"] < events and len(self.differences) < MOST_TOLD

    def differ(self, words):
        """Counts a difference, and keeps its words."""
        self.counts["differences"] += 1
        if len(self.differences) < MOST_TOLD:
            self.differences.append(words)

    # Lines wait until an answer is needed, and go to the laboratory together.

    def post(self, line, then):
        """Adds a line to those that wait. Its answer is given to `then`."""
        self.posted.append((line, then))

    def expect(self, line, wanted):
        """Adds a line of which the answer is known."""
        self.post(line, partial(self.compare, line, wanted))

    def send(self):
        """Sends the lines that wait, and handles their answers in order."""
        posted, self.posted = self.posted, []
        for (_, then), answer in zip(posted, self.lab.ask_all([line for line, _ in posted])):
            then(answer)

    def ask_all(self, lines):
        """The answers to lines, behind those that wait."""
        answers = []
        for line in lines:
            self.post(line, answers.append)
        self.send()
        return answers

    def ask(self, line):
        """The answer to a line, behind those that wait."""
        return self.ask_all([line])[0]

    def compare(self, line, wanted, answer):
        if answer != wanted:
            self.differ(f"{line}: {answer}, and not {wanted}")

    # Events.

    def event(self, kind, line, then=None, refused=None):
        """Adds the line of an event, which is counted by its answer. An accepted answer is given to `then`, and a refusal to `refused`."""
        self.counts["events"] += 1
        draw = self.chance.below(SHARES) if kind.requests else SHARES
        if draw < STARVED:
            self.watch("heap full 0", kind, line, then, refused)
        elif draw < STARVED + INTERRUPTED:
            number = self.chance.below(self.chance.below(kind.requests) + 1) + 1
            self.watch(f"heap refuse {number}", kind, line, then, refused)
        elif draw < WATCHED:
            self.watch("heap open", kind, line, then, refused)
        else:
            self.post(line, partial(self.judge, kind, line, then, refused, False))

    def watch(self, heap, kind, line, then, refused):
        """Adds an event that finds the heap in the state of the line `heap`. A refusal changes nothing that a look shows."""
        answers = []
        for before in ("all", heap, line, "heap", "heap open", "all"):
            self.post(before, answers.append)
        self.post("nothing", lambda _: self.judge_watched(kind, line, then, refused, answers))

    def judge_watched(self, kind, line, then, refused, answers):
        """Compares what the array showed before and behind an event, and judges its answer."""
        shown, _, answer, heap, _, shown_behind = answers
        if answer.startswith("refused") and answer != COPY_FAILED and shown != shown_behind:
            self.differ(f"{line}: {answer}, and before it {shown}, and behind it {shown_behind}")
        self.judge(kind, line, then, refused, " refused 0 " not in heap, answer)

    def judge(self, kind, line, then, refused, was_memory_refused, answer):
        """Counts the answer of an event, and passes it on."""
        name = kind.name_of(answer)
        if name is None:
            self.differ(f"{line}: {answer}")
            return
        self.counts[name] += 1
        if not answer.startswith("refused"):
            if then:
                then(answer)
            return
        if answer == OUT_OF_MEMORY and not was_memory_refused:
            self.differ(f"{line}: {answer}, though no memory was refused")
        if refused:
            refused(answer)
