"""Arrays that are closed, also where an image refuses a call."""
from functools import partial

from driving.life import lowest_lost
from driving.mounting import judge_mounted

# How a life of an array ends. It is closed, or left as it stands with the images of its live dies alone; or it is over, as a page is
# lost or no die is live.
CLOSED, LEFT, OVER = "closed", "left", "over"
# One life in LEFT_EVERY is left as it stands. One in REFUSED_EVERY is closed with each call of an image refused in turn, and then closed.
LEFT_EVERY, REFUSED_EVERY = 4, 3
# The calls that are made of an image while its array is closed, and one more.
CALLS = 4


def close_busy(desk, life):
    """Tries to close an array with something open, which is refused."""
    if " busy " in desk.ask("array"):
        desk.expect("close", "refused: busy")
        desk.count("close refused: busy")
        desk.send()


def end_life(desk, life, way):
    """Closes an array at rest, or leaves it as it stands."""
    closing = Closing(desk, life)
    if not life.live or lowest_lost(closing.pages, life.live) is not None:
        closing.close()
        desk.send()
        return OVER
    if desk.chance.one_in(LEFT_EVERY):
        keep_living(desk, life)
        return LEFT
    if desk.chance.one_in(REFUSED_EVERY):
        closing.refuse_each_call(way)
    closing.close()
    desk.send()
    return CLOSED


def keep_living(desk, life):
    """Drops the images of all dies but the live ones."""
    places = [life.place_of(die) for die in range(life.dies) if die not in life.live]
    for place in sorted((place for place in places if place is not None), reverse=True):
        desk.expect(f"drop {place}", "dropped")
        life.images -= 1
    desk.send()


class Closing:
    """An array at rest that is to be closed."""

    def __init__(self, desk, life):
        self.desk, self.life = desk, life
        desk.expect("overwrites", "overwrites 0")
        self.disarm("lie")
        # What the array shows, which no closing changes.
        self.pages = desk.ask("map").split()[1:]
        shown = desk.ask("array")
        self.epoch = int(shown.split()[3])
        if " idle no copy" not in shown:
            desk.differ(f"an array at rest: {shown}")

    def disarm(self, word):
        """No call of an image fails from now on and, by `lie`, no read gives wrong bytes."""
        for place in self.life.places:
            if place is not None:
                self.desk.expect(f"{word} {place} 0", "armed")

    def refuse_each_call(self, way):
        """Closes the array again and again, of which the image of each live die in turn refuses its first call, its second, and so on up
        to one that is not made. Each time the headers are as they were."""
        headers = [self.desk.ask(f"read header {place}") for place in range(self.life.images)]
        for die in sorted(self.life.live):
            for call in range(1, CALLS + 1):
                self.refuse_call(way, die, call)
                for place, header in enumerate(headers):
                    self.desk.expect(f"write {header.replace(' ', f' {place} ')}", "written")
                self.desk.send()

    def refuse_call(self, way, die, call):
        """Closes the array where one call of a die's image is refused. What is mounted of all images then is the same array."""
        self.desk.expect(f"arm {self.life.place_of(die)} {call}", "armed")
        is_closed = self.close(None if call == CALLS else die)
        line = f"try mount {way.copies}"
        answer = self.desk.ask(line)
        if answer.startswith("mounted"):
            judge_mounted(self.desk, self.life, line, answer)
        elif is_closed:
            self.desk.differ(f"what was closed is not mounted: {line}: {answer}")

    def close(self, refusing=None):
        """Closes the array, of which the die `refusing` refuses a call, and compares the answer and the marks. Gives whether it was
        closed."""
        mask = sorted(self.life.live - {refusing})
        answer = self.desk.ask("close")
        self.disarm("arm")
        lost = lowest_lost(self.pages, mask)
        self.count(answer, refusing)
        if answer == " ".join(["closed live", *map(str, mask)]) and mask and lost is None:
            self.judge_marks(mask, self.epoch if refusing is None else self.epoch + 1)
            return True
        if answer == f"refused: a page is lost {lost}":
            self.judge_no_marks(mask)
        elif answer != "refused: no die live" or mask or lost is not None:
            self.desk.differ(f"close, without die {refusing}: {answer}, of dies {mask}, and lost is {lost}")
        return False

    def count(self, answer, refusing):
        """Counts how closing ended."""
        if answer.startswith("closed"):
            self.desk.count("close" if refusing is None else "close without a die that refuses")
        elif answer.startswith("refused: a page is lost"):
            self.desk.count("close refused: lost page")
        elif answer == "refused: no die live":
            self.desk.count("close refused: no die live")

    def judge_marks(self, mask, epoch):
        """The dies of the mask are marked clean in this epoch with this mask, and no other die is marked in it."""
        clean = " ".join(["format 2 epoch", str(epoch), "live", *map(str, mask), "clean"])
        for die in range(self.life.dies):
            self.look_at_header(die, partial(self.judge_mark, die, clean, die in mask))

    def judge_mark(self, die, clean, is_due, header):
        if (header == clean) != is_due:
            self.desk.differ(f"the header of die {die}: {header}, and {'not ' * (not is_due)}{clean}")

    def judge_no_marks(self, mask):
        """No die of the mask is marked clean in the array's epoch or a later one."""
        for die in mask:
            self.look_at_header(die, partial(self.judge_no_mark, die))

    def judge_no_mark(self, die, header):
        words = header.split()
        if words[-1] == "clean" and words[-2] != "not" and words[1] == "2" and int(words[3]) >= self.epoch:
            self.desk.differ(f"the header of die {die}, where a page is lost: {header}")

    def look_at_header(self, die, judge):
        if self.life.place_of(die) is not None:
            self.desk.post(f"header {self.life.place_of(die)}", judge)
