"""Arrays that are mounted, also where an image refuses a read, or where memory is refused."""
from dataclasses import dataclass

from driving.life import BLOCKS, SLOTS, lowest_lost

# More calls of an image than a mounting makes, more requests for memory, and more doublings of a byte than to the size of one request.
MANY_CALLS, MANY_REQUESTS, MANY_DOUBLINGS = BLOCKS * SLOTS + 3, 1000, 40
NO_MEMORY = "refused: no memory"


@dataclass(frozen=True)
class Way:
    """How an array is mounted."""
    # How many copies each page is to have.
    copies: int
    # Whether the array need not have been closed.
    unclean: bool = False

    def line(self):
        return f"mount unclean {self.copies}" if self.unclean else f"mount {self.copies}"


def mount_images(desk, life, way):
    """Mounts the images, of which none fails, and compares the map with the plain array. Gives whether they are mounted."""
    answer, places, shown, pages = desk.ask_all([way.line(), "places", "array", "map"])
    if not answer.startswith("mounted live"):
        desk.differ(f"{way.line()}: {answer}")
        return False
    desk.count("mount of an unclean array" if way.unclean else "mount")
    live = [int(die) for die in answer.split()[2:]]
    stand = [int(place) if place.isdigit() else None for place in places.split()[1:]]
    life.begin(live, stand, int(shown.split()[1]))
    judge_map(desk, life, way.line(), pages.split()[1:], life.live)
    return True


def judge_map(desk, life, line, words, live):
    """Compares the map behind a mounting with the plain array: each page has its last write, and none is lost."""
    lost = lowest_lost(words, live)
    if lost is not None:
        desk.differ(f"{line}: page {lost} is lost")
    wanted = [f"{version.sequence}{'h' if version.is_hole else ''}" for version in life.versions]
    for page, (word, version) in enumerate(zip(words, wanted)):
        if word.partition(":")[0] != version:
            desk.differ(f"{line}: page {page} has the write {word}, and not {version}")
    if len(words) != life.pages:
        desk.differ(f"{line}: the map has {len(words)} pages, and not {life.pages}")


def judge_mounted(desk, life, line, answer):
    """Compares the map in the answer of a mounting that is tried."""
    mounted, _, pages = answer.partition(" map ")
    judge_map(desk, life, line, pages.split(), [int(die) for die in mounted.split()[2:]])


def refuse_each_read(desk, life, way, place):
    """Tries to mount the images again and again. The image at a place refuses its first call, its second, and so on up to one that is not
    made."""
    for call in range(1, MANY_CALLS):
        if not refuse_read(desk, life, way, place, call):
            return
    desk.differ(f"the image at {place} is read more often than it has slots")


def refuse_read(desk, life, way, place, call):
    """Tries to mount the images, of which one refuses a call. The refusal is a fault of that image. Gives whether the call is made."""
    lines = ["faults", f"arm {place} {call}", f"try {way.line()}", "faults", f"arm {place} 0"]
    before, _, answer, behind, _ = desk.ask_all(lines)
    is_made = before != behind
    if is_made and answer == f"refused: image fault {place}":
        desk.count("mount refused: image fault")
    elif is_made or not answer.startswith("mounted"):
        desk.differ(f"{lines[1]}, {lines[2]}: {answer}, with {before}, and {behind}")
    else:
        judge_mounted(desk, life, lines[2], answer)
    return is_made


def refuse_each_growth(desk, way):
    """Tries to mount the images again and again: with the first request for memory refused, the second, and so on up to one that is not
    made, and then with each request refused of more than 1 byte, 2 bytes, 4 bytes, and so on up to what is enough."""
    for number in range(1, MANY_REQUESTS):
        if not refuse_growth(desk, way, f"heap refuse {number}"):
            break
    for doublings in range(MANY_DOUBLINGS):
        if not refuse_growth(desk, way, f"heap full {1 << doublings}"):
            return
    desk.differ(f"{way.line()} is refused memory without an end")


def refuse_growth(desk, way, heap):
    """Tries to mount the images where the heap refuses something. No memory is in use then that was not before. Gives whether something is
    refused."""
    line = f"try {way.line()}"
    before, _, answer, behind, _ = desk.ask_all(["heap", heap, line, "heap", "heap open"])
    is_refused = " refused 0 " not in behind
    if is_refused and answer == NO_MEMORY:
        desk.count("mount refused: out of memory")
    elif is_refused or not answer.startswith("mounted"):
        desk.differ(f"{heap}, {line}: {answer}, with {behind}")
    if before.split()[-1] != behind.split()[-1]:
        desk.differ(f"{heap}, {line}: {behind}, and before {before}")
    return is_refused
