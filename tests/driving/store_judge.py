"""What is seen of an array between the calls of its stores, and whether these were answered as a store may answer them (docs/SOLO.md)."""
from collections import namedtuple

from driving.store_calls import PAGE_BYTES, count_bits, numbers_in, page_read

# What is counted, in the order of docs/SOLO.md.
NAMES = (
    "read", "write", "zero", "zero with a hole", "trim", "flush", "with fua", "refused: lost", "refused: no room", "refused: no memory",
    "refused: a counter at its end", "no memory for a store", "call made again", "refused call that put a part",
    "refused call that put all", "refused call that put nothing", "store", "store with little memory", "die lost by a fault",
    "die lost by wrong bytes", "spare brought in", "page lost", "array with no live die", "close", "close refused: lost page",
    "close refused: no die live", "mount", "mount with other copies", "array", "calls", "bytes compared", "differences",
)
NAME_OF = {"read": "read", "write": "write", "zero": "zero", "hole": "zero with a hole", "trim": "trim", "flush": "flush"}
REASONS = {
    "refused: lost": "refused: lost", "refused: no room": "refused: no room", "refused: no memory": "refused: no memory",
    "refused: a counter is at its end": "refused: a counter at its end",
}
# The most differences that are told one by one.
MOST_TOLD = 20
NO_MEMORY = "refused: no memory"
HEAP = b"heap\n"
LOOKS = [b"faults\n", b"dies\n", b"map\n"]

# A call that was refused, why, and whether a request for memory was refused while it was made.
Refused = namedtuple("Refused", "call answer starved")


class Way:
    """How a store is made, and what its calls are made with.

    `rounds` are those of its windows. The line `heap` has requests for memory refused once the store is made, or `early` before that. Where
    requests may be refused they are `counted` behind each call. With `at_once` a call that was refused memory is made again by the same
    store. `front` are the lines that arm images and make the store, which the one at the index `at` does, and `behind` is the line behind
    its last call that ends refusals.
    """

    def __init__(self, rounds, heap=None, early=False, counted=False, at_once=False, armed=()):
        self.rounds, self.counted, self.at_once, self.is_little = rounds, counted or heap is not None, at_once, heap is not None
        making = [heap] if heap else []
        self.front = [*armed, *making * early, b"solo %d\n" % rounds, *making * (not early)]
        self.behind = [b"heap open\n"] if heap else []
        self.at = len(armed) + len(making) * early


def lost_in(line, dies=-1):
    """The pages that were written and that none of these dies holds, by the answer to `map`."""
    if dies == -1 and line.count(":0") == line.count(" 0:0"):
        return 0
    lost = 0
    for page, word in enumerate(line.split()[1:]):
        last, _, holders = word.partition(":")
        if last != "0" and not int(holders) & dies:
            lost |= 1 << page
    return lost


def thin_in(line, asked):
    """How many pages have a copy, and fewer than are asked for, by the answer to `map`."""
    held = [count_bits(int(word.partition(":")[2])) for word in line.split()[1:]]
    return sum(0 < count < asked for count in held)


class Faults:
    """What the images told, by the answer to `faults`: for each place how many calls were refused, and how many by its second fuse."""

    def __init__(self, line):
        words = line.split()
        self.refused, self.burnt = words[1::3], words[2::3]
        self.lied = sum(1 << place for place, word in enumerate(words[3::3]) if word != "0")

    def since(self, before):
        """The dies whose images refused calls since an earlier look."""
        return sum(1 << place for place, count in enumerate(self.refused) if count != before.refused[place])

    def begin_anew(self, place):
        """The image of this place has told nothing so far."""
        self.refused[place] = self.burnt[place] = "0"
        self.lied &= ~(1 << place)


class View:
    """An array with its images, by the answers to `LOOKS`: what the images told, the dies that are live and those of them that have room,
    the pages that are lost, and the words of the dies and of the pages."""

    def __init__(self, faults, dies, pages):
        self.faults, self.pages, self.lost = Faults(faults), pages, lost_in(pages)
        self.rooms = dies.split()[1:]
        self.live = self.roomy = 0
        for die, word in enumerate(self.rooms):
            if word != "out":
                self.live |= 1 << die
                self.roomy |= (word[0] != "0") << die

    def asked(self, copies):
        """How many copies a write makes where there is room."""
        return min(copies, count_bits(self.live))


class Judge:
    """An array in a laboratory, and the plain store beside it. It makes calls of stores, counts what comes and lists what differs."""

    def __init__(self, lab):
        self.lab = lab
        self.counts = dict.fromkeys(NAMES, 0)
        self.differences = []
        self.plain, self.copies, self.view = bytearray(), 2, None
        # The pages that are lost, and those of which a look was refused.
        self.lost = self.unread = 0
        # The calls that are made next, the last of them first, and the one that was refused last.
        self.agenda, self.refused = [], None
        # How many requests for memory were made, and refused, as the heap was looked at last, and how many were made since the look before.
        self.made = self.refusals = self.requests = 0

    def count(self, name, times=1):
        self.counts[name] += times

    def differ(self, words, *numbers):
        """Something is not as it is to be."""
        self.count("differences")
        if len(self.differences) < MOST_TOLD:
            self.differences.append(" ".join([f"{words}:", *map(str, numbers)]) if numbers else words)

    def begin(self, pages):
        """An array with this number of pages begins, none of which was written."""
        self.plain, self.lost, self.unread = bytearray(pages * PAGE_BYTES), 0, 0
        self.agenda, self.refused = [], None

    def mount(self, counted=False):
        """Mounts the images, and says whether that was not refused, which it may be for an image that told a fault or for memory."""
        lines = [b"faults\n", b"mount %d\n" % self.copies, b"faults\n", *[HEAP] * counted]
        before, answer, after, *heap = self.lab.exchange(lines)
        refusals = self.note_refusals(heap)
        if answer.startswith("mounted live"):
            self.count("mount")
            self.view = View(*self.lab.exchange(LOOKS))
            self.lost = self.view.lost
            return True
        is_fault = answer.startswith("refused: image fault") and Faults(after).since(Faults(before))
        if not is_fault and not (answer == NO_MEMORY and refusals):
            self.differ("an array is not mounted", answer)
        return False

    def note_refusals(self, heap):
        """How many requests for memory were refused since the last look at the heap, by the answer to a look if there was one."""
        if not heap:
            return 0
        _, _, made, _, refused, _, _ = heap[-1].split()
        before, self.refusals = self.refusals, int(refused)
        self.requests, self.made = int(made) - self.made, int(made)
        return self.refusals - before

    def turn(self, way):
        """Makes the calls that are due of a new store, up to one that is refused, and judges the answers. One that found no memory is made
        next."""
        before = self.view
        self.refused = None
        self.make_calls(way)
        self.look(before, way.behind)
        if self.refused is None:
            return
        self.judge_refusal()
        if self.refused.call.is_put():
            self.settle(way)
        if self.refused.answer == NO_MEMORY:
            self.count("call made again")
            self.agenda.append(self.refused.call)

    def make_calls(self, way):
        """Makes a store, and the calls that are due up to one that is refused."""
        self.count("store")
        if way.is_little:
            self.count("store with little memory")
            self.made = self.refusals = 0
        call, heap = self.agenda.pop(), [HEAP] * way.counted
        answers = self.lab.exchange([*way.front, call.line(), *heap])
        if answers[way.at] != "store":
            self.agenda.append(call)
            self.judge_not_made(answers[way.at], self.note_refusals(answers[-1:] if heap else []))
            return
        answers = answers[len(way.front):]
        while self.judge_answer(call, answers, way) and self.agenda:
            call = self.agenda.pop()
            answers = self.lab.exchange([call.line(), *heap])

    def judge_not_made(self, answer, refusals):
        """A store is not made only where a request for memory was refused."""
        self.count("no memory for a store")
        if answer != "refused: out of memory" or not refusals:
            self.differ("a store is not made", answer)

    def judge_answer(self, call, answers, way):
        """Counts a call, and judges what it was answered. False where it was refused, which is judged behind the store."""
        self.count(NAME_OF[call.kind])
        self.count("calls")
        if call.fua:
            self.count("with fua")
        refusals = self.note_refusals(answers[1:])
        if way.at_once and answers[0] == NO_MEMORY and refusals:
            answers, refusals = self.lab.exchange([call.line(), HEAP]), 0
            self.note_refusals(answers[1:])
        answer = answers[0]
        if answer == "done" or answer.startswith("read"):
            self.accept(call, answer)
            return True
        self.refused = Refused(call, answer, refusals > 0)
        return False

    def accept(self, call, answer):
        """A call that was not refused: what it read is what the plain store has, or its bytes are put there."""
        if call.kind == "read":
            if call.met & self.lost:
                self.differ("a lost page is read", call.offset, call.length)
            self.compare(call.offset, call.length, answer[5:])
            return
        if answer != "done":
            self.differ("a call that reads nothing is answered by bytes", call.offset, call.length)
        if call.met & ~call.whole & self.lost:
            self.differ("a part of a lost page is written", call.offset, call.length)
        self.lost &= ~call.whole
        call.put(self.plain)

    def compare(self, offset, length, digits):
        """Compares bytes in hexadecimal with those of the plain store."""
        self.count("bytes compared", length)
        if digits != self.plain[offset:offset + length].hex():
            self.differ("a read gives other bytes", offset, length)

    def judge_refusal(self):
        """Counts a refusal, and judges whether it may come where the array is seen as it is behind it."""
        call, answer, starved = self.refused
        after = self.view
        if answer in REASONS:
            self.count(REASONS[answer])
        may = {
            "refused: lost": after.live == 0 or after.lost & call.met,
            "refused: no room": call.is_put() and count_bits(after.roomy) < after.asked(self.copies),
            NO_MEMORY: starved and call.kind != "flush",
        }
        if not may.get(answer):
            self.differ(f"a {call.kind} may not be answered so: {answer}", call.offset, call.length)

    def look(self, before, front=()):
        """Takes the store apart and looks at the array. A die goes out only where its image told a fault or gave wrong bytes since then."""
        after = self.view = View(*self.lab.exchange([*front, *LOOKS])[len(front):])
        self.lost = after.lost
        if after.live != before.live:
            self.judge_dies(before, after)
        self.count("page lost", count_bits(after.lost & ~before.lost))
        if after.live and self.unread & ~after.lost:
            self.differ("a look is refused, and nothing is lost", self.unread, after.lost)
        self.unread = 0

    def judge_dies(self, before, after):
        """Judges and counts the dies that went out and came in."""
        gone = before.live & ~after.live
        faulted, lied = after.faults.since(before.faults), after.faults.lied & ~before.faults.lied
        if gone & ~faulted & ~lied:
            self.differ("a die is out, and told no fault", gone, faulted | lied)
        self.count("die lost by a fault", count_bits(gone & faulted))
        self.count("die lost by wrong bytes", count_bits(gone & ~faulted & lied))
        self.count("spare brought in", count_bits(after.live & ~before.live))
        if not after.live:
            self.count("array with no live die")

    def read_pages(self, way, pages):
        """Reads pages by a new store, and gives the bytes of each in hexadecimal, or None where it is lost. None where no store is made.

        Where requests for memory are counted one that was refused may have refused a read, which is made again.
        """
        self.count("store")
        heap = [HEAP] * way.counted
        made, *answers = self.lab.exchange([b"solo %d\n" % way.rounds, *map(page_read, pages), *heap])
        refusals = self.note_refusals(answers[len(pages):])
        if made != "store":
            self.judge_not_made(made, refusals)
            return None
        if refusals:
            for index, page in enumerate(pages):
                if answers[index] == NO_MEMORY:
                    answers[index] = self.lab.exchange([page_read(page)])[0]
        return [self.page_in(page, answer) for page, answer in zip(pages, answers)]

    def page_in(self, page, answer):
        """A page's bytes in hexadecimal, by the answer to a read of it. None where it was refused, which it may be as lost."""
        if answer.startswith("read "):
            if self.lost >> page & 1:
                self.differ("a lost page is read", page)
            if len(answer) != 5 + 2 * PAGE_BYTES:
                self.differ("a page that is read has another length", page)
            return answer[5:]
        self.unread |= 1 << page
        if answer != "refused: lost":
            self.differ("a look is not refused as lost", page, answer)
        return None

    def look_at_all(self, counted=False):
        """Compares all pages that are not lost, and looks at the array."""
        before, pages = self.view, range(len(self.plain) // PAGE_BYTES)
        for page, digits in enumerate(self.read_pages(Way(1, counted=counted), pages) or ()):
            if digits is not None:
                self.compare(page * PAGE_BYTES, PAGE_BYTES, digits)
        self.look(before)

    def settle(self, way):
        """Looks at each page that the refused call meets, and judges which of them it put. These stand in the plain store from now on."""
        before, call = self.view, self.refused.call
        pages = numbers_in(call.met)
        found = self.read_pages(Way(way.rounds, counted=way.counted and not way.is_little), pages)
        if found is not None:
            self.judge_prefix(call, zip(pages, found))
        self.look(before)

    def judge_prefix(self, call, found):
        """The pages of a refused call have its bytes up to some page, and their old ones from there on. All have them only where the flush
        behind them was refused."""
        put = bytearray(self.plain)
        call.put(put)
        new, has_old, is_open = 0, False, False
        for page, digits in found:
            part = slice(page * PAGE_BYTES, (page + 1) * PAGE_BYTES)
            if digits is None:
                is_open = True
                continue
            self.count("bytes compared", PAGE_BYTES)
            is_old, is_new = digits == self.plain[part].hex(), digits == put[part].hex()
            if not is_old and not is_new:
                self.differ("a page of a refused call has other bytes", page)
            if is_new and not is_old:
                new += 1
                if has_old:
                    self.differ("a page behind the refused one is written", page)
                self.plain[part] = put[part]
            has_old |= is_old and not is_new
            is_open |= is_old and is_new
        self.judge_put(call, new, has_old, is_open)

    def judge_put(self, call, new, has_old, is_open):
        """Counts what a refused call put: nothing, a part, or all, which it may only where a flush was refused behind it."""
        self.count(f"refused call that put {'nothing' if not new else 'a part' if has_old else 'all'}")
        is_flush = call.fua and self.refused.answer in ("refused: lost", "refused: a counter is at its end")
        if new and not has_old and not is_open and not is_flush:
            self.differ("a refused call is put whole", call.offset, call.length)

    def close(self):
        """Closes the array, judges the answer, and says whether it is closed."""
        before = self.view
        answer, faults = self.lab.exchange([b"close\n", b"faults\n"])
        left = before.live & ~Faults(faults).since(before.faults)
        lost = lost_in(before.pages, left)
        words = answer.split()
        if words[:2] == ["closed", "live"]:
            self.count("close")
            mask = sum(1 << int(word) for word in words[2:])
            if mask != left or mask == 0 or lost:
                self.differ("an array is closed otherwise", mask, left, lost)
            return True
        if answer.startswith("refused: a page is lost"):
            self.count("close refused: lost page")
            if not lost or int(words[-1]) != numbers_in(lost)[0]:
                self.differ("an array is not closed for another page", words[-1], lost)
        elif answer == "refused: no die live":
            self.count("close refused: no die live")
            if left:
                self.differ("an array with live dies is not closed", left, lost)
        else:
            self.differ("an array is not closed", answer)
        return False

    def judge_overwrites(self):
        """No slot is programmed that was not erased."""
        answer = self.lab.ask("overwrites")
        if answer != "overwrites 0":
            self.differ("slots were programmed that were not erased", answer)
