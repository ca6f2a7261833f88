"""The events of an array, one after the other, as docs/LAB.md spells them. What is wanted is worked out by hand from
docs/MACHINE.md: the homes of the pages, the lowest erased slots, the rounds of a least plan.

A script is lines `LINE -> ANSWER`. Each is made twice: with ample memory, and with each growth of each event refused first, which
has to answer the same and may change nothing.
"""
from collections import Counter

from cases import Case, Run, Talk
from lab import Lab

PROGRAM = "flasharr_lab"
DONE = "done"
MADE = "made"
NO_MEMORY = "refused: out of memory"
# The events that may take memory, by the first words of their lines; the others take none.
KINDS = {"reserve hole": "hole", "reserve fewer": "fewer", "reserve": "reserve", "claim": "claim", "admit": "admit", "replan": "replan",
         "window": "window", "copy": "copy"}
# What is no event, and has its memory.
ROOMY = ("mount", "solo")


def shape(dies, spares=0, blocks=16, slots=8, pages=64, copies=2, epoch=2, last=0):
    return f"dies {dies} spares {spares} blocks {blocks} slots {slots} bytes 512 pages {pages} copies {copies} epoch {epoch} last {last}"


def pairs(text):
    """The lines of a script, each with its answer."""
    return [tuple(" ".join(part.split()) for part in line.split(" -> ")) for line in text.strip().splitlines()]


def headers(epoch, *live):
    """The header of each live die is written."""
    told = " ".join(str(die) for die in live)
    return [step for die in live for step in ((f"take {die}", f"header epoch {epoch} live {told}"), (f"done {die} ok", DONE))]


def programs(page, seq, byte, places, hole=False, new=()):
    """A copy is programmed at each place, a die and a slot. The dies of `new` come to hold a page that was written before."""
    what = " hole" if hole else ""
    made = []
    for die, slot in places:
        how = " lasting" if die in new else ""
        made += [(f"take {die}", f"program page {page} seq {seq}{what} slot {slot} of {byte}{how}"), (f"done {die} ok", DONE)]
    return made


def write_until_commit(page, seq, byte, *places, word="reserve", new=()):
    """A page is claimed, and its copies are programmed. The places are in the order of the page's dies."""
    hole = word == "reserve hole"
    asked = f"{word} {page}" if hole else f"{word} {page} {byte}"
    return [(f"claim {page}", f"claim {page}"), (asked, f"seq {seq}"), *programs(page, seq, byte, places, hole, new)]


def write(page, seq, byte, *places, word="reserve", new=()):
    """A page is written, from its claim to its release."""
    made = write_until_commit(page, seq, byte, *places, word=word, new=new)
    return [*made, (f"commit {page}", f"seq {seq}"), (f"release {page}", "released")]


def read(die, page, seq, slot, byte):
    """A booked read is taken and ends with its bytes."""
    return [(f"take {die}", f"read page {page} seq {seq} slot {slot}"), (f"done {die} data {byte}", DONE)]


def no_room_at_home(page):
    """Both homes of a page have no room, of dies with four blocks of four slots: what was reserved is given up, and its slots are stale."""
    reserved = [step for seq in range(1, 13) for step in ((f"reserve {page} 7", f"seq {seq}"), (f"abandon {page}", "abandoned"))]
    return [(f"claim {page}", f"claim {page}"), *reserved]


def kind_of(line):
    """The kind of an event that may take memory. None of another line."""
    return next((kind for words, kind in KINDS.items() if f"{line} ".startswith(f"{words} ")), None)


def answered(lab, line, refused, faults):
    """The answer to a line once no memory is refused to it. First all of it is refused, and then each request alone: where that is told, all
    looks are as they were."""
    kind = kind_of(line)
    if kind is None:
        lab.ask("heap open" if line.startswith(ROOMY) else "heap full 0")
        return lab.ask(line)
    before = lab.ask("all")
    for which in ("full 0", *(f"refuse {number}" for number in range(1, 1000))):
        lab.ask(f"heap {which}")
        answer = lab.ask(line)
        if answer != NO_MEMORY:
            return answer
        refused[kind] += 1
        if lab.ask("all") != before:
            faults.append(f"changed though it was refused memory ({which}): {line}")
    return NO_MEMORY


def refused_first(first, steps, kinds):
    """A script with each growth refused first. Each of these kinds of events has to be refused memory."""
    def faults(program):
        refused, found = Counter(), []
        with Lab(program) as lab:
            lab.ask(first)
            for line, wanted in steps:
                answer = answered(lab, line, refused, found)
                if answer != wanted:
                    return [*found, f"memory refused first, {line}: wanted {wanted}, and it was {answer}"]
        missing = [kind for kind in kinds if not refused[kind]]
        return found + [f"memory was never refused to: {kind}" for kind in missing]
    return Talk(faults)


def case(name, first, steps, refused=()):
    """A script on an array of this shape. At least these kinds of its events are refused memory where that is tried. Events of another
    kind take none, or find the room that earlier ones made."""
    lines = first + "\n" + "".join(f"{line}\n" for line, _ in steps)
    answers = f"{MADE}\n" + "".join(f"{answer}\n" for _, answer in steps)
    return Case(name, [Run((), answers, input=lines), refused_first(first, steps, refused)], program=PROGRAM)


# Three dies in use, of 16 blocks of 8 slots, with 64 pages.
THREE = shape(3)
MOUNTED = headers(2, 0, 1, 2)

# The pairs of pages 0 to 7 on them, with their slots, and the byte that each is full of.
PLACES = {0: ((0, 0), (1, 0)), 1: ((1, 1), (2, 0)), 2: ((2, 1), (0, 1)), 3: ((0, 2), (2, 2)),
          4: ((1, 2), (0, 3)), 5: ((2, 3), (1, 3)), 6: ((0, 4), (1, 4)), 7: ((1, 5), (2, 4))}
EIGHT = [step for page, places in PLACES.items() for step in write(page, page + 1, 10 + page, *places)]


def filled_dies():
    """Two dies of four blocks of four slots are filled: one current and three stale slots, four stale ones, four current ones, four
    erased ones."""
    both = lambda page, seq, byte, slot: write(page, seq, byte, *(((0, slot), (1, slot)) if page % 2 == 0 else ((1, slot), (0, slot))))
    filled = headers(2, 0, 1) + both(0, 1, 10, 0)
    for slot in range(1, 9):
        filled = filled + both(1, slot + 1, 20 + slot, slot)
    return filled + both(2, 10, 12, 9) + both(3, 11, 13, 10) + both(4, 12, 14, 11)


def pages_at(places, seqs=None):
    """A look at each page: where it is, dies rising."""
    looks = []
    for page, held in places.items():
        at = "".join(f" at {die} {slot}" for die, slot in sorted(held))
        looks.append((f"page {page}", f"page {page} seq {(seqs or {}).get(page, page + 1)}{at}"))
    return looks


def admitted(count):
    """As many batches of page 0 as are asked for, from the first one on, which die 0 alone holds: a round for each."""
    return [("admit 0", f"batch {batch} rounds {batch + 1} least {batch + 1} place 0 0 {batch + 1} short 0") for batch in range(count)]


def out_by_sync(*dies, live):
    """A flush is begun, and the sync of each of these dies meets a fault. The headers of those left are written again."""
    taken = [(f"take {die}", "sync") for die in dies]
    failed = [(f"done {die} fault", DONE) for die in dies]
    return [("flush begin", "flush 1"), *taken, *failed, *headers(2 + len(dies), *live)]


def writes():
    yield case("eight_writes", THREE, MOUNTED + EIGHT + pages_at(PLACES) + pairs("""
        counts -> commits 8 starts 0
        page 8 -> page 8 never written
        page 64 -> page 64 none
        die 0 -> die 0 live room 115
        die 1 -> die 1 live room 114
        die 2 -> die 2 live room 115
        array -> round 1 epoch 2 idle no copy
        next thin -> none is thin
    """), ("claim", "reserve"))

    # The program of page 0 fails on die 1. The headers of the others come before the programs of page 2.
    yield case("a_program_fails", THREE, MOUNTED + pairs("""
        claim 0 -> claim 0
        reserve 0 7 -> seq 1
        take 0 -> program page 0 seq 1 slot 0 of 7
        take 1 -> program page 0 seq 1 slot 0 of 7
        done 0 ok -> done
        commit 0 -> refused: a program is pending
        claim 2 -> claim 2
        reserve 2 9 -> seq 2
        done 1 fault -> done
        array -> round 1 epoch 3 busy no copy
        page 0 -> page 0 never written
        commit 0 -> seq 1
        page 0 -> page 0 seq 1 at 0 0
        die 1 -> die 1 out
        take 1 -> no job
        take 0 -> header epoch 3 live 0 2
        take 0 -> no job
        done 0 ok -> done
        take 2 -> header epoch 3 live 0 2
        done 2 ok -> done
        take 0 -> program page 2 seq 2 slot 1 of 9
        take 2 -> program page 2 seq 2 slot 0 of 9
        next thin -> page 0 to 2
    """), ("claim", "reserve"))

    # Both programs fail. What was reserved is given up, and the page goes to the die that is left.
    yield case("both_programs_fail", THREE, MOUNTED + pairs("""
        claim 0 -> claim 0
        reserve 0 7 -> seq 1
        take 0 -> program page 0 seq 1 slot 0 of 7
        take 1 -> program page 0 seq 1 slot 0 of 7
        done 0 fault -> done
        done 1 fault -> done
        commit 0 -> refused: no copy was programmed
        abandon 0 -> abandoned
        commit 0 -> stranger
        reserve 0 9 -> seq 2
        take 2 -> header epoch 4 live 2
        done 2 ok -> done
        take 2 -> program page 0 seq 2 slot 0 of 9
        done 2 ok -> done
        commit 0 -> seq 2
        release 0 -> released
        page 0 -> page 0 seq 2 at 2 0
        next thin -> none is thin
        history -> entries 1 commit 0 2
    """), ("claim", "reserve"))

    yield case("claims", THREE, MOUNTED + pairs("""
        claim 64 -> stranger
        claim 3 -> claim 3
        claim 3 -> refused: the page is claimed
        under 3 -> open
        claim 4 -> claim 4
        release 5 -> stranger
        release 3 -> released
        release 3 -> stranger
        under 3 -> no claim
        claim 3 -> claim 3
        reserve 3 7 -> seq 1
        under 3 -> reserved
        release 3 -> stranger
        array -> round 1 epoch 2 busy no copy
    """), ("claim", "reserve"))

    # What is given up before its programs are taken leaves no program, and stale slots.
    yield case("reservations", THREE, MOUNTED + pairs("""
        reserve 3 7 -> stranger
        reserve hole 3 -> stranger
        reserve fewer 3 7 -> stranger
        commit 3 -> stranger
        abandon 3 -> stranger
        claim 0 -> claim 0
        commit 0 -> stranger
        abandon 0 -> stranger
        reserve 0 7 -> seq 1
        reserve 0 7 -> stranger
        reserve hole 0 -> stranger
        commit 0 -> refused: a program is pending
        abandon 0 -> abandoned
        take 0 -> no job
        take 1 -> no job
        reserve 0 8 -> seq 2
        take 0 -> program page 0 seq 2 slot 1 of 8
        abandon 0 -> refused: a program is in flight
        done 1 ok -> stranger
        done 0 data 8 -> stranger
        done 0 wrong -> stranger
        done 0 ok -> done
        done 0 ok -> stranger
        abandon 0 -> refused: a copy was programmed
        commit 0 -> refused: a program is pending
        take 1 -> program page 0 seq 2 slot 1 of 8
        done 1 ok -> done
        commit 0 -> seq 2
        page 0 -> page 0 seq 2 at 0 1 at 1 1
        die 0 -> die 0 live room 118 victim 0
    """), ("claim", "reserve"))

    # Of a page with two writes the older copies are stale.
    yield case("a_page_is_written_again", THREE, MOUNTED + write(0, 1, 7, (0, 0), (1, 0)) + write(0, 2, 8, (0, 1), (1, 1)) + pairs("""
        page 0 -> page 0 seq 2 at 0 1 at 1 1
        die 0 -> die 0 live room 118 victim 0
        die 2 -> die 2 live room 120
    """), ("claim", "reserve"))

    # Page 0 has the homes 0 and 1 of four dies. Where these have no room, the others take it from the highest on.
    yield case("other_dies_fall", shape(4, blocks=4, slots=4, pages=8), headers(2, 0, 1, 2, 3) + no_room_at_home(0) + pairs("""
        reserve 0 7 -> seq 13
        take 0 -> no job
        take 1 -> no job
    """) + programs(0, 13, 7, ((3, 0), (2, 0))) + pairs("""
        commit 0 -> seq 13
        page 0 -> page 0 seq 13 at 2 0 at 3 0
    """), ("claim", "reserve"))

    # Die 0 alone of three has room. It is a home of page 0, and of page 1 it is the only die that is left.
    yield case("one_die_has_room", shape(3, blocks=4, slots=4, pages=8), MOUNTED + no_room_at_home(1) + pairs("""
        reserve 1 7 -> refused: too few dies have room
        claim 0 -> claim 0
        reserve 0 7 -> refused: too few dies have room
        reserve fewer 0 7 -> seq 13
        reserve fewer 1 8 -> seq 14
    """) + programs(0, 13, 7, ((0, 0),)) + programs(1, 14, 8, ((0, 1),)) + pairs("""
        take 0 -> no job
        take 1 -> no job
        take 2 -> no job
    """), ("claim", "reserve", "fewer"))

    # A spare that came in is no home of any page.
    yield case("a_spare_is_no_home", shape(4, spares=1), MOUNTED + [("spare in 3", "in")] + headers(3, 0, 1, 2, 3)
               + write(3, 1, 7, (0, 0), (2, 0)) + pairs("""
        page 3 -> page 3 seq 1 at 0 0 at 2 0
        take 3 -> no job
    """), ("claim", "reserve"))

    # A write on as many dies as have room goes to both where both have.
    yield case("a_write_on_fewer_dies", THREE, MOUNTED + write(0, 1, 7, (0, 0), (1, 0), word="reserve fewer") + pairs("""
        page 0 -> page 0 seq 1 at 0 0 at 1 0
        next thin -> none is thin
    """), ("claim", "fewer"))

    yield case("the_last_number", shape(3, last=2**62 - 2), MOUNTED + write(0, 2**62 - 1, 7, (0, 0), (1, 0)) + pairs("""
        claim 1 -> claim 1
        reserve 1 7 -> refused: no sequence number is left
        reserve hole 1 -> refused: no sequence number is left
        reserve fewer 1 7 -> refused: no sequence number is left
    """), ("claim", "reserve"))

    # No die is left: one goes out with its header, and two with a sync.
    yield case("no_die_is_live", THREE, pairs("""
        claim 0 -> claim 0
        take 1 -> header epoch 2 live 0 1 2
        done 1 fault -> done
        take 0 -> header epoch 3 live 0 2
        done 0 fault -> done
        take 2 -> header epoch 4 live 2
        done 2 fault -> done
        array -> round 1 epoch 5 busy no copy
        reserve 0 7 -> refused: no die is live
        reserve hole 0 -> refused: no die is live
        reserve fewer 0 7 -> refused: no die is live
        take 0 -> no job
        take 3 -> stranger
    """), ("claim",))

    # A header that was taken at an older epoch leaves its die behind.
    yield case("a_header_of_an_older_epoch", THREE, pairs("""
        take 0 -> header epoch 2 live 0 1 2
        take 1 -> header epoch 2 live 0 1 2
        done 1 fault -> done
        done 0 ok -> done
        take 0 -> header epoch 3 live 0 2
        done 0 ok -> done
        take 0 -> no job
    """))

    yield case("a_fold", THREE, MOUNTED + write(0, 1, 7, (0, 0), (1, 0)) + pairs("""
        history -> entries 1 commit 0 1
        fold -> folded
        history -> entries 0
        counts -> commits 1 starts 0
        admit 0 -> batch 0 rounds 1 least 1 place 0 0 1 short 0
        take 0 -> read page 0 seq 1 slot 0
        history -> entries 1 start 0 1
        counts -> commits 1 starts 1
    """), ("claim", "reserve", "admit"))


def reads():
    # A list of no page, and one of pages that were never written, take no round.
    yield case("batches_without_a_read", THREE, MOUNTED + pairs("""
        advance -> refused: nothing is booked
        results 0 -> torn
        end 0 -> stranger
        replan 0 -> stranger
        admit -> batch 0 rounds 0 least 0
        results 0 -> ready
        end 0 -> pages 0
        admit 9 10 -> batch 1 rounds 0 least 0
        results 1 -> ready
        replan 1 -> rounds 0 least 0
        end 1 -> pages 2 page 9 of 0 page 10 of 0
        results 1 -> torn
        admit 3 3 -> stranger
        admit 3 64 -> stranger
        advance -> refused: nothing is booked
        counts -> commits 0 starts 0
    """), ("admit",))

    # Three pages, each pair of three dies holding one.
    yield case("one_round", THREE, MOUNTED + EIGHT + pairs("""
        admit 0 1 2 -> batch 0 rounds 1 least 1 place 0 0 1 place 1 1 1 place 2 2 1 short 0 1 2
        advance -> refused: a job of this round is pending
        results 0 -> waiting
    """) + read(0, 0, 1, 0, 10) + read(1, 1, 2, 1, 11) + pairs("""
        advance -> refused: a job of this round is pending
        take 2 -> read page 2 seq 3 slot 1
        advance -> refused: a job of this round is pending
        results 0 -> waiting
        done 2 data 12 -> done
        results 0 -> ready
        advance -> round 2
        advance -> refused: nothing is booked
        history -> entries 11 commit 0 1 commit 1 2 commit 2 3 commit 3 4 \
            commit 4 5 commit 5 6 commit 6 7 commit 7 8 start 0 1 start 1 2 start 2 3
        end 0 -> pages 3 page 0 of 10 page 1 of 11 page 2 of 12
        end 0 -> stranger
    """), ("claim", "reserve", "admit"))

    # Eight pages on three dies take three rounds, since two have six places. The second read of die 1 fails in round 2. Pages 4 and 6
    # are on die 0 alone then, of which rounds 2 and 3 have one open place.
    yield case("a_die_fails_in_a_batch", THREE, MOUNTED + EIGHT + pairs("""
        admit 0 1 2 3 4 5 6 7 -> batch 0 rounds 3 least 3 place 0 0 1 place 1 1 1 place 2 2 1 place 3 0 2 \
            place 4 1 2 place 5 1 3 place 6 0 3 place 7 2 2 short 0 1 2 3 4 5 6 7
    """) + read(0, 0, 1, 0, 10) + read(1, 1, 2, 1, 11) + read(2, 2, 3, 1, 12) + [("advance", "round 2")] + read(0, 3, 4, 2, 13)
               + read(2, 7, 8, 4, 17) + pairs("""
        take 1 -> read page 4 seq 5 slot 2
        results 0 -> waiting
        done 1 fault -> done
        results 0 -> torn
        array -> round 2 epoch 3 busy no copy
        closed 1 4 -> closed 1
        closed 2 4 -> closed 2 2
        replan 0 -> rounds 3 least 3 place 4 0 3 place 5 2 3 place 6 0 4 short 4 5 6
        closed 0 4 -> closed 0 2 3 4
        closed 2 4 -> closed 2 2 3
        results 0 -> waiting
        next thin -> page 0 to 2
    """) + headers(3, 0, 2) + [("advance", "round 3")] + read(0, 4, 5, 3, 14) + read(2, 5, 6, 3, 15) + [("advance", "round 4")]
               + read(0, 6, 7, 4, 16) + pairs("""
        results 0 -> ready
        end 0 -> pages 8 page 0 of 10 page 1 of 11 page 2 of 12 page 3 of 13 page 4 of 14 page 5 of 15 page 6 of 16 page 7 of 17
        counts -> commits 8 starts 9
    """) + write(1, 9, 31, (2, 5), (0, 5), new=(0,)) + [("page 1", "page 1 seq 9 at 0 5 at 2 5")],
               ("claim", "reserve", "admit", "replan"))

    # A read comes before a program that waits, and that before a sync.
    yield case("the_order_of_jobs", THREE, MOUNTED + write(0, 1, 7, (0, 0), (1, 0)) + pairs("""
        claim 3 -> claim 3
        reserve 3 8 -> seq 2
        claim 2 -> claim 2
        reserve 2 9 -> seq 3
        flush begin -> flush 1
        admit 0 -> batch 0 rounds 1 least 1 place 0 0 1 short 0
    """) + read(0, 0, 1, 0, 7) + programs(3, 2, 8, ((0, 1),)) + programs(2, 3, 9, ((0, 2),)) + pairs("""
        take 0 -> sync
        done 0 ok -> done
        take 0 -> no job
    """), ("claim", "reserve", "admit"))

    # Die 0 has no room, so a write of page 0 leaves it. The booking there is dropped as it is taken, and the sync comes next.
    pair = {0: (0, 1), 2: (2, 0), 3: (0, 2), 4: (1, 0), 6: (0, 1), 8: (2, 0), 9: (0, 2), 10: (1, 0)}
    used = {0: 0, 1: 0, 2: 0}
    full = MOUNTED
    for seq, page in enumerate((0, 2, 3, 4, 6, 8, 9, 10, 2, 3, 8, 9), 1):
        full = full + write(page, seq, page, *((die, used[die]) for die in pair[page]))
        used.update({die: used[die] + 1 for die in pair[page]})
    yield case("a_booking_is_dropped", shape(3, blocks=4, slots=4, pages=12), full + pairs("""
        die 0 -> die 0 live room 0 victim 0 wants a window
        die 1 -> die 1 live room 8
        die 2 -> die 2 live room 4 victim 0
        admit 0 4 -> batch 0 rounds 1 least 1 place 0 0 1 place 4 1 1 short 0 4
    """) + read(1, 4, 4, 1, 4) + write(0, 13, 30, (1, 4), (2, 8), new=(2,)) + pairs("""
        flush begin -> flush 1
        results 0 -> waiting
        take 0 -> sync
        results 0 -> torn
        replan 0 -> rounds 1 least 1 place 0 2 1 short 0
        done 0 ok -> done
    """) + read(2, 0, 13, 8, 30) + [("end 0", "pages 2 page 0 of 30 page 4 of 4")],
               ("claim", "reserve", "admit", "replan"))

    # Of a page whose other dies have no room no copy can be made.
    yield case("no_room_for_a_copy", shape(3, blocks=4, slots=4, pages=12), full + write(1, 13, 11, (1, 4), (2, 8)) + pairs("""
        flush begin -> flush 1
        take 2 -> sync
        done 2 fault -> done
        copy 1 13 11 -> refused: no die has room for a copy
        next thin -> page 2 to 1
    """), ("claim", "reserve"))

    # Pages 0 and 6 are on die 0 alone, as die 1 is out.
    alone = MOUNTED + EIGHT + out_by_sync(1, live=(0, 2))
    yield case("two_pages_of_one_die", THREE, alone + pairs("""
        closed 0 4 -> closed 0
        admit 0 6 -> batch 0 rounds 2 least 2 place 0 0 1 place 6 0 2 short 0 6
        closed 0 4 -> closed 0 1 2
        closed without 0 0 4 -> closed 0
        end 0 -> pages 0
        closed 0 4 -> closed 0
        closed without 0 0 4 -> no batch
        admit 6 9 0 -> batch 1 rounds 2 least 2 place 0 0 1 place 6 0 2 short 6 0
    """) + read(0, 0, 1, 0, 10) + pairs("""
        take 0 -> sync
        done 0 ok -> done
        advance -> round 2
    """) + read(0, 6, 7, 4, 16) + pairs("""
        end 1 -> pages 3 page 6 of 16 page 9 of 0 page 0 of 10
        closed 0 4 -> closed 0 2
        advance -> round 3
        closed 0 4 -> closed 0
    """), ("claim", "reserve", "admit"))

    # Ten batches read page 0 of die 0 alone, a round each. The second, fourth, sixth and eighth end, which takes no memory, and the
    # rounds beside theirs stay booked.
    yield case("rounds_are_released_amid_others", THREE, alone + admitted(10) + pairs("""
        closed 0 11 -> closed 0 1 2 3 4 5 6 7 8 9 10
        closed without 3 0 11 -> closed 0 1 2 3 5 6 7 8 9 10
        end 1 -> pages 0
        closed 0 11 -> closed 0 1 3 4 5 6 7 8 9 10
        end 3 -> pages 0
        end 5 -> pages 0
        end 7 -> pages 0
        closed 0 11 -> closed 0 1 3 5 7 9 10
    """), ("claim", "reserve", "admit"))

    # The pages of dies 0 and 1 are lost. A write of the whole page repairs one.
    yield case("lost_pages", THREE, MOUNTED + EIGHT + out_by_sync(0, 1, live=(2,)) + pairs("""
        admit 7 4 0 1 -> refused: a page is lost 4
        admit 7 0 4 -> refused: a page is lost 0
        page 4 -> page 4 seq 5
        admit 7 1 -> batch 0 rounds 2 least 2 place 1 2 1 place 7 2 2 short 7 1
        end 0 -> pages 0
    """) + write(4, 9, 30, (2, 5), new=(2,)) + pairs("""
        page 4 -> page 4 seq 9 at 2 5
        admit 4 -> batch 1 rounds 1 least 1 place 4 2 1 short 4
    """) + read(2, 4, 9, 5, 30) + pairs("""
        end 1 -> pages 1 page 4 of 30
        next thin -> none is thin
    """), ("claim", "reserve", "admit"))

    # A read that gives another slot than the one asked for takes its die out, and the page is read from the other one.
    for name, word in (("another_page", "done 0 other 10"), ("an_erased_slot", "done 0 erased"), ("a_damaged_slot", "done 0 bad"),
                       ("a_fault", "done 0 fault")):
        yield case(f"a_read_meets_{name}", THREE, MOUNTED + EIGHT + pairs(f"""
            admit 0 -> batch 0 rounds 1 least 1 place 0 0 1 short 0
            take 0 -> read page 0 seq 1 slot 0
            results 0 -> waiting
            {word} -> done
            die 0 -> die 0 out
            results 0 -> torn
            replan 0 -> rounds 1 least 1 place 0 1 1 short 0
            results 0 -> waiting
            take 1 -> header epoch 3 live 1 2
            done 1 ok -> done
        """) + read(1, 0, 1, 0, 10) + pairs("""
            end 0 -> pages 1 page 0 of 10
            counts -> commits 8 starts 2
        """), ("claim", "reserve", "admit", "replan"))

    # Both copies of page 5 fail. What was written is lost until the page is written again.
    yield case("both_copies_are_lost", shape(4), headers(2, 0, 1, 2, 3) + write(0, 1, 10, (0, 0), (1, 0)) + write(5, 2, 15, (1, 1), (3, 0))
               + pairs("""
        admit 5 -> batch 0 rounds 1 least 1 place 5 1 1 short 5
        take 1 -> read page 5 seq 2 slot 1
        done 1 fault -> done
        replan 0 -> rounds 1 least 1 place 5 3 1 short 5
        take 3 -> header epoch 3 live 0 2 3
        done 3 ok -> done
        take 3 -> read page 5 seq 2 slot 0
        done 3 fault -> done
        results 0 -> torn
        replan 0 -> refused: a page is lost 5
        end 0 -> pages 0
        admit 0 5 -> refused: a page is lost 5
        admit 0 -> batch 1 rounds 1 least 1 place 0 0 1 short 0
    """) + headers(4, 0, 2) + read(0, 0, 1, 0, 10) + [("end 1", "pages 1 page 0 of 10")]
               + write(5, 3, 25, (0, 1), (2, 0), new=(0, 2)) + pairs("""
        page 5 -> page 5 seq 3 at 0 1 at 2 0
        advance -> round 2
        admit 5 -> batch 2 rounds 1 least 1 place 5 0 2 short 5
    """) + read(0, 5, 3, 1, 25) + [("end 2", "pages 1 page 5 of 25")], ("claim", "reserve", "admit", "replan"))

    # The slot of a read is looked up as it is taken.
    yield case("a_page_is_written_before_its_read", THREE, MOUNTED + write(0, 1, 7, (0, 0), (1, 0)) + pairs("""
        admit 0 -> batch 0 rounds 1 least 1 place 0 0 1 short 0
        claim 0 -> claim 0
        reserve 0 8 -> seq 2
        take 1 -> program page 0 seq 2 slot 1 of 8
        done 1 ok -> done
        commit 0 -> refused: a program is pending
    """) + read(0, 0, 1, 0, 7) + pairs("""
        take 0 -> program page 0 seq 2 slot 1 of 8
        done 0 ok -> done
        commit 0 -> seq 2
        end 0 -> pages 1 page 0 of 7
        advance -> round 2
        admit 0 -> batch 1 rounds 1 least 1 place 0 0 2 short 0
        release 0 -> released
    """) + read(0, 0, 2, 1, 8) + pairs("""
        end 1 -> pages 1 page 0 of 8
        history -> entries 4 commit 0 1 start 0 1 commit 0 2 start 0 2
    """), ("claim", "reserve", "admit"))

    # A batch ends while its read is in flight.
    yield case("a_batch_ends_before_its_read", THREE, MOUNTED + write(0, 1, 7, (0, 0), (1, 0)) + pairs("""
        admit 0 -> batch 0 rounds 1 least 1 place 0 0 1 short 0
        take 0 -> read page 0 seq 1 slot 0
        end 0 -> pages 0
        advance -> refused: a job of this round is pending
        admit 0 -> batch 1 rounds 1 least 1 place 0 1 1 short 0
        done 0 data 7 -> done
        results 1 -> waiting
        take 0 -> no job
    """) + read(1, 0, 1, 0, 7) + pairs("""
        end 1 -> pages 1 page 0 of 7
        advance -> round 2
        counts -> commits 1 starts 2
    """), ("claim", "reserve", "admit"))


def windows():
    # A window beside two pages that die 0 alone holds: of the nine rounds from the first on one is open.
    alone = MOUNTED + EIGHT + out_by_sync(1, live=(0, 2))
    yield case("a_window_and_two_pages", THREE, alone + pairs("""
        window 0 0 -> stranger
        window 0 65 -> stranger
        window 3 8 -> stranger
        window 1 8 -> refused: the die takes no window
        window 0 8 -> round 2
        window 0 8 -> refused: the die has a window
        closed 0 11 -> closed 0 2 3 4 5 6 7 8 9
        admit 0 6 -> batch 0 rounds 10 least 10 place 0 0 1 place 6 0 10 short 0 6
    """) + read(0, 0, 1, 0, 10) + [("advance", f"round {now}") for now in range(2, 11)] + pairs("""
        closed 0 11 -> closed 0 10
    """) + read(0, 6, 7, 4, 16) + [("end 0", "pages 2 page 0 of 10 page 6 of 16")], ("claim", "reserve", "admit", "window"))

    # A window beside bookings: it is the first run of as many open rounds behind the current one.
    yield case("a_window_beside_a_booking", THREE, alone + pairs("""
        admit 0 6 -> batch 0 rounds 2 least 2 place 0 0 1 place 6 0 2 short 0 6
        window 0 64 -> round 3
        window 2 1 -> round 2
        closed 2 4 -> closed 2 2
    """), ("claim", "reserve", "admit", "window"))

    # A window ends at round 65 where round 67 is booked: of the first 65 rounds one is open, and behind them 66 and 68 are.
    ended = [(f"end {batch}", "pages 0") for batch in range(66)]
    closed = " ".join(map(str, [*range(2, 66), 67]))
    yield case("a_window_up_to_a_booking", THREE, alone + admitted(67) + ended + pairs(f"""
        window 0 64 -> round 2
        closed 0 69 -> closed 0 {closed}
        admit 0 4 6 -> batch 67 rounds 68 least 68 place 0 0 1 place 4 0 66 place 6 0 68 short 0 4 6
    """), ("claim", "reserve", "admit"))

    # A window is closed until its last round has passed, and then the die takes another one.
    yield case("a_window_passes", THREE, alone + [*admitted(1), ("window 0 2", "round 2"), ("closed 0 4", "closed 0 1 2 3")]
               + read(0, 0, 1, 0, 10) + pairs("""
        advance -> round 2
        closed 0 4 -> closed 0 2 3
        window 0 1 -> refused: the die has a window
        advance -> round 3
        closed 0 4 -> closed 0 3
        window 0 1 -> refused: the die has a window
        advance -> round 4
        closed 0 4 -> closed 0
        window 0 1 -> round 5
        closed 0 4 -> closed 0 5
    """), ("claim", "reserve", "admit"))

    small, filled = shape(2, blocks=4, slots=4, pages=8), filled_dies()
    yield case("two_blocks_are_collected", small, filled + pairs("""
        die 0 -> die 0 live room 0 victim 1 wants a window
        die 1 -> die 1 live room 0 victim 1 wants a window
        claim 5 -> claim 5
        reserve 5 15 -> refused: too few dies have room
        reserve hole 5 -> refused: too few dies have room
        reserve fewer 5 15 -> refused: too few dies have room
        take 0 -> no job
        window 0 8 -> round 2
        take 0 -> no job
        advance -> round 2
        take 0 -> erase 1
        die 0 -> die 0 live room 0 victim 1 wants a window erases
        advance -> refused: a job of this round is pending
        done 0 ok -> done
        die 0 -> die 0 live room 4 victim 0
        take 0 -> no job
        reserve 5 15 -> refused: too few dies have room
        reserve fewer 5 15 -> seq 13
        take 1 -> no job
        take 0 -> program page 5 seq 13 slot 4 of 15
        done 0 ok -> done
        abandon 5 -> refused: a copy was programmed
        commit 5 -> seq 13
        page 5 -> page 5 seq 13 at 0 4
        next thin -> none is thin
        advance -> round 3
        die 0 -> die 0 live room 3 victim 0 wants a window
        take 0 -> move page 0 seq 1 from 0 to 5
        die 0 -> die 0 live room 2 victim 0 wants a window moves
        advance -> refused: a job of this round is pending
        done 0 ok -> done
        page 0 -> page 0 seq 1 at 0 5 at 1 0
        advance -> round 4
        take 0 -> erase 0
        done 0 ok -> done
        die 0 -> die 0 live room 6
        advance -> round 5
        take 0 -> no job
        window 1 1 -> round 6
        advance -> round 6
        take 1 -> erase 1
        done 1 ok -> done
        next thin -> page 5 to 1
        release 5 -> released
        claim 5 -> claim 5
        reserve 5 16 -> seq 14
    """), ("claim", "reserve", "window"))

    # The same with no write between the collector's steps: the move goes to slot 4, and the rooms are 0, 4, 3 and 7.
    yield case("the_room_of_a_die", small, filled + pairs("""
        window 0 8 -> round 2
        advance -> round 2
        die 0 -> die 0 live room 0 victim 1 wants a window
        take 0 -> erase 1
        done 0 ok -> done
        die 0 -> die 0 live room 4 victim 0
        advance -> round 3
        take 0 -> move page 0 seq 1 from 0 to 4
        done 0 ok -> done
        die 0 -> die 0 live room 3 victim 0 wants a window
        page 0 -> page 0 seq 1 at 0 4 at 1 0
        advance -> round 4
        take 0 -> erase 0
        done 0 ok -> done
        die 0 -> die 0 live room 7
    """), ("claim", "reserve", "window"))

    # A move's copy of a page that was written meanwhile is stale. A move that meets another slot takes the die out.
    yield case("a_move_that_is_late", small, filled + pairs("""
        window 0 8 -> round 2
        window 1 8 -> round 2
        advance -> round 2
        take 0 -> erase 1
        take 1 -> erase 1
        done 0 ok -> done
        done 1 ok -> done
        claim 0 -> claim 0
        reserve 0 30 -> seq 13
        take 0 -> program page 0 seq 13 slot 4 of 30
        take 1 -> program page 0 seq 13 slot 4 of 30
        done 0 ok -> done
        done 1 ok -> done
        advance -> round 3
        take 0 -> move page 0 seq 1 from 0 to 5
        take 1 -> move page 0 seq 1 from 0 to 5
        commit 0 -> seq 13
        done 0 ok -> done
        page 0 -> page 0 seq 13 at 0 4 at 1 4
        done 1 wrong -> done
        page 0 -> page 0 seq 13 at 0 4
        die 1 -> die 1 out
        take 0 -> header epoch 3 live 0
        done 0 ok -> done
        advance -> round 4
        take 0 -> erase 0
        done 0 ok -> done
    """), ("claim", "reserve", "window"))


def copies():
    # Die 1 is out: six pages are thin, and six copies leave none.
    steps = MOUNTED + EIGHT + out_by_sync(1, live=(0, 2))
    for page, die, slot in ((0, 2, 5), (1, 0, 5), (4, 2, 6), (5, 0, 6), (6, 2, 7), (7, 0, 7)):
        steps = steps + [("next thin", f"page {page} to {die}"), (f"copy {page} {page + 1} {10 + page}", "reserved"),
                         *programs(page, page + 1, 10 + page, ((die, slot),), new=(die,)), ("commit copy", "current")]
    yield case("six_thin_pages", THREE, steps + pairs("""
        next thin -> none is thin
        page 0 -> page 0 seq 1 at 0 0 at 2 5
        page 7 -> page 7 seq 8 at 0 7 at 2 4
        counts -> commits 8 starts 0
        copy 0 1 10 -> refused: the page wants no such copy
    """), ("claim", "reserve"))

    thin = MOUNTED + EIGHT + out_by_sync(1, live=(0, 2))
    yield case("copies_that_are_refused", THREE, MOUNTED + EIGHT + pairs("""
        copy 0 1 10 -> refused: the page wants no such copy
        copy 9 0 10 -> refused: the page wants no such copy
        copy 64 1 10 -> stranger
        commit copy -> stranger
    """) + thin[len(MOUNTED + EIGHT):] + pairs("""
        copy 0 2 10 -> refused: the page wants no such copy
        copy 2 3 12 -> refused: the page wants no such copy
        copy 0 1 10 -> reserved
        array -> round 1 epoch 3 busy copying
        copy 1 2 11 -> refused: a copy is under way
        copy 1 3 11 -> refused: the page wants no such copy
        commit copy -> refused: the copy is pending
        take 2 -> program page 0 seq 1 slot 5 of 10 lasting
        commit copy -> refused: the copy is pending
        done 2 ok -> done
        next thin -> page 0 to 2
        commit copy -> current
        commit copy -> stranger
        array -> round 1 epoch 3 idle no copy
    """), ("claim", "reserve"))

    # The page is written while its copy is under way.
    yield case("a_copy_that_is_late", THREE, thin + pairs("""
        copy 0 1 10 -> reserved
    """) + programs(0, 1, 10, ((2, 5),), new=(2,)) + write(0, 9, 30, (0, 5), (2, 6), new=(2,)) + pairs("""
        commit copy -> late
        page 0 -> page 0 seq 9 at 0 5 at 2 6
        commit copy -> stranger
    """), ("claim", "reserve"))

    # The die of a copy goes out.
    yield case("a_copy_that_fails", THREE, thin + pairs("""
        copy 0 1 10 -> reserved
        take 2 -> program page 0 seq 1 slot 5 of 10 lasting
        done 2 fault -> done
        commit copy -> refused: the copy failed
        commit copy -> stranger
        page 0 -> page 0 seq 1 at 0 0
        next thin -> none is thin
    """), ("claim", "reserve"))

    # A spare comes in where a die went out, and takes a copy.
    yield case("a_spare_comes_in", shape(4, spares=1), MOUNTED + write(0, 1, 10, (0, 0), (1, 0)) + pairs("""
        die 3 -> die 3 out
        spare in 0 -> refused: the die is no spare
        spare in 4 -> stranger
        take 3 -> no job
    """) + out_by_sync(1, live=(0, 2)) + pairs("""
        spare in 1 -> refused: the die is no spare
        next thin -> page 0 to 2
        spare in 3 -> in
        spare in 3 -> refused: the die is no spare
        array -> round 1 epoch 4 idle no copy
        next thin -> page 0 to 3
    """) + headers(4, 0, 2, 3) + pairs("""
        copy 0 1 10 -> reserved
    """) + programs(0, 1, 10, ((3, 0),), new=(3,)) + pairs("""
        commit copy -> current
        page 0 -> page 0 seq 1 at 0 0 at 3 0
    """), ("claim", "reserve", "copy"))


def flushes():
    yield case("a_flush", THREE, MOUNTED + pairs("""
        flush begin -> flush 1
        flush state 1 -> waiting
        take 0 -> sync
        take 1 -> sync
        done 0 ok -> done
        done 1 ok -> done
        flush state 1 -> waiting
        take 0 -> no job
        take 2 -> sync
        flush state 1 -> waiting
        done 2 ok -> done
        flush state 1 -> synced
        take 2 -> no job
        flush state 1 -> synced
    """))

    # A sync that was taken before a flush began is none for it.
    yield case("a_sync_before_a_flush", shape(2), headers(2, 0, 1) + pairs("""
        flush begin -> flush 1
        take 0 -> sync
        take 1 -> sync
        flush begin -> flush 2
        done 0 ok -> done
        done 1 ok -> done
        flush state 1 -> synced
        flush state 2 -> waiting
        take 0 -> sync
        take 1 -> sync
        done 0 ok -> done
        flush state 2 -> waiting
        done 1 ok -> done
        flush state 2 -> synced
    """))

    # A program that waits comes before the sync. A die that goes out is waited for no more.
    yield case("a_flush_beside_a_write", THREE, MOUNTED + pairs("""
        claim 0 -> claim 0
        reserve 0 7 -> seq 1
        flush begin -> flush 1
        take 0 -> program page 0 seq 1 slot 0 of 7
        take 1 -> program page 0 seq 1 slot 0 of 7
        take 2 -> sync
        done 0 ok -> done
        done 1 ok -> done
        done 2 ok -> done
        take 0 -> sync
        done 0 ok -> done
        flush state 1 -> waiting
        take 1 -> sync
        done 1 fault -> done
        flush state 1 -> synced
        commit 0 -> seq 1
        page 0 -> page 0 seq 1 at 0 0
    """), ("claim", "reserve"))

    # Of the dies that were live as the flush began none is left, and the spare is none of them.
    yield case("a_flush_of_no_die", shape(3, spares=1), headers(2, 0, 1) + pairs("""
        flush begin -> flush 1
        take 0 -> sync
        take 1 -> sync
        done 0 ok -> done
        done 0 ok -> stranger
        done 1 fault -> done
        flush state 1 -> synced
        take 0 -> header epoch 3 live 0
        done 0 fault -> done
        flush state 1 -> no die
        flush begin -> flush 2
        flush state 2 -> no die
        spare in 2 -> in
        flush state 1 -> no die
        flush state 2 -> no die
        flush begin -> flush 3
        take 2 -> header epoch 5 live 2
        done 2 ok -> done
        take 2 -> sync
        done 2 ok -> done
        flush state 3 -> synced
        flush state 2 -> no die
    """))


def holes():
    hole = "reserve hole"
    yield case("a_hole", THREE, MOUNTED + write(0, 1, 0, (0, 0), (1, 0), word=hole) + pairs("""
        page 0 -> page 0 seq 1 hole at 0 0 at 1 0
        admit 0 9 -> batch 0 rounds 0 least 0
        results 0 -> ready
        end 0 -> pages 2 page 0 of 0 page 9 of 0
        counts -> commits 1 starts 0
    """) + write(0, 2, 7, (0, 1), (1, 1)) + pairs("""
        page 0 -> page 0 seq 2 at 0 1 at 1 1
        admit 0 -> batch 1 rounds 1 least 1 place 0 0 1 short 0
    """), ("claim", "hole", "admit"))

    # A page that becomes a hole behind its admission is read.
    yield case("a_page_becomes_a_hole", THREE, MOUNTED + write(0, 1, 7, (0, 0), (1, 0)) + pairs("""
        claim 0 -> claim 0
        reserve hole 0 -> seq 2
    """) + programs(0, 2, 0, ((0, 1), (1, 1)), hole=True) + pairs("""
        admit 0 -> batch 0 rounds 1 least 1 place 0 0 1 short 0
        commit 0 -> seq 2
        results 0 -> waiting
        take 0 -> read page 0 seq 2 hole slot 1
        done 0 data 0 -> done
        end 0 -> pages 1 page 0 of 0
        history -> entries 3 commit 0 1 commit 0 2 start 0 2
    """), ("claim", "reserve", "admit"))

    # A hole that no die holds is lost. One more hole repairs it.
    yield case("a_hole_that_is_lost", THREE, MOUNTED + write(0, 1, 0, (0, 0), (1, 0), word=hole) + out_by_sync(0, live=(1, 2)) + pairs("""
        next thin -> page 0 to 2
        admit 0 -> batch 0 rounds 0 least 0
        take 1 -> sync
        done 1 fault -> done
        admit 0 -> refused: a page is lost 0
        next thin -> none is thin
        end 0 -> pages 1 page 0 of 0
    """) + headers(4, 2) + write(0, 2, 0, (2, 0), word=hole, new=(2,)) + pairs("""
        page 0 -> page 0 seq 2 hole at 2 0
        admit 0 -> batch 1 rounds 0 least 0
    """), ("claim", "hole", "admit"))

    # One more copy of a hole is a hole, whatever is lent.
    yield case("a_copy_of_a_hole", THREE, MOUNTED + write(0, 1, 0, (0, 0), (1, 0), word=hole) + out_by_sync(1, live=(0, 2)) + pairs("""
        copy 0 1 99 -> reserved
    """) + programs(0, 1, 0, ((2, 0),), hole=True, new=(2,)) + pairs("""
        commit copy -> current
        page 0 -> page 0 seq 1 hole at 0 0 at 2 0
    """), ("claim", "hole", "copy"))

    # A move keeps the kind of a page.
    steps = headers(2, 0, 1) + write(0, 1, 0, (0, 0), (1, 0), word=hole)
    for slot in range(1, 9):
        steps = steps + write(1, slot + 1, 20 + slot, (1, slot), (0, slot))
    yield case("a_hole_is_moved", shape(2, blocks=4, slots=4, pages=8), steps + pairs("""
        die 0 -> die 0 live room 3 victim 1 wants a window
        window 0 8 -> round 2
        advance -> round 2
        take 0 -> erase 1
        done 0 ok -> done
        advance -> round 3
        take 0 -> move page 0 seq 1 hole from 0 to 4
        done 0 ok -> done
        page 0 -> page 0 seq 1 hole at 0 4 at 1 0
    """), ("claim", "hole", "window"))


def three_copies():
    three = shape(4, copies=3)
    mounted = headers(2, 0, 1, 2, 3)
    held = {0: ((0, 0), (1, 0), (2, 0)), 3: ((3, 0), (0, 1), (1, 1)), 5: ((1, 2), (3, 1), (0, 2)), 8: ((0, 3), (3, 2), (1, 3))}
    written = [step for seq, (page, places) in enumerate(held.items(), 1) for step in write(page, seq, 10 + page, *places)]
    seqs = {0: 1, 3: 2, 5: 3, 8: 4}
    yield case("three_homes", three, mounted + written + pages_at(held, seqs) + [("next thin", "none is thin")], ("claim", "reserve"))

    # Dies 1 and 3 go out. Page 5 is read from die 0, and written to dies 0 and 2.
    yield case("two_of_three_copies_are_lost", three, mounted + written + out_by_sync(1, 3, live=(0, 2)) + pairs("""
        page 0 -> page 0 seq 1 at 0 0 at 2 0
        page 3 -> page 3 seq 2 at 0 1
        page 5 -> page 5 seq 3 at 0 2
        next thin -> page 3 to 2
        admit 5 -> batch 0 rounds 1 least 1 place 5 0 1 short 5
    """) + read(0, 5, 3, 2, 15) + [("end 0", "pages 1 page 5 of 15")] + write(5, 5, 25, (0, 4), (2, 1), new=(2,)) + pairs("""
        page 5 -> page 5 seq 5 at 0 4 at 2 1
        copy 3 2 13 -> reserved
    """) + programs(3, 2, 13, ((2, 2),), new=(2,)) + pairs("""
        commit copy -> current
        next thin -> page 8 to 2
    """), ("claim", "reserve", "admit"))

    # With four dies of which one goes out, a page of two copies is thin, and one of three is not.
    yield case("a_third_copy", three, mounted + written + out_by_sync(2, live=(0, 1, 3)) + pairs("""
        next thin -> page 0 to 3
        copy 0 1 10 -> reserved
    """) + programs(0, 1, 10, ((3, 3),), new=(3,)) + pairs("""
        commit copy -> current
        page 0 -> page 0 seq 1 at 0 0 at 1 0 at 3 3
        next thin -> none is thin
    """), ("claim", "reserve"))


def limits():
    # The history has room for 65,536 entries: with the eight Commits, 21,842 rounds of three reads, and two reads more.
    steps = MOUNTED + EIGHT
    held = ((0, 0, 1, 0), (1, 1, 2, 1), (2, 2, 3, 1))
    for batch in range(21842):
        now = batch + 1
        places = " ".join(f"place {page} {page} {now}" for page in range(3))
        steps += [("admit 0 1 2", f"batch {batch} rounds 1 least 1 {places} short 0 1 2")]
        for die, page, seq, slot in held:
            steps += read(die, page, seq, slot, 10 + page)
        steps += [(f"end {batch}", "pages 3 page 0 of 10 page 1 of 11 page 2 of 12"), ("advance", f"round {now + 1}")]
    steps += write_until_commit(8, 9, 18, (2, 5), (0, 5)) + pairs("""
        admit 0 1 2 -> batch 21842 rounds 1 least 1 place 0 0 21843 place 1 1 21843 place 2 2 21843 short 0 1 2
    """) + read(0, 0, 1, 0, 10) + read(1, 1, 2, 1, 11) + pairs("""
        counts -> commits 8 starts 65528
        take 2 -> stranger
        commit 8 -> stranger
        fold -> folded
        counts -> commits 8 starts 65528
        commit 8 -> seq 9
        take 2 -> read page 2 seq 3 slot 1
        history -> entries 2 commit 8 9 start 2 3
    """)
    full = case("a_full_history", THREE, steps)
    full.steps, full.long = full.steps[:1], True
    yield full


def wrong_lines():
    first = THREE + "\n"
    for name, text, told in (
            ("no_array", "dies 3\n", "no line of a text: 1\n"),
            ("an_array_that_cannot_be", shape(3, spares=2) + "\n", "no line of a text: 1\n"),
            ("copies_that_cannot_be", shape(2, copies=3) + "\n", "no line of a text: 1\n"),
            ("an_unknown_word", first + "claim 0\nclaims 0\nclaim 1\n", "made\nclaim 0\nno line of a text: 3\n"),
            ("a_number_too_many", first + "claim 0 1\n", "made\nno line of a text: 2\n"),
            ("a_number_too_few", first + "reserve 0\n", "made\nno line of a text: 2\n"),
            ("no_event_over_nothing", "claims 0\n", "no line of a text: 1\n"),
            ("no_time", first + "time 0 advance\n", "made\nno line of a text: 2\n"),
            ("an_empty_line", first + "\n", "made\nno line of a text: 2\n")):
        yield Case(name, [Run((), told, 2, input=text)], program=PROGRAM)
    yield Case("no_line", [Run((), "")], program=PROGRAM)
    yield Case("two_arguments", [Run(("here", "there"), "usage: flasharr_lab [FOLDER]\n", 2)], program=PROGRAM)


def cases():
    return [*writes(), *reads(), *windows(), *copies(), *flushes(), *holes(), *three_copies(), *limits(), *wrong_lines()]
