"""Texts of events over images: the calls of each job are made, and a call is refused or a read gives wrong bytes where the text says so.
What is wanted is worked out by hand from docs/MACHINE.md, as in the texts of events without images.
"""
from cases import Case, Run
from cases.events import EIGHT, MOUNTED, PLACES, PROGRAM, case, filled_dies, headers, pages_at, pairs, programs, read, write
from cases.files import ARRAY
from images import header_bytes


def images(dies, spares=0, blocks=16, slots=8, pages=64, old=False):
    """The first line of a text over images."""
    return f"images{' old' if old else ''} dies {dies} spares {spares} blocks {blocks} slots {slots} bytes 512 pages {pages}"


def made(steps):
    """The same steps, where each job that ends well is run on its die's image."""
    told = []
    for line, answer in steps:
        words = line.split()
        if words[0] == "done":
            line, answer = f"run {words[1]}", " ".join(["done", *words[2:]])
        told.append((line, answer))
    return told


def fails(die, job, call, at=1):
    """A die takes a job, of which the image refuses a call."""
    return [(f"arm {die} {at}", "armed"), (f"take {die}", job), (f"run {die}", f"done fault {call}"), (f"die {die}", f"die {die} out")]


def slots(*held):
    """A look at slots: each a die, a slot, and what stands there."""
    return [(f"slot {die} {slot}", what) for die, slot, what in held]


def copies(places):
    """A look at the copies of pages of the first eight writes: what stands in their slots."""
    return slots(*((die, slot, f"page {page} seq {page + 1} of {10 + page}") for page, held in places.items() for die, slot in held))


def heads(epoch, live, *dies, clean=True):
    """A look at the headers of dies."""
    told = " ".join(str(die) for die in live)
    return [(f"header {die}", f"format 2 epoch {epoch} live {told} {'clean' if clean else 'not clean'}") for die in dies]


CLEAN = [("overwrites", "overwrites 0")]

# Three dies in use, of 16 blocks of 8 slots, with 64 pages, mounted with their headers written, and pages 0 to 7 on them.
THREE = images(3)
FRESH = [("mount 2", "mounted live 0 1 2")] + made(MOUNTED)
WRITTEN = FRESH + made(EIGHT)

# The eight pages as one batch: three rounds, since two rounds of three dies have six places.
EIGHT_PAGES = " ".join(f"page {page} of {10 + page}" for page in range(8))
ADMITTED = pairs("""
    admit 0 1 2 3 4 5 6 7 -> batch 0 rounds 3 least 3 place 0 0 1 place 1 1 1 place 2 2 1 place 3 0 2 \
        place 4 1 2 place 5 1 3 place 6 0 3 place 7 2 2 short 0 1 2 3 4 5 6 7
""")
FIRST_ROUND = made(read(0, 0, 1, 0, 10) + read(1, 1, 2, 1, 11) + read(2, 2, 3, 1, 12)) + [("advance", "round 2")]

# The second read of die 1 fails in round 2. Pages 4 and 6 are on die 0 alone then, of which rounds 2 and 3 have one open place.
TORN = WRITTEN + [("arm 1 2", "armed")] + ADMITTED + FIRST_ROUND + made(read(0, 3, 4, 2, 13) + read(2, 7, 8, 4, 17)) + pairs("""
    take 1 -> read page 4 seq 5 slot 2
    results 0 -> waiting
    run 1 -> done fault read
    die 1 -> die 1 out
    results 0 -> torn
    array -> round 2 epoch 3 busy no copy
    replan 0 -> rounds 3 least 3 place 4 0 3 place 5 2 3 place 6 0 4 short 4 5 6
    results 0 -> waiting
""")
HEALED = TORN + [("next thin", "page 0 to 2")] + made(headers(3, 0, 2)) + [("advance", "round 3")] + made(
    read(0, 4, 5, 3, 14) + read(2, 5, 6, 3, 15)) + [("advance", "round 4")] + made(read(0, 6, 7, 4, 16)) + pairs(f"""
    results 0 -> ready
    end 0 -> pages 8 {EIGHT_PAGES}
    counts -> commits 8 starts 9
""")

# Where die 1 goes out in round 1: a flush is begun, and its sync is refused.
ALONE = WRITTEN + [("flush begin", "flush 1")] + fails(1, "sync", "sync") + made(headers(3, 0, 2))


def dies_that_fail():
    yield case("a_die_fails_in_a_batch", THREE, HEALED + made(write(1, 9, 31, (2, 5), (0, 5), new=(0,))) + [("page 1", "page 1 seq 9 at 0 5 at 2 5")]
               + slots((2, 5, "page 1 seq 9 of 31"), (0, 5, "page 1 seq 9 of 31")) + CLEAN)

    # Die 1's header passes, and its program of page 0 is refused. The headers of the others come before the programs of page 2.
    yield case("a_program_fails", THREE, pairs("""
        mount 2 -> mounted live 0 1 2
        arm 1 2 -> armed
    """) + made(MOUNTED) + pairs("""
        claim 0 -> claim 0
        reserve 0 7 -> seq 1
        take 0 -> program page 0 seq 1 slot 0 of 7
        run 0 -> done ok
        take 1 -> program page 0 seq 1 slot 0 of 7
        run 1 -> done fault program
        claim 2 -> claim 2
        reserve 2 9 -> seq 2
        commit 0 -> seq 1
        page 0 -> page 0 seq 1 at 0 0
        die 1 -> die 1 out
        array -> round 1 epoch 3 busy no copy
        take 1 -> no job
        header 0 -> format 2 epoch 2 live 0 1 2 not clean
        take 0 -> header epoch 3 live 0 2
        run 0 -> done ok
        take 2 -> header epoch 3 live 0 2
        run 2 -> done ok
        header 0 -> format 2 epoch 3 live 0 2 not clean
        header 1 -> format 2 epoch 2 live 0 1 2 not clean
        header 2 -> format 2 epoch 3 live 0 2 not clean
    """) + made(programs(2, 2, 9, ((2, 0), (0, 1)))) + pairs("""
        commit 2 -> seq 2
        page 2 -> page 2 seq 2 at 0 1 at 2 0
    """) + slots((0, 0, "page 0 seq 1 of 7"), (1, 0, "erased")) + CLEAN)

    # Both programs are refused. What was reserved is given up, and the page goes to the die that is left.
    yield case("both_programs_fail", THREE, pairs("""
        mount 2 -> mounted live 0 1 2
        arm 0 2 -> armed
        arm 1 2 -> armed
    """) + made(MOUNTED) + pairs("""
        claim 0 -> claim 0
        reserve 0 7 -> seq 1
        take 0 -> program page 0 seq 1 slot 0 of 7
        take 1 -> program page 0 seq 1 slot 0 of 7
        run 0 -> done fault program
        run 1 -> done fault program
        commit 0 -> refused: no copy was programmed
        abandon 0 -> abandoned
        reserve 0 9 -> seq 2
        take 2 -> header epoch 4 live 2
        run 2 -> done ok
    """) + made(programs(0, 2, 9, ((2, 0),))) + pairs("""
        take 2 -> no job
        commit 0 -> seq 2
        release 0 -> released
        page 0 -> page 0 seq 2 at 2 0
    """) + slots((0, 0, "erased"), (1, 0, "erased"), (2, 0, "page 0 seq 2 of 9")) + CLEAN)

    # Each call of a job that is refused takes the die out, and nothing is written.
    yield case("a_header_fails", THREE, [("mount 2", "mounted live 0 1 2")] + fails(1, "header epoch 2 live 0 1 2", "header") + pairs("""
        header 1 -> format 2 epoch 1 live 0 1 2 clean
        array -> round 1 epoch 3 idle no copy
    """) + made(headers(3, 0, 2)) + heads(3, (0, 2), 0, 2, clean=False))

    yield case("a_sync_fails", THREE, ALONE + pairs("""
        flush state 1 -> waiting
        take 0 -> sync
        run 0 -> done ok
        take 2 -> sync
        run 2 -> done ok
        flush state 1 -> synced
        page 0 -> page 0 seq 1 at 0 0
    """) + CLEAN)


def reads():
    # Inverted bytes are no slot. The page is answered from its other die.
    yield case("a_read_of_wrong_bytes", THREE, WRITTEN + pairs("""
        lie 0 1 -> armed
        admit 0 -> batch 0 rounds 1 least 1 place 0 0 1 short 0
        take 0 -> read page 0 seq 1 slot 0
        run 0 -> done bad
        die 0 -> die 0 out
        results 0 -> torn
        replan 0 -> rounds 1 least 1 place 0 1 1 short 0
    """) + made(headers(3, 1, 2) + read(1, 0, 1, 0, 10)) + pairs("""
        end 0 -> pages 1 page 0 of 10
        page 0 -> page 0 seq 1 at 1 0
    """) + copies({0: PLACES[0]}) + CLEAN)

    # So it is where a good slot of another page stands, which was programmed over the one that is asked for.
    yield case("a_read_of_another_page", THREE, WRITTEN + pairs("""
        old slot 0 0 9 1 77 -> written
        admit 0 -> batch 0 rounds 1 least 1 place 0 0 1 short 0
        take 0 -> read page 0 seq 1 slot 0
        run 0 -> done other 77
        die 0 -> die 0 out
        replan 0 -> rounds 1 least 1 place 0 1 1 short 0
    """) + made(headers(3, 1, 2) + read(1, 0, 1, 0, 10)) + pairs("""
        end 0 -> pages 1 page 0 of 10
        overwrites -> overwrites 1
    """))

    # Pages 0 and 6 are on die 0 alone, as die 1 went out in the batch before.
    yield case("two_pages_of_one_die", THREE, HEALED + pairs("""
        closed 0 4 -> closed 0 4
        advance -> round 5
        closed 0 4 -> closed 0
        admit 0 6 -> batch 1 rounds 2 least 2 place 0 0 5 place 6 0 6 short 0 6
        closed 0 4 -> closed 0 5 6
        closed without 1 0 4 -> closed 0
        end 1 -> pages 0
        closed 0 4 -> closed 0
        admit 0 6 -> batch 2 rounds 2 least 2 place 0 0 5 place 6 0 6 short 0 6
    """) + made(read(0, 0, 1, 0, 10)) + [("advance", "round 6")] + made(read(0, 6, 7, 4, 16)) + pairs("""
        end 2 -> pages 2 page 0 of 10 page 6 of 16
    """) + CLEAN)

    # The same beside a window: of the nine rounds from the first on one is open.
    yield case("a_window_and_two_pages", THREE, ALONE + pairs("""
        window 0 8 -> round 2
        window 0 8 -> refused: the die has a window
        closed 0 11 -> closed 0 2 3 4 5 6 7 8 9
        admit 0 6 -> batch 0 rounds 10 least 10 place 0 0 1 place 6 0 10 short 0 6
    """) + made(read(0, 0, 1, 0, 10)) + [("advance", f"round {now}") for now in range(2, 11)] + made(read(0, 6, 7, 4, 16)) + pairs("""
        end 0 -> pages 2 page 0 of 10 page 6 of 16
    """))


def rebuilding():
    # The six thin pages are 0, 1, 4, 5, 6 and 7. Each is read from the die that is left to it, and its copy goes to the other.
    steps = HEALED + [("advance", "round 5")]
    new = {}
    thin = ((0, 0, 0, 5), (1, 2, 0, 5), (4, 0, 3, 6), (5, 2, 3, 6), (6, 0, 4, 7), (7, 2, 4, 7))
    for batch, (page, die, slot, onto) in enumerate(thin, 1):
        now, seq, byte, other = batch + 4, page + 1, 10 + page, 2 - die
        new[page] = ((other, onto),)
        steps = steps + [("next thin", f"page {page} to {other}"),
                         (f"admit {page}", f"batch {batch} rounds 1 least 1 place {page} {die} {now} short {page}"),
                         *made(read(die, page, seq, slot, byte)), (f"end {batch}", f"pages 1 page {page} of {byte}"),
                         (f"copy {page} {seq} {byte}", "reserved"), *made(programs(page, seq, byte, ((other, onto),), new=(other,))),
                         ("commit copy", "current"), ("advance", f"round {now + 1}")]
    yield case("six_thin_pages", THREE, steps + [("next thin", "none is thin")] + copies(new) + pairs("""
        page 0 -> page 0 seq 1 at 0 0 at 2 5
        page 7 -> page 7 seq 8 at 0 7 at 2 4
    """) + CLEAN)

    # The program of a copy is refused, and the sync behind it.
    copied, failed = ALONE + [("copy 0 1 10", "reserved")], pairs("""
        commit copy -> refused: the copy failed
        page 0 -> page 0 seq 1 at 0 0
    """)
    copy = "program page 0 seq 1 slot 5 of 10 lasting"
    yield case("a_copy_fails", THREE, copied + fails(2, copy, "program") + failed + slots((2, 5, "erased")))
    yield case("a_copy_that_is_not_synced", THREE, copied + fails(2, copy, "sync", at=2) + failed + slots((2, 5, "page 0 seq 1 of 10")))


def collecting():
    small, filled = images(2, blocks=4, slots=4, pages=8), [("mount 2", "mounted live 0 1")] + made(filled_dies())
    in_window = filled + pairs("""
        die 0 -> die 0 live room 0 victim 1 wants a window
        window 0 8 -> round 2
        advance -> round 2
    """)
    erased = in_window + pairs("""
        take 0 -> erase 1
        run 0 -> done ok
        die 0 -> die 0 live room 4 victim 0
        advance -> round 3
    """)
    yield case("the_room_of_a_die", small, in_window + slots((0, 4, "page 1 seq 5 of 24")) + erased[len(in_window):]
               + slots(*((0, slot, "erased") for slot in range(4, 8)), (0, 8, "page 1 seq 9 of 28")) + pairs("""
        take 0 -> move page 0 seq 1 from 0 to 4
        slot 0 4 -> erased
        run 0 -> done ok
        die 0 -> die 0 live room 3 victim 0 wants a window
        page 0 -> page 0 seq 1 at 0 4 at 1 0
        slot 0 4 -> page 0 seq 1 of 10
        slot 0 0 -> page 0 seq 1 of 10
        advance -> round 4
        take 0 -> erase 0
        run 0 -> done ok
        die 0 -> die 0 live room 7
    """) + slots(*((0, slot, "erased") for slot in range(4)), (0, 4, "page 0 seq 1 of 10")) + CLEAN)

    # A write finds no room until a block was erased on both dies.
    yield case("no_room_until_an_erase", small, filled + pairs("""
        claim 5 -> claim 5
        reserve 5 15 -> refused: too few dies have room
        window 0 1 -> round 2
        window 1 1 -> round 2
        advance -> round 2
        take 0 -> erase 1
        reserve 5 15 -> refused: too few dies have room
        run 0 -> done ok
        reserve 5 15 -> refused: too few dies have room
        take 1 -> erase 1
        run 1 -> done ok
        reserve 5 15 -> seq 13
    """) + made(programs(5, 13, 15, ((1, 4), (0, 4)))) + pairs("""
        commit 5 -> seq 13
        page 5 -> page 5 seq 13 at 0 4 at 1 4
    """) + slots((0, 4, "page 5 seq 13 of 15"), (1, 4, "page 5 seq 13 of 15")) + CLEAN)

    # A move that reads wrong bytes programs nothing. So does one of which the image refuses the read or the program.
    move = "move page 0 seq 1 from 0 to 4"
    after = pairs("""
        page 0 -> page 0 seq 1 at 1 0
        array -> round 3 epoch 3 idle no copy
    """) + slots((0, 4, "erased")) + made(headers(3, 1))
    yield case("a_move_of_wrong_bytes", small, erased + pairs(f"""
        lie 0 1 -> armed
        take 0 -> {move}
        run 0 -> done wrong
        die 0 -> die 0 out
    """) + after)
    yield case("a_move_of_another_page", small, erased + pairs(f"""
        old slot 0 0 3 11 77 -> written
        take 0 -> {move}
        run 0 -> done wrong
        die 0 -> die 0 out
    """) + after)
    yield case("a_move_that_is_not_read", small, erased + fails(0, move, "read") + after + CLEAN)
    yield case("a_move_that_is_not_programmed", small, erased + fails(0, move, "program", at=2) + after + CLEAN)
    # An erase is behind a sync. Either of the two calls is refused.
    stale = slots((0, 4, "page 1 seq 5 of 24")) + made(headers(3, 1))
    yield case("an_erase_that_is_not_synced", small, in_window + fails(0, "erase 1", "sync") + stale)
    yield case("an_erase_fails", small, in_window + fails(0, "erase 1", "erase", at=2) + stale)


def three_copies():
    # The homes of pages 0, 3, 5 and 8 on four dies.
    four, fresh = images(4), [("mount 3", "mounted live 0 1 2 3")] + made(headers(2, 0, 1, 2, 3))
    held = {0: ((0, 0), (1, 0), (2, 0)), 3: ((3, 0), (0, 1), (1, 1)), 5: ((1, 2), (3, 1), (0, 2)), 8: ((0, 3), (3, 2), (1, 3))}
    seqs = {0: 1, 3: 2, 5: 3, 8: 4}
    written = [step for page, places in held.items() for step in write(page, seqs[page], 10 + page, *places)]
    stand = slots(*((die, slot, f"page {page} seq {seqs[page]} of {10 + page}") for page, places in held.items() for die, slot in places))
    yield case("three_homes", four, fresh + made(written) + pages_at(held, seqs) + stand + [("next thin", "none is thin")] + CLEAN)

    # Die 3 refuses its program of page 5. Page 8 goes to die 2 in its place.
    yield case("a_die_fails_in_a_write", four, fresh + made(write(0, 1, 10, *held[0]) + write(3, 2, 13, *held[3])) + pairs("""
        claim 5 -> claim 5
        reserve 5 15 -> seq 3
    """) + made(programs(5, 3, 15, ((1, 2),))) + fails(3, "program page 5 seq 3 slot 1 of 15", "program") + made(
        headers(3, 0, 1, 2) + programs(5, 3, 15, ((0, 2),))) + pairs("""
        commit 5 -> seq 3
        release 5 -> released
        page 5 -> page 5 seq 3 at 0 2 at 1 2
        next thin -> page 3 to 2
    """) + made(write(8, 4, 18, (0, 3), (1, 3), (2, 1))) + pairs("""
        page 8 -> page 8 seq 4 at 0 3 at 1 3 at 2 1
    """) + CLEAN)


def older_format():
    old = images(3, old=True)
    slots_1 = [(f"old slot {die} {slot} {page} {page + 1} {10 + page}", "written") for page, held in PLACES.items() for die, slot in held]
    mounted = [("mount 2", "mounted live 0 1 2")]
    reads = made(read(0, 0, 1, 0, 10) + read(1, 1, 2, 1, 11) + read(2, 2, 3, 1, 12)) + [("advance", "round 2")] + made(
        read(0, 3, 4, 2, 13) + read(1, 4, 5, 2, 14) + read(2, 7, 8, 4, 17)) + [("advance", "round 3")] + made(
        read(0, 6, 7, 4, 16) + read(1, 5, 6, 3, 15)) + [("end 0", f"pages 8 {EIGHT_PAGES}")]
    content = pages_at(PLACES) + ADMITTED + reads
    yield case("an_old_array", old, slots_1 + mounted + [("header 1", "format 1 epoch 1 live 0 1 2 clean")] + made(headers(2, 0, 1, 2))
               + heads(2, (0, 1, 2), 0, 1, 2, clean=False) + content + [("close", "closed live 0 1 2")] + heads(2, (0, 1, 2), 0, 1, 2)
               + mounted + made(headers(3, 0, 1, 2)) + content + copies(PLACES) + made(write(0, 9, 30, (0, 5), (1, 6))) + CLEAN)

    # It is closed before any header was written by a job.
    yield case("an_old_array_closed_at_once", old, slots_1 + mounted + [("close", "closed live 0 1 2")] + heads(2, (0, 1, 2), 0, 1, 2)
               + mounted + pages_at(PLACES))


def closing():
    closed = [("close", "closed live 0 1 2")]
    yield case("closed_and_mounted", THREE, WRITTEN + closed + heads(2, (0, 1, 2), 0, 1, 2) + [("mount 2", "mounted live 0 1 2")]
               + pages_at(PLACES) + [("array", "round 1 epoch 3 idle no copy")] + CLEAN)

    # Each call of each die is refused in turn: its sync, its header, and its sync behind it. The others are closed in the next epoch.
    for die in range(3):
        rest = tuple(other for other in range(3) if other != die)
        told = " ".join(str(other) for other in rest)
        left = {page: [at for at in held if at[0] != die] for page, held in PLACES.items()}
        for call in (1, 2, 3):
            yield case(f"die_{die}_refuses_call_{call}_of_closing", THREE, WRITTEN + [(f"arm {die} {call}", "armed")]
                       + [("close", f"closed live {told}")] + heads(3, rest, *rest) + heads(2, (0, 1, 2), die, clean=call == 3)
                       + [("mount 2", f"mounted live {told}")] + pages_at(left) + [("array", "round 1 epoch 4 idle no copy")])
        # The fourth call is none of closing.
        yield case(f"die_{die}_refuses_no_call_of_closing", THREE, WRITTEN + [(f"arm {die} 4", "armed")] + closed
                   + [(f"header {die}", "refused: the header could not be read")] + heads(2, (0, 1, 2), 0, 1, 2))

    # Two dies refuse, one after the other: die 0 its header, and die 1 its fourth call, which is the sync behind its header of the next
    # epoch. Page 2 alone was written, which die 2 has.
    yield case("two_dies_refuse_to_close", THREE, FRESH + made(write(2, 1, 7, (2, 0), (0, 0))) + pairs("""
        arm 0 2 -> armed
        arm 1 4 -> armed
        close -> closed live 2
        header 0 -> format 2 epoch 2 live 0 1 2 not clean
        header 1 -> format 2 epoch 3 live 1 2 clean
        header 2 -> format 2 epoch 4 live 2 clean
        mount 2 -> mounted live 2
        page 2 -> page 2 seq 1 at 2 0
    """))

    # A die refuses, of which no other has some page. The mark that stands is taken back.
    yield case("a_page_is_lost_while_closing", THREE, ALONE + pairs("""
        arm 2 3 -> armed
        take 0 -> sync
        run 0 -> done ok
        close -> refused: a page is lost 1
        header 0 -> format 2 epoch 4 live 0 not clean
        header 2 -> format 2 epoch 3 live 0 2 clean
        mount 2 -> refused: unclean
        page 0 -> no array
    """))

    # Pages 0, 4 and 6 are lost. No call of an image is made: the next one is the first since it was armed.
    yield case("a_lost_page_is_not_closed", THREE, WRITTEN + [("flush begin", "flush 1")] + fails(0, "sync", "sync") + fails(
        1, "header epoch 3 live 1 2", "header") + made(headers(4, 2)) + pairs("""
        arm 2 1 -> armed
        close -> refused: a page is lost 0
        header 2 -> refused: the header could not be read
        header 2 -> format 2 epoch 4 live 2 not clean
    """))

    # No page was written, and no die is live.
    out = [step for die, live in enumerate(("0 1 2", "1 2", "2")) for step in fails(die, f"header epoch {die + 2} live {live}", "header")]
    yield case("no_die_is_closed", THREE, [("mount 2", "mounted live 0 1 2")] + out + [("close", "refused: no die live")]
               + [(f"header {die}", "format 2 epoch 1 live 0 1 2 clean") for die in range(3)])

    # The last die refuses to be closed.
    yield case("the_last_die_refuses_to_close", THREE, [("mount 2", "mounted live 0 1 2")] + out[:8] + pairs("""
        arm 2 1 -> armed
        close -> refused: no die live
        header 2 -> format 2 epoch 1 live 0 1 2 clean
    """))

    # A job, a claim, a batch and a copy are each something that is open. No call of an image is made.
    busy = pairs("""
        arm 0 1 -> armed
        arm 2 1 -> armed
        close -> refused: busy
        header 0 -> refused: the header could not be read
        header 2 -> refused: the header could not be read
    """)
    yield case("a_busy_array_is_not_closed", THREE, ALONE + [("take 0", "sync")] + busy + pairs("""
        run 0 -> done ok
        take 2 -> sync
        run 2 -> done ok
        claim 9 -> claim 9
    """) + busy + pairs("""
        release 9 -> released
        admit 0 -> batch 0 rounds 1 least 1 place 0 0 1 short 0
    """) + busy + pairs("""
        end 0 -> pages 0
        copy 0 1 10 -> reserved
    """) + busy + made(programs(0, 1, 10, ((2, 5),), new=(2,))) + busy + pairs("""
        commit copy -> current
    """) + heads(3, (0, 2), 0, 2, clean=False) + [("close", "closed live 0 2")] + heads(3, (0, 2), 0, 2))


def mounting():
    # What was not closed is mounted as an unclean array alone, with all copies that were programmed.
    yield case("an_array_that_was_not_closed", THREE, WRITTEN + pairs("""
        mount 2 -> refused: unclean
        take 0 -> no array
        run 0 -> no array
        close -> no array
        mount unclean 2 -> mounted live 0 1 2
    """) + pages_at(PLACES))

    # A spare comes in, its header is written, and a copy is programmed on it.
    yield case("a_spare_comes_in", images(4, spares=1), FRESH + made(write(0, 1, 10, (0, 0), (1, 0))) + [("flush begin", "flush 1")]
               + fails(1, "sync", "sync") + [("spare in 3", "in")] + made(headers(4, 0, 2, 3)) + pairs("""
        next thin -> page 0 to 3
        copy 0 1 10 -> reserved
    """) + made(programs(0, 1, 10, ((3, 0),), new=(3,))) + pairs("""
        commit copy -> current
        page 0 -> page 0 seq 1 at 0 0 at 3 0
    """) + slots((3, 0, "page 0 seq 1 of 10")) + CLEAN)

    # The image at place 2 has the header of die 1.
    header = header_bytes(1, (3, 0, 16, 8, 64), ARRAY, mask=7).hex()
    yield case("two_images_of_a_die", THREE, [(f"write header 2 {header}", "written")] + pairs("""
        mount 2 -> refused: die twice 2
        mount unclean 2 -> refused: die twice 2
        scan 2 -> refused: die twice 2
        drop 2 -> dropped
        mount unclean 2 -> mounted live 0 1
    """))

    yield case("images_that_are_not_there", THREE, pairs("""
        mount 4 -> refused: copies outside their limits
        arm 3 1 -> no die
        lie 3 1 -> no die
        header 3 -> no die
        slot 3 0 -> no die
        slot 0 128 -> no slot
        slot 0 127 -> erased
        old slot 3 0 0 1 7 -> not written
        old slot 0 128 0 1 7 -> not written
        old slot 0 0 0 0 7 -> not written
        arm 1 1 -> armed
        mount 2 -> refused: image fault 1
        mount 2 -> mounted live 0 1 2
        run 0 -> no job
        run 3 -> no job
    """))


def images_alone():
    """What images count and tell while no array is mounted."""
    # A program that meets a slot which is not erased is counted, and no sync forgets it.
    yield case("programs_over_others_are_counted", THREE, FRESH + pairs("""
        put 0 8 0 1 8 -> written
        put 0 15 0 1 15 -> written
        put 0 16 0 1 16 -> written
        overwrites -> overwrites 0
        put 0 8 0 1 9 -> written
        overwrites -> overwrites 1
        flush begin -> flush 1
        take 0 -> sync
        run 0 -> done ok
        take 1 -> sync
        run 1 -> done ok
        take 2 -> sync
        run 2 -> done ok
        flush state 1 -> synced
        overwrites -> overwrites 1
        put 1 8 0 1 8 -> written
        overwrites -> overwrites 1
        slot 0 8 -> page 0 seq 1 of 9
        slot 0 15 -> page 0 seq 1 of 15
        slot 0 127 -> erased
    """))

    # Of the reads the second alone gives wrong bytes, and no other call does.
    yield case("one_read_lies", THREE, pairs("""
        put 0 16 0 1 90 -> written
        slot 0 16 -> page 0 seq 1 of 90
        lie 0 2 -> armed
        header 0 -> format 2 epoch 1 live 0 1 2 clean
        slot 0 16 -> page 0 seq 1 of 90
        faults -> faults 0 0 0 0 0 0 0 0 0
        slot 0 16 -> bad
        faults -> faults 0 0 1 0 0 0 0 0 0
        slot 0 16 -> page 0 seq 1 of 90
        slot 0 9 -> erased
        lie 0 1 -> armed
        slot 0 9 -> bad
        slot 0 9 -> erased
        faults -> faults 0 0 1 0 0 0 0 0 0
    """))

    # A sync is one call, as the second fuse counts them: the third call of the image is refused, and no call before it.
    yield case("a_sync_is_one_call", THREE, FRESH + pairs("""
        rig 0 3 0 -> armed
        flush begin -> flush 1
        take 0 -> sync
        run 0 -> done ok
        header 0 -> format 2 epoch 2 live 0 1 2 not clean
        header 0 -> refused: the header could not be read
        faults -> faults 1 1 0 0 0 0 0 0 0
    """))

    # The call that a fuse is armed for is refused, and no other; a second one behind it counts the calls that come through.
    yield case("a_fuse_blows_once", THREE, pairs("""
        put 0 16 0 1 90 -> written
        arm 0 1 -> armed
        put 0 9 0 1 8 -> not written
        slot 0 9 -> erased
        arm 0 3 -> armed
        slot 0 16 -> page 0 seq 1 of 90
        header 0 -> format 2 epoch 1 live 0 1 2 clean
        slot 0 16 -> refused: a slot could not be read
        slot 0 16 -> page 0 seq 1 of 90
        rig 0 3 0 -> armed
        slot 0 16 -> page 0 seq 1 of 90
        header 0 -> format 2 epoch 1 live 0 1 2 clean
        faults -> faults 0 0 0 0 0 0 0 0 0
        header 0 -> refused: the header could not be read
        faults -> faults 1 1 0 0 0 0 0 0 0
        arm 0 1 -> armed
        header 0 -> refused: the header could not be read
        faults -> faults 2 1 0 0 0 0 0 0 0
        arm 0 0 -> armed
        header 0 -> format 2 epoch 1 live 0 1 2 clean
    """))


def wrong_lines():
    fresh = THREE + "\nmount 2\n"
    for name, text, told in (
            ("images_that_cannot_be", images(3, spares=2) + "\n", "no line of a text: 1\n"),
            ("a_number_of_images_too_few", THREE.rpartition(" ")[0] + "\n", "no line of a text: 1\n"),
            ("an_unknown_word", fresh + "mounts 2\n", "made\nmounted live 0 1 2\nno line of a text: 3\n")):
        yield Case(name, [Run((), told, 2, input=text)], program=PROGRAM)
    alone = "dies 3 spares 0 blocks 16 slots 8 bytes 512 pages 64 copies 2 epoch 2 last 0\n"
    for line, told in (("run 0", "no job"), ("make 0", "no job"), ("arm 0 1", "no die"), ("lie 0 1", "no die"), ("close", "refused: busy"),
                       ("mount 2", "no die"), ("mount unclean 2", "no die"), ("header 0", "no die"), ("slot 0 0", "no die"),
                       ("overwrites", "overwrites 0"), ("old slot 0 0 0 1 7", "not written"), ("solo 1", "no image")):
        name = f"no_images/{'_'.join(line.split())}"
        yield Case(name, [Run((), f"made\n{told}\n", input=alone + line + "\n")], program=PROGRAM)


def cases():
    return [*dies_that_fail(), *reads(), *rebuilding(), *collecting(), *three_copies(), *older_format(), *closing(), *mounting(), *images_alone(),
            *wrong_lines()]
