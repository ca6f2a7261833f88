"""Clients of the store that an array is to one thread, each served in turn over the same array: four dies without a spare, 16 blocks of 8
slots, 64 pages of 512 bytes under the name `disk`. Between two clients images of dies are armed, and it is looked where copies are.

Each conversation with `talk` is held over such a store too, with two copies of a page and with three, and has the same answers. What is
wanted of the others is worked out by hand: the homes of the pages, the lowest erased slots, which dies go out.
"""
from cases import Case, Run, spelled
from cases.conversations import DISC, FLAGS, GO, GONE, GREETING, INPUT_ENDED, DISCONNECTED
from cases import conversations

PROGRAM = "flasharr_lab"
IMAGES = "images dies 4 spares 0 blocks 16 slots 8 bytes 512 pages 64"
# A client says no more digits in one line.
DIGITS = 2 ** 20


def served(said, answer):
    """A client over a store of its own: what it says and what is said to it, in hexadecimal, with how it ends."""
    digits, end = answer.split("\nend ")
    pieces = [said[at:at + DIGITS] for at in range(0, len(said), DIGITS)]
    return [*((f"say {piece}", "said") for piece in pieces), ("solo 1", "store"), ("serve", f"end {end.strip()} {digits}")]


def client(requests, replies, end=INPUT_ENDED):
    """A client behind its handshake."""
    said = spelled(f"{FLAGS} {GO} {requests}").hex()
    return served(said, f"{spelled(f'{GREETING} {GONE} {replies}').hex()}\nend {end}")


def look(line, wanted):
    return [(line, wanted)]


def arm(*dies, count=1):
    """The images of these dies fail at their count-th next call."""
    return [(f"arm {die} {count}", "armed") for die in dies]


def of_lines(name, lines, long=False):
    """Lines in turn, each with its answer."""
    wanted = "".join(f"{answer}\n" for _, answer in lines)
    return Case(name, [Run((), wanted, input=lambda _: "".join(f"{line}\n" for line, _ in lines))], long=long, program=PROGRAM)


def case(name, copies, *steps, long=False):
    """The same of new images that are mounted."""
    return of_lines(name, [(IMAGES, "made"), (f"mount {copies}", "mounted live 0 1 2 3"), *(line for step in steps for line in step)], long)


# Pages 0 and 5 are written.
TWO_PAGES = """25609513 0000 0001 0000000000000001 0000000000000000 00000200 aax512
               25609513 0000 0001 0000000000000002 0000000000000a00 00000200 bbx512"""
WRITTEN = "67446698 00000000 0000000000000001 67446698 00000000 0000000000000002"

FLUSH = "25609513 0000 0003 0000000000000003 0000000000000000 00000000"
READ_5 = "25609513 0000 0000 0000000000000004 0000000000000a00 00000200"
READ_0 = "25609513 0000 0000 0000000000000005 0000000000000000 00000200"
REWRITE_5 = "25609513 0000 0001 0000000000000006 0000000000000a00 00000200 ccx512"
REREAD_5 = "25609513 0000 0000 0000000000000007 0000000000000a00 00000200"


def reply(cookie, data=None):
    """An answer, which is an error where there are no data."""
    return f"67446698 {0 if data is not None else 5:08x} {cookie:016x} {data or ''}"


def rows():
    # Page 5 has the homes 1 and 3, and both go out where it is read. What page 0 has lost on die 1 it gets on die 2.
    yield case("both_dies_of_a_page_fail", 2,
               client(TWO_PAGES, WRITTEN), look("page 0", "page 0 seq 1 at 0 0 at 1 0"), look("page 5", "page 5 seq 2 at 1 1 at 3 0"), arm(1, 3),
               client(f"{READ_5} {READ_0} {REWRITE_5} {REREAD_5}",
                      f"{reply(4)} {reply(5, 'aax512')} {reply(6, '')} {reply(7, 'ccx512')}"),
               look("live", "live 0 2"), look("page 0", "page 0 seq 1 at 0 0 at 2 0"), look("page 5", "page 5 seq 3 at 0 1 at 2 1"))

    # With three copies page 5 is on die 0 too. A FLUSH takes the two dies out, and page 5 gets its second copy on die 2.
    yield case("two_of_three_dies_of_a_page_fail", 3,
               client(TWO_PAGES, WRITTEN), look("page 0", "page 0 seq 1 at 0 0 at 1 0 at 2 0"), look("page 5", "page 5 seq 2 at 0 1 at 1 1 at 3 0"),
               arm(1, 3), client(f"{FLUSH} {READ_5} {READ_0}", f"{reply(3, '')} {reply(4, 'bbx512')} {reply(5, 'aax512')}"),
               look("live", "live 0 2"), look("page 0", "page 0 seq 1 at 0 0 at 2 0"), look("page 5", "page 5 seq 2 at 0 1 at 2 1"),
               client(f"{REWRITE_5} {REREAD_5} {DISC}", f"{reply(6, '')} {reply(7, 'ccx512')}", DISCONNECTED),
               look("page 5", "page 5 seq 3 at 0 2 at 2 2"))

    # No die is left by a FLUSH. What was never written reads as zeros all the same.
    yield case("all_dies_fail", 2, client(TWO_PAGES, WRITTEN), arm(0, 1, 2, 3), client(
        f"""{FLUSH} {READ_5} {REWRITE_5}
                   25609513 0000 0000 0000000000000008 0000000000000400 00000200
                   25609513 0000 0006 0000000000000009 0000000000000400 00000200
                   25609513 0000 0004 000000000000000a 0000000000000400 00000200
                   25609513 0000 0003 000000000000000b 0000000000000000 00000000""",
        f"{reply(3)} {reply(4)} {reply(6)} {reply(8, '00x512')} {reply(9)} {reply(10)} {reply(11)}"), look("live", "live"))

    # Die 1 writes its header, and the first program of it fails, in a write of eight pages.
    yield case("a_program_fails_inside_of_a_write", 2,
               arm(1, count=2), client("25609513 0001 0001 0000000000000001 0000000000000000 00001000 ddx4096", reply(1, "")),
               look("live", "live 0 2 3"), client("25609513 0000 0000 0000000000000002 0000000000000000 00001000", reply(2, "ddx4096")),
               look("live", "live 0 2 3"))


    # The third call of a die is a sync behind its header and the program of its copy: a write with FUA makes it, and another one does not.
    for flags, live in ((0, "0 1 2 3"), (1, "0 2 3")):
        yield case(f"a_sync_fails_with_flags_{flags}", 2, arm(1, count=3),
                   client(f"25609513 {flags:04x} 0001 0000000000000001 0000000000000000 00000200 aax512", reply(1, "")),
                   look("live", f"live {live}"))


def over_stores(copies):
    """The conversations with `talk`, each over a store of its own."""
    for told in conversations.cases():
        [run] = told.steps
        yield case(f"{copies}_copies/{told.name}", copies, served(run.input(b""), run.output), long=told.long)


def last_number():
    """A page has the last sequence number but one, and one more write has the last. Behind it nothing is written and nothing changes, what is there
    is read, and a flush is done."""
    spent = "refused: a counter is at its end"
    calls = ["store fill 0 512 9", "store write 511 1111", "store zero 0 512", "store hole 512 512", "store trim fua 0 512"]
    last = 2 ** 62 - 1
    lines = [(IMAGES, "made"), *((f"put {die} 0 5 {last - 1} 7", "written") for die in (1, 3)), ("mount 2", "mounted live 0 1 2 3"),
             ("solo 1", "store"), ("store fill 0 512 8", "done"), *((call, spent) for call in calls), ("store read 511 3", "read 080000"),
             ("store read 2560 2", "read 0707"), ("store flush", "done"), ("page 0", f"page 0 seq {last} at 0 0 at 1 1"), ("live", "live 0 1 2 3"),
             *client(f"{REWRITE_5} {READ_5} {FLUSH}", f"{reply(6)} {reply(4, '07x512')} {reply(3, '')}")]
    yield of_lines("the_last_sequence_number", lines)


def windows():
    """A store whose windows would have no round, or more than 64, is not made, and the array is as before."""
    for rounds, told in ((0, "no window"), (1, "store"), (64, "store"), (65, "no window"), (2 ** 64 - 1, "no window")):
        yield case(f"windows_of_{rounds}_rounds", 2, [(f"solo {rounds}", told), ("close", "closed live 0 1 2 3")])


def cases():
    return [*rows(), *last_number(), *windows(), *over_stores(2), *over_stores(3)]
