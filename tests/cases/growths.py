"""A session over the store of one thread, each of whose requests for memory is refused in turn, and no other; and one of which all are refused
that are of more than a number of bytes. In the negotiation the session ends for want of memory, behind a beginning of what it says otherwise;
behind that a request is told that there is no memory, and the session goes on.
"""
import struct

from cases import Case, Talk, spelled
from cases.conversations import CONVERSATIONS, DISCONNECTED, FLAGS, GO, GONE, GREETING, INPUT_ENDED
from cases.stores import IMAGES, PROGRAM
from lab import Lab

# A client that writes a page, reads it and the next, and disconnects.
PAGE = ("a_page_and_the_next", [FLAGS, GO, """
    25609513 0001 0001 0000000000000001 0000000000000200 00000200 11x512
    25609513 0000 0000 0000000000000002 0000000000000200 00000400
    25609513 0000 0002 0000000000000003 0000000000000000 00000000"""],
    [GREETING, GONE, """
    67446698 00000000 0000000000000001
    67446698 00000000 0000000000000002 11x512 00x512"""], DISCONNECTED)
# What it is told where there is no memory for the WRITE, for the READ, and for either.
PAGE_REFUSED = ["67446698 0000000c 0000000000000001 67446698 00000000 0000000000000002 00x1024",
                "67446698 00000000 0000000000000001 67446698 0000000c 0000000000000002",
                "67446698 0000000c 0000000000000001 67446698 0000000c 0000000000000002"]

# A client of a disk of 320 KiB, whose WRITE gets memory three times as its data comes. It reads the last byte of it and the next.
LARGE = "images dies 2 spares 0 blocks 8 slots 16 bytes 4096 pages 80"
LONG = ("a_long_write", [FLAGS, GO, """
    25609513 0000 0001 0000000000000001 0000000000000000 000493e0 11x300000
    25609513 0000 0000 0000000000000002 00000000000493df 00000002"""],
    [GREETING, GONE.replace("0000000000008000", "0000000000050000"), """
    67446698 00000000 0000000000000001 67446698 00000000 0000000000000002 1100"""], INPUT_ENDED)
# Where there is no memory for the WRITE the rest of its data is dropped, and the READ finds what was there.
LONG_REFUSED = ["67446698 0000000c 0000000000000001 67446698 00000000 0000000000000002 0000"]

# The conversations, and how many requests for memory each makes.
GROWTHS = {
    "hello": 6, "read_at_the_end": 21, "write_past_the_end": 6, "unaligned_write": 50, "unknown_options": 8, "list_and_abort": 6,
    "export_name": 5, "info": 7, "a_page_and_the_next": 41,
}
# The last answer to a GO, behind which transmission begins.
BEGINS = spelled("0003e889045565a9 00000007 00000001 00000000")
NO_MEMORY_END, NO_MEMORY = 7, 12
READ, WRITE = 0, 1
REQUEST, REPLY = struct.Struct(">IHHQQI"), struct.Struct(">IIQ")


def requests_in(said):
    """The requests behind the negotiation: the kind of each and its length, by their cookies in their order."""
    go = spelled(GO)
    if go not in said:
        return {}
    at, found = said.index(go) + len(go), {}
    while at < len(said):
        _, _, kind, cookie, _, length = REQUEST.unpack_from(said, at)
        found[cookie] = kind, length
        at += REQUEST.size + (length if kind == WRITE else 0)
    return found


def replies_in(told, requests):
    """The replies behind the negotiation: for each its cookie, its error and its data."""
    found, at = [], 0
    while at < len(told):
        _, error, cookie = REPLY.unpack_from(told, at)
        at += REPLY.size
        length = requests[cookie][1] if requests[cookie][0] == READ and not error else 0
        found.append((cookie, error, told[at:at + length]))
        at += length
    return found


def wrong_replies(told, whole, requests):
    """What is wrong with replies, where one request was refused for want of memory. Behind a WRITE that was refused a page may be as before."""
    ours, theirs = replies_in(told, requests), replies_in(whole, requests)
    if [reply[0] for reply in ours] != [reply[0] for reply in theirs]:
        return "other requests are answered"
    refused = [cookie for (cookie, error, _), (_, due, _) in zip(ours, theirs) if error != due]
    if any(error != NO_MEMORY for cookie, error, _ in ours if cookie in refused) or len(refused) > 1:
        return "a request is refused that had memory, or for another cause"
    may_lack = any(requests[cookie][0] == WRITE for cookie in refused)
    for (cookie, _, data), (_, _, due) in zip(ours, theirs):
        if cookie not in refused and any(byte != wanted and not (may_lack and byte == 0) for byte, wanted in zip(data, due)):
            return "other data"
    return None


def wrong(told, end, whole, last, requests):
    """What is wrong with a session of which one request for memory was refused, or None."""
    head = whole.find(BEGINS) + len(BEGINS) if requests else len(whole)
    if end == NO_MEMORY_END:
        return None if whole.startswith(told) and len(told) <= head else "it ends for want of memory behind the negotiation"
    if end != last or told[:head] != whole[:head]:
        return "another end, or another negotiation"
    return wrong_replies(told[head:], whole[head:], requests)


def served(lab, images, said, heap):
    """A session of a client over a new store, in a heap that refuses: what it says, how it ends, and how many requests were refused."""
    lines = ["heap open", images, "mount 2", f"say {said.hex()}", "solo 1", heap, "serve", "heap"]
    answer, counts = [told.split(" ") for told in lab.ask_all(lines)[-2:]]
    return bytes.fromhex(answer[2] if len(answer) > 2 else ""), int(answer[1]), int(counts[4])


def growths_talk(name):
    """Each request for memory of a session is refused in turn."""
    client, server, last = next(row[1:] for row in [*CONVERSATIONS, PAGE] if row[0] == name)
    said, whole = spelled(" ".join(client)), spelled(" ".join(server))

    def faults(program):
        told, count = [], 0
        with Lab(program) as lab:
            refused = 1
            while refused:
                count += 1
                heard, end, refused = served(lab, IMAGES, said, f"heap refuse {count}")
                fault = wrong(heard, end, whole, last, requests_in(said))
                if fault:
                    told.append(f"request {count}: {fault}")
        return told if count - 1 == GROWTHS[name] else [*told, f"there were {count - 1} requests for memory, and not {GROWTHS[name]}"]
    return Talk(faults)


def full_talk(row, images, sizes, refusals, least):
    """Each request for more than a number of bytes is refused. `least` tells how often a session ends in the negotiation, has a request refused, and is
    whole, at least."""
    _, client, server, last = row
    said, head = spelled(" ".join(client)), spelled(" ".join(server[:2]))
    whole, others = spelled(" ".join(server)), [head + spelled(text) for text in refusals]

    def faults(program):
        told, counts = [], [0, 0, 0]
        with Lab(program) as lab:
            for size in sizes:
                heard, end, _ = served(lab, images, said, f"heap full {size}")
                came = [end == NO_MEMORY_END and head.startswith(heard), end == last and heard in others, (heard, end) == (whole, last)]
                counts = [count + is_so for count, is_so in zip(counts, came)]
                if not any(came):
                    told.append(f"above {size} bytes: it ends with {end}, and says {heard.hex()[:300]}")
        return told if all(map(int.__ge__, counts, least)) else [*told, f"it ends early, has a request refused and is whole {counts} times"]
    return Talk(faults)


def cases():
    yield from (Case(name, [growths_talk(name)], program=PROGRAM) for name in GROWTHS)
    yield Case("full/a_page_and_the_next", [full_talk(PAGE, IMAGES, range(0, 3_200, 16), PAGE_REFUSED, (2, 2, 2))], program=PROGRAM)
    yield Case("full/a_long_write", [full_talk(LONG, LARGE, range(20_000, 800_000, 20_000), LONG_REFUSED, (0, 11, 2))], program=PROGRAM)
