"""Clients that are cut off behind each of their bytes, and clients of whom one byte of a magic number is another, each over a new store of one
thread. To one that is cut off the server says a beginning of what it says to the whole, and no less than to one that was cut off earlier. One
with a wrong magic number is closed, and was told what is said before that number.
"""
from cases import Case, Talk, spelled
from cases.conversations import ABORTED, CLOSED, CONVERSATIONS, DISCONNECTED, FLAGS, GO, GONE, GREETING, INPUT_ENDED, conversation
from cases.stores import IMAGES, PROGRAM
from lab import Lab

# Conversations besides those of the talks.
OWN = [
    # Each command, done and refused; the data of a WRITE that is refused is dropped.
    ("each_command", [FLAGS, GO, """
        25609513 0001 0001 0000000000000001 00000000000001ff 00000203 11x515
        25609513 0000 0001 0000000000000002 0000000000007e01 00000200 22x512
        25609513 0000 0004 0000000000000003 00000000000001ff 00000201
        25609513 0003 0006 0000000000000004 0000000000000400 00000001
        25609513 0000 0003 0000000000000005 ffffffffffffffff ffffffff
        25609513 0000 0007 0000000000000006 0000000000000000 00000200
        25609513 0000 0000 0000000000000007 00000000000001fe 00000205
        25609513 0000 0000 0000000000000008 0000000000007e01 00000200
        25609513 0000 0002 0000000000000009 0000000000000000 00000000"""],
     [GREETING, GONE, """
        67446698 00000000 0000000000000001
        67446698 0000001c 0000000000000002
        67446698 00000000 0000000000000003
        67446698 00000000 0000000000000004
        67446698 00000000 0000000000000005
        67446698 00000016 0000000000000006
        67446698 00000000 0000000000000007 00 11 00x512 00 11 00
        67446698 00000016 0000000000000008"""], DISCONNECTED),
    ("each_option", [FLAGS, """
        49484156454f5054 00000008 00000000 49484156454f5054 00000005 00000002 6162
        49484156454f5054 00000003 00000000 49484156454f5054 00000003 00000001 00
        49484156454f5054 00000006 00000010 00000004 6469736b 0003 0003 0001 0009
        49484156454f5054 00000006 00000007 00000001 78 0000
        49484156454f5054 00000007 00000006 00000001 0000
        49484156454f5054 00000002 00000003 627965"""],
     [GREETING, """
        0003e889045565a9 00000008 80000001 00000000
        0003e889045565a9 00000005 80000001 00000000
        0003e889045565a9 00000003 00000002 00000008 00000004 6469736b
        0003e889045565a9 00000003 00000001 00000000
        0003e889045565a9 00000003 80000003 00000000
        0003e889045565a9 00000006 00000003 0000000c 0000 0000000000008000 016d
        0003e889045565a9 00000006 00000003 00000006 0001 6469736b
        0003e889045565a9 00000006 00000003 0000000e 0003 00000001 00001000 02000000
        0003e889045565a9 00000006 00000001 00000000
        0003e889045565a9 00000006 80000006 00000000
        0003e889045565a9 00000007 80000003 00000000
        0003e889045565a9 00000002 00000001 00000000"""], ABORTED),
    *((f"export_name_and_disconnect_with_flags_{flags}",
       [f"0000000{flags} 49484156454f5054 00000001 00000004 6469736b", "25609513 0000 0002 0000000000000001 0000000000000000 00000000"],
       [GREETING, "0000000000008000 016d", zeros], DISCONNECTED) for flags, zeros in ((1, "00x124"), (2, ""))),
    # What closes a connection, alone or with a byte behind it.
    ("an_option_with_a_wrong_magic_alone", [FLAGS, "49484156454f5053 00000007 00000006"], [GREETING], CLOSED),
    ("another_name_alone", [FLAGS, "49484156454f5054 00000001 00000004 6469736c"], [GREETING], CLOSED),
    ("another_name_and_a_byte", [FLAGS, "49484156454f5054 00000001 00000004 6475736b 00"], [GREETING], CLOSED),
    ("unknown_flags_and_a_byte", ["00000004 49"], [GREETING], CLOSED),
    ("too_much_data_and_a_byte", [FLAGS, "49484156454f5054 00000007 00010001 00"], [GREETING], CLOSED),
]

# The conversations, and how many bytes of magic numbers their clients say.
MAGIC_BYTES = {
    "hello": 8, "read_at_the_end": 16, "write_past_the_end": 16, "unaligned_write": 16, "unknown_options": 24, "list_and_abort": 16,
    "export_name": 8, "info": 8, "each_command": 44, "each_option": 64, "export_name_and_disconnect_with_flags_1": 12,
    "export_name_and_disconnect_with_flags_2": 12, "bad_client_flags": 0, "option_with_a_wrong_magic": 0, "option_with_too_much_data": 8,
    "an_option_with_a_wrong_magic_alone": 0, "another_name_alone": 8, "another_name_and_a_byte": 8, "unknown_flags_and_a_byte": 0,
    "too_much_data_and_a_byte": 8,
}
MAGICS = spelled("49484156454f5054"), spelled("25609513")


def heard(lab, clients):
    """What each of these clients is told over a store of its own, and how its connection ends."""
    lines = [line for said in clients for line in (IMAGES, "mount 2", "solo 1", f"say {said.hex()}", "serve")]
    answers = [answer.split(" ") for answer in lab.ask_all(lines)[4::5]]
    return [(bytes.fromhex(words[2] if len(words) > 2 else ""), int(words[1])) for words in answers]


def wrong_cuts(found, answer, end):
    """What is wrong with what is told to clients that are cut off behind none of their bytes, behind the first, and so on up to the last."""
    told = [] if found[-1] == (answer, end) else ["another answer to the whole"]
    before, was = b"", INPUT_ENDED
    for cut, (now, came) in enumerate(found):
        ends = (INPUT_ENDED, end) if was == INPUT_ENDED else (end,)
        if not (answer.startswith(now) and now.startswith(before)) or came not in ends:
            told.append(f"cut off behind {cut} bytes: it ends with {came} behind {len(now)} bytes, and it was {was} behind {len(before)}")
        before, was = now, came
    return told


def magic_places(said):
    """Where each byte of a magic number stands, and where that number begins."""
    return [(at, begin) for begin in range(len(said)) for magic in MAGICS if said.startswith(magic, begin)
            for at in range(begin, begin + len(magic))]


def changed(said, at):
    return said[:at] + bytes([said[at] ^ 0x20]) + said[at + 1:]


def cuts_talk(name):
    """A client is cut off behind each of its bytes, and each byte of its magic numbers is changed."""
    client, server, end = next(row[1:] for row in [*CONVERSATIONS, *OWN] if row[0] == name)
    said, answer = spelled(" ".join(client)), spelled(" ".join(server))
    places = magic_places(said)

    def faults(program):
        with Lab(program) as lab:
            cut = heard(lab, [said[:at] for at in range(len(said) + 1)])
            closed = heard(lab, [changed(said, at) for at, _ in places])
        told = wrong_cuts(cut, answer, end)
        told += [f"with byte {at} changed: {came} behind {len(now)} bytes" for (at, begin), (now, came) in zip(places, closed)
                 if (now, came) != (cut[begin][0], CLOSED)]
        return told if len(places) == MAGIC_BYTES[name] else [*told, f"there are {len(places)} bytes of magic numbers"]
    return Talk(faults)


def cases():
    for name in MAGIC_BYTES:
        yield Case(name, [cuts_talk(name)], program=PROGRAM)
    for row in OWN:
        yield conversation(f"whole/{row[0]}", *row[1:])
