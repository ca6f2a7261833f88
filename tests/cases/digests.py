"""Digests of messages by the laboratory, eight side by side and what is left over one by one, each as a whole, and with its whole
blocks begun and the rest as its tail: messages whose digests NIST publishes, and others beside a second hash, Python's hashlib.
"""
import hashlib

from cases import Case, Run

PROGRAM = "flasharr_lab"
LANES = 8

# Messages of FIPS 180 and of NIST's test vectors for SHA-256, with the digests that are published there.
PUBLISHED = {
    b"": "e3b0c44298fc1c149afbf4c8996fb92427ae41e4649b934ca495991b7852b855",
    b"abc": "ba7816bf8f01cfea414140de5dae2223b00361a396177a9cb410ff61f20015ad",
    b"abcdbcdecdefdefgefghfghighijhijkijkljklmklmnlmnomnopnopq": "248d6a61d20638b8e5c026930c3e6039a33ce45964ff2167f6ecedd419db06c1",
    b"abcdefghbcdefghicdefghijdefghijkefghijklfghijklmghijklmnhijklmnoijklmnopjklmnopqklmnopqrlmnopqrsmnopqrstnopqrstu":
        "cf5b16a778af8380036ce59e7b0492370b249b11e8f07a51afac45037afee9d1",
    bytes.fromhex("d3"): "28969cdfa74a12c82f3bad960b0b000aca2ac329deea5c2328ebc6f2ba9802c1",
    bytes.fromhex("11af"): "5ca7133fa735326081558ac312c620eeca9970d1e70a4b95533d956f072d1f98",
    bytes.fromhex("74ba2521"): "b16aa56be3880d18cd41e68384cf1ec8c17680c45a02b1575dc1518923ae8b0e",
    bytes.fromhex("5a86b737eaea8ee976a0a24da63e7ed7eefad18a101c1211e2b3650c5187c2a8a650547208251f6d4237e661c7bf4c77f335390394c37fa1"
                  "a9f9be836ac28509"): "42e61e174fbb3897d6dd6cef3dd2802fe67b331953b06114a65c772859dfc1aa",
}

# The bytes that messages are taken from, and the digests of the eight slots of 4,128 bytes that begin at its first eight offsets.
SOURCE = bytes((7 * i + i // 256) % 256 for i in range(4136))
SLOTS = """
    8e929b9a7aea88707b94e1609a199349c7559f5fb915d9fd4368c9916ad93b0f 954cb227317ac61822464c686d5ad5816f15834aeef5fec04fbea72cbf6f3475
    4064b68447ea27396ef0a7c22c98fc470e0cb29496df4e75fab8a2cb183ab4e5 f3edeb38d159eaf877065ad610a04cf25c1e39348f3c7b0d82013463a14421e7
    abf446a6597d646b1d402008933a7cd1438e85e251196f7643f498217e91ff33 1d764ddee970771a624a85dffc85c61a8b6283c120f42feb82c037fdb6d7caf5
    eb3db61fb523a19d42b5fa1cc03f483d390093ea6b8265f49feaa83399e94d0b c7d33892560dbd452f89f85957b7f68a2b350d3cd4ac589c09cff64fb3a0e3e1
""".split()


def hashed(message):
    """The digest of a message."""
    return PUBLISHED.get(message) or hashlib.sha256(message).hexdigest()


def others(message, count):
    """As many messages as are asked for, of a message's length, which all differ unless they are empty."""
    return [hashlib.shake_128(b"%d" % number + message).digest(len(message)) for number in range(count)]


def asked(*lists):
    """A run in which lists of messages of one length are hashed, a line for each, with the digests that are wanted of each message."""
    lines = "".join(" ".join(["digests", *(f"x{message.hex()}" for message in messages)]) + "\n" for messages, _ in lists)
    answers = "".join(" ".join(["digests", *(f"{digest} {digest}" for digest in digests)]) + "\n" for _, digests in lists)
    return Run((), answers, input=lines)


def with_digests(messages):
    return messages, [hashed(message) for message in messages]


def at_each_place(message):
    """Eight lists of eight messages, with the message at another place of each."""
    for place in range(LANES):
        eight = others(message, LANES)
        eight[place] = message
        yield with_digests(eight)


def parts(length, count=LANES):
    """Messages of a length, which begin at the first offsets of the source."""
    return [SOURCE[at:at + length] for at in range(count)]


def cases():
    yield Case("published", [asked(*(eight for message in PUBLISHED for eight in at_each_place(message)))], program=PROGRAM)
    yield Case("a_slot_in_each_lane", [asked((parts(4128), SLOTS))], program=PROGRAM)
    yield Case("every_length_up_to_five_blocks", [asked(*(with_digests(parts(length)) for length in range(321)))], program=PROGRAM)
    # Eight are hashed side by side, and three one by one.
    yield Case("eleven_messages", [asked(with_digests([b"abc"] * 11), with_digests(parts(576, 11)))], program=PROGRAM)
    # Payloads of 512 bytes, each with a tail of 32 that is not what stands behind it in the source.
    tailed = [SOURCE[at:at + 512] + SOURCE[at:at + 32] for at in range(LANES)]
    _, digests = with_digests(tailed)
    digests[0] = "041318edf4f035fc97102d684f0386de19c25f8f8fdba834dba9cd95c17092bd"
    digests[7] = "3096a47ce9c9228d3a8aa559a5f495bcb45f655fa6911df8fd5688735ffa4e8d"
    yield Case("payloads_begun_and_finished", [asked((tailed, digests))], program=PROGRAM)
