"""Conversations of one client with `talk --array`, over image files that are written from docs/FORMATS.md alone.

Each conversation with `talk` is held over an array too, with two copies of a page and with three, and has the same answers. What is wanted
of the others is worked out by hand: the homes of the pages, the lowest erased slots, which dies go out.

A die goes out where its image refuses a call, and here images refuse writes beyond a size, which the system lets no file pass. So it is
those dies whose lower slots are taken.
"""
import os
import resource
import signal
import subprocess
import tempfile

import advice
from cases import Case, Run, Talk, conversations, spelled
from cases.arrays import (DIES, FOUR, PATTERN, SETTINGS, check, count_of, dump, files, has_bytes, header, lines, new_array, rewrite,
                          slot)
from cases.conversations import DISC, DISCONNECTED, FLAGS, GO, GONE, GREETING, INPUT_ENDED
from images import image_bytes, settings_text

ARRAY = bytes.fromhex("00112233445566778899aabbccddeeff")
CLEAN = "closed clean\n"
NO_FILE = "No such file or directory"
FLUSH = "25609513 0000 0003 00000000000000f0 0000000000000000 00000000"
FLUSHED = "67446698 00000000 00000000000000f0"
EIO = 5
# The settings that ask for another number of copies.
OTHER_SETTINGS = "other.toml"
# Up to this byte a file may be written: 64 slots of 576 bytes lie below it.
LIMIT = 4096 + 64 * 576
# A slot whose bytes are no slot's is stale.
TAKEN = [(at, bytes(576)) for at in range(64)]


def digits(words):
    return spelled(words).hex()


def answer(replies, end=INPUT_ENDED, closed=CLEAN):
    """What is printed of a client behind its handshake: the replies, the end, and how the array was closed."""
    return f"{digits(f'{GREETING} {GONE} {replies}')}\nend {end}\n{closed}"


def said(requests):
    return digits(f"{FLAGS} {GO} {requests}")


def talk(requests, replies, *flags, end=INPUT_ENDED, closed=CLEAN, settings=SETTINGS, errors=()):
    """A run of a client behind its handshake."""
    return Run(("talk", "--array", settings, *flags), answer(replies, end, closed), 0 if closed.endswith(CLEAN) else 1, said(requests),
               errors=errors)


def write(cookie, page, byte, pages=1, flags=0, page_bytes=512):
    return (f"25609513 {flags:04x} 0001 {cookie:016x} {page * page_bytes:016x} {pages * page_bytes:08x} "
            f"{byte:02x}x{pages * page_bytes}")


def read(cookie, page, pages=1):
    return f"25609513 0000 0000 {cookie:016x} {page * 512:016x} {pages * 512:08x}"


def reply(cookie, data=None, error=0):
    return f"67446698 {error:08x} {cookie:016x} {data or ''}"


def over_arrays(copies):
    """The conversations with `talk`, each over a new array."""
    for told in conversations.cases():
        [run] = told.steps
        yield Case(f"{copies}_copies/{told.name}", [Run(("talk", "--array", SETTINGS), run.output + CLEAN, input=run.input)],
                   files(FOUR, copies=copies), told.long)


def kept():
    """What one client wrote the next one reads, and `dump` shows where it is."""
    two = f"{write(1, 0, 0xaa)} {write(2, 5, 0xbb)}"
    done = f"{reply(1)} {reply(2)}"
    both = f"{reply(3, 'aax512')} {reply(4, 'bbx512')} {reply(5, '00x512')}"
    asked = f"{read(3, 0)} {read(4, 5)} {read(5, 63)}"
    yield Case("kept/two_pages", [
        talk(f"{two} {DISC}", done, end=DISCONNECTED), check(lines(4, 4, 0, 2, True, 2, 0)),
        dump("page 0 seq 1 at 0:0 1:0\npage 5 seq 2 at 1:1 3:0\n"),
        talk(asked, both), check(lines(4, 4, 0, 3, True, 2, 0))], files(FOUR))
    yield Case("kept/three_copies", [
        talk(two, done), dump("page 0 seq 1 at 0:0 1:0 2:0\npage 5 seq 2 at 0:1 1:1 3:0\n"), talk(asked, both)], files(FOUR, copies=3))
    hole = "25609513 0000 0004 0000000000000002 00000000000001ff 00000400"
    yield Case("kept/a_hole", [
        talk(f"{write(1, 0, 0x11, 3)} {hole}", done), dump("page 0 seq 1 at 0:0 1:0\npage 1 seq 4 hole at 1:2 2:2\npage 2 seq 3 at 2:1 3:0\n"),
        talk(read(3, 0, 3), reply(3, "11x512 00x512 11x512"))], files(FOUR))
    # A client that asks for nothing: the array is closed anew, in the next epoch.
    yield Case("kept/nothing_asked", [Run(("talk", "--array", SETTINGS), f"{digits(GREETING)}\nend 4\n{CLEAN}"),
                                      check(lines(4, 4, 0, 2, True))], files(FOUR))
    # The size, the name and the pages are those of the array.
    wide = (4, 0, 4, 4, 8)
    made = {SETTINGS: settings_text(ARRAY, DIES, wide, page_bytes=4096).replace('"disk"', '"lab"')}
    for die in range(4):
        made[f"d{die}.img"] = image_bytes(header(die, wide, page_bytes=4096), 16, page_bytes=4096)
    named = f"{GREETING} 0003e889045565a9 00000007 00000003 0000000c 0000 0000000000008000 016d 0003e889045565a9 00000007 00000003 00000005 0001 6c6162"
    go = "49484156454f5054 00000007 0000000b 00000003 6c6162 0001 0001"
    yield Case("kept/pages_of_4096_bytes", [
        Run(("talk", "--array", SETTINGS), f"{digits(f'{named} 0003e889045565a9 00000007 00000001 00000000 {reply(1)}')}\nend 4\n{CLEAN}",
            input=digits(f"{FLAGS} {go} {write(1, 7, 0x5a, page_bytes=4096)}")),
        dump("page 7 seq 1 at 1:0 3:0\n")], made)


def healed():
    """Copies that are missing are made behind the first call."""
    eight = ({die: [] for die in range(4)}, {})
    homes = {0: (0, 1), 1: (1, 2), 2: (2, 3), 3: (3, 0), 4: (0, 2), 5: (1, 3), 6: (2, 0), 7: (3, 1)}
    for page, dies in homes.items():
        for die in dies:
            eight[0][die].append(slot(page, page + 1, die, len(eight[0][die]), payload=PATTERN))
    made = files(FOUR, slots=eight[0])
    made[OTHER_SETTINGS] = settings_text(ARRAY, DIES, FOUR, copies=3)
    thin = Run(("check", OTHER_SETTINGS), lines(4, 4, 0, 1, True, 8, 8))
    yield Case("healed/eight_pages_at_three_copies", [
        check(lines(4, 4, 0, 1, True, 8, 0)), thin,
        # Nothing is done behind a handshake, and so no page has a third copy.
        talk("", "", settings=OTHER_SETTINGS), Run(("check", OTHER_SETTINGS), lines(4, 4, 0, 2, True, 8, 8)),
        talk(FLUSH, FLUSHED, settings=OTHER_SETTINGS), Run(("check", OTHER_SETTINGS), lines(4, 4, 0, 3, True, 8, 0)),
        check(lines(4, 4, 0, 3, True, 8, 0))], made)
    # A byte of each part of a slot that is not as it was written: the other copy is read, and one more is made.
    for name, at in (("payload", 100), ("tag", 530), ("digest", 560)):
        torn = rewrite("d1.img", lambda found, at=at: found[:4096 + at] + bytes([found[4096 + at] ^ 1]) + found[4096 + at + 1:])
        yield Case(f"healed/a_wrong_byte_in_a_{name}", [
            talk(write(1, 5, 0xbb), reply(1)), dump("page 5 seq 1 at 1:0 3:0\n"), torn, dump("page 5 seq 1 at 3:0\n"),
            talk(read(2, 5), reply(2, "bbx512")), dump("page 5 seq 1 at 1:1 3:0\n")], files(FOUR))


def unclean():
    """Arrays that were not closed, and images that are not there."""
    missing = advice.image("d1.img", NO_FILE)
    page = {1: [slot(5, 1, 1, 0, payload=PATTERN)], 3: [slot(5, 1, 3, 0, payload=PATTERN)]}
    one = reply(1, PATTERN.hex())
    yield Case("unclean/a_header_without_its_mark", [
        Run(("talk", "--array", SETTINGS), "mount: 5 unclean\n", 1, said(read(1, 5)), errors=(advice.told_of_mount("die 2: unclean"),)),
        talk(read(1, 5), one, "--unclean"), check(lines(4, 4, 0, 2, True, 1, 0))],
        files(FOUR, headers={2: header(2, FOUR, clean=False)}, slots=page))
    # The same with --recover, which takes no array of which a die is missing, and none of which pages were lost.
    yield Case("recover/a_header_without_its_mark", [
        talk(read(1, 5), one, "--recover"), check(lines(4, 4, 0, 2, True, 1, 0)), talk(read(1, 5), one, "--recover")],
        files(FOUR, headers={2: header(2, FOUR, clean=False)}, slots=page))
    for name, made, errors in [
            ("an_image_that_is_missing", files(FOUR, headers={1: None}, slots=page), (missing, advice.told_of_mount("die 1: missed"))),
            ("pages_that_were_lost", {**files(FOUR, slots=page), f"{SETTINGS}.lost": "pages 5 to 5\n"}, (f"{SETTINGS}.lost: {advice.LOST}",))]:
        untouched = [has_bytes(path, made[path]) for path in DIES if path in made]
        yield Case(f"recover/{name}", [
            Run(("talk", "--array", SETTINGS, "--recover"), "mount: 5 unclean\n", 1, said(write(1, 5, 0xaa)), errors=errors), *untouched], made)
    yield Case("recover/pages_that_were_lost_are_left_to_the_admin", [
        talk(read(1, 5), one, "--unclean"), has_bytes(f"{SETTINGS}.lost", b"pages 5 to 5\n")],
        {**files(FOUR, slots=page), f"{SETTINGS}.lost": "pages 5 to 5\n"})
    yield Case("unclean/an_image_that_is_missing", [
        Run(("talk", "--array", SETTINGS), "mount: 7 image fault\n", 1, said(read(1, 5)), errors=(missing,)),
        talk(read(1, 5), one, "--unclean", errors=(missing,)),
        check(lines(4, 3, 0, 2, True, 1, 0), "--unclean", errors=(missing,)),
        dump("page 5 seq 1 at 2:0 3:0\n", "--unclean", errors=(missing,))],
        files(FOUR, headers={1: None}, slots=page))
    # A spare comes in for the die that is missing, and gets its copy.
    five = (5, 1, 16, 8, 64)
    yield Case("unclean/a_spare_comes_in", [
        talk(read(1, 5), one, "--unclean", errors=(missing,)),
        dump("page 5 seq 1 at 3:0 4:0\n", "--unclean", errors=(missing,)),
        check(lines(5, 4, 0, 3, True, 1, 0), "--unclean", errors=(missing,))],
        files(five, headers={1: None}, slots=page))


def fault(die, cause, round_number=1):
    return f"fault die {die} cause {cause} round {round_number}\n"


def limit_files():
    """Has no file of this process grow, or be written, from the limit on. A write there is refused, and does not end the process."""
    signal.signal(signal.SIGXFSZ, signal.SIG_IGN)
    resource.setrlimit(resource.RLIMIT_FSIZE, (LIMIT, LIMIT))


def limited(name, made, run, *behind):
    """A case of one run that is limited so, and of looks at what it left, which are runs or steps that are given the folder."""
    def faults(program):
        with tempfile.TemporaryDirectory(prefix="flasharr-case-") as folder:
            for path, content in made.items():
                with open(os.path.join(folder, path), "wb") as out:
                    out.write(content.encode() if isinstance(content, str) else content)
            told = []
            for step in (run, *behind):
                if not isinstance(step, Run):
                    step(folder)
                    continue
                said_there = step.input if isinstance(step.input, bytes) else step.input.encode()
                done = subprocess.run([program, *step.words], cwd=folder, input=said_there, stdout=subprocess.PIPE, stderr=subprocess.PIPE,
                                      timeout=240, preexec_fn=limit_files if step is run else None, restore_signals=False)
                found = done.returncode, done.stdout.decode()
                if found != (step.status, step.output):
                    told.append(f"{' '.join(step.words)}: wanted {(step.status, step.output)!r}, and it was {found!r}"[:900])
            return told
    return Case(name, [Talk(faults)])


def no_file(path):
    """A step that asks that there is no such file."""
    def look(folder):
        if os.path.exists(os.path.join(folder, path)):
            raise AssertionError(f"there is a file {path}")
    return look


def lost():
    """Dies that go out in a conversation."""
    held = {1: [slot(5, 1, 1, 70, payload=PATTERN), *TAKEN], 3: [slot(5, 1, 3, 0, payload=PATTERN)]}
    # Die 1 has no slot that can be written, and page 5 is read from die 3, and gets its second copy on die 2.
    yield limited("lost/a_die_that_cannot_be_written", files(FOUR, slots=held),
                  talk(f"{write(1, 0, 0xaa)} {read(2, 5)} {read(3, 0)}", f"{reply(1)} {reply(2, PATTERN.hex())} {reply(3, 'aax512')}",
                       closed=fault(1, 2) + CLEAN),
                  dump("page 0 seq 2 at 0:0 3:1\npage 5 seq 1 at 2:0 3:0\n"), check(lines(4, 3, 0, 3, True, 2, 0)))
    # With three copies the same: each page is on the three dies that are left.
    yield limited("lost/one_of_three_dies_of_a_page", files(FOUR, slots=held, copies=3),
                  talk(f"{write(1, 0, 0xaa)} {read(2, 5)} {read(3, 0)}", f"{reply(1)} {reply(2, PATTERN.hex())} {reply(3, 'aax512')}",
                       closed=fault(1, 2) + CLEAN),
                  dump("page 0 seq 2 at 0:0 2:0 3:1\npage 5 seq 1 at 0:1 2:1 3:0\n"), check(lines(4, 3, 0, 3, True, 2, 0)))
    # Both dies of page 5 go out in a write of page 17, which has the same homes. Page 5 is lost, page 17 is on the others.
    both = {die: [slot(5, 1, die, 70, payload=PATTERN), *TAKEN] for die in (1, 3)}
    yield limited("lost/both_dies_of_a_page", files(FOUR, slots=both),
                  talk(f"{write(1, 17, 0xaa)} {read(2, 5)} {read(3, 17)} {read(4, 6)} {FLUSH}",
                       f"{reply(1)} {reply(2, error=EIO)} {reply(3, 'aax512')} {reply(4, '00x512')} {FLUSHED}",
                       closed=f"{fault(1, 2)}{fault(3, 2)}closed unclean: 2\n"),
                  Run(("check", SETTINGS), "mount: 5 unclean\n", 1),
                  # The page stands in the file beside the settings, and the array is not recovered.
                  has_bytes(f"{SETTINGS}.lost", b"pages 5 to 5\n"), Run(("check", SETTINGS, "--recover"), "mount: 5 unclean\n", 1),
                  check(lines(4, 2, 0, 4, False, 1, 0), "--unclean"), has_bytes(f"{SETTINGS}.lost", b"pages 5 to 5\n"))
    # A write of all of the page makes it good again.
    yield limited("lost/a_page_that_is_written_again", files(FOUR, slots=both),
                  talk(f"{write(1, 17, 0xaa)} {read(2, 5)} {write(3, 5, 0xbb)} {read(4, 5)}",
                       f"{reply(1)} {reply(2, error=EIO)} {reply(3)} {reply(4, 'bbx512')}",
                       closed=f"{fault(1, 2)}{fault(3, 2)}{CLEAN}"),
                  check(lines(4, 2, 0, 4, True, 2, 0)), no_file(f"{SETTINGS}.lost"))
    # No die can be written, and nothing was.
    yield limited("lost/all_dies", files(FOUR, slots={die: TAKEN for die in range(4)}),
                  talk(f"{write(1, 0, 0xaa)} {read(2, 0)} {FLUSH}",
                       f"{reply(1, error=EIO)} {reply(2, '00x512')} 67446698 00000005 00000000000000f0",
                       closed=f"{''.join(fault(die, 2) for die in range(4))}closed unclean: 3\n"))


def refused():
    """What is refused, and in which order: the settings, the input, the images."""
    nothing = {SETTINGS: settings_text(ARRAY, DIES, FOUR)}
    faulty = nothing[SETTINGS].replace("dies = 4", "dies = 65")
    words = ("talk", "--array", SETTINGS)
    yield Case("refused/no_settings", [Run(("talk", "--array", "none.toml"), "settings: cannot read\n", 2, "zz",
                                           errors=(advice.settings("none.toml", NO_FILE),))])
    yield Case("refused/settings_before_a_faulty_line", [
        Run(words, "settings: 5 dies\n", 2, "zz", errors=("array.toml: dies is 65: wanted is a number of 2 to 64",))], {SETTINGS: faulty})
    yield Case("refused/a_faulty_line_before_the_images", [Run(words, "talk: line 2\n", 2, "00000003\n0\nzz")], nothing)
    yield Case("refused/an_input_that_cannot_be_read", [Run(words, "talk: cannot read\n", 1, source=".")], nothing)
    yield Case("refused/no_image", [Run(words, "mount: 7 image fault\n", 1, errors=(advice.image("d0.img", NO_FILE),))], nothing)
    # A faulty line leaves the images as they are: the epoch is the same.
    yield Case("refused/a_faulty_line_changes_nothing", [
        Run(words, "talk: line 1\n", 2, f"{said(write(1, 0, 0xaa))}g"),
        *(has_bytes(path, content) for path, content in zip(DIES, new_array(FOUR)))], files(FOUR))
    for number, told, error, other in [
            (1, "header bad", "d2.img: header bad", {"headers": {2: bytes(112)}}),
            (2, "arrays differ", "d1.img: arrays differ", {"headers": {1: header(1, FOUR, array=bytes(16))}}),
            (4, "die twice", "d3.img: die twice", {"headers": {3: header(2, FOUR)}}),
            (5, "unclean", "die 3: unclean", {"headers": {3: header(3, FOUR, clean=False)}})]:
        made = files(FOUR, **other)
        untouched = [has_bytes(path, made[path]) for path in DIES]
        yield Case(f"refused/mount_{number}", [
            Run(words, f"mount: {number} {told}\n", 1, said(write(1, 0, 0xaa)), errors=(advice.told_of_mount(error),)), *untouched], made)
    # An output that takes nothing: the array is closed all the same.
    yield Case("refused/output_fails", [Run(words, status=1, input=said(write(1, 0, 0xaa)), sink="/dev/full"),
                                        check(lines(4, 4, 0, 2, True, 1, 0))], files(FOUR))


def cases():
    for made in (kept, healed, unclean, lost, refused):
        yield from made()
    yield from over_arrays(2)
    yield from over_arrays(3)
