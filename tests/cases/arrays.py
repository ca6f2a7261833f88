"""`format`, `check` and `dump` over image files that are written from docs/FORMATS.md alone."""
import fcntl
import hashlib
import os
import shutil

import advice
from cases import Case, Run, document
from children import CHILDREN
from images import header_bytes, image_bytes, settings_text, slot_bytes

ARRAY = bytes.fromhex("00112233445566778899aabbccddeeff")
OTHER_ARRAY = bytes.fromhex("ff112233445566778899aabbccddeeff")
SETTINGS = "array.toml"
DIES = ["d0.img", "d1.img", "d2.img", "d3.img"]

# Four dies in use, of 16 blocks of 8 slots, with 64 pages of 512 bytes: the array of docs/FORMATS.md.
FOUR = (4, 0, 16, 8, 64)
# Three dies in use and a spare, of 4 blocks of 4 slots, with 12 pages.
SMALL = (4, 1, 4, 4, 12)

DATA, HOLE = 0, 1
ZEROS = bytes(512)
WORDS = {1: "header bad", 2: "arrays differ", 3: "geometry differs", 4: "die twice", 5: "unclean", 6: "no die live",
         7: "image fault"}


def count_of(geometry):
    return geometry[2] * geometry[3]


def header(die, geometry=SMALL, **other):
    """The header of a die as `format` leaves it, but for what is given. A spare's epoch is 0, and its mask empty."""
    in_use = geometry[0] - geometry[1]
    if die >= in_use:
        other = {"spare": True, "epoch": 0, "mask": 0, **other}
    return header_bytes(die, geometry, other.pop("array", ARRAY), **{"mask": (1 << in_use) - 1, **other})


def slot(page, seq, die, at, kind=DATA, payload=ZEROS, **other):
    return at, slot_bytes(page, seq, die, at, payload, kind=kind, **other)


def files(geometry=SMALL, headers=None, slots=None, names=None, **settings):
    """The settings and images of an array. `headers` has those that are not as `format` leaves them, or None for an
    image that is missing, and `slots` those that are written, both by the die."""
    names = names or [f"d{die}.img" for die in range(geometry[0])]
    made = {SETTINGS: settings_text(ARRAY, names, geometry, **settings)}
    for die in range(geometry[0]):
        found = (headers or {}).get(die, b"")
        if found is not None:
            made[f"d{die}.img"] = image_bytes(found or header(die, geometry), count_of(geometry), dict((slots or {}).get(die, [])))
    return made


def check(told, *flags, status=0, errors=()):
    return Run(("check", SETTINGS, *flags), told, status, errors=tuple(map(advice.told_of_mount, errors)))


def dump(told, *flags, status=0, errors=()):
    return Run(("dump", SETTINGS, *flags), told, status, errors=tuple(map(advice.told_of_mount, errors)))


def lines(dies, live, spare, epoch, clean, written=0, thin=0):
    return (f"dies {dies} live {live} spare {spare}\nepoch {epoch} {'clean' if clean else 'unclean'}\n"
            f"written {written} thin {thin}\n")


def refused(fault, said):
    """What `check` and `dump` say of images that are not mounted."""
    return [run(f"mount: {fault} {WORDS[fault]}\n", status=1, errors=(said,)) for run in (check, dump)]


def has_bytes(path, wanted):
    """A step that asks for a file's bytes."""
    def look(folder):
        with open(os.path.join(folder, path), "rb") as it:
            found = it.read()
        if found != wanted:
            at = next((i for i, (a, b) in enumerate(zip(wanted, found)) if a != b), min(len(wanted), len(found)))
            raise AssertionError(f"{path} has {len(found)} bytes, and wanted are {len(wanted)}; they differ first at byte {at}")
    return look


def has_files(*wanted):
    """A step that asks which files there are."""
    def look(folder):
        found = sorted(os.listdir(folder))
        if found != sorted(wanted):
            raise AssertionError(f"the files are {found}, and wanted are {sorted(wanted)}")
    return look


def rewrite(path, change):
    """A step that changes the bytes of a file."""
    def write(folder):
        path_there = os.path.join(folder, path)
        with open(path_there, "rb") as it:
            found = it.read()
        with open(path_there, "wb") as it:
            it.write(change(found))
    return write


def sparse(path, front, count, last):
    """A step that makes an image of zeros but for its header and one slot."""
    def make(folder):
        at, data = last
        with open(os.path.join(folder, path), "wb") as out:
            out.truncate(4096 + count * 576)
            out.write(front)
            out.seek(4096 + at * 576)
            out.write(data)
    return make


def put(at, data):
    return lambda found: found[:at] + data + found[at + len(data):]


def new_array(geometry, **other):
    """The bytes of each image that `format` makes."""
    return [image_bytes(header(die, geometry, **other), count_of(geometry), page_bytes=other.get("page_bytes", 512))
            for die in range(geometry[0])]


# ---- format

def formats():
    made = new_array(FOUR)
    steps = [Run(("check", SETTINGS), "mount: 7 image fault\n", 1, errors=(advice.image("d0.img", "No such file or directory"),)),
             Run(("format", SETTINGS), "formatted 4 images\n"),
             *(has_bytes(path, content) for path, content in zip(DIES, made)),
             check(lines(4, 4, 0, 1, True)), dump(""),
             check(lines(4, 4, 0, 1, True), "--unclean"), dump("", "--unclean"),
             # Nothing is written by a look, and a second format leaves the same bytes.
             *(has_bytes(path, content) for path, content in zip(DIES, made)),
             Run(("format", SETTINGS), "formatted 4 images\n"), has_bytes("d3.img", made[3])]
    yield Case("format/new_array", steps, {SETTINGS: settings_text(ARRAY, DIES, FOUR)})

    spares = new_array(SMALL)
    yield Case("format/spares", [
        Run(("format", SETTINGS), "formatted 4 images\n"), *(has_bytes(path, content) for path, content in zip(DIES, spares)),
        check(lines(4, 3, 1, 1, True))], {SETTINGS: settings_text(ARRAY, DIES, SMALL)})

    # Longer and shorter files that are there are emptied: nothing of them is left.
    yield Case("format/files_that_are_there", [
        Run(("format", SETTINGS), "formatted 4 images\n"), *(has_bytes(path, content) for path, content in zip(DIES, made))],
        {SETTINGS: settings_text(ARRAY, DIES, FOUR), "d0.img": b"\x77" * 100_000, "d1.img": b"\x77" * 100, "d2.img": b""})

    # With --die K the image of die K alone is made, as a spare's.
    spare = image_bytes(header_bytes(2, FOUR, ARRAY, spare=True, epoch=0), count_of(FOUR))
    yield Case("format/one_die", [
        Run(("format", SETTINGS), "formatted 4 images\n"),
        Run(("format", SETTINGS, "--die", "2"), "formatted 1 images\n"),
        has_bytes("d2.img", spare), has_bytes("d1.img", made[1]),
        check("mount: 5 unclean\n", status=1, errors=("die 2: unclean",)),
        check(lines(4, 3, 1, 1, False), "--unclean")], {SETTINGS: settings_text(ARRAY, DIES, FOUR)})
    yield Case("format/one_die_alone", [
        Run(("format", SETTINGS, "--die", "0"), "formatted 1 images\n"),
        has_bytes("d0.img", image_bytes(header_bytes(0, FOUR, ARRAY, spare=True, epoch=0), count_of(FOUR))),
        has_files(SETTINGS, "d0.img")],
        {SETTINGS: settings_text(ARRAY, DIES, FOUR)})
    yield Case("format/no_such_die", [
        Run(("format", SETTINGS, "--die", "4"), "settings: 5 dies\n", 2, errors=("there is no die 4: the array has 4",)),
        has_files(SETTINGS)],
        {SETTINGS: settings_text(ARRAY, DIES, FOUR)})
    yield Case("format/another_number_of_images", [
        Run(("format", SETTINGS), "settings: 5 images\n", 2, errors=(advice.number_of_images(2, 4),)),
        Run(("format", SETTINGS, "--die", "0"), "settings: 5 images\n", 2, errors=(advice.number_of_images(2, 4),)),
        has_files(SETTINGS)],
        {SETTINGS: settings_text(ARRAY, DIES[:2], FOUR)})
    yield Case("format/a_folder_that_is_not_there", [
        Run(("format", SETTINGS), "format: image 2\n", 1, errors=(advice.image("none/d2.img", "No such file or directory"),))],
        {SETTINGS: settings_text(ARRAY, ["d0.img", "d1.img", "none/d2.img", "d3.img"], FOUR)})
    yield Case("format/a_folder_as_an_image", [
        lambda folder: os.mkdir(os.path.join(folder, "d1.img")),
        Run(("format", SETTINGS), "format: image 1\n", 1, errors=(advice.image("d1.img", "Is a directory"),))],
        {SETTINGS: settings_text(ARRAY, DIES, FOUR)})
    yield Case("format/no_settings", [
        Run(("format", SETTINGS), "settings: cannot read\n", 2, errors=(advice.settings(SETTINGS, "No such file or directory"),))])

    # A die of an array that was mounted since it was formatted is told before it is lost.
    mounted = header_bytes(1, FOUR, ARRAY, epoch=2, mask=15)
    yield Case("format/a_die_that_was_mounted", [
        Run(("format", SETTINGS), "formatted 4 images\n", errors=("d1.img: die 1 of an array that was mounted is lost",)),
        check(lines(4, 4, 0, 1, True))],
        {SETTINGS: settings_text(ARRAY, DIES, FOUR), "d1.img": image_bytes(mounted, count_of(FOUR))})

    # Each size of a page. More than 65,536 slots of a die, and 64 dies.
    for page_bytes in (1024, 2048, 4096):
        images = [image_bytes(header(die, SMALL, page_bytes=page_bytes), 16, page_bytes=page_bytes) for die in range(4)]
        yield Case(f"format/pages_of_{page_bytes}_bytes", [
            Run(("format", SETTINGS), "formatted 4 images\n"), *(has_bytes(path, it) for path, it in zip(DIES, images)),
            check(lines(4, 3, 1, 1, True))], {SETTINGS: settings_text(ARRAY, DIES, SMALL, page_bytes=page_bytes)})
    many = (2, 0, 257, 256, 1000)
    last = slot(999, 1, 1, 257 * 256 - 1)
    yield Case("format/more_than_65536_slots", [
        Run(("format", SETTINGS), "formatted 2 images\n"), check(lines(2, 2, 0, 1, True)),
        rewrite("d1.img", put(4096 + last[0] * 576, last[1])),
        check(lines(2, 2, 0, 1, True, 1, 1)), dump(f"page 999 seq 1 at 1:{last[0]}\n")],
        {SETTINGS: settings_text(ARRAY, DIES[:2], many)})
    all_dies = (64, 62, 4, 4, 8)
    names = [f"die{number}" for number in range(64)]
    yield Case("format/64_dies", [
        Run(("format", SETTINGS), "formatted 64 images\n"), check(lines(64, 2, 62, 1, True))],
        {SETTINGS: settings_text(ARRAY, names, all_dies)})


# ---- locks and paths

def locked(path, runs):
    """A step that has a file locked, as another process, while the program runs."""
    def hold(folder):
        held = open(os.path.join(folder, path), "rb+")
        fcntl.flock(held, fcntl.LOCK_EX)
        HELD[folder] = held
    def drop(folder):
        HELD.pop(folder).close()
    return [hold, *runs, drop]


HELD = {}


def started(path):
    """A step that makes a file a program and starts it. It ends by itself."""
    def start(folder):
        there = os.path.join(folder, path)
        # A process that another case begins meanwhile would have the file open to write, until its own program is in its place.
        with CHILDREN.lock:
            shutil.copy("/bin/sleep", there)
        HELD[folder] = CHILDREN.start(["sleep", "30"], executable=there)
    return start


def ended(folder):
    """A step that ends it."""
    process = HELD.pop(folder)
    process.kill()
    process.wait()


def paths():
    held = f"d1.img: {advice.HELD}"
    yield Case("paths/an_image_that_is_held", [
        Run(("format", SETTINGS), "formatted 4 images\n"),
        *locked("d1.img", [
            Run(("format", SETTINGS), "format: image 1\n", 1, errors=(held,)),
            check("mount: 7 image fault\n", status=1, errors=(held,)),
            check(lines(4, 3, 0, 1, False), "--unclean", errors=(held,))]),
        check(lines(4, 4, 0, 1, True))], {SETTINGS: settings_text(ARRAY, DIES, FOUR)})

    twice = ["d0.img", "d1.img", "d0.img", "d3.img"]
    made = new_array(FOUR)
    said = f"d0.img: {advice.TWICE}"
    yield Case("paths/a_path_that_stands_twice", [
        check("mount: 7 image fault\n", status=1, errors=(said,)), dump("mount: 7 image fault\n", status=1, errors=(said,)),
        Run(("format", SETTINGS), "format: image 2\n", 1, errors=(said,)),
        has_bytes("d0.img", made[0]),
        check(lines(4, 3, 0, 1, False), "--unclean", errors=(said,))],
        {SETTINGS: settings_text(ARRAY, twice, FOUR), **dict(zip(DIES, made))})
    yield Case("paths/two_paths_to_one_image", [
        lambda folder: os.link(os.path.join(folder, "d0.img"), os.path.join(folder, "link.img")),
        check("mount: 7 image fault\n", status=1, errors=(f"link.img: {advice.HELD}",))],
        {SETTINGS: settings_text(ARRAY, ["d0.img", "link.img", "d2.img", "d3.img"], FOUR), **dict(zip(DIES, made))})

    # A header says which die its image is: the order of the settings does not.
    yield Case("paths/images_in_another_order", [
        check(lines(4, 3, 1, 1, True, 1, 1)), dump("page 5 seq 7 at 1:3\n")],
        files(slots={1: [slot(5, 7, 1, 3)]}, names=["d3.img", "d1.img", "d0.img", "d2.img"]))
    yield Case("paths/a_copied_image", [
        *refused(4, "copy.img: die twice")],
        {**files(names=["d0.img", "copy.img", "d2.img", "d3.img"]), "copy.img": image_bytes(header(0), 16)})
    yield Case("paths/an_image_left_out", [
        *refused(5, "die 1: unclean"), check(lines(4, 2, 1, 1, False), "--unclean")],
        files(names=["d0.img", "d2.img", "d3.img"]))
    missing = advice.image("d2.img", "No such file or directory")
    yield Case("paths/an_image_that_is_missing", [
        *refused(7, missing),
        check(lines(4, 2, 1, 1, False), "--unclean", errors=(missing,))], files(headers={2: None}))
    folder = advice.image("d1.img", "Is a directory")
    yield Case("paths/a_folder_as_an_image", [
        lambda where: os.mkdir(os.path.join(where, "d1.img")), *refused(7, folder),
        check(lines(4, 2, 1, 1, False), "--unclean", errors=(folder,))], files(headers={1: None}))
    # Nobody may write the file of a running program. Who may write all files may write one that is not to be written too.
    busy = advice.image("d2.img", "Text file busy")
    yield Case("paths/a_running_program", [started("d2.img"), *refused(7, busy), ended], files(headers={2: None}))
    denied = advice.image("d1.img", "Permission denied")
    yield Case("paths/an_image_that_may_not_be_written", [
        lambda where: os.chmod(os.path.join(where, "d1.img"), 0o444),
        *([check(lines(4, 3, 1, 1, True))] if os.geteuid() == 0 else refused(7, denied))], files())
    nothing = [advice.image(path, "No such file or directory") for path in DIES]
    yield Case("paths/no_image_at_all", [
        check("mount: 6 no die live\n", "--unclean", status=1, errors=(*nothing, "no die live"))],
        files(headers=dict.fromkeys(range(4))))
    yield Case("paths/a_spare_alone", [
        *refused(6, "no die live"), check("mount: 6 no die live\n", "--unclean", status=1, errors=("no die live",))],
        files(names=["d3.img"]))


# ---- lengths of files

LENGTH = "the length of the file is not that of an image"


def lengths():
    whole = image_bytes(header(2), 16)
    others = files()
    others.pop("d2.img")
    # Where a slot cannot be read the die is a fault, or out; where the header cannot be read the image is left aside.
    for name, length, said in [("in_the_last_slot", len(whole) - 1, "image fault"), ("in_the_first_slot", 4096 + 575, "image fault"),
                               ("behind_the_header", 112, "image fault"), ("in_the_header", 111, "image fault"),
                               ("empty", 0, "image fault")]:
        warning = f"d2.img: {LENGTH}"
        yield Case(f"length/shorter_{name}", [
            *(run("mount: 7 image fault\n", status=1, errors=(warning, f"d2.img: {said}")) for run in (check, dump)),
            check(lines(4, 2, 1, 1, length >= 112), "--unclean", errors=(warning,))], {**others, "d2.img": whole[:length]})
    yield Case("length/longer", [check(lines(4, 3, 1, 1, True), errors=(f"d2.img: {LENGTH}",))],
               {**others, "d2.img": whole + b"\0"})
    # Between the header and the slots anything may stand.
    yield Case("length/bytes_behind_the_header", [check(lines(4, 3, 1, 1, True))],
               {**others, "d2.img": image_bytes(header(2), 16, gap=b"\x5a" * 3984)})
    # A spare whose slots cannot be read is out.
    short_spare = files()
    short_spare["d3.img"] = short_spare["d3.img"][:5000]
    warning = f"d3.img: {LENGTH}"
    yield Case("length/a_spare_that_is_shorter", [
        check("mount: 7 image fault\n", status=1, errors=(warning, "d3.img: image fault")),
        check(lines(4, 3, 0, 1, True), "--unclean", errors=(warning,))], short_spare)


# ---- headers

def headers():
    # Name, die 1's header, and the fault and what is said of it.
    rows = [
        ("zeros", bytes(112), 1, "d1.img: header bad"),
        ("another_array", header(1, array=OTHER_ARRAY), 2, "d1.img: arrays differ"),
        ("eleven_pages", header(1, (4, 1, 4, 4, 11), mask=7), 3, "d1.img: geometry differs"),
        ("five_blocks", header(1, (4, 1, 5, 4, 12), mask=7), 3, "d1.img: geometry differs"),
        ("five_slots", header(1, (4, 1, 4, 5, 12), mask=7), 3, "d1.img: geometry differs"),
        ("five_dies", header(1, (5, 1, 4, 4, 12), mask=7), 3, "d1.img: geometry differs"),
        ("no_spare", header(1, (4, 0, 4, 4, 12), mask=7), 3, "d1.img: geometry differs"),
        ("pages_of_1024_bytes", header(1, page_bytes=1024), 3, "d1.img: geometry differs"),
        ("die_0", header(0), 4, "d1.img: die twice"),
        ("another_mask", header(1, mask=3), 2, "d1.img: arrays differ"),
        ("not_clean", header(1, clean=False), 5, "die 1: unclean"),
        ("spare", header(1, spare=True, epoch=0, mask=0), 5, "die 1: unclean"),
        ("epoch_2", header(1, epoch=2), 5, "die 0: unclean"),
        # What is no header.
        ("format_3", header(1, form=3), 1, "d1.img: header bad"),
        ("format_0", header(1, form=0), 1, "d1.img: header bad"),
        ("unknown_mark", header(1, marks=5), 1, "d1.img: header bad"),
        ("epoch_0", header(1, epoch=0), 1, "d1.img: header bad"),
        ("epoch_above_2_to_62", header(1, epoch=2 ** 62 + 1), 1, "d1.img: header bad"),
        ("itself_not_live", header(1, mask=5), 1, "d1.img: header bad"),
        ("live_die_outside_the_array", header(1, mask=0x17), 1, "d1.img: header bad"),
        ("die_63_live", header(1, mask=7 | 1 << 63), 1, "d1.img: header bad"),
        ("die_outside_the_array", header_bytes(4, SMALL, ARRAY, mask=0x17), 1, "d1.img: header bad"),
        ("spare_with_an_epoch", header(1, spare=True, epoch=1, mask=0), 1, "d1.img: header bad"),
        ("spare_with_a_live_die", header(1, spare=True, epoch=0, mask=2), 1, "d1.img: header bad"),
        ("three_blocks", header(1, (4, 1, 3, 4, 6), mask=7), 1, "d1.img: header bad"),
        ("three_slots", header(1, (4, 1, 4, 3, 6), mask=7), 1, "d1.img: header bad"),
        ("no_pages", header(1, (4, 1, 4, 4, 0), mask=7), 1, "d1.img: header bad"),
        ("more_pages_than_there_is_room", header(1, (4, 1, 4, 4, 13), mask=7), 1, "d1.img: header bad"),
        ("pages_of_513_bytes", header(1, page_bytes=513), 1, "d1.img: header bad"),
    ]
    for name, found, fault, said in rows:
        yield Case(f"header/{name}", refused(fault, said), files(headers={1: found}))
    # Images that agree with one another, and not with the settings.
    eleven = (4, 1, 4, 4, 11)
    for name, fault, all_headers in [("another_array", 2, {die: header(die, array=OTHER_ARRAY) for die in range(4)}),
                                     ("another_geometry", 3, {die: header(die, eleven) for die in range(4)})]:
        said = f"d0.img: {WORDS[fault]}"
        steps = [*refused(fault, said), check(f"mount: {fault} {WORDS[fault]}\n", "--unclean", status=1, errors=(said,))]
        yield Case(f"header/all_of_{name}", steps, files(headers=all_headers))
    # Each byte of a header counts: one bit of it changed makes it none.
    good = header(1)
    for at in range(0, 112, 7):
        changed = good[:at] + bytes([good[at] ^ 1 << at % 8]) + good[at + 1:]
        yield Case(f"header/byte_{at}_changed", refused(1, "d1.img: header bad"), files(headers={1: changed}))
    # The letters with a right digest.
    letters = b"FLSHARR2" + good[8:80]
    letters += hashlib.sha256(letters).digest()
    yield Case("header/other_letters", refused(1, "d1.img: header bad"), files(headers={1: letters}))
    # The largest epoch, and the older format, alone and beside the newer one.
    yield Case("header/epoch_2_to_62", [check(lines(4, 3, 1, 2 ** 62, True))],
               files(headers={die: header(die, epoch=2 ** 62) for die in range(3)}))
    yield Case("header/format_1", [check(lines(4, 3, 1, 1, True))],
               files(headers={die: header(die, form=1) for die in range(4)}))
    yield Case("header/both_formats", [check(lines(4, 3, 1, 1, True))], files(headers={0: header(0, form=1), 3: header(3, form=1)}))
    # Die 1 in format 1 and in format 2, byte by byte as docs/FORMATS.md has them.
    for name, words in [
            ("1_as_documented", "464c534841525231 00000001 00000001 00000004 00000000 00000010 00000008 00000200 00000001"
             "0000000000000040 0000000000000001 000000000000000f 00112233445566778899aabbccddeeff"
             "26058a8f37219832fff9cda8a5e1ac82676ee7a8f5dbe7e87191b8a05e1fcf50"),
            ("2_as_documented", "464c534841525231 00000002 00000001 00000004 00000000 00000010 00000008 00000200 00000001"
             "0000000000000040 0000000000000001 000000000000000f 00112233445566778899aabbccddeeff"
             "f6ccef6554a126eccc159203b344e507ccb922cd978afc9556eda801c16a3b8d")]:
        yield Case(f"header/format_{name}", [check(lines(4, 4, 0, 1, True))], files(FOUR, headers={1: bytes.fromhex(words)}))

    # An unclean array: die 1's header, and what `check --unclean` says of it.
    bad = "d1.img: header bad"
    for name, found, live, epoch, clean, spares in [
            ("bad_header", bytes(112), 2, 1, False, 1), ("not_clean", header(1, clean=False), 3, 1, False, 1),
            ("spare", header(1, spare=True, epoch=0, mask=0), 2, 1, False, 2), ("epoch_2", header(1, epoch=2), 3, 2, False, 1),
            ("alone_in_epoch_2", header(1, epoch=2, mask=2), 1, 2, True, 1)]:
        yield Case(f"unclean/{name}", [check(lines(4, live, spares, epoch, clean), "--unclean")], files(headers={1: found}))
    # What is refused with --unclean too.
    for name, found, fault, said in [row for row in rows if row[0] in ("another_array", "eleven_pages", "die_0", "another_mask")]:
        yield Case(f"unclean/{name}", [check(f"mount: {fault} {WORDS[fault]}\n", "--unclean", status=1, errors=(said,))],
                   files(headers={1: found}))
    # A die that is not in the mask of the greatest epoch is out, whatever it holds and whatever it is marked.
    written = {0: [slot(5, 9, 0, 0)], 1: [slot(5, 3, 1, 1)], 2: [slot(6, 9, 2, 0)]}
    yield Case("unclean/dead_dies_tell_nothing", [
        check(lines(4, 1, 1, 2, True, 1, 0)), dump("page 5 seq 3 at 1:1\n"), dump("page 5 seq 3 at 1:1\n", "--unclean")],
        files(headers={1: header(1, epoch=2, mask=2)}, slots=written))
    # The mask of an older epoch, and its clean mark, count for nothing.
    older = {0: header(0, epoch=2, mask=3), 1: header(1, epoch=2, mask=3), 2: header(2, epoch=1, mask=7, clean=False)}
    yield Case("unclean/an_older_mask", [check(lines(4, 2, 1, 2, True))], files(headers=older))
    late = {0: header(0, epoch=2), 1: header(1, epoch=1), 2: header(2, epoch=2)}
    yield Case("unclean/an_older_clean_mark", [
        *refused(5, "die 1: unclean"), check(lines(4, 3, 1, 2, False), "--unclean")], files(headers=late))
    # A spare that is in use is out, and no fault.
    used = {3: [slot(0, 50, 3, 15)]}
    yield Case("unclean/a_used_spare", [check(lines(4, 3, 0, 1, True)), dump("")], files(slots=used))
    torn = {3: [(15, b"\xff" * 575 + b"\xfe")]}
    yield Case("unclean/a_spare_with_a_torn_slot", [check(lines(4, 3, 0, 1, True))], files(slots=torn))


# ---- recovering

def recovered(*told, errors=()):
    """What `check` and `dump` say of an array that is recovered: numbers for `lines`, and the lines of `dump`."""
    return [check(lines(*told), "--recover", errors=errors)]


def not_recovered(fault, said):
    return [run(f"mount: {fault} {WORDS[fault]}\n", "--recover", status=1, errors=(said,)) for run in (check, dump)]


def recovering():
    # An array that was closed, and one that was not: a header without its mark, and one of an older epoch.
    page = {1: [slot(5, 1, 1, 0)], 2: [slot(5, 1, 2, 0)]}
    yield Case("recover/closed", [check(lines(4, 3, 1, 1, True, 1, 0), "--recover"), dump("page 5 seq 1 at 1:0 2:0\n", "--recover")],
               files(slots=page))
    for name, found, epoch in [("not_clean", header(1, clean=False), 1), ("an_older_epoch", header(1, epoch=2), 2)]:
        yield Case(f"recover/{name}", [
            check("mount: 5 unclean\n", status=1, errors=("die 1: unclean" if epoch == 1 else "die 0: unclean",)),
            check(lines(4, 3, 1, epoch, False, 1, 0), "--recover"), dump("page 5 seq 1 at 1:0 2:0\n", "--recover")],
            files(headers={1: found}, slots=page))
    # A die of the mask without an image, without its path, and without a header.
    missing = advice.image("d1.img", "No such file or directory")
    yield Case("recover/a_missing_die", [
        check("mount: 5 unclean\n", "--recover", status=1, errors=(missing, "die 1: missed")),
        check(lines(4, 2, 1, 1, False), "--unclean", errors=(missing,))], files(headers={1: None}))
    yield Case("recover/a_die_left_out", not_recovered(5, "die 1: missed"), files(names=["d0.img", "d2.img", "d3.img"]))
    yield Case("recover/a_bad_header", not_recovered(5, "die 1: missed"), files(headers={1: bytes(112)}))
    yield Case("recover/the_first_of_two_missing", not_recovered(5, "die 0: missed"), files(names=["d1.img", "d3.img"]))
    # No die of the mask needs the image: it is left aside.
    two = {0: header(0, epoch=2, mask=3, clean=False), 1: header(1, epoch=2, mask=3), 2: bytes(112)}
    yield Case("recover/a_bad_header_that_nobody_needs", recovered(4, 2, 1, 2, False), files(headers=two))
    # A spare that came in as the array was killed, of which nothing was used, and one that was used.
    marked = header(1, spare=True, epoch=0, mask=0)
    yield Case("recover/a_spare_in_the_mask", recovered(4, 2, 2, 1, False), files(headers={1: marked}))
    yield Case("recover/a_used_spare_in_the_mask", [
        *not_recovered(5, "d1.img: used spare"), check(lines(4, 2, 1, 1, False), "--unclean")],
        files(headers={1: marked}, slots={1: [slot(5, 1, 1, 15)]}))
    yield Case("recover/a_torn_slot_of_a_spare_in_the_mask", not_recovered(5, "d1.img: used spare"),
               files(headers={1: marked}, slots={1: [(15, b"\xff" * 575 + b"\xfe")]}))
    # A spare that is out takes no page with it. As many dies as there are copies do.
    used = {3: [slot(0, 50, 3, 15)]}
    yield Case("recover/a_used_spare_outside_the_mask", recovered(4, 3, 0, 1, True), files(slots=used))
    out = {die: header(die, epoch=2, mask=3, clean=False) for die in (0, 1)}
    yield Case("recover/one_die_is_out", recovered(4, 2, 1, 2, False), files(headers=out))
    yield Case("recover/two_dies_are_out", [*not_recovered(5, "too few"), check(lines(4, 2, 0, 2, False), "--unclean")],
               files(headers=out, slots=used))
    five = (5, 1, 8, 4, 12)
    many = {die: header(die, five, epoch=2, mask=7, clean=False) for die in range(3)}
    yield Case("recover/two_of_three_copies_may_be_out", recovered(5, 3, 0, 2, False),
               files(five, headers=many, slots={4: [slot(0, 50, 4, 0)]}, copies=3))
    yield Case("recover/two_of_two_copies_may_not", not_recovered(5, "too few"), files(five, headers=many, slots={4: [slot(0, 50, 4, 0)]}))
    yield Case("recover/the_mask_of_one_die", not_recovered(5, "too few"), files(headers={1: header(1, epoch=2, mask=2)}))
    # A slot that cannot be read.
    whole = files()
    for die, warning in ((1, "d1.img"), (2, "d2.img")):
        short = {**whole, f"d{die}.img": whole[f"d{die}.img"][:4096 + 15 * 576 + 575]}
        yield Case(f"recover/a_slot_of_die_{die}_cannot_be_read", [
            check("mount: 7 image fault\n", "--recover", status=1, errors=(f"{warning}: {LENGTH}", f"{warning}: image fault"))], short)
    spare = {**whole, "d3.img": whole["d3.img"][:4096 + 15 * 576 + 575]}
    yield Case("recover/a_slot_of_a_spare_cannot_be_read", recovered(4, 3, 0, 1, True, errors=(f"d3.img: {LENGTH}",)), spare)
    # What is refused with --unclean is refused before.
    for name, found, fault, said in [("another_array", header(1, array=OTHER_ARRAY), 2, "d1.img: arrays differ"),
                                     ("die_0", header(0), 4, "d1.img: die twice"), ("another_mask", header(1, mask=3), 2, "d1.img: arrays differ")]:
        yield Case(f"recover/{name}", not_recovered(fault, said), files(headers={1: found}))
    yield Case("recover/a_spare_alone", not_recovered(6, "no die live"), files(names=["d3.img"]))
    # Pages were lost, by the file beside the settings. It comes before the images, and only --recover asks for it.
    lost = {f"{SETTINGS}.lost": "pages 5 to 5\n"}
    yield Case("recover/pages_were_lost", [
        *not_recovered(5, f"{SETTINGS}.lost: {advice.LOST}"), check(lines(4, 3, 1, 1, True)), check(lines(4, 3, 1, 1, True), "--unclean"),
        has_bytes(f"{SETTINGS}.lost", b"pages 5 to 5\n")], {**files(), **lost})
    yield Case("recover/an_empty_file_of_lost_pages", recovered(4, 3, 1, 1, True), {**files(), f"{SETTINGS}.lost": ""})
    yield Case("recover/pages_were_lost_and_a_die_is_missing", not_recovered(5, f"{SETTINGS}.lost: {advice.LOST}"),
               {**files(headers={1: None}), **lost})


# ---- slots

PATTERN = bytes((7 * i + 3) % 256 for i in range(512))


def torn(pair, at):
    """A slot with one bit of a byte changed."""
    number, data = pair
    return number, data[:at] + bytes([data[at] ^ 1 << at % 8]) + data[at + 1:]


def slots():
    # Name, what stands in the slots, the lines of `dump`, and how many pages are thin.
    rows = [
        ("two_copies", {1: [slot(5, 1, 1, 0)], 2: [slot(5, 1, 2, 3)]}, ["page 5 seq 1 at 1:0 2:3"], 0),
        ("older_copies", {1: [slot(5, 1, 1, 0), slot(5, 2, 1, 1)], 2: [slot(5, 1, 2, 0)]}, ["page 5 seq 2 at 1:1"], 1),
        ("an_older_copy_behind_a_newer_one", {0: [slot(5, 2, 0, 0), slot(5, 1, 0, 1)]}, ["page 5 seq 2 at 0:0"], 1),
        ("a_hole", {0: [slot(5, 3, 0, 7, HOLE)], 1: [slot(5, 2, 1, 1)]}, ["page 5 seq 3 hole at 0:7"], 1),
        # The lowest slot of the lowest die tells the kind.
        ("two_kinds_of_one_number", {0: [slot(1, 3, 0, 1, HOLE)], 1: [slot(1, 3, 1, 1)]}, ["page 1 seq 3 hole at 0:1"], 1),
        ("two_kinds_on_one_die", {0: [slot(1, 3, 0, 2, HOLE), slot(1, 3, 0, 1)], 1: [slot(1, 3, 1, 0, HOLE)]},
         ["page 1 seq 3 at 0:1"], 1),
        ("two_copies_on_one_die", {2: [slot(2, 4, 2, 2), slot(2, 4, 2, 1)]}, ["page 2 seq 4 at 2:1"], 1),
        ("three_copies", {0: [slot(11, 12, 0, 9)], 1: [slot(11, 12, 1, 8)], 2: [slot(11, 12, 2, 3)]},
         ["page 11 seq 12 at 0:9 1:8 2:3"], 0),
        ("several_pages", {0: [slot(0, 1, 0, 0), slot(1, 3, 0, 1, HOLE), slot(11, 12, 0, 9)],
                           1: [slot(0, 2, 1, 0), slot(1, 3, 1, 1), slot(11, 12, 1, 8)],
                           2: [slot(2, 4, 2, 2), slot(2, 4, 2, 1), slot(11, 12, 2, 3)]},
         ["page 0 seq 2 at 1:0", "page 1 seq 3 hole at 0:1", "page 2 seq 4 at 2:1", "page 11 seq 12 at 0:9 1:8 2:3"], 3),
        ("first_and_last_of_all", {0: [slot(0, 2 ** 62 - 1, 0, 15)], 2: [slot(11, 1, 2, 0)]},
         ["page 0 seq 4611686018427387903 at 0:15", "page 11 seq 1 at 2:0"], 2),
        ("version_1", {0: [slot(5, 7, 0, 3, payload=PATTERN, version=1)]}, ["page 5 seq 7 at 0:3"], 1),
        ("both_versions", {0: [slot(5, 7, 0, 3, payload=PATTERN, version=1)], 1: [slot(5, 7, 1, 3, payload=PATTERN)]},
         ["page 5 seq 7 at 0:3 1:3"], 0),
        # What counts for no page.
        ("another_slot", {2: [(5, slot(3, 9, 2, 6)[1])]}, [], 0),
        ("another_die", {2: [(5, slot(3, 9, 1, 5)[1])]}, [], 0),
        ("a_page_that_is_not_there", {2: [slot(12, 9, 2, 7)]}, [], 0),
        ("sequence_number_0", {2: [slot(5, 0, 2, 7)]}, [], 0),
        ("sequence_number_2_to_62", {2: [slot(5, 2 ** 62, 2, 7)]}, [], 0),
        ("kind_2", {2: [slot(5, 1, 2, 7, 2)]}, [], 0),
        ("a_hole_of_version_1", {2: [slot(5, 1, 2, 7, HOLE, version=1)]}, [], 0),
        ("a_hole_with_bytes", {2: [slot(5, 1, 2, 7, HOLE, payload=ZEROS[1:] + b"\1")]}, [], 0),
        ("zeros", {2: [(7, bytes(576))]}, [], 0),
        *((f"torn_at_byte_{at}", {2: [torn(slot(5, 1, 2, 7, payload=PATTERN), at)]}, [], 0)
          for at in (0, 255, 511, 512, 515, 519, 527, 535, 539, 543, 544, 560, 575)),
        *((f"hole_torn_at_byte_{at}", {2: [torn(slot(5, 1, 2, 7, HOLE), at)]}, [], 0) for at in (0, 511, 519, 575)),
        *((f"erased_slot_torn_at_byte_{at}", {2: [torn((7, b"\xff" * 576), at)]}, [], 0) for at in (0, 575)),
    ]
    for name, written, wanted, thin in rows:
        text = "".join(f"{line}\n" for line in wanted)
        steps = [dump(text), check(lines(4, 3, 1, 1, True, len(wanted), thin)), dump(text, "--unclean")]
        yield Case(f"slots/{name}", steps, files(slots=written))

    # Page 5, write 7, on die 3 in slot 17, byte by byte as docs/FORMATS.md has it: in both versions, and a hole.
    for name, payload, hole, words in [
            ("version_2", PATTERN, "", "534c5432 00000000 0000000000000005 0000000000000007 0000000300000011"
             "717be482b490fbe344577670aac2481e9897d294078fc139093e9be75c29aa44"),
            ("version_1", PATTERN, "", "534c5431 00000000 0000000000000005 0000000000000007 0000000300000011"
             "397429a40d079a1fbd538e2e65a94c34e3747f187441d318c09e5fdec4a12fb2"),
            ("hole", ZEROS, " hole", "534c5432 00000001 0000000000000005 0000000000000007 0000000300000011"
             "84b5bac50928fbb5012276a7638c7c50fa2c1e18d51a626c2368b0bae45715b6")]:
        yield Case(f"slots/documented_{name}", [dump(f"page 5 seq 7{hole} at 3:17\n")],
                   files(FOUR, slots={3: [(17, payload + bytes.fromhex(words))]}))

    # Pages of 4,096 bytes, with the greatest numbers that fit.
    wide = (4, 0, 4, 4, 8)
    last = slot(7, 2 ** 62 - 1, 3, 15, payload=b"\xff" * 4096)
    made = {SETTINGS: settings_text(ARRAY, DIES, wide, page_bytes=4096)}
    for die in range(4):
        written = dict([last]) if die == 3 else {}
        made[f"d{die}.img"] = image_bytes(header(die, wide, page_bytes=4096), 16, written, page_bytes=4096)
    yield Case("slots/pages_of_4096_bytes", [dump(f"page 7 seq {2 ** 62 - 1} at 3:15\n")], made)

    # The largest die, of 1,048,576 slots: its file has holes, which read as zeros, and so as slots that are bad.
    largest = (2, 0, 4096, 256, 1048064)
    found = advice.image("d1.img", "No such file or directory")
    yield Case("slots/largest_die", [
        sparse("d0.img", header(0, largest), 1 << 20, slot(1048063, 1, 0, (1 << 20) - 1)),
        dump("page 1048063 seq 1 at 0:1048575\n", "--unclean", errors=(found,)),
        check(lines(2, 1, 0, 1, False, 1, 0), "--unclean", errors=(found,))],
        {SETTINGS: settings_text(ARRAY, DIES[:2], largest)}, long=True)

    # Thin are the pages with fewer copies than are to be, and than there are live dies.
    three = {0: [slot(0, 1, 0, 0), slot(1, 2, 0, 1)], 1: [slot(0, 1, 1, 0), slot(1, 2, 1, 1)], 2: [slot(1, 2, 2, 1)]}
    eight = (4, 1, 4, 4, 8)
    yield Case("slots/three_copies_are_to_be", [check(lines(4, 3, 1, 1, True, 2, 1))], files(eight, slots=three, copies=3))
    yield Case("slots/two_copies_are_to_be", [check(lines(4, 3, 1, 1, True, 2, 0))], files(eight, slots=three, copies=2))
    missing = advice.image("d2.img", "No such file or directory")
    yield Case("slots/three_copies_and_two_live_dies", [check(lines(4, 2, 1, 1, False, 2, 0), "--unclean", errors=(missing,))],
               files(eight, headers={2: None}, slots=three, copies=3))


# ---- JSON

def die_row(die, state="live", path=True, epoch=1, clean=True, erased=16, current=0, stale=0):
    return {"die": die, "path": f"d{die}.img" if path else None, "state": state, "epoch": epoch, "clean": clean,
            "erased": erased, "current": current, "stale": stale}


def spare_row(die):
    return die_row(die, "spare", epoch=0)


def documents():
    written = {0: [slot(5, 2, 0, 7, HOLE)], 1: [slot(5, 1, 1, 0)], 2: [slot(5, 1, 2, 2), slot(6, 1, 2, 3)]}
    table = [die_row(0, erased=15, current=1), die_row(1, erased=15, stale=1), die_row(2, erased=14, current=1, stale=1),
             spare_row(3)]
    array = {"dies": 4, "live": 3, "spare": 1, "epoch": 1, "clean": True, "written": 2, "thin": 2, "table": table}
    pages = [{"page": 5, "seq": 2, "kind": "hole", "copies": [{"die": 0, "slot": 7}]},
             {"page": 6, "seq": 1, "kind": "data", "copies": [{"die": 2, "slot": 3}]}]
    yield Case("json/check", [check(document(array), "--json")], files(slots=written))
    yield Case("json/dump", [dump(document({"pages": pages, "table": table}), "--json")], files(slots=written))
    empty = [*(die_row(die) for die in range(3)), spare_row(3)]
    yield Case("json/dump_of_a_new_array", [dump(document({"pages": [], "table": empty}), "--json")], files())
    # What is not known of a die that has no image is null.
    missing = advice.image("d1.img", "No such file or directory")
    unknown = die_row(1, "missing", False, None, None, None, None, None)
    rows = [die_row(0), unknown, die_row(2, clean=False), spare_row(3)]
    array = {"dies": 4, "live": 2, "spare": 1, "epoch": 1, "clean": False, "written": 0, "thin": 0, "table": rows}
    yield Case("json/a_missing_die", [check(document(array), "--unclean", "--json", errors=(missing,))],
               files(headers={1: None, 2: header(2, clean=False)}))
    # Dies that are out, by the mask of the greatest epoch, and a spare that is in use: their slots are not read.
    out = {"erased": None, "current": None, "stale": None}
    rows = [die_row(0, "out", **out), die_row(1, epoch=2), die_row(2, "out", clean=False, **out),
            die_row(3, "out", epoch=0, **out)]
    array = {"dies": 4, "live": 1, "spare": 0, "epoch": 2, "clean": True, "written": 0, "thin": 0, "table": rows}
    yield Case("json/dies_that_are_out", [check(document(array), "--json")],
               files(headers={1: header(1, epoch=2, mask=2), 2: header(2, clean=False)}, slots={3: [slot(0, 50, 3, 15)]}))
    # A path with characters that JSON escapes, and images in another order: each row has its own die's path.
    names = ["d3.img", 'q\\"1.img', "d0.img", "d2.img"]
    made = files(names=['d3.img', 'q\\\\\\"1.img', "d0.img", "d2.img"])
    made[names[1]] = made.pop("d1.img")
    rows = [die_row(0), {**die_row(1), "path": names[1]}, die_row(2), spare_row(3)]
    array = {"dies": 4, "live": 3, "spare": 1, "epoch": 1, "clean": True, "written": 0, "thin": 0, "table": rows}
    yield Case("json/paths", [check(document(array), "--json")], made)
    yield Case("json/a_refusal", [check("mount: 1 header bad\n", "--json", status=1, errors=("d0.img: header bad",))],
               files(headers={0: bytes(112)}))


def cases():
    for made in (formats, paths, lengths, headers, recovering, slots, documents):
        yield from made()
