"""Slots and headers of which one bit is changed, for each of their bits: such a slot is bad, and such a header none. Both are written from
docs/FORMATS.md alone.
"""
import os

from cases import Case, Run, document
from cases.arrays import ARRAY, SETTINGS, check, die_row, dump
from images import ERASED, header_bytes, image_bytes, settings_text, slot_bytes

LAB = "flasharr_lab"
# A die has a slot for each bit of a slot: 18 blocks of 256.
SHAPE = (4, 0, 18, 256, 64)
COUNT = 18 * 256
PATTERN = bytes((7 * i + 3) % 256 for i in range(512))
# What the slots of each die have: data in version 1, data in version 2, and a hole, each write with a number of its own. Those of die 3
# are erased.
KINDS = [{"payload": PATTERN, "version": 1}, {"payload": PATTERN}, {"payload": bytes(512), "kind": 1}]
PAGES = 64


def flipped(data, bit):
    """The bytes with one bit changed."""
    at = bit // 8
    return data[:at] + bytes([data[at] ^ 1 << bit % 8]) + data[at + 1:]


def slot_of(die, slot):
    """What a slot of a die has."""
    if die == 3:
        return ERASED * 576
    return slot_bytes(slot % PAGES, die * COUNT + slot + 1, die, slot, **KINDS[die])


def images(change):
    """A step that makes the images. Each slot is what `change` makes of it, by its number."""
    def make(folder):
        for die in range(4):
            slots = {at: change(slot_of(die, at), at) for at in range(COUNT)}
            content = image_bytes(header_bytes(die, SHAPE, ARRAY, mask=15), COUNT, slots)
            with open(os.path.join(folder, f"d{die}.img"), "wb") as out:
                out.write(content)
    return make


def told(written, *rows):
    """What `check` tells in JSON of the four dies: of each how many slots are erased, current and stale."""
    table = [die_row(die, erased=erased, current=current, stale=stale) for die, (erased, current, stale) in enumerate(rows)]
    array = {"dies": 4, "live": 4, "spare": 0, "epoch": 1, "clean": True, "written": written, "thin": written, "table": table}
    return check(document(array), "--json")


def slots():
    """Each bit of a slot is changed in one slot of each die. Before that all are good: of each page the last hole counts."""
    holes = "".join(f"page {page} seq {3 * COUNT - PAGES + page + 1} hole at 2:{COUNT - PAGES + page}\n" for page in range(PAGES))
    names = [f"d{die}.img" for die in range(4)]
    return Case("each_bit_of_a_slot", [
        images(lambda data, at: data), dump(holes),
        told(PAGES, (0, 0, COUNT), (0, 0, COUNT), (0, PAGES, COUNT - PAGES), (COUNT, 0, 0)),
        images(flipped), dump(""), told(0, *[(0, 0, COUNT)] * 4)],
        {SETTINGS: settings_text(ARRAY, names, SHAPE)})


ALL_LIVE = " ".join(map(str, range(64)))
# Headers that another program made, each with what is told of it: die 1 of four live dies, a spare, and one whose numbers are all
# the greatest.
HEADERS = [
    ("format_1", "464c534841525231 00000001 00000001 00000004 00000000 00000010 00000008 00000200 00000001"
     "0000000000000040 0000000000000001 000000000000000f 00112233445566778899aabbccddeeff"
     "26058a8f37219832fff9cda8a5e1ac82676ee7a8f5dbe7e87191b8a05e1fcf50",
     "format 1 epoch 1 live 0 1 2 3 clean"),
    ("format_2", "464c534841525231 00000002 00000001 00000004 00000000 00000010 00000008 00000200 00000001"
     "0000000000000040 0000000000000001 000000000000000f 00112233445566778899aabbccddeeff"
     "f6ccef6554a126eccc159203b344e507ccb922cd978afc9556eda801c16a3b8d",
     "format 2 epoch 1 live 0 1 2 3 clean"),
    ("spare_of_format_1", "464c534841525231 00000001 00000003 00000004 00000001 00000010 00000008 00000200 00000003"
     "0000000000000040 0000000000000000 0000000000000000 00112233445566778899aabbccddeeff"
     "b148e04db63939c92b608934e002e419929d05cae12fc0c534ee6a2479203fd7",
     "format 1 epoch 0 live clean"),
    ("spare_of_format_2", "464c534841525231 00000002 00000003 00000004 00000001 00000010 00000008 00000200 00000003"
     "0000000000000040 0000000000000000 0000000000000000 00112233445566778899aabbccddeeff"
     "69dcc9a26c370649f9ff15008b58400fc1146ea8e9fa68954a1a9434770552fe",
     "format 2 epoch 0 live clean"),
    ("greatest_numbers", "464c534841525231 00000001 0000003f 00000040 00000000 00001000 00000100 00001000 00000000"
     "0000000000100000 4000000000000000 ffffffffffffffff 00112233445566778899aabbccddeeff"
     "5c6e3f9329b8dc8a143dadd45bee3fcedb3fcbaa2cdfc1f486f806d1e216cb56",
     f"format 1 epoch {2 ** 62} live {ALL_LIVE} not clean"),
]


def header(name, words, said):
    """A header, and each that differs from it in one bit, are written and looked at."""
    good = bytes.fromhex(words)
    wanted = [(good, said), *((flipped(good, bit), "no header") for bit in range(8 * len(good))), (good, said)]
    text = "".join(f"write header 0 {found.hex()}\nheader 0\n" for found, _ in wanted)
    answers = "".join(f"written\n{answer}\n" for _, answer in wanted)
    images = "images dies 2 spares 0 blocks 4 slots 4 bytes 512 pages 8"
    return Case(f"each_bit_of_a_header/{name}", [Run((), f"made\n{answers}", input=f"{images}\n{text}")], program=LAB)


def cases():
    yield slots()
    yield from (header(*row) for row in HEADERS)
