"""Image files of an array, written from docs/FORMATS.md alone, and settings for them."""
import hashlib
import struct

ERASED = b"\xff"
HEADER_END = 4096
TAG_BYTES = 64


def header_bytes(die, geometry, array, *, page_bytes=512, form=2, clean=True, spare=False, epoch=1, mask=0, marks=None):
    """The 112 bytes of a header. A geometry is dies, spares, blocks, slots and pages."""
    dies, spares, blocks, slots, pages = geometry
    marks = clean | spare << 1 if marks is None else marks
    body = b"FLSHARR1" + struct.pack(">8I", form, die, dies, spares, blocks, slots, page_bytes, marks)
    body += struct.pack(">3Q", pages, epoch, mask) + array
    return body + hashlib.sha256(body).digest()


def slot_bytes(page, seq, die, slot, payload, *, version=2, kind=0):
    """The bytes of a slot. Kind 1 is a hole."""
    letters = b"SLT1" if version == 1 else b"SLT2"
    body = payload + letters + struct.pack(">I3Q", kind, page, seq, die << 32 | slot)
    return body + hashlib.sha256(body).digest()


def image_bytes(header, count, slots=None, *, page_bytes=512, gap=bytes(HEADER_END - 112)):
    """An image of so many slots, all of them erased but those that are given by their numbers."""
    erased = ERASED * (page_bytes + TAG_BYTES)
    return header + gap + b"".join((slots or {}).get(at, erased) for at in range(count))


def settings_text(array, images, geometry, *, page_bytes=512, copies=None):
    """The settings of an array with these paths of images."""
    dies, spares, blocks, slots, pages = geometry
    names = ", ".join(f'"{image}"' for image in images)
    text = (f'array = "{array.hex()}"\nimages = [{names}]\ndies = {dies}\nspares = {spares}\nblocks = {blocks}\n'
            f'slots = {slots}\npage_bytes = {page_bytes}\npages = {pages}\n')
    if copies is not None:
        text += f"copies = {copies}\n"
    return text + 'window_rounds = 8\nlisten = "127.0.0.1:10809"\nexport = "disk"\nsessions = 4\n'
