"""Image files of which the system writes nothing behind a length, while the laboratory has them open."""
import resource

from cases.files import ARRAY, FILE, FOUR, case, images, over, page_of, slot_at
from images import header_bytes, image_bytes, slot_bytes


def limit(desk, length):
    """From now on the system refuses to write behind this length of a file; with None it takes all again."""
    _, most = resource.getrlimit(resource.RLIMIT_FSIZE)
    resource.prlimit(desk.lab.process.pid, resource.RLIMIT_FSIZE, (most if length is None else length, most))


def nothing_is_written(desk):
    """What is written is refused, and counted; what is there is read, and stays. Of a slot the file takes the first bytes, and no more."""
    whole = image_bytes(header_bytes(0, FOUR, ARRAY, mask=15), 128, {3: slot_bytes(5, 7, 0, 3, page_of(90))})
    for line, answer in ((images(FOUR), "made"), ("bare", "made"), ("put 0 3 5 7 90", "written")):
        desk.ask(line, answer)
    limit(desk, 0)
    header = header_bytes(0, FOUR, ARRAY, epoch=2, mask=3)
    for line, answer in (("put 0 4 6 8 1", "not written"), (f"write header 0 {header.hex()}", "refused: the header could not be written"),
                         ("old slot 0 4 6 8 1", "not written"), ("bare write 3 1 1", "no slot"), ("bare erase 1 1", "no slot"),
                         ("faults", "faults 3 3 0 0 0 0 0 0 0 0 0 0"), ("slot 0 3", "page 5 seq 7 of 90"), ("slot 0 4", "erased"),
                         ("header 0", "format 2 epoch 1 live 0 1 2 3 clean"), ("bare read 3 1", "done")):
        desk.ask(line, answer)
    desk.has("die-0", whole)
    desk.has("bare", bytes(FILE))
    limit(desk, slot_at(4) + 100)
    for line, answer in (("put 0 4 6 8 1", "not written"), ("slot 0 4", "bad"), ("faults", "faults 4 4 0 0 0 0 0 0 0 0 0 0")):
        desk.ask(line, answer)
    desk.has("die-0", over(whole, (slot_at(4), slot_bytes(6, 8, 0, 4, page_of(1))[:100])))
    limit(desk, None)
    desk.ask("put 0 4 6 8 1", "written")
    desk.has("die-0", over(whole, (slot_at(4), slot_bytes(6, 8, 0, 4, page_of(1)))))


def cases():
    yield case("nothing_is_written", nothing_is_written)
