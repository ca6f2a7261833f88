"""How the server begins: settings, address and images that are faulty, what it prints, and its locks."""
import contextlib
import os
import random
import re
import socket

from images import header_bytes, image_bytes, slot_bytes
from nbd_client import Client, READ, TRANSMISSION_FLAGS
from serve_cases import case
from servers import ARRAY, Geometry, SETTINGS, START, ensure, equal, same_bytes, wait_until


def taken_port():
    """A socket that listens, and its port, which is below those that the system chooses for others."""
    while True:
        taken = socket.socket(socket.AF_INET, socket.SOCK_STREAM)
        with contextlib.suppress(OSError):
            taken.bind(("127.0.0.1", random.randrange(15_000, 32_000)))
            taken.listen(1)
            return taken, taken.getsockname()[1]
        taken.close()


def free_port():
    """A port at which nobody listens."""
    taken, port = taken_port()
    taken.close()
    return port


@case
def settings_that_are_faulty(make):
    array = make(sessions=17, formatted=False)
    array.wanted("settings: 5 sessions\n", "serve", status=2)
    os.remove(array.path(SETTINGS))
    array.wanted("settings: cannot read\n", "serve", status=2)


@case
def settings_come_before_the_address(make):
    taken, port = taken_port()
    with taken:
        make(port=port, sessions=0, formatted=False).wanted("settings: 5 sessions\n", "serve", status=2)


@case
def an_address_that_is_taken(make):
    taken, port = taken_port()
    with taken:
        make(port=port).wanted("listen: failed\n", "serve", status=1)


@case
def a_taken_address_is_told_with_what_to_do(make):
    taken, port = taken_port()
    with taken, make(port=port).start_below_launcher() as server:
        equal(server.process.wait(START), 1, "the status")
        ensure(wait_until(lambda: server.is_told("choose another address for listen"), 5), f"what is told: {server.errors}")


@case
def the_address_comes_before_the_images(make):
    taken, port = taken_port()
    with taken:
        make(port=port, formatted=False).wanted("listen: failed\n", "serve", status=1)


@case
def an_image_that_is_missing(make):
    array = make()
    os.remove(array.image(2))
    array.wanted("mount: 7 image fault\n", "serve", status=1)


@case
def a_header_that_is_bad(make):
    array = make()
    with open(array.image(1), "r+b") as it:
        it.write(b"X")
    array.wanted("mount: 1 header bad\n", "serve", status=1)


@case
def an_address_of_its_own(make):
    """Port 0 lets the system choose; a port that the settings name is the one that is told."""
    array = make()
    with array.serve() as server:
        ensure(server.address[1] != 0, "the address that is told has port 0")
        server.client().leave()
        server.stop()
    port = free_port()
    array = make(port=port)
    with array.serve() as server:
        equal(server.address, ("127.0.0.1", port), "the address")
        server.client().leave()
        server.stop()


@case
def the_same_address_at_once_again(make):
    array = make(port=free_port())
    for _ in range(3):
        with array.serve() as server:
            client = server.client()
            client.write(0, b"x" * 512)
            server.stop()
            client.close()


@case
def images_are_locked(make):
    array = make()
    with array.serve() as server:
        array.wanted("mount: 7 image fault\n", "check", status=1)
        equal(array.run("format")[0], 1, "the status of format while the array is served")
        with server.client() as client:
            equal(client.read(0, 512), bytes(512), "page 0")
        server.stop()
    array.checked(dies=4, live=4, spare=0, written=0, thin=0)


@case
def one_page_and_a_stop(make):
    """A client writes page 3, reads it back and disconnects, and the server is stopped."""
    array = make()
    with array.serve() as server:
        client = server.client()
        equal((client.size, client.flags), (64 * 512, TRANSMISSION_FLAGS), "size and flags")
        client.write(3 * 512, b"\xab" * 512)
        same_bytes(client.read(3 * 512, 512), b"\xab" * 512, "page 3")
        client.leave()
        equal(server.stop(), ["closed clean"], "what is printed at the stop")
    told = array.checked(dies=4, live=4, spare=0, written=1, thin=0)
    ensure(told["epoch"] >= 1, "the epoch is 0")
    array.has_copies_of(bytes(3 * 512) + b"\xab" * 512 + bytes(60 * 512))


@case
def three_copies_and_larger_pages(make):
    array = make(Geometry(dies=4, blocks=8, slots=16, pages=64, page_bytes=4096), copies=3, export="a disk")
    content = os.urandom(64 * 4096)
    with array.serve() as server:
        with Client(server.address) as client:
            client.go(b"a disk")
            client.write(0, content)
            same_bytes(client.read(0, len(content)), content, "the disk")
        server.stop()
    array.checked(written=64, thin=0)
    array.has_copies_of(content)


@case
def content_after_a_restart(make):
    array = make()
    content = bytearray(os.urandom(array.geometry.size))
    epochs = [array.check()["epoch"]]
    for step in range(4):
        with array.serve() as server:
            with server.client() as client:
                if step == 0:
                    client.write(0, content)
                same_bytes(client.read(0, len(content)), bytes(content), f"the disk at start {step}")
                at = 1000 * step
                content[at:at + 700] = os.urandom(700)
                client.write(at, content[at:at + 700])
                client.trim(8192 * step, 4096)
                content[8192 * step:8192 * step + 4096] = bytes(4096)
            server.stop()
        epochs.append(array.checked(live=4, written=64, thin=0)["epoch"])
        array.has_copies_of(bytes(content))
    equal(epochs, sorted(epochs), "the epochs")


@case
def after_a_kill(make):
    """A server that is killed leaves an unclean array. What was answered is there with --unclean, and the next stop is clean."""
    array = make()
    content = os.urandom(array.geometry.size)
    with array.serve() as server:
        client = server.client()
        client.write(0, content)
        client.flush()
        server.kill()
        client.close()
    array.wanted("mount: 5 unclean\n", "serve", status=1)
    equal(array.check("--unclean")["clean"], False, "whether the array is clean")
    with array.serve("--unclean") as server:
        with server.client() as client:
            same_bytes(client.read(0, len(content)), content, "the disk")
        server.stop()
    array.checked(live=4, written=64, thin=0)
    array.has_copies_of(content)


@case
def recovered_after_kills(make):
    """A server that is killed while it works starts again with --recover, again and again, with all that was answered."""
    array = make()
    content = bytearray(array.geometry.size)
    for _ in range(4):
        with array.serve("--recover") as server:
            client = server.client()
            same_bytes(client.read(0, len(content)), bytes(content), "the disk")
            for _ in range(40):
                page = random.randrange(array.geometry.pages)
                content[page * 512:page * 512 + 512] = os.urandom(512)
                client.write(page * 512, bytes(content[page * 512:page * 512 + 512]))
            server.kill()
            client.close()
        array.wanted("mount: 5 unclean\n", "serve", status=1)
        equal(array.check("--recover")["clean"], False, "whether the array is clean")
    with array.serve("--recover") as server:
        with server.client() as client:
            same_bytes(client.read(0, len(content)), bytes(content), "the disk")
        ensure(os.path.exists(array.path("array.toml.lost")), "there is no file of lost pages while a server runs")
        server.stop()
    ensure(not os.path.exists(array.path("array.toml.lost")), "an empty file of lost pages is left")
    array.checked(live=4)
    array.has_copies_of(bytes(content))


@case
def no_file_of_lost_pages(make):
    """A server whose file of lost pages cannot be opened does not start."""
    array = make()
    os.mkdir(array.path("array.toml.lost"))
    array.wanted("mount: 7 image fault\n", "serve", status=1)
    os.rmdir(array.path("array.toml.lost"))
    with array.serve() as server:
        server.stop()
    array.checked(live=4)


@case
def not_recovered_without_a_die(make):
    """With --recover an array whose server was killed is not taken without one of its dies, and is taken with it."""
    array = make()
    content = os.urandom(array.geometry.size)
    with array.serve("--recover") as server:
        with server.client() as client:
            client.write(0, content)
            client.flush()
        server.kill()
    os.rename(array.image(2), array.path("away"))
    for command in "serve", "check", "dump":
        array.wanted("mount: 5 unclean\n", command, "--recover", status=1)
    os.rename(array.path("away"), array.image(2))
    with array.serve("--recover") as server:
        with server.client() as client:
            same_bytes(client.read(0, len(content)), content, "the disk")
        server.stop()
    array.checked(live=4, written=64, thin=0)
    array.has_copies_of(content)


def formats(array):
    """The format of each image's header, which is its third word."""
    found = []
    for die in range(array.geometry.dies):
        with open(array.image(die), "rb") as image:
            found.append(int.from_bytes(image.read(12)[8:], "big"))
    return found


@case
def images_of_format_1(make):
    """Eight pages in images of the older format are served, and once the array was closed each header is of format 2."""
    array = make(formatted=False)
    of = array.geometry
    pages = [os.urandom(of.page_bytes) for page in range(8)]
    slots = [{} for die in range(of.dies)]
    for page, content in enumerate(pages):
        for die in (page % of.dies, (page + 1) % of.dies):
            at = len(slots[die])
            slots[die][at] = slot_bytes(page, page + 1, die, at, content, version=1)
    for die in range(of.dies):
        header = header_bytes(die, (of.dies, of.spares, of.blocks, of.slots, of.pages), ARRAY, form=1, mask=(1 << of.dies) - 1)
        with open(array.image(die), "wb") as image:
            image.write(image_bytes(header, of.blocks * of.slots, slots[die]))
    content = b"".join(pages) + bytes(of.size - 8 * of.page_bytes)
    epochs = [array.checked(live=4, written=8, thin=0)["epoch"]]
    equal(formats(array), [1] * of.dies, "the formats before")
    for start in range(2):
        with array.serve() as server:
            with server.client() as client:
                same_bytes(client.read(0, len(content)), content, f"the disk at start {start}")
            equal(server.stop(), ["closed clean"], "what is printed at the stop")
        epochs.append(array.checked(live=4, written=8, thin=0)["epoch"])
        equal(formats(array), [2] * of.dies, f"the formats after start {start}")
        array.has_copies_of(content, version=1)
    equal(epochs, sorted(set(epochs)), "the epochs")


@case
def unclean_where_it_is_not_needed(make):
    array = make()
    with array.serve("--unclean") as server:
        with server.client() as client:
            equal(client.request(READ, 0, 512), (0, bytes(512)), "the answer to a READ")
        server.stop()
    array.checked(live=4)


@case
def a_die_that_is_missing_from_the_start(make):
    """With --unclean an array is served without one of its images, and its pages get their copies on the other dies."""
    array = make()
    content = os.urandom(array.geometry.size)
    with array.serve() as server:
        with server.client() as client:
            client.write(0, content)
        server.stop()
    os.rename(array.image(1), array.path("away"))
    array.wanted("mount: 7 image fault\n", "serve", status=1)
    with array.serve("--unclean") as server:
        with server.client() as client:
            same_bytes(client.read(0, len(content)), content, "the disk")
        os.rename(array.path("away"), array.image(1))
        array.heals(3)
        server.stop()
    array.checked(dies=4, live=3, spare=0, written=64, thin=0)
    array.has_copies_of(content)


@case
def verbose_tells_of_clients(make):
    array = make()
    for words, more in ((), False), (("--verbose",), True):
        with array.serve(*words) as server:
            before = len(server.errors)
            client = server.client()
            client.leave()
            told = wait_until(lambda: len(server.errors) >= before + 2, 5 if more else 0.5)
            equal(told, more, f"whether a client that came and went is told with {words}; standard error: {server.errors}")
            server.stop()


@case
def it_is_in_the_help(make):
    array = make(formatted=False)
    for words in (), ("serve",):
        status, text = array.run_words(*words, "--help")
        ensure(status == 0 and re.search(r"\bserve\b", text), f"help of {words or 'the program'}: {status} {text!r}")
    equal(array.run_words("serve")[0], 2, "the status of serve without settings")
    equal(array.run_words("serve", SETTINGS, "--json")[0], 2, "the status of serve with --json")
