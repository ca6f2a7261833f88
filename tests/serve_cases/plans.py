"""The file of plans: what a server writes into it while it is read from, a die is lost and its collectors move pages, and what is there before."""
import json
import os
import random
import re
import subprocess

from children import CHILDREN
from nbd_client import EIO, READ
from serve_cases import case
from serve_cases.looks import ANYWHERE, document, looks_at
from servers import Geometry, ensure, equal, wait_until

LOG = "plans.log"
TELLS = re.compile(r"plans (\d+) least (\d+) refused (\d+) rounds (\d+)\n")
TIGHT = Geometry(dies=5, spares=1, blocks=12, slots=8, pages=96)
READER = os.path.join(os.path.dirname(os.path.dirname(os.path.abspath(__file__))), "plans_second_reader")
# How many pages are read at once.
PAGES = 16


def verified(array, name=LOG):
    """What `verify --log` tells of a file whose plans are all least: how many there are."""
    status, text = array.run_words("verify", "--log", name)
    found = TELLS.fullmatch(text)
    ensure(found and status == 0, f"verify ends with {status} and prints {text!r}")
    plans, least, refused, _ = map(int, found.groups())
    equal((least, refused), (plans, 0), "the plans that are least, and those that are refused")
    return plans


def second_reader(array, name=LOG):
    """The status and the output of the reader that shares no code with the program."""
    return CHILDREN.run([READER, array.path(name)], 60, text=True, cwd=array.folder, stderr=subprocess.DEVNULL)


def written(client, geometry):
    client.write(0, os.urandom(geometry.size))


def read_some(client, geometry, times, seed=1):
    """Reads of many pages from random places."""
    chance = random.Random(seed)
    size = PAGES * geometry.page_bytes
    for _ in range(times):
        client.read(chance.randrange(0, geometry.size - size + 1), size)


@case
def each_batch_is_written(make):
    array = make()
    geometry = array.geometry
    with array.serve("--plans", LOG, *ANYWHERE) as server:
        address = looks_at(server)
        with server.client() as client:
            written(client, geometry)
            client.read(0, 1)
            client.read(0, 2 * geometry.page_bytes)
            client.read(0, geometry.size)
            ensure(wait_until(lambda: document(address)["plans"]["file"]["written"] == 2, 5), f"the counts: {document(address)['plans']}")
        told = document(address)["plans"]
        equal(told["file"], {"written": 2, "dropped": 0, "unfit": 0, "failed": 0}, "the counts")
        server.stop()
    equal(verified(array), 2, "the plans of the file")
    with open(array.path(LOG), encoding="ascii") as it:
        text = it.read()
    equal(text.count("\npage "), 2 + geometry.pages, "the pages of both")
    ensure(text.startswith("batch\npage 0 on ") and text.endswith("end\n"), f"the file begins and ends otherwise: {text[:60]!r}")


@case
def each_nth_batch(make):
    array = make()
    with array.serve("--plans", LOG, "--plans-every", "10") as server:
        with server.client() as client:
            written(client, array.geometry)
            read_some(client, array.geometry, 95)
        server.stop()
    equal(verified(array), 10, "the plans of the file")


@case
def among_windows_moves_and_a_lost_die(make):
    """Pages are written anew all the while, so that the collectors have windows; the second reader agrees with `verify`."""
    array = make(TIGHT)
    size = PAGES * TIGHT.page_bytes
    with array.serve("--plans", LOG, *ANYWHERE) as server:
        address = looks_at(server)
        with server.client() as client:
            written(client, TIGHT)
            chance = random.Random(2)
            for turn in range(400):
                page = chance.randrange(TIGHT.pages)
                client.write(page * TIGHT.page_bytes, os.urandom(TIGHT.page_bytes))
                code, _ = client.request(READ, chance.randrange(0, TIGHT.size - size + 1), size)
                ensure(code in (0, EIO) if turn > 200 else code == 0, f"READ {turn} has the error {code}")
                if turn == 200:
                    array.take_away(1)
        ensure(wait_until(lambda: document(address)["thin"] == 0, 20), f"the copies were not made: {document(address)}")
        told = document(address)
        ensure(sum(die["moves"] for die in told["table"]) > 0, "no page was moved")
        equal([told["plans"]["file"][it] for it in ("dropped", "unfit", "failed")], [0, 0, 0], "the plans that were not written")
        server.stop(faults=[1])
    plans = verified(array)
    ensure(plans >= 400, f"the file has {plans} plans")
    with open(array.path(LOG), encoding="ascii") as it:
        text = it.read()
    ensure("\nclosed " in text, "no round was closed for any plan")
    equal(second_reader(array), array.run_words("verify", "--log", LOG), "what the second reader and verify end with and print")
    changed = text.replace("\nrounds ", "\nrounds 1", 1)
    array.put("changed.log", changed)
    status, told = array.run_words("verify", "--log", "changed.log")
    found = TELLS.fullmatch(told)
    ensure(found and (status, int(found.group(3))) == (1, 1), f"with a digit more verify ends with {status} and prints {told!r}")
    equal(second_reader(array, "changed.log"), (status, told), "what both tell of that file")


@case
def a_file_that_was_there(make):
    """Plans of a later server come behind those of an earlier one. What is torn at the end is taken off."""
    array = make()
    with array.serve("--plans", LOG) as server:
        with server.client() as client:
            written(client, array.geometry)
            read_some(client, array.geometry, 5)
        server.stop()
    equal(verified(array), 5, "the plans of the first server")
    with open(array.path(LOG), "rb") as it:
        whole = it.read()
    for cut in (1, 5, 30, len(whole) - whole.rindex(b"batch\n") - 3):
        with open(array.path(LOG), "wb") as out:
            out.write(whole[:-cut])
        with array.serve("--plans", LOG) as server:
            ensure(wait_until(lambda: server.is_told("the last plan was torn"), 5), f"that a plan is torn is not told: {server.errors}")
            with server.client() as client:
                read_some(client, array.geometry, 3)
            server.stop()
        equal(verified(array), 4 + 3, f"the plans behind a cut of {cut} bytes")


@case
def another_file(make):
    """A file that has no plans is left as it is, and so are the images."""
    array = make()
    for name, text in ("notes.txt", "what is to be done\n"), ("short.txt", "x"):
        array.put(name, text)
        status, printed = array.run("serve", "--plans", name)
        equal((status, printed), (1, "mount: 7 image fault\n"), "what serve ends with and prints")
        with open(array.path(name), encoding="ascii") as it:
            equal(it.read(), text, "the file")
    status, printed = array.run("serve", "--plans", "no folder/plans.log")
    equal((status, printed), (1, "mount: 7 image fault\n"), "what serve ends with and prints where the folder is missing")
    array.checked(dies=4, live=4, written=0)


@case
def a_server_that_is_killed(make):
    array = make()
    with array.serve("--plans", LOG) as server:
        with server.client() as client:
            written(client, array.geometry)
            read_some(client, array.geometry, 200)
        server.kill()
    verified(array)
    equal(array.run("check", "--recover")[0], 0, "the status of check")
