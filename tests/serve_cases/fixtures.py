"""Arrays of former versions, closed and killed: each is mounted, and holds what it is to hold."""
import os
import shutil

from serve_cases import case
from servers import Array, ensure, equal, same_bytes

FIXTURES = os.path.join(os.path.dirname(os.path.dirname(os.path.abspath(__file__))), "fixtures")
WORDS = {"closed": (), "killed": ("--recover",)}


def fixtures():
    """The folder of each array, by its version and its name."""
    versions = sorted(it for it in os.listdir(FIXTURES) if os.path.isdir(os.path.join(FIXTURES, it)))
    return [(version, name, os.path.join(FIXTURES, version, name)) for version in versions for name in sorted(WORDS)]


@case
def of_each_version(make):
    """It is read, written, closed and read again. The killed one is refused without a word for it."""
    kind = make(formatted=False)
    ensure(fixtures(), "there is no array of any version")
    for version, name, folder in fixtures():
        here = kind.path(f"{version} {name}")
        shutil.copytree(folder, here)
        array = Array(kind.program, here, formatted=False, settings=False)
        with open(array.path("disk"), "rb") as it:
            disk = bytearray(it.read())
        if name == "killed":
            equal(array.run("check"), (1, "mount: 5 unclean\n"), f"what check says of the killed array of {version}")
        told = array.run("dump", *WORDS[name])
        equal(told[0], 0, f"the status of dump for the {name} array of {version}")
        with array.serve(*WORDS[name]) as server:
            with server.client() as client:
                same_bytes(client.read(0, len(disk)), disk, f"the {name} array of {version}")
                disk[700:1800] = bytes(range(220)) * 5
                client.write(700, disk[700:1800])
            server.stop()
        with array.serve() as server:
            with server.client() as client:
                same_bytes(client.read(0, len(disk)), disk, f"the {name} array of {version}, closed and mounted again")
            server.stop()
