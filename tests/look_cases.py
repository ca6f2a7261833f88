"""Looks at a running server by programs of others: curl, promtool, and a browser that takes pictures of the page while a die is lost."""
import json
import os
import struct
import threading
import time

from call_log import SYNC_NANOSECONDS, CallLog, compiled
from children import CHILDREN
from serve_cases.looks import ANYWHERE, document, looks_at
from servers import Geometry, ensure, equal, wait_until

DISK = Geometry(dies=5, spares=1, blocks=64, slots=64, pages=6000, page_bytes=4096)
LIMIT = 120
WIDTHS = 400, 1400


def ran(*words, **how):
    """What a command prints. It has to end well."""
    status, told = CHILDREN.run(words, LIMIT, text=True, errors="backslashreplace", **how)
    ensure(status == 0, f"{' '.join(words)[:300]} ended with {status}: {told[-800:]}")
    return told


def asked_by_curl(make):
    """Each answer, with its status."""
    array = make(DISK)
    with array.serve(*ANYWHERE) as server:
        where = "http://{}:{}".format(*looks_at(server))
        for path, status in ("/", 200), ("/metrics", 200), ("/status.json", 200), ("/none", 404):
            told = ran("curl", "-s", "-o", array.path("answer"), "-w", "%{http_code} %{size_download}", where + path)
            code, size = map(int, told.split())
            equal(code, status, f"the status of {path}")
            equal(size, os.path.getsize(array.path("answer")), f"the size of {path}")
        for words, status in (("-X", "DELETE"), 405), (("--data-binary", "@" + array.image(0)), 413):
            equal(ran("curl", "-s", "-o", "/dev/null", "-w", "%{http_code}", *words, where + "/"), str(status), f"the status of {words}")
        server.stop()


def metrics_by_promtool(make):
    """What Prometheus' own tool says of the text."""
    array = make(DISK)
    with array.serve(*ANYWHERE) as server:
        where = "http://{}:{}/metrics".format(*looks_at(server))
        with server.client() as client:
            client.write(0, bytes(65_536))
            client.read(0, 65_536)
        ran("curl", "-s", "-o", array.path("metrics"), where)
        with open(array.path("metrics"), "rb") as text:
            equal(ran("promtool", "check", "metrics", stdin=text), "", "what promtool says of the metrics")
        server.stop()


def size_of(picture):
    """The width and the height of a PNG."""
    with open(picture, "rb") as it:
        head = it.read(24)
    ensure(head[:8] == b"\x89PNG\r\n\x1a\n", f"{picture} is no PNG")
    return struct.unpack(">II", head[16:24])


def page_in_a_browser(make):
    """Pictures of the page before a die is lost, while its copies are made, and behind that, in two widths. They stay in $FLASHARR_PICTURES."""
    array = make(DISK)
    folder = os.environ.get("FLASHARR_PICTURES", array.folder)
    stop = threading.Event()

    def load(server):
        with server.client() as client:
            while not stop.is_set():
                client.write(int.from_bytes(os.urandom(4), "big") % (DISK.pages - 4) * 4096, os.urandom(16_384))
                client.read(0, 65_536)
                time.sleep(0.002)

    def pictures(where, moment):
        for width in WIDTHS:
            picture = os.path.join(folder, f"{moment}-{width}.png")
            ran("chromium-headless-shell", "--no-sandbox", "--disable-gpu", "--hide-scrollbars", f"--window-size={width},1400",
                "--timeout=15000", f"--screenshot={picture}", where)
            equal(size_of(picture)[0], width, f"the width of {picture}")
            text = ran("chromium-headless-shell", "--no-sandbox", "--disable-gpu", f"--window-size={width},1400", "--timeout=15000",
                       "--virtual-time-budget=3000", "--dump-dom", where)
            ensure("die 4" in text and ">the server gives no answer<" not in text, f"the page at {moment} shows no dies")

    with array.serve(*ANYWHERE) as server:
        address = looks_at(server)
        where = "http://{}:{}/".format(*address)
        worker = threading.Thread(target=load, args=(server,))
        worker.start()
        try:
            time.sleep(5)
            pictures(where, "before")
            array.take_away(1)
            ensure(wait_until(lambda: document(address)["out"] == 1, 20), "die 1 did not go out")
            pictures(where, "lost")
            ensure(wait_until(lambda: document(address)["thin"] == 0, 60), "the copies were not made")
            pictures(where, "healed")
        finally:
            stop.set()
            worker.join()
        told = json.loads(ran("curl", "-s", where + "status.json"))
        equal([fault["die"] for fault in told["faults"]], [1], "the faults")
        server.stop(faults=[1])


def a_disk_that_is_slow(make):
    """A call of an image that lasts is told while it does: for how long by those who look, and once on standard error."""
    array = make(DISK)
    log = CallLog(compiled(array.folder), array.folder, is_logged=False)
    with array.serve(*ANYWHERE, env=log.environment()) as server:
        address = looks_at(server)
        with server.client() as client:
            client.write(0, bytes(4096))
            log.put(SYNC_NANOSECONDS, 4_000_000_000)
            flush = threading.Thread(target=client.flush)
            flush.start()

            def slow():
                return [die["slow_milliseconds"] for die in document(address)["table"] if die["slow_milliseconds"]]

            ensure(wait_until(slow, 3), "no call is told as slow")
            first = slow()
            ensure(all(1000 <= it < 4000 for it in first), f"calls are told to have lasted for {first} milliseconds")
            time.sleep(0.5)
            ensure(max(slow()) > max(first), "it is not told that the call lasts longer")
            log.put(SYNC_NANOSECONDS, 0)
            flush.join()
            ensure(wait_until(lambda: not slow(), 2), "calls are told as slow that have ended")
        told = [line for line in server.errors if "has lasted for more than a second" in line]
        equal(len(told), len(set(told)), "how often a call is told")
        ensure(told, "no call is told on standard error")
        server.stop()


CASES = [(asked_by_curl, {"curl"}), (metrics_by_promtool, {"curl", "promtool"}), (page_in_a_browser, {"curl", "chromium-headless-shell"}),
         (a_disk_that_is_slow, {"cc"})]
