"""Those who ask by HTTP how a running array is: each answer, what it counts, and askers that hang or send what is no request."""
import http.client
import json
import os
import re
import socket
import time

from nbd_client import EINVAL, EIO, ENOSPC, READ, WRITE, Client
from serve_cases import case
from servers import Geometry, ensure, equal, wait_until

WITH_A_SPARE = Geometry(dies=5, spares=1, blocks=16, slots=16, pages=192)
ANYWHERE = "--status", "127.0.0.1:0"
TOLD = re.compile(r"flasharr: status at http://(127\.0\.0\.1):(\d+)/")
SAMPLE = re.compile(r'([a-z_]+)(?:\{([a-z]+="[^"]*"(?:,[a-z]+="[^"]*")*)\})? ([0-9.]+)')
FIRST_LINE = re.compile(r"dies 4 live 4 out 0 spare 0 missing 0 behind \d\n")
# How long an asker may hang beside others, and a look beside ones that hang, in seconds.
STAY, PATIENCE = 2, 3


def looks_at(server):
    """The address at which others may ask, as it is told on standard error."""
    ensure(wait_until(lambda: any(map(TOLD.fullmatch, list(server.errors))), 5), f"no address is told: {server.errors}")
    found = next(filter(None, map(TOLD.fullmatch, list(server.errors))))
    return found.group(1), int(found.group(2))


def asked(address, path="/", method="GET", headers=None, body=None):
    """The status, the headers and the text of an answer."""
    connection = http.client.HTTPConnection(*address, timeout=PATIENCE)
    try:
        connection.request(method, path, body=body, headers=headers or {})
        answer = connection.getresponse()
        return answer.status, dict(answer.getheaders()), answer.read().decode()
    finally:
        connection.close()


def document(address):
    status, headers, text = asked(address, "/status.json")
    equal((status, headers["content-type"]), (200, "application/json"), "the answer to /status.json")
    return json.loads(text)


def metrics(address):
    """The value of each sample, by its name and its labels. The text is looked at line by line."""
    status, headers, text = asked(address, "/metrics")
    equal((status, headers["content-type"]), (200, "text/plain; version=0.0.4; charset=utf-8"), "the answer to /metrics")
    found, kinds = {}, {}
    for line in text.splitlines():
        if line.startswith("# TYPE "):
            _, _, name, kind = line.split(" ")
            ensure(name not in kinds and kind in ("counter", "gauge", "histogram"), f"the line {line!r}")
            kinds[name] = kind
        elif not line.startswith("# HELP "):
            it = SAMPLE.fullmatch(line)
            ensure(it, f"the line {line!r}")
            name, labels, value = it.groups()
            ensure(re.sub(r"_(bucket|sum|count)$", "", name) in kinds or name in kinds, f"a sample of {name} without its type")
            ensure((name, labels) not in found, f"two samples of {name} {labels}")
            found[name, labels] = float(value)
    return found


@case
def each_answer(make):
    with make().serve(*ANYWHERE) as server:
        address = looks_at(server)
        status, headers, text = asked(address)
        equal((status, headers["content-type"]), (200, "text/html; charset=utf-8"), "the answer to /")
        ensure("src=" not in text and "http://" not in text.replace("http://www.w3.org/2000/svg", ""), "the page has outside parts")
        status, headers, text = asked(address, headers={"Accept": "text/plain"})
        equal(status, 200, "the status of the same in lines")
        ensure(FIRST_LINE.match(text), f"the lines are {text!r}")
        for path in "/", "/metrics", "/status.json":
            status, headers, text = asked(address, path, method="HEAD")
            equal((status, text), (200, ""), f"the answer to HEAD of {path}")
        for path in "/status", "/metrics/", "/..", "/index.html", "*":
            equal(asked(address, path)[0], 404, f"the answer to {path}")
        equal(asked(address, "/metrics?name=x")[0], 200, "the answer to a path with a query")
        for method in "POST", "PUT", "DELETE", "OPTIONS", "TRACE":
            status, headers, _ = asked(address, method=method)
            equal((status, headers.get("allow")), (405, "GET, HEAD"), f"the answer to {method}")
        for body in b"x", bytes(100_000):
            equal(asked(address, method="POST", body=body)[0], 413, f"the answer to a body of {len(body)} bytes")
            equal(asked(address, method="GET", body=body)[0], 413, f"the answer to GET with a body of {len(body)} bytes")
        equal(server.stop(), ["closed clean"], "what is printed behind the first line")


@case
def what_is_counted(make):
    """Requests, bytes and errors by the client's own count, and slots and calls of images by what check tells."""
    array = make()
    with array.serve(*ANYWHERE) as server:
        address = looks_at(server)
        with server.client() as client:
            client.write(0, bytes(512 * 8))
            client.write(512, b"x" * 1000)
            for _ in range(5):
                client.read(0, 2048)
            client.flush()
            for command, offset, length, data, code in ((READ, 0, 1 << 26, b"", EINVAL), (WRITE, 1 << 40, 4, b"four", ENOSPC),
                                                        (99, 0, 0, b"", EINVAL)):
                equal(client.request(command, offset, length, data)[0], code, f"the error of command {command}")
            client.trim(0, 512)
            client.zero(512, 512)
            found = metrics(address)
            equal(found["flasharr_clients", None], 1, "the clients")
        by = {it: found["flasharr_requests_total", f'command="{it}"'] for it in ("read", "write", "flush", "trim", "write_zeroes")}
        equal(by, {"read": 5, "write": 2, "flush": 1, "trim": 1, "write_zeroes": 1}, "the requests")
        by = {it: found["flasharr_request_bytes_total", f'command="{it}"'] for it in ("read", "write", "trim", "write_zeroes")}
        equal(by, {"read": 10_240, "write": 5_096, "trim": 512, "write_zeroes": 512}, "their bytes")
        by = {it: found["flasharr_errors_total", f'error="{it}"'] for it in (5, 12, 22, 28)}
        equal(by, {5: 0, 12: 0, 22: 2, 28: 1}, "the errors")
        equal(found["flasharr_request_seconds_count", 'command="read"'], 5, "how many READs have a latency")
        equal(found["flasharr_request_seconds_bucket", 'command="read",le="+Inf"'], 5, "those in the last bucket")
        ensure(0 < found["flasharr_request_seconds_sum", 'command="read"'] < 5, "the seconds of the READs")
        told = document(address)
        equal((told["dies"], told["live"], told["written"], told["thin"], told["lost"]), (4, 4, 8, 0, 0), "numbers of the document")
        equal(told["lost_ranges"], [], "the lost pages")
        equal({it["command"]: it["requests"] for it in told["requests"]}["read"], 5, "the READs of the document")
        for die in told["table"]:
            equal(die["erased"] + die["current"] + die["stale"], 128, f"the slots of die {die['die']}")
            ensure(die["programs"] >= die["current"] + die["stale"] - die["moves"], f"the programs of {die}")
            equal(die["path"], f"d{die['die']}.img", "the path")
        equal(sum(die["current"] for die in told["table"]), 16, "the copies of eight pages")
        server.stop()
    checked = json.loads(array.run("check", "--json")[1])
    for name in checked:
        if name not in ("table", "epoch", "clean"):
            equal(told[name], checked[name], f"{name}, by the running server and by check")
    for one, other in zip(told["table"], checked["table"]):
        equal({it: one[it] for it in ("die", "path", "state")}, {it: other[it] for it in ("die", "path", "state")}, "the row of a die")


@case
def a_die_is_lost_and_healed(make):
    array = make(WITH_A_SPARE)
    with array.serve(*ANYWHERE) as server:
        address = looks_at(server)
        with server.client() as client:
            client.write(0, os.urandom(WITH_A_SPARE.size))
            array.take_away(1)
            ensure(wait_until(lambda: client.read(0, WITH_A_SPARE.size) and document(address)["out"] == 1, 15), "die 1 did not go out")
        ensure(wait_until(lambda: document(address)["thin"] == 0, 20), f"the copies were not made: {document(address)}")
        told = document(address)
        equal((told["live"], told["out"], told["spare"], told["written"], told["lost"]), (4, 1, 0, 192, 0), "the healed array")
        equal([(it["die"], it["cause"], it["advice"]) for it in told["faults"]], [(1, 1, "replace it")], "the faults")
        equal(told["copies"], {"wanted": 384, "made": 384}, "the copies")
        equal([die["state"] for die in told["table"]], ["live", "out", "live", "live", "live"], "the states")
        lines = asked(address, headers={"Accept": "text/plain"})[2]
        ensure("fault die 1 cause 1 round " in lines, f"the lines tell of no fault: {lines}")
        server.stop(faults=[1])


@case
def lost_pages_are_told_as_ranges(make):
    array = make()
    with array.serve(*ANYWHERE) as server:
        address = looks_at(server)
        with server.client() as client:
            client.write(0, os.urandom(512 * 16))
            client.flush()
            for die in range(3):
                array.take_away(die)
            end = time.monotonic() + 15
            while document(address)["lost"] == 0 and time.monotonic() < end:
                ensure(client.request(READ, 0, 512 * 16)[0] in (0, EIO), "a READ of lost pages has another error")
        told = document(address)
        ensure(told["lost"] > 0, "no page is lost, though three of four dies are")
        equal(sum(it["last"] - it["first"] + 1 for it in told["lost_ranges"]), told["lost"], "the pages of the ranges")
        equal(told["lost_more"], False, "whether there are more ranges")
        server.kill()


@case
def the_command_that_asks(make):
    array = make()
    with array.serve(*ANYWHERE) as server:
        host, port = looks_at(server)
        status, text = array.run_words("status", f"{host}:{port}")
        equal(status, 0, "the status of status")
        ensure(FIRST_LINE.match(text), f"status prints {text!r}")
        server.stop()
        equal(array.run_words("status", f"{host}:{port}"), (1, "status: no answer\n"), "what status prints where no server is")


@case
def an_address_that_is_taken(make):
    """It is bound before the images are opened."""
    array = make()
    with socket.create_server(("127.0.0.1", 0)) as taken:
        os.unlink(array.image(0))
        array.wanted("listen: failed\n", "serve", "--status", f"127.0.0.1:{taken.getsockname()[1]}", status=1)
    array.wanted("listen: failed\n", "serve", "--status", "nowhere", status=1)


def hang(address, said=b""):
    """One who says this much and no more."""
    it = socket.create_connection(address, timeout=20)
    if said:
        it.sendall(said)
    return it


@case
def askers_that_hang(make):
    """More than there are places for. Another look comes in time, a client of the disk too, and the stop."""
    array = make()
    with array.serve(*ANYWHERE) as server:
        address = looks_at(server)
        hanging = [hang(address, said) for _ in range(30) for said in (b"", b"GET / HT", b"GET /status.json HTTP/1.1\r\nHost: x\r\n")]
        began = time.monotonic()
        document(address)
        took = time.monotonic() - began
        ensure(took < STAY + 0.5, f"a look beside {len(hanging)} that hang took {took:.1f} seconds")
        with server.client() as client:
            client.write(0, b"beside them")
        began = time.monotonic()
        server.stop()
        took = time.monotonic() - began
        ensure(took < 2, f"the stop beside some that hang took {took:.1f} seconds")
        for it in hanging:
            it.close()


@case
def one_who_hangs_is_sent_away(make):
    with make().serve(*ANYWHERE) as server:
        address = looks_at(server)
        with hang(address, b"GET / HTTP/1.1\r\n") as it:
            began = time.monotonic()
            equal(it.recv(1), b"", "what is said to one who hangs")
            took = time.monotonic() - began
            ensure(STAY - 0.5 < took < STAY + 1, f"it was sent away after {took:.1f} seconds")
        server.stop()


@case
def askers_of_no_request(make):
    """Garbage, heads that are too long, and answers that are not read."""
    with make().serve(*ANYWHERE) as server:
        address = looks_at(server)
        for said, code in ((b"\0\1\2\3\r\n\r\n", 400), (b"GET\r\n\r\n", 400), (b"GET / HTTP/9.9\r\n\r\n", 400),
                           (b"GET / HTTP/1.1\r\nHost: a b\r\n\r\n", 400), (b"GET /" + b"x" * 70_000 + b" HTTP/1.1\r\n\r\n", 414),
                           (b"GET / HTTP/1.1\r\n" + b"x: y\r\n" * 20_000 + b"\r\n", 431),
                           (b"GET / HTTP/1.1\r\nHost: x\r\nTransfer-Encoding: gzip, chunked\r\n\r\n", 501)):
            with hang(address) as it:
                try:
                    it.sendall(said)
                except OSError:
                    pass
                found = it.recv(64)
                equal(found[:12], b"HTTP/1.1 %d" % code, f"the answer to {said[:40]!r}")
        for _ in range(200):
            with hang(address, b"GET /status.json HTTP/1.1\r\nHost: x\r\n\r\n" * 3):
                pass
        equal(document(address)["dies"], 4, "the dies")
        server.stop()


@case
def many_one_behind_the_other(make):
    """Memory does not grow with those who came."""
    with make().serve(*ANYWHERE) as server:
        address = looks_at(server)
        paths = "/status.json", "/metrics", "/", "/none"

        def resident():
            with open(f"/proc/{server.process.pid}/status", encoding="ascii") as it:
                return int(re.search(r"VmRSS:\s+(\d+) kB", it.read()).group(1))

        for step in range(200):
            asked(address, paths[step % 4])
        before = resident()
        for step in range(600):
            asked(address, paths[step % 4])
        ensure(resident() < before + 2000, f"memory grew from {before} to {resident()} kB")
        with Client(server.address) as client:
            client.go()
            client.write(0, b"still served")
        server.stop()
