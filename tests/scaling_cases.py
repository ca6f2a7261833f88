"""The recipes of docs/SCALING.md, each as it is written there: one disk over two servers, an array that moves while it serves, a copy of the images of a
server that was stopped, and what a hypervisor sees. They want clients of QEMU and nbdcopy, which are no part of this repository.
"""
import contextlib
import json
import os
import shutil
import socket
import subprocess
import threading
import time

from children import CHILDREN
from nbd_client import Client
from servers import Geometry, Wrong, ensure, equal, same_bytes, wait_until

DISK = Geometry(dies=4, spares=0, blocks=24, slots=64, pages=2048, page_bytes=4096)
WIDER = Geometry(dies=6, spares=1, blocks=16, slots=64, pages=2048, page_bytes=4096)
LIMIT, START = 120, 20


def free_port():
    with socket.socket() as it:
        it.bind(("127.0.0.1", 0))
        return it.getsockname()[1]


def uri_of(address):
    return "nbd://{}:{}/disk".format(*address)


def ran(*words, seconds=LIMIT, **how):
    """What a command prints. It has to end well."""
    status, told = CHILDREN.run(words, seconds, stderr=subprocess.STDOUT, text=True, errors="backslashreplace", **how)
    ensure(status == 0, f"{' '.join(words)[:300]} ended with {status}: {told[-800:]}")
    return told


def content_of(address, folder):
    """All bytes of a disk, read by nbdcopy."""
    path = os.path.join(folder, "content")
    with contextlib.suppress(FileNotFoundError):
        os.remove(path)
    ran("nbdcopy", uri_of(address), path)
    with open(path, "rb") as it:
        return it.read()


class Helper:
    """A program that runs beside the servers, and serves a disk at an address."""

    def __init__(self, words, port, **how):
        self.address = "127.0.0.1", port
        self.process = CHILDREN.start(words, stderr=subprocess.DEVNULL, **how)
        if not wait_until(self.listens, START):
            self.end()
            raise Wrong(f"{words[0]} does not listen")

    def listens(self):
        if self.process.poll() is not None:
            raise Wrong(f"{self.process.args[0]} ended with {self.process.returncode}")
        with contextlib.suppress(OSError), socket.create_connection(self.address, 1):
            return True
        return False

    def end(self):
        if self.process.poll() is None:
            self.process.terminate()
            self.process.wait(START)

    def __enter__(self):
        return self

    def __exit__(self, *_):
        self.end()


def quorum(first, second):
    """qemu-nbd over two servers, of which one is enough."""
    port = free_port()
    options = ["driver=quorum", "vote-threshold=1", "read-pattern=fifo"]
    for number, (host, at) in enumerate((first, second)):
        child = f"children.{number}"
        options += [f"{child}.driver=raw", f"{child}.file.driver=nbd", f"{child}.file.server.type=inet", f"{child}.file.server.host={host}",
                    f"{child}.file.server.port={at}", f"{child}.file.export=disk", f"{child}.file.reconnect-delay=0"]
    words = ["qemu-nbd", "--image-opts", ",".join(options), "-x", "disk", "-p", str(port), "-b", "127.0.0.1", "-t", "-e", "4", "--cache=writeback"]
    return Helper(words, port, stdin=subprocess.DEVNULL, stdout=subprocess.DEVNULL)


class Writer(threading.Thread):
    """A client that writes pages one after the other until it is stopped, and knows what it was answered for."""

    def __init__(self, address, content):
        super().__init__(daemon=True)
        self.address, self.content = address, content
        self.is_over, self.count, self.fault = False, 0, None

    def run(self):
        try:
            with Client(self.address, seconds=60) as client:
                client.export_name(b"disk")
                while not self.is_over:
                    page = self.count * 7 % DISK.pages
                    data = bytes([self.count % 251 + 1]) * DISK.page_bytes
                    client.write(page * DISK.page_bytes, data)
                    self.content[page * DISK.page_bytes:(page + 1) * DISK.page_bytes] = data
                    self.count += 1
                client.flush()
        except Exception as error:
            self.fault = error

    def end(self):
        self.is_over = True
        self.join(LIMIT)
        ensure(self.fault is None and not self.is_alive(), f"the client was hurt: {self.fault!r}")

    def has_written(self, count):
        """Waits until so many pages more were written."""
        wanted = self.count + count
        ensure(wait_until(lambda: self.count >= wanted or self.fault, LIMIT) and not self.fault, f"the client was hurt: {self.fault!r}")


def two_servers_under_one_disk(make):
    """One of two servers is killed in the middle of writes. The disk goes on and is whole; the server comes back, is filled anew, and joins."""
    one, other = make(DISK), make(DISK)
    content = bytearray(DISK.size)
    with contextlib.ExitStack() as stack:
        first, second = (stack.enter_context(array.serve()) for array in (one, other))
        with quorum(first.address, second.address) as disk:
            writer = Writer(disk.address, content)
            writer.start()
            writer.has_written(500)
            first.kill()
            writer.has_written(500)
            writer.end()
            same_bytes(content_of(disk.address, one.folder), bytes(content), "the disk over the server that is left")
        same_bytes(content_of(second.address, one.folder), bytes(content), "the server that is left")
        back = stack.enter_context(one.serve("--unclean"))
        ran("nbdcopy", "--flush", uri_of(second.address), uri_of(back.address))
        with quorum(back.address, second.address) as disk:
            same_bytes(content_of(disk.address, one.folder), bytes(content), "the disk over both")
            second.kill()
            writer = Writer(disk.address, content)
            writer.start()
            writer.has_written(200)
            writer.end()
        same_bytes(content_of(back.address, one.folder), bytes(content), "the server that came back")
        back.stop()


class Daemon(Helper):
    """qemu-storage-daemon, which exports a disk that lies on a server, and is told what to do in lines of JSON."""

    def __init__(self, server):
        port = free_port()
        node = "driver=nbd,node-name={},server.type=inet,server.host={},server.port={},export=disk"
        words = ["qemu-storage-daemon", "--blockdev", node.format("old", *server), "--nbd-server", f"addr.type=inet,addr.host=127.0.0.1,addr.port={port}",
                 "--export", "type=nbd,id=disk,node-name=old,name=disk,writable=on", "--chardev", "stdio,id=lines", "--monitor", "chardev=lines"]
        super().__init__(words, port, stdin=subprocess.PIPE, stdout=subprocess.PIPE)
        self.node = node
        self.ask("qmp_capabilities")

    def answer(self, key):
        """The next line that has this key."""
        for line in self.process.stdout:
            try:
                told = json.loads(line)
            except ValueError:
                raise Wrong(f"qemu-storage-daemon says {line!r}") from None
            ensure("error" not in told, f"qemu-storage-daemon says {told}")
            if key in told:
                return told
        raise Wrong("qemu-storage-daemon has ended")

    def ask(self, execute, **arguments):
        self.process.stdin.write(json.dumps({"execute": execute, "arguments": arguments}).encode() + b"\n")
        self.process.stdin.flush()
        return self.answer("return")["return"]

    def await_event(self, name):
        while self.answer("event")["event"] != name:
            pass


def an_array_moves_while_it_serves(make):
    """A disk moves to another server, whose array has other dies, while a client writes to it."""
    old, new = make(DISK), make(WIDER)
    content = bytearray(DISK.size)
    with old.serve() as source, new.serve() as target, Daemon(source.address) as daemon:
        writer = Writer(daemon.address, content)
        writer.start()
        writer.has_written(300)
        host, port = target.address
        daemon.ask("blockdev-add", **{"driver": "nbd", "node-name": "new", "export": "disk",
                                      "server": {"type": "inet", "host": host, "port": str(port)}})
        daemon.ask("blockdev-mirror", **{"job-id": "move", "device": "old", "target": "new", "sync": "full", "copy-mode": "write-blocking"})
        daemon.await_event("BLOCK_JOB_READY")
        daemon.ask("block-job-complete", device="move")
        daemon.await_event("BLOCK_JOB_COMPLETED")
        writer.has_written(200)
        source.stop()
        writer.has_written(200)
        writer.end()
        same_bytes(content_of(target.address, new.folder), bytes(content), "the array that the disk has moved to")
        daemon.end()
        target.stop()
    new.has_copies_of(bytes(content))


def images_of_a_stopped_server_are_copied(make):
    """The images of a server that was stopped are copied, and the copy is served."""
    array, copy = make(DISK), make(DISK)
    content = os.urandom(DISK.size)
    with array.serve() as server:
        with server.client() as client:
            for at in range(0, DISK.size, 1 << 20):
                client.write(at, content[at:at + (1 << 20)])
        server.stop()
    listed = array.run("dump")
    for die in range(DISK.dies):
        shutil.copyfile(array.image(die), copy.image(die))
    equal(copy.run("dump"), listed, "what the copy's dump lists")
    copy.checked(live=4, written=DISK.pages, thin=0)
    with copy.serve() as server:
        same_bytes(content_of(server.address, copy.folder), content, "the copy")
        server.stop()


def a_hypervisor_sees_the_disk(make):
    """QEMU's own tools see the disk by the URI that a hypervisor is given."""
    array = make(DISK)
    with array.serve() as server:
        told = json.loads(ran("qemu-img", "info", "--output=json", uri_of(server.address)))
        equal(told["virtual-size"], DISK.size, "the size that QEMU sees")
        ran("qemu-io", "-f", "raw", "-c", "write -P 7 1M 64k", "-c", "flush", "-c", "read -P 7 1M 64k", uri_of(server.address))
        time.sleep(0.1)
        server.stop()


CASES = [(two_servers_under_one_disk, {"qemu-nbd", "nbdcopy"}), (an_array_moves_while_it_serves, {"qemu-storage-daemon", "nbdcopy"}),
         (images_of_a_stopped_server_are_copied, {"nbdcopy"}), (a_hypervisor_sees_the_disk, {"qemu-img", "qemu-io"})]
