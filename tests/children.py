"""The processes that a script starts for its cases, and the folder in which they work. A script that is interrupted leaves neither."""
import contextlib
import os
import shutil
import signal
import subprocess
import sys
import tempfile
import threading
import time
import traceback
from concurrent.futures import ThreadPoolExecutor

SIGNALS = signal.SIGINT, signal.SIGTERM, signal.SIGHUP


class Interrupted(BaseException):
    """A signal that ends the script, by its number."""


class Ending(Exception):
    """A process was to be started while the script ends."""


def heed_signals():
    """Has this process end by the signals, where whoever started the script ignores some of them."""
    for number in SIGNALS:
        signal.signal(number, signal.SIG_DFL)


class Children:
    """What a script has started. No process is started once it ends."""

    def __init__(self):
        self.lock = threading.Lock()
        self.is_ending = False
        self.processes = []
        self.folder = None

    def start(self, words, *, in_group=False, **how):
        """A process, in a group of its own if that is asked for: then what it starts is ended with it."""
        with self.lock:
            if self.is_ending:
                raise Ending("the script ends")
            process = subprocess.Popen(words, start_new_session=in_group, preexec_fn=heed_signals if in_group else None, **how)
            process.in_group = in_group
            self.processes = [it for it in self.processes if it.returncode is None] + [process]
        return process

    @staticmethod
    def kill(process):
        if process.in_group:
            with contextlib.suppress(ProcessLookupError):
                os.killpg(process.pid, signal.SIGKILL)
        process.kill()

    def run(self, words, seconds, *, stdin=subprocess.DEVNULL, **how):
        """The status and the output of a process that is to end by itself before so many seconds have passed."""
        process = self.start(words, stdin=stdin, stdout=subprocess.PIPE, **how)
        try:
            output, _ = process.communicate(timeout=seconds)
        except BaseException:
            process.kill()
            process.communicate()
            raise
        return process.returncode, output

    def end(self):
        """Kills the processes that still run, and removes the folder."""
        with self.lock:
            self.is_ending = True
        for process in self.processes:
            self.kill(process)
        for process in self.processes:
            with contextlib.suppress(subprocess.TimeoutExpired):
                process.wait(5)
        # A case that has not heard of it yet may make a file meanwhile.
        for _ in range(5):
            if not self.folder or not os.path.exists(self.folder):
                return
            shutil.rmtree(self.folder, ignore_errors=True)
            time.sleep(0.1)


CHILDREN = Children()


def interrupt(number, _):
    raise Interrupted(number)


@contextlib.contextmanager
def run_folder(prefix, where=None):
    """A folder of this run, in a folder that may be given. Where the script is interrupted or fails nobody waits for its threads."""
    for number in SIGNALS:
        if signal.getsignal(number) != signal.SIG_IGN:
            signal.signal(number, interrupt)
    try:
        CHILDREN.folder = tempfile.mkdtemp(prefix=prefix, dir=where)
        yield CHILDREN.folder
        CHILDREN.end()
    except BaseException as error:
        leave(error)


@contextlib.contextmanager
def case_threads(count):
    """Threads for cases, whose folders stand in one of this run."""
    with run_folder("flasharr-serve-"):
        pool = ThreadPoolExecutor(count)
        yield pool
        pool.shutdown()


def leave(error):
    """Ends the script at once, for this reason."""
    for number in SIGNALS:
        signal.signal(number, signal.SIG_IGN)
    CHILDREN.end()
    status = 1
    with contextlib.suppress(OSError, ValueError):
        if isinstance(error, Interrupted):
            status = 128 + error.args[0]
            print("interrupted", file=sys.stderr, flush=True)
        else:
            traceback.print_exception(error)
    # The threads of cases are left as they are: they wait for processes that are gone.
    os._exit(status)
