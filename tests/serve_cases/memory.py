"""Commands to which each request for memory is refused in turn, one a run."""
import itertools
import subprocess

from call_log import MEMORY_REFUSALS, CallLog, compiled
from children import CHILDREN
from serve_cases import case
from servers import SETTINGS, Geometry, ensure, equal

TINY = Geometry(dies=2, blocks=4, slots=4, pages=4)
NO_MEMORY = 1, b"no memory\n"
NOT_MOUNTED = 1, b"flasharr: no memory: give the program more, and start it again\nmount: 8 no memory\n"
IMAGE_ADVICE = b"bring its disk back, or correct images in the settings"
# The files whose paths take memory, and what is advised where one is not opened.
FILES = (b"array.toml", b"give the path of a settings file"), (b"d0.img", IMAGE_ADVICE), (b"d1.img", IMAGE_ADVICE)
# The rounds of die 0 fall from place to place, so the check makes a set of the places.
TEXTS = """batch
page 1 on 0 1
page 2 on 0
closed 1 1 2
end
rounds 2
place 1 0 2
place 2 0 1
short 1 2
end
"""


def ends_of_runs(array, words, given="", *, most=1000):
    """What the runs of a command end with and tell in each of which one request for memory is refused, and then the one with none refused."""
    array.put("given", given)
    log = CallLog(compiled(array.folder, refuses_memory=True), array.folder, is_logged=False)
    ends = []
    for number in itertools.count(1):
        ensure(number <= most, f"{words[0]} asks for memory at most {most} times")
        log.put(MEMORY_REFUSALS, 0)
        log.refuse_request(number)
        with open(array.path("given"), "rb") as read:
            end = CHILDREN.run([array.program, *words], 60, stdin=read, cwd=array.folder, env=log.environment(), stderr=subprocess.STDOUT)
        if not log.number(MEMORY_REFUSALS):
            return ends, end
        ends.append(end)



@case
def each_request_of_verify_is_refused(make):
    """It is told that there is no memory, and no verdict."""
    ends, end = ends_of_runs(make(TINY, settings=False, formatted=False), ["verify"], TEXTS)
    equal(end, (0, b"least 2\n"), "what verify ends with and prints")
    equal(set(ends), {NO_MEMORY}, "what it ends with and prints where memory is refused")
    ensure(len(ends) > 10, "verify asks for memory more than ten times")


@case
def each_request_of_check_is_refused(make):
    """The settings, and then the array, are refused for memory alone, or it goes on without."""
    ends, whole = ends_of_runs(make(TINY), ["check", SETTINGS])
    equal(whole, (0, b"dies 2 live 2 spare 0\nepoch 1 clean\nwritten 0 thin 0\n"), "what check ends with and prints")
    told = b"flasharr: %b: out of memory: %b\n%b"
    of_files = [(1, told % (name, advice, NO_MEMORY[1])) for name, advice in FILES]
    others = set(ends) - {NO_MEMORY, NOT_MOUNTED, whole, *of_files}
    equal(others, set(), "what else it ends with and prints where memory is refused")
    for end, least in (NO_MEMORY, 10), (NOT_MOUNTED, 2):
        ensure(ends.count(end) > least, f"more than {least} requests are answered by {end}")
