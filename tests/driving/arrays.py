"""Drives whole arrays, one after the other. Each is formatted, and then mounted and closed some times. The images fail now and then, or
give wrong bytes, and memory is refused now and then. The answers are compared with a plain array.
"""
from driving.closing import CLOSED, LEFT, OVER, close_busy, end_life
from driving.desk import Desk
from driving.dies import arm, bring_in, collect, work
from driving.life import BLOCKS, PAGE_BYTES, SLOTS, SPARES, Life, Version, copies_fit, draw_copies, draw_shape
from driving.mounting import Way, mount_images, refuse_each_growth, refuse_each_read
from driving.readers import go_on_reading, read, rebuild
from driving.resting import look_at_all, rest, settle
from driving.turns import advance, flush, fold, make_stranger
from driving.writers import write
from lab import Ended, Lab

# One array in OLD_EVERY is formatted in the older format.
OLD_EVERY = 4
MOST_LIVES = 4
# The fewest steps of a life, how many more there may be, and the most steps with no live die.
FEWEST_STEPS, MORE_STEPS, DEAD_STEPS = 500, 3000, 60
# An image is armed in one step of one of these numbers.
FAULTS_EVERY = 150, 500, 1500, 6000
# One closed array in READ_REFUSED_EVERY is tried to be mounted with each read of an image refused.
READ_REFUSED_EVERY = 4
# The page that was written last where few numbers are left, and the dies that hold it.
OLD_PAGE, OLD_DIES = 0, 2


def drive(program, seed, events):
    """Drives arrays by a seed until this number of events is made. Gives how often each thing came, and the differences in words."""
    with Lab(program) as lab:
        desk = Desk(lab, seed)
        try:
            while desk.goes_on(events):
                run_array(desk, events)
        except (Ended, LookupError, TypeError, ValueError) as error:
            desk.differ(f"an answer that cannot be understood: {error!r}")
    return desk.counts, desk.differences


def run_array(desk, events):
    """Drives one array until its lives are over, or until this number of events is made."""
    desk.count("arrays")
    shape = draw_shape(desk.chance)
    word = "images old" if desk.chance.one_in(OLD_EVERY) else "images"
    line = f"{word} dies {shape.dies} spares {SPARES} blocks {BLOCKS} slots {SLOTS} bytes {PAGE_BYTES} pages {shape.pages}"
    desk.expect(line, "made")
    life = Life(shape, FAULTS_EVERY[desk.chance.below(len(FAULTS_EVERY))])
    if shape.last:
        write_last(desk, life, shape.last)
    desk.send()
    live_on(desk, life, Way(shape.copies), events)
    desk.expect("overwrites", "overwrites 0")
    desk.send()


def write_last(desk, life, last):
    """Writes a page with the last sequence number that was given, where few are left."""
    number = desk.next_number()
    for die in range(OLD_DIES):
        desk.expect(f"put {die} 0 {OLD_PAGE} {last} {number}", "written")
    life.versions[OLD_PAGE] = Version(last, False, number)


def live_on(desk, life, way, events):
    """Drives the lives of an array, each from where it is mounted to where it is closed or left. At the end it is mounted and looked at."""
    for lived in range(MOST_LIVES + 1):
        is_last = lived == MOST_LIVES or not desk.goes_on(events)
        refuse_each_growth(desk, way)
        if not mount_images(desk, life, way):
            return
        look_at_all(desk, life)
        if is_last:
            return
        ended = live_once(desk, life, way, events)
        if ended == OVER:
            return
        way = next_way(desk, life, way.copies, ended)


def live_once(desk, life, way, events):
    """Drives one life of an array that is mounted, and gives how it ended."""
    live(desk, life, events)
    settle(desk, life)
    look_at_all(desk, life)
    close_busy(desk, life)
    rest(desk, life)
    return end_life(desk, life, way)


def next_way(desk, life, copies, ended):
    """Settles how an array is mounted next. Two of its images change their places, and now and then the reads of one are refused."""
    one, other = desk.chance.below(life.images), desk.chance.below(life.images)
    desk.expect(f"swap {one} {other}", "swapped")
    desk.send()
    drawn = draw_copies(desk.chance)
    way = Way(drawn if copies_fit(drawn, life.dies, life.pages) else copies, ended == LEFT)
    if ended == CLOSED and desk.chance.one_in(READ_REFUSED_EVERY):
        refuse_each_read(desk, life, way, one)
    return way


def live(desk, life, events):
    """Makes the events of an array in a random order."""
    dead = 0
    for _ in range(desk.chance.below(MORE_STEPS) + FEWEST_STEPS):
        if dead >= DEAD_STEPS or not desk.goes_on(events):
            return
        if not life.live:
            dead += 1
        step(desk, life)


def step(desk, life):
    """Makes a step of one of those who make events. An image is armed before it now and then."""
    die = desk.chance.below(life.dies)
    if desk.chance.one_in(life.fault_every):
        arm(desk, life, die)
    take_turn(desk, life, die, desk.chance.below(1000))
    desk.send()


def take_turn(desk, life, die, turn):
    """Makes the step of the one whose turn it is, of a thousand turns."""
    if turn < 440:
        work(desk, life, die)
    elif turn < 640:
        write(desk, life)
    elif turn < 720:
        read(desk, life)
    elif turn < 810:
        go_on_reading(desk, life)
    elif turn < 870:
        advance(desk, life)
    elif turn < 920:
        collect(desk, life, die)
    elif turn < 970:
        rebuild(desk, life)
    elif turn < 990:
        flush(desk, life)
    elif turn < 994:
        make_stranger(desk, life)
    elif turn < 998:
        fold(desk)
    else:
        bring_in(desk, life, die)
