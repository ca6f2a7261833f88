"""Batches, plans and shortages, checked by counting. A batch is pages with their holders, `[(page, [die, ..]), ..]`, and runs of closed rounds,
`[(die, first, last), ..]`; a plan is places, `[(page, die, round), ..]`."""


def is_open(runs, die, round_):
    """Whether a die serves reads in a round."""
    return round_ >= 1 and not any(d == die and first <= round_ <= last for d, first, last in runs)


def open_rounds(runs, die, rounds):
    """How many of the first rounds a die is open in."""
    closed, behind = 0, 1
    for first, last in sorted((first, last) for d, first, last in runs if d == die):
        first, last = max(first, behind), min(last, rounds)
        if first <= last:
            closed += last - first + 1
            behind = last + 1
    return rounds - closed


def fault_of_places(pages, runs, rounds, places):
    """What is wrong with the places of a plan of so many rounds, or None."""
    holders = dict(pages)
    if sorted(page for page, _, _ in places) != sorted(holders):
        return "places other pages"
    if any(die not in holders[page] or not is_open(runs, die, round_) for page, die, round_ in places):
        return "has a page at a closed place or a die that does not hold it"
    if len({place[1:] for place in places}) != len(places):
        return "has two pages at one place"
    if rounds != max((round_ for _, _, round_ in places), default=0):
        return "has another last round"
    return None


def fault_of_shortage(pages, runs, rounds, short):
    """Why pages do not show that no plan has fewer than so many rounds, or None."""
    holders = dict(pages)
    if not rounds:
        return "has a shortage for no round" if short else None
    if len(set(short)) != len(short) or any(page not in holders for page in short):
        return "has a shortage that is none"
    dies = {die for page in short for die in holders[page]}
    if sum(open_rounds(runs, die, rounds - 1) for die in dies) >= len(short):
        return "has a shortage that is none"
    return None
