"""Files of plans, which `verify --log` checks. tests/plans_second_reader says the same of each."""
import os
import subprocess

from cases import Case, Run

SECOND_READER = os.path.join(os.path.dirname(os.path.dirname(os.path.abspath(__file__))), "plans_second_reader")
MAX_LOGGED = 1 << 22

# Logged plans that were worked out by hand: one of 2 rounds, one of 3 with closed rounds, and one of no page.
TWO = "batch\npage 1 on 0\npage 2 on 0\nend\nrounds 2\nplace 1 0 1\nplace 2 0 2\nshort 1 2\nend\n"
THREE = ("batch\npage 1 on 0 1\npage 2 on 0 1\npage 3 on 0 1\nclosed 1 1 2\nend\n"
         "rounds 3\nplace 1 0 1\nplace 2 0 2\nplace 3 0 3\nshort 1 2 3\nend\n")
NONE = "batch\nend\nrounds 0\nend\n"
LAST = "batch\npage 1048575 on 63\nclosed 63 1 1000000\nend\nrounds 1000001\nplace 1048575 63 1000001\nshort 1048575\nend\n"
NO_HOLDER = "batch\npage 7 on\nend\nrounds 0\nend\n"
TWICE = "batch\npage 7 on 0\npage 7 on 0\nend\nrounds 0\nend\n"


def same_told(file, told, status):
    """The step that looks whether the second reader prints the same."""
    def step(folder):
        ran = subprocess.run([SECOND_READER, file], cwd=folder, capture_output=True, text=True)
        if (ran.stdout, ran.returncode) != (told, status):
            raise AssertionError(f"tests/plans_second_reader ended with {ran.returncode} and printed {ran.stdout!r}; wanted is {told!r}")
    return step


def checked(file, told, status, errors):
    """The steps that check a file twice."""
    return [Run(("verify", "--log", file), told, status, errors=tuple(f"{file}: {error}" for error in errors)),
            same_told(file, told, status)]


def case(name, text, told, status=0, errors=()):
    return Case(name, checked("a.plans", f"{told}\n", status, errors), {"a.plans": text})


def refused(name, text, told, number, line, words):
    """A file of which one plan is refused."""
    return case(name, text, told, 1, (f"plan {number} at line {line}: {words}",))


def changed(text, old, new):
    assert text.count(old) == 1
    return text.replace(old, new)


def cuts(name, front, last, told):
    """A file that ends within its last plan, at any byte of it."""
    line = front.count("\n") + 1
    files = {f"{cut}.plans": front + last[:cut] for cut in range(1, len(last))}
    said = f"the file ends within the plan at line {line}, which is not counted"
    return Case(name, [step for file in files for step in checked(file, f"{told}\n", 0, (said,))], files)


def cases():
    yield case("empty", "", "plans 0 least 0 refused 0 rounds 0")
    yield case("one_plan", TWO, "plans 1 least 1 refused 0 rounds 2")
    yield case("plans_of_each_kind", TWO + THREE + NONE + LAST, "plans 4 least 4 refused 0 rounds 1000006")
    yield case("ten_thousand_plans", (TWO + THREE) * 5000, "plans 10000 least 10000 refused 0 rounds 25000")
    yield refused("one_of_three_refused", TWO + changed(THREE, "place 3 0 3", "place 3 1 2") + NONE,
                  "plans 3 least 2 refused 1 rounds 2", 2, 10, "refused 4 round closed")
    yield refused("a_changed_place", NONE + changed(TWO, "place 2 0 2", "place 2 0 1"), "plans 2 least 1 refused 1 rounds 0", 2, 5,
                  "refused 5 place taken twice")
    yield refused("a_changed_number_of_rounds", changed(TWO, "rounds 2", "rounds 3"), "plans 1 least 0 refused 1 rounds 0", 1, 1,
                  "refused 6 last round differs")
    yield refused("a_changed_page", changed(TWO, "page 2 on", "page 3 on") + TWO, "plans 2 least 1 refused 1 rounds 2", 1, 1,
                  "refused 1 page missing")
    yield refused("a_changed_holder", TWO + changed(TWO, "page 2 on 0", "page 2 on 1"), "plans 2 least 1 refused 1 rounds 2", 2, 10,
                  "refused 3 not a holder")
    yield refused("a_closed_round_that_was_changed", changed(THREE, "closed 1 1 2", "closed 1 2 2"),
                  "plans 1 least 0 refused 1 rounds 0", 1, 1, "refused 8 not short")
    yield refused("page_with_no_holder", TWO + NO_HOLDER + TWO, "plans 3 least 2 refused 1 rounds 4", 2, 10,
                  "unsound: page 7 has no holder")
    yield refused("page_that_stands_twice", TWICE, "plans 1 least 0 refused 1 rounds 0", 1, 1, "unsound: page 7 stands twice")
    yield cuts("ends_within_a_plan", "", THREE, "plans 0 least 0 refused 0 rounds 0")
    yield cuts("ends_within_a_plan_behind_others", TWO + NONE, TWO, "plans 2 least 2 refused 0 rounds 2")
    yield case("ends_within_a_plan_with_one_refused", TWICE + TWO[:40], "plans 1 least 0 refused 1 rounds 0", 1,
               ("plan 1 at line 1: unsound: page 7 stands twice", "the file ends within the plan at line 7, which is not counted"))

    # What is no logged plan, and the line that is told.
    for name, text, line in [
            ("a_word_between", TWO + "word\n" + TWO, 10), ("an_empty_line_between", TWO + "\n" + TWO, 10),
            ("a_word_at_the_start", "word\n" + TWO, 1), ("a_word_at_the_end", TWO + "word\n", 10),
            ("a_word_in_a_batch", TWO + changed(TWO, "page 2 on 0", "pages 2 on 0"), 12),
            ("a_word_in_a_plan_with_no_end", TWO + "batch\npages\npage 1", 11),
            ("a_batch_with_no_certificate", TWO.split("rounds")[0] + TWO, 5),
            ("a_certificate_with_no_batch", TWO + TWO[TWO.index("rounds"):], 10),
            ("a_number_with_a_zero_before_it", changed(TWO, "page 2 on 0", "page 02 on 0"), 3),
            ("a_page_too_high", TWO + changed(TWO, "page 2 on 0", "page 1048576 on 0"), 12),
            ("one_page_too_many", "batch\n" + "".join(f"page {n} on 0\n" for n in range(1025)) + "end\n", 1026),
            ("one_run_too_many", "batch\n" + "closed 0 1 1\n" * 4097 + "end\n", 4098),
            ("zero_bytes", TWO + "\0" * 100_000 + "\n", 10)]:
        yield case(f"no_plan/{name}", text, f"text: line {line}", 2)

    # A logged plan has 4 MiB at most. Its lines are those of a certificate, of which each is right.
    places = MAX_LOGGED // len("place 1 0 1\n") + 1
    yield case("a_plan_too_long", "batch\nend\nrounds 1\n" + "place 1 0 1\n" * places + "end\n",
               f"text: line {first_behind(places)}", 2)

    yield Case("no_file", [Run(("verify", "--log", "no.plans"), "plans: cannot read\n", 2,
                               errors=("no.plans: No such file or directory: give the path of a file of plans",))])
    yield Case("a_folder", [Run(("verify", "--log", "."), "plans: cannot read\n", 2,
                                errors=(".: Is a directory: give the path of a file of plans",))])


def first_behind(places):
    """The first line behind the bytes that a logged plan may have."""
    size, line = len("batch\nend\nrounds 1\n"), 4
    while size < MAX_LOGGED:
        size += len("place 1 0 1\n")
        line += 1
    assert line < places + 4
    return line
