"""Certificates that were worked out by hand, and what `verify` says of them and of texts that are wrong."""
from cases import Case, Run

TWO_ON_ONE_DIE = "batch\npage 1 on 0\npage 2 on 0\nend\n"
CLOSED_WINDOW = "batch\npage 1 on 0 1\npage 2 on 0 1\npage 3 on 0 1\nclosed 1 1 2\nend\n"
# 1,024 pages that are on all of 64 dies; for each die 64 runs of 100 closed rounds, with a round open behind each.
LARGE = ("batch\n" + "".join(f"page {n} on {' '.join(map(str, range(64)))}\n" for n in range(1024))
         + "".join(f"closed {n % 64} {101 * (n // 64) + 1} {101 * (n // 64) + 100}\n" for n in range(4096)) + "end\n")
ALL_PAGES = " ".join(map(str, range(1024)))

# Name, batch, certificate, and the verdict.
VERDICTS = [
    ("two_on_one_die", TWO_ON_ONE_DIE, "rounds 2\nplace 1 0 1\nplace 2 0 2\nshort 1 2\nend", "least 2"),
    ("places_in_any_order", TWO_ON_ONE_DIE, "rounds 2\nplace 2 0 1\nplace 1 0 2\nshort 1 2\nend\n", "least 2"),
    ("closed_window", CLOSED_WINDOW, "rounds 3\nplace 1 0 1\nplace 2 0 2\nplace 3 0 3\nshort 1 2 3\nend\n", "least 3"),
    ("rounds_that_fall_on_a_die", "batch\npage 1 on 0 1\npage 2 on 0\nclosed 1 1 2\nend\n",
     "rounds 2\nplace 1 0 2\nplace 2 0 1\nshort 1 2\nend\n", "least 2"),
    ("empty_batch", "batch\nend\n", "rounds 0\nend\n", "least 0"),
    ("empty_batch_with_a_closed_die", "batch\nclosed 0 1 5\nend\n", "rounds 0\nend\n", "least 0"),
    ("large", LARGE, "rounds 1616\n" + "".join(f"place {n} {n % 64} {101 * (n // 64 + 1)}\n" for n in range(1024))
     + f"short {ALL_PAGES}\nend\n", "least 1616"),
    ("page_missing", TWO_ON_ONE_DIE, "rounds 2\nplace 1 0 1\nshort 1 2\nend\n", "refused 1 page missing"),
    ("page_twice", TWO_ON_ONE_DIE, "rounds 2\nplace 1 0 1\nplace 2 0 2\nplace 1 0 2\nshort 1 2\nend\n", "refused 2 page twice"),
    ("page_outside_the_batch_twice", TWO_ON_ONE_DIE,
     "rounds 2\nplace 1 0 1\nplace 2 0 2\nplace 9 0 3\nplace 9 0 4\nshort 1 2\nend\n", "refused 2 page twice"),
    ("not_a_holder", TWO_ON_ONE_DIE, "rounds 2\nplace 1 1 1\nplace 2 0 2\nshort 1 2\nend\n", "refused 3 not a holder"),
    ("page_outside_the_batch", TWO_ON_ONE_DIE, "rounds 2\nplace 1 0 1\nplace 2 0 2\nplace 9 0 3\nshort 1 2\nend\n",
     "refused 3 not a holder"),
    ("round_0", TWO_ON_ONE_DIE, "rounds 2\nplace 1 0 0\nplace 2 0 2\nshort 1 2\nend\n", "refused 4 round closed"),
    ("round_closed", CLOSED_WINDOW, "rounds 3\nplace 1 0 1\nplace 2 0 2\nplace 3 1 2\nshort 1 2 3\nend\n",
     "refused 4 round closed"),
    ("last_round_of_a_run", CLOSED_WINDOW, "rounds 2\nplace 1 0 1\nplace 2 0 2\nplace 3 1 2\nshort 1 2 3\nend\n",
     "refused 4 round closed"),
    ("round_behind_a_run", CLOSED_WINDOW, "rounds 3\nplace 1 0 1\nplace 2 0 2\nplace 3 1 3\nshort 1 2 3\nend\n", "least 3"),
    ("place_taken_twice", TWO_ON_ONE_DIE, "rounds 2\nplace 1 0 1\nplace 2 0 1\nshort 1 2\nend\n",
     "refused 5 place taken twice"),
    ("last_round_differs", TWO_ON_ONE_DIE, "rounds 3\nplace 1 0 1\nplace 2 0 2\nshort 1 2\nend\n",
     "refused 6 last round differs"),
    ("rounds_for_no_page", "batch\nend\n", "rounds 1\nend\n", "refused 6 last round differs"),
    ("shortage_page_unknown", TWO_ON_ONE_DIE, "rounds 2\nplace 1 0 1\nplace 2 0 2\nshort 1 9\nend\n",
     "refused 7 shortage page unknown"),
    ("shortage_of_an_empty_batch", "batch\nend\n", "rounds 0\nshort 1\nend\n", "refused 7 shortage page unknown"),
    ("not_short", TWO_ON_ONE_DIE, "rounds 2\nplace 1 0 1\nplace 2 0 2\nshort 1\nend\n", "refused 8 not short"),
    ("no_shortage", TWO_ON_ONE_DIE, "rounds 2\nplace 1 0 1\nplace 2 0 2\nend\n", "refused 8 not short"),
    ("one_page_short_of_a_shortage", LARGE, "rounds 1616\n"
     + "".join(f"place {n} {n % 64} {101 * (n // 64 + 1)}\n" for n in range(1024))
     + f"short {' '.join(map(str, range(960)))}\nend\n", "refused 8 not short"),
]

# The faults of the texts come before those of the batch, and those of the batch before the verdict.
UNSOUND = [
    ("no_holder", "batch\npage 7 on\nend\nrounds 0\nend\n", "unsound: page 7 has no holder"),
    ("twice", "batch\npage 7 on 0\npage 7 on 0\nend\nrounds 0\nend\n", "unsound: page 7 stands twice"),
    ("twice_with_no_holder", "batch\npage 7 on 0\npage 7 on\nend\nrounds 0\nend\n", "unsound: page 7 has no holder"),
    ("the_first_of_two", "batch\npage 7 on\npage 6 on 0\npage 6 on 0\nend\nrounds 0\nend", "unsound: page 7 has no holder"),
    ("twice_before_no_holder", "batch\npage 7 on 0\npage 3 on 1\npage 7 on 0 1\npage 8 on\nend\nrounds 0\nend",
     "unsound: page 7 stands twice"),
    ("behind_a_cut_certificate", "batch\npage 7 on\nend\nrounds 0\n", "text: line 5"),
    ("behind_a_certificate_with_an_empty_line", "batch\npage 7 on\nend\nrounds 0\nend\n\n", "text: line 6"),
]

# Texts, and the first line that is wrong, 0 for none.
LINES = [
    ("", 1), ("batch", 2), ("batch\n", 2),
    ("batch \nend\nrounds 0\nend", 1), ("batch\r\nend\nrounds 0\nend", 1), ("batch\n\nend\nrounds 0\nend", 2),
    ("batch\npages 1 on 0\nend\nrounds 0\nend", 2), ("batch\npage 01 on 0\nend\nrounds 0\nend", 2),
    ("batch\npage 0 on 0\nend\nrounds 0\nend", 0), ("batch\npage 1  on 0\nend\nrounds 0\nend", 2),
    ("batch\npage 1 on\nend\nrounds 0\nend", 0), ("batch\npage 1 on \nend\nrounds 0\nend", 2),
    ("batch\npage 1 on 2 1\nend\nrounds 0\nend", 2), ("batch\npage 1 on 2 2\nend\nrounds 0\nend", 2),
    ("batch\npage 1 on 0 63\nend\nrounds 0\nend", 0), ("batch\npage 1 on 0 64\nend\nrounds 0\nend", 2),
    ("batch\npage 1048575 on 0\nend\nrounds 0\nend", 0), ("batch\npage 1048576 on 0\nend\nrounds 0\nend", 2),
    ("batch\nclosed 0 1 1\npage 1 on 0\nend\nrounds 0\nend", 3), ("batch\nclosed 0 0 1\nend\nrounds 0\nend", 2),
    ("batch\nclosed 0 2 1\nend\nrounds 0\nend", 2), ("batch\nclosed 64 1 1\nend\nrounds 0\nend", 2),
    ("batch\nclosed 0 1 1000000\nclosed 0 1 1000000\nend\nrounds 0\nend", 0),
    ("batch\nclosed 0 1 1000001\nend\nrounds 0\nend", 2),
    ("batch\npage 1 on 0\n", 3), ("batch\nend\n", 3), ("batch\nend\nrounds 2000000\nend", 0),
    ("batch\nend\nrounds 2000001\nend", 3), ("batch\nend\nrounds 1 1\nend", 3),
    ("batch\nend\nrounds 0\nplace 1 0 0\nend", 0), ("batch\nend\nrounds 0\nplace 1 0 2000000\nend", 0),
    ("batch\nend\nrounds 0\nplace 1 0 2000001\nend", 4), ("batch\nend\nrounds 0\nplace 1 64 1\nend", 4),
    ("batch\nend\nrounds 0\nplace 1048576 0 1\nend", 4), ("batch\nend\nrounds 0\nplace 1 0\nend", 4),
    ("batch\nend\nrounds 0\nplace 1 0 1 1\nend", 4), ("batch\nend\nrounds 0\nshort\nend", 4),
    ("batch\nend\nrounds 0\nshort 2 1\nend", 4), ("batch\nend\nrounds 0\nshort 1 1\nend", 4),
    ("batch\nend\nrounds 0\nshort 1\nshort 2\nend", 5), ("batch\nend\nrounds 0\nshort 1\nplace 1 0 1\nend", 5),
    ("batch\nend\nrounds 0\n", 4), ("batch\nend\nrounds 0\nend\n\n", 5), ("batch\nend\nrounds 0\nend\nend", 5),
    (b"batch\n\xff\nend\n", 2), ("batch\nend\nrounds 18446744073709551616\nend", 3),
    ("batch\n" + "".join(f"page {n} on 0\n" for n in range(1024)) + "closed 0 1 1\n" * 4096 + "end\nrounds 0\nend\n", 0),
    ("batch\n" + "".join(f"page {n} on 0\n" for n in range(1025)) + "end\nrounds 0\nend\n", 1026),
    ("batch\n" + "closed 0 1 1\n" * 4097 + "end\nrounds 0\nend\n", 4098),
]

# What is said of the texts of LINES that are right.
SAID = {
    "batch\npage 0 on 0\nend\nrounds 0\nend": (1, "refused 1 page missing"),
    "batch\npage 1 on\nend\nrounds 0\nend": (2, "unsound: page 1 has no holder"),
    "batch\npage 1 on 0 63\nend\nrounds 0\nend": (1, "refused 1 page missing"),
    "batch\npage 1048575 on 0\nend\nrounds 0\nend": (1, "refused 1 page missing"),
    "batch\nclosed 0 1 1000000\nclosed 0 1 1000000\nend\nrounds 0\nend": (0, "least 0"),
    "batch\nend\nrounds 2000000\nend": (1, "refused 6 last round differs"),
    "batch\nend\nrounds 0\nplace 1 0 0\nend": (1, "refused 3 not a holder"),
    "batch\nend\nrounds 0\nplace 1 0 2000000\nend": (1, "refused 3 not a holder"),
}


def status_of(said):
    return 0 if said.startswith("least") else 1 if said.startswith("refused") else 2


def cases():
    for name, batch, certificate, said in VERDICTS:
        yield Case(name, [Run(("verify",), f"{said}\n", status_of(said), input=batch + certificate)])
    for name, text, said in UNSOUND:
        yield Case(f"unsound/{name}", [Run(("verify",), f"{said}\n", status_of(said), input=text)])
    for number, (text, line) in enumerate(LINES, 1):
        status, said = (2, f"text: line {line}") if line else SAID.get(text, (1, "refused 1 page missing"))
        yield Case(f"lines/{number}", [Run(("verify",), f"{said}\n", status, input=text)])
