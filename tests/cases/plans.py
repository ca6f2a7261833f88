"""Batches that `plan` plans or refuses. Each plan is given to `verify` behind its batch."""
from cases import Case, Run, between

LAB = "flasharr_lab"

# Name, batch, least rounds, and the whole plan or its two ends. The plans were made by hand.
PLANS = [
    ("two_on_one_die", "batch\npage 1 on 0\npage 2 on 0\nend\n", 2,
     "rounds 2\nplace 1 0 1\nplace 2 0 2\nshort 1 2\nend\n"),
    ("greedy_trap", "batch\npage 1 on 0 1\npage 2 on 0\nend\n", 1,
     "rounds 1\nplace 1 1 1\nplace 2 0 1\nshort 1 2\nend\n"),
    ("closed_window", "batch\npage 1 on 0 1\npage 2 on 0 1\npage 3 on 0 1\nclosed 1 1 2\nend\n", 3,
     ("rounds 3\n", "short 1 2 3\nend\n")),
    ("alternating_chain", "batch\npage 1 on 0 1\npage 2 on 1 2\npage 3 on 0\nend\n", 1,
     "rounds 1\nplace 1 1 1\nplace 2 2 1\nplace 3 0 1\nshort 1 2 3\nend\n"),
    # Page 7 has to push each page before it one die on.
    ("long_chain", "batch\n" + "".join(f"page {n} on {n - 1} {n}\n" for n in range(1, 7)) + "page 7 on 0\nend\n", 1,
     "rounds 1\n" + "".join(f"place {n} {n} 1\n" for n in range(1, 7)) + "place 7 0 1\nshort 1 2 3 4 5 6 7\nend\n"),
    ("empty_batch", "batch\nend\n", 0, "rounds 0\nend\n"),
    ("no_line_feed_at_the_end", "batch\nend", 0, "rounds 0\nend\n"),
    ("empty_batch_with_a_closed_die", "batch\nclosed 0 1 5\nend\n", 0, "rounds 0\nend\n"),
    ("first_round_closed", "batch\npage 1 on 0 1\nclosed 0 1 1\nclosed 1 1 1\nend\n", 2,
     ("rounds 2\nplace 1 ", " 2\nshort 1\nend\n")),
    ("shortage_of_two_of_three", "batch\npage 1 on 0\npage 2 on 0\npage 3 on 1 2\nend\n", 2,
     ("rounds 2\nplace 1 0 1\nplace 2 0 2\nplace 3 ", " 1\nshort 1 2\nend\n")),
    ("closed_for_a_million_rounds",
     "batch\npage 1 on 0 1\npage 2 on 0 1\npage 3 on 0 1\nclosed 0 1 1000000\nclosed 1 1 1000000\nend\n", 1000002,
     ("rounds 1000002\n", "short 1 2 3\nend\n")),
    # Rounds 2 to 9 of die 0 are closed, by runs that overlap and touch, and round 1 of die 1.
    ("overlapping_runs", "batch\npage 1 on 0\npage 2 on 0\nclosed 0 5 7\nclosed 0 2 3\nclosed 0 6 9\nclosed 0 4 4\nend\n", 10,
     "rounds 10\nplace 1 0 1\nplace 2 0 10\nshort 1 2\nend\n"),
    ("rounds_behind_overlapping_runs", "batch\n" + "".join(f"page {n} on 0\n" for n in range(1, 5))
     + "closed 0 5 7\nclosed 1 1 1\nclosed 0 2 3\nclosed 0 6 9\nclosed 0 4 4\nend\n", 12,
     "rounds 12\nplace 1 0 1\nplace 2 0 10\nplace 3 0 11\nplace 4 0 12\nshort 1 2 3 4\nend\n"),
    ("a_die_that_is_closed_behind_its_reads", "batch\npage 1 on 0\nclosed 0 2 1000000\nend\n", 1,
     "rounds 1\nplace 1 0 1\nshort 1\nend\n"),
    ("rounds_between_two_windows", "batch\n" + "".join(f"page {n} on 0\n" for n in range(3)) + "closed 0 2 3\nclosed 0 5 5\nend\n",
     6, "rounds 6\nplace 0 0 1\nplace 1 0 4\nplace 2 0 6\nshort 0 1 2\nend\n"),
    ("pages_that_fall", "batch\npage 9 on 0\npage 4 on 1\npage 6 on 2\nend\n", 1,
     ("rounds 1\nplace 4 1 1\nplace 6 2 1\nplace 9 0 1\nshort ", "\nend\n")),
    ("a_shortage_that_falls", "batch\npage 20 on 0\npage 3 on 0\nend\n", 2, ("rounds 2\nplace 3 0 ", "short 3 20\nend\n")),
    ("last_page_and_die", "batch\npage 1048575 on 63\nend\n", 1, "rounds 1\nplace 1048575 63 1\nshort 1048575\nend\n"),
    # The largest batch: 1,024 pages, on one die, and on all 64 dies with 64 runs of 100 closed rounds for each.
    ("most_pages_on_one_die", "batch\n" + "".join(f"page {n} on 0\n" for n in range(1024)) + "end\n", 1024,
     "rounds 1024\n" + "".join(f"place {n} 0 {n + 1}\n" for n in range(1024))
     + f"short {' '.join(map(str, range(1024)))}\nend\n"),
    ("most_pages_dies_and_runs",
     "batch\n" + "".join(f"page {n} on {' '.join(map(str, range(64)))}\n" for n in range(1024))
     + "".join(f"closed {n % 64} {101 * (n // 64) + 1} {101 * (n // 64) + 100}\n" for n in range(4096)) + "end\n", 1616,
     ("rounds 1616\n", f"short {' '.join(map(str, range(1024)))}\nend\n")),
]

REFUSED = [
    ("page_with_no_holder", "batch\npage 7 on\nend\n", "unsound: page 7 has no holder\n"),
    ("page_that_stands_twice", "batch\npage 7 on 0\npage 7 on 0\nend\n", "unsound: page 7 stands twice\n"),
    ("page_without_on", "batch\npage 7\nend\n", "text: line 2\n"),
    ("line_behind_the_batch", "batch\nend\nrounds 0\n", "text: line 3\n"),
    ("no_input", "", "text: line 1\n"),
    ("no_end", "batch\npage 1 on 0\n", "text: line 3\n"),
    ("one_page_too_many", "batch\n" + "".join(f"page {n} on 0\n" for n in range(1025)) + "end\n", "text: line 1026\n"),
]


# Batches of which the laboratory tells what a plan took, its front and its end: a search for each page, and one more for each that fails.
COUNTED = [
    ("a_full_batch_on_one_die", "batch\n" + "".join(f"page {n} on 0\n" for n in range(1024)) + "end\n",
     "least 1024 searches 1024 looks ", "\n"),
    ("one_failed_search", "batch\npage 0 on 0\npage 1 on 0\npage 2 on 1 2\nend\n", "least 2 searches 4 looks 5\n", ""),
]


def planned(name, batch, least, plan):
    printed = between(*plan) if isinstance(plan, tuple) else plan
    return Case(name, [
        Run(("plan",), printed, input=batch),
        Run(("verify",), f"least {least}\n", input=lambda told: batch.rstrip("\n").encode() + b"\n" + told)])


def cases():
    for row in PLANS:
        yield planned(*row)
    for name, text, told in REFUSED:
        yield Case(f"refused/{name}", [Run(("plan",), told, 2, input=text)])
    for name, batch, *ends in COUNTED:
        yield Case(f"counted/{name}", [Run((), between(*ends), input=f"plan text {'/'.join(batch.splitlines())}\n")], program=LAB)
