"""The lines that `talk` reads: how they are joined, and the first that spells no bytes."""
from cases import Case, Run

GREETING = "4e42444d4147494349484156454f50540003\nend "

FAULTY = [
    ("odd_digits", "0", 1),
    ("odd_digits_around_a_space", "00 0\n", 1),
    ("no_digit", "00000003\n\ng0\n", 3),
    ("a_tab", "00000004\n00\t00", 2),
    ("a_carriage_return", "00\r\n", 1),
    ("the_first_of_two", "00\n000\nzz\n", 2),
    ("a_line_behind_the_last_message", "00000004\n00\nx\n", 3),
    ("no_text", b"00000003\n\xff\xff\n", 2),
]

JOINED = [
    ("nothing", "", 4),
    ("lines_of_spaces", "\n \n", 4),
    ("flags_in_two_lines", "000000\n04", 3),
    ("flags_with_a_space", "0000 000a", 3),
    ("digits_of_either_case", "00 0000 0F", 3),
    ("no_line_feed_at_the_end", "00000003", 4),
]


def cases():
    for name, text, line in FAULTY:
        yield Case(f"faulty/{name}", [Run(("talk",), f"talk: line {line}\n", 2, input=text)])
    for name, text, end in JOINED:
        yield Case(f"joined/{name}", [Run(("talk",), f"{GREETING}{end}\n", input=text)])
