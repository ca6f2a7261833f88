"""Texts of settings, by `check`: the line of each fault, which of two faults is told, and what standard error says of it.

A text without a fault comes as far as its images, of which there is none: `mount: 7 image fault`.
"""
import advice
from cases import Case, Run

LINES = {
    "array": 'array = "00112233445566778899aabbccddeeff"',
    "images": 'images = ["d0.img", "d1.img", "d2.img", "d3.img"]',
    "dies": "dies = 4",
    "spares": "spares = 0",
    "blocks": "blocks = 16",
    "slots": "slots = 8",
    "page_bytes": "page_bytes = 512",
    "pages": "pages = 64",
    "window_rounds": "window_rounds = 8",
    "listen": 'listen = "127.0.0.1:10809"',
    "export": 'export = "disk"',
    "sessions": "sessions = 4",
}

# What standard error says is wanted.
WANTED = {
    "array": "32 hexadecimal digits",
    "images": "a list of 1 to 64 paths",
    "dies": "a number of 2 to 64",
    "spares": "a number of 0 to 62",
    "blocks": "a number of 4 to 4096",
    "slots": "a number of 4 to 256",
    "page_bytes": "512, 1024, 2048 or 4096",
    "pages": "a number of 1 to 1048576",
    "window_rounds": "a number of 1 to 64",
    "listen": "an IPv4 address, a colon and a port",
    "export": "1 to 64 printable ASCII characters",
    "sessions": "a number of 1 to 16",
    "copies": "2 or 3",
}

GOOD = None
ADDRESSES = [
    ("0.0.0.0:0", GOOD), ("255.255.255.255:65535", GOOD), ("127.0.0.1", 5), ("127.0.0.1:", 5), ("127.0.0.1:65536", 5),
    ("127.0.0.1:010809", 5), ("127.0.0.1:00", 5), ("127.0.0.01:10809", 5), ("256.0.0.1:10809", 5), ("127.0.0.1:10809 ", 5),
    ("localhost:10809", 5), ("[::1]:10809", 5),
]

# Name, a key, what it has in place of its line's value, and the fault by its number.
VALUES = [
    ("array_of_another_type", "array", "1", 3),
    ("array_as_a_date", "array", "1979-05-27T07:32:00Z", 3),
    ("array_of_30_digits", "array", '"00112233445566778899aabbccddee"', 5),
    ("array_of_34_digits", "array", '"00112233445566778899aabbccddeeff00"', 5),
    ("array_with_another_character", "array", '"00112233445566778899aabbccddeegg"', 5),
    ("array_in_either_case", "array", '"00112233445566778899AABBccddeeff"', GOOD),
    ("images_as_a_string", "images", '"d0.img"', 3),
    ("images_with_a_number", "images", '["d0.img", 1]', 3),
    ("no_images", "images", "[]", 5),
    ("one_image", "images", '["d0.img"]', GOOD),
    ("64_images", "images", "[" + ", ".join(['"d0.img"'] * 64) + "]", GOOD),
    ("65_images", "images", "[" + ", ".join(['"d0.img"'] * 65) + "]", 5),
    ("dies_as_a_string", "dies", '"4"', 3),
    ("dies_as_a_table", "dies", "{ bell = 1 }", 3),
    ("1_die", "dies", "1", 5),
    ("2_dies", "dies", "2", GOOD),
    ("64_dies", "dies", "64", GOOD),
    ("65_dies", "dies", "65", 5),
    ("spares_below_0", "spares", "-1", 5),
    ("63_spares", "spares", "63", 5),
    ("3_blocks", "blocks", "3", 5),
    ("4096_blocks", "blocks", "4096", GOOD),
    ("4097_blocks", "blocks", "4097", 5),
    ("3_slots", "slots", "3", 5),
    ("4_slots", "slots", "4", GOOD),
    ("256_slots", "slots", "256", GOOD),
    ("257_slots", "slots", "257", 5),
    ("page_bytes_as_a_float", "page_bytes", "512.0", 3),
    ("page_of_0_bytes", "page_bytes", "0", 5),
    ("page_of_256_bytes", "page_bytes", "256", 5),
    ("page_of_513_bytes", "page_bytes", "513", 5),
    ("page_of_1024_bytes", "page_bytes", "1024", GOOD),
    ("page_of_1536_bytes", "page_bytes", "1536", 5),
    ("page_of_2048_bytes", "page_bytes", "2048", GOOD),
    ("page_of_4096_bytes", "page_bytes", "4096", GOOD),
    ("page_of_8192_bytes", "page_bytes", "8192", 5),
    ("0_pages", "pages", "0", 5),
    ("1_page", "pages", "1", GOOD),
    ("1048577_pages", "pages", "1048577", 5),
    ("pages_above_32_bits", "pages", "4294967360", 5),
    ("greatest_number", "pages", "9223372036854775807", 5),
    ("0_window_rounds", "window_rounds", "0", 5),
    ("64_window_rounds", "window_rounds", "64", GOOD),
    ("65_window_rounds", "window_rounds", "65", 5),
    ("listen_as_a_number", "listen", "10809", 3),
    ("export_as_a_list", "export", '["disk"]', 3),
    ("empty_export", "export", '""', 5),
    ("export_with_a_space", "export", '"my disk"', GOOD),
    ("export_with_a_tab", "export", '"my\\tdisk"', 5),
    ("export_with_another_letter", "export", '"d\u00efsk"', 5),
    ("export_of_64_characters", "export", f'"{"x" * 64}"', GOOD),
    ("export_of_65_characters", "export", f'"{"x" * 65}"', 5),
    ("sessions_as_a_truth_value", "sessions", "true", 3),
    ("0_sessions", "sessions", "0", 5),
    ("16_sessions", "sessions", "16", GOOD),
    ("17_sessions", "sessions", "17", 5),
    ("2_copies", "copies", "2", GOOD),
    ("3_copies", "copies", "3", GOOD),
    ("1_copy", "copies", "1", 5),
    ("4_copies", "copies", "4", 5),
    ("copies_as_a_string", "copies", '"2"', 3),
    *((f"address_{address}", "listen", f'"{address}"', fault) for address, fault in ADDRESSES),
]

# A number with underscores is what it is without them.
UNDERSCORES = [("pages_with_underscores", "pages", "1_048_577", "1048577")]

DIES = "dies or spares outside their limits"
PAGES = "pages outside their limits"
COPIES = "copies outside their limits"
# Numbers that are each within their limits: name, edits, the fault's number (or none) and what is said of it. A die has 14
# blocks of 8 slots to use, and four of them hold 448 copies.
TOGETHER = [
    ("3_spares_of_4_dies", {"spares": "spares = 3"}, 1, DIES),
    ("2_spares_of_4_dies", {"spares": "spares = 2"}, GOOD, None),
    ("1_spare_of_2_dies", {"dies": "dies = 2", "spares": "spares = 1"}, 1, DIES),
    ("224_pages", {"pages": "pages = 224"}, GOOD, None),
    ("225_pages", {"pages": "pages = 225"}, 5, PAGES),
    ("168_pages_and_a_spare", {"pages": "pages = 168", "spares": "spares = 1"}, GOOD, None),
    ("169_pages_and_a_spare", {"pages": "pages = 169", "spares": "spares = 1"}, 5, PAGES),
    ("4_blocks", {"blocks": "blocks = 4", "pages": "pages = 32"}, GOOD, None),
    ("33_pages_on_4_blocks", {"blocks": "blocks = 4", "pages": "pages = 33"}, 5, PAGES),
    ("3_copies_on_2_dies", {"spares": "spares = 2", "copies": "copies = 3"}, 6, COPIES),
    ("3_copies_of_149_pages", {"pages": "pages = 149", "copies": "copies = 3"}, GOOD, None),
    ("3_copies_of_150_pages", {"pages": "pages = 150", "copies": "copies = 3"}, 6, COPIES),
    ("dies_before_copies", {"spares": "spares = 3", "copies": "copies = 3"}, 1, DIES),
    ("largest_array", {"dies": "dies = 64", "blocks": "blocks = 4096", "slots": "slots = 256", "page_bytes": "page_bytes = 4096",
                       "pages": "pages = 1048576", "copies": "copies = 3"}, GOOD, None),
]

# Two faults at once: name, edits, the line, and what is said of it.
FIRST = [
    ("the_first_unknown_key", {"colour": "colour = 1", "bell": "bell = 1"}, "4 bell", "there is no key bell: remove it"),
    ("unknown_before_missing", {"colour": "colour = 1", "array": ""}, "4 colour", "there is no key colour: remove it"),
    ("no_toml_before_unknown", {"colour": "colour = 1", "dies": "dies = "}, "1", advice.NOT_TOML),
    ("a_key_in_another_case", {"Dies": "Dies = 4", "bell": "bell = 1"}, "4 Dies", "there is no key Dies: remove it"),
    ("limits_before_a_later_missing_key", {"sessions": "", "dies": "dies = 1"}, "5 dies", f"dies is 1: wanted is {WANTED['dies']}"),
    ("the_earlier_key", {"dies": 'dies = "4"', "images": "images = []"}, "5 images", f"images is []: wanted is {WANTED['images']}"),
    ("missing_before_copies", {"copies": "copies = 4", "export": ""}, "2 export", f"export is missing: {WANTED['export']}"),
    ("limits_before_what_goes_together", {"pages": "pages = 225", "sessions": "sessions = 0"}, "5 sessions",
     f"sessions is 0: wanted is {WANTED['sessions']}"),
    ("copies_before_what_goes_together", {"spares": "spares = 3", "copies": "copies = 4"}, "5 copies",
     f"copies is 4: wanted is {WANTED['copies']}"),
    ("a_table_at_the_top", {"bell": "[bell]\ndies = 4"}, "4 bell", "there is no key bell: remove it"),
]

# Texts that are no TOML or empty.
TEXTS = [
    ("cut_line", b"array = ", "1", advice.NOT_TOML),
    ("no_utf_8", b"# \xff\n", "1", advice.NOT_TOML),
    ("empty", b"", "2 array", f"array is missing: {WANTED['array']}"),
    ("a_key_twice", "".join(f"{line}\n" for line in [*LINES.values(), "dies = 4"]).encode(), "1", advice.NOT_TOML),
    ("a_number_of_65_bits", "".join(f"{line}\n" for line in {**LINES, "dies": "dies = 9223372036854775808"}.values()).encode(),
     "1", advice.NOT_TOML),
]


def text(edits):
    """The whole text with these lines in place of those of the same keys, or behind them."""
    lines = [line for key, line in LINES.items() if key not in edits]
    return "".join(f"{line}\n" for line in [*lines, *(line for line in edits.values() if line)])


def refused(name, content, fault, said):
    line = f"settings: {fault}\n"
    return Case(name, [Run(("check", "array.toml"), line, 2, errors=(f"array.toml: {said}",))], {"array.toml": content})


def accepted(name, content):
    errors = (advice.image("d0.img", "No such file or directory"),)
    return Case(name, [Run(("check", "array.toml"), "mount: 7 image fault\n", 1, errors=errors)], {"array.toml": content})


def cases():
    yield accepted("example", text({}))
    for key in LINES:
        yield refused(f"missing/{key}", text({key: ""}), f"2 {key}", f"{key} is missing: {WANTED[key]}")
    for name, key, value, fault in VALUES:
        content = text({key: f"{key} = {value}"})
        if fault is GOOD:
            yield accepted(name, content)
        else:
            yield refused(name, content, f"{fault} {key}", f"{key} is {value}: wanted is {WANTED[key]}")
    for name, key, value, found in UNDERSCORES:
        yield refused(name, text({key: f"{key} = {value}"}), f"5 {key}", f"{key} is {found}: wanted is {WANTED[key]}")
    for name, edits, fault, said in TOGETHER:
        yield accepted(name, text(edits)) if fault is GOOD else refused(name, text(edits), f"6 {fault}", said)
    for name, edits, fault, said in FIRST:
        yield refused(f"first/{name}", text(edits), fault, said)
    for name, content, fault, said in TEXTS:
        yield refused(f"text/{name}", content, fault, said)
    # A text far above 4 KiB: 64 paths of 2,000 bytes, and a comment of a mebibyte.
    paths = [f"d{number}{'x' * 2000}.img" for number in range(64)]
    many = text({"images": f"images = [{', '.join(map(repr, paths))}]".replace("'", '"')})
    yield Case("long_text", [Run(("format", "array.toml"), "settings: 5 images\n", 2, errors=(
        advice.number_of_images(64, 4),))], {"array.toml": many})
    yield accepted("long_comment", "# " + "x" * (1 << 20) + "\n" + text({}))
    yield Case("no_file", [Run(("check", "array.toml"), "settings: cannot read\n", 2, errors=(
        advice.settings("array.toml", "No such file or directory"),))])
    yield Case("a_folder", [Run(("check", "."), "settings: cannot read\n", 2, errors=(advice.settings(".", "Is a directory"),))])
