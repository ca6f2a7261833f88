"""The command line: help, the version, and arguments that are no command."""
from cases import Case, Like, Run

HELP = """A block server over mirrored flash dies, proved before it is built

Usage: flasharr <COMMAND>

Commands:
  format  Makes the images of an array, which holds zeros
  check   Reads the images of an array, and tells what they hold
  dump    Reads the images of an array, and lists its written pages
  serve   Serves an array over NBD, until the line `stop` comes on standard input
  status  Asks a server that runs with --status how its array is
  plan    Plans a batch of reads, given as a batch text on standard input, in the least number of rounds
  talk    Serves one NBD client, whose bytes are given on standard input as lines of hexadecimal digits
  verify  Checks a batch text and a certificate text, given one behind the other on standard input

Options:
  -h, --help     Print help
  -V, --version  Print version

Status: 0 where the work was done, 1 where it was refused or memory, input or output failed,
2 at a fault of the arguments, the settings or the input's text.
"""

HELP_OF_SERVE = """Serves an array over NBD, until the line `stop` comes on standard input

Usage: flasharr serve SETTINGS [--unclean | --recover] [--verbose] [--status ADDRESS]
                      [--plans FILE [--plans-every N]]

Arguments:
  <SETTINGS>  The settings of the array, a TOML file

Options:
      --unclean           Takes an array that was not closed, or whose images are not all there
      --recover           Takes an array that was not closed, if the images that were in use are all there
      --verbose           Tells of clients that come and go, on standard error
      --status <ADDRESS>  Where others may ask by HTTP how the array is, as 127.0.0.1:9100
      --plans <FILE>      A file to which the plan of each batch is appended, which verify --log checks
      --plans-every <N>   Appends the plan of one batch in N, 1 to 1000000, and not of each
  -h, --help              Print help

Printed is first `listening ADDRESS`, where clients can connect. The server also stops where the input ends
or fails. At the end follow the last 64 faults that took dies out, a line `fault die D cause C round R` for
each, where C is 1 slot not read, 2 slot not programmed, 3 block not erased, 4 header not read, 5 header not
written, 6 image not synced, 7 slot with wrong bytes; and then `closed clean`, or `closed unclean: K` with
status 1, where K is 1 busy, 2 a page is lost, 3 no die live.

With --status a page that shows how the array is can be had by HTTP at ADDRESS, as 127.0.0.1:9100. /metrics there is for
Prometheus, and /status.json for programs. Nobody is asked for a password: choose an address of a network that is trusted.

With --plans the text of each batch of reads and of its certificate is appended to FILE, which `verify --log` checks; with
--plans-every of one batch in N.
"""

HELP_OF_STATUS = """Asks a server that runs with --status how its array is

Usage: flasharr status ADDRESS [--watch]

Arguments:
  <ADDRESS>  The address that the server was given with --status

Options:
      --watch  Asks each second, and shows the newest answer
  -h, --help   Print help

Printed is how the dies stand, the pages and copies, the load of the last second, and the last faults. Where the
server gives no answer `status: no answer` is printed, with status 1.
"""

HELP_OF_PLAN = """Plans a batch of reads, given as a batch text on standard input, in the least number of rounds

Usage: flasharr plan < TEXT

Options:
  -h, --help  Print help

Printed is the text of a certificate, which `verify` takes behind the batch text: the rounds, a place
for each page, and the pages that show that no plan has fewer rounds.
"""

HELP_OF_TALK = """Serves one NBD client, whose bytes are given on standard input as lines of hexadecimal digits

Usage: flasharr talk [--array SETTINGS [--unclean | --recover]] < LINES

Options:
      --array <SETTINGS>  Serves the client the array of these settings, a TOML file
      --unclean           Takes an array that was not closed, or whose images are not all there
      --recover           Takes an array that was not closed, if the images that were in use are all there
  -h, --help              Print help

The client finds a store of 64 pages of 512 zero bytes under the name disk. Printed are the server's
bytes, in hexadecimal on one line, and `end E`, where E is 1 disconnected, 2 aborted, 3 closed for a wrong
message, 4 input ended, 5 read failed, 6 write failed, 7 no memory in the negotiation.

With --array the client finds the array of the settings, which nobody else uses meanwhile, and which is closed
behind it. Printed are then also the faults that took dies out, and how the array was closed, as `serve` does.
"""

HELP_OF_VERIFY = """Checks a batch text and a certificate text, given one behind the other on standard input

Usage: flasharr verify < TEXTS
       flasharr verify --log FILE

Options:
      --log <FILE>  A file of plans, each of which is checked
  -h, --help        Print help

Printed is `least R`, or `refused K WORDS` with status 1 for the first rule that is broken.

With --log each plan of a file of plans is checked. Printed is `plans N least L refused K rounds R`: the plans, how many
are accepted as least and how many are refused, and the sum of the rounds of the accepted ones; with status 1 where K is
not 0. Which ones are refused is told on standard error.
"""

NO_COMMAND = """error: 'flasharr' requires a subcommand but one was not provided
  [subcommands: format, check, dump, serve, status, plan, talk, verify]

Usage: flasharr <COMMAND>

For more information, try '--help'.
"""

WORD_TOO_MANY = """error: unexpected argument 'talk' found

Usage: flasharr talk [--array SETTINGS [--unclean | --recover]] < LINES

For more information, try '--help'.
"""

USAGE = "usage: flasharr format | check | dump | serve | status | plan | talk [--array SETTINGS [--unclean | --recover]] | verify\n"

SHOWN = [
    ("help", ("--help",), HELP), ("short_help", ("-h",), HELP),
    ("help_of_serve", ("serve", "--help"), HELP_OF_SERVE), ("short_help_of_serve", ("serve", "-h"), HELP_OF_SERVE),
    ("help_of_status", ("status", "--help"), HELP_OF_STATUS),
    ("help_of_plan", ("plan", "--help"), HELP_OF_PLAN), ("help_of_talk", ("talk", "--help"), HELP_OF_TALK),
    ("help_of_verify", ("verify", "-h"), HELP_OF_VERIFY),
    ("version", ("--version",), "flasharr 1.0.0\n"), ("short_version", ("-V",), "flasharr 1.0.0\n"),
]

# Arguments that are a mistake, and what the first line of the output names.
MISTAKES = [
    ("unknown_command", ("serves",), "serves"), ("command_in_another_case", ("Talk",), "Talk"), ("cut_command", ("verif",), "verif"),
    ("unknown_option", ("check", "array.toml", "--cleanly"), "--cleanly"), ("word_behind_plan", ("plan", "batch.txt"), "batch.txt"),
    ("die_64", ("format", "array.toml", "--die", "64"), "64"), ("die_below_0", ("format", "array.toml", "--die=-1"), "-1"),
    ("die_that_is_no_number", ("format", "array.toml", "--die", "x"), "'x'"),
    ("no_settings", ("check",), ""), ("unclean_format", ("format", "array.toml", "--unclean"), "--unclean"),
    ("recover_format", ("format", "array.toml", "--recover"), "--recover"),
    ("no_address", ("status",), ""), ("status_without_an_address", ("serve", "array.toml", "--status"), "--status"),
    ("json_twice", ("dump", "array.toml", "--json", "--json"), "--json"), ("array_without_a_path", ("talk", "--array"), "--array"),
    ("log_without_a_path", ("verify", "--log"), "--log"), ("log_twice", ("verify", "--log", "a", "--log", "a"), "--log"),
    ("word_behind_verify", ("verify", "a.plans"), "a.plans"), ("plans_without_a_path", ("serve", "a.toml", "--plans"), "--plans"),
    ("plans_every_0", ("serve", "a.toml", "--plans", "a", "--plans-every", "0"), "0"),
    ("plans_every_1000001", ("serve", "a.toml", "--plans", "a", "--plans-every", "1000001"), "1000001"),
    ("plans_every_that_is_no_number", ("serve", "a.toml", "--plans", "a", "--plans-every", "x"), "'x'"),
    ("array_twice", ("talk", "--array", "a.toml", "--array", "a.toml"), "--array"),
]


def mistake(word):
    """The text of a mistake in the arguments, of which the first line names a word."""
    def fault(output):
        text = output.decode("utf-8", "replace")
        if not (text.startswith("error: ") and word in text.splitlines()[0]):
            return f"does not begin with an error that names {word!r}"
        return None if text.endswith("\n\nFor more information, try '--help'.\n") else "does not end with where to find help"
    return Like(f"a mistake at {word!r}", fault)


def cases():
    for name, words, text in SHOWN:
        yield Case(name, [Run(words, text)])
    yield Case("mistake/no_command", [Run((), NO_COMMAND, 2)])
    yield Case("mistake/word_too_many", [Run(("talk", "talk"), WORD_TOO_MANY, 2)])
    for name, words, word in MISTAKES:
        yield Case(f"mistake/{name}", [Run(words, mistake(word), 2)])
    yield Case("mistake/no_text", [Run((b"talk", b"\xff"), USAGE, 2)])
    # There is no array that may be an unclean one.
    for name in ("unclean", "recover"):
        yield Case(f"mistake/{name}_without_array", [Run(("talk", f"--{name}"), USAGE, 2, "zz")])
    # An array is taken on these terms or on those.
    for words in (("check", "a.toml"), ("dump", "a.toml"), ("serve", "a.toml"), ("talk", "--array", "a.toml")):
        yield Case(f"mistake/{words[0]}_on_two_terms", [Run((*words, "--unclean", "--recover"), USAGE, 2, "zz")])
    # Plans are counted for a file alone.
    yield Case("mistake/plans_every_without_plans", [Run(("serve", "a.toml", "--plans-every", "9"), USAGE, 2, "zz")])
    # The arguments are judged before the settings are read, and a command that reads no input leaves it alone.
    yield Case("mistake/before_the_settings", [Run(("check", "none.toml", "--cleanly"), mistake("--cleanly"), 2)])
    # An input that cannot be read, here a folder, and an output that takes nothing.
    for command in ("talk", "plan", "verify"):
        yield Case(f"streams/{command}_cannot_read", [Run((command,), f"{command}: cannot read\n", 1, source=".")])
    for name, words, text in [("talk", ("talk",), ""), ("plan", ("plan",), "batch\nend\n"),
                              ("verify", ("verify",), "batch\nend\nrounds 0\nend\n"), ("a_faulty_text", ("verify",), "batch"),
                              ("help", ("--help",), "")]:
        yield Case(f"streams/output_of_{name}_fails", [Run(words, status=1, input=text, sink="/dev/full")])
    yield Case("streams/output_of_a_mistake_fails", [Run(("serves",), status=2, sink="/dev/full")])
