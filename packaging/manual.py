"""The manual pages, made of what `--help` prints and of docs/FORMATS.md, so that each rule is written once."""
import re
import subprocess

# The rows of a table are told one behind the other, since few terminals have room for its columns.
BULLET = "\\(bu"
CODE, LINK, BOLD = re.compile(r"`([^`]*)`"), re.compile(r"\[([^\]]*)\]\(([^)]*)\)"), re.compile(r"\*\*?([^*]+)\*\*?")


def plain(text):
    """Text as roff has it: nothing in it is a request or an escape."""
    return text.replace("\\", "\\e").replace("-", "\\-").replace("'", "\\(aq").replace("·", "\\(pc").replace("^", "\\(ha").replace("~", "\\(ti")


def inline(text):
    """A line of Markdown: code and emphasis in other fonts, and a link as its words."""
    text = plain(LINK.sub(r"\1", text))
    text = CODE.sub(r"\\fB\1\\fR", text)
    return BOLD.sub(r"\\fI\1\\fR", text)


def line_of(text):
    """A line that does not begin as a request does."""
    return f"\\&{text}" if text.startswith((".", "'")) else text


def cells(row):
    return [cell.strip().replace("\\|", "|") for cell in re.split(r"(?<!\\)\|", row.strip().strip("|"))]


def table(rows):
    """A table: for each row its first cell, and below it the others with the heads of their columns."""
    heads, _, *rest = [cells(row) for row in rows]
    for first, *others in rest:
        yield ".TP"
        yield line_of(f"{inline(heads[0])} {inline(first)}" if heads[0] else inline(first)) or "\\&"
        told = [f"{inline(head)}: {inline(cell)}" if head else inline(cell) for head, cell in zip(heads[1:], others) if cell]
        yield line_of("; ".join(told)) or "\\&"


def blocks(lines):
    """Markdown in blocks: a kind, and its lines."""
    kind, found = None, []
    for line in [*lines, ""]:
        if kind == "code":
            if line.startswith("```"):
                yield kind, found
                kind, found = None, []
            else:
                found.append(line)
            continue
        new = ("code" if line.strip().startswith("```") else "head" if line.startswith("#") else "table" if line.startswith("|")
               else "item" if re.match(r"(- |\d+\. )", line) else "text" if line.strip() else None)
        more = new == kind == "table" or new == "text" and kind in ("text", "item")
        if not more:
            if kind and kind != "code":
                yield kind, found
            kind, found = new, []
        if new and new != "code":
            found.append(line)


def roff(lines, deepest):
    """The requests of a man page for Markdown whose sections begin at this depth."""
    for kind, found in blocks(lines):
        if kind == "head":
            marks, _, words = found[0].partition(" ")
            request = ".SH" if len(marks) <= deepest else ".SS"
            yield f"{request} {inline(words).upper() if request == '.SH' else inline(words)}"
        elif kind == "code":
            yield from (".PP", ".RS 4", ".nf", *(line_of(plain(line)) or "\\&" for line in found), ".fi", ".RE")
        elif kind == "table":
            yield from table(found)
        elif kind == "item":
            mark, words = re.match(r"(-|\d+\.) +(.*)", found[0]).groups()
            yield f".IP {BULLET if mark == '-' else mark} 3"
            yield line_of(inline(" ".join([words, *(line.strip() for line in found[1:])])))
        else:
            yield ".PP"
            yield line_of(inline(" ".join(line.strip() for line in found)))


def title(name, section, what, version):
    return [f'.TH {name.upper()} {section} "" "flasharr {version}" "flasharr"', ".SH NAME", f"{plain(name)} \\- {plain(what)}"]


def section_of(formats, head):
    """The lines of a section of a document, without its own head."""
    lines = formats.split("\n")
    start = lines.index(f"## {head}")
    end = next((at for at in range(start + 1, len(lines)) if lines[at].startswith("## ")), len(lines))
    return lines[start + 1:end]


def told(program, *words):
    return subprocess.run([program, *words], stdout=subprocess.PIPE, check=True, text=True).stdout


def parts_of(help_text):
    """What a help text says: what the command does, its usage, the entries of its lists, and what follows them."""
    what, rest = help_text.strip().split("\n\n", 1)
    usage, lists, behind = "", [], []
    for part in rest.split("\n\n"):
        head, _, body = part.partition("\n")
        if part.startswith("Usage: "):
            usage = part[len("Usage: "):]
        elif head.endswith(":") and body.startswith("  "):
            lists.append((head[:-1], [re.split(r"\s{2,}", line.strip(), maxsplit=1) for line in body.split("\n")]))
        else:
            behind.append(" ".join(part.split("\n")))
    return what, usage, lists, behind


def entries(listed):
    for entry in listed:
        yield ".TP"
        yield line_of(f"\\fB{plain(entry[0])}\\fR")
        yield line_of(inline(entry[1])) if len(entry) > 1 else "\\&"


def command(program, name):
    """The page's part on a command."""
    what, usage, lists, behind = parts_of(told(program, name, "--help"))
    yield f".SS {plain(name)}"
    yield line_of(f"\\fB{plain(usage)}\\fR")
    yield ".PP"
    yield line_of(inline(f"{what}."))
    for _, listed in lists:
        yield from entries(listed)
    for text in behind:
        yield ".PP"
        yield line_of(inline(text))


def program_page(program, version):
    """flasharr(1), of what `--help` prints."""
    what, usage, lists, behind = parts_of(told(program, "--help"))
    listed = dict(lists)
    yield from title("flasharr", 1, what[0].lower() + what[1:], version)
    yield from (".SH SYNOPSIS", line_of(f"\\fB{plain(usage)}\\fR"), ".SH OPTIONS", *entries(listed["Options"]), ".SH COMMANDS")
    for name, *_ in listed["Commands"]:
        yield from command(program, name)
    yield from (".SH EXIT STATUS", *(line_of(inline(text)) for text in behind))
    yield from (".SH FILES", ".TP", "\\fI/etc/flasharr/NAME.toml\\fR", "The settings of the array that the unit \\fBflasharr@NAME\\fR serves.",
                ".TP", "\\fI/etc/flasharr/NAME.toml.lost\\fR", "The pages of that array that were lost, if any were.")
    yield from (".SH SEE ALSO", "\\fBflasharr.toml\\fR(5), \\fBflasharr\\-format\\fR(5), and the documents in \\fI/usr/share/doc/flasharr\\fR.")


def formats_page(name, what, formats, heads, version):
    """A page of section 5, of sections of docs/FORMATS.md."""
    yield from title(name, 5, what, version)
    for head in heads:
        yield f".SH {inline(head).upper()}"
        yield from roff(section_of(formats, head), 2)
    yield from (".SH SEE ALSO", "\\fBflasharr\\fR(1)")


def pages(program, formats, version):
    """The manual pages, by their names."""
    made = {
        "man1/flasharr.1": program_page(program, version),
        "man5/flasharr.toml.5": formats_page("flasharr.toml", "the settings of a mirrored flash array", formats, ["Settings"], version),
        "man5/flasharr-format.5": formats_page(
            "flasharr-format", "the images of a mirrored flash array, and the texts that flasharr reads and prints", formats,
            ["Image files", "Messages and statuses", "What talk reads and prints", "Batch and certificate texts"], version),
    }
    return {name: "\n".join(lines) + "\n" for name, lines in made.items()}
