"""The cases that tests/program runs, by subject. Each is files to begin with, and runs of the program in turn."""
import importlib
import json
import pkgutil
from dataclasses import dataclass, field
from typing import Callable, Union


class Like:
    """An output of which not every byte is settled: `fault` says what is wrong with what was printed, or None."""

    def __init__(self, said: str, fault: Callable):
        self.said = said
        self.fault = fault


@dataclass
class Run:
    """One run of the program, and what is wanted of it.

    The input is bytes, text, or a function of what the run before printed; or `source` is a path that standard input is
    opened at. With `sink` standard output is opened at that path, and the output is not looked at. Each line of `errors`
    stands on standard error behind the program's name and a colon.
    """
    words: tuple
    output: Union[str, bytes, Like] = ""
    status: int = 0
    input: Union[str, bytes, Callable] = b""
    errors: tuple = ()
    source: str = None
    sink: str = None


@dataclass
class Talk:
    """A step that talks with the program, whose path it is given, and gives what is wrong as lines."""
    faults: Callable


@dataclass
class Case:
    """A case: its name, files by their paths, and its steps, each a run, a talk or a change that is made to the folder. One that
    is `long` takes seconds where others take a hundredth of one. Its runs are those of `program`."""
    name: str
    steps: list
    files: dict = field(default_factory=dict)
    long: bool = False
    program: str = "flasharr"


def between(front, back):
    """An output with these ends."""
    def fault(output):
        text = output.decode("utf-8", "replace")
        if len(text) < len(front) + len(back) or not (text.startswith(front) and text.endswith(back)):
            return f"does not begin with {front!r} and end with {back!r}"
        return None
    return Like(f"{front!r} .. {back!r}", fault)


def document(wanted):
    """One JSON document on one line."""
    def fault(output):
        if output.count(b"\n") != 1 or not output.endswith(b"\n"):
            return "is not one line"
        try:
            told = json.loads(output)
        except ValueError as error:
            return f"is no JSON: {error}"
        return None if told == wanted else f"says {json.dumps(told)}, and wanted is {json.dumps(wanted)}"
    return Like(json.dumps(wanted), fault)


def spelled(words):
    """The bytes that words of hexadecimal digits spell. The word 11x512 is 512 bytes 11."""
    parts = []
    for word in words.split():
        digits, _, count = word.partition("x")
        parts.append(bytes.fromhex(digits) * int(count or 1))
    return b"".join(parts)


def all_cases():
    """Each case of each subject, named SUBJECT/NAME."""
    found = []
    for subject in sorted(it.name for it in pkgutil.iter_modules(__path__)):
        for case in importlib.import_module(f"cases.{subject}").cases():
            case.name = f"{subject}/{case.name}"
            found.append(case)
    names = [case.name for case in found]
    twice = {name for name in names if names.count(name) > 1}
    if twice:
        raise ValueError(f"two cases have one name: {', '.join(sorted(twice))}")
    return found
