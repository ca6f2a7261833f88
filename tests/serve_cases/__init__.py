"""The cases that tests/serve runs, by subject.

Each is a function of `make`, which makes an array: its arguments are those of servers.Array behind the program and the folder, and
each array of a case has a folder of its own. A case fails where it raises.
"""
import importlib
import pkgutil

FOUND = []


def case(function):
    """Marks a function as a case."""
    FOUND.append((f"{function.__module__.rpartition('.')[2]}/{function.__name__}", function))
    return function


def all_cases():
    """Each case with its name, SUBJECT/NAME."""
    for subject in sorted(it.name for it in pkgutil.iter_modules(__path__)):
        importlib.import_module(f"serve_cases.{subject}")
    return list(FOUND)
