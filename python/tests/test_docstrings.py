"""What each name of `__all__` says of itself: a sentence, its parameters and fields with their types, its errors, an example."""
from __future__ import annotations

import dataclasses
import inspect
import re
from typing import Any, Dict, Iterator, List, Tuple

import pytest

import markush

NAMES = sorted(markush.__all__)
# a constructor that callers don't use: the class says what makes it
MADE_BY_OTHERS = {"Hits", "SavedSearch", "Scan"}


def sections(said: str) -> Dict[str, str]:
    """The parts of a docstring by their headings; what is before the first has none."""
    parts = re.split(r"(?m)^(\w+)\n-+$", said)
    return {"": parts[0], **dict(zip(parts[1::2], parts[2::2]))}


def fields(part: str) -> Dict[str, str]:
    """The names that a part describes, each with its type."""
    found: Dict[str, str] = {}
    for names, kind in re.findall(r"(?m)^((?:\*\*)?\w+(?:, \w+)*) : (.+)$", part):
        found.update((name.lstrip("*"), kind) for name in names.split(", "))
    for names in re.findall(r"(?m)^(\w+(?:, \w+)+)\n    As for", part):
        found.update((name, "as there") for name in names.split(", "))
    return found


def taken(value: Any) -> List[str]:
    """The names of the parameters of a function."""
    return [name for name in inspect.signature(value).parameters if name not in ("self", "cls")]


def methods(kind: type) -> Iterator[Tuple[str, Any]]:
    """The public functions of a class of this package, and of its own bases."""
    for base in kind.__mro__:
        if base.__module__.startswith("markush"):
            for name, value in vars(base).items():
                value = value.__func__ if isinstance(value, (classmethod, staticmethod)) else value
                if inspect.isfunction(value) and not name.startswith("_"):
                    yield name, value


def unsaid(name: str, value: Any, needs_example: bool) -> List[str]:
    """What a docstring lacks."""
    said = inspect.getdoc(value) or ""
    parts = sections(said)
    lacks = []
    if not re.match(r"\S[^\n]*\.(?=\s|$)", parts[""].strip().replace("\n", " ")):
        lacks.append(f"{name}: no sentence in front")
    if needs_example and ">>> " not in parts.get("Examples", ""):
        lacks.append(f"{name}: no example")
    described = fields(parts.get("Parameters", "") + parts.get("Attributes", ""))
    if inspect.isfunction(value):
        wanted = taken(value)
    elif dataclasses.is_dataclass(value):
        wanted = [field.name for field in dataclasses.fields(value)]
    elif "__init__" in vars(value) and value.__name__ not in MADE_BY_OTHERS:
        wanted = taken(value.__init__)
    else:
        wanted = []
    lacks += [f"{name}: nothing of {each}" for each in wanted if each not in described]
    lacks += [f"{name}: of {each}, which isn't there" for each in described if inspect.isfunction(value) and each not in wanted]
    for part in ("Parameters", "Attributes", "Raises"):
        for head in re.findall(r"(?m)^(\S.*)\n(?!    )", parts.get(part, "") + "\n"):
            lacks.append(f"{name}: not a word of '{head}' among its {part}")
    return lacks


@pytest.mark.parametrize("name", NAMES)
def test_each_name_says_what_it_is(name: str) -> None:
    value = getattr(markush, name)
    lacks = unsaid(name, value, True)
    if inspect.isclass(value):
        for called, method in methods(value):
            lacks += unsaid(f"{name}.{called}", method, bool(taken(method)))
    assert not lacks, "\n".join(lacks)


def test_what_is_raised_is_told() -> None:
    """Of the functions and methods that come to the program or to a file, each has a part that says what may be raised."""
    silent = []
    for name in NAMES:
        value = getattr(markush, name)
        callables = [(f"{name}.{called}", method) for called, method in methods(value)] if inspect.isclass(value) else [(name, value)]
        silent += [called for called, each in callables if inspect.isfunction(each) and taken(each) and "Raises" not in sections(inspect.getdoc(each) or "")]
    assert not silent, ", ".join(silent)
