"""What the tests of the package share: the examples, the programs, a library. A program that is missing fails in one line."""
from __future__ import annotations

import os
import shlex
import signal
import sys
from pathlib import Path
from typing import Any, Iterator

import pytest

PYTHON = Path(__file__).resolve().parent
TOP = PYTHON.parent
sys.path.insert(0, str(PYTHON / "src"))

# a shell that runs the tests behind `&` has INT ignored, which every child inherits; the tests of interrupts send it
if signal.getsignal(signal.SIGINT) == signal.SIG_IGN:
    signal.signal(signal.SIGINT, signal.default_int_handler)

from markush import Claim, Library, MarkushError  # noqa: E402
from markush.programs import program as find_program, session_command  # noqa: E402


@pytest.fixture(scope="session")
def top() -> Path:
    """The top of the checkout."""
    return TOP


@pytest.fixture(scope="session")
def examples() -> Path:
    """The folder of the examples."""
    return TOP / "examples"


@pytest.fixture(scope="session")
def acids_sdf(examples: Path) -> Path:
    """33 phenoxyacetic acids and others, with names and a data item `formula`."""
    return examples / "phenoxy_acids" / "compounds.sdf"


@pytest.fixture(scope="session")
def acids(examples: Path) -> Claim:
    """The claim whose hits among `acids_sdf` stand in the folder's `answer`."""
    return Claim.read(examples / "phenoxy_acids" / "claim.rgf")


@pytest.fixture(scope="session")
def program(tmp_path_factory: pytest.TempPathFactory) -> Path:
    """The built session program, or a script that answers as it does by runs of `markush`."""
    try:
        words = session_command()
    except MarkushError as fault:
        pytest.fail(str(fault), pytrace=False)
    if len(words) == 1:
        return Path(words[0])
    script = tmp_path_factory.mktemp("session") / "markush-session"
    script.write_text(f'#!/bin/sh\nexec {shlex.join(words)} "$@"\n')
    script.chmod(0o755)
    return script


@pytest.fixture(scope="session")
def command_program() -> Path:
    """The built program of the command line."""
    try:
        return find_program()
    except MarkushError as fault:
        pytest.fail(str(fault), pytrace=False)


@pytest.fixture
def library(program: Path) -> Iterator[Library]:
    """An empty library that goes with the test."""
    with Library(program=program) as lib:
        yield lib


@pytest.fixture
def loaded(library: Library, acids_sdf: Path) -> Library:
    """A library with the 33 records of `acids_sdf`."""
    library.load(acids_sdf)
    return library


@pytest.fixture(scope="session")
def fake() -> Path:
    """A program that speaks the session's grammar and does what its lines say, as to block until it is ended."""
    return PYTHON / "tests" / "fake_session"


@pytest.fixture(autouse=True)
def _names_of_doctests(doctest_namespace: "dict[str, Any]") -> None:
    doctest_namespace.update(EXAMPLES=TOP / "examples", Library=Library, Claim=Claim, os=os)
