"""Errors: the family, their fields, and that each comes back whole from another process."""
from __future__ import annotations

import pickle

import pytest

from markush import MarkushError, OutOfMemory, ProgramEnded, Refused, SearchTimeout, StoreBad, StoreBusy

ERRORS = [
    MarkushError("x"),
    Refused("x", code=3, answer="refused ..", command="load 1.sdf", file="a.sdf", line=120, record=3, atom=14, name="resin"),
    StoreBusy("x"),
    StoreBad("x", kind="record", number=4),
    OutOfMemory("x"),
    ProgramEnded("x", -9),
    SearchTimeout("x"),
]


@pytest.mark.parametrize("error", ERRORS, ids=[type(error).__name__ for error in ERRORS])
def test_each_is_pickled_and_back(error: MarkushError) -> None:
    back = pickle.loads(pickle.dumps(error))
    assert type(back) is type(error) and str(back) == str(error) and vars(back) == vars(error)


def test_the_family() -> None:
    assert all(isinstance(error, MarkushError) for error in ERRORS)
    assert isinstance(ERRORS[1], ValueError) and isinstance(ERRORS[6], TimeoutError)
    assert not issubclass(KeyError, MarkushError)


def test_a_timeout_leaves_its_search_behind_where_it_is_pickled() -> None:
    assert pickle.loads(pickle.dumps(SearchTimeout("x", object()))).hits is None
