"""What a page of hits is made of, by libraries that stand in for the program's."""
import time
from types import SimpleNamespace
from typing import Any, List

import pytest

from markush import reasons
from markush.tools import find


class Shelf(List[Any]):
    """Records that no claim hits, but those of a number that a claim of --not has as its own."""

    def search(self, claim: Any, per: str) -> List[Any]:
        return [SimpleNamespace(record=it.number) for it in self if it.number == claim and per == "record"]


def reasons_of(found: find.Found, without: List[int], count: int, monkeypatch: pytest.MonkeyPatch) -> List[int]:
    """The numbers of the records that are asked why."""
    asked: List[int] = []

    def why_not_each(_: Any, records: List[Any]) -> dict:
        asked.extend(it.number for it in records)
        return {it.number: f"no {it.number}" for it in records}

    monkeypatch.setattr(reasons, "why_not_each", why_not_each)
    find._search_library(found, without, Shelf(SimpleNamespace(number=number) for number in range(1, count + 1)))
    return asked


def test_why_all_takes_time_as_there_are_compounds(monkeypatch: pytest.MonkeyPatch) -> None:
    """Once the set of those that aren't hit was made anew for each of them: 20,000 took 8.6 s."""
    found = find.Found([0], per="map", why=find.how_many("all"))
    start = time.process_time()
    assert len(reasons_of(found, [], 20_000, monkeypatch)) == len(found.reasons) == 20_000
    assert time.process_time() - start < 2


def test_of_so_many_as_are_asked_for_those_of_not_have_their_own_reason(monkeypatch: pytest.MonkeyPatch) -> None:
    found = find.Found([0], per="map", why=4)
    assert reasons_of(found, [2], 9, monkeypatch) == [1, 3, 4]
    assert found.reasons == {1: "no 1", 2: "a claim of --not has a hit in it", 3: "no 3", 4: "no 4"}
