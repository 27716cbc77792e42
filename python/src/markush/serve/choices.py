"""Choices as the page tells them: their parts at once, since hits are chosen by them, and the graph where a card is drawn."""
from __future__ import annotations

import json
from typing import Any, Dict, Iterator, List, Tuple, Union

from ..claim import Claim
from ..drawing import member_name
from ..page import _choice_data, _Facets, _labels
from ..rgfile import Link, Site, Template, members_at, slots_of

__all__ = ["Choices", "numbers"]

_Slots = List[Tuple[Union[Site, Link], List[Tuple[int, int, Template]]]]


def numbers(written: str) -> Tuple[int, ...]:
    """Numbers as they are written, with blanks between.

    Examples
    --------
    >>> numbers("3 12"), numbers("")
    ((3, 12), ())
    """
    return tuple(map(int, written.split()))


class Choices:
    """The choices that a search has found, by their places: as they are written, and as the page tells them.

    One thread adds choices, and others look.

    Examples
    --------
    >>> choices = Choices(Claim.from_list("root C[R1]\\nR1 *F\\nR1 *[CH3] methyl"))
    >>> choices.place("2"), choices.place("1"), choices.place("2")
    (0, 1, 0)
    >>> choices.told(0, 1)[0]
    '{"n":"2","p":[[0,1,-1,"R1 at 2"]]}'
    >>> choices.graph(0)
    {'a': [-1, 0], 'b': [1, 2], 'l': []}
    """

    def __init__(self, claim: Claim) -> None:
        self._query = query = claim.query
        parts = [query.root, *(member for group in query.groups for member in group.members)]
        names = {
            (group.label, number): member_name(claim, group.label, number, member)
            for group in query.groups
            for number, member in enumerate(group.members, 1)
        }
        self.facets = _Facets(query, {id(part): place for place, part in enumerate(parts)}, names)
        self.written: List[str] = []
        self._places: Dict[str, int] = {}
        self._told: List[str] = []
        self._graphs: Dict[int, Dict[str, Any]] = {}
        self._slots: Dict[int, _Slots] = {}

    def place(self, written: str) -> int:
        """The place of a choice, which is added where it is a new one."""
        place = self._places.get(written)
        if place is None:
            place = self._places[written] = len(self.written)
            self._told.append(json.dumps({"n": written, "p": self._parts(numbers(written))}, separators=(",", ":")))
            self.written.append(written)
        return place

    def told(self, start: int, most: int) -> List[str]:
        """Choices from a place on as JSON, with their parts: the facet, the value's place in it, the part in which it is, a name."""
        return self._told[start : min(len(self.written), start + most)]

    def graph(self, place: int) -> Dict[str, Any]:
        """A choice's graph: the part of each atom, the bonds, and the atoms that are one of several elements."""
        known = self._graphs.get(place)
        if known is None:
            data = _choice_data(self._query, self.facets, numbers(self.written[place]))[0]
            known = self._graphs[place] = {key: data[key] for key in ("a", "b", "l")}
        return known

    def _parts(self, choice: Tuple[int, ...]) -> List[List[Any]]:
        """The parts of a choice, in the order of `expand`, without the graph, which takes many times as long."""
        parts: List[List[Any]] = []
        self._add_parts(parts, self._query.root, iter(choice), -1, (0, 0))
        return parts

    def _add_parts(self, parts: List[List[Any]], part: Template, values: Iterator[int], parent: int, owner: Tuple[int, int]) -> None:
        facets = self.facets.place
        for slot, members in self._slots_of(part):
            value, at = next(values), len(parts)
            if isinstance(slot, Link):
                link = ((), *owner, slot.atom)
                parts.append([facets[link], value - 1, parent, f"link at {slot.atom}"])
                continue
            label = _labels(slot.groups)
            parts.append([facets[slot.groups, owner[0], 0, 0], value - 1, parent, f"{label} at {slot.atom}" if parent < 0 else label])
            if value <= len(members):
                inner, number, member = members[value - 1]
                self._add_parts(parts, member, values, at, (inner, number))

    def _slots_of(self, part: Template) -> _Slots:
        known = self._slots.get(id(part))
        if known is None:
            known = [(slot, [] if isinstance(slot, Link) else members_at(self._query, slot.groups)) for slot in slots_of(part)]
            self._slots[id(part)] = known
        return known
