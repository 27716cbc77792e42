"""What a choice makes of a claim: the atoms and bonds of the expansion, numbered as the program's `map` lines and structures count them.

The rules are those of docs/MEANING.md, "Expansions". What is made here is for people and drawings; a hit is the program's to find.
"""
from __future__ import annotations

from collections.abc import Iterator, Sequence
from dataclasses import dataclass, field

from .errors import Refused
from .rgfile import Atom, Link, Query, Site, Template, block_of, members_at, slots_of

__all__ = ["Expansion", "ExpandedAtom", "ExpandedBond", "Part", "expand"]


@dataclass(frozen=True)
class Part:
    """A slot that the choice decides, in the order of the choice's numbers.

    `parent` is the place of the part whose member holds the slot, from 0, or -1 for the root. `atom` is the slot's atom in its template.
    `groups` are the labels of a site, empty for a link, which stands `length` times. `value` is the choice's number there. A filled site
    holds `member`, which is the member `number` of the group `label`; else `member` is None, `label` and `number` are 0. `atoms` are the
    numbers, from 1, of the expansion's atoms that belong to this part itself: those of its member besides inner slots, the copies of a
    link's block, or the hydrogens of an unfilled site.
    """

    parent: int
    atom: int
    groups: tuple[int, ...]
    value: int
    length: int
    member: Template | None
    label: int
    number: int
    atoms: tuple[int, ...]


@dataclass(frozen=True)
class ExpandedAtom:
    """An atom of an expansion. `number` counts from 1, as the numbers of a `map` stand.

    `path` are the atoms of the sites on the way in from the root, `atom` the atom in the last template on that way (for a hydrogen of an
    unfilled site, the site), `copy` which copy or which hydrogen it is, from 1. `part` is the place of the part that it belongs to, or -1
    for the root. `asks` is the template's atom with what it asks; for such a hydrogen a plain one.
    """

    number: int
    path: tuple[int, ...]
    atom: int
    copy: int
    part: int
    asks: Atom
    is_rest: bool = False


@dataclass(frozen=True)
class ExpandedBond:
    """A bond between two atoms of an expansion, the lower first."""

    first: int
    second: int
    type: int
    topology: int


@dataclass(frozen=True)
class Expansion:
    """The graph of a claim by a choice. `free_ends` names an atom once for each free end that it has."""

    atoms: tuple[ExpandedAtom, ...]
    bonds: tuple[ExpandedBond, ...]
    parts: tuple[Part, ...]
    free_ends: tuple[int, ...]

    def part_atoms(self, place: int) -> tuple[int, ...]:
        """The numbers of the atoms of a part and of all parts inside it, from 1."""
        inside = {place}
        for at, part in enumerate(self.parts):
            if part.parent in inside:
                inside.add(at)
        return tuple(atom.number for atom in self.atoms if atom.part in inside)


@dataclass
class _Made:
    """What a template became: atoms and bonds count from 0 within it; a point's atom, and free ends."""

    atoms: list[ExpandedAtom] = field(default_factory=list)
    bonds: list[tuple[int, int, int, int]] = field(default_factory=list)
    points: dict[int, int] = field(default_factory=dict)
    free: list[int] = field(default_factory=list)


@dataclass
class _PartInMaking:
    parent: int
    atom: int
    groups: tuple[int, ...]
    value: int
    length: int = 0
    member: Template | None = None
    label: int = 0
    number: int = 0


def expand(query: Query, choice: Sequence[int]) -> Expansion:
    r"""The expansion of a claim by a choice.

    Parameters
    ----------
    query : the claim.
    choice : the numbers behind `choice` in a `hit` line, or in the first line of a structure.

    Raises
    ------
    Refused : the claim has no such choice.

    >>> from markush.rgfile import Site, Atom, Bond, Group, template
    >>> root = template("", [Atom(1, "C"), Atom(2, "R#")], [Bond(1, 2, 1)], [Site(2, (1,), (1,))])
    >>> member = template("", [Atom(1, "O", point=1), Atom(2, "C")], [Bond(1, 2, 1)])
    >>> made = expand(Query("", root, (Group(1, (member,)),)), [1])
    >>> [atom.asks.symbol for atom in made.atoms], made.parts[0].atoms
    (['C', 'O', 'C'], (2, 3))
    """
    numbers = iter(choice)
    parts: list[_PartInMaking] = []
    try:
        made = _expand(query, query.root, numbers, (), -1, parts)
    except (StopIteration, _NoChoice):
        made = None
    if made is None or next(numbers, None) is not None:
        said = " ".join(map(str, choice)) or "of no numbers"
        raise Refused(f"the claim has no choice {said}")
    atoms = tuple(
        ExpandedAtom(number, atom.path, atom.atom, atom.copy, atom.part, atom.asks, atom.is_rest) for number, atom in enumerate(made.atoms, 1)
    )
    bonds = sorted((min(a, b) + 1, max(a, b) + 1, kind, topology) for a, b, kind, topology in made.bonds)
    held: dict[int, list[int]] = {}
    for atom in atoms:
        held.setdefault(atom.part, []).append(atom.number)
    done = tuple(
        Part(it.parent, it.atom, it.groups, it.value, it.length, it.member, it.label, it.number, tuple(held.get(place, ())))
        for place, it in enumerate(parts)
    )
    return Expansion(atoms, tuple(ExpandedBond(*bond) for bond in bonds), done, tuple(sorted(end + 1 for end in made.free)))


class _NoChoice(Exception):
    """A number that stands for nothing."""


def _expand(
    query: Query, part: Template, numbers: Iterator[int], path: tuple[int, ...], place: int, parts: list[_PartInMaking]
) -> _Made:
    chosen: dict[int, _Made | None] = {}
    mine: dict[int, int] = {}
    length: dict[int, int] = {}
    sites: dict[int, Site] = {site.atom: site for site in part.sites}
    links: dict[int, Link] = {link.atom: link for link in part.links}
    for slot in slots_of(part):
        value = next(numbers, None)
        if value is None:
            raise _NoChoice
        mine[slot.atom] = len(parts)
        if isinstance(slot, Link):
            if not 1 <= value <= slot.most:
                raise _NoChoice
            parts.append(_PartInMaking(place, slot.atom, (), value, length=value))
            length[slot.atom] = value
            continue
        members = members_at(query, slot.groups)
        if not 1 <= value <= len(members) + 1:
            raise _NoChoice
        held = _PartInMaking(place, slot.atom, slot.groups, value)
        parts.append(held)
        if value <= len(members):
            held.label, held.number, held.member = members[value - 1]
            chosen[slot.atom] = _expand(query, held.member, numbers, (*path, slot.atom), mine[slot.atom], parts)
        else:
            chosen[slot.atom] = None
    link_of = {atom: link.atom for link in part.links for atom in block_of(part, link)}
    made = _Made()
    ends: dict[int, tuple[int, int]] = {}
    resting = {group.label for group in query.groups if group.logic and group.logic.rest}
    for atom in part.atoms:
        start, n = len(made.atoms), atom.number
        if n in link_of:
            link = link_of[n]
            made.atoms += [ExpandedAtom(0, path, n, copy, mine[link], atom) for copy in range(1, length[link] + 1)]
            ends[n] = start, len(made.atoms) - 1
        elif n not in sites:
            made.atoms.append(ExpandedAtom(0, path, n, 1, place, atom))
            ends[n] = start, start
        else:
            inner = chosen[n]
            if inner is not None:
                made.atoms += inner.atoms
                made.bonds += [(a + start, b + start, kind, topology) for a, b, kind, topology in inner.bonds]
                made.free += [end + start for end in inner.free]
                first = inner.points.get(1, 0)
                ends[n] = start + first, start + inner.points.get(2, first)
            elif resting.intersection(sites[n].groups):
                hydrogen = Atom(n, "H", x=atom.x, y=atom.y)
                made.atoms += [ExpandedAtom(0, path, n, copy, mine[n], hydrogen, True) for copy in range(1, len(sites[n].ends) + 1)]
                ends[n] = start, len(made.atoms) - 1

    def end(atom: int, other: int) -> int:
        """Where a bond to another atom of the template ends on the side of an atom: at its near or at its far end."""
        if atom in links:
            return ends[atom][other == links[atom].end]
        return ends[atom][atom in sites and other in sites[atom].ends[1:]]

    for bond in part.bonds:
        a, b = bond.first, bond.second
        if a in link_of and link_of.get(b) == link_of[a]:
            made.bonds += [(ends[a][0] + n, ends[b][0] + n, bond.type, bond.topology) for n in range(length[link_of[a]])]
        elif a in ends and b in ends:
            is_rest = any(n in sites and chosen[n] is None for n in (a, b))
            made.bonds.append((end(a, b), end(b, a), *((1, 0) if is_rest else (bond.type, bond.topology))))
        else:
            made.free += [end(n, other) for n, other in ((a, b), (b, a)) if n in ends]
    for repeated in part.links:
        joint = next(it for it in part.bonds if {it.first, it.second} == {repeated.atom, repeated.start})
        made.bonds += [(n, n + 1, joint.type, joint.topology) for n in range(*ends[repeated.atom])]
    for atom in part.atoms:
        for point in (1, 2):
            if atom.point & point:
                made.points[point] = ends[atom.number][0]
    return made
