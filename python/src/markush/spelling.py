"""Templates as lines of text, in the grammar of a claim's list (docs/DRAWING.md): `*[CH2][R1]`, `c1ccccc1[R2]`.

What is spelt here is for people, and `claim_list` reads it again. Radicals have no word there, and are left out.
"""
from __future__ import annotations

from collections.abc import Callable, Iterator, Sequence
from typing import TYPE_CHECKING

if TYPE_CHECKING:
    from .rgfile import Atom, Bond, Template

__all__ = ["aromatic_bonds", "spell"]

PLAIN = frozenset("B C N O P S F Cl Br I".split())
LOWER = frozenset("B C N O P S".split())
BONDS = {1: "", 2: "=", 3: "#", 4: ":", 5: "-,=", 6: "-,:", 7: "=,:", 8: "~"}
TOPOLOGIES = {1: ";@", 2: ";!@"}


def _six_rings(near: dict[int, list[int]]) -> list[tuple[int, ...]]:
    """The rings of six distinct atoms, each once: from its least atom, towards the lower of its two neighbours there."""
    found: list[tuple[int, ...]] = []
    for first in near:
        paths: list[tuple[int, ...]] = [(first,)]
        for _ in range(5):
            paths = [(*path, other) for path in paths for other in near[path[-1]] if other > first and other not in path]
        found += [path for path in paths if first in near[path[-1]] and path[1] < path[-1]]
    return found


def aromatic_bonds(bonds: Sequence[Bond]) -> set[int]:
    """The places of the bonds of the aromatic set (docs/MEANING.md, "The aromatic set"), counted from 0."""
    place = {frozenset((bond.first, bond.second)): at for at, bond in enumerate(bonds)}
    near: dict[int, list[int]] = {}
    for bond in bonds:
        near.setdefault(bond.first, []).append(bond.second)
        near.setdefault(bond.second, []).append(bond.first)
    rings = [[place[frozenset((ring[n], ring[(n + 1) % 6]))] for n in range(6)] for ring in _six_rings(near)]
    marked = {at for at, bond in enumerate(bonds) if bond.type == 4}
    grew = True
    while grew:
        grew = False
        for ring in rings:
            if not marked.issuperset(ring) and any(
                all(at in marked or bonds[at].type == 1 + (n + turn) % 2 for n, at in enumerate(ring)) for turn in (0, 1)
            ):
                marked.update(ring)
                grew = True
    return marked


def _lower_atoms(atoms: Sequence[Atom], bonds: Sequence[Bond], marked: set[int]) -> set[int]:
    """The atoms that are spelt in small letters: those of marked parts in which each atom has a small letter."""
    near: dict[int, set[int]] = {}
    for at in marked:
        near.setdefault(bonds[at].first, set()).add(bonds[at].second)
        near.setdefault(bonds[at].second, set()).add(bonds[at].first)
    lower: set[int] = set()
    seen: set[int] = set()
    for start in near:
        part, todo = {start}, [start]
        while todo and start not in seen:
            for other in near[todo.pop()] - part:
                part.add(other)
                todo.append(other)
        if start not in seen and all(set(atoms[n - 1].elements or (atoms[n - 1].symbol,)) <= LOWER and len(near[n]) > 1 for n in part):
            lower |= part
        seen |= part
    return lower


def _atom_text(part: Template, atom: Atom, is_lower: bool, most: int) -> str:
    site = next((site for site in part.sites if site.atom == atom.number), None)
    if site is not None:
        return "[" + ",".join(f"R{label}" for label in site.groups) + "]"
    symbol = {"*": "any", "D": "H", "T": "H"}.get(atom.symbol, atom.symbol)
    if atom.elements and atom.symbol == "L":
        named = [element.lower() if is_lower else element for element in atom.elements]
        symbol = ";".join("!" + element for element in named) if atom.is_not else ",".join(named)
    elif is_lower:
        symbol = symbol.lower()
    asks = []
    text = symbol
    if atom.hydrogens is not None:
        if atom.hydrogens and atom.symbol not in ("L", "A", "Q", "*", "H", "D", "T"):
            text += "H" + (str(atom.hydrogens) if atom.hydrogens > 1 else "")
        else:
            asks.append(f"H{atom.hydrogens}")
    if atom.charge:
        text += ("+" if atom.charge > 0 else "-") + (str(abs(atom.charge)) if abs(atom.charge) > 1 else "")
    if atom.substitution is not None:
        asks.append("Ds" if atom.substitution == -2 else f"D{atom.substitution}")
    if atom.ring_bonds is not None:
        asks.append("xs" if atom.ring_bonds == -2 else f"x{atom.ring_bonds}")
    if atom.unsaturated:
        asks.append("u")
    if text == symbol and not asks and not most and symbol in (PLAIN | {it.lower() for it in LOWER}):
        return symbol
    return "[" + ";".join([text, *asks]) + (f":{most}" if most else "") + "]"


def spell(part: Template) -> str:
    """A template as a line of text, from its first point on. Two points of one atom stand side by side: `*C*`."""
    marked = aromatic_bonds(part.bonds)
    lower = _lower_atoms(part.atoms, part.bonds, marked)
    links = {link.atom: link.most for link in part.links}
    atom_texts = {atom.number: _atom_text(part, atom, atom.number in lower, links.get(atom.number, 0)) for atom in part.atoms}
    points = {atom.number: atom.point for atom in part.atoms if atom.point}
    near: dict[int, list[int]] = {atom.number: [] for atom in part.atoms}
    for at, bond in enumerate(part.bonds):
        near[bond.first].append(at)
        near[bond.second].append(at)

    def bond_text(at: int) -> str:
        bond = part.bonds[at]
        both = bond.first in lower and bond.second in lower
        if at in marked and both and bond.type in (1, 2, 4):
            text = ""
        elif bond.type == 1 and both:
            text = "-"
        else:
            text = BONDS.get(bond.type, "~")
        return text + TOPOLOGIES.get(bond.topology, "")

    seen: set[int] = set()
    used: set[int] = set()
    stack: list[tuple[int, Iterator[int]]] = []
    children: dict[int, list[tuple[int, int]]] = {}
    closures: dict[int, list[tuple[int, int]]] = {}
    pieces = []
    order = sorted(near, key=lambda n: (0 if points.get(n, 0) & 1 else 1, n))
    marks = 0
    for start in order:
        if start in seen:
            continue
        # the way through the bonds, depth first; a bond to an atom that was met closes a ring
        seen.add(start)
        stack = [(start, iter(near[start]))]
        while stack:
            atom, rest = stack[-1]
            at = next((it for it in rest if it not in used), -1)
            if at == -1:
                stack.pop()
                continue
            used.add(at)
            bond = part.bonds[at]
            other = bond.first + bond.second - atom
            if other in seen:
                marks += 1
                closures.setdefault(other, []).append((marks, at))
                closures.setdefault(atom, []).append((marks, at))
            else:
                seen.add(other)
                children.setdefault(atom, []).append((at, other))
                stack.append((other, iter(near[other])))
        pieces.append(_said(start, atom_texts, children, closures, points, bond_text))
    return ".".join(pieces)


def _said(
    start: int, atom_texts: dict[int, str], children: dict[int, list[tuple[int, int]]], closures: dict[int, list[tuple[int, int]]],
    points: dict[int, int], bond_text: Callable[[int], str],
) -> str:
    """One piece that hangs together, from its first atom on; the shorter branches stand first."""
    sizes: dict[int, int] = {}
    order = [start]
    for atom in order:
        order += [other for _, other in children.get(atom, [])]
    for atom in reversed(order):
        sizes[atom] = 1 + sum(sizes[other] for _, other in children.get(atom, []))
    out = ["*" if points.get(start, 0) & 1 else ""]
    opened: set[int] = set()
    numbers: dict[int, int] = {}
    todo: list[int | str] = [start]
    while todo:
        item = todo.pop()
        if isinstance(item, str):
            out.append(item)
            continue
        out.append(atom_texts[item])
        for mark, at in closures.get(item, []):
            if mark in opened:
                out.append(_ring(numbers.pop(mark)))
            else:
                opened.add(mark)
                numbers[mark] = next(n for n in range(1, 999) if n not in numbers.values())
                out.append(bond_text(at) + _ring(numbers[mark]))
        parts = sorted(children.get(item, []), key=lambda pair: sizes[pair[1]])
        tail: list[int | str] = []
        branches: list[list[int | str]] = []
        if points.get(item, 0) & 2:
            branches.append(["*"])
        branches += [[bond_text(at), other] for at, other in parts]
        for place, branch in enumerate(branches):
            tail += branch if place == len(branches) - 1 else ["(", *branch, ")"]
        if item != start and points.get(item, 0) & 1:
            tail = ["(", "*", ")", *tail] if tail else ["*"]
        todo += reversed(tail)
    return "".join(out)


def _ring(number: int) -> str:
    return str(number) if number < 10 else f"%{number}" if number < 100 else f"%({number})"
