"""The class words of a claim's list: `alkyl 1-4` is its eight members, each closed by its hydrogens.

Members are made by the code, rooted at their attachment point, each structure once; docs/DRAWING.md has the counts.
"""
from __future__ import annotations

import re
from collections.abc import Callable, Iterator
from dataclasses import dataclass
from difflib import get_close_matches
from functools import lru_cache
from itertools import combinations_with_replacement

from .errors import Refused

__all__ = ["CLASSES", "ClassWord", "instead_of", "members_of", "range_instead_of"]

HALOGENS = "[F,Cl,Br,I]"
BOND = {1: "", 2: "=", 3: "#"}


@dataclass(frozen=True)
class _Tree:
    """A carbon with what hangs on it: pairs of a bond's order and a tree; `bare` of its hydrogens are halogens."""

    children: tuple[tuple[int, _Tree], ...]
    halogens: int = 0

    def smiles(self, free: int) -> str:
        """The SMILES from this carbon on, where so many of its four bonds are left for what hangs on it and for hydrogens."""
        hydrogens = free - sum(order for order, _ in self.children) - self.halogens
        text = f"[CH{hydrogens if hydrogens > 1 else ''}]" if hydrogens else "C"
        parts = [HALOGENS] * self.halogens + [BOND[order] + tree.smiles(4 - order) for order, tree in self.children]
        return text + "".join(f"({part})" for part in parts[:-1]) + "".join(parts[-1:])


def _multisets(carbons: int, most: int) -> Iterator[tuple[_Tree, ...]]:
    """The ways to hang at most so many saturated trees on an atom that together have so many carbons."""

    def ways(left: int, places: int, largest: int) -> Iterator[tuple[_Tree, ...]]:
        if left == 0:
            yield ()
            return
        for size in range(min(left, largest), 0, -1):
            for count in range(1, min(places, left // size) + 1):
                for some in combinations_with_replacement(_saturated(size), count):
                    for rest in ways(left - size * count, places - count, size - 1):
                        yield some + rest

    return ways(carbons, most, carbons)


@lru_cache(maxsize=None)
def _saturated(carbons: int) -> tuple[_Tree, ...]:
    """The alkyl groups of so many carbons, as trees."""
    return tuple(_Tree(tuple((1, tree) for tree in some)) for some in _multisets(carbons - 1, 3))


@lru_cache(maxsize=None)
def _unsaturated(carbons: int, order: int) -> tuple[_Tree, ...]:
    """Those of so many carbons that have one bond of this order, anywhere in them."""
    found = []
    for inner in range(1, carbons):
        # the carbon at the point is single to what holds the bond, or has the bond itself
        for size, tree, bond in [(inner, it, 1) for it in _unsaturated(inner, order)] + [(inner, it, order) for it in _behind(inner, order)]:
            for some in _multisets(carbons - 1 - size, 3 - bond):
                found.append(_Tree(((bond, tree), *((1, it) for it in some))))
    return tuple(found)


@lru_cache(maxsize=None)
def _behind(carbons: int, order: int) -> tuple[_Tree, ...]:
    """What hangs on a carbon by a bond of this order."""
    return tuple(_Tree(tuple((1, tree) for tree in some)) for some in _multisets(carbons - 1, 4 - order))


def _halogenated(tree: _Tree, free: int) -> list[_Tree]:
    """A tree with any number of its hydrogens as halogens, none too, each structure once."""
    sides: list[tuple[tuple[int, _Tree], ...]] = [()]
    at = 0
    while at < len(tree.children):
        same = [it for it in tree.children if it == tree.children[at]]
        order, child = tree.children[at]
        forms = combinations_with_replacement(_halogenated(child, 4 - order), len(same))
        sides = [side + tuple((order, it) for it in form) for form in list(forms) for side in sides]
        at += len(same)
    hydrogens = free - sum(order for order, _ in tree.children)
    return [_Tree(side, count) for side in sides for count in range(hydrogens + 1)]


def _is_halogenated(tree: _Tree) -> bool:
    return tree.halogens > 0 or any(_is_halogenated(child) for _, child in tree.children)


def _alkylenes(carbons: int) -> Iterator[str]:
    """Chains of carbons from the first point to the second, whose carbons bear alkyl groups."""
    for first in range(1, carbons + 1):
        for some in _multisets(first - 1, 2):
            hydrogens = 2 - len(some)
            atom = f"[CH{hydrogens if hydrogens > 1 else ''}]" if hydrogens else "C"
            text = atom + "".join(f"({tree.smiles(3)})" for tree in some)
            if first == carbons:
                yield text
            else:
                for rest in _alkylenes(carbons - first):
                    yield text + rest


def _ring(carbons: int) -> str:
    return "*[CH]1" + "[CH2]" * (carbons - 1) + "1"


def _aryl(carbons: int) -> list[str]:
    benzo = "[cH][cH][cH][cH]"
    if carbons == 6:
        return ["*c1[cH][cH][cH][cH][cH]1"]
    if carbons == 10:
        return [f"*c1[cH][cH][cH]c2{benzo}c12", f"*c1[cH][cH]c2{benzo}c2[cH]1"]
    return []


@dataclass(frozen=True)
class ClassWord:
    """A class word: what it makes of a number of carbons, and which numbers it takes; `least` is 0 where it takes none."""

    word: str
    says: str
    least: int
    most: int
    make: Callable[[int], list[str]]

    @property
    def example(self) -> str:
        """The word as a line has it, with a range of its own.

        >>> CLASSES["aryl"].example, CLASSES["halogen"].example
        ('aryl 6-10', 'halogen')
        """
        last = self.most if self.most - self.least < 5 else self.least + 3
        return f"{self.word} {self.least}-{last}" if self.least else self.word

    def members(self, first: int = 0, last: int = 0) -> list[str]:
        """The members with so many carbons, as SMILES of a claim's list with `*` for the point.

        Raises
        ------
        Refused : the numbers aren't those that the word takes.

        >>> CLASSES["alkyl"].members(1, 3)
        ['*[CH3]', '*[CH2][CH3]', '*[CH2][CH2][CH3]', '*[CH]([CH3])[CH3]']
        """
        if not self.least:
            return self.make(0)
        if not self.least <= first <= last <= self.most:
            raise Refused(f"{self.word} takes numbers of carbons from {self.least} to {self.most}, as `{self.word} {self.least}-{self.most}`")
        return [member for carbons in range(first, last + 1) for member in self.make(carbons)]


CLASSES = {
    it.word: it
    for it in (
        ClassWord("alkyl", "straight and branched chains", 1, 12, lambda n: ["*" + tree.smiles(3) for tree in _saturated(n)]),
        ClassWord("cycloalkyl", "bare rings", 3, 20, lambda n: [_ring(n)]),
        ClassWord("alkenyl", "chains with one C=C anywhere", 2, 9, lambda n: ["*" + tree.smiles(3) for tree in _unsaturated(n, 2)]),
        ClassWord("alkynyl", "chains with one C#C anywhere", 2, 10, lambda n: ["*" + tree.smiles(3) for tree in _unsaturated(n, 3)]),
        ClassWord("alkoxy", "an oxygen and an alkyl", 1, 12, lambda n: ["*O" + tree.smiles(3) for tree in _saturated(n)]),
        ClassWord(
            "haloalkyl", "alkyl, of which one hydrogen or more is F, Cl, Br or I", 1, 5,
            lambda n: ["*" + it.smiles(3) for tree in _saturated(n) for it in _halogenated(tree, 3) if _is_halogenated(it)],
        ),
        ClassWord("alkylene", "chains between two points, straight and branched, either way round", 1, 9, lambda n: [f"*{it}*" for it in _alkylenes(n)]),
        ClassWord("aryl", "phenyl, 1- and 2-naphthyl", 6, 10, _aryl),
        ClassWord("halogen", "one list: F, Cl, Br, I", 0, 0, lambda n: ["*" + HALOGENS]),
        ClassWord("phenyl", "phenyl", 0, 0, lambda n: _aryl(6)),
        ClassWord("H", "a hydrogen, which counts as filled", 0, 0, lambda n: ["*[H]"]),
    )
}

# what people call the members, where they have a short name
NAMES = {
    "*[CH3]": "methyl", "*[CH2][CH3]": "ethyl", "*[CH2][CH2][CH3]": "propyl", "*[CH]([CH3])[CH3]": "isopropyl",
    "*[CH2][CH2][CH2][CH3]": "butyl", "*[CH2][CH]([CH3])[CH3]": "isobutyl", "*[CH]([CH2][CH3])[CH3]": "sec-butyl",
    "*C([CH3])([CH3])[CH3]": "tert-butyl", "*[CH2][CH2][CH2][CH2][CH3]": "pentyl", "*[CH2][CH2][CH]([CH3])[CH3]": "isopentyl",
    "*[CH2]C([CH3])([CH3])[CH3]": "neopentyl", "*C([CH2][CH3])([CH3])[CH3]": "tert-pentyl", "*[CH2][CH2][CH2][CH2][CH2][CH3]": "hexyl",
    "*[CH]=[CH2]": "vinyl", "*[CH2][CH]=[CH2]": "allyl", "*C#[CH]": "ethynyl", "*[CH2]C#[CH]": "propargyl", "*[CH2]*": "methylene",
    "*[CH2][CH2]*": "ethylene", "*c1[cH][cH][cH][cH][cH]1": "phenyl", f"*{HALOGENS}": "halogen", "*[H]": "hydrogen",
    **{"*O" + smiles: name for smiles, name in (("[CH3]", "methoxy"), ("[CH2][CH3]", "ethoxy"), ("[CH2][CH2][CH3]", "propoxy"))},
    "*O[CH]([CH3])[CH3]": "isopropoxy", "*OC([CH3])([CH3])[CH3]": "tert-butoxy",
    **{_ring(n): name for n, name in ((3, "cyclopropyl"), (4, "cyclobutyl"), (5, "cyclopentyl"), (6, "cyclohexyl"), (7, "cycloheptyl"))},
    **dict(zip(_aryl(10), ("1-naphthyl", "2-naphthyl"))),
}


def members_of(word: str, first: int = 0, last: int = 0) -> list[tuple[str, str]]:
    """The members that a class word says, each as a SMILES of a claim's list and its short name, or nothing.

    Parameters
    ----------
    word : a word of `CLASSES`.
    first, last : the least and the greatest number of carbons, where the word takes them.

    Raises
    ------
    Refused : there is no such word, or the numbers aren't those that it takes.

    >>> members_of("halogen")
    [('*[F,Cl,Br,I]', 'halogen')]
    >>> len(members_of("haloalkyl", 1, 4))
    348
    """
    if word not in CLASSES:
        raise Refused(f"there is no class {word!r}; the classes are {', '.join(CLASSES)}")
    return [(smiles, NAMES.get(smiles, "")) for smiles in CLASSES[word].members(first, last)]


# what people write in a drawing, with the name that it has here
SHORT = {
    "me": "methyl", "et": "ethyl", "pr": "propyl", "ipr": "isopropyl", "bu": "butyl", "tbu": "tert-butyl", "ph": "phenyl", "ome": "methoxy",
    "oet": "ethoxy", "hal": "halogen", "halo": "halogen", "hydro": "hydrogen", "hydrogen": "hydrogen",
}
DASHES = re.compile("[\u2010-\u2015\u2212]")
RANGE = re.compile(r"C?([0-9]{1,3})\s*(?:-+|\.\.+|to|,|\s)\s*C?([0-9]{1,3})(?![0-9])")


def range_instead_of(text: str) -> str:
    """A range of carbons as a list has it, of one that is written otherwise; nothing where none is seen.

    >>> range_instead_of("1 - 4"), range_instead_of("C1-C4 lower"), range_instead_of("lower")
    ('1-4', '1-4', '')
    """
    found = RANGE.match(DASHES.sub("-", text))
    return f"{int(found[1])}-{int(found[2])}" if found else ""


def instead_of(word: str) -> str:
    """What to write in place of a word that is neither a SMILES nor a class word; nothing where it looks like a SMILES.

    >>> instead_of("alkil")
    'the nearest is `alkyl 1-4`'
    >>> instead_of("methyl")
    'methyl is written `*[CH3] methyl`'
    >>> instead_of("*CCx")
    ''
    """
    written = {name: smiles for smiles, name in NAMES.items()}
    for run in re.findall(r"[a-z][a-z-]*[a-z]", word.lower()):
        name = SHORT.get(run, run)
        if name in CLASSES or name not in written:
            near = [name] if name in CLASSES else get_close_matches(name, CLASSES, 2, 0.7)
            if near:
                span = range_instead_of("".join(re.findall("[0-9].*", word)))
                said = [f"`{it} {span}`" if span and CLASSES[it].least else f"`{CLASSES[it].example}`" for it in near]
                return f"the nearest {'is' if len(near) == 1 else 'are'} {' and '.join(said)}"
        if name in written:
            return f"{name} is written `{written[name]} {name}`"
    if re.fullmatch("[A-Za-z-]{3,}", word) and set(word.lower()) - set("bcnopsfihlr"):
        return f"the class words are {', '.join(CLASSES)}, and other members are lines of SMILES, as `*O[CH3] methoxy`"
    return ""
