"""Drawings of a claim and of a hit as SVG text, in the colours of the page of hits, without RDKit.

`claim_svg` draws a claim: its root, and a row for each group. `hit_svg` draws a compound with the atoms and bonds of
a hit marked: the root in one colour, each group in another, links in grey. A drawing stands as its file has it; where a
table has no coordinates RDKit lays it out, and where there is no RDKit it is said that nothing is drawn.

What a choice makes of a claim is `markush.expansion`; what the page makes of the same pictures is `markush.page`.
"""
from __future__ import annotations

import colorsys
import math
import re
from dataclasses import dataclass, field, replace
from typing import TYPE_CHECKING, Any, Dict, Iterable, List, Mapping, Optional, Sequence, Tuple
from xml.sax.saxutils import escape

from .expansion import Expansion, expand
from .rgfile import KNOWN

if TYPE_CHECKING:
    from .rgfile import Atom, Template

__all__ = ["Picture", "claim_svg", "hit_svg", "hue_of", "laid_out", "record_picture", "template_picture"]

# docs/MEANING.md, "Valences"
VALENCES: Dict[int, Dict[str, Tuple[int, ...]]] = {
    0: {
        "B": (3,), "C": (4,), "N": (3, 5), "O": (2,), "F": (1,), "Si": (4,), "P": (3, 5), "S": (2, 4, 6), "Cl": (1,),
        "As": (3, 5), "Se": (2, 4, 6), "Br": (1,), "I": (1,),
    },
    1: {"C": (3,), "N": (4,), "O": (3,), "P": (4,), "S": (3, 5)},
    -1: {"B": (4,), "C": (3,), "N": (2,), "O": (1,), "P": (2,), "S": (1,)},
}
CHARGES = {1: 3, 2: 2, 3: 1, 5: -1, 6: -2, 7: -3}
ROOT_HUE = 205
GROUP_HUES = (35, 130, 320, 265, 62, 175, 0, 235, 95)
LINK_HUE = -1  # grey

# What the notes at atoms and bonds of a claim mean, by the sign that the drawing bears.
NOTES = {
    "no H": "no hydrogen but those drawn",
    "\u2265nH": "at least n hydrogens",
    "Dn": "n neighbours besides hydrogen (6+: six or more)",
    "Ds": "no neighbour but those drawn, besides hydrogen",
    "xn": "n ring bonds (4+: four or more)",
    "xs": "no ring bond but those drawn",
    "u": "a multiple or an aromatic bond",
    "s/d": "single or double",
    "s/a": "single or aromatic",
    "d/a": "double or aromatic",
    "any": "any bond",
    "ring": "a bond of a ring",
    "chain": "a bond of no ring",
}
BOND_NOTES = {5: "s/d", 6: "s/a", 7: "d/a", 8: "any"}
TOPOLOGY_NOTES = {1: "ring", 2: "chain"}
LONGEST_LIST = 5  # elements of a list that a drawing names

BRACKETS = re.compile(r"\[(B|C|N|O|P|S|F|Cl|Br|I|c)(?:H[1-4]?)?\]")

BOND = 30.0  # of a drawing, in pixels
WIDE_BOND = 37.0  # where labels and notes want room
GAP = 4.6
HALF_HEIGHT = 8.2  # of a label


@dataclass(frozen=True)
class Picture:
    """What a drawing shows of a table: atoms count from 1, and a key that isn't there has nothing.

    Parameters
    ----------
    symbols : tuple of str
        The label of each atom: an element, a list as ``O,N,S``, or the labels of a site as ``R1,R2``.
    places : tuple of (float, float)
        Where each atom lies, in the units of the file.
    bonds : tuple of (int, int, int, int, int)
        First and second atom, type, stereo and topology.
    added : tuple of int
        How many hydrogens the program adds at each atom; empty for a table of a claim.
    shown : dict
        The hydrogens that the label of an atom bears.
    charges, radicals, masses : dict
        As the file says them.
    sites : dict
        The first group of each site, which gives its colour.
    points : dict
        The atom of attachment point 1, and of 2.
    notes : dict
        What an atom is asked for besides, as signs of `NOTES`.

    Examples
    --------
    >>> Picture(("C", "O"), ((0.0, 0.0), (1.4, 0.0)), ((1, 2, 1, 0, 0),)).lies_apart
    True
    """

    symbols: Tuple[str, ...]
    places: Tuple[Tuple[float, float], ...]
    bonds: Tuple[Tuple[int, int, int, int, int], ...]
    added: Tuple[int, ...] = ()
    shown: Mapping[int, int] = field(default_factory=dict)
    charges: Mapping[int, int] = field(default_factory=dict)
    radicals: Mapping[int, int] = field(default_factory=dict)
    masses: Mapping[int, int] = field(default_factory=dict)
    sites: Mapping[int, int] = field(default_factory=dict)
    points: Mapping[int, int] = field(default_factory=dict)
    notes: Mapping[int, Tuple[str, ...]] = field(default_factory=dict)

    @property
    def lies_apart(self) -> bool:
        """Whether something says where the atoms lie."""
        return len(self.symbols) < 2 or len(set(self.places)) > 1

    def joined(self) -> "set[Tuple[int, int]]":
        """The pairs of atoms that are bonded, lower first, with the added hydrogens, which count behind all others."""
        pairs = {(min(bond[:2]), max(bond[:2])) for bond in self.bonds}
        last = len(self.symbols)
        for atom, count in enumerate(self.added, 1):
            for _ in range(count):
                last += 1
                pairs.add((atom, last))
        return pairs

    def compact(self) -> Dict[str, Any]:
        """What the page has of it, as JSON: `xy` is left out where nothing says where the atoms lie."""
        found: Dict[str, Any] = {"s": " ".join(self.symbols) if self.added else list(self.symbols)}
        if self.lies_apart:
            found["xy"] = [round(100 * value) for place in self.places for value in place]
        found["b"] = [value for bond in self.bonds for value in bond[:3]]
        stereo = {n: bond[3] for n, bond in enumerate(self.bonds) if bond[3]}
        topology = {n: bond[4] for n, bond in enumerate(self.bonds) if bond[4]}
        if any(self.added):
            found["a"] = "".join("0123456789abcdef"[count] for count in self.added)  # a valence mark is at most 14
        more = (
            ("w", stereo), ("o", topology), ("h", self.shown), ("c", self.charges), ("r", self.radicals),
            ("i", self.masses), ("g", self.sites), ("p", self.points), ("q", self.notes),
        )
        found.update((key, dict(held)) for key, held in more if held)
        return found


# ---- tables of compounds ----


def _number(columns: str) -> int:
    return int(columns.strip() or 0)


def record_picture(text: str) -> Picture:
    """The picture of a compound's record, whose table is V2000 or V3000.

    Parameters
    ----------
    text : str
        The record's text, with or without data items.

    Raises
    ------
    ValueError
        Where the text has no table that can be read.

    Examples
    --------
    >>> atoms = "    0.0000    0.0000    0.0000 C   0  0\\n    1.4000    0.0000    0.0000 O   0  0\\n"
    >>> picture = record_picture("methanol\\n\\n\\n  2  1  0     0  0            999 V2000\\n" + atoms + "  1  2  1  0\\nM  END\\n")
    >>> picture.symbols, picture.added
    (('C', 'O'), (3, 1))
    """
    lines = text.replace("\r\n", "\n").split("\n")
    try:
        if lines[3][33:39].strip() == "V3000":
            return _read_v3000(lines)
        return _read_v2000(lines)
    except (IndexError, KeyError, ValueError) as fault:
        raise ValueError(f"{lines[0].strip()!r} has no table that can be drawn: {fault}") from None


def _read_v2000(lines: Sequence[str]) -> Picture:
    counts = lines[3]
    atoms, bonds = _number(counts[:3]), _number(counts[3:6])
    rows, ends = lines[4 : 4 + atoms], lines[4 + atoms : 4 + atoms + bonds]
    charges: Dict[int, int] = {}
    radicals: Dict[int, int] = {}
    masses: Dict[int, int] = {}
    held = {"CHG": charges, "RAD": radicals, "ISO": masses}
    at, has_lines = 4 + atoms + bonds, False
    while not lines[at].startswith("M  END"):
        line = lines[at]
        if line.startswith(("A  ", "G  ")):
            at += 1
        elif line.startswith("S  SKP"):
            at += _number(line[6:9])
        elif line.startswith("M  ") and line[3:6] in held:
            for start in range(9, 9 + 8 * _number(line[6:9]), 8):
                held[line[3:6]][_number(line[start + 1 : start + 4])] = _number(line[start + 5 : start + 8])
            has_lines = has_lines or line[3:6] != "ISO"
        at += 1
    if not has_lines:
        for atom, row in enumerate(rows, 1):
            column = row[36:39]
            if column not in ("  0", "", "   "):
                value = _number(column)
                if value in CHARGES:
                    charges[atom] = CHARGES[value]
                elif value == 4:
                    radicals[atom] = 2
    marks = {atom: _number(row[48:51]) for atom, row in enumerate(rows, 1) if row[48:51].strip(" 0\r")}
    return _of_compound(
        tuple(row[31:34].strip() for row in rows),
        tuple((float(row[:10].strip() or 0), float(row[10:20].strip() or 0)) for row in rows),
        tuple(
            (int(row[:3]), int(row[3:6]), int(row[6:9]), _number(row[9:12]), _number(row[15:18])) for row in ends
        ),
        (charges, radicals, masses, marks),
    )


def _read_v3000(lines: Sequence[str]) -> Picture:
    symbols: List[str] = []
    places: List[Tuple[float, float]] = []
    bonds: List[Tuple[int, int, int, int, int]] = []
    charges: Dict[int, int] = {}
    radicals: Dict[int, int] = {}
    masses: Dict[int, int] = {}
    marks: Dict[int, int] = {}
    index: Dict[str, int] = {}
    part, front = "", ""
    for line in lines[4:]:
        if line.startswith("M  END"):
            break
        if not line.startswith("M  V30 "):
            continue
        text = front + line[7:].rstrip()
        front = text[:-1] if text.endswith("-") else ""
        words = text.split()
        if front or not words:
            continue
        given = dict(word.split("=", 1) for word in words if "=" in word)
        if words[0] in ("BEGIN", "END"):
            part = words[1] if words[0] == "BEGIN" else ""
        elif part == "ATOM":
            index[words[0]] = atom = len(symbols) + 1
            symbols.append(words[1])
            places.append((float(words[2]), float(words[3])))
            mark = int(given.get("VAL", 0))
            if mark:
                marks[atom] = 15 if mark == -1 else mark
            for key, held in (("CHG", charges), ("RAD", radicals), ("MASS", masses)):
                if key in given:
                    held[atom] = int(given[key])
        elif part == "BOND":
            stereo = {"1": 1, "3": 6}.get(given.get("CFG", ""), 0)
            bonds.append((index[words[2]], index[words[3]], int(words[1]), stereo, 0))
    if not symbols:
        raise IndexError("it has no atoms")
    return _of_compound(tuple(symbols), tuple(places), tuple(bonds), (charges, radicals, masses, marks))


def _of_compound(
    symbols: Tuple[str, ...],
    places: Tuple[Tuple[float, float], ...],
    bonds: Tuple[Tuple[int, int, int, int, int], ...],
    held: Tuple[Dict[int, int], Dict[int, int], Dict[int, int], Dict[int, int]],
) -> Picture:
    charges, radicals, masses, marks = held
    orders, fours = [0] * (len(symbols) + 1), [0] * (len(symbols) + 1)
    for first, second, kind, _, _ in bonds:
        for atom in (first, second):
            orders[atom] += kind if kind < 4 else 1
            fours[atom] += kind == 4
    added = []
    for atom, symbol in enumerate(symbols, 1):
        total = orders[atom] + (fours[atom] > 1)
        mark = marks.get(atom, 0)
        if mark:
            added.append(max(0, (0 if mark == 15 else mark) - total))
            continue
        total += {1: 2, 2: 1, 3: 2}.get(radicals.get(atom, 0), 0)
        row = VALENCES.get(charges.get(atom, 0), {}).get(symbol, ())
        added.append(next((valence - total for valence in row if valence >= total), 0))
    charges = {atom: charge for atom, charge in charges.items() if charge}
    radicals = {atom: radical for atom, radical in radicals.items() if radical}
    return Picture(symbols, places, bonds, tuple(added), {}, charges, radicals, masses)


# ---- tables of claims ----


def _signed(charge: int) -> str:
    return (str(abs(charge)) if abs(charge) > 1 else "") + ("+" if charge > 0 else "\u2212") if charge else ""


def list_label(atom: "Atom") -> str:
    """A list of a claim, as ``F,Cl`` or ``not C,N``; of a long one the first elements.

    Examples
    --------
    >>> from types import SimpleNamespace
    >>> list_label(SimpleNamespace(elements=("F", "Cl"), is_not=False))
    'F,Cl'
    """
    shown = ",".join(atom.elements[:LONGEST_LIST]) + (",\u2026" if len(atom.elements) > LONGEST_LIST else "")
    return ("not " if atom.is_not else "") + shown


def _hydrogens(atom: "Atom", total: Optional[int], sharing: int) -> Tuple[int, Tuple[str, ...]]:
    """The hydrogens that a label bears, and the note where those that are asked for don't fill the valence."""
    asked = atom.hydrogens
    if asked is None:
        return 0, ()
    row = () if atom.elements else VALENCES.get(atom.charge, {}).get(atom.symbol, ())
    fills = total is not None and total + asked + sharing in row
    if asked == 0:
        return 0, () if fills else ("no H",)
    return (asked, ()) if fills else (0, (f"\u2265{asked}H",))


def _is_full(atom: "Atom", total: Optional[int], sharing: int) -> bool:
    """Whether the bonds and hydrogens of a drawing leave no room at an atom, so that what else may stand there needs no note."""
    if total is None or atom.is_not:
        return False
    wanted = total + sharing + (atom.hydrogens or 0)
    rows = [VALENCES.get(atom.charge, {}).get(symbol, ()) for symbol in atom.elements or (atom.symbol,)]
    # nitrogen with five bonds is drawn with charges nearly everywhere; sulfur and phosphorus do bear more
    return all(row and wanted == (row[0] if symbol == "N" else row[-1]) for symbol, row in zip(atom.elements or (atom.symbol,), rows))


def _notes(atom: "Atom", most: int, is_full: bool) -> Tuple[str, ...]:
    found = []
    for sign, value, top in (("D", atom.substitution, 6), ("x", atom.ring_bonds, 4)):
        if value is not None and not (sign == "D" and value == -2 and is_full):
            found.append(f"{sign}s" if value == -2 else f"{sign}{max(0, value)}{'+' if value == top else ''}")
    if atom.unsaturated:
        found.append("u")
    if most:
        found.append(f"1\u2013{most}\u00d7")
    return tuple(found)


def template_picture(template: "Template") -> Picture:
    """The picture of the root of a claim or of a member.

    Hydrogens that are asked for stand in the label where they fill the valence, as ``CH3``; else a note says ``\u2265nH``. That an
    atom bears nothing but what is drawn is noted where there would be room for more.

    Examples
    --------
    >>> from markush.rgfile import read_query
    >>> query = read_query((EXAMPLES / "phenoxy_acids" / "claim.rgf").read_text())
    >>> template_picture(query.groups[0].members[0]).points
    {1: 1}
    """
    sites = {site.atom: site.groups for site in template.sites}
    links = {link.atom: link.most for link in template.links}
    orders = {1: 1, 2: 2, 3: 3, 4: 1, 6: 1, 7: 2}
    totals: List[Optional[int]] = [0] * (len(template.atoms) + 1)
    fours = [0] * (len(template.atoms) + 1)
    for bond in template.bonds:
        for end in (bond.first, bond.second):
            held = totals[end]
            totals[end] = None if held is None or bond.type not in orders else held + orders[bond.type]
            fours[end] += bond.type == 4
    symbols, shown, notes, points = [], {}, {}, {}
    for atom in template.atoms:
        groups = sites.get(atom.number)
        symbols.append(
            ",".join(f"R{group}" for group in groups) if groups else list_label(atom) if atom.elements else atom.symbol
        )
        points.update({point: atom.number for point in (1, 2) if atom.point & point})
        sharing = (fours[atom.number] > 1) + bin(atom.point).count("1")
        count, asked = _hydrogens(atom, totals[atom.number], sharing)
        if count:
            shown[atom.number] = count
        asked += _notes(atom, links.get(atom.number, 0), _is_full(atom, totals[atom.number], sharing))
        if asked:
            notes[atom.number] = asked
    return Picture(
        tuple(symbols),
        tuple((atom.x, atom.y) for atom in template.atoms),
        tuple((bond.first, bond.second, bond.type, 0, bond.topology) for bond in template.bonds),
        shown=shown,
        charges={atom.number: atom.charge for atom in template.atoms if atom.charge},
        radicals={atom.number: atom.radical for atom in template.atoms if atom.radical},
        sites={atom: groups[0] for atom, groups in sites.items()},
        points=dict(sorted(points.items())),
        notes=notes,
    )


def meanings(pictures: Iterable[Picture]) -> Dict[str, str]:
    """What the signs that occur in drawings of a claim mean, in the order of `NOTES`.

    Examples
    --------
    >>> meanings([Picture(("C",), ((0.0, 0.0),), (), notes={1: ("D2", "u")})])
    {'Dn': 'n neighbours besides hydrogen (6+: six or more)', 'u': 'a multiple or an aromatic bond'}
    """
    signs = set()
    for picture in pictures:
        for notes in picture.notes.values():
            for note in notes:
                signs.add("\u2265nH" if note[0] == "\u2265" else note[0] + "n" if note[0] in "Dx" and note[1] != "s" else note)
        for bond in picture.bonds:
            signs.update(filter(None, (BOND_NOTES.get(bond[2]), TOPOLOGY_NOTES.get(bond[4]))))
    return {sign: means for sign, means in NOTES.items() if sign in signs}


# ---- coordinates ----


def laid_out(picture: Picture) -> Optional[Picture]:
    """The picture with places for its atoms: as it is where it has them, else by RDKit, else None.

    Examples
    --------
    >>> laid_out(Picture(("C", "O"), ((0.0, 0.0), (1.4, 0.0)), ((1, 2, 1, 0, 0),))).places[1]
    (1.4, 0.0)
    """
    if picture.lies_apart:
        return picture
    try:
        from rdkit import Chem
        from rdkit.Chem import rdDepictor
    except ImportError:
        return None
    mol = Chem.RWMol()
    for symbol in picture.symbols:
        # no element stands at a site or a list
        mol.AddAtom(Chem.Atom({"D": "H", "T": "H"}.get(symbol, symbol) if symbol in KNOWN else 0))
    kinds = {2: Chem.BondType.DOUBLE, 3: Chem.BondType.TRIPLE}
    for first, second, kind, _, _ in picture.bonds:
        mol.AddBond(first - 1, second - 1, kinds.get(kind, Chem.BondType.SINGLE))
    flat = mol.GetMol()
    flat.UpdatePropertyCache(False)
    Chem.FastFindRings(flat)
    rdDepictor.Compute2DCoords(flat)
    conformer = flat.GetConformer()
    found = [conformer.GetAtomPosition(n) for n in range(len(picture.symbols))]
    return replace(picture, places=tuple((place.x, place.y) for place in found))


# ---- colours ----


def hue_of(group: int) -> int:
    """The hue, in degrees, of a group's label; of 0 that of the root.

    Examples
    --------
    >>> hue_of(0), hue_of(1), hue_of(10)
    (205, 35, 35)
    """
    return GROUP_HUES[(group - 1) % len(GROUP_HUES)] if group else ROOT_HUE


def _halo(hue: int) -> str:
    saturation = 0.08 if hue == LINK_HUE else 0.78
    red, green, blue = colorsys.hls_to_rgb((220 if hue == LINK_HUE else hue) / 360, 0.83, saturation)
    return f"#{round(255 * red):02x}{round(255 * green):02x}{round(255 * blue):02x}"


INK, QUIET, PAPER = "#1d2329", "#57616b", "#ffffff"
ELEMENT_INKS = {
    "N": "#16369e", "O": "#94140b", "S": "#5c4700", "P": "#763705",
    "F": "#0f4f1e", "Cl": "#0f4f1e", "Br": "#0f4f1e", "I": "#0f4f1e",
}
FONT = "font-family=\"Helvetica Neue,Arial,Liberation Sans,DejaVu Sans,sans-serif\""


# ---- the drawing: hits.js has the same steps for a browser ----


@dataclass
class _Placed:
    symbol: str
    x: float
    y: float
    near: List[int]
    hydrogens: int
    text: str = ""
    left: float = 0.0
    right: float = 0.0
    anchor: str = "middle"
    points: List[float] = field(default_factory=list)


WIDTHS = {"i": 3, "l": 3, "r": 4.6, "f": 4, "t": 4, "j": 3, "I": 4, ",": 3.6, " ": 3.6, "m": 11, "M": 11, "W": 12, "w": 10}


def _width(text: str) -> float:
    return sum(WIDTHS.get(c, 9.2 if "A" <= c <= "Z" else 7.2) for c in text)


def _free_way(ways: Sequence[float]) -> float:
    """The middle of the widest gap between the bonds of an atom, as an angle; of one bond the zigzag."""
    if not ways:
        return 0.0
    if len(ways) == 1:
        return ways[0] + 2 * math.pi / 3
    return _widest(ways)


def _widest(ways: Sequence[float]) -> float:
    if not ways:
        return math.pi / 2
    around = sorted(math.remainder(way, 2 * math.pi) for way in ways)
    best, most = 0.0, -1.0
    for n, way in enumerate(around):
        gap = (around[n + 1] if n + 1 < len(around) else around[0] + 2 * math.pi) - way
        if gap > most + 0.01:
            best, most = way + gap / 2, gap
    return best


class _Sheet:
    """The pieces of a drawing and the room that they take."""

    def __init__(self) -> None:
        self.halos: List[str] = []
        self.lines: List[str] = []
        self.labels: List[str] = []
        self.x0 = self.y0 = 1e9
        self.x1 = self.y1 = -1e9

    def cover(self, x: float, y: float, w: float = 5.0, h: float = 5.0) -> None:
        self.x0, self.x1 = min(self.x0, x - w), max(self.x1, x + w)
        self.y0, self.y1 = min(self.y0, y - h), max(self.y1, y + h)

    def line(self, p: Tuple[float, float], q: Tuple[float, float], dashed: bool = False) -> None:
        more = ' stroke-dasharray="3.2 3.2"' if dashed else ' stroke-linecap="round"'
        self.lines.append(
            f'<line x1="{p[0]:.1f}" y1="{p[1]:.1f}" x2="{q[0]:.1f}" y2="{q[1]:.1f}" stroke="{INK}" stroke-width="1.5"{more}/>'
        )

    def text(self, said: str, x: float, y: float, anchor: str = "middle", size: float = 13, ink: str = INK, more: str = "") -> None:
        self.labels.append(
            f'<text x="{x:.1f}" y="{y:.1f}" text-anchor="{anchor}" font-size="{size}" fill="{ink}" {FONT}{more}>{said}</text>'
        )


def _bonds_and_atoms(
    picture: Picture, long: float, mapped: Mapping[int, int]
) -> Tuple[List[_Placed], List[Tuple[int, int, int, int, int]], Dict[int, int]]:
    """The atoms in pixels, the bonds by places from 0, and the place of each number, hydrogens that a hit lies on among them."""
    lengths = sorted(
        length
        for first, second, _, _, _ in picture.bonds
        for length in [math.dist(picture.places[first - 1], picture.places[second - 1])]
        if length > 0
    )
    scale = long / (lengths[len(lengths) // 2] if lengths else 1.5)
    atoms = [
        _Placed(symbol, x * scale, -y * scale, [], picture.added[n] if picture.added else picture.shown.get(n + 1, 0))
        for n, (symbol, (x, y)) in enumerate(zip(picture.symbols, picture.places))
    ]
    bonds = [(a - 1, b - 1, kind, stereo, topology) for a, b, kind, stereo, topology in picture.bonds]
    for a, b, _, _, _ in bonds:
        atoms[a].near.append(b)
        atoms[b].near.append(a)
    where = {n: n - 1 for n in range(1, len(atoms) + 1)}
    number = len(atoms)
    for n, count in enumerate(picture.added):
        for _ in range(count):
            number += 1
            if number in mapped:
                way = _free_way(_ways(atoms, n))
                where[number] = len(atoms)
                bonds.append((n, len(atoms), 1, 0, 0))
                reach = 0.82 * BOND
                atoms.append(_Placed("H", atoms[n].x + reach * math.cos(way), atoms[n].y + reach * math.sin(way), [n], 0))
                atoms[n].near.append(len(atoms) - 1)
                atoms[n].hydrogens -= 1
    return atoms, bonds, where


def _ways(atoms: Sequence[_Placed], n: int) -> List[float]:
    return [math.atan2(atoms[other].y - atoms[n].y, atoms[other].x - atoms[n].x) for other in atoms[n].near]


def _ring_centre(atoms: Sequence[_Placed], a: int, b: int) -> Optional[Tuple[float, float]]:
    """The centre of a smallest ring through a bond, or nothing."""
    came, front = {a: -1}, [a]
    for _ in range(7):
        following: List[int] = []
        for x in front:
            for y in atoms[x].near:
                if (x == a and y == b) or y in came:
                    continue
                came[y] = x
                if y == b:
                    ring, at = [], b
                    while at != -1:
                        ring.append(atoms[at])
                        at = came[at]
                    return sum(atom.x for atom in ring) / len(ring), sum(atom.y for atom in ring) / len(ring)
                following.append(y)
        front = following
    return None


def _place_labels(picture: Picture, atoms: Sequence[_Placed]) -> None:
    """Gives each atom its label with its room, and the ways of its attachment points."""
    said = set(picture.charges) | set(picture.radicals) | set(picture.masses) | set(picture.shown)
    for n, atom in enumerate(atoms):
        number = n + 1
        ways = _ways(atoms, n)
        for _ in [point for point, at in sorted(picture.points.items()) if at == number]:
            atom.points.append(_free_way(ways + atom.points) if ways else 0.0 if atom.points else math.pi)
        around = ways + atom.points
        is_bare = atom.symbol == "C" and around and number not in said and not (number in picture.notes and not atom.near)
        atom.text = "" if is_bare else atom.symbol
        if not atom.text:
            continue
        whole, first = _width(atom.text), _width(atom.text.split(",")[0]) / 2
        atom.left = atom.right = whole / 2
        if len(around) == 1 and "," in atom.text:
            if math.cos(around[0]) > 0.3:
                atom.anchor, atom.left, atom.right = "end", whole - first, first
            else:
                atom.anchor, atom.left, atom.right = "start", first, whole - first


def _covered(atom: _Placed, dx: float, dy: float) -> float:
    """How much of a bond that leaves an atom in a direction lies under its label."""
    if not atom.text:
        return 0.0
    side = (atom.right if dx > 0 else atom.left) + 2.5
    return min(side / (abs(dx) or 1e-9), HALF_HEIGHT / (abs(dy) or 1e-9))


def _ended(atom: _Placed, dx: float, dy: float, other: Optional[_Placed] = None) -> Tuple[float, float]:
    """Where a bond that leaves an atom in a direction comes out of its label; of a short bond between two labels a piece is left."""
    length = math.hypot(dx, dy) or 1.0
    room = (length - 4) / length if atom.anchor != "middle" else 0.88 - (_covered(other, -dx, -dy) if other else 0.0)
    t = min(_covered(atom, dx, dy), max(0.45, room))
    return atom.x + dx * t, atom.y + dy * t


def _draw_bond(sheet: _Sheet, atoms: Sequence[_Placed], bond: Tuple[int, int, int, int, int], has_notes: bool) -> None:
    a, b, kind, stereo, topology = bond
    first, second = atoms[a], atoms[b]
    dx, dy = second.x - first.x, second.y - first.y
    d = math.hypot(dx, dy) or 1.0
    ux, uy = dx / d, dy / d
    nx, ny = -uy, ux
    p, q = _ended(first, dx, dy, second), _ended(second, -dx, -dy, first)

    def aside(off: float, back: float = 0.0) -> Tuple[Tuple[float, float], Tuple[float, float]]:
        one, other = (0.0 if first.text else back), (0.0 if second.text else back)
        return (
            (p[0] + nx * off + ux * one, p[1] + ny * off + uy * one),
            (q[0] + nx * off - ux * other, q[1] + ny * off - uy * other),
        )

    def lean(atom: _Placed, other: int) -> float:
        return sum(
            math.copysign(1, turn)
            for n in atom.near
            if n != other
            for turn in [(atoms[n].x - first.x) * nx + (atoms[n].y - first.y) * ny]
            if turn
        )

    side = 0.0
    if kind in (2, 4, 5, 7):
        centre = _ring_centre(atoms, a, b)
        if centre:
            side = 1.0 if (centre[0] - first.x) * nx + (centre[1] - first.y) * ny > 0 else -1.0
        elif len(first.near) > 1 and len(second.near) > 1:
            side = math.copysign(1, (lean(first, b) + lean(second, a)) or 1)
        elif len(first.near) + len(second.near) == 3 and not first.text and not second.text:
            side = math.copysign(1, (lean(first, b) if len(first.near) > 1 else lean(second, a)) or 1)
    dashed, second_dashed = kind in (5, 6, 8), kind in (4, 5, 7)
    if kind == 1 and stereo == 1:
        sheet.lines.append(
            f'<path d="M{p[0]:.1f} {p[1]:.1f}L{q[0] + nx * 3.2:.1f} {q[1] + ny * 3.2:.1f}'
            f'L{q[0] - nx * 3.2:.1f} {q[1] - ny * 3.2:.1f}Z" fill="{INK}"/>'
        )
    elif kind == 1 and stereo == 6:
        for k in range(1, 7):
            x, y, w = p[0] + (q[0] - p[0]) * k / 6, p[1] + (q[1] - p[1]) * k / 6, 3.4 * k / 6
            sheet.line((x + nx * w, y + ny * w), (x - nx * w, y - ny * w))
    elif kind == 3:
        sheet.line(p, q)
        sheet.line(*aside(3.8, 3))
        sheet.line(*aside(-3.8, 3))
    elif kind in (2, 4, 5, 7):
        if side:
            sheet.line(p, q, dashed)
            sheet.line(*aside(side * GAP, 4), second_dashed)
        else:
            sheet.line(*aside(GAP / 2), dashed)
            sheet.line(*aside(-GAP / 2), second_dashed)
    else:
        sheet.line(p, q, dashed)
    words = [word for word in (BOND_NOTES.get(kind), TOPOLOGY_NOTES.get(topology)) if word] if has_notes else []
    if words:
        said, away = " ".join(words), -side or 1.0
        off = 7 + abs(nx) * len(said) * 2.6
        x, y = (p[0] + q[0]) / 2 + nx * away * off, (p[1] + q[1]) / 2 + ny * away * off
        sheet.text(escape(said), x, y + 3, size=9.5, ink=QUIET)
        sheet.cover(x, y, len(said) * 2.7, 7)


SIDES = {"right": 0.0, "left": math.pi, "up": -math.pi / 2, "down": math.pi / 2}


def _open_side(ways: Sequence[float]) -> str:
    """The side of a label on which its hydrogens stand: right or left where there is room, else above or below."""
    room = {
        side: min((abs(math.remainder(way - at, 2 * math.pi)) for way in ways), default=math.pi) for side, at in SIDES.items()
    }
    beside = "left" if room["left"] > room["right"] + 0.01 else "right"
    if room[beside] > 1.3:
        return beside
    return max(SIDES, key=lambda side: (round(room[side], 2), side == "up"))


def _draw_label(sheet: _Sheet, picture: Picture, atom: _Placed, number: int, ways: Sequence[float]) -> None:
    ink = ELEMENT_INKS.get(atom.text, INK)
    x, y = atom.x, atom.y
    at = {"middle": x, "start": x - atom.left, "end": x + atom.right}[atom.anchor]
    sheet.text(escape(atom.text), at, y + 4.6, atom.anchor, ink=ink, more=' font-weight="700"' if number in picture.sites else "")
    lean_x = sum(math.cos(way) for way in ways)
    left, right, side = x - atom.left, x + atom.right, ""
    count = max(0, atom.hydrogens)
    if count:
        side = _open_side(ways)
        low = f'<tspan font-size="9.5" dy="3">{count}</tspan>' if count > 1 else ""
        wide = 9.6 + (5.6 if count > 1 else 0)
        if side == "right":
            sheet.text(f"H{low}", right, y + 4.6, "start", ink=ink)
            right += wide
        elif side == "left":
            sheet.text(f"H{low}", left, y + 4.6, "end", ink=ink)
            left -= wide
        else:
            yy = y + 4.6 + (-13 if side == "up" else 13)
            sheet.text(f"H{low}", x, yy, ink=ink)
            sheet.cover(x, yy - 4, 9, 9)
        sheet.cover((left + right) / 2, y, (right - left) / 2 + 2, 8)
    radical = picture.radicals.get(number, 0)
    charge = _signed(picture.charges.get(number, 0)) + ("\u2022" if radical == 2 else "\u2022\u2022" if radical else "")
    if charge:
        is_left = lean_x > 0.5 and not side
        place = left - 0.5 if is_left else right + 0.5
        sheet.text(charge, place, y - 1.5, "end" if is_left else "start", 10, ink)
        sheet.cover(place + (-8 if is_left else 8), y - 3, 4, 8)
    if number in picture.masses:
        sheet.text(str(picture.masses[number]), x - atom.left - 0.5, y - 1.5, "end", 9, ink)
        sheet.cover(x - atom.left - 10, y, 4, 8)


def _draw_points(sheet: _Sheet, picture: Picture, atom: _Placed, number: int) -> None:
    """The attachment points of a member: a dashed bond to a dot, which no label covers."""
    names = [point for point, at in sorted(picture.points.items()) if at == number]
    for point, way in zip(names, atom.points):
        start = _ended(atom, 100 * math.cos(way), 100 * math.sin(way))
        far = max(0.8 * BOND, math.dist(start, (atom.x, atom.y)) + 14)
        end = atom.x + far * math.cos(way), atom.y + far * math.sin(way)
        sheet.line(start, end, True)
        sheet.labels.append(f'<circle class="point" cx="{end[0]:.1f}" cy="{end[1]:.1f}" r="2.6" fill="{INK}"/>')
        sheet.cover(*end, 6, 6)
        if len(picture.points) > 1:
            x, y = end[0] + 8 * math.cos(way), end[1] + 8 * math.sin(way)
            sheet.text(str(point), x, y + 3, size=9.5, ink=QUIET)
            sheet.cover(x, y)


def _draw_notes(sheet: _Sheet, atom: _Placed, notes: Sequence[str], ways: Sequence[float]) -> None:
    taken = [SIDES[_open_side(ways)]] if atom.text and atom.hydrogens > 0 else []
    way, said = _widest([*ways, *taken]), " ".join(notes)
    wide = len(said) * 5.4
    reach = (atom.right if math.cos(way) > 0 else atom.left) + 9
    x, y = atom.x + math.cos(way) * reach, atom.y + math.sin(way) * 14
    anchor = "start" if math.cos(way) > 0.3 else "end" if math.cos(way) < -0.3 else "middle"
    sheet.text(escape(said), x, y + 3, anchor, 9.5, QUIET)
    sheet.cover({"start": x + wide / 2, "end": x - wide / 2, "middle": x}[anchor], y, wide / 2 + 2, 7)


def _draw(picture: Picture, parts: Mapping[int, int], pairs: Sequence[Tuple[int, int]], hues: Mapping[int, int]) -> _Sheet:
    """A drawing; `parts` has the part of the claim at an atom's number, `hues` the hue of each part."""
    has_room = any("," in symbol for symbol in picture.symbols) or bool(picture.notes) or bool(picture.shown)
    has_room = has_room or any(bond[2] > 4 or bond[4] for bond in picture.bonds)
    atoms, bonds, where = _bonds_and_atoms(picture, WIDE_BOND if has_room and not picture.added else BOND, parts)
    _place_labels(picture, atoms)
    sheet = _Sheet()
    for a, b in pairs:
        if a in where and b in where:
            p, q = atoms[where[a]], atoms[where[b]]
            middle = (p.x + q.x) / 2, (p.y + q.y) / 2
            for end, number in ((p, a), (q, b)):
                sheet.halos.append(
                    f'<line x1="{end.x:.1f}" y1="{end.y:.1f}" x2="{middle[0]:.1f}" y2="{middle[1]:.1f}" '
                    f'stroke="{_halo(hues[parts[number]])}" stroke-width="15"/>'
                )
    for number, part in parts.items():
        if number in where:
            atom = atoms[where[number]]
            sheet.halos.append(
                f'<circle class="halo" cx="{atom.x:.1f}" cy="{atom.y:.1f}" r="{10.5 if atom.text else 8.5}" fill="{_halo(hues[part])}"/>'
            )
    for number, group in picture.sites.items():
        atom = atoms[number - 1]
        sheet.halos.append(f'<circle cx="{atom.x:.1f}" cy="{atom.y:.1f}" r="12" fill="{_halo(hue_of(group))}"/>')
    for bond in bonds:
        _draw_bond(sheet, atoms, bond, not picture.added)
    for n, atom in enumerate(atoms):
        sheet.cover(atom.x, atom.y, max(8, max(atom.left, atom.right) + 2), 8)
        ways = _ways(atoms, n) + atom.points
        if atom.text:
            _draw_label(sheet, picture, atom, n + 1, ways)
        _draw_points(sheet, picture, atom, n + 1)
        if n + 1 in picture.notes:
            _draw_notes(sheet, atom, picture.notes[n + 1], ways)
    if not atoms:
        sheet.cover(0, 0)
    return sheet


def _boxed(sheet: _Sheet, place: str, title: str) -> str:
    box = f"{sheet.x0 - 4:.1f} {sheet.y0 - 4:.1f} {sheet.x1 - sheet.x0 + 8:.1f} {sheet.y1 - sheet.y0 + 8:.1f}"
    named = f"<title>{escape(title)}</title>" if title else ""
    return f'<svg {place} viewBox="{box}">{named}{"".join(sheet.halos)}{"".join(sheet.lines)}{"".join(sheet.labels)}</svg>'


def _size(sheet: _Sheet) -> Tuple[float, float]:
    return sheet.x1 - sheet.x0 + 8, sheet.y1 - sheet.y0 + 8


def _whole(width: float, height: float, title: str, inside: str) -> str:
    size = f'width="{width:.0f}" height="{height:.0f}" viewBox="0 0 {width:.0f} {height:.0f}"'
    back = f'<rect width="{width:.0f}" height="{height:.0f}" rx="8" fill="{PAPER}"/>'
    head = f'<svg xmlns="http://www.w3.org/2000/svg" {size} role="img" aria-label="{escape(title, {chr(34): "&quot;"})}">'
    return f"{head}{back}{inside}</svg>"


def _words(said: str, x: float, y: float, size: float, ink: str, more: str = "") -> str:
    return f'<text x="{x:.1f}" y="{y:.1f}" text-anchor="middle" font-size="{size}" fill="{ink}" {FONT}{more}>{escape(said)}</text>'


def _undrawn(width: float, title: str) -> str:
    return _whole(width, 60, title, _words("Not drawn: no coordinates, and no RDKit here.", width / 2, 34, 12, QUIET))


def hit_svg(hit: Any, width: float = 340) -> str:
    """A hit as SVG text: the compound, with the atoms and bonds on which the claim lies marked by its parts.

    Parameters
    ----------
    hit : Hit
        What a search gave; its claim, choice, map and text are used.
    width : float
        How wide the drawing is, in pixels.

    Raises
    ------
    ValueError
        Where the hit's map and its claim or record don't go together.

    Examples
    --------
    >>> from types import SimpleNamespace
    >>> from markush.rgfile import read_query
    >>> DATA = EXAMPLES.parent / "crates" / "markush" / "data"
    >>> claim = SimpleNamespace(query=read_query((DATA / "claim.rgf").read_text()))
    >>> text = (DATA / "chloroanisole.mol").read_text()
    >>> hit = SimpleNamespace(claim=claim, text=text, record=1, name="4-chloroanisole", choice=(1,), map=(1, 2, 3, 4, 5, 6, 7))
    >>> hit_svg(hit).count('class="halo"')
    7
    """
    title = f"{hit.name or 'no name'}, record {hit.record}"
    made = expand(hit.claim.query, hit.choice)
    if len(hit.map) != len(made.atoms):
        raise ValueError(f"the hit in record {hit.record} has {len(hit.map)} atoms, and its choice asks for {len(made.atoms)}")
    picture = laid_out(record_picture(hit.text))
    if picture is None:
        return _undrawn(width, title)
    parts = dict(zip(hit.map, (atom.part for atom in made.atoms)))
    pairs = [(hit.map[bond.first - 1], hit.map[bond.second - 1]) for bond in made.bonds]
    sheet = _draw(picture, parts, pairs, _hues(made))
    wide, high = _size(sheet)
    scale = min(1.6, (width - 16) / wide)
    place = f'x="{(width - wide * scale) / 2:.1f}" y="8" width="{wide * scale:.1f}" height="{high * scale:.1f}"'
    return _whole(width, high * scale + 16, title, _boxed(sheet, place, title))


def _hues(made: Expansion) -> Dict[int, int]:
    hues = {n: hue_of(part.groups[0]) if part.groups else LINK_HUE for n, part in enumerate(made.parts)}
    return {-1: ROOT_HUE, **hues}


def plain_smiles(smiles: str) -> str:
    """A member's SMILES without the brackets that ask for its hydrogens, or for no more than is drawn.

    Examples
    --------
    >>> plain_smiles("*[CH2;Ds][CH]([CH3])[O-]")
    '*CC(C)[O-]'
    """
    return BRACKETS.sub(r"\1", smiles.replace(";Ds]", "]"))


def member_name(claim: Any, label: int, number: int, template: "Template") -> str:
    """What a member is called: its name in the claim, else its SMILES.

    Examples
    --------
    >>> from types import SimpleNamespace
    >>> from markush.rgfile import Atom, template
    >>> member_name(SimpleNamespace(names={(1, 2): "methyl"}), 1, 2, template("", [Atom(1, "C")], []))
    'methyl'
    """
    names: Mapping[Tuple[int, int], str] = getattr(claim, "names", None) or {}
    return names.get((label, number)) or template.name or plain_smiles(template.smiles)


def claim_svg(claim: Any, width: float = 720) -> str:
    """A claim as SVG text: its root, then a row for each group with as many members as have room.

    Parameters
    ----------
    claim : Claim
        The claim; its query and the names of its members are used.
    width : float
        How wide the drawing is, in pixels.

    Examples
    --------
    >>> from types import SimpleNamespace
    >>> from markush.rgfile import read_query
    >>> claim = SimpleNamespace(query=read_query((EXAMPLES / "phenoxy_acids" / "claim.rgf").read_text()))
    >>> svg = claim_svg(claim)
    >>> svg.startswith("<svg") and "R1" in svg and "R2" in svg
    True
    """
    query = claim.query
    title = query.title.strip() or "claim"
    pieces, y = [], 8.0
    root = laid_out(template_picture(query.root))
    if root is not None:
        sheet = _draw(root, {}, (), {})
        wide, high = _size(sheet)
        scale = min(1.3, (width - 16) / wide)
        place = f'x="8" y="{y:.1f}" width="{wide * scale:.1f}" height="{high * scale:.1f}"'
        pieces.append(_boxed(sheet, place, title))
        y += high * scale + 10
    for group in query.groups:
        pieces.append(f'<circle cx="20" cy="{y + 28:.1f}" r="15" fill="{_halo(hue_of(group.label))}"/>')
        pieces.append(_words(f"R{group.label}", 20, y + 32.5, 13, INK, ' font-weight="700"'))
        x = 48.0
        for number, member in enumerate(group.members, 1):
            name = member_name(claim, group.label, number, member)
            picture = laid_out(template_picture(member))
            sheet = _draw(picture, {}, (), {}) if picture else _Sheet()
            wide, high = _size(sheet) if picture else (60.0, 20.0)
            scale = min(0.85, 56 / high, 120 / wide)
            room = max(wide * scale, 6.0 * min(len(name), 14)) + 14
            left = len(group.members) - number + 1
            if x + room > width - (70 if left > 1 else 8):
                pieces.append(f'<text x="{x:.1f}" y="{y + 32:.1f}" font-size="12" fill="{QUIET}" {FONT}>+{left} more</text>')
                break
            if picture:
                left_edge, top = x + (room - wide * scale) / 2, y + 28 - high * scale / 2
                size = f'width="{wide * scale:.1f}" height="{high * scale:.1f}"'
                pieces.append(_boxed(sheet, f'x="{left_edge:.1f}" y="{top:.1f}" {size}', name))
            short = name if len(name) <= 14 else name[:13] + "\u2026"
            pieces.append(_words(short, x + room / 2, y + 68, 10, QUIET))
            x += room
        y += 78
    return _whole(width, y, title, "".join(pieces))
