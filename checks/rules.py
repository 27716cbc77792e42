"""The rules of docs/MEANING.md on molecules, tests and hits, once more and as plainly as they stand there.

`Table` is a connection table by the columns of docs/FORMAT.md, `Molecule` the filled molecule of one, and `Graph` what one asks. `hits` lists
what a graph has in a molecule by trying all lists of atoms in rising order; a list is left as soon as one of its atoms or bonds isn't taken.
Nothing here is fast, and nothing is taken from the program. The scripts beside it import it.
"""
import dataclasses

import files

SYMBOLS = """H He Li Be B C N O F Ne Na Mg Al Si P S Cl Ar K Ca Sc Ti V Cr Mn Fe Co Ni Cu Zn Ga Ge As Se Br Kr Rb Sr Y Zr Nb Mo Tc Ru Rh Pd Ag Cd
In Sn Sb Te I Xe Cs Ba La Ce Pr Nd Pm Sm Eu Gd Tb Dy Ho Er Tm Yb Lu Hf Ta W Re Os Ir Pt Au Hg Tl Pb Bi Po At Rn Fr Ra Ac Th Pa U Np Pu Am Cm Bk
Cf Es Fm Md No Lr Rf Db Sg Bh Hs Mt Ds Rg Cn Nh Fl Mc Lv Ts Og""".split()
ELEMENTS = {symbol: number for number, symbol in enumerate(SYMBOLS, 1)} | {"D": 1, "T": 1}

# by the charge and the symbol
VALENCES = {
    0: {"B": (3,), "C": (4,), "N": (3, 5), "O": (2,), "F": (1,), "Si": (4,), "P": (3, 5), "S": (2, 4, 6), "Cl": (1,), "As": (3, 5),
        "Se": (2, 4, 6), "Br": (1,), "I": (1,)},
    1: {"C": (3,), "N": (4,), "O": (3,), "P": (4,), "S": (3, 5)},
    -1: {"B": (4,), "C": (3,), "N": (2,), "O": (1,), "P": (2,), "S": (1,)},
}
# charge and radical by the number in the charge column
CHARGES = ((0, 0), (3, 0), (2, 0), (1, 0), (0, 2), (-1, 0), (-2, 0), (-3, 0))


def number(columns):
    return int(columns) if columns.strip() else 0


class Table:
    """A connection table: its atoms as symbol, charge, hydrogen and valence column, its bonds, atom-list lines and property lines."""

    def __init__(self, lines):
        lines = iter(lines)
        counts = next(lines)
        self.atoms, self.bonds, self.lists = [], [], []
        for _ in range(number(counts[:3])):
            line = next(lines)
            self.atoms.append((line[31:34].strip(), number(line[36:39]), number(line[42:45]), number(line[48:51])))
        for _ in range(number(counts[3:6])):
            line = next(lines)
            self.bonds.append((number(line[:3]), number(line[3:6]), number(line[6:9]), number(line[15:18])))
        for _ in range(number(counts[6:9])):
            line = next(lines)
            members = [SYMBOLS[int(line[11 + 4 * k : 14 + 4 * k]) - 1] for k in range(int(line[9]))]
            self.lists.append((number(line[:3]), line[4], members))
        self.properties = list(iter(lambda: next(lines), "M  END"))

    def entries(self, *words):
        """The atoms and values of all lines of these words, in order."""
        for line in self.properties:
            if line[:3] == "M  " and line[3:6] in words:
                for k in range(number(line[6:9])):
                    yield number(line[10 + 8 * k : 13 + 8 * k]), number(line[14 + 8 * k : 17 + 8 * k])

    def last(self, word):
        """What the last entry for each atom says."""
        return dict(self.entries(word))

    def charges(self):
        """Charge and radical of each atom, by rule 2 of "Filled molecules"."""
        if any(line[:6] in ("M  CHG", "M  RAD") for line in self.properties):
            charges, radicals = self.last("CHG"), self.last("RAD")
            return [(charges.get(n, 0), radicals.get(n, 0)) for n in range(1, len(self.atoms) + 1)]
        return [CHARGES[column] for _, column, _, _ in self.atoms]


# ---- bonds, as lists that begin with two atoms and a type


def is_ring_bond(bonds, place):
    """Whether the ends are joined by a way over other bonds."""
    start, end, *_ = bonds[place]
    seen, left = {start}, [start]
    while left:
        atom = left.pop()
        for b, (x, y, *_) in enumerate(bonds):
            if b != place and atom in (x, y) and x + y - atom not in seen:
                seen.add(x + y - atom)
                left.append(x + y - atom)
    return end in seen


def six_rings(bonds):
    """The places of the bonds of each ring of six distinct atoms, from its lowest atom on and in either direction."""
    near = {}
    for b, (x, y, *_) in enumerate(bonds):
        near.setdefault(x, []).append((y, b))
        near.setdefault(y, []).append((x, b))

    def longer(atoms, places):
        for other, b in near[atoms[-1]]:
            if len(atoms) == 6 and other == atoms[0]:
                yield [*places, b]
            elif len(atoms) < 6 and other > atoms[0] and other not in atoms:
                yield from longer([*atoms, other], [*places, b])

    for atom in near:
        yield from longer([atom], [])


def aromatic_set(bonds):
    """The places of the bonds in the least set that the rule on six-rings leaves as it is."""
    found = {b for b, (_, _, kind, *_) in enumerate(bonds) if kind == 4}
    rings, before = list(six_rings(bonds)), None
    while before != len(found):
        before = len(found)
        for ring in rings:
            for first in (1, 2):
                labels = [first, 3 - first] * 3
                if all(b in found or bonds[b][2] == label for b, label in zip(ring, labels)):
                    found.update(ring)
    return found


# ---- molecules


def added_hydrogens(symbol, charge, radical, mark, kinds):
    fours = kinds.count(4)
    total = sum(kind for kind in kinds if kind != 4) + (fours + 1 if fours >= 2 else fours)
    if mark:
        return max(0, (0 if mark == 15 else mark) - total)
    total += {0: 0, 1: 2, 2: 1, 3: 2}[radical]
    for valence in VALENCES.get(charge, {}).get(symbol, ()):
        if valence >= total:
            return valence - total
    return 0


class Molecule:
    """The filled molecule of a table. Atoms count from 1, and have an element, a charge and a radical; its bonds have their marks."""

    def __init__(self, table):
        self.atoms = [None, *((ELEMENTS[atom[0]], *both) for atom, both in zip(table.atoms, table.charges()))]
        self.bonds = [bond[:3] for bond in table.bonds]
        for n, ((symbol, _, _, mark), (charge, radical)) in enumerate(zip(table.atoms, table.charges()), 1):
            kinds = [kind for x, y, kind, _ in table.bonds if n in (x, y)]
            for _ in range(added_hydrogens(symbol, charge, radical, mark, kinds)):
                self.atoms.append((1, 0, 0))
                self.bonds.append((n, len(self.atoms) - 1, 1))
        self.rings = {b for b in range(len(self.bonds)) if is_ring_bond(self.bonds, b)}
        self.aromatic = aromatic_set(self.bonds)
        self.near = [{} for _ in self.atoms]
        for b, (x, y, _) in enumerate(self.bonds):
            self.near[x][y] = self.near[y][x] = b
        # of each atom: neighbours that are hydrogens, other neighbours, ring bonds, and whether it has a multiple or an aromatic bond
        self.hydrogens = [sum(self.is_hydrogen(y) for y in near) for near in self.near]
        self.others = [sum(not self.is_hydrogen(y) for y in near) for near in self.near]
        self.ring_bonds = [sum(b in self.rings for b in near.values()) for near in self.near]
        self.unsaturated = [any(b in self.aromatic or self.bonds[b][2] in (2, 3, 4) for b in near.values()) for near in self.near]

    def is_hydrogen(self, atom):
        return self.atoms[atom][0] == 1

    def plain_hydrogens(self, atom):
        """The hydrogens whose one bond leads to the atom and has type 1."""
        return [y for y, b in self.near[atom].items() if self.is_hydrogen(y) and len(self.near[y]) == 1 and self.bonds[b][2] == 1]


# ---- what is asked


@dataclasses.dataclass
class Asked:
    """What an atom of a graph asks: its symbol, or `L` with the symbols of a list; and the other columns."""

    symbol: str
    members: tuple = ()
    excluded: bool = False
    charge: int = 0
    radical: int = 0
    hydrogens: int = 0
    rings: int = 0
    others: int = 0
    unsaturated: bool = False
    free: int = 0

    def accepts(self, element):
        if self.symbol == "L":
            listed = element in (ELEMENTS[member] for member in self.members)
            return not listed and element != 1 if self.excluded else listed
        if self.symbol in ("A", "Q", "*"):
            return self.symbol == "*" or element not in ((1,) if self.symbol == "A" else (1, 6))
        return element == ELEMENTS[self.symbol]

    def is_hydrogen(self):
        return self.symbol in ("H", "D", "T")

    def is_plain(self):
        rest = (self.charge, self.radical, self.hydrogens, self.rings, self.others, self.unsaturated)
        return self.is_hydrogen() and not any(rest)


def asked_atoms(table):
    """What the atoms of a table ask, by "Tables of a query"."""
    rings, others, unsaturated = table.last("RBC"), table.last("SUB"), table.last("UNS")
    lists = {atom: (sense, members) for atom, sense, members in table.lists}
    for line in table.properties:
        if line[:6] == "M  ALS":
            members = [line[16 + 4 * k : 20 + 4 * k].strip() for k in range(number(line[10:13]))]
            lists[number(line[7:10])] = line[14], members
    found = []
    for n, ((symbol, _, hydrogens, _), both) in enumerate(zip(table.atoms, table.charges()), 1):
        sense, members = lists.get(n, ("F", ()))
        asked = Asked(symbol, tuple(members), sense == "T", *both, hydrogens)
        asked.rings, asked.others, asked.unsaturated = rings.get(n, 0), others.get(n, 0), unsaturated.get(n, 0) == 1
        found.append(asked)
    return found


class Graph:
    """Atoms that ask, which count from 1, and bonds of first, second, type and topology, with their marks."""

    def __init__(self, atoms, bonds):
        self.atoms, self.bonds = [None, *atoms], bonds
        self.rings = {b for b in range(len(bonds)) if is_ring_bond(bonds, b)}
        self.aromatic = aromatic_set(bonds)
        self.near = [{} for _ in self.atoms]
        for b, (x, y, *_) in enumerate(bonds):
            self.near[x][y] = self.near[y][x] = b
        # of each atom what is drawn at it
        self.drawn_hydrogens = [sum(self.atoms[y].is_hydrogen() for y in near) for near in self.near]
        self.drawn_others = [len(near) - hydrogens for near, hydrogens in zip(self.near, self.drawn_hydrogens)]
        self.drawn_rings = [sum(b in self.rings for b in near.values()) for near in self.near]

    def plain_hydrogens(self):
        """For each plain hydrogen the atom that it is on."""
        found = {}
        for h, asked in enumerate(self.atoms):
            if h and asked.is_plain() and len(self.near[h]) == 1:
                (x, b), = self.near[h].items()
                if self.bonds[b][2:] == (1, 0) and not self.atoms[x].is_hydrogen():
                    found[h] = x
        return found

    # ---- the tests

    def fits_atom(self, mol, x, atom):
        asked, (element, charge, radical) = self.atoms[x], mol.atoms[atom]
        return (
            asked.accepts(element)
            and asked.charge in (0, charge)
            and asked.radical in (0, radical)
            and self.fits_hydrogens(asked, x, mol.hydrogens[atom])
            and self.fits_rings(asked, x, mol.ring_bonds[atom])
            and self.fits_others(asked, x, mol.others[atom])
            and (not asked.unsaturated or mol.unsaturated[atom])
        )

    def fits_hydrogens(self, asked, x, count):
        drawn = self.drawn_hydrogens[x]
        if asked.hydrogens == 0:
            return True
        if asked.hydrogens == 1:
            return drawn <= count <= drawn + asked.free
        return count >= drawn + asked.hydrogens - 1

    def fits_rings(self, asked, x, count):
        return {0: True, -1: count == 0, -2: count == self.drawn_rings[x], 4: count >= 4}.get(asked.rings, count == asked.rings)

    def fits_others(self, asked, x, count):
        drawn = self.drawn_others[x]
        as_drawn = drawn <= count <= drawn + asked.free
        return {0: True, -1: count == 0, -2: as_drawn, 6: count >= 6}.get(asked.others, count == asked.others)

    def fits_bond(self, mol, place, b):
        """Whether the bond of the graph at a place is met by the bond of the molecule at place b."""
        _, _, kind, topology = self.bonds[place]
        if place in self.aromatic and kind in (1, 2):
            kind = 4
        aromatic, has = b in mol.aromatic, mol.bonds[b][2]
        single, double = has == 1 and not aromatic, has == 2 and not aromatic
        taken = {
            1: single, 2: double, 3: has == 3, 4: aromatic, 5: single or double, 6: single or aromatic, 7: double or aromatic, 8: True,
        }[kind]
        return taken and {0: True, 1: b in mol.rings, 2: b not in mol.rings}[topology]


# ---- hits


def embeddings(graph, mol):
    """All lists of distinct atoms, one for each atom of the graph, with every test met, in rising order."""
    size = len(graph.atoms) - 1
    fits = [None, *({a for a in range(1, len(mol.atoms)) if graph.fits_atom(mol, x, a)} for x in range(1, size + 1))]
    # the bonds that lead from an atom of the graph to earlier ones
    back = [[] for _ in graph.atoms]
    for place, (x, y, *_) in enumerate(graph.bonds):
        back[max(x, y)].append((min(x, y), place))

    def lies(images, x, atom):
        for y, place in back[x]:
            b = mol.near[images[y - 1]].get(atom)
            if b is None or not graph.fits_bond(mol, place, b):
                return False
        return True

    def longer(images):
        x = len(images) + 1
        if x > size:
            yield images
            return
        for atom in sorted(fits[x] - set(images)):
            if lies(images, x, atom):
                yield from longer([*images, atom])

    return longer([])


def hits(graph, mol):
    """The embeddings whose plain hydrogens take the first free ones, in order."""
    on = graph.plain_hydrogens()
    there = [mol.plain_hydrogens(atom) if atom else [] for atom in range(len(mol.atoms))]

    def is_hit(images):
        for h, x in on.items():
            if any(x == host and later > h and images[later - 1] < images[h - 1] for later, host in on.items()):
                return False
            plain = there[images[x - 1]]
            if images[h - 1] in plain and any(y < images[h - 1] and y not in images for y in plain):
                return False
        return True

    return filter(is_hit, embeddings(graph, mol))


# ---- texts


def asked_lines(atoms, bonds, more=(), valences=()):
    """The lines of a table of atoms that ask, with bonds of first, second, type and topology that count from 1, and perhaps a valence column
    for all."""
    words = {"CHG": "charge", "RAD": "radical", "RBC": "rings", "SUB": "others", "UNS": "unsaturated"}
    asks = []
    for n, asked in enumerate(atoms, 1):
        for word, field in words.items():
            if getattr(asked, field):
                asks += files.entries(word, [(n, int(getattr(asked, field)))])
        if asked.members:
            asks.append(files.list_of(n, asked.members, asked.excluded))
    drawn = [files.Atom(asked.symbol, (0, 0, asked.hydrogens, *valences)) for asked in atoms]
    return files.table(drawn, [(first, second, kind, 0, 0, topology) for first, second, kind, topology in bonds], [*asks, *more])
