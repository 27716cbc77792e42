"""Molecules that are drawn by chance, as records of SDfiles, and queries of a ring. The benches import it."""
import files

# How many bonds an element has room for.
ROOM = {"C": 4, "N": 3, "O": 2, "S": 2, "F": 1, "Cl": 1, "Br": 1, "H": 1}

SHORT_ITEMS = ["COMPOUND_ID", "MOLECULAR_WEIGHT", "XLOGP"]
LONG_ITEMS = SHORT_ITEMS + ["COMPLEXITY", "ACCEPTORS", "DONORS", "ROTATABLE", "FORMULA", "EXACT_MASS", "NAME", "AREA", "COUNT", "KEYS"]


class Molecule:
    """Atoms as symbols, bonds as first, second and type; the numbers count from 1."""

    def __init__(self, draw):
        self.draw, self.atoms, self.bonds = draw, [], []

    def atom(self, symbol):
        self.atoms.append(symbol)
        return len(self.atoms)

    def bond(self, first, second, kind):
        self.bonds.append((first, second, kind))

    def left(self, atom):
        """How many more bonds the atom has room for."""
        return ROOM[self.atoms[atom - 1]] - sum(kind for a, b, kind in self.bonds if atom in (a, b))

    def ring(self, size, flat):
        """A ring of carbons and perhaps a nitrogen, with double bonds at every second place where it is flat."""
        ring = [self.atom("N" if flat and self.draw.random() < 0.15 else "C") for _ in range(size)]
        for i, first in enumerate(ring):
            self.bond(first, ring[(i + 1) % size], 2 if flat and size == 6 and i % 2 == 0 else 1)
        return ring

    def fused(self, ring):
        """A flat ring at a double bond of a ring that is flat."""
        ring = ring[:2] + [self.atom("C") for _ in range(4)]
        for i in range(1, 6):
            self.bond(ring[i], ring[(i + 1) % 6], 2 if i % 2 == 0 else 1)

    def grow(self, heavy):
        """Rings, links between them, and chains, up to so many atoms."""
        self.fused(self.ring(6, True))
        while len(self.atoms) + 8 <= heavy:
            at = self.free()
            if self.draw.random() < 0.5:
                link = self.atom(self.draw.choice("CNO"))
                self.bond(at, link, 1)
                at = link
            self.bond(at, self.ring(self.draw.choice((5, 6, 6)), self.draw.random() < 0.6)[0], 1)
        while len(self.atoms) < heavy:
            at, symbol = self.free(), self.draw.choice(("C", "C", "C", "N", "O", "O", "F", "Cl", "S"))
            double = symbol == "O" and self.left(at) >= 2 and self.draw.random() < 0.6
            self.bond(at, self.atom(symbol), 2 if double else 1)

    def free(self):
        return self.draw.choice([a for a in range(1, len(self.atoms) + 1) if self.left(a) > 0])

    def hydrogens(self):
        for heavy in range(1, len(self.atoms) + 1):
            for _ in range(self.left(heavy)):
                self.bond(heavy, self.atom("H"), 1)

    def placed(self, *columns):
        """Its atoms with drawn places."""
        return [files.Atom(symbol, columns, (self.draw.uniform(0, 12), self.draw.uniform(-6, 6), 0)) for symbol in self.atoms]

    def table(self):
        return files.table(self.placed(*[0] * 11), [(*bond, 0, 0, 0, 0) for bond in self.bonds], counts=files.PUBCHEM)

    def table_v3000(self, downwards=False):
        """The same molecule as a V3000 table, whose atoms are counted from 1 on, or from their number down to 1."""
        return files.table_v3000(self.placed(), self.bonds, downwards)


def record(table, number, items=()):
    return files.text(files.record(table, number, "  bench   09152613552D", items=items))


def drawn_record(draw, number, drawn=False, v3000=False):
    """A record of 25 to 30 heavy atoms, with hydrogens drawn or not, and its data items; its table is V2000, or V3000."""
    molecule = Molecule(draw)
    molecule.grow(draw.randint(25, 30))
    if drawn:
        molecule.hydrogens()
    table = molecule.table_v3000() if v3000 else molecule.table()
    items = []
    for item in LONG_ITEMS if drawn else SHORT_ITEMS:
        items.append((item, "".join(draw.choice("abcdefgh-12345") for _ in range(60)) if item in ("NAME", "KEYS") else draw.randint(1, 10**6)))
    return record(table, number, items)


# ---- queries

# A six-ring of carbons with double bonds at every second place.
SIX = [(1, 2, 2), (2, 3, 1), (3, 4, 2), (4, 5, 1), (5, 6, 2), (1, 6, 1)]


def table(symbols, bonds, lines=()):
    """A table of symbols, bonds as first, second and type, and property lines."""
    return files.table(symbols, [(*bond, 0) for bond in bonds], lines)


def molfile(symbols, bonds):
    return files.text(files.molfile(table(symbols, bonds)))


def ring(*atoms, lines=()):
    """The ring with a site at each of these atoms, which holds one of six elements."""
    sites = list(enumerate(atoms, 7))
    bonds = SIX + [(atom, site, 1) for site, atom in sites]
    root = table(["C"] * 6 + ["R#"] * len(sites), bonds, [*files.entries("RGP", [(site, 1) for site, _ in sites]), *lines])
    members = [table([symbol], [], files.entries("APO", [(1, 1)])) for symbol in ("C", "N", "O", "F", "S", "Cl")]
    return files.text(files.rgfile(root, {1: members}, "$MDL", 3))


def opposite():
    """The ring with two sites opposite each other, of which each may stay unfilled."""
    return ring(1, 4, lines=[files.logic(1, "0-2")])
