"""Claims that are hard to search, each with a molecule: many sites, labels, members, links, and logic that few codes meet or none.

`CLAIMS` has for each its name and a function that gives the molecule, as its atoms' symbols and its bonds, and the text of the claim.
checks/budgets and bench/turns import it.
"""
import itertools

import files
from files import entries, link, logic, short_table

# ---- files


def molfile(atoms, bonds, lines=()):
    """A molfile of these symbols, of bonds with their two ends and a type, else a single one, and of property lines."""
    return files.text(files.molfile(short_table(atoms, bonds, lines)))


def member(atoms, bonds=(), lines=()):
    """A member that is joined on by its first atom."""
    return short_table(atoms, bonds, [*lines, *entries("APO", [(1, 1)])])


def claim(root, groups):
    """An RGfile: a root, and by their numbers groups with their members."""
    return files.text(files.rgfile(root, groups, width=3))


# ---- molecules, and roots of claims


def chain(symbol, n):
    return [symbol] * n, [(i, i + 1) for i in range(1, n)]


def ring(symbol, n):
    return [symbol] * n, [(min(i, i % n + 1), max(i, i % n + 1)) for i in range(1, n + 1)]


def grid(rows, columns):
    bonds = [(r * columns + c + 1, r * columns + c + 2) for r in range(rows) for c in range(columns - 1)]
    bonds += [(r * columns + c + 1, (r + 1) * columns + c + 1) for r in range(rows - 1) for c in range(columns)]
    return ["C"] * (rows * columns), sorted(bonds)


def comb(n):
    """A chain of n carbons, each of which bears one more."""
    return bearing(*chain("C", n), ["C"] * n)


def cage(n):
    """Two rings of n carbons, one above the other, with rungs between them."""
    rim = [(i, i % n + 1) for i in range(1, n + 1)]
    both = rim + [(a + n, b + n) for a, b in rim] + [(i, i + n) for i in range(1, n + 1)]
    return ["C"] * (2 * n), sorted((min(b), max(b)) for b in both)


def layers(count, size):
    """Layers of so many atoms each, with a bond between every two atoms of different layers: any count of atoms that are all bonded to each
    other lie in as many layers."""
    pairs = itertools.combinations(range(1, count * size + 1), 2)
    return ["C"] * (count * size), [(a, b) for a, b in pairs if (a - 1) // size != (b - 1) // size]


def complete(n):
    """Atoms that are all bonded to each other, by bonds of any type."""
    return ["A"] * n, [(a, b, 8) for a, b in itertools.combinations(range(1, n + 1), 2)]


def bearing(atoms, bonds, *borne):
    """What is borne, a symbol for each of the first atoms, or None: each list of them in turn."""
    atoms, bonds = list(atoms), list(bonds)
    for symbols in borne:
        for at, symbol in enumerate(symbols, 1):
            if symbol:
                atoms.append(symbol)
                bonds.append((at, len(atoms)))
    return atoms, sorted(bonds)


def apart(*parts):
    """Parts of one drawing with no bond between them."""
    atoms, bonds = [], []
    for some, joined in parts:
        bonds += [(a + len(atoms), b + len(atoms), *kind) for a, b, *kind in joined]
        atoms += some
    return atoms, bonds


def sites(drawing, groups, lines=()):
    """The root of a drawing, whose sites all bear these labels."""
    atoms, bonds = drawing
    pairs = [(at, group) for at, symbol in enumerate(atoms, 1) if symbol == "R#" for group in groups]
    return short_table(atoms, bonds, [*entries("RGP", pairs), *lines])


# ---- claims

TEN = ["F", "Cl", "Br", "I", "O", "N", "S", "P", "B", "Si"]
FLUORINE = [member(["F"])]


def six_labels(n):
    """A ring of n carbons with a site each, which bears R1 to R6 of ten atoms each. One carbon of the molecule's ring bears nothing."""
    root = sites(bearing(*ring("C", n), ["R#"] * n), range(1, 7))
    return bearing(*ring("C", n), [*(TEN * 2)[:n - 1], None]), claim(root, {group: [member([s]) for s in TEN] for group in range(1, 7)})


def two_of_32():
    """Two groups that stand 32 times each, at 62 places that bear both labels."""
    root = sites(bearing(*chain("C", 31), ["R#"] * 31, ["R#"] * 31), (2, 3), [logic(2, "32"), logic(3, "32")])
    return bearing(*chain("C", 31), ["F"] * 31, ["Cl"] * 31), claim(root, {2: FLUORINE, 3: [member(["Cl"])]})


def four_and_five():
    """Eight sites of R1, four of them filled, and in each member a site of R2, five of them filled."""
    root = sites(bearing(*ring("C", 8), ["R#"] * 8), (1,), [logic(1, "4"), logic(2, "5")])
    bearers = [member([s, "R#"], [(1, 2)], entries("RGP", [(2, 2)])) for s in ("C", "N", "O", "S", "P", "B", "Si", "Se")]
    atoms, bonds = bearing(*ring("C", 8), ["C"] * 8)
    return (atoms + ["F"] * 8, bonds + [(at, at + 8) for at in range(9, 17)]), claim(root, {1: bearers, 2: [member([s]) for s in TEN]})


def hundred_sites(lines):
    """A chain of a hundred carbons with a site each, which bears 32 labels of one fluorine each."""
    root = sites(bearing(*chain("C", 100), ["R#"] * 100), range(1, 33), lines)
    return bearing(*chain("C", 100), ["F"] * 100), claim(root, {group: FLUORINE for group in range(1, 33)})


def no_twelve():
    """A carbon with 16 sites, and twelve atoms that are all bonded to each other: of 22 carbons each is bonded to all but one other."""
    root = sites(apart(complete(12), bearing(["C"], [], *(["R#"] for _ in range(16)))), (1,))
    return apart(layers(11, 2), bearing(["C"], [], *(["F"] for _ in range(17)))), claim(root, {1: FLUORINE})


def no_six(members):
    """Six atoms that are all bonded to each other, one of them with a site: of 25 carbons in five layers no six are so."""
    root = sites(bearing(*complete(6), ["R#"]), (1,))
    return apart(layers(5, 5), (["F"], [])), claim(root, {1: FLUORINE * members})


def many_members():
    """A chain of a hundred carbons with a site each, of 4,096 members that aren't there."""
    root = sites(bearing(*chain("C", 100), ["R#"] * 100), (1,))
    return chain("C", 120), claim(root, {1: FLUORINE * 4096})


def two_hundred_sites():
    """A chain of a hundred carbons with two sites each, of 4,096 members that aren't there."""
    root = sites(bearing(*chain("C", 100), ["R#"] * 100, ["R#"] * 100), (1,))
    return chain("C", 120), claim(root, {1: FLUORINE * 4096})


def nested():
    """One site, whose member bears a further one."""
    root = sites((["C", "R#"], [(1, 2)]), (1,))
    return chain("C", 3), claim(root, {1: [member(["C", "R#"], [(1, 2)], entries("RGP", [(2, 2)]))], 2: [member(["C"])]})


def not_asked():
    """Of R1 there is one or none, and where there is one, five of R2: one site of each, both unfilled."""
    root = short_table(["C", "R#", "R#"], [(1, 2), (1, 3)], [*entries("RGP", [(2, 1), (3, 2)]), logic(1, "0-1", 2), logic(2, "5")])
    return (["C"], []), claim(root, {1: FLUORINE, 2: [member(["Cl"])]})


def links():
    """Twenty links of up to ten carbons in a row between two bromines, which are farther from each other in the molecule."""
    lines = [link(at, 10, at - 1, at + 1) for at in range(3, 42, 2)]
    atoms, bonds = chain("C", 43)
    longer = chain("C", 250)
    return (["Br", *longer[0][1:-1], "Br"], longer[1]), molfile(["Br", *atoms[1:-1], "Br"], bonds, lines)


CLAIMS = [
    *((f"six labels on a ring of {n}", lambda n=n: six_labels(n)) for n in (5, 6, 8)),
    ("R2 and R3 32 times each on 62 places", two_of_32),
    ("eight sites of R1 with R2 in each member, R1 four times and R2 five times", four_and_five),
    ("a circle of 32 THEN over 100 sites of 32 labels, four times each", lambda: hundred_sites([logic(group, "4", group % 32 + 1) for group in range(1, 33)])),
    ("the same without THEN", lambda: hundred_sites([logic(group, "4") for group in range(1, 33)])),
    ("the same, three times each", lambda: hundred_sites([logic(group, "3") for group in range(1, 33)])),
    ("16 sites beside twelve atoms that aren't there", no_twelve),
    ("a site of one member at six atoms that aren't there", lambda: no_six(1)),
    ("a site of 4,096 members at six atoms that aren't there", lambda: no_six(4096)),
    ("100 sites of 4,096 members on 100 carbons", many_members),
    ("200 sites of 4,096 members on 100 carbons", two_hundred_sites),
    ("a site R1 whose member bears R2", nested),
    ("R1 0-1 THEN R2, and R2 five times", not_asked),
    ("20 links of up to ten", links),
]

# How a search for those that end soon ends: with these hits.
ENDS = {
    "eight sites of R1 with R2 in each member, R1 four times and R2 five times": [],
    "a site of one member at six atoms that aren't there": [],
    "a site R1 whose member bears R2": ["hit 1 choice 1 1 map 1 2 3", "hit 1 choice 1 1 map 3 2 1"],
    "R1 0-1 THEN R2, and R2 five times": ["hit 1 choice 2 2 map 1"],
}
